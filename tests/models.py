"""Models and their canonical documents, written plainly.

A statement is a tuple (subject, predicate, object), so that the order of tuples is the order of
statements. A subject is (0, number of a UUID) or (1, name), a predicate (namespace, local name), an
object (0, text), (1, subject) or (2, IRI). Texts are bytes, sets of statements are Python sets.
"""
import re
import uuid
from dataclasses import dataclass, field

RDF = b"http://www.w3.org/1999/02/22-rdf-syntax-ns#"
MD = b"http://iec.ch/TC57/61970-552/ModelDescription/1#"
DM = b"http://iec.ch/TC57/61970-552/DifferenceModel/1#"
CIM = b"http://iec.ch/TC57/2013/CIM-schema-cim16#"
TYPE = (RDF, b"type")

MOST_DOCUMENT = 67_108_864
MOST_STATEMENTS, MOST_CHANGES = 1_048_576, 65_536
MOST_LITERAL, MOST_IRI = 65_536, 2_048
MOST_PROFILES, MOST_DEPENDS, MOST_SUPERSEDES = 64, 64, 4_160

# ---------------------------------------------------------------- names and values


def uuid_text(number: int) -> bytes:
    return str(uuid.UUID(int=number)).encode()


UUID = re.compile(rb"[0-9A-Fa-f]{8}(-[0-9A-Fa-f]{4}){3}-[0-9A-Fa-f]{12}")


def uuid_of(text: bytes):
    return int(text.replace(b"-", b""), 16) if UUID.fullmatch(text) else None


NAME = re.compile(rb"[A-Za-z_][A-Za-z0-9_.-]{0,127}")
SPACE = re.compile(rb"(?!#)[\x21-\x7e]{1,255}[#/]")


def is_predicate(ns: bytes, local: bytes) -> bool:
    return (SPACE.fullmatch(ns) is not None and NAME.fullmatch(local) is not None and ns not in (MD, DM)
            and (ns != RDF or local == b"type"))


def id_of(ident) -> bytes:
    """The text of the rdf:ID that names the resource."""
    return b"_" + uuid_text(ident[1]) if ident[0] == 0 else ident[1]


def ident_of_id(text: bytes):
    number = uuid_of(text[1:]) if text.startswith(b"_") else None
    if number is not None:
        return 0, number
    return (1, text) if NAME.fullmatch(text) else None


def ident_of_about(text: bytes):
    if text.startswith(b"urn:uuid:"):
        number = uuid_of(text[9:])
        return None if number is None else (0, number)
    return ident_of_id(text[1:]) if text.startswith(b"#") else None


def object_of_resource(text: bytes):
    ident = ident_of_about(text)
    if ident is not None:
        return 1, ident
    return None if text == b"" or text.startswith(b"#") else (2, text)


@dataclass
class Header:
    id: int
    created: bytes | None = None
    scenario_time: bytes | None = None
    version: bytes | None = None
    description: bytes | None = None
    authority: bytes | None = None
    profiles: list = field(default_factory=list)
    depends: list = field(default_factory=list)
    supersedes: list = field(default_factory=list)


@dataclass
class Full:
    header: Header
    statements: set


@dataclass
class Difference:
    header: Header
    pre: set = field(default_factory=set)
    rev: set = field(default_factory=set)
    fwd: set = field(default_factory=set)


# ---------------------------------------------------------------- the canonical document


def in_text(text: bytes) -> bytes:
    for byte, spelling in ((b"&", b"&amp;"), (b"<", b"&lt;"), (b">", b"&gt;"), (b"\r", b"&#13;")):
        text = text.replace(byte, spelling)
    return text


def in_attribute(text: bytes) -> bytes:
    text = in_text(text)
    for byte, spelling in ((b'"', b"&quot;"), (b"\n", b"&#10;"), (b"\t", b"&#9;")):
        text = text.replace(byte, spelling)
    return text


def class_of(statement):
    """The class that a statement gives its subject, where that can name an element."""
    _, predicate, obj = statement
    if predicate != TYPE or obj[0] != 2:
        return None
    end = max(obj[1].rfind(b"#"), obj[1].rfind(b"/")) + 1
    name = obj[1][:end], obj[1][end:]
    return name if is_predicate(*name) and name[0] != RDF else None


def groups_of(statements):
    """Each subject with its statements, in order."""
    groups: dict = {}
    for statement in sorted(statements):
        groups.setdefault(statement[0], []).append(statement)
    return groups.items()


def element_of(group):
    """The statement of the least type that can name an element, and its class."""
    for statement in group:
        name = class_of(statement)
        if name is not None:
            return statement, name
    return None, None


def prefixes_of(sections) -> dict:
    used = set()
    for statements in sections:
        for _, group in groups_of(statements):
            used |= {predicate[0] for _, predicate, _ in group}
            used |= {name[0] for name in [element_of(group)[1]] if name}
    prefixes, count = {}, 0
    for ns in sorted(used - {RDF}):
        if b"cim" not in prefixes.values() and ns.startswith(b"http://iec.ch/TC57/"):
            prefixes[ns] = b"cim"
        else:
            prefixes[ns] = None
    for ns, prefix in prefixes.items():
        if prefix is None:
            count += 1
            prefixes[ns] = b"n%d" % count
    return prefixes


def objects(statements, is_full: bool, prefixes: dict) -> bytes:
    prefixes = {**prefixes, RDF: b"rdf"}
    lines = []
    for subject, group in groups_of(statements):
        named_by, name = element_of(group)
        tag = prefixes[name[0]] + b":" + name[1] if name else b"rdf:Description"
        identity = b'rdf:ID="%s"' if is_full and name else b'rdf:about="#%s"'
        lines.append(b"<" + tag + b" " + identity % id_of(subject) + b">\n")
        for statement in group:
            if statement is named_by:
                continue
            _, (ns, local), (kind, value) = statement
            property_tag = prefixes[ns] + b":" + local
            if kind == 0:
                lines.append(b"<%s>%s</%s>\n" % (property_tag, in_text(value), property_tag))
            else:
                target = b"#" + id_of(value) if kind == 1 else in_attribute(value)
                lines.append(b'<%s rdf:resource="%s"/>\n' % (property_tag, target))
        lines.append(b"</" + tag + b">\n")
    return b"".join(lines)


def front(prefixes: dict, is_difference: bool) -> bytes:
    declared = [(b"rdf", RDF), (b"md", MD)] + [(b"dm", DM)] * is_difference + [(p, ns) for ns, p in prefixes.items()]
    return (b'<?xml version="1.0" encoding="UTF-8"?>\n<rdf:RDF'
            + b"".join(b' xmlns:%s="%s"' % (prefix, in_attribute(ns)) for prefix, ns in declared) + b">\n")


def header_lines(tag: bytes, header: Header) -> bytes:
    lines = [b'<%s rdf:about="urn:uuid:%s">\n' % (tag, uuid_text(header.id))]
    for name, text in ((b"created", header.created), (b"scenarioTime", header.scenario_time), (b"version", header.version),
                       (b"description", header.description), (b"modelingAuthoritySet", header.authority)):
        if text is not None:
            lines.append(b"<md:Model.%s>%s</md:Model.%s>\n" % (name, in_text(text), name))
    lines += [b"<md:Model.profile>%s</md:Model.profile>\n" % in_text(text) for text in sorted(set(header.profiles))]
    for name, ids in ((b"DependentOn", header.depends), (b"Supersedes", header.supersedes)):
        lines += [b'<md:Model.%s rdf:resource="urn:uuid:%s"/>\n' % (name, uuid_text(number)) for number in sorted(set(ids))]
    return b"".join(lines)


def canonical(model) -> bytes:
    if isinstance(model, Full):
        prefixes = prefixes_of([model.statements])
        return (front(prefixes, False) + header_lines(b"md:FullModel", model.header) + b"</md:FullModel>\n"
                + objects(model.statements, True, prefixes) + b"</rdf:RDF>\n")
    sections = [(b"preconditions", model.pre), (b"forwardDifferences", model.fwd), (b"reverseDifferences", model.rev)]
    prefixes = prefixes_of([statements for _, statements in sections])
    return (front(prefixes, True) + header_lines(b"dm:DifferenceModel", model.header)
            + b"".join(b'<dm:%s rdf:parseType="Statements">\n' % name + objects(statements, False, prefixes)
                       + b"</dm:%s>\n" % name for name, statements in sections)
            + b"</dm:DifferenceModel>\n</rdf:RDF>\n")

"""What Python's XML parser reads in documents: the same in an export as in its canonical document, and what the plain rules read.

So references, namespaces, identities, sections and header properties mean to another reader what they
mean here. Compared are models: the three spellings of a UUID are one resource, languages and
datatypes are dropped, and of a header the kept properties count, a literal by its last value.
"""
import xml.etree.ElementTree as ElementTree

import documents
import plain
from harness import TESTS, check, documents_in, finish, run
from models import DM, MD, RDF, TYPE, Difference, Full, Header, ident_of_about, ident_of_id, object_of_resource

EXAMPLES = TESTS.parent / "examples"
SECTIONS = {b"preconditions": "pre", b"reverseDifferences": "rev", b"forwardDifferences": "fwd"}


def name_of(tag: str):
    ns, _, local = tag[1:].partition("}")
    return ns.encode(), local.encode()


def attribute(element, name: str):
    value = element.get("{" + RDF.decode() + "}" + name)
    return None if value is None else value.encode()


def identity_of(element):
    ident = attribute(element, "ID")
    return ident_of_about(attribute(element, "about")) if ident is None else ident_of_id(ident)


def statements_of(elements) -> set:
    """The statements of RDF/XML's typed node elements with property elements."""
    found = set()
    for element in elements:
        subject, kind = identity_of(element), name_of(element.tag)
        if kind != (RDF, b"Description"):
            found.add((subject, TYPE, (2, b"".join(kind))))
        for line in element:
            target = attribute(line, "resource")
            obj = (0, (line.text or "").encode()) if target is None else object_of_resource(target)
            found.add((subject, name_of(line.tag), obj))
    return found


def header_of(element) -> Header:
    header = Header(identity_of(element)[1])
    for line in element:
        ns, local = name_of(line.tag)
        if ns == MD and local in documents.TEXTS:
            text, place = (line.text or "").encode(), documents.TEXTS[local]
            if place == "profiles":
                header.profiles.append(text)
            else:
                setattr(header, place, text)
        elif ns == MD and local in documents.LINKS:
            getattr(header, documents.LINKS[local]).append(object_of_resource(attribute(line, "resource"))[1][1])
    for place in ("profiles", "depends", "supersedes"):
        setattr(header, place, sorted(set(getattr(header, place))))
    return header


def model_of(document: bytes):
    root = ElementTree.fromstring(document)
    header = header_of(root[0])
    if name_of(root[0].tag) == (MD, b"FullModel"):
        return Full(header, statements_of(root[1:]))
    sections = {"pre": set(), "rev": set(), "fwd": set()}
    for element in root[0]:
        ns, local = name_of(element.tag)
        if ns == DM:
            sections[SECTIONS[local]] |= statements_of(element)
    return Difference(header, sections["pre"], sections["rev"], sections["fwd"])


streams = [(path, path.read_bytes()) for path in sorted(EXAMPLES.glob("*.session"))]
streams += [(path.parent, path.read_bytes()) for path in sorted((TESTS / "rows").glob("*/in"))
            if not (path.parent / "form").exists()]
count = 0
for path, given in streams:
    for document in documents_in(run(given)[0]):
        check(f"{path.name}, a document of {len(document)} bytes", documents.read(document), model_of(document))
        count += 1
check("there are assemblies", True, count > 8)

exports = [(path.name, path.read_bytes()) for path in sorted(EXAMPLES.glob("*.xml"))]
exports += [(path.parent.name, (path.parent / "in").read_bytes()) for path in sorted((TESTS / "rows").glob("*/form"))]
count = 0
for name, given in exports:
    written, status = run(given, ("canon",))
    if status == plain.DONE:
        check(f"{name} and its canonical document", model_of(given), model_of(written))
        count += 1
check("there are exports", True, count > 12)

finish()

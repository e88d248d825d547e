"""Documents of many names: 1,000 properties of different names in 300 namespaces, each with a prefix of its own, and more.

The program makes a name once and finds it again by its text, in a table with less room than there are names here. A name
that finds no place could be told as want of memory, which no contract ties to a cause: so it would be seen here alone.
"""
import random

import documents
import plain
from harness import check, finish, first_difference, run
from models import CIM, MD, RDF, TYPE, Full, Header, canonical, in_attribute, in_text, id_of

BASE_ID = 0x10000000_0000_4000_8000_000000000001
NAMESPACES = [b"http://example.org/n%d/" % i if i % 2 else b"http://example.org/%d#" % i for i in range(299)] + [CIM]
PREFIXES = {ns: b"p%d" % i for i, ns in enumerate(NAMESPACES)}
DRAWS = random.Random(7)


def subject(i: int):
    return (0, i) if i % 3 else (1, b"local-%d" % i)


def value(i: int):
    return [(0, b"text %d <&>" % i), (1, subject(i)), (2, b"http://example.org/it?a=%d&b" % i)][i % 3]


def model_of(names, uses: int) -> Full:
    """A model in which each name is used so often, once at a subject, so that it is asked for again after all others."""
    statements = {(subject(1 + use), name, value(i)) for use in range(uses) for i, name in enumerate(names)}
    types = {(subject(1 + use), TYPE, (2, NAMESPACES[use % len(NAMESPACES)] + b"Class%d" % use)) for use in range(uses)}
    return Full(Header(BASE_ID), statements | types)


# ---------------------------------------------------------------- spellings other than the canonical one


def declarations(namespaces) -> bytes:
    return b"".join(b' xmlns:%s="%s"' % (PREFIXES[ns], in_attribute(ns)) for ns in namespaces)


def property_of(name, obj, own: bytes) -> bytes:
    """A property with these declarations of its own."""
    tag = PREFIXES[name[0]] + b":" + name[1] if name[0] != RDF else b"rdf:" + name[1]
    if obj[0] == 0:
        return b"<%s%s>%s</%s>\n" % (tag, own, in_text(obj[1]), tag)
    target = b"#" + id_of(obj[1]) if obj[0] == 1 else in_attribute(obj[1])
    return b'<%s rdf:resource="%s"%s/>\n' % (tag, target, own)


def spelt(model: Full, at_root: bool) -> bytes:
    """The model with its statements in no order, its prefixes declared in one tag or at each property."""
    statements = sorted(model.statements)
    DRAWS.shuffle(statements)
    declared = [*NAMESPACES]
    DRAWS.shuffle(declared)
    lines = [b'<rdf:RDF xmlns:rdf="%s" xmlns:md="%s"%s>\n' % (RDF, MD, declarations(declared) if at_root else b""),
             b'<md:FullModel rdf:about="urn:uuid:10000000-0000-4000-8000-000000000001"/>\n']
    for owner, name, obj in statements:
        own = b"" if at_root or name[0] == RDF else declarations([name[0]])
        lines.append(b'<rdf:Description rdf:about="#%s">' % id_of(owner) + property_of(name, obj, own) + b"</rdf:Description>\n")
    return b"".join(lines) + b"</rdf:RDF>\n"


def check_document(name: str, model: Full, given: bytes) -> None:
    check(f"{name}: the plain rules read the model", True, documents.read(given) == model)
    written, status = run(given, ("canon",))
    check(f"canon of {name}", (None, plain.DONE), (first_difference(canonical(model), written), status))
    check(f"check of {name}", (b"full 10000000-0000-4000-8000-000000000001 %d\n" % len(model.statements), plain.DONE),
          run(given, ("check",)))


CASES = (
    ("1,000 names in 300 namespaces", [(NAMESPACES[i % 300], b"name_%d" % i) for i in range(1_000)], 3),
    ("one name in each of 300 namespaces", [(ns, b"name") for ns in NAMESPACES], 3),
    ("2,500 names in 300 namespaces", [(NAMESPACES[i % 300], b"IdentifiedObject.a%d" % (i * i)) for i in range(2_500)], 2),
)
for name, names, uses in CASES:
    model = model_of(names, uses)
    check(f"{name}: so many", (len(names), 300), (len(set(names)), len({ns for ns, _ in names})))
    check_document(f"{name}, declared in one tag", model, spelt(model, True))
    check_document(f"{name}, each declared where it is used", model, spelt(model, False))
    check_document(f"{name}, as they are written", model, canonical(model))

# The same documents with a fault behind all names: what was read before changes neither the place nor the code.
given = spelt(model_of(CASES[0][1], 2), True)
end = given.rindex(b"</rdf:RDF>")
for text, code in ((b'<p300:a rdf:about="#_x"/>', "prefix"), (b'<p7:A rdf:about="#_x" rdf:about="#_x"/>', "attribute"),
                   (b'<p7:A rdf:about="#-"/>', "identifier"), (b'<p7:A rdf:about="#a"><p8:a><p9:b/></p8:a></p7:A>', "nesting")):
    faulty = given[:end] + text + given[end:]
    wanted = b"fault %d %s\n" % (end + (text.index(b"<p9") if code == "nesting" else 0), code.encode())
    check(f"{code} behind 1,000 names, by the plain rules", (wanted, plain.REFUSED), documents.told(faulty))
    for form in ("canon", "check"):
        check(f"{form} of {code} behind 1,000 names", (wanted, plain.REFUSED), run(faulty, (form,)))

# Of 301 declarations in one tag one is there twice.
twice = given.replace(b"<rdf:RDF ", b'<rdf:RDF xmlns:p150="http://example.org/again#" ', 1)
check("a prefix declared twice among 300", (b"fault 0 attribute\n", plain.REFUSED), run(twice, ("check",)))

# A store whose base and projects have these names answers with them.
base, names = model_of(CASES[0][1], 3), CASES[0][1]
document = spelt(base, False)
stream = b"base %d\n" % len(document) + document + b"summary 2027-01-01\nassemble 2027-01-01\nobject 2027-01-01 #_%s\nlog\nend\n" % (
    b"00000000-0000-0000-0000-000000000002")
wanted, status = plain.session(stream)
found, ended = run(stream)
check("a session over such a base", (None, plain.DONE), (first_difference(wanted, found), ended))
check("its object has each of 1,000 names", True, b"\nstatements 1001\n" in wanted)

finish()

"""Documents at their limits, and one past them: literals, IRIs, names, header lists, statements of a difference, bytes."""
import documents
import plain
from harness import check, finish, run
from models import CIM, MOST_DOCUMENT, Difference, Full, Header, canonical

BASE_ID, SUBJECT = 0x10000000_0000_4000_8000_000000000001, (0, 0x20000000_0000_4000_8000_000000000001)
NAME = (CIM, b"IdentifiedObject.name")
SMALL = Full(Header(BASE_ID), {(SUBJECT, NAME, (0, b"North"))})
TAKEN = None


def reply(document: bytes, code, taken: bytes) -> bytes:
    """The reply to a document that is taken, or has a fault of this code; its place is that of the plain rules."""
    if code is TAKEN:
        return taken
    try:
        documents.read(document)
    except documents.Fault as fault:
        return b"refused document %d %s\n" % (fault.at, code)
    return b"no fault by the plain rules"


def check_base(name: str, model, code) -> None:
    document = canonical(model)
    stream = b"base %d\n" % len(document) + document + b"end\n"
    check(name, (reply(document, code, b"ok 0\n") + b"end 0\n", plain.DONE), run(stream))


def with_object(obj) -> Full:
    return Full(Header(BASE_ID), {(SUBJECT, NAME, obj)})


def with_property(ns: bytes, local: bytes) -> Full:
    return Full(Header(BASE_ID), {(SUBJECT, (ns, local), (0, b"x"))})


def with_header(**header) -> Full:
    return Full(Header(BASE_ID, **header), SMALL.statements)


for size, code in ((65_536, TAKEN), (65_537, b"limit")):
    check_base(f"a literal of {size} bytes", with_object((0, b"N" * size)), code)
    check_base(f"a profile of {size} bytes", with_header(profiles=[b"p" * size]), code)
    check_base(f"a description of {size} bytes", with_header(description=b"d" * size), code)
for size, code in ((2_048, TAKEN), (2_049, b"limit")):
    check_base(f"an IRI of {size} bytes", with_object((2, b"http://example.org/".ljust(size, b"a"))), code)
for size, of_reference, of_property in ((128, TAKEN, TAKEN), (129, b"identifier", b"piece")):
    check_base(f"a local identifier of {size} bytes", with_object((1, (1, b"i" * size))), of_reference)
    check_base(f"a property's name of {size} bytes", with_property(CIM, b"p" * size), of_property)
for size, code in ((256, TAKEN), (257, b"namespace")):
    check_base(f"a namespace of {size} bytes", with_property(b"http://example.org/".ljust(size - 1, b"a") + b"#", b"p"), code)
for name, most in (("profiles", 64), ("depends", 64), ("supersedes", 4_160)):
    for count, code in ((most, TAKEN), (most + 1, b"limit")):
        items = [b"p%d" % i for i in range(count)] if name == "profiles" else list(range(1, count + 1))
        check_base(f"a header's {name}, {count} of them", with_header(**{name: items}), code)

small = canonical(SMALL)
for pre, rev, fwd, code in ((0, 0, 65_536, TAKEN), (0, 0, 65_537, b"limit"), (1, 1, 65_534, TAKEN), (1, 1, 65_535, b"limit")):
    added = {(SUBJECT, NAME, (0, b"%06d" % i)) for i in range(fwd)}
    there = SMALL.statements
    document = canonical(Difference(Header(1), there if pre else set(), there if rev else set(), added))
    stream = b"base %d\n" % len(small) + small + b"file 2027-04-01 %d\n" % len(document) + document + b"end\n"
    check(f"a difference of {pre}, {rev} and {fwd} statements",
          (b"ok 0\n" + reply(document, code, b"ok 1\n") + b"end %d\n" % (code is TAKEN), plain.DONE), run(stream))

# White space behind the root may be as long as it likes, up to the longest document.
for size, status, wanted in ((MOST_DOCUMENT, 0, b"full 10000000-0000-4000-8000-000000000001 1\n"),
                             (MOST_DOCUMENT + 1, 1, b"fault %d limit\n" % MOST_DOCUMENT)):
    check(f"a document of {size} bytes", (wanted, status), run(small + b" " * (size - len(small)), ("check",)))
for size, wanted in ((MOST_DOCUMENT, b"fault %d cut\n" % MOST_DOCUMENT), (MOST_DOCUMENT + 1, b"fault %d limit\n" % MOST_DOCUMENT)):
    for form in ("canon", "check"):
        check(f"{form} of {size} spaces", (wanted, 1), run(b" " * size, (form,)))

check("a base line of 67,108,865 bytes is no command", (b"badline 0\n", plain.BAD_SESSION), run(b"base 67108865\n"))
check("a base line of 67,108,864 bytes waits for them", (b"", plain.CUT), run(b"base 67108864\n<"))

finish()

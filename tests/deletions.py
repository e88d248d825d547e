"""Each document that is a small base less one byte: 92 of the 462 are a base still, and 370 have a fault.

The bytes that may go are those of the name, `North`; those of the namespace before its `#`, since it
is then another one; those of the UUID behind the `_` of the `rdf:ID`, since what is left is a local
identifier; each end of a line; and one of `xml`, since `<?xm ..?>` is an instruction.
"""
import plain
from harness import TESTS, check, finish, run

STREAM = (TESTS / "rows/a-base-assembled/in").read_bytes()
DOCUMENT = STREAM[len(b"base 462\n"):][:462]


def places(text: bytes) -> set:
    assert DOCUMENT.count(text) == 1
    return set(range(DOCUMENT.index(text), DOCUMENT.index(text) + len(text)))


ENDS_OF_LINES = {at for at, byte in enumerate(DOCUMENT) if byte == ord("\n")}
BASES = (places(b"North") | places(b"http://iec.ch/TC57/2013/CIM-schema-cim16") | places(b"20000000-0000-4000-8000-000000000001")
         | ENDS_OF_LINES | {2, 3, 4})


def bases_without(places_of_bytes) -> bytes:
    parts = [b"base 461\n" + DOCUMENT[:at] + DOCUMENT[at + 1:] for at in places_of_bytes]
    return b"".join(parts) + b"end\n"


faulty = [at for at in range(462) if at not in BASES]
check("the bytes that may go", (92, 370), (len(BASES), len(faulty)))
replies, status = plain.session(bases_without(faulty))
check("the plain rules find a fault in each of 370", (370, 0), (replies.count(b"refused document "), status))
check("370 deletions have the faults of the plain rules", (replies, status), run(bases_without(faulty)))
for at in sorted(BASES):
    check(f"without its byte {at} it is a base", (b"ok 0\nend 0\n", 0), run(bases_without([at])))

finish()

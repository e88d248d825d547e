"""The documents of the base and of the projects have at most 268,435,456 bytes together.

The program needs about 3 GB for this.
"""
from harness import TESTS, check, finish, run
from models import CIM, MOST_DOCUMENT, MOST_LITERAL, Difference, Header, canonical, uuid_text
from plain import MOST_BYTES

BASE = (TESTS / "rows/a-base-assembled/in").read_bytes()[:471]
BASE_BYTES, BASE_STATEMENTS = 462, 2
PROPERTY = (CIM, b"p")
LINE = len("<cim:p></cim:p>\n")


def literals(size: int):
    """Rising texts that make a difference of one subject so many bytes long."""
    room = size - len(canonical(Difference(Header(1), fwd={((1, b"s1"), PROPERTY, (0, b""))}))) + LINE
    count = -(-room // (MOST_LITERAL + LINE))
    length, longer = divmod(room - count * LINE, count)
    return [(b"%06d" % i).ljust(length + (i < longer), b"a") for i in range(count)]


def file(i: int, size: int) -> bytes:
    subject = (1, b"s%d" % i)
    document = canonical(Difference(Header(i), fwd={(subject, PROPERTY, (0, text)) for text in literals(size)}))
    assert len(document) == size
    return b"file 2027-04-01 %d\n" % size + document


left = MOST_BYTES - BASE_BYTES - 3 * MOST_DOCUMENT
small = canonical(Difference(Header(7, supersedes=[5])))
given = (BASE + b"".join(file(i, MOST_DOCUMENT) for i in (1, 2, 3)) + file(4, left + 1) + file(5, left) + file(6, 70_000)
         + b"revise %s %d\n" % (uuid_text(5), len(small)) + small
         + b"redate %s 2027-04-02\nsummary 2027-04-02\nwithdraw %s\n" % (uuid_text(5), uuid_text(5))
         + file(6, 70_000) + b"summary 2027-04-02\nend\n")
most = BASE_STATEMENTS + 3 * len(literals(MOST_DOCUMENT))
# A command without a document is taken, and what a withdrawn project brought still counts: the log has it.
wanted = (b"ok 0\nok 1\nok 2\nok 3\nrefused limit L6\nok 4\nrefused limit L6\nrefused limit L6\nok 5\n"
          b"summary commits 5 projects 4 statements %d\nok 6\nrefused limit L6\nsummary commits 6 projects 3 statements %d\nend 6\n"
          % (most + len(literals(left)), most))
check("all document bytes, and one more", (wanted, 0), run(given))
finish()

"""4,096 projects are kept, and the next is refused; an identifier in use is named before the limit.

Each filing replays all projects before it, so this takes long.
"""
from harness import TESTS, check, finish, first_difference, run
from models import Difference, Header, canonical, uuid_text

BASE = (TESTS / "rows/a-base-assembled/in").read_bytes()[:471]
FIRST = 0x40000000_0000_4000_8000_000000000000
MOST = 4_096


def file(i: int) -> bytes:
    """A project with a header alone; days go round the month, so that most are not the last step."""
    document = canonical(Difference(Header(FIRST + i)))
    return b"file 2027-04-%02d %d\n" % (1 + i % 30, len(document)) + document


given = BASE + b"".join(map(file, range(1, MOST + 2))) + file(7) + b"summary 2027-04-30\nend\n"
wanted = (b"".join(b"ok %d\n" % i for i in range(MOST + 1)) + b"refused limit L4\nrefused inuse " + uuid_text(FIRST + 7)
          + b"\nsummary commits 4096 projects 4096 statements 2\nend 4096\n")
found, status = run(given)
check("4,096 projects and one more", (None, 0), (first_difference(wanted, found), status))
finish()

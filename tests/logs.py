"""The log of each session that files anything, fed to the program again: the same projects, model and log, byte for byte.

And the limit on commands: one filing, and redates of it to its own day.
"""
import time

import plain
from harness import TESTS, check, finish, first_difference, run
from models import Difference, Header, canonical

EXAMPLES = TESTS.parent / "examples"
QUESTIONS = b"projects\nassemble 2999-12-31\nsummary 2999-12-31\nlog\nend\n"


def asked(stream: bytes) -> bytes:
    """The replies to the last questions of a session, which begin with its projects."""
    written, status = run(stream[:-len(b"end\n")] + QUESTIONS)
    return written[written.rindex(b"\nprojects ") + 1:] if status == plain.DONE else b""


def log_in(replies: bytes) -> bytes:
    at = replies.index(b"\nlog ") + 1
    end = replies.index(b"\n", at)
    return replies[end + 1:end + 1 + int(replies[at + len(b"log "):end])]


streams = [(path.name, path.read_bytes()) for path in sorted(EXAMPLES.glob("*.session"))]
streams += [(path.parent.name, path.read_bytes()) for path in sorted((TESTS / "rows").glob("*/in"))
            if not (path.parent / "form").exists()]
count = 0
for name, given in streams:
    written, status = plain.session(given)
    if status != plain.DONE or b"\nok 1\n" not in written or not given.endswith(b"\nend\n"):
        continue
    replies = asked(given)
    check(f"the log of {name}", None, first_difference(replies, asked(log_in(replies))))
    count += 1
check("there are sessions with projects", True, count > 20)

base = (TESTS / "rows/a-base-assembled/in").read_bytes()[:len(b"base 462\n") + 462]
PROJECT = b"30000000-0000-4000-8000-000000000001"
document = canonical(Difference(Header(plain.uuid_of(PROJECT))))
given = (base + b"file 2027-04-01 %d\n" % len(document) + document
         + b"redate %s 2027-04-01\n" % PROJECT * (plain.MOST_COMMITS) + b"end\n")
wanted = b"".join(b"ok %d\n" % n for n in range(plain.MOST_COMMITS + 1)) + b"refused limit L5\nend %d\n" % plain.MOST_COMMITS
begun = time.monotonic()
found, status = run(given)
check("65,536 commands, and one more", (None, plain.DONE), (first_difference(wanted, found), status))
check("they take less than a minute", True, time.monotonic() - begun < 60)

finish()

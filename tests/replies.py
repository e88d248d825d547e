"""A client that sends the next command only after the reply to the one before."""
import os
import select
import subprocess
import time

from harness import NM, TESTS, check, finish

ROW = TESTS / "rows/the-day-before-a-project-and-its-day"
STREAM, REPLIES = ((ROW / name).read_bytes() for name in ("in", "out"))
BASE = STREAM[:471]
FILE = STREAM[471:471 + 21 + 1078]
FIRST = b"ok 0\nok 1\n"
BEFORE = REPLIES[len(FIRST):len(FIRST) + len(b"document 614\n") + 614]


def reply(file, count: int, seconds: float) -> bytes:
    """Up to so many bytes, within the time."""
    found, end = b"", time.monotonic() + seconds
    while len(found) < count:
        ready, _, _ = select.select([file], [], [], max(end - time.monotonic(), 0))
        block = os.read(file.fileno(), count - len(found)) if ready else b""
        if not block:
            break
        found += block
    return found


def nothing(file) -> bytes:
    """What comes within a short while, where nothing should."""
    return reply(file, 1, 0.2)


process = subprocess.Popen([NM, "session"], stdin=subprocess.PIPE, stdout=subprocess.PIPE)
try:
    for name, given, wanted in (
            ("a part of the base", BASE[:100], b""),
            ("the rest of the base", BASE[100:], b"ok 0\n"),
            ("a part of a line", b"summary 2027-", b""),
            ("the rest of the line", b"01-01\n", b"summary commits 0 projects 0 statements 2\n"),
            ("a line whose document is still to come", FILE[:21], b""),
            ("the document", FILE[21:], b"ok 1\n"),
            ("an assembly", b"assemble 2027-03-31\n", BEFORE),
            ("two commands at once", b"summary 2027-04-01\nsummary 2027-03-31\n",
             b"summary commits 1 projects 1 statements 2\n" * 2),
            ("the end", b"end\n", b"end 1\n")):
        process.stdin.write(given)
        process.stdin.flush()
        check(name, wanted, reply(process.stdout, len(wanted), 30) if wanted else nothing(process.stdout))
    check("the program ends by itself, with its input still open", 0, process.wait(30))
    check("nothing after the last reply", b"", process.stdout.read())
finally:
    process.kill()
    process.wait()

finish()

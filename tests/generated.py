"""The form `gen`: its stream is the plain one, byte for byte, and a session answers it; other numbers are no form."""
import plain
from generator import stream
from harness import check, finish, first_difference, run

GIVEN = b"not read"

for projects, seed in ((1, 0), (2, 1), (20, 7), (200, 7), (16, 2**32 - 1), (2_000, 123_456_789)):
    found, status = run(GIVEN, ("gen", str(projects), str(seed)))
    check(f"gen {projects} {seed}", (None, plain.DONE), (first_difference(stream(projects, seed), found), status))

replies, status = run(run(b"", ("gen", "20", "7"))[0])
oks = b"".join(b"ok %d\n" % number for number in range(31))
last = b"summary commits 30 projects 16 statements 4032\nend 30\n"
check("a session of gen 20 7", (True, True, plain.DONE), (replies.startswith(oks + b"summary "), replies.endswith(last), status))

finish()

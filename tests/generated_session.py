"""The generated session of 2,000 projects, from the generator through a pipe.

It files 2,000 projects, redates every third and withdraws every fifth: 2,000 + 666 + 400 commands, and 1,600 projects that are
left. The base has 4,000 statements, and each project puts three in the place of one. All days are before the last summary's.
"""
import subprocess

import plain
from harness import NM, SECONDS, check, finish

LAST = b"summary commits 3066 projects 1600 statements 7200\nend 3066\n"

with subprocess.Popen([NM, "gen", "2000", "7"], stdout=subprocess.PIPE) as generator:
    ended = subprocess.run([NM, "session"], stdin=generator.stdout, stdout=subprocess.PIPE, timeout=SECONDS)
check("gen 2000 7 ends", plain.DONE, generator.returncode)
check("a session of gen 2000 7", (LAST, plain.DONE), (ended.stdout[-len(LAST):], ended.returncode))
check("each command is accepted", b"".join(b"ok %d\n" % number for number in range(3_067)), ended.stdout[:ended.stdout.find(b"summary")])

finish()

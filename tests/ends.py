"""The end of input is asked for once. On a terminal it can be given, by ^D, and more can follow: nobody waits for that."""
import os
import pty
import subprocess

import plain
from harness import NM, TESTS, check, finish

END_OF_INPUT = b"\x04"
ROW = (TESTS / "rows/a-base-assembled/in").read_bytes()
BASE = ROW[:len(b"base 462\n") + 462]
DOCUMENT = BASE[len(b"base 462\n"):]


def on_terminal(form: str, parts, behind: bytes):
    """What is written and the status, where the parts are typed, each ended by ^D, and then more than is to be read."""
    ours, theirs = pty.openpty()
    process = subprocess.Popen([NM, form], stdin=theirs, stdout=subprocess.PIPE, stderr=subprocess.PIPE)
    os.close(theirs)
    try:
        for part in parts:
            os.write(ours, part + END_OF_INPUT)
        os.write(ours, behind)
        written, _ = process.communicate(timeout=60)
        return written, process.returncode
    except subprocess.TimeoutExpired:
        return "it still waits", None
    finally:
        process.kill()
        process.wait()
        os.close(ours)


# ^D behind a line feed is the end, since no byte stands before it; behind other bytes it only sends them off.
check("an end at once", (b"", plain.CUT), on_terminal("session", [b""], b"end\n"))
check("an end behind a base", (b"ok 0\n", plain.CUT), on_terminal("session", [BASE], b"end\n"))
check("an end within a document", (b"", plain.CUT), on_terminal("session", [BASE[:BASE.index(b"<md:Full")]], b"end\n"))
check("what is sent off is no end", (b"end 0\n", plain.DONE), on_terminal("session", [b"en"], b"d\n"))
for form in ("check", "canon"):
    check(f"{form} of nothing", (b"fault 0 cut\n", plain.REFUSED), on_terminal(form, [b""], DOCUMENT))
    check(f"{form} of a document and an end", plain.FORMS[form](DOCUMENT), on_terminal(form, [DOCUMENT], b"<a/>\n"))

finish()

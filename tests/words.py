"""Words that are no form: the usage text on standard error, status 2, nothing read and nothing written."""
import os
import subprocess

from harness import NM, check, finish

USAGE = b"usage: nm session | canon | check | gen N SEED\n"
GIVEN = b"end\n"

for words in ([], [""], ["Session"], ["session", ""], ["session", "extra"], ["session", "--help"], ["--help"], ["-h"],
              ["--version"], ["end"], ["session "], ["sessions"], ["sessio"], ["canon", "examples/base.xml"], ["check", ""], ["Check"],
              ["canonical"], ["chec"], ["canon", "check"], ["gen"], ["gen", "20"], ["gen", "20", "7", "7"], ["Gen", "20", "7"], ["gen", "", "7"],
              ["gen", "20", ""], ["gen", "0", "7"], ["gen", "2001", "7"], ["gen", "020", "7"], ["gen", "20", "07"], ["gen", "+20", "7"],
              ["gen", "20", "-7"], ["gen", "20", "4294967296"], ["gen", "20", "18446744073709551623"], ["gen", "20 ", "7"], ["gen", "20 7"],
              ["serve", "8080", "1", "1"], [b"session\xff"], ["session", b"\xff"]):
    reading, writing = os.pipe()
    os.write(writing, GIVEN)
    os.close(writing)
    ended = subprocess.run([NM, *words], stdin=reading, stdout=subprocess.PIPE, stderr=subprocess.PIPE, timeout=60)
    left = os.read(reading, 64)
    os.close(reading)
    check(f"words {words}", (2, b"", USAGE, GIVEN), (ended.returncode, ended.stdout, ended.stderr, left))



def status_with_errors_to(where: str) -> int:
    """The status at words that are no form, where standard error is what the shell makes of this."""
    return subprocess.run(["bash", "-c", f'"$0" session extra {where}', NM], stdin=subprocess.DEVNULL,
                          stdout=subprocess.DEVNULL, timeout=60).returncode


check("words that are no form, with a full standard error", 2, status_with_errors_to("2>/dev/full"))
check("words that are no form, with a closed standard error", 2, status_with_errors_to("2>&-"))

finish()

"""`make demo`: what the built program writes, or where there is none what a trial run of the source does, which is said so."""
import os
import subprocess
import tempfile
from pathlib import Path

from harness import NM, check, finish
from shown import ROOT

EXAMPLE = (ROOT / "examples/base-and-day.session").read_bytes()
MODEL = subprocess.run([NM, "session"], input=EXAMPLE, stdout=subprocess.PIPE, timeout=60).stdout


def demo(program: str, path: str):
    ended = subprocess.run(["make", "-s", "demo", f"NM={program}"], cwd=ROOT, stdin=subprocess.DEVNULL,
                           stdout=subprocess.PIPE, stderr=subprocess.DEVNULL, env={**os.environ, "PATH": path}, timeout=60)
    return ended.stdout, ended.returncode


check("there is a model", True, MODEL.startswith(b"ok 0\ndocument "))
check("make demo with a built program", (MODEL, 0), demo(NM, os.environ["PATH"]))

# A trial run takes a minute, so that the built program stands for it here, behind the words that it is run with.
with tempfile.TemporaryDirectory() as folder:
    stand_in = Path(folder) / "rt"
    stand_in.write_text(f'#!/bin/sh\n[ "$*" = "try -- session" ] && [ "$PWD" = "{ROOT}/crates/nm" ] && exec "{NM}" session\nexit 9\n')
    stand_in.chmod(0o755)
    written, status = demo("/no/program", f"{folder}:{os.environ['PATH']}")
lines = written[len(MODEL):].decode().splitlines()
check("make demo without one", (MODEL, 0, 1), (written[:len(MODEL)], status, len(lines)))
check("it says that nothing was proved", True, "Nothing of this run was proved" in lines[0])

finish()

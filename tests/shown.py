"""What the commands of a page write, with the built program in place of `crates/nm/out/nm`, and `nm-store` over it.

They run one after another in one shell, as a reader would type them, in a folder of their own that has `examples/`. So a
command can use what one before it named or wrote, and leaves nothing in the repository.
"""
import os
import subprocess
import sys
import tempfile

from harness import NM, TESTS

ROOT = TESTS.parent
BETWEEN = "\nprintf '\\0'\n"
NM_STORE = f"nm-store() {{ '{sys.executable}' -W error '{ROOT}/planner/nm-store' \"$@\"; }}\n"


def outputs(commands) -> list:
    script = NM_STORE + "".join(command.replace("crates/nm/out/nm", '"$NM"') + BETWEEN for command in commands)
    with tempfile.TemporaryDirectory() as folder:
        os.symlink(ROOT / "examples", os.path.join(folder, "examples"))
        ended = subprocess.run(["bash", "-c", script], cwd=folder, env={**os.environ, "NM": NM}, stdout=subprocess.PIPE,
                               text=True, timeout=300)
    return ended.stdout.split("\0")[:len(commands)]


def output(command: str) -> str:
    return outputs([command])[0]

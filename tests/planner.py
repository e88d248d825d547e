"""What the checks of `nm-store` share: the program in a folder of its own, and small models for it."""
import os
import subprocess
import sys
import tempfile
from pathlib import Path

from harness import NM, TESTS
from models import CIM, TYPE, Difference, Full, Header, canonical

ROOT = TESTS.parent
EXAMPLES = ROOT / "examples"
PROGRAM = str(ROOT / "planner/nm-store")
NAME = (CIM, b"IdentifiedObject.name")
WORDS = [sys.executable, "-W", "error", PROGRAM]
SURROUNDINGS = {**os.environ, "NM": NM, "PYTHONDONTWRITEBYTECODE": "1"}


class Folder:
    """A folder of its own, in which `nm-store` is run."""

    def __init__(self):
        self.kept = tempfile.TemporaryDirectory()
        self.path = Path(self.kept.name)

    def __enter__(self):
        return self

    def __exit__(self, *why):
        self.kept.cleanup()

    def write(self, name: str, content: bytes) -> str:
        (self.path / name).write_bytes(content)
        return name

    def read(self, name: str) -> bytes:
        return (self.path / name).read_bytes()

    def names(self) -> list:
        return sorted(path.name for path in self.path.iterdir())

    def run(self, *words, **more):
        """The output, the text on standard error and the status."""
        more = {"env": SURROUNDINGS, "stdin": subprocess.DEVNULL, **more}
        ended = subprocess.run([*WORDS, *words], cwd=self.path, stdout=subprocess.PIPE, stderr=subprocess.PIPE, timeout=300, **more)
        return ended.stdout.decode(), ended.stderr.decode(), ended.returncode


def number(kind: int, index: int) -> int:
    """The UUID 0000000K-0000-4000-8000-INDEX: 0 is the base's, 1 an object's, 2 a project's."""
    return (kind << 96) | 0x4000_8000_0000_0000_0000 | index


def substation(index: int, name: str):
    """The two statements of a substation."""
    return {((0, number(1, index)), TYPE, (2, CIM + b"Substation")), named(index, name)}


def named(index: int, name: str):
    return (0, number(1, index)), NAME, (0, name.encode())


def base(*substations) -> bytes:
    return canonical(Full(Header(number(0, 0)), set().union(*substations)))


def project(index: int, depends=(), supersedes=(), before=(), without=(), adds=()) -> bytes:
    """The document of a difference model, with its preconditions, its reverse and its forward statements."""
    header = Header(number(2, index), depends=[number(2, other) for other in depends], supersedes=[number(2, other) for other in supersedes])
    return canonical(Difference(header, set(before), set(without), set(adds)))


def log_of(document: bytes, commands) -> bytes:
    """The log of a base and of commands, each a line without the length of its document, and the document or None."""
    lines = [("base", document), *commands]
    return b"".join(line.encode() + (b"\n" if body is None else b" %d\n" % len(body) + body) for line, body in lines) + b"end\n"

"""Commits over few and over many live projects, beside SQLite.

    python3 bench/commits.py [FEW MANY [FILED]]      200 2000 4096 where nothing is said

The base and the projects are those of tests/generator.py: each project names a substation anew and adds a voltage
level. So many of them are filed. Then some are withdrawn, filed again on another day and redated, one after another, so
that the number of live projects stays. These commits are measured: the time from the first line that is sent to the last
reply, as the median of several rounds; and where valgrind is installed, the instructions of a session with a round, less
those of the session without it. Last, so many projects are filed as FILED says, each of which depends on the 64 models
before it.

SQLite does the same in memory, by the tables of store_in_sql.py. It is called from Python: its time has those calls in it,
but no reading of documents, which is in the time and in the instructions of `nm`.
"""
import os
import re
import shutil
import subprocess
import sys
import tempfile
import time
from dataclasses import dataclass
from datetime import timedelta
from pathlib import Path
from statistics import median

ROOT = Path(__file__).resolve().parent.parent
sys.dont_write_bytecode = True
sys.path.insert(0, str(ROOT / "tests"))

from generator import DAYS, FIRST_DAY, SUBSTATIONS, base, drawn, id_of_kind, project  # noqa: E402
from models import MOST_DEPENDS, Difference, Full, Header, canonical, uuid_text  # noqa: E402
from store_in_sql import Store, key_of  # noqa: E402

NM = os.environ.get("NM", str(ROOT / "crates/nm/out/nm"))
ROUNDS, CHANGED = 5, 50


@dataclass
class Command:
    word: str
    id: int
    day: str = ""
    model: Difference | None = None

    def parts(self) -> tuple:
        """The line, and the document behind it."""
        if self.model:
            document = canonical(self.model)
            return b"file %s %d\n" % (self.day.encode(), len(document)), document
        return b" ".join(filter(None, (self.word.encode(), uuid_text(self.id), self.day.encode()))) + b"\n", b""


def day(number: int) -> str:
    return str(FIRST_DAY + timedelta(number % DAYS))


def filed(model: Difference, number: int) -> Command:
    return Command("file", model.header.id, day(number), model)


def filings(live: int) -> list:
    return [filed(project(number), drawing) for number, drawing in zip(range(1, live + 1), drawn(7))]


def changes(live: int, seed: int) -> list:
    """A round: projects that lie far apart are withdrawn, filed again and redated."""
    commands, days = [], drawn(seed)
    for number in range(1, live + 1, max(live // CHANGED, 1)):
        model = project(number)
        commands += [Command("withdraw", model.header.id), filed(model, next(days)), Command("redate", model.header.id, day(next(days)))]
    return commands


def dependents(count: int) -> tuple:
    """A base, and projects that each depend on the 64 models before them. Those before the first project are known to the base."""
    def before(number: int) -> list:
        return [id_of_kind(5, other) for other in range(number, number + MOST_DEPENDS)]

    models = [Difference(Header(id_of_kind(5, number + MOST_DEPENDS), depends=before(number))) for number in range(count)]
    return Full(Header(id_of_kind(0, 0), depends=before(0)), base().statements), [filed(model, at // 2) for at, model in enumerate(models)]


# ---------------------------------------------------------------- by nm


def stream_of(start: Full, commands: list) -> bytes:
    document = canonical(start)
    return b"base %d\n" % len(document) + document + b"".join(b"".join(command.parts()) for command in commands)


class Session:
    """`nm session` over a base and the projects that are filed."""

    def __init__(self, start: Full, commands: list):
        self.process = subprocess.Popen([NM, "session"], stdin=subprocess.PIPE, stdout=subprocess.PIPE)
        self.number = -1
        self.take(stream_of(start, commands), len(commands) + 1)

    def take(self, stream: bytes, count: int) -> float:
        """The seconds from the first line to the last reply. The replies are short, and wait in the pipe."""
        began = time.monotonic()
        self.process.stdin.write(stream)
        self.process.stdin.flush()
        for _ in range(count):
            self.number += 1
            if (found := self.process.stdout.readline()) != b"ok %d\n" % self.number:
                sys.exit(f"ok {self.number} was due, and not {found!r}")
        return time.monotonic() - began

    def timed(self, commands: list) -> float:
        return self.take(b"".join(b"".join(command.parts()) for command in commands), len(commands))

    def end(self) -> None:
        self.process.communicate(b"end\n")


def instructions(stream: bytes) -> int:
    with tempfile.TemporaryFile() as given:
        given.write(stream + b"end\n")
        given.seek(0)
        words = ["valgrind", "--tool=cachegrind", "--cache-sim=no", "--cachegrind-out-file=/dev/null", NM, "session"]
        ended = subprocess.run(words, stdin=given, stdout=subprocess.DEVNULL, stderr=subprocess.PIPE, check=True)
    return int(re.search(rb"I +refs: +([0-9,]+)", ended.stderr)[1].replace(b",", b""))


# ---------------------------------------------------------------- by SQLite


class Tables:
    """The store in SQLite, over a base and the projects that are filed."""

    def __init__(self, start: Full, commands: list):
        self.store = Store(start)
        self.timed(commands)

    def timed(self, commands: list) -> float:
        given = [(command, key_of(command.id), command.model and self.store.prepared(command.model), *command.parts()) for command in commands]
        began = time.monotonic()
        for command, id, prepared, line, document in given:
            if command.word == "file":
                filing = self.store.file(id, command.day, prepared)
            else:
                filing = self.store.redate(id, command.day) if command.word == "redate" else self.store.withdraw(id)
            self.store.commit(filing, id, line, document)
        return time.monotonic() - began


# ---------------------------------------------------------------- what is measured


def measured(live: int) -> dict:
    """Of a commit over so many live projects: the microseconds of nm and of SQLite, and the instructions of nm, which are printed too."""
    session, tables = Session(base(), filings(live)), Tables(base(), filings(live))
    rounds = [changes(live, seed) for seed in range(ROUNDS)]
    count = len(rounds[0])
    times = [(session.timed(commands), tables.timed(commands)) for commands in rounds]
    session.end()
    ours, theirs = (median(seconds) / count * 1e6 for seconds in zip(*times))
    print(f"{live} live projects, {ROUNDS} rounds of {count} commits, nm: {ours:.0f} microseconds a commit")
    print(f"{live} live projects, SQLite: {theirs:.0f} microseconds a commit; nm takes {ours / theirs:.2f} times as long")
    found = {"time of nm": ours, "time of SQLite": theirs}
    if shutil.which("valgrind"):
        without, with_round = (instructions(stream_of(base(), commands)) for commands in (filings(live), filings(live) + rounds[0]))
        found["instructions of nm"] = (with_round - without) / count
        print(f"{live} live projects, nm: {found['instructions of nm']:.0f} instructions a commit")
    return found


def main() -> None:
    few, many, count, *_ = [*map(int, sys.argv[1:]), *(200, 2_000, 4_096)[len(sys.argv) - 1:]]
    if not 0 < few < many <= SUBSTATIONS:
        sys.exit(f"there are projects for 1 to {SUBSTATIONS} substations: FEW and MANY are such numbers, the lesser one first")
    print(f"a base of {len(base().statements)} statements")
    with_few, with_many = measured(few), measured(many)
    for what, value in with_few.items():
        print(f"a commit over {many} live projects takes {with_many[what] / value:.2f} times the {what} over {few}")
    if shutil.which("valgrind") is None:
        print("valgrind is not installed: instructions are not counted")
    start, commands = dependents(count)
    session, tables = Session(start, []), Tables(start, [])
    ours, theirs = session.timed(commands), tables.timed(commands)
    session.end()
    print(f"{count} projects with {MOST_DEPENDS} dependencies each, nm: filed in {ours:.2f} s")
    print(f"{count} projects with {MOST_DEPENDS} dependencies each, SQLite: filed in {theirs:.2f} s; nm takes {ours / theirs:.2f} times as long")


if __name__ == "__main__":
    main()

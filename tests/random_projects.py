"""Random commands over small stores: every reply against the plain rules.

    python3 tests/random_projects.py [COMMANDS [SEED]]         1200 and 7 where nothing is said
    python3 tests/random_projects.py stream SEED NUMBER        writes one of the streams

A few projects stand close together: they name few statements, depend on one another, and share few days. So commands are
refused in each way in which one project can stand in the way of another, and the plain rules say which: each way has to
come, or the streams would show nothing. The streams are the same at each run.
"""
import random
import sys
from collections import Counter

import plain
from generator import classed, id_of_kind, named, object_of
from harness import check, finish, first_difference, run
from models import Difference, Full, Header, canonical, id_of, uuid_text

LENGTH, LIVE, OBJECTS = 120, 14, 6
DAYS = [b"2027-04-%02d" % day for day in range(1, 9)]
NEVER = id_of_kind(6, 0)
NAMES = [named(object_of(1, j), b"%c" % letter) for j in range(OBJECTS) for letter in b"abcd"]
BASE = Full(Header(id_of_kind(0, 0), depends=[id_of_kind(5, 0)]),
            {classed(object_of(1, j), b"Substation") for j in range(OBJECTS)} | {named(object_of(1, j), b"a") for j in range(OBJECTS)})

WAYS = {
    "file": "a project is filed", "revise": "a project is revised", "redate": "a project is redated", "withdraw": "a project is withdrawn",
    "again": "a model of a withdrawn project is filed again", "earlier": "a dependency is met by an earlier model of a project",
    "base": "the base's identifier", "current": "the current identifier of a project", "former": "an earlier identifier of a project",
    "own": "an earlier identifier of the project that is revised", "later": "a project by an identifier that is not its first",
    "gone": "a project that is not live", "superseding": "a revision that does not supersede the current model", "kind": "a base for a project",
    "never": "a dependency that nothing has", "withdrawn": "a dependent of a withdrawn project", "moved": "a dependent of a project that is moved behind it",
    "beside": "a dependent with a lower filing number on the day to which a project is moved",
    "ahead": "a dependency of a project that is moved before it", "filed later": "a dependency on a project of that day that was filed later",
    **{f"{part} {whose}": f"the {part} of {'its own' if whose == 'own' else 'another'} step"
       for part in ("precondition", "reverse", "forward") for whose in ("own", "other")}}


class Stream:
    """A stream of commands, which the plain rules answer one by one while it is drawn."""

    def __init__(self, seed: int, number: int):
        self.draws = random.Random(f"{seed} {number}")
        self.ways, self.parts, self.replies, self.store, self.count = Counter(), [], [], None, 0
        self.withdrawn: list = []
        self.command(b"base", canonical(BASE))
        for _ in range(LENGTH):
            self.draw()
        self.command(b"end")

    def command(self, line: bytes, document: bytes | None = None) -> None:
        line += b"" if document is None else b" %d" % len(document)
        command, before = plain.command_of(line, self.store is not None), self.store and list(self.store.projects)
        reply, self.store = plain.reply_to(self.store, command, line, document or b"")
        self.parts += [line + b"\n", document or b""]
        self.replies.append(reply)
        if command.word in (b"file", b"revise", b"redate", b"withdraw"):
            self.ways.update(self.ways_of(command, document, reply.decode().split(), before))
            if command.word == b"withdraw" and reply.startswith(b"ok"):
                self.withdrawn += next(project.lineage for project in before if project.lineage[0] == command.id)

    # ---------------------------------------------------------------- what is drawn

    def chance(self, percent: int) -> bool:
        return self.draws.randrange(100) < percent

    def new_id(self) -> int:
        self.count += 1
        return id_of_kind(2, self.count)

    def any_id(self) -> int:
        """An identifier of any kind: the base's, one of a live project, one of a withdrawn one, or one that nothing has."""
        live = [id for project in self.store.projects for id in project.lineage]
        kinds = [NEVER], [BASE.header.id, *BASE.header.depends], live, self.withdrawn
        return self.draws.choice(self.draws.choices(kinds, (1, 2, 5, 2))[0] or [NEVER])

    def model(self, id: int, day: bytes, supersedes: set) -> Difference:
        """A change that mostly fits the day: it takes away what is there, and adds what is not."""
        there = sorted(self.store.assembly(day).statements)
        absent = [name for name in NAMES if name not in there]

        def some(statements: list, most: int) -> set:
            fitting = [self.draws.choice(statements) for _ in range(self.draws.randrange(most + 1)) if statements]
            return {self.draws.choice(NAMES) if self.chance(8) else statement for statement in fitting}

        depends = {self.any_id() for _ in range(self.draws.randrange(3))}
        if self.chance(70):  # those that are there on the day
            depends &= {id for project in self.store.in_service(day) for id in project.lineage}
        return Difference(Header(id, depends=sorted(depends), supersedes=sorted(supersedes)), some(there, 1), some(there, 1), some(absent, 2))

    def draw(self) -> None:
        projects, day = self.store.projects, self.draws.choice(DAYS)
        kind = self.draws.choices(("file", "revise", "redate", "withdraw", "ask"), (25 if len(projects) < LIVE else 5, 25, 25, 8, 14))[0]
        if kind == "ask":
            self.command(self.question(day))
        elif kind == "file":
            id = self.any_id() if self.chance(15) else self.new_id()
            document = canonical(BASE) if self.chance(2) else canonical(self.model(id, day, set()))
            self.command(b"file %s" % day, document)
        elif projects:
            self.change(kind, day, self.draws.choice(projects))

    def change(self, kind: str, day: bytes, project) -> None:
        id = self.any_id() if self.chance(10) else self.draws.choice(project.lineage) if self.chance(15) else project.lineage[0]
        name = uuid_text(id).upper() if self.chance(10) else uuid_text(id)
        if kind == "revise":
            supersedes = {self.any_id()} if self.chance(10) else {project.lineage[-1]}
            model = self.draws.choice([self.any_id(), *project.lineage]) if self.chance(15) else self.new_id()
            self.command(b"revise " + name, canonical(self.model(model, project.day, supersedes)))
        elif kind == "redate":
            days = [other.day for other in self.store.projects if other.dependencies & {*project.lineage}]
            self.command(b"redate %s %s" % (name, self.draws.choice(days) if days and self.chance(60) else day))
        else:
            self.command(b"withdraw " + name)

    def question(self, day: bytes) -> bytes:
        about = b"#" + id_of(object_of(1, self.draws.randrange(OBJECTS)))
        return self.draws.choice([b"projects", b"log", b"timeline " + about, b"object %s %s" % (day, about), b"summary " + day, b"assemble " + day])

    # ---------------------------------------------------------------- what it shows, by the plain rules

    def ways_of(self, command, document, reply: list, before: list) -> set:
        word = command.word.decode()
        id = plain.documents.read(document).header.id if document else None
        if reply[0] == "ok":
            changed = next((project for project in self.store.projects if id in project.lineage), None)
            met = changed.dependencies & {other for project in before for other in project.lineage[:-1]} if changed else ()
            return {word} | ({"again"} if word == "file" and id in self.withdrawn else set()) | ({"earlier"} if met else set())
        named = plain.uuid_of(reply[2].encode()) if len(reply) == 3 else None
        if reply[1] == "unknown":
            return {"later" if any(named in project.lineage for project in before) else "gone"}
        if reply[1] == "inuse":
            owner = next((project for project in before if named in project.lineage), None)
            if owner is None or owner.lineage[-1] == named:
                return {"current" if owner else "base"}
            return {"former"} | ({"own"} if word == "revise" and command.id == owner.lineage[0] else set())
        return self.ways_of_step(command, id, reply, before) if reply[1] == "step" else {reply[1]}

    def ways_of_step(self, command, id, reply: list, before: list) -> set:
        day, model, cause = reply[2].encode(), plain.uuid_of(reply[3].encode()), reply[4]
        target = next((project for project in before if project.lineage[0] == command.id), None)
        is_own = model in (id, target and target.lineage[-1])
        if cause != "dependency":
            return {f"{cause} {'own' if is_own else 'other'}"}
        unmet = plain.uuid_of(reply[5].encode())
        owner = next((project for project in before if unmet in project.lineage), None)
        if owner is None:
            return {"never"} if unmet == NEVER else set()
        if owner is target and not is_own:
            return {"withdrawn" if command.word == b"withdraw" else "beside" if command.day == day else "moved"}
        if command.word == b"redate" and is_own and day < target.day:
            return {"ahead"}
        return {"filed later"} if owner.day == day else set()


def main() -> None:
    if sys.argv[1:2] == ["stream"]:
        sys.stdout.buffer.write(b"".join(Stream(*map(int, sys.argv[2:])).parts))
        return
    commands, seed, *_ = [*map(int, sys.argv[1:]), *(1_200, 7)[len(sys.argv) - 1:]]
    ways = Counter()
    for number in range(-(-commands // LENGTH)):
        stream = Stream(seed, number)
        found, status = run(b"".join(stream.parts))
        check(f"stream {number} of seed {seed}", (None, plain.DONE), (first_difference(b"".join(stream.replies), found), status))
        ways += stream.ways
    for way, name in WAYS.items():
        check(f"the streams show {name}", True, ways[way] > 0)
    finish()


if __name__ == "__main__":
    main()

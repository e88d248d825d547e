"""The rules of the store and of sessions, written plainly: what the built program is compared with.

    python3 tests/plain.py < STREAM              writes the replies to a session stream, and exits with its status
    python3 tests/plain.py canon < DOCUMENT      does what that form does; so with check

Models are those of `models.py`, and documents are read by `documents.py`. Each command is answered by
a replay of everything filed so far.
"""
import datetime
import re
import sys
import uuid
from dataclasses import dataclass, replace

import documents
from models import MOST_DOCUMENT, Difference, Full, Header, canonical, id_of, ident_of_about, uuid_of, uuid_text

MOST_PROJECTS = 4_096
MOST_COMMITS = 65_536
MOST_BYTES = 268_435_456
MOST_SESSION = 4_294_967_296
LINE_ROOM = 257

DONE, REFUSED, USAGE, READ_FAULT, WRITE_FAULT, NO_MEMORY, BAD_SESSION, CUT, TOO_MUCH = range(9)

# ---------------------------------------------------------------- the store


def escaped(text: bytes) -> bytes:
    for byte, spelling in ((b"\\", b"\\\\"), (b'"', b'\\"'), (b"\n", b"\\n"), (b"\r", b"\\r"), (b"\t", b"\\t")):
        text = text.replace(byte, spelling)
    return text


def report_line(statement) -> bytes:
    subject, (ns, local), (kind, value) = statement
    target = {0: lambda: b'"' + escaped(value) + b'"', 1: lambda: b"#" + id_of(value), 2: lambda: b"<" + escaped(value) + b">"}
    return b"#" + id_of(subject) + b" <" + escaped(ns + local) + b"> " + target[kind]()


PARTS = (("pre", b"precondition"), ("rev", b"reverse"), ("fwd", b"forward"))


@dataclass
class Project:
    """A live project: its filing number, the model ids it has had, and its day, dependencies and change."""
    filing: int
    lineage: list
    day: bytes
    dependencies: set
    change: Difference

    def filed(self, day: bytes):
        return replace(self, day=day)

    def revised(self, model: Difference):
        """The project with another model: what it depends on is that without the id that was current."""
        dependencies = dependencies_of(model) - {self.lineage[-1]}
        return replace(self, lineage=[*self.lineage, model.header.id], dependencies=dependencies, change=model)


def dependencies_of(model) -> set:
    return {*model.header.depends, *model.header.supersedes}


def by_step(project: Project):
    return project.day, project.filing


class Store:
    def __init__(self, base: Full, document: bytes):
        self.base, self.projects = base, []
        self.size, self.log = len(document), [b"base %d\n" % len(document) + document]

    @property
    def number(self) -> int:
        """The accepted commands."""
        return len(self.log) - 1

    def replay(self, steps):
        """The statements after the steps, or the first cause of the first step that does not fit."""
        statements, met = set(self.base.statements), {self.base.header.id, *self.base.header.depends}
        for step in steps:
            change = step.change
            causes = ([(b"dependency", uuid_text(id)) for id in sorted(step.dependencies - met)]
                      + [(b"precondition", report_line(s)) for s in sorted(change.pre - statements)]
                      + [(b"reverse", report_line(s)) for s in sorted(change.rev - statements)]
                      + [(b"forward", report_line(s)) for s in sorted(change.fwd & statements)])
            if causes:
                return None, b" ".join((step.day, uuid_text(step.lineage[-1]), *causes[0]))
            statements, met = (statements - change.rev) | change.fwd, met | set(step.lineage)
        return statements, None

    def project(self, id: int):
        return next((project for project in self.projects if project.lineage[0] == id), None)

    def is_in_use(self, id: int) -> bool:
        return id == self.base.header.id or any(id in project.lineage for project in self.projects)

    def file(self, day: bytes, model, line: bytes, document: bytes) -> bytes:
        if not isinstance(model, Difference):
            return b"refused kind\n"
        number = model.header.id
        if self.is_in_use(number):
            return b"refused inuse %s\n" % uuid_text(number)
        project = Project(self.number + 1, [number], day, dependencies_of(model), model)
        return self.commit([*self.projects, project], line, document)

    def revise(self, id: int, model, line: bytes, document: bytes) -> bytes:
        if not isinstance(model, Difference):
            return b"refused kind\n"
        project = self.project(id)
        if project is None:
            return b"refused unknown %s\n" % uuid_text(id)
        if project.lineage[-1] not in model.header.supersedes:
            return b"refused superseding %s\n" % uuid_text(project.lineage[-1])
        if self.is_in_use(model.header.id):
            return b"refused inuse %s\n" % uuid_text(model.header.id)
        return self.commit(self.with_project(project, project.revised(model)), line, document)

    def redate(self, id: int, day: bytes, line: bytes) -> bytes:
        project = self.project(id)
        if project is None:
            return b"refused unknown %s\n" % uuid_text(id)
        return self.commit(self.with_project(project, project.filed(day)), line)

    def withdraw(self, id: int, line: bytes) -> bytes:
        project = self.project(id)
        if project is None:
            return b"refused unknown %s\n" % uuid_text(id)
        return self.commit([other for other in self.projects if other is not project], line)

    def with_project(self, project: Project, changed: Project) -> list:
        return [changed if other is project else other for other in self.projects]

    def commit(self, projects: list, line: bytes, document: bytes = b"") -> bytes:
        """Takes the changed list of projects, unless it passes a limit or does not fit."""
        if len(projects) > MOST_PROJECTS:
            return b"refused limit L4\n"
        if self.number == MOST_COMMITS:
            return b"refused limit L5\n"
        if self.size + len(document) > MOST_BYTES:
            return b"refused limit L6\n"
        _, cause = self.replay(sorted(projects, key=by_step))
        if cause is not None:
            return b"refused step %s\n" % cause
        self.projects, self.size = projects, self.size + len(document)
        self.log.append(line + b"\n" + document)
        return b"ok %d\n" % self.number

    def steps(self) -> list:
        return sorted(self.projects, key=by_step)

    def in_service(self, day: bytes) -> list:
        return [step for step in self.steps() if step.day <= day]

    def assembly(self, day: bytes) -> Full:
        steps = self.in_service(day)
        ids = [step.lineage[-1] for step in steps]
        name = b"".join(text + b"\n" for text in [day, *map(uuid_text, ids)])
        base = self.base.header
        header = Header(uuid.uuid5(uuid.UUID(int=base.id), name.decode()).int, created=base.created,
                        scenario_time=day + b"T00:00:00Z", authority=base.authority, profiles=base.profiles,
                        depends=base.depends, supersedes=[base.id, *ids])
        return Full(header, self.replay(steps)[0])

    def summary(self, day: bytes) -> bytes:
        count = len(self.replay(self.in_service(day))[0])
        return b"summary commits %d projects %d statements %d\n" % (self.number, len(self.projects), count)

    def object(self, day: bytes, subject) -> bytes:
        """The statements of a day with this subject."""
        statements = sorted(s for s in self.replay(self.in_service(day))[0] if s[0] == subject)
        return b"statements %d\n" % len(statements) + b"".join(report_line(s) + b"\n" for s in statements)

    def timeline(self, subject) -> bytes:
        """Where the base and the steps name a statement with this subject."""
        steps = self.steps()
        parts = [(step, name, getattr(step.change, part)) for step in steps for part, name in PARTS]
        named = {*self.base.statements, *(s for _, _, part in parts for s in part)}
        lines = []
        for statement in sorted(s for s in named if s[0] == subject):
            if statement in self.base.statements:
                lines.append(b"base " + report_line(statement))
            lines += [b" ".join((step.day, uuid_text(step.lineage[-1]), name, report_line(statement)))
                      for step, name, part in parts if statement in part]
        return b"lines %d\n" % len(lines) + b"".join(line + b"\n" for line in lines)

    def list_projects(self) -> bytes:
        rows = [b"%s %s %s\n" % (uuid_text(step.lineage[0]), step.day, uuid_text(step.lineage[-1])) for step in self.steps()]
        return b"projects %d\n" % len(rows) + b"".join(rows)

    def list_log(self) -> bytes:
        stream = b"".join(self.log) + b"end\n"
        return b"log %d\n" % len(stream) + stream


# ---------------------------------------------------------------- the session

NUMERAL, DAY, ID = rb"(?P<length>0|[1-9][0-9]*)", rb"(?P<day>[0-9]{4}-[0-9]{2}-[0-9]{2})", rb"(?P<id>[0-9A-Fa-f-]{36})"
ABOUT = rb"(?P<about>[!-~]+)"
BASE = re.compile(rb"base " + NUMERAL)
COMMANDS = [re.compile(line) for line in (
    rb"file " + DAY + b" " + NUMERAL, rb"revise " + ID + b" " + NUMERAL, rb"redate " + ID + b" " + DAY, rb"withdraw " + ID,
    rb"assemble " + DAY, rb"object " + DAY + b" " + ABOUT, rb"timeline " + ABOUT, rb"projects", rb"log", rb"summary " + DAY)]


def is_day(text: bytes) -> bool:
    """Whether the calendar has the day, whose year is 1900 to 2999."""
    try:
        return 1900 <= datetime.date.fromisoformat(text.decode()).year <= 2999
    except ValueError:
        return False


@dataclass
class Command:
    """A line that is a command: its word, and what it names."""
    word: bytes
    day: bytes = b""
    id: int | None = None
    length: int = 0
    subject: tuple | None = None


def command_of(line: bytes, has_base: bool):
    """The command, where the line is one here."""
    if line == b"end":
        return Command(b"end")
    for form in COMMANDS if has_base else [BASE]:
        if found := form.fullmatch(line):
            parts = found.groupdict()
            command = Command(line.split(b" ")[0], parts.get("day") or b"", uuid_of(parts.get("id") or b""),
                              int(parts.get("length") or 0), ident_of_about(parts.get("about") or b""))
            good = (command.length <= MOST_DOCUMENT and (not command.day or is_day(command.day))
                    and ("id" not in parts or command.id is not None)
                    and ("about" not in parts or command.subject is not None))
            return command if good else None
    return None


def answer(store: Store, command: Command) -> bytes:
    """The reply to a question."""
    if command.word == b"assemble":
        document = canonical(store.assembly(command.day))
        return b"document %d\n" % len(document) + document
    if command.word == b"summary":
        return store.summary(command.day)
    if command.word == b"object":
        return store.object(command.day, command.subject)
    if command.word == b"timeline":
        return store.timeline(command.subject)
    return store.list_projects() if command.word == b"projects" else store.list_log()


def change(store: Store, command: Command, line: bytes) -> bytes:
    """The reply to a command without a document that changes the store."""
    if command.word == b"redate":
        return store.redate(command.id, command.day, line)
    return store.withdraw(command.id, line)


def reply_to(store, command: Command, line: bytes, body: bytes):
    """The reply, and the store after it."""
    if command.word == b"end":
        return b"end %d\n" % (store.number if store else 0), store
    if command.word in (b"redate", b"withdraw"):
        return change(store, command, with_lower_case(line, command)), store
    if command.word not in (b"base", b"file", b"revise"):
        return answer(store, command), store
    try:
        model = documents.read(body)
    except documents.Fault as fault:
        return b"refused document %d %s\n" % (fault.at, fault.code.encode()), store
    if command.word == b"file":
        return store.file(command.day, model, line, body), store
    if command.word == b"revise":
        return store.revise(command.id, model, with_lower_case(line, command), body), store
    return (b"ok 0\n", Store(model, body)) if isinstance(model, Full) else (b"refused kind\n", None)


def with_lower_case(line: bytes, command: Command) -> bytes:
    """The line as the log keeps it: with its identifier in lower case."""
    word, _, *others = line.split(b" ")
    return b" ".join([word, uuid_text(command.id), *others])


def session(stream: bytes):
    """The replies to a stream, and the status of its end."""
    short = CUT if len(stream) < MOST_SESSION else TOO_MUCH
    stream = stream[:MOST_SESSION]
    replies, store, at = [], None, 0
    while True:
        end = stream.find(b"\n", at, at + LINE_ROOM)
        if end < 0 and len(stream) - at < LINE_ROOM:
            return b"".join(replies), short
        line = stream[at:end]
        command = None if end < 0 else command_of(line, store is not None)
        if command is None:
            return b"".join(replies) + b"badline %d\n" % at, BAD_SESSION
        if len(stream) - (end + 1) < command.length:
            return b"".join(replies), short
        at = end + 1 + command.length
        reply, store = reply_to(store, command, line, stream[end + 1:at])
        replies.append(reply)
        if command.word == b"end":
            return b"".join(replies), DONE


# ---------------------------------------------------------------- the other forms


def canon(document: bytes):
    """The canonical document of the model that is stated, or the fault; and the status."""
    try:
        return canonical(documents.read(document)), DONE
    except documents.Fault as fault:
        return b"%s\n" % str(fault).encode(), REFUSED


FORMS = {"session": session, "canon": canon, "check": documents.told}

if __name__ == "__main__":
    written, status = FORMS[sys.argv[1] if sys.argv[1:] else "session"](sys.stdin.buffer.read())
    sys.stdout.buffer.write(written)
    sys.exit(status)

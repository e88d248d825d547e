"""Sixty projects and more over a base of 4,000 statements: every reply against the plain rules.

Some filings are refused in each way that one command can be: by the kind, by an identifier in use,
by each part of a step, and at the step of a project that was filed before. The limits have
scripts of their own. The stream is the same at each run.

    python3 tests/projects.py stream      writes the stream
    python3 tests/projects.py replies     writes projects.replies, by the plain rules

The replies are kept in projects.replies, with each document as its SHA-256, so that a change of the
plain rules shows.
"""
import hashlib
import re
import sys

import plain
from harness import TESTS, check, finish, first_difference, run
from models import CIM, TYPE, Difference, Full, Header, canonical

GRID = b"http://example.org/grid#"
NAME, CONTAINER, OWNER = (CIM, b"IdentifiedObject.name"), (CIM, b"Equipment.EquipmentContainer"), (GRID, b"owner")
CLASSES = (b"Substation", b"VoltageLevel", b"Breaker")
OBJECTS = 1_000


def number(kind: int, index: int) -> int:
    """The UUID 0000000K-0000-4000-8000-INDEX."""
    return (kind << 96) | 0x4000_8000_0000_0000_0000 | index


BASE_ID = number(0, 0)


class Draws:
    """The same numbers at each run."""

    def __init__(self):
        self.state = 7

    def below(self, limit: int) -> int:
        self.state = (self.state * 6364136223846793005 + 1442695040888963407) % 2 ** 64
        return (self.state >> 33) % limit

    def day(self) -> bytes:
        return b"2027-%02d-%02d" % (1 + self.below(12), 1 + self.below(28))


# ---------------------------------------------------------------- the base


def subject(j: int):
    """UUIDs, and local identifiers for the last hundred."""
    return (0, number(1, j)) if j < 900 else (1, b"Bay-%d" % j)


def class_of(j: int):
    return subject(j), TYPE, (2, CIM + CLASSES[j % 3])


def name_of(j: int, text: bytes | None = None):
    return subject(j), NAME, (0, b"S%d <&> \"%d\"" % (j, j) if text is None else text)


def container_of(j: int, other: int | None = None):
    return subject(j), CONTAINER, (1, subject((j + 1) % OBJECTS if other is None else other))


def owner_of(j: int):
    return subject(j), OWNER, (2, b"http://example.org/owner?of=%d&in=\"grid\"" % j)


def whole(j: int) -> set:
    return {class_of(j), name_of(j), container_of(j), owner_of(j)}


BASE = Full(Header(BASE_ID, profiles=[b"http://example.org/Equipment/1"], depends=[number(9, 1), number(9, 2)]),
            {statement for j in range(OBJECTS) for statement in whole(j)})

# ---------------------------------------------------------------- the projects


def header(kind: int, i: int) -> Header:
    return Header(number(kind, i), supersedes=[BASE_ID], depends=[number(9, 2), number(9, 1)][:i % 3])


def fitting(i: int) -> Difference:
    """A change of an object of its own: a new name, a part more, no object left, or another container."""
    j, new = 13 * i, (0, number(4, i))
    if i % 4 == 0:
        return Difference(header(2, i), {class_of(j)}, {name_of(j)}, {name_of(j, b"renamed %d" % i)})
    if i % 4 == 1:
        return Difference(header(2, i), {name_of(j)}, set(), {
            (new, TYPE, (2, CIM + b"VoltageLevel")), (new, NAME, (0, b"V%d\r\n" % i)), (new, CONTAINER, (1, subject(j)))})
    if i % 4 == 2:
        return Difference(header(2, i), set(), whole(j), set())
    return Difference(header(2, i), {class_of(j), owner_of(j)}, {container_of(j)}, {container_of(j, j + 5)})


def not_fitting(i: int, day: bytes, change: Difference):
    """A filing beside project `i` of that day, which is refused in a way of its own."""
    way, j = i % 10, 13 * i
    other = Difference(header(3, i), set(), {name_of(j, b"no such \\name\t\"%d\"" % i)}, {name_of(j, b"x")})
    if way == 0:  # a precondition that does not hold, beside two later causes
        other.pre = {name_of(j, b"no such name"), class_of(j)}
        other.fwd = {class_of(j + 1)}
    elif way == 1:  # a model that is not there, beside a later cause
        other.header.depends = [number(9, 3), number(2, i + 1)]
    elif way == 2:  # a forward statement that is there, and a reverse one that is too
        other.rev, other.fwd = {name_of(j + 1)}, {name_of(j + 1), owner_of(j + 2)}
    elif way == 3:  # the base's identifier
        other.header.id = BASE_ID
    elif way == 4:  # the identifier of a live project
        other.header.id = number(2, 1 + i // 2)
    elif way == 5:  # the other kind of model
        return day, canonical(Full(header(3, i), {name_of(j)}))
    elif way == 6:  # what project `i` takes away, taken away before: its step does not fit any more
        return before(day), canonical(Difference(header(3, i), set(), change.rev, set()))
    elif way == 7:  # the same on the same day, where the order of filing decides
        return day, canonical(Difference(header(3, i), set(), change.rev, set()))
    elif way == 8:  # a section of another name
        return day, canonical(other).replace(b"<dm:preconditions ", b"<dm:precondition ")
    elif way == 9:  # what project `i` adds, a day too early
        return before(day), canonical(Difference(header(3, i), change.fwd, set(), set()))
    return day, canonical(other)


def before(day: bytes) -> bytes:
    """An earlier day."""
    return b"2026" + day[4:]


def follower(i: int, change: Difference) -> Difference:
    """What stands on project `i`: it depends on it, needs what that adds, and takes it away."""
    needed = Header(number(5, i), supersedes=[BASE_ID], depends=[number(2, i)])
    return Difference(needed, change.fwd, change.fwd, set())


def file(day: bytes, document: bytes) -> bytes:
    return b"file %s %d\n" % (day, len(document)) + document


def stream() -> bytes:
    draws, base = Draws(), canonical(BASE)
    parts = [b"base %d\n" % len(base), base]
    for i in range(1, 61):
        day, change = draws.day(), fitting(i)
        parts += [file(day, canonical(change)), file(*not_fitting(i, day, change))]
        if i % 7 == 0:
            parts.append(file(day, canonical(follower(i, change))))
        if i % 5 == 0:
            parts += [b"summary %s\n" % draws.day(), b"summary 2999-12-31\n"]
        if i % 10 == 0:
            parts += [b"assemble %s\n" % day, b"assemble %s\n" % draws.day()]
    return b"".join(parts) + b"assemble 1900-01-01\nassemble 2999-12-31\nend\n"


def in_short(replies: bytes) -> str:
    """The lines of the replies, with each document as its SHA-256."""
    lines, at = [], 0
    while at < len(replies):
        end = replies.index(b"\n", at)
        line, at = replies[at:end].decode(), end + 1
        lines.append(line)
        if line.startswith("document "):
            size = int(line.split()[1])
            lines.append("  sha256 " + hashlib.sha256(replies[at:at + size]).hexdigest())
            at += size
    return "\n".join(lines) + "\n"


def main() -> None:
    given = stream()
    if sys.argv[1:] == ["stream"]:
        sys.stdout.buffer.write(given)
        return
    wanted, status = plain.session(given)
    kept = TESTS / "projects.replies"
    if sys.argv[1:] == ["replies"]:
        kept.write_text(in_short(wanted))
        return
    check("the plain rules give the replies that are kept", kept.read_text(), in_short(wanted))
    # What the stream is for, by the plain rules: a stream that meets no refusal would show nothing.
    for name, pattern, least in (
            ("accepted projects", rb"ok [1-9][0-9]*", 60), ("the kind", rb"refused kind", 6),
            ("identifiers in use", rb"refused inuse .*", 12), ("a fault", rb"refused document [0-9]+ stray", 6), ("a dependency", rb"refused step .* dependency .*", 6),
            ("a precondition", rb"refused step .* precondition .*", 6), ("a reverse", rb"refused step .* reverse .*", 6),
            ("a forward", rb"refused step .* forward .*", 6),
            ("a step of a project filed before", rb"refused step .* 00000002-.* reverse .*", 3),
            ("assemblies", rb"document [0-9]+", 14)):
        found = len(re.findall(rb"^" + pattern + rb"$", wanted, re.M))
        check(f"the stream meets {name}", True, found >= least)
    found, ended = run(given)
    check("every reply", None, first_difference(wanted, found))
    check("the status", status, ended)
    finish()


if __name__ == "__main__":
    main()

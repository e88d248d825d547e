"""The generated stream, written plainly.

    python3 tests/generator.py N SEED            writes the stream of N projects for a seed
"""
import datetime
import sys

from models import CIM, TYPE, Difference, Full, Header, canonical, uuid_text

SUBSTATIONS, DAYS = 2_000, 3_650
FIRST_DAY = datetime.date(2027, 1, 1)
NAME = CIM, b"IdentifiedObject.name"


def drawn(seed: int):
    """Draws by a linear congruential generator of 64 bits, of which the high 31 count."""
    state = seed
    while True:
        state = (state * 6364136223846793005 + 1442695040888963407) % 2**64
        yield state // 2**33


def id_of_kind(kind: int, number: int) -> int:
    """The UUID `0000000k-0000-4000-8000-` and the number in twelve hexadecimal digits."""
    return kind << 96 | 0x4000 << 64 | 0x8000 << 48 | number


def object_of(kind: int, number: int):
    return 0, id_of_kind(kind, number)


def named(subject, name: bytes):
    return subject, NAME, (0, name)


def classed(subject, name: bytes):
    return subject, TYPE, (2, CIM + name)


def base() -> Full:
    statements = set()
    for number in range(SUBSTATIONS):
        subject = object_of(1, number)
        statements |= {classed(subject, b"Substation"), named(subject, b"S%d" % number)}
    return Full(Header(id_of_kind(0, 0)), statements)


def project(number: int) -> Difference:
    """Renames a substation, and adds a voltage level."""
    substation, level = object_of(1, number - 1), object_of(3, number)
    header = Header(id_of_kind(2, number), supersedes=[id_of_kind(0, 0)])
    return Difference(header, pre={classed(substation, b"Substation")}, rev={named(substation, b"S%d" % (number - 1))},
                      fwd={named(substation, b"S%dr" % (number - 1)), classed(level, b"VoltageLevel"), named(level, b"V%d" % number)})


def stream(projects: int, seed: int) -> bytes:
    draws = drawn(seed)

    def day() -> bytes:
        return (FIRST_DAY + datetime.timedelta(days=next(draws) % DAYS)).isoformat().encode()

    document = canonical(base())
    parts = [b"base %d\n" % len(document), document]
    numbers = range(1, projects + 1)
    for number in numbers:
        document = canonical(project(number))
        parts += [b"file %s %d\n" % (day(), len(document)), document]
    parts += [b"redate %s %s\n" % (uuid_text(id_of_kind(2, number)), day()) for number in numbers if number % 3 == 0]
    parts += [b"withdraw %s\n" % uuid_text(id_of_kind(2, number)) for number in numbers if number % 5 == 0]
    return b"".join(parts) + b"summary 2031-12-31\nsummary 2036-12-31\nend\n"


if __name__ == "__main__":
    sys.stdout.buffer.write(stream(*map(int, sys.argv[1:])))

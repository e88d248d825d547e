"""A session takes 4,294,967,296 bytes as lines and documents. Whether the stream ends there, one byte sooner or one later,
decides whether it was cut (7), was too much (8), or was read to its `end`.

The streams come through a pipe and are not kept: 63 bases of the most bytes that a document may have, each refused at its
first byte, so that the session has no base and takes another. What stands behind them is chosen byte by byte. Each stream
takes the memory of one document, and as long as four billion bytes take to go through a pipe.
"""
import subprocess
import threading

import plain
from harness import NM, check, finish
from models import MOST_DOCUMENT
from plain import MOST_SESSION

BLOCK = bytes(1 << 20)
BIG_LINE = b"base %d\n" % MOST_DOCUMENT
REFUSED_AT_ONCE = b"refused document 0 piece\n"
FRONT_COUNT = 63
FRONT = FRONT_COUNT * (len(BIG_LINE) + MOST_DOCUMENT)
ROOM = MOST_SESSION - FRONT
assert 0 < ROOM < MOST_DOCUMENT


def fed(process, parts) -> None:
    """Gives the program the parts, each of which is bytes or a number of zeros."""
    try:
        for part in parts:
            if isinstance(part, bytes):
                process.stdin.write(part)
                continue
            for at in range(0, part, len(BLOCK)):
                process.stdin.write(BLOCK[:min(len(BLOCK), part - at)])
        process.stdin.close()
    except BrokenPipeError:
        pass  # the program stopped reading


def run_on(parts):
    """The replies and the status to a stream of these parts."""
    process = subprocess.Popen([NM, "session"], stdin=subprocess.PIPE, stdout=subprocess.PIPE)
    feeder = threading.Thread(target=fed, args=(process, parts))
    feeder.start()
    replies = process.stdout.read()
    status = process.wait(timeout=300)
    feeder.join()
    return replies, status


def refused_base(size: int):
    """A base of so many bytes with its line, all of them zeros."""
    return [b"base %d\n" % size, size]


def base_within(room: int):
    """A refused base that has so many bytes with its line."""
    size = next(size for size in range(room - 14, room) if len(b"base %d\n" % size) + size == room)
    return refused_base(size)


def check_stream(name: str, behind, replies: bytes, status: int) -> None:
    parts = refused_base(MOST_DOCUMENT) * FRONT_COUNT + behind
    check(name, (REFUSED_AT_ONCE * FRONT_COUNT + replies, status), run_on(parts))


def length_of(parts) -> int:
    return sum(len(part) if isinstance(part, bytes) else part for part in parts)


WHOLE = base_within(ROOM)
assert FRONT + length_of(WHOLE) == MOST_SESSION

check_stream("the most bytes, all of them whole commands, and no end", WHOLE, REFUSED_AT_ONCE, plain.TOO_MUCH)
check_stream("the same with an end behind them", [*WHOLE, b"end\n"], REFUSED_AT_ONCE, plain.TOO_MUCH)
check_stream("one byte less, in the last document", [WHOLE[0], WHOLE[1] - 1], b"", plain.CUT)
check_stream("one byte less, all of them whole commands", base_within(ROOM - 1), REFUSED_AT_ONCE, plain.CUT)
check_stream("an end that has the last of the most bytes", [*base_within(ROOM - 4), b"end\n"], REFUSED_AT_ONCE + b"end 0\n", plain.DONE)
check_stream("an end that is one byte late", [*base_within(ROOM - 3), b"end\n"], REFUSED_AT_ONCE, plain.TOO_MUCH)
check_stream("a document that ends one byte late", [b"base %d\n" % (WHOLE[1] + 1), WHOLE[1] + 1, b"end\n"], b"", plain.TOO_MUCH)

# 257 bytes without a line feed are no line, where the session may still take as many.
check_stream("a bad line of the last 257 bytes", [*base_within(ROOM - 257), b"q" * 300],
             REFUSED_AT_ONCE + b"badline %d\n" % (MOST_SESSION - 257), plain.BAD_SESSION)
check_stream("256 bytes of a line, and then no more are taken", [*base_within(ROOM - 256), b"q" * 300], REFUSED_AT_ONCE, plain.TOO_MUCH)
check_stream("255 bytes of a line, and then the input ends", [*base_within(ROOM - 256), b"q" * 255], REFUSED_AT_ONCE, plain.CUT)

finish()

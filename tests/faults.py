"""A source that fails, and sinks that fail at once, after so many bytes, and when nobody reads."""
import os
import resource
import signal
import subprocess
import tempfile

from harness import NM, TESTS, check, finish

ROW = TESTS / "rows/a-base-assembled"
GIVEN, REPLIES = ((ROW / name).read_bytes() for name in ("in", "out"))
READ_FAULT, WRITE_FAULT = 3, 4


def failing_source(path: str):
    with open(path, "rb") as source:
        ended = subprocess.run([NM, "session"], stdin=source, stdout=subprocess.PIPE, timeout=60)
    return ended.stdout, ended.returncode


check("a source whose reads fail", (b"", READ_FAULT), failing_source("/proc/self/mem"))

with open("/dev/full", "wb") as full:
    ended = subprocess.run([NM, "session"], input=GIVEN, stdout=full, timeout=60)
check("a sink that is full", WRITE_FAULT, ended.returncode)


def written_within(room: int):
    """What a file holds that takes no more than so many bytes, and the status."""
    def limited() -> None:
        signal.signal(signal.SIGXFSZ, signal.SIG_IGN)
        resource.setrlimit(resource.RLIMIT_FSIZE, (room, room))

    with tempfile.TemporaryFile() as sink:
        ended = subprocess.run([NM, "session"], input=GIVEN, stdout=sink, preexec_fn=limited, timeout=60)
        sink.seek(0)
        return sink.read(), ended.returncode


check("a sink with room for all replies", (REPLIES, 0), written_within(len(REPLIES)))
for room in (len(REPLIES) - 1, 300, 5, 1):
    check(f"a sink with room for {room} bytes", (REPLIES[:room], WRITE_FAULT), written_within(room))

reading, writing = os.pipe()
os.close(reading)
ended = subprocess.run([NM, "session"], input=GIVEN, stdout=writing, timeout=60, restore_signals=False)
os.close(writing)
check("a pipe that nobody reads", WRITE_FAULT, ended.returncode)

finish()

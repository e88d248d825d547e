"""Runs the built program and counts checks. NM names another program than the built one."""
import os
import re
import socket
import subprocess
import sys
import threading
from pathlib import Path

TESTS = Path(__file__).resolve().parent
NM = os.environ.get("NM", str(TESTS.parent / "crates/nm/out/nm"))
SECONDS = 300

failures = 0


def check(name: str, wanted, found) -> None:
    """Prints the line that `tests/run` counts."""
    global failures
    if wanted == found:
        print(f"passed {name}")
    else:
        failures += 1
        print(f"failed {name}: wanted {shown(wanted)}, found {shown(found)}")
    sys.stdout.flush()


def shown(value) -> str:
    text = repr(value)
    return text if len(text) <= 300 else f"{text[:200]} .. {text[-80:]}"


def first_difference(wanted: bytes, found: bytes):
    """Where two long outputs part, with a little of both, or None."""
    if wanted == found:
        return None
    at = next((i for i, (a, b) in enumerate(zip(wanted, found)) if a != b), min(len(wanted), len(found)))
    return f"at {at}: wanted {wanted[at:at + 80]!r}, found {found[at:at + 80]!r}"


def documents_in(replies: bytes):
    """The documents of the replies to `assemble`."""
    at = 0
    while found := re.compile(rb"^document ([0-9]+)\n", re.M).search(replies, at):
        at = found.end() + int(found[1])
        yield replies[found.end():at]


def finish() -> None:
    sys.exit(1 if failures else 0)


def run(given: bytes, words=("session",), **more):
    """The output and the status of the program on this input."""
    ended = subprocess.run([NM, *words], input=given, stdout=subprocess.PIPE, stderr=subprocess.PIPE,
                           timeout=SECONDS, **more)
    return ended.stdout, ended.returncode


def run_in_pieces(given: bytes, size: int, form: str = "session"):
    """The same, with each read of the program getting one piece of this size: a packet is read whole."""
    ours, theirs = socket.socketpair(socket.AF_UNIX, socket.SOCK_SEQPACKET)
    process = subprocess.Popen([NM, form], stdin=theirs, stdout=subprocess.PIPE)
    theirs.close()

    def feed() -> None:
        try:
            for at in range(0, len(given), size):
                ours.send(given[at:at + size])
        except OSError:
            pass  # the program stopped reading
        ours.close()

    feeder = threading.Thread(target=feed)
    feeder.start()
    found, _ = process.communicate(timeout=SECONDS)
    feeder.join()
    return found, process.returncode

"""The forms `canon` and `check` on files, pipes, devices and what fails; and what they leave unread, which is nothing."""
import os
import subprocess
import tempfile

import plain
from harness import NM, TESTS, check, documents_in, finish, run
from models import MOST_DOCUMENT

EXAMPLES = TESTS.parent / "examples"
BASE, FAULTY = EXAMPLES / "base.xml", EXAMPLES / "undeclared-prefix.xml"
FORMS = ("canon", "check")


def over_file(form: str, path):
    """What is written, the status, and where the program stopped to read."""
    with open(path, "rb") as source:
        ended = subprocess.run([NM, form], stdin=source, stdout=subprocess.PIPE, timeout=60)
        return ended.stdout, ended.returncode, os.lseek(source.fileno(), 0, os.SEEK_CUR)


for form in FORMS:
    for path in (BASE, FAULTY, EXAMPLES / "export.xml"):
        given = path.read_bytes()
        check(f"{form} of the file {path.name}, read to its end", (*plain.FORMS[form](given), len(given)), over_file(form, path))
    check(f"{form} of /dev/null", (b"fault 0 cut\n", plain.REFUSED, 0), over_file(form, "/dev/null"))

with tempfile.NamedTemporaryFile() as long:
    # a fault at once, and more behind it than is read of a document
    long.write(b"PK\x03\x04" + b" " * (MOST_DOCUMENT + 100_000))
    long.flush()
    for form in FORMS:
        written, status, at = over_file(form, long.name)
        check(f"{form} of a long file with a fault at its front", (b"fault 0 piece\n", plain.REFUSED, True),
              (written, status, at > MOST_DOCUMENT))


def over(form: str, source, sink=subprocess.PIPE):
    ended = subprocess.run([NM, form], stdin=source, stdout=sink, timeout=60)
    return ended.stdout, ended.returncode


for form in FORMS:
    folder = os.open(EXAMPLES, os.O_RDONLY)
    check(f"{form} of a directory", (b"", plain.READ_FAULT), over(form, folder))
    os.close(folder)
    for path in (BASE, FAULTY):
        with open(path, "rb") as source, open("/dev/full", "wb") as full:
            check(f"{form} of {path.name} on a full disk", (None, plain.WRITE_FAULT), over(form, source, full))


# What is written of any document is read as the same model: it is its own canonical document.
documents_given = [path.read_bytes() for path in sorted(EXAMPLES.glob("*.xml"))]
documents_given += [(path.parent / "in").read_bytes() for path in sorted((TESTS / "rows").glob("*/form"))]
count = 0
for given in documents_given:
    written, status = run(given, ("canon",))
    if status == plain.DONE:
        count += 1
        check(f"canon of canon, {len(written)} bytes", (written, plain.DONE), run(written, ("canon",)))
        check(f"check of canon, {len(written)} bytes", run(given, ("check",)), run(written, ("check",)))
check("documents were written", True, count > 12)

# An assembled model is a full model like any other: it is the base of another session.
for path in sorted(EXAMPLES.glob("*.session")):
    for document in documents_in(run(path.read_bytes())[0]):
        check(f"an assembly of {path.name} as a base", (b"ok 0\nend 0\n", plain.DONE), run(b"base %d\n" % len(document) + document + b"end\n"))

finish()

"""The documents and sessions of examples/: read, of the stated lengths, and answered as the plain rules say."""
import documents
import plain
from harness import TESTS, check, finish, first_difference, run
from models import canonical

EXAMPLES = TESTS.parent / "examples"

# Two documents are spelt as an export spells them, and one of these has a fault.
EXPORTS = ("export.xml", "undeclared-prefix.xml")

for path in sorted(EXAMPLES.glob("*.xml")):
    given = path.read_bytes()
    check(f"check of {path.name}", documents.told(given), run(given, ("check",)))
    if path.name not in EXPORTS:
        check(f"{path.name} is canonical", (None, 0), (first_difference(given, run(given, ("canon",))[0]), 0))

base = (EXAMPLES / "base.xml").read_bytes()
for path in sorted(EXAMPLES.glob("*.session")):
    given = path.read_bytes()
    check(f"{path.name} has the base of base.xml", True, given.startswith(b"base %d\n" % len(base) + base))
    wanted, status = plain.session(given)
    check(f"{path.name} is read to its end", plain.DONE, status)
    found, ended = run(given)
    check(path.name, (None, status), (first_difference(wanted, found), ended))

story = (EXAMPLES / "two-projects.session").read_bytes()
for line, name in ((b"file 2027-04-01 ", "rename-substation.xml"), (b"file 2027-09-15 ", "add-voltage-level.xml"),
                   (b"file 2027-06-01 ", "rename-again.xml")):
    document = (EXAMPLES / name).read_bytes()
    check(f"two-projects.session has {name}", True, line + b"%d\n" % len(document) + document in story)

finish()

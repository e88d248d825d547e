"""The man page: its examples write what it shows, and it names each form, each line of a session and each status."""
import re

import plain
from harness import check, finish
from shown import ROOT, output

PAGE = (ROOT / "man/nm.1").read_text()
TEXT = re.sub(r"\\f.", "", PAGE).replace(r"\~", " ").replace(r"\-", "-")

examples = re.findall(r"^\.EX\n\$ (.*)\n((?:(?!\.EE).*\n)*)\.EE$", TEXT, re.M)
for command, shown in examples:
    check(f"the man page on {command}", shown, output(re.sub(r"(^|\| )nm ", r"\1crates/nm/out/nm ", command)))
check("it has two examples", 2, len(examples))

for word in sorted(plain.FORMS) + ["gen"]:
    check(f"the man page names the form {word}", True, bool(re.search(rf'^\.BI? "?nm {word}', PAGE, re.M)))
for form in [plain.BASE, *plain.COMMANDS]:
    word = re.match(r"[a-z]+", form.pattern.decode())[0]
    check(f"the man page names the line {word}", True, bool(re.search(rf'^\.BI? "?{word}\b', PAGE, re.M)))
for status in range(plain.TOO_MUCH + 1):
    check(f"the man page names the status {status}", True, f"\n.TP\n.B {status}\n" in PAGE)

finish()

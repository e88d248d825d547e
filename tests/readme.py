"""Each block of the README and of docs/ that begins with a command holds what its commands write.

A command stands behind `$ `, and its further lines behind `> `; what it writes follows. The commands of a page run one
after another in one shell, as `shown.py` says.

    python3 tests/readme.py write      writes the blocks anew
"""
import re
import sys

from harness import check, finish
from shown import ROOT, outputs

PAGES = [ROOT / "README.md", *sorted((ROOT / "docs").glob("*.md"))]
BLOCK = re.compile(r"^```\n(\$ (?:(?!```).*\n)*)```$", re.M)
COMMAND = re.compile(r"^(\$ .*\n(?:> .*\n)*)((?:(?!\$ ).*\n)*)", re.M)


def command_of(lines: str) -> str:
    return re.sub(r"^[$>] ", "", lines, flags=re.M)


def main() -> None:
    count = 0
    for page in PAGES:
        text = page.read_text()
        shown = [found for block in BLOCK.findall(text) for found in COMMAND.findall(block)]
        written = outputs([command_of(lines) for lines, _ in shown])
        if sys.argv[1:] == ["write"]:
            left = iter(written)
            page.write_text(BLOCK.sub(
                lambda block: "```\n" + COMMAND.sub(lambda found: found[1] + next(left), block[1]) + "```", text))
            continue
        for (lines, wanted), found in zip(shown, written, strict=True):
            check(f"{page.name} on {command_of(lines).splitlines()[0]}", wanted, found)
            count += 1
    if sys.argv[1:] != ["write"]:
        check("there are commands", True, count > 5)
        finish()


main()

"""What `make install` leaves of `nm-store`: the program beside nm, its man page and its completion, and what these say."""
import re
import subprocess
import sys

from harness import NM, check, finish
from planner import PROGRAM, ROOT, SURROUNDINGS, Folder, base, substation
from shown import outputs

PAGE = (ROOT / "man/nm-store.1").read_text()
COMMANDS = {"new", "file", "revise", "redate", "withdraw", "try", "model", "object", "timeline", "projects", "log", "summary", "chart", "check", "canon"}
STATUSES = {0, 1, 2, 3, 4, 5, 9, 10, 11, 130}


def installed() -> None:
    with Folder() as folder:
        ended = subprocess.run(["make", "-s", "install", f"NM={NM}", f"PREFIX={folder.path}/our place"], cwd=ROOT, stdout=subprocess.DEVNULL)
        check("make install", 0, ended.returncode)
        place = folder.path / "our place"
        for file in ("bin/nm", "bin/nm-store", "share/man/man1/nm.1", "share/man/man1/nm-store.1", "share/bash-completion/completions/nm-store"):
            check(f"it leaves {file}", True, (place / file).is_file())
        document = folder.write("base.xml", base(substation(1, "Harbour")))
        (folder.path / "other").mkdir()
        other = folder.path / "other/nm"
        other.write_text("#!/bin/sh\necho no symbols\n")
        other.chmod(0o755)
        bare = {name: value for name, value in SURROUNDINGS.items() if name != "NM"}
        told = f"{document}: full model 00000000-0000-4000-8000-000000000000, 2 statements\n"
        for name, program, path in (("beside nm", f"{place}/bin/nm-store", f"{other.parent}:/usr/bin:/bin"),
                                    ("by the PATH, behind another nm", PROGRAM, f"{other.parent}:{place}/bin:/usr/bin:/bin")):
            ended = subprocess.run([sys.executable, program, "check", document], cwd=folder.path, stdout=subprocess.PIPE, env={**bare, "PATH": path})
            check(f"nm is found {name}", (told, 0), (ended.stdout.decode(), ended.returncode))
        ended = subprocess.run([sys.executable, PROGRAM, "check", document], cwd=folder.path, stderr=subprocess.DEVNULL, env={**bare, "PATH": str(other.parent)})
        check("nm is not found", 11, ended.returncode)


def page() -> None:
    text = re.sub(r"\\f.", "", PAGE).replace(r"\-", "-")
    example = text.split(".EX\n")[1].split(".EE")[0]
    commands = re.findall(r"^\$ (.*)$", example, re.M)
    check("the man page's examples", example, "".join(f"$ {command}\n{shown}" for command, shown in zip(commands, outputs(commands))))
    named = text.split(".SH COMMANDS")[1].split(".SH OPTIONS")[0]
    check("the man page names each command", COMMANDS, set(re.findall(r'^\.TP\n\.B\w* "?(\w+)', named, re.M)))
    check("the man page names each status", STATUSES, set(map(int, re.findall(r"^\.TP\n\.B (\d+)$", text, re.M))))
    source = (ROOT / "planner/nm-store").read_text()
    check("the program is no longer than it may be", True, len(source.split("\n")) <= 800)


def completed(*words) -> set:
    """What the completion gives for the last of these words."""
    line = " ".join(f"'{word}'" for word in words)
    script = f'source "{ROOT}/planner/nm-store.bash"; COMP_WORDS=({line}); COMP_CWORD={len(words) - 1}; _nm_store; printf "%s\\n" "${{COMPREPLY[@]}}"'
    ended = subprocess.run(["bash", "-c", script], cwd=ROOT / "examples", stdout=subprocess.PIPE, text=True)
    return set(ended.stdout.split("\n")) - {""}


def completion() -> None:
    check("the commands", COMMANDS, completed("nm-store", "grid.store", ""))
    check("a command that is begun", {"redate", "revise"}, completed("nm-store", "grid.store", "re"))
    check("a document", {"add-voltage-level.xml"}, completed("nm-store", "grid.store", "file", "2027-04-01", "add"))
    check("a document without a store", {"base.xml"}, completed("nm-store", "check", "base.x"))
    check("options", {"-o", "--json", "--help"}, completed("nm-store", "grid.store", "model", "2027-04-01", "-"))
    check("options of a change", {"--json", "--help"}, completed("nm-store", "grid.store", "redate", "-"))


installed()
page()
completion()
finish()

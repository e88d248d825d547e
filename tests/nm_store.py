"""`nm-store` on a file: each command, what it leaves in the file, the lock, interrupts, full disks, and files that are no store.

What is wanted is written by hand, or comes from the plain rules. The log of a store is put together here from its documents.
"""
import fcntl
import json
import os
import pty
import re
import resource
import signal
import stat
import subprocess

import plain
from harness import NM, check, finish, first_difference
from planner import EXAMPLES, SURROUNDINGS, WORDS, Folder, log_of

FIRST, SECOND = "c1d2e3f4-0516-4728-8394-a5b6c7d8e9f1", "c1d2e3f4-0516-4728-8394-a5b6c7d8e9f2"
REVISED = "c1d2e3f4-0516-4728-8394-a5b6c7d8e9f4"
BASE, RENAME, LEVEL, AGAIN = ((EXAMPLES / f"{name}.xml").read_bytes() for name in ("base", "rename-substation", "add-voltage-level", "rename-again"))
DESCRIBED = (EXAMPLES / "rename-with-description.xml").read_bytes()
STORE, BASE_FILE, RENAME_FILE, LEVEL_FILE = "Netz Süd.store", "Basis Nord.xml", "Umbau Köln.xml", "level.xml"
FILED = [("file 2027-04-01", RENAME), ("file 2027-09-15", LEVEL)]
QUAY, HARBOUR = "#_5f3b2c10-7d4e-4a61-9c00-0a1b2c3d4e0e", "#_5f3b2c10-7d4e-4a61-9c00-0a1b2c3d4e03"


def filled(folder: Folder, commands=FILED) -> bytes:
    """Puts the documents and a store of these commands into the folder."""
    for name, document in ((BASE_FILE, BASE), (RENAME_FILE, RENAME), (LEVEL_FILE, LEVEL), ("again.xml", AGAIN), ("described.xml", DESCRIBED)):
        folder.write(name, document)
    log = log_of(BASE, commands)
    folder.write(STORE, log)
    return log


def replies_of_plain(log: bytes, question: bytes) -> bytes:
    """What the plain rules reply to one question behind a log."""
    stream = log[:-len(b"end\n")]
    before, _ = plain.session(stream)
    behind, _ = plain.session(stream + question)
    return behind[len(before):]


def changes() -> None:
    """A month of changes: one line of what was done, and the log with one command more."""
    with Folder() as folder:
        filled(folder)
        (folder.path / STORE).unlink()
        done = []
        for words, said, commands in (
                (["new", BASE_FILE], f"{STORE} is made: full model b7c0a9d4-2f15-4e83-8a66-0d1e2f304152, 59 statements\n", []),
                (["file", "2027-04-01", RENAME_FILE], "filed as 1, in service from 2027-04-01\n", FILED[:1]),
                (["try", "2027-09-15", LEVEL_FILE], "would be filed as 2, in service from 2027-09-15\n", []),
                (["file", "2027-09-15", LEVEL_FILE], "filed as 2, in service from 2027-09-15\n", FILED[1:]),
                (["revise", "_" + FIRST.upper(), "described.xml"], f"revised as 3: the model of project {FIRST} is {REVISED}\n",
                 [(f"revise {FIRST}", DESCRIBED)]),
                (["redate", FIRST, "2027-05-01"], "redated as 4, in service from 2027-05-01\n", [(f"redate {FIRST} 2027-05-01", None)]),
                (["withdraw", "urn:uuid:" + SECOND], "withdrawn as 5\n", [(f"withdraw {SECOND}", None)])):
            done += commands
            check(f"{words[0]} says what was done", (said, "", 0), folder.run(STORE, *words))
            check(f"{words[0]} keeps the log", None, first_difference(log_of(BASE, done), folder.read(STORE)))
        check("nothing is left of new files", [f"{STORE}", f"{STORE}.lock", f"{STORE}.names"],
              [name for name in folder.names() if name.startswith(STORE)])
        kept = folder.read(STORE)
        said, errors, status = folder.run(STORE, "new", BASE_FILE)
        check("new replaces nothing", ("", 10, kept), (said, status, folder.read(STORE)))
        os.chmod(folder.path / STORE, 0o640)
        os.symlink(STORE, folder.path / "link")
        check("a store by another name", 0, folder.run("link", "redate", FIRST, "2027-05-02")[2])
        check("the name is a link still", True, (folder.path / "link").is_symlink())
        check("the mode of the file stays", 0o640, stat.S_IMODE((folder.path / STORE).stat().st_mode))


def questions() -> None:
    with Folder() as folder:
        log = filled(folder)
        folder.write(STORE + ".names", json.dumps({FIRST: RENAME_FILE}).encode())
        document = replies_of_plain(log, b"assemble 2027-09-15\n").split(b"\n", 1)[1]
        check("model", document.decode(), folder.run(STORE, "model", "2027-09-15")[0])
        check("log", log.decode(), folder.run(STORE, "log")[0])
        check("summary", "2027-09-15: 64 statements, 2 projects, 2 commits\n", folder.run(STORE, "summary", "2027-09-15")[0])
        check("projects", f"2027-04-01  {FIRST}  {RENAME_FILE}\n2027-09-15  {SECOND}  {SECOND}\n", folder.run(STORE, "projects")[0])
        wanted = ('EnergyConsumer "Quay" on 2027-09-15: 5 statements\n  EnergyConsumer.p = "8.4"\n  EnergyConsumer.q = "1.9"\n'
                  '  Equipment.EquipmentContainer = VoltageLevel "Harbour West 20"\n  IdentifiedObject.name = "Quay"\n  type = EnergyConsumer\n')
        for about in (QUAY, QUAY[1:], QUAY[2:], "urn:uuid:" + QUAY[2:]):
            check(f"object {about}", (wanted, "", 0), folder.run(STORE, "object", "2027-09-15", about))
        lines = replies_of_plain(log, f"timeline {HARBOUR}\n".encode()).decode().split("\n")[1:-1]
        found = json.loads(folder.run(STORE, "timeline", HARBOUR, "--json")[0])
        check("timeline", lines, [f"{row['part']} {row['line']}" if row["day"] is None else f"{row['day']} {row['model']} {row['part']} {row['line']}"
                                  for row in found["lines"]])
        said = folder.run(STORE, "timeline", HARBOUR)[0].split("\n")
        check("timeline in words", ['Substation "Harbour West": 8 lines',
                                    f'  2027-04-01  reverse       IdentifiedObject.name = "Harbour"  ({RENAME_FILE})'], [said[0], said[3]])
        check("a document in a file", ("", "", 0), folder.run(STORE, "model", "2027-09-15", "-o", "Modell Ä.xml"))
        check("it is whole", None, first_difference(document, folder.read("Modell Ä.xml")))
        check("canon", (BASE.decode(), "", 0), folder.run("canon", BASE_FILE))
        check("check", (f"{BASE_FILE}: full model b7c0a9d4-2f15-4e83-8a66-0d1e2f304152, 59 statements\n"
                        f"{LEVEL_FILE}: difference model {SECOND}, 1 precondition, 1 reverse statement, 6 forward statements\n", "", 0),
              folder.run("check", BASE_FILE, LEVEL_FILE))
        check("the questions left the store", log, folder.read(STORE))
        for words in (["model", "2027-09-15"], ["object", "2027-09-15", QUAY], ["projects"], ["log"], ["summary", "2027-09-15"], ["chart"],
                      ["try", "2027-09-15", "again.xml"], ["withdraw", FIRST]):
            said, _, status = folder.run(STORE, *words, "--json")
            check(f"{words[0]} is one JSON value", True, said.count("\n") == 1 and bool(json.loads(said)))
        refused = json.loads(folder.run(STORE, "withdraw", FIRST, "--json")[0])
        check("a refusal as JSON", ("step", "2027-09-15", SECOND, "dependency", FIRST),
              tuple(refused[name] for name in ("refused", "day", "model", "cause", "dependency")))


def with_a_session_behind(folder: Folder, first: str) -> dict:
    """Surroundings in which nm is one whose sessions come behind this command of a shell."""
    program = folder.path / "nm that waits"
    program.write_text(f'#!/bin/sh\n[ "$1" = session ] && {first}\nexec "{NM}" "$@"\n')
    program.chmod(0o755)
    return {**SURROUNDINGS, "NM": str(program), "USER": "anna"}


def hear_interrupts() -> None:
    """What a shell starts in the background ignores interrupts, and so would what it starts in turn."""
    signal.signal(signal.SIGINT, signal.SIG_DFL)


def one_that_waits(folder: Folder):
    """A filing that holds the store, and the gate at which its nm waits for a line."""
    os.mkfifo(folder.path / "gate")
    first = subprocess.Popen([*WORDS, STORE, "file", "2027-09-15", LEVEL_FILE], cwd=folder.path, stdout=subprocess.PIPE,
                             stderr=subprocess.PIPE, env=with_a_session_behind(folder, f'read line < "{folder.path}/gate"'),
                             preexec_fn=hear_interrupts)
    gate = open(folder.path / "gate", "w")  # opens as soon as the first holds the store, or just before
    while not (folder.path / f"{STORE}.lock").exists() or not folder.read(f"{STORE}.lock"):
        pass
    return first, gate


def two_at_once() -> None:
    with Folder() as folder:
        log = filled(folder, FILED[:1])
        first, gate = one_that_waits(folder)
        said, errors, status = folder.run(STORE, "file", "2027-06-01", "again.xml")
        check("the second is told", ("", 9, True, True, True), (said, status, f"anna, process {first.pid} on" in errors,
                                                               f"file 2027-09-15 {LEVEL_FILE}" in errors, errors.count("\n") < 3))
        check("questions need no lock", 0, folder.run(STORE, "projects")[2])
        check("the store is as it was", log, folder.read(STORE))
        gate.write("go\n")
        gate.close()
        check("the first is done", ("filed as 2, in service from 2027-09-15\n", 0), (first.communicate()[0].decode(), first.returncode))
        check("its command is in the store", log_of(BASE, FILED), folder.read(STORE))
        with open(folder.path / f"{STORE}.lock", "r+b") as lock:
            fcntl.flock(lock, fcntl.LOCK_EX)
            check("a lock that names nobody", 9, folder.run(STORE, "withdraw", SECOND)[2])
        check("and behind it", 0, folder.run(STORE, "withdraw", SECOND)[2])


def interrupts() -> None:
    with Folder() as folder:
        log = filled(folder, FILED[:1])
        first, gate = one_that_waits(folder)
        first.send_signal(signal.SIGINT)
        said, errors = first.communicate(timeout=60)
        gate.close()
        check("an interrupt", (b"", b"nm-store: interrupted\n", 130, log), (said, errors, first.returncode, folder.read(STORE)))
        check("the store is free behind it", 0, folder.run(STORE, "file", "2027-09-15", LEVEL_FILE)[2])


def bars() -> None:
    """A bar on a terminal alone. The base is 5,089 of the 7,784 bytes of documents, and the bar waits there for a slow nm."""
    with Folder() as folder:
        filled(folder)
        slow = with_a_session_behind(folder, "sleep 1.5")
        ours, theirs = pty.openpty()
        ended = subprocess.run([*WORDS, STORE, "summary", "2027-09-15"], cwd=folder.path, stdout=subprocess.PIPE, stderr=theirs, env=slow)
        os.close(theirs)
        drawn = b""
        with open(ours, "rb", buffering=0) as terminal:
            try:
                while more := terminal.read(4096):
                    drawn += more
            except OSError:
                pass  # the end of a terminal
        shares = [int(share) for share in re.findall(rb"\] (\d+) %", drawn)]
        check("the answer beside a bar", (b"2027-09-15: 64 statements, 2 projects, 2 commits\n", 0), (ended.stdout, ended.returncode))
        check("the bar says what is done", f"\r\033[Kreading {STORE} [{'#' * 19}{'.' * 11}] 65 %", drawn.decode()[:len(STORE) + 50])
        check("the bar goes no way back", sorted(shares), shares)
        check("the bar is taken away", b"\r\033[K", drawn[-4:])
        check("no bar where there is no terminal", "", folder.run(STORE, "summary", "2027-09-15", env=slow)[1])


def many_at_once() -> None:
    """Redates that run beside one another: as many are in the log as were accepted, and the others were told of the lock."""
    with Folder() as folder:
        filled(folder, FILED[:1])
        days = [f"2027-05-{day:02}" for day in range(1, 9)]
        running = [subprocess.Popen([*WORDS, STORE, "redate", FIRST, day], cwd=folder.path, env=SURROUNDINGS,
                                    stdout=subprocess.PIPE, stderr=subprocess.DEVNULL) for day in days]
        ended = [(day, process.communicate()[0].decode(), process.returncode) for day, process in zip(days, running)]
        accepted = sorted((said.split(",")[0], day) for day, said, status in ended if status == 0)
        commands = FILED[:1] + [(f"redate {FIRST} {day}", None) for _, day in accepted]
        check("one at least is accepted", True, len(accepted) > 0)
        check("each other finds the lock", {0, 9}, {0, 9} | {status for _, _, status in ended})
        check("the log has those that were accepted", log_of(BASE, commands), folder.read(STORE))


def full_disks() -> None:
    def little_room() -> None:
        resource.setrlimit(resource.RLIMIT_FSIZE, (4_000, 4_000))

    with Folder() as folder:
        log = filled(folder)
        for words in (["withdraw", SECOND], ["redate", SECOND, "2027-10-01"]):
            said, errors, status = folder.run(STORE, *words, preexec_fn=little_room)
            check(f"{words[0]} on a full disk", ("", 4, log, False), (said, status, folder.read(STORE), f"{STORE}.new" in folder.names()))
        folder.write("model.xml", b"old")
        check("an output on a full disk", 4, folder.run(STORE, "model", "2027-09-15", "-o", "model.xml", preexec_fn=little_room)[2])
        check("it is as it was", (b"old", []), (folder.read("model.xml"), [name for name in folder.names() if name.endswith(".new")]))
        check("an output that is a device", 4, folder.run(STORE, "log", "-o", "/dev/full")[2])
        ended = subprocess.run(["bash", "-c", '"$@" > /dev/full', "bash", *WORDS, STORE, "projects"], cwd=folder.path, env=SURROUNDINGS,
                               stderr=subprocess.PIPE)
        check("a full standard output", (4, b"nm-store: writing failed: No space left on device\n"), (ended.returncode, ended.stderr))
        check("a folder that is not there", 4, folder.run(STORE, "log", "-o", "no/log")[2])


def no_stores() -> None:
    with Folder() as folder:
        log = filled(folder)
        for name, content in (
                ("an empty file", b""), ("the end alone", b"end\n"), ("a document", BASE), ("a log without its end", log[:-4]),
                ("a log that was cut", log[:-1000]), ("bytes behind the end", log + b"\n"), ("a second base", log_of(BASE, [("base", BASE)])),
                ("a command that does not fit", log_of(BASE, [("file 2027-09-15", LEVEL)])),
                ("a day that is none", log_of(BASE, [("file 2027-02-29", RENAME)])),
                ("a question", log[:-4] + b"projects\nend\n")):
            folder.write("other", content)
            for words in (["projects"], ["file", "2027-09-15", LEVEL_FILE]):
                said, errors, status = folder.run("other", *words)
                check(f"{words[0]} where the store is {name}", ("", 10, 1, content), (said, status, errors.count("\n"), folder.read("other")))
        check("no file", 10, folder.run("nothing", "projects")[2])
        check("a folder", 10, folder.run(".", "projects")[2])
        folder.write("older", log[:-4] + f"redate {FIRST.upper()} 2027-05-01\nend\n".encode())
        check("an older log that replays", f"2027-05-01  {FIRST}  {FIRST}\n", folder.run("older", "projects")[0].splitlines(True)[0])


def other_programs() -> None:
    """A program that is not nm, and one that ends too early: the store stays as it is."""
    with Folder() as folder:
        log = filled(folder, FILED[:1])
        check("no nm", 11, folder.run(STORE, "projects", env={**SURROUNDINGS, "NM": "/bin/true"})[2])
        stand_in = folder.path / "nm"
        surroundings = {**SURROUNDINGS, "NM": str(stand_in)}
        for name, ending, status in (("in the middle of its log", "printf 'log 20\\nbase 5089'; exit 5", 5), ("before its log", "exit 7", 11),
                                     ("killed in its log", "printf 'log 20\\nbase 5089'; kill -9 $$", 11)):
            stand_in.write_text('#!/bin/bash\nLC_ALL=C\n[ $# = 0 ] && echo "usage: nm session | .." >&2 && exit 2\n'
                                f'[ $1 = check ] && exec "{NM}" check\nnumber=0\n'
                                'while read -r word more; do [ "$word" = log ] && break\n'
                                'case $word in base|file) read -r -N "${more##* }" body; esac; echo "ok $number"; number=$((number + 1)); done\n'
                                f"{ending}\n")
            stand_in.chmod(0o755)
            said, errors, found = folder.run(STORE, "redate", FIRST, "2027-05-01", env=surroundings)
            check(f"an nm that ends {name}", ("", status, log), (said, found, folder.read(STORE)))


def words_of_the_command_line() -> None:
    with Folder() as folder:
        log = filled(folder)
        for words in ([], [STORE], [STORE, "assemble", "2027-04-01"], [STORE, "file", "2027-4-1", LEVEL_FILE], [STORE, "redate", "1", "2027-04-01"],
                      [STORE, "model", "2027-02-29"], [STORE, "redate", FIRST, "2027-05-01\nend"], [STORE, "object", "2027-05-01", "#_a b"]):
            said, _, status = folder.run(*words)
            check(f"words {words}", ("", 2, log), (said, status, folder.read(STORE)))
        check("a document that is not there", 3, folder.run(STORE, "file", "2027-04-01", "nothing.xml")[2])
        for command in ("new", "file", "revise", "redate", "withdraw", "try", "model", "object", "timeline", "projects", "log", "summary", "chart",
                        "check", "canon"):
            said, _, status = folder.run(STORE, command, "--help")
            check(f"{command} --help has an example", (0, True), (status, f"{command} " in said.split("example: nm-store ")[-1]))


changes()
questions()
two_at_once()
interrupts()
bars()
many_at_once()
full_disks()
no_stores()
other_programs()
words_of_the_command_line()
finish()

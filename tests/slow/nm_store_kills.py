"""`nm-store file`, killed at 200 places: the store is the old one or the new one, and the command can be given again.

A place is a line of the program that is about to run. The last fifty lines before the end are all tried, since the file is
replaced there, and the others are spread over the rest. The places within one write are those of the system: what is written
then is a file of another name.
"""
import re
import subprocess
import sys

from harness import check, finish
from planner import PROGRAM, SURROUNDINGS, Folder, base, log_of, project, substation

PLACES, LAST = 200, 50
# Runs a program, counts the lines of its file that it comes to, and kills the process at the one that is asked. What runs once
# for each letter of a text is not counted: the number of a process, which is in one, has more digits at one run than at another.
DRIVER = """
import os, runpy, signal, sys
program, place = sys.argv[1], int(sys.argv[2])
del sys.argv[1:3]
sys.argv[0] = program
count = 0
def trace(frame, event, argument):
    global count
    if frame.f_code.co_filename != program or frame.f_code.co_name == "<genexpr>":
        return None
    if event == "line":
        count += 1
        if count == place:
            os.kill(os.getpid(), signal.SIGKILL)
    return trace
sys.settrace(trace)
try:
    runpy.run_path(program, run_name="__main__")
finally:
    sys.settrace(None)
    print(count, file=sys.stderr)
"""

BASE = base(substation(1, "Harbour"))
FIRST, SECOND = project(1, adds=substation(2, "Quay")), project(2, depends=[1], adds=substation(3, "Bay"))
OLD, NEW = (log_of(BASE, [("file 2027-04-01", FIRST), ("file 2027-09-15", SECOND)][:count]) for count in (1, 2))
WORDS = ["grid.store", "file", "2027-09-15", "second.xml"]


def run_to(folder: Folder, place: int):
    folder.write("grid.store", OLD)
    folder.write("second.xml", SECOND)
    return subprocess.run([sys.executable, "-c", DRIVER, PROGRAM, str(place), *WORDS], cwd=folder.path, env=SURROUNDINGS, stdin=subprocess.DEVNULL,
                          stdout=subprocess.PIPE, stderr=subprocess.PIPE, timeout=60)


with Folder() as folder:
    whole = run_to(folder, 0)
    check("a run that is not killed", (0, NEW), (whole.returncode, folder.read("grid.store")))
    lines = int(whole.stderr)
check("there are lines enough", True, lines > 2 * PLACES)
spread = [1 + at * (lines - LAST) // (PLACES - LAST) for at in range(PLACES - LAST)]
seen = set()
for place in [*spread, *range(lines - LAST + 1, lines + 1)]:
    with Folder() as folder:
        ended = run_to(folder, place)
        kept = folder.read("grid.store")
        name = "old" if kept == OLD else "new" if kept == NEW else f"another of {len(kept)} bytes"
        said, errors, status = folder.run(*WORDS)
        again = {"old": (0, r"filed as 2, in service from 2027-09-15\n"), "new": (1, r"refused: the identifier .* is in use: .*filed as 2, .*\n")}
        check(f"killed at line {place} of {lines}", (-9, True, True, NEW),
              (ended.returncode, name in again, name in again and status == again[name][0] and bool(re.fullmatch(again[name][1], said)),
               folder.read("grid.store")))
        seen.add(name)
        left = [other for other in folder.names() if other.endswith(".new")]
        if name == "old":
            check(f"killed at line {place}: nothing is left of it", [], left)
check("both came", {"old", "new"}, seen)

finish()

"""The charts of `nm-store`, read as XML: a row for each project below what it stands on, with its days and marks.

Where Chromium is there they are rendered too, for 10 and for 200 projects, and no text of the picture's page lies on another.

    python3 tests/nm_store_chart.py FOLDER      leaves the charts and their pictures in the folder, to be looked at
"""
import datetime
import json
import re
import shutil
import subprocess
import sys
from pathlib import Path
from xml.etree import ElementTree

from harness import check, finish
from planner import Folder, base, log_of, named, project, substation

SVG = "{http://www.w3.org/2000/svg}"
P = "00000002-0000-4000-8000-{:012x}"
CHROMIUM = shutil.which("chromium") or shutil.which("chromium-browser") or shutil.which("google-chrome")
FIRST_DAY = datetime.date(2027, 1, 4)


def day(index: int, count: int) -> str:
    return str(FIRST_DAY + datetime.timedelta(days=index * 900 // count))


def day_before(index: int, count: int) -> str:
    return str(datetime.date.fromisoformat(day(index, count)) - datetime.timedelta(days=1))


def name(index: int) -> str:
    return f"Umspannwerk Süd & <{index}>.xml"


def store_of(count: int):
    """Projects of which each fifth is revised, each seventh is redated by a day and back, and most stand on earlier ones."""
    depends = {index: sorted({index // 2, index // 3} - {0}) if index % 3 else [] for index in range(1, count + 1)}
    commands = [(f"file {day(index, count)}", project(index, depends[index], adds=substation(index, f"Station {index}"))) for index in depends]
    for index in range(5, count + 1, 5):
        commands.append((f"revise {P.format(index)}", project(10_000 + index, depends[index], [index], adds=substation(index, "revised"))))
    for index in range(7, count + 1, 7):
        commands += [(f"redate {P.format(index)} {day_before(index, count)}", None), (f"redate {P.format(index)} {day(index, count)}", None)]
    return log_of(base(substation(0, "Harbour")), commands), depends


def texts(root, style: str) -> list:
    return [(float(text.get("x")), float(text.get("y")), text.text) for text in root.iter(f"{SVG}text") if text.get("class") == style]


def charts_of(folder: Folder, count: int) -> bytes:
    log, depends = store_of(count)
    store = folder.write(f"{count} projects.store", log)
    folder.write(store + ".names", json.dumps({P.format(index): name(index) for index in depends}).encode())
    check(f"the chart of {count} projects", ("", "", 0), folder.run(store, "chart", "-o", f"{count}.svg"))
    root = ElementTree.fromstring(folder.read(f"{count}.svg"))
    labels, bars = texts(root, "label"), texts(root, "onbar")
    rows = {int(text.split(" ")[0]): y for _, y, text in labels}
    check(f"{count} projects have a row each", (sorted(depends), count), (sorted(rows), len(set(rows.values()))))
    check(f"of {count} projects each is below what it stands on", [], [(index, other) for index in depends for other in depends[index]
                                                                      if rows[index] <= rows[other]])
    check(f"{count} labels", {f"{index} {name(index)}" for index in depends}, {text for _, _, text in labels})
    said = {y: text for _, y, text in bars}
    for index, mark in ((1, day(1, count)), (5, f"{day(5, count)} · revised"), (7, f"{day(7, count)} · redated from {day_before(7, count)}")):
        check(f"what the bar of project {index} of {count} says", mark, said[rows[index]])
    places = {text[:10]: x for x, _, text in bars}
    check(f"{count} bars begin in the order of their days", sorted(places), sorted(places, key=places.get))
    shapes = [path.get("class") for path in root.iter(f"{SVG}path")]
    circles = [circle.get("class") for circle in root.iter(f"{SVG}circle")]
    check(f"{count} projects: revised, redated, stand on another", (count // 5, count // 7, sum(map(len, depends.values()))),
          (shapes.count("revised"), circles.count("former"), shapes.count("stands")))
    return folder.read(f"{count}.svg")


def overlaps(folder: Folder, file: str) -> list:
    """Pairs of texts of which one lies on the other, as the browser places them."""
    page = f"""<html><meta charset="utf-8"><body>{(folder.path / file).read_text()}<script>
    const found = [], texts = [...document.querySelectorAll("svg text")].map(text => [text.textContent, text.getBoundingClientRect()]);
    texts.forEach(([a, p], i) => texts.slice(i + 1).forEach(([b, q]) => {{
        if (p.left < q.right && q.left < p.right && p.top + 3 < q.bottom && q.top + 3 < p.bottom) found.push(a + " | " + b); }}));
    const wide = document.querySelector("svg").getBoundingClientRect().right;
    texts.forEach(([a, p]) => {{ if (p.right > wide || p.left < 0) found.push(a); }});
    document.title = JSON.stringify([texts.length, found]);</script></body></html>"""
    folder.write("page.html", page.encode())
    ended = subprocess.run([CHROMIUM, "--headless", "--no-sandbox", "--disable-gpu", "--dump-dom", f"file://{folder.path}/page.html"],
                           stdout=subprocess.PIPE, stderr=subprocess.DEVNULL, timeout=300)
    title = re.search(r"<head>.*?<title>(.*?)</title>", ended.stdout.decode(), re.S)[1]
    return json.loads(title.replace("&lt;", "<").replace("&gt;", ">").replace("&amp;", "&"))


def picture(folder: Folder, file: str, height: str) -> bytes:
    subprocess.run([CHROMIUM, "--headless", "--no-sandbox", "--disable-gpu", "--hide-scrollbars", f"--window-size=1360,{height}",
                    f"--screenshot={folder.path}/picture.png", f"file://{folder.path}/{file}"], stderr=subprocess.DEVNULL, timeout=300)
    return folder.read("picture.png")


def life_of_an_object(folder: Folder) -> None:
    commands = [("file 2027-04-01", project(1, without=[named(1, "Harbour")], adds=[named(1, "West")])),
                ("file 2027-09-15", project(2, without=[named(1, "West")], adds=[named(1, "Harbour")]))]
    store = folder.write("grid.store", log_of(base(substation(1, "Harbour")), commands))
    root = ElementTree.fromstring(folder.run(store, "chart", "00000001-0000-4000-8000-000000000001")[0])
    rows = {y: text for _, y, text in texts(root, "label")}
    bars = sorted((rows[y], x, text) for x, y, text in texts(root, "onbar"))
    begins = {text: x for _, x, text in bars}
    check("the life of each statement", [('IdentifiedObject.name = "Harbour"', "base"), ('IdentifiedObject.name = "Harbour"', f"2027-09-15 · {P.format(2)}"),
                                         ('IdentifiedObject.name = "West"', f"2027-04-01 · {P.format(1)}"), ("type = Substation", "base")],
          [(row, text) for row, _, text in bars])
    ends = {float(bar.get("x")) + 10: float(bar.get("x")) + float(bar.get("width")) + 10 for bar in root.iter(f"{SVG}rect") if bar.get("class")}
    lives = [(begins[f"2027-04-01 · {P.format(1)}"], begins[f"2027-09-15 · {P.format(2)}"])]
    check("a statement ends where it is taken away", [round(end, 1) for _, end in lives], [round(ends[begin], 1) for begin, _ in lives])


def main() -> None:
    with Folder() as folder:
        life_of_an_object(folder)
        for count in (10, 200):
            drawn = charts_of(folder, count)
            height = re.search(rb'height="(\d+)"', drawn)[1].decode()
            if CHROMIUM:
                number, found = overlaps(folder, f"{count}.svg")
                check(f"no text of {count} projects lies on another", (True, []), (number > 2 * count, found))
                check(f"{count} projects are drawn", b"\x89PNG", picture(folder, f"{count}.svg", height)[:4])
            if sys.argv[1:]:
                shutil.copy(folder.path / f"{count}.svg", Path(sys.argv[1]))
                if CHROMIUM:
                    shutil.copy(folder.path / "picture.png", Path(sys.argv[1]) / f"{count}.png")
    finish()


main()

"""What `nm-store` says of each refusal, and of each of the 13 faults of a document with its line, its column and a caret.

The documents are written here, and what is wanted is written by hand.
"""
import json
import re

from harness import NM, TESTS, check, finish
from planner import ROOT, SURROUNDINGS, Folder, base, log_of, named, number, project, substation

P = "00000002-0000-4000-8000-00000000000{}"
BASE_ID, HARBOUR = "00000000-0000-4000-8000-000000000000", "#_00000001-0000-4000-8000-000000000001"
NAME = "<http://iec.ch/TC57/2013/CIM-schema-cim16#IdentifiedObject.name>"
BASE = base(substation(1, "Harbour"), substation(2, "Quay"))
RENAME = project(1, without=[named(1, "Harbour")], adds=[named(1, "West")])
STANDS_ON = project(2, depends=[1], before=[named(1, "West")], adds=[named(3, "Bay")])
COMMANDS = [("file 2027-04-01", RENAME), ("file 2027-09-15", STANDS_ON)]
WEST = 'Substation "West" · IdentifiedObject.name'


def said_of_step(model: str, fits: str, day: str, cause: str, *behind: str) -> str:
    return f"refused: {model} {fits} on {day}: it {cause}\n" + "".join(f"  {line}\n" for line in behind)


OWN, OTHER = "does not fit", "would not fit any more"
REFUSALS = [  # what it shows, the words, the document, what is said
    ("a base that is none", ["new", "new.xml"], RENAME, "refused: new.xml is a difference model, and a base is a full model\n"),
    ("a project that is none", ["file", "2027-05-01", "new.xml"], BASE, "refused: new.xml is a full model, and a project is a difference model\n"),
    ("no such project", ["withdraw", P.format(9)], None, f"refused: no live project was filed with the model {P.format(9)}\n"),
    ("no such project to redate", ["redate", P.format(9), "2027-05-01"], None, f"refused: no live project was filed with the model {P.format(9)}\n"),
    ("a revision that supersedes nothing", ["revise", P.format(1), "new.xml"], project(4),
     f"refused: new.xml does not supersede the project's current model, rename it.xml (model {P.format(1)})\n"),
    ("the current model once more", ["revise", P.format(1), "new.xml"], RENAME,
     f"refused: new.xml is the project's current model already ({P.format(1)})\n"),
    ("a model that is filed", ["file", "2027-05-01", "new.xml"], RENAME,
     f"refused: the identifier {P.format(1)} of new.xml is in use: rename it.xml, filed as 1, in service from 2027-04-01\n"),
    ("the base's identifier", ["file", "2027-05-01", "new.xml"], RENAME.replace(P.format(1).encode(), BASE_ID.encode()),
     f"refused: the identifier {BASE_ID} of new.xml is in use: it is the base's\n"),
    ("a dependency", ["file", "2027-05-01", "new.xml"], project(5, depends=[2]),
     said_of_step("new.xml", OWN, "2027-05-01", "depends on a model that is not there by then", f"model {P.format(2)}", f"in model {P.format(5)}")),
    ("a precondition", ["try", "2027-05-01", "new.xml"], project(5, before=[named(1, "Harbour")]),
     said_of_step("new.xml", OWN, "2027-05-01", "has a precondition that does not hold", f'{WEST} = "Harbour"', f'{HARBOUR} {NAME} "Harbour"',
                  f"in model {P.format(5)}")),
    ("a reverse statement", ["file", "2027-05-01", "new.xml"], project(5, without=[named(1, "Harbour")]),
     said_of_step("new.xml", OWN, "2027-05-01", "takes away a statement that is not there", f'{WEST} = "Harbour"', f'{HARBOUR} {NAME} "Harbour"',
                  f"in model {P.format(5)}")),
    ("a forward statement", ["file", "2027-05-01", "new.xml"], project(5, adds=[named(1, "West")]),
     said_of_step("new.xml", OWN, "2027-05-01", "adds a statement that is there already", f'{WEST} = "West"', f'{HARBOUR} {NAME} "West"',
                  f"in model {P.format(5)}")),
    ("another project", ["withdraw", P.format(1)], None,
     said_of_step(f"model {P.format(2)}", OTHER, "2027-09-15", "depends on a model that is not there by then", f"rename it.xml (model {P.format(1)})")),
    ("another project's statement", ["file", "2027-05-01", "new.xml"], project(5, without=[named(1, "West")], adds=[named(1, 'Öst "1"')]),
     said_of_step(f"model {P.format(2)}", OTHER, "2027-09-15", "has a precondition that does not hold", f'{WEST} = "West"', f'{HARBOUR} {NAME} "West"')),
]


def refusals() -> None:
    for name, words, document, wanted in REFUSALS:
        with Folder() as folder:
            log = log_of(BASE, COMMANDS)
            store = folder.write("grid.store", log) if words[0] != "new" else "grid.store"
            folder.write("grid.store.names", json.dumps({P.format(1): "rename it.xml"}).encode())
            folder.write("new.xml", document or b"")
            check(f"refused for {name}", (wanted, "", 1), folder.run(store, *words))
            found, _, status = folder.run(store, *words, "--json")
            check(f"refused for {name}, as JSON", (1, wanted.split("\n")[0]), (status, "refused: " + json.loads(found)["words"]))
            check(f"refused for {name}: the store is as it was", log if words[0] != "new" else None,
                  folder.read("grid.store") if "grid.store" in folder.names() else None)


def revisions() -> None:
    with Folder() as folder:
        revised = project(6, supersedes=[1], without=[named(1, "Harbour")], adds=[named(1, "West"), named(4, "More")])
        folder.write("grid.store", log_of(BASE, [*COMMANDS, (f"revise {P.format(1)}", revised)]))
        folder.write("again.xml", revised)
        check("a project named by a later model", (f"refused: no live project was filed with the model {P.format(6)}: "
                                                   f"model {P.format(6)} is a later model of project {P.format(1)}\n", "", 1),
              folder.run("grid.store", "withdraw", P.format(6)))
        check("a revision's identifier", (f"refused: the identifier {P.format(6)} of again.xml is in use: a revision of project {P.format(1)}\n", "", 1),
              folder.run("grid.store", "file", "2027-05-01", "again.xml"))


def limits() -> None:
    """A stand-in for nm answers with the limits: the stores that reach them are those of `most_projects`, `logs` and `most_bytes`."""
    for limit, said in (("L4", "there are 4,096 live projects already"), ("L5", "65,536 commands were accepted already"),
                        ("L6", "the documents would have more than 268,435,456 bytes together")):
        with Folder() as folder:
            stand_in = folder.path / "nm"
            stand_in.write_text(f'#!/bin/sh\n[ $# = 0 ] && echo "usage: nm session | .." >&2 && exit 2\n[ $1 = check ] && exec "{NM}" check\n'
                                f'[ $1 = canon ] && exec "{NM}" canon\n"{NM}" session | sed -u "s/^ok 3$/refused limit {limit}/"\n')
            stand_in.chmod(0o755)
            folder.write("grid.store", log_of(BASE, COMMANDS))
            folder.write("new.xml", project(5))
            check(f"refused for the limit {limit}", (f"refused: {said}\n", "", 1),
                  folder.run("grid.store", "file", "2027-05-01", "new.xml", env={**SURROUNDINGS, "NM": str(stand_in)}))


LINES = ['<?xml version="1.0" encoding="UTF-8"?>',
         '<rdf:RDF xmlns:rdf="http://www.w3.org/1999/02/22-rdf-syntax-ns#" xmlns:md="http://iec.ch/TC57/61970-552/ModelDescription/1#"'
         ' xmlns:cim="http://iec.ch/TC57/2013/CIM-schema-cim16#">',
         f'<md:FullModel rdf:about="urn:uuid:{BASE_ID}">', "</md:FullModel>",
         '<cim:Substation rdf:ID="_00000001-0000-4000-8000-000000000001">',
         "<cim:IdentifiedObject.name>Süd</cim:IdentifiedObject.name>", "</cim:Substation>", "</rdf:RDF>"]
FAULTS = [  # the code, the line that is changed, what is put for what, and the line and the column of the fault
    ("cut", 8, "</rdf:RDF>", "", 8, 1),
    ("piece", 6, "Süd", "Süd & Nord", 6, 28),
    ("doctype", 2, "<rdf:RDF", "<!DOCTYPE rdf:RDF><rdf:RDF", 2, 1),
    ("stray", 1, "<?xml", "\n<?xml", 2, 1),
    ("encoding", 1, "UTF-8", "ISO-8859-1", 1, 1),
    ("nesting", 7, "</cim:Substation>", " </cim:Breaker>", 7, 2),
    ("header", 3, "md:FullModel", "cim:FullModel", 3, 1),
    ("limit", 6, "Süd", "S" * 65_537, 6, 28),
    ("text", 6, "</cim:IdentifiedObject.name>", "</cim:IdentifiedObject.name>x", 6, 59),
    ("attribute", 5, " rdf:ID", ' rdf:nodeID="a" rdf:ID', 5, 1),
    ("prefix", 6, "cim:IdentifiedObject.name>Süd</cim:", "grid:IdentifiedObject.name>Süd</grid:", 6, 1),
    ("namespace", 2, "cim16#", "cim16", 5, 1),
    ("identifier", 5, "_00000001-0000-4000-8000-000000000001", "1abc", 5, 1),
]


def faults() -> None:
    codes = set(re.findall(r"^\| `(\w+)` \|", (ROOT / "docs/format.md").read_text().split("## Faults")[1].split("# The canonical")[0], re.M))
    check("each code has its case", codes, {code for code, *_ in FAULTS})
    for code, at, old, new, line, column in FAULTS:
        lines = list(LINES)
        lines[at - 1] = lines[at - 1].replace(old, new)
        document = "\n".join(lines).encode()
        with Folder() as folder:
            file = folder.write("Netz Süd.xml", document)
            told, errors, status = folder.run("check", file)
            place, shown, caret = told.split("\n")[:3]
            check(f"the place of {code}", (f"{file}:{line}:{column}", "", 1), (":".join(place.split(":")[:3]), errors, status))
            check(f"{code} is said in words", True, len(place.split(": ", 1)[1]) > 20)
            text = ("\n" + document.decode()).split("\n")[line]
            check(f"the line of {code} and its caret", (text[column - 1:column + 20], column - 1), (shown[caret.index("^"):][:21], caret.index("^")))
            facts = json.loads(folder.run("check", file, "--json")[0])[0]
            check(f"{code} as JSON", (code, line, column), (facts["code"], facts["line"], facts["column"]))
            check(f"{code} of canon goes to standard error", ("", told, 1), folder.run("canon", file, "-o", "out.xml"))
            check(f"{code} leaves no output", ["Netz Süd.xml"], folder.names())
            if code in ("piece", "text"):
                folder.write("grid.store", log_of(BASE, COMMANDS))
                check(f"{code} in a project", (told, "", 1), folder.run("grid.store", "file", "2027-05-01", file))
                found = json.loads(folder.run("grid.store", "file", "2027-05-01", file, "--json")[0])
                check(f"{code} in a project, as JSON", {"refused": "document", **facts}, found)
    with Folder() as folder:
        told = {code: folder.run("check", folder.write("a.xml", content))[0] for code, content in (
            ("a byte order mark", b"\xef\xbb\xbfx"), ("lines that end with CR LF", b"<?xml version='1.0'?>\r\n\r\n <a>"), ("a tab", b"<?xml version='1.0'?>\n\t\t<a>"),
            ("bytes that are no text", b"PK\x03\x04\x1b[31m\xff"))}
        check("a byte order mark is no column", "a.xml:1:1", told["a byte order mark"].split(": ")[0])
        check("lines that end with CR LF", "a.xml:3:2", told["lines that end with CR LF"].split(": ")[0])
        check("a tab is one column", ["a.xml:2:3", "  <a>", "  ^"], [told["a tab"].split(": ")[0], *told["a tab"].split("\n")[1:3]])
        check("nothing goes to the terminal that steers it", False, "\x1b" in told["bytes that are no text"])
        check("a document of too many bytes", "a.xml:1:", folder.run("check", folder.write("a.xml", b" " * 67_108_865))[0][:8])


refusals()
revisions()
limits()
faults()
finish()

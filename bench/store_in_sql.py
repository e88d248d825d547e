"""Projects over a base in SQLite, in memory, with as much of the rules as bench/commits.py needs: no revisions, no refusals.

Each statement has its marks: the steps that name it, in their order. A commit looks at the statements that it touches and
at the dependencies of its project and on it, each by an index, and stops the run where something does not fit.
"""
import sqlite3
import sys

from plain import dependencies_of, report_line

SCHEMA = """
CREATE TABLE statement(key INTEGER PRIMARY KEY, line BLOB NOT NULL UNIQUE, base INTEGER NOT NULL);
CREATE TABLE known(id BLOB PRIMARY KEY) WITHOUT ROWID;
CREATE TABLE project(filing INTEGER PRIMARY KEY, id BLOB NOT NULL UNIQUE, day TEXT NOT NULL);
CREATE TABLE dependency(filing INTEGER NOT NULL, id BLOB NOT NULL, PRIMARY KEY(filing, id)) WITHOUT ROWID;
CREATE INDEX dependent ON dependency(id);
CREATE TABLE mark(statement INTEGER NOT NULL, day TEXT NOT NULL, filing INTEGER NOT NULL, pre INTEGER NOT NULL, rev INTEGER NOT NULL,
                  fwd INTEGER NOT NULL, PRIMARY KEY(statement, day, filing)) WITHOUT ROWID;
CREATE INDEX marked ON mark(filing);
CREATE TABLE log(number INTEGER PRIMARY KEY, line BLOB NOT NULL, document BLOB NOT NULL);
CREATE TEMP TABLE touched(statement INTEGER PRIMARY KEY);
"""
BEFORE = """coalesce((SELECT e.fwd FROM mark e WHERE e.statement = m.statement AND (e.day, e.filing) < (m.day, m.filing)
    AND (e.rev OR e.fwd) ORDER BY e.day DESC, e.filing DESC LIMIT 1), s.base)"""
BREAK = f"""SELECT m.day, m.filing FROM touched t CROSS JOIN mark m ON m.statement = t.statement JOIN statement s ON s.key = m.statement
    WHERE CASE WHEN {BEFORE} THEN m.fwd ELSE m.pre OR m.rev END ORDER BY m.day, m.filing LIMIT 1"""
UNMET = """SELECT p.day, p.filing FROM dependency d JOIN project p ON p.filing = d.filing WHERE {} = ?
    AND d.id NOT IN (SELECT id FROM known)
    AND NOT EXISTS (SELECT 1 FROM project q WHERE q.id = d.id AND (q.day, q.filing) < (p.day, p.filing))
    ORDER BY p.day, p.filing LIMIT 1"""
UNMET_OF, UNMET_ON = UNMET.format("d.filing"), UNMET.format("d.id")
LEFT = """DELETE FROM statement WHERE NOT base AND key IN (SELECT statement FROM touched)
    AND NOT EXISTS (SELECT 1 FROM mark m WHERE m.statement = statement.key)"""


def key_of(id: int) -> bytes:
    return id.to_bytes(16, "big")


class Store:
    def __init__(self, base):
        self.number = 0
        self.sql = sqlite3.connect(":memory:", isolation_level=None)
        self.sql.executescript(SCHEMA)
        self.sql.executemany("INSERT INTO statement(line, base) VALUES(?, 1)", [(report_line(statement),) for statement in base.statements])
        self.sql.executemany("INSERT INTO known VALUES(?)", [(key_of(id),) for id in {base.header.id, *base.header.depends}])

    def prepared(self, model) -> tuple:
        """What a filing puts into the tables, as lists that are made before the time is taken."""
        lines = {report_line(statement): tuple(statement in part for part in (model.pre, model.rev, model.fwd))
                 for statement in model.pre | model.rev | model.fwd}
        return [key_of(id) for id in dependencies_of(model)], list(lines.items())

    def begin(self) -> None:
        self.sql.execute("BEGIN IMMEDIATE")

    def touch(self, filing: int) -> None:
        self.sql.execute("INSERT OR IGNORE INTO touched SELECT statement FROM mark WHERE filing = ?", (filing,))

    def filing_of(self, id: bytes) -> int:
        return self.sql.execute("SELECT filing FROM project WHERE id = ?", (id,)).fetchone()[0]

    def file(self, id: bytes, day: str, prepared: tuple) -> int:
        dependencies, marks = prepared
        filing = self.number + 1
        self.begin()
        self.sql.execute("INSERT INTO project VALUES(?, ?, ?)", (filing, id, day))
        self.sql.executemany("INSERT INTO dependency VALUES(?, ?)", [(filing, other) for other in dependencies])
        self.sql.executemany("INSERT OR IGNORE INTO statement(line, base) VALUES(?, 0)", [(line,) for line, _ in marks])
        self.sql.executemany("INSERT INTO mark SELECT key, ?, ?, ?, ?, ? FROM statement WHERE line = ?",
                             [(day, filing, *parts, line) for line, parts in marks])
        self.touch(filing)
        return filing

    def redate(self, id: bytes, day: str) -> int:
        filing = self.filing_of(id)
        self.begin()
        self.touch(filing)
        self.sql.execute("UPDATE project SET day = ? WHERE filing = ?", (day, filing))
        self.sql.execute("UPDATE mark SET day = ? WHERE filing = ?", (day, filing))
        return filing

    def withdraw(self, id: bytes) -> int:
        filing = self.filing_of(id)
        self.begin()
        self.touch(filing)
        for table in ("mark", "dependency", "project"):
            self.sql.execute(f"DELETE FROM {table} WHERE filing = ?", (filing,))
        self.sql.execute(LEFT)
        return filing

    def commit(self, filing: int, id: bytes, line: bytes, document: bytes) -> None:
        """Ends a change: looks whether all fits, and keeps its line and its document."""
        for question, asked in ((UNMET_OF, (filing,)), (UNMET_ON, (id,)), (BREAK, ())):
            if found := self.sql.execute(question, asked).fetchone():
                sys.exit(f"a step does not fit: {found}")
        self.number += 1
        self.sql.execute("INSERT INTO log VALUES(?, ?, ?)", (self.number, line, document))
        self.sql.execute("DELETE FROM touched")
        self.sql.execute("COMMIT")

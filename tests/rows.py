"""The cases of rows/: what is written and the status, with the input in one piece, in single bytes and in sevens.

Each is a folder with the files `in`, `out` and `status`, and the file `form` where that is not
`session`. The plain rules have to agree with each case too, so that a case that fails tells which
side is wrong.
"""
import plain
from harness import TESTS, check, finish, run, run_in_pieces

for folder in sorted((TESTS / "rows").iterdir()):
    given, replies = ((folder / name).read_bytes() for name in ("in", "out"))
    wanted = replies, int((folder / "status").read_text())
    form = (folder / "form").read_text().strip() if (folder / "form").exists() else "session"
    check(f"{folder.name}, by the plain rules", wanted, plain.FORMS[form](given))
    check(folder.name, wanted, run(given, (form,)))
    for size in (1, 7):
        check(f"{folder.name}, in pieces of {size}", wanted, run_in_pieces(given, size, form))

finish()

"""A full model states at most 1,048,576 statements, repeats counted. An assembly may have more: it is written, and does not
read back.

All statements are literals of one subject, so that a document has one line for each and its bytes are written by hand.
"""
import plain
from harness import check, documents_in, finish, first_difference, run
from models import CIM, MOST_STATEMENTS, Difference, Header, canonical, uuid_text

BASE_ID = 0x10000000_0000_4000_8000_000000000001
OBJECT = canonical(Difference(Header(1), fwd={((1, b"s"), (CIM, b"p"), (0, b"0000000"))}))
LINE = b"<cim:p>%07d</cim:p>\n"
FRONT = (OBJECT[:OBJECT.index(b"<dm:Diff")].replace(b' xmlns:dm="http://iec.ch/TC57/61970-552/DifferenceModel/1#"', b"")
         + b'<md:FullModel rdf:about="urn:uuid:%s">\n' % uuid_text(BASE_ID))
BEHIND_HEADER = b'</md:FullModel>\n<rdf:Description rdf:about="#s">\n'
END = b"</rdf:Description>\n</rdf:RDF>\n"


def document(numbers, front: bytes = FRONT + BEHIND_HEADER) -> bytes:
    return front + b"".join(LINE % number for number in numbers) + END


def place(statement: int, front: bytes = FRONT + BEHIND_HEADER) -> int:
    """Where the statement of this place begins, counted from 0."""
    return len(front) + statement * len(LINE % 0)


most = document(range(MOST_STATEMENTS))
told = b"full %s %d\n" % (uuid_text(BASE_ID), MOST_STATEMENTS)
late = b"fault %d limit\n" % place(MOST_STATEMENTS)
check("check of the most statements", (told, plain.DONE), run(most, ("check",)))
found, status = run(most, ("canon",))
check("canon of the most statements", (None, plain.DONE), (first_difference(most, found), status))
for name, numbers in (("one statement more", range(MOST_STATEMENTS + 1)), ("one statement more, said twice", [0, *range(MOST_STATEMENTS)])):
    for form in ("check", "canon"):
        check(f"{form} of {name}", (late, plain.REFUSED), run(document(numbers), (form,)))
backwards = document(range(MOST_STATEMENTS - 1, -1, -1))
found, status = run(backwards, ("canon",))
check("canon of the most statements backwards", (None, plain.DONE), (first_difference(most, found), status))

more = canonical(Difference(Header(2), fwd={((1, b"s"), (CIM, b"p"), (0, b"%07d" % MOST_STATEMENTS))}))
replies, status = run(b"base %d\n" % len(most) + most + b"file 2027-04-01 %d\n" % len(more) + more
                      + b"summary 2027-04-01\nassemble 2027-04-01\nend\n")
count = b"summary commits 1 projects 1 statements %d\n" % (MOST_STATEMENTS + 1)
check("a project adds one", (True, True, plain.DONE),
      (replies.startswith(b"ok 0\nok 1\n" + count + b"document "), replies.endswith(b"\nend 1\n"), status))
assembly = next(documents_in(replies), b"")
front = assembly[:assembly.find(BEHIND_HEADER)] + BEHIND_HEADER
check("its assembly is written", None, first_difference(document(range(MOST_STATEMENTS + 1), front), assembly))
check("and does not read back", (b"fault %d limit\n" % place(MOST_STATEMENTS, front), plain.REFUSED), run(assembly, ("check",)))

finish()

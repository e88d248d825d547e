"""Reads documents by the plain rules: the model that a document states, or its first fault.

    python3 tests/documents.py < DOCUMENT      writes what the document states, or `fault AT CODE`

Pieces are found by regular expressions, over text in Latin-1 so that an offset is one of bytes; the
rules stand one behind the other in their order. Values are those of `models.py`.
"""
import re
import sys
from dataclasses import dataclass, field

from models import (DM, MD, MOST_CHANGES, MOST_DEPENDS, MOST_DOCUMENT, MOST_IRI, MOST_LITERAL, MOST_PROFILES,
                    MOST_STATEMENTS, MOST_SUPERSEDES, RDF, SPACE, TYPE, Difference, Full, Header, ident_of_about,
                    ident_of_id, object_of_resource, uuid_text)

XML = b"http://www.w3.org/XML/1998/namespace"
NAME = rb"[A-Za-z_][A-Za-z0-9_.-]*"
WHITE = rb"[ \t\r\n]"
CHARACTER = re.compile("[\t\n\r\u0020-\ud7ff\ue000-\ufffd\U00010000-\U0010ffff]*")
REFERENCE = re.compile(rb"&(?:(lt|gt|amp|quot|apos)|#([0-9]+)|#x([0-9A-Fa-f]+));")
NAMED = {b"lt": "<", b"gt": ">", b"amp": "&", b"quot": '"', b"apos": "'"}


class Fault(Exception):
    def __init__(self, at: int, code: str):
        super().__init__(f"fault {at} {code}")
        self.at, self.code = at, code


class NoPiece(Exception):
    """No piece is spelt here, and none begins so."""


class Unfinished(Exception):
    """The input ends within a piece."""


# ---------------------------------------------------------------- characters and references


def is_character(number: int) -> bool:
    return number <= 0x10FFFF and not 0xD800 <= number <= 0xDFFF and CHARACTER.fullmatch(chr(number)) is not None


def characters(data: bytes) -> int:
    """How many bytes at the front are whole characters of XML."""
    try:
        text, good = data.decode("utf-8"), len(data)
    except UnicodeDecodeError as error:
        good = error.start
        text = data[:good].decode("utf-8")
    wrong = CHARACTER.match(text).end()
    return len(text[:wrong].encode("utf-8"))


def begins_character(data: bytes) -> bool:
    """Whether some character of XML begins with these bytes, which are fewer than it has."""
    if data == b"":
        return True
    size = {0xC: 2, 0xD: 2, 0xE: 3, 0xF: 4}.get(data[0] >> 4, 1)
    missing = size - len(data)
    if missing < 1:
        return False
    # every second byte is tried, and of the bytes behind it four: each kind of first bytes begins some character
    seconds = [b""] if len(data) > 1 else [bytes([byte]) for byte in range(0x80, 0xC0)]
    return any(is_text((data + second).ljust(size, last)) for second in seconds for last in (b"\x80", b"\x90", b"\xa0", b"\xbd"))


def is_text(data: bytes) -> bool:
    return characters(data) == len(data)


def begins_reference(data: bytes) -> bool:
    """Whether more bytes can make these, which begin with `&` and hold no `;`, a reference."""
    if any((b"&" + name + b";").startswith(data) for name in NAMED):
        return True
    found = re.fullmatch(rb"&#(?:([0-9]*)|x([0-9A-Fa-f]*))", data)
    if found is None:
        return False
    digits, base = (found[1], 10) if found[1] is not None else (found[2], 16)
    return digits == b"" or int(digits, base) <= 0x10FFFF


def judge_references(data: bytes, is_cut: bool) -> None:
    """NoPiece where some `&` begins no reference; of bytes that are cut, the last may still become one."""
    at = data.find(b"&")
    while at >= 0:
        found = REFERENCE.match(data, at)
        if found is None or not is_character(number_of(found)):
            if is_cut and b";" not in data[at:] and b"&" not in data[at + 1:] and begins_reference(data[at:]):
                return
            raise NoPiece
        at = data.find(b"&", found.end())


def number_of(found) -> int:
    if found[1]:
        return ord(NAMED[found[1]])
    digits = (found[2] or found[3]).lstrip(b"0")[:9] or b"0"
    return int(digits, 10 if found[2] else 16)


def replaced(data: bytes) -> bytes:
    return REFERENCE.sub(lambda found: chr(number_of(found)).encode(), data)


def with_line_feeds(data: bytes) -> bytes:
    return data.replace(b"\r\n", b"\n").replace(b"\r", b"\n")


# ---------------------------------------------------------------- pieces


@dataclass
class Piece:
    kind: str
    name: tuple = ()
    attributes: list = field(default_factory=list)
    empty: bool = False
    text: bytes = b""


class Cursor:
    def __init__(self, data: bytes, at: int):
        self.data, self.at = data, at

    def want(self, literal: bytes) -> None:
        """Takes these bytes."""
        here = self.data[self.at:self.at + len(literal)]
        if here == literal:
            self.at += len(literal)
        elif len(here) < len(literal) and literal.startswith(here):
            raise Unfinished
        else:
            raise NoPiece

    def peek(self) -> bytes:
        if self.at == len(self.data):
            raise Unfinished
        return self.data[self.at:self.at + 1]

    def name(self) -> bytes:
        found = re.compile(rb"[A-Za-z0-9_.-]*").match(self.data, self.at)
        name = found[0]
        if name and (re.fullmatch(NAME, name) is None or len(name) > 128):
            raise NoPiece
        if found.end() == len(self.data):
            raise Unfinished
        if not name:
            raise NoPiece
        self.at = found.end()
        return name

    def qname(self) -> tuple:
        first = self.name()
        if self.peek() != b":":
            return None, first
        self.at += 1
        return first, self.name()

    def white(self) -> bool:
        found = re.compile(WHITE + rb"*").match(self.data, self.at)
        self.at = found.end()
        if self.at == len(self.data):
            raise Unfinished
        return found[0] != b""

    def quoted(self, whole, begins):
        """What stands between two quotes: `whole` says of it what it stands for, `begins` whether it can go on."""
        quote = self.peek()
        if quote not in (b'"', b"'"):
            raise NoPiece
        end = self.data.find(quote, self.at + 1)
        if end < 0:
            begins(self.data[self.at + 1:])
            raise Unfinished
        value = whole(self.data[self.at + 1:end])
        self.at = end + 1
        return value

    def equals(self) -> None:
        self.white()
        self.want(b"=")
        self.white()

    def until(self, mark: bytes) -> bytes:
        end = self.data.find(mark, self.at)
        inside = self.data[self.at:] if end < 0 else self.data[self.at:end]
        good = characters(inside)
        if end < 0:
            if begins_character(inside[good:]):
                raise Unfinished
            raise NoPiece
        if good < len(inside):
            raise NoPiece
        self.at = end + len(mark)
        return inside


def attribute_value(raw: bytes) -> bytes:
    if b"<" in raw or not is_text(raw):
        raise NoPiece
    judge_references(raw, False)
    return replaced(re.sub(rb"[\t\n]", b" ", with_line_feeds(raw)))


def begins_value(raw: bytes) -> None:
    good = characters(raw)
    if b"<" in raw or not begins_character(raw[good:]):
        raise NoPiece
    judge_references(raw, True)


def one_of(*texts):
    def whole(raw: bytes) -> bytes:
        if raw not in texts:
            raise NoPiece
        return raw

    def begins(raw: bytes) -> None:
        if not any(text.startswith(raw) for text in texts):
            raise NoPiece

    return whole, begins


ENCODING = re.compile(rb"[A-Za-z][A-Za-z0-9._-]{0,39}")


def encoding(raw: bytes) -> bytes:
    if ENCODING.fullmatch(raw) is None:
        raise NoPiece
    return raw


def begins_encoding(raw: bytes) -> None:
    if raw:
        encoding(raw)


def declaration(cursor: Cursor) -> Piece:
    """An XML declaration behind `<?xml`."""
    if not cursor.white():
        raise NoPiece
    cursor.want(b"version")
    cursor.equals()
    cursor.quoted(*one_of(b"1.0"))
    named = None
    gap = cursor.white()
    if gap and cursor.peek() == b"e":
        cursor.want(b"encoding")
        cursor.equals()
        named = cursor.quoted(encoding, begins_encoding)
        gap = cursor.white()
    if gap and cursor.peek() == b"s":
        cursor.want(b"standalone")
        cursor.equals()
        cursor.quoted(*one_of(b"yes", b"no"))
        cursor.white()
    cursor.want(b"?>")
    return Piece("start", text=named)


def instruction(cursor: Cursor) -> Piece:
    at = cursor.at
    name = cursor.name()
    if name == b"xml":
        return declaration(cursor)
    if name.lower() == b"xml":
        raise NoPiece
    if cursor.peek() == b"?":
        cursor.want(b"?>")
    elif cursor.peek() in (b" ", b"\t", b"\r", b"\n"):
        cursor.at += 1
        cursor.until(b"?>")
    else:
        raise NoPiece
    return Piece("skip")


def markup(cursor: Cursor) -> Piece:
    cursor.want(b"<")
    first = cursor.peek()
    if first == b"/":
        cursor.at += 1
        name = cursor.qname()
        cursor.white()
        cursor.want(b">")
        return Piece("close", name)
    if first == b"?":
        cursor.at += 1
        return instruction(cursor)
    if first == b"!":
        cursor.at += 1
        if cursor.peek() == b"-":
            cursor.want(b"--")
            cursor.until(b"--")
            cursor.want(b">")
            return Piece("skip")
        if cursor.peek() == b"[":
            cursor.want(b"[CDATA[")
            return Piece("text", text=with_line_feeds(cursor.until(b"]]>")))
        cursor.want(b"DOCTYPE")
        return Piece("doctype")
    return opening(cursor)


def opening(cursor: Cursor) -> Piece:
    piece = Piece("open", cursor.qname())
    while True:
        gap = cursor.white()
        if cursor.peek() == b">":
            cursor.at += 1
            return piece
        if cursor.peek() == b"/":
            cursor.at += 1
            cursor.want(b">")
            piece.empty = True
            return piece
        if not gap:
            raise NoPiece
        name = cursor.qname()
        cursor.equals()
        piece.attributes.append((name, cursor.quoted(attribute_value, begins_value)))


def piece_at(data: bytes, at: int, last: bool):
    """The piece that begins here, and where it ends."""
    if data[at:at + 1] == b"<":
        cursor = Cursor(data, at)
        return markup(cursor), cursor.at
    end = data.find(b"<", at)
    raw = data[at:] if end < 0 else data[at:end]
    good, is_cut = characters(raw), end < 0 and not last
    if b"]]>" in raw or (good < len(raw) and not (end < 0 and begins_character(raw[good:]))):
        raise NoPiece
    judge_references(raw, end < 0)
    if is_cut or good < len(raw):
        raise Unfinished
    if end < 0:
        try:
            judge_references(raw, False)
        except NoPiece:
            raise Unfinished from None
    return Piece("text", text=replaced(with_line_feeds(raw))), len(data) if end < 0 else end


# ---------------------------------------------------------------- documents

TEXTS = {b"Model.created": "created", b"Model.scenarioTime": "scenario_time", b"Model.version": "version",
         b"Model.description": "description", b"Model.modelingAuthoritySet": "authority", b"Model.profile": "profiles"}
LINKS = {b"Model.DependentOn": "depends", b"Model.Supersedes": "supersedes"}
SECTIONS = {b"preconditions": "pre", b"forwardDifferences": "fwd", b"reverseDifferences": "rev"}
MOST = {"statements": MOST_STATEMENTS, "changes": MOST_CHANGES, "profiles": MOST_PROFILES, "depends": MOST_DEPENDS,
        "supersedes": MOST_SUPERSEDES}
PROPERTY = {(RDF, b"resource"), (XML, b"lang"), (RDF, b"datatype")}
IDENTITY = {(RDF, b"about"), (RDF, b"ID")}


@dataclass
class Open:
    """An open element: its spelling, the place inside it, what it is about, and the declarations around it."""
    name: tuple
    place: str
    about: object
    scope: dict
    text: bytes = b""


class Judge:
    def __init__(self):
        self.stack, self.place, self.about, self.begun = [], "before", None, False
        self.scope: dict = {}
        self.kind, self.header = None, None
        self.parts: dict = {"whole": set(), "pre": set(), "fwd": set(), "rev": set()}
        self.counts = dict.fromkeys(MOST, 0)
        self.literal = b""

    def judge(self, piece: Piece):
        """The code of the first rule that the piece breaks; else the piece is taken."""
        code = getattr(self, "judge_" + piece.kind)(piece)
        self.begun = True
        return code

    def judge_skip(self, piece):
        return None

    def judge_doctype(self, piece):
        return "doctype"

    def judge_start(self, piece):
        if self.begun:
            return "stray"
        return None if piece.text is None or piece.text.upper() == b"UTF-8" else "encoding"

    def judge_text(self, piece):
        if self.place == "literal":
            if len(self.literal) + len(piece.text) > MOST_LITERAL:
                return "limit"
            self.literal += piece.text
            return None
        return None if self.place == "skipped" or not piece.text.strip(b" \t\r\n") else "text"

    def judge_close(self, piece):
        if not self.stack or self.stack[-1].name != piece.name:
            return "nesting"
        if self.place == "root":
            return "header"
        self.leave()
        return None

    def leave(self):
        if self.place == "literal":
            self.take_literal()
        opened = self.stack.pop()
        self.place, self.about, self.scope = opened.place, opened.about, opened.scope

    def take_literal(self):
        owner = self.about
        if owner[0] == "header":
            if owner[1] == "profiles":
                self.header.profiles.append(self.literal)
            else:
                setattr(self.header, owner[1], self.literal)
        else:
            _, part, subject, predicate = owner
            self.parts[part].add((subject, predicate, (0, self.literal)))

    def namespace(self, scope, prefix):
        return XML if prefix == b"xml" else scope.get(prefix)

    def judge_open(self, piece):
        declared, given, bad_prefix = {}, [], False
        for (prefix, local), value in piece.attributes:
            if (prefix, local) == (None, b"xmlns"):
                declared[None] = value
            elif prefix == b"xmlns":
                declared[local] = value
                bad_prefix = bad_prefix or local in (b"xml", b"xmlns") or value == b""
            else:
                given.append(((prefix, local), value))
        scope = {**self.scope, **declared} if declared else self.scope
        if self.place in ("literal", "link", "skipped"):
            return "nesting"
        spelt = [name for name, _ in piece.attributes]
        if len(set(spelt)) < len(spelt):
            return "attribute"
        prefix, local = piece.name
        for used in [prefix, *(name[0] for name, _ in given)]:
            bad_prefix = bad_prefix or used is not None and self.namespace(scope, used) is None
        if bad_prefix:
            return "prefix"
        ns = self.namespace(scope, prefix) if prefix is not None else scope.get(None)
        if ns is None or SPACE.fullmatch(ns) is None:
            return "namespace"
        attributes = [((self.namespace(scope, name[0]) if name[0] else None, name[1]), value) for name, value in given]
        return self.judge_element(piece, (ns, local), attributes, scope)

    def judge_element(self, piece, element, attributes, scope):
        names = [name for name, _ in attributes]
        once = len(set(names)) == len(names)
        values = dict(attributes)
        if element == (RDF, b"RDF") and piece.empty:
            return "header" if once and set(names) <= {(XML, b"base"), (XML, b"lang")} else "attribute"
        role = self.role_of(element)
        if role in ("noheader", "stray"):
            return "header" if role == "noheader" else "stray"
        if not once or not self.allows(role, names, values):
            return "attribute"
        inside = getattr(self, "enter_" + role)(element, values)
        if isinstance(inside, str):
            return inside
        place, about, counted = inside
        behind = {"root": "after", "header": "body" if element[0] == MD else "rest"}.get(role, self.place)
        self.stack.append(Open(piece.name, behind, self.about, self.scope))
        self.place, self.about, self.scope, self.literal = place, about, scope, b""
        if piece.empty:
            self.leave()
        return None

    def allows(self, role, names, values) -> bool:
        if role == "root":
            return set(names) <= {(XML, b"base"), (XML, b"lang")}
        if role in ("header", "object"):
            return set(names) <= IDENTITY and len(names) <= 1
        if role == "section":
            return set(names) <= {(RDF, b"parseType")} and values.get((RDF, b"parseType"), b"Statements") == b"Statements"
        return set(names) <= PROPERTY

    def role_of(self, element) -> str:
        ns, local = element
        if self.place == "before":
            return "root" if element == (RDF, b"RDF") else "stray"
        if self.place == "root":
            return "header" if element in ((MD, b"FullModel"), (DM, b"DifferenceModel")) else "noheader"
        if self.place == "inheader":
            if ns == RDF or ns == DM and not (self.kind == "difference" and local in SECTIONS):
                return "stray"
            return "section" if ns == DM else "headerproperty"
        if self.place in ("body", "section"):
            return "stray" if ns in (MD, DM) or ns == RDF and local != b"Description" else "object"
        if self.place == "object":
            return "stray" if ns in (MD, DM) or ns == RDF and local != b"type" else "property"
        return "stray"

    def identity(self, values):
        if (RDF, b"about") in values:
            return ident_of_about(values[RDF, b"about"])
        return ident_of_id(values[RDF, b"ID"]) if (RDF, b"ID") in values else None

    def count(self, what: str) -> bool:
        self.counts[what] += 1
        return self.counts[what] > MOST[what]

    def enter_root(self, element, values):
        return "root", None, None

    def enter_header(self, element, values):
        ident = self.identity(values)
        if ident is None or ident[0] != 0:
            return "header"
        self.kind, self.header = "full" if element[0] == MD else "difference", Header(ident[1])
        return "inheader", None, None

    def enter_section(self, element, values):
        return "section", SECTIONS[element[1]], None

    def enter_headerproperty(self, element, values):
        resource = values.get((RDF, b"resource"))
        if element[0] == MD and element[1] in TEXTS:
            if resource is not None:
                return "header"
            if element[1] == b"Model.profile" and self.count("profiles"):
                return "limit"
            return "literal", ("header", TEXTS[element[1]]), None
        if element[0] == MD and element[1] in LINKS:
            target = None if resource is None else object_of_resource(resource)
            if target is None or target[0] != 1 or target[1][0] != 0:
                return "header"
            if self.count(LINKS[element[1]]):
                return "limit"
            getattr(self.header, LINKS[element[1]]).append(target[1][1])
            return "link", None, None
        return "skipped", None, None

    def part(self) -> str:
        return "whole" if self.place == "body" else self.about

    def enter_object(self, element, values):
        subject, part = self.identity(values), self.part()
        if subject is None:
            return "identifier"
        if element != (RDF, b"Description"):
            if self.count("statements" if part == "whole" else "changes"):
                return "limit"
            self.parts[part].add((subject, TYPE, (2, element[0] + element[1])))
        return "object", (part, subject), None

    def enter_property(self, element, values):
        part, subject = self.about
        resource = values.get((RDF, b"resource"))
        target = None if resource is None else object_of_resource(resource)
        if resource is not None and target is None:
            return "identifier"
        if self.count("statements" if part == "whole" else "changes"):
            return "limit"
        if target is None:
            return "literal", ("object", part, subject, element), None
        if target[0] == 2 and len(target[1]) > MOST_IRI:
            return "limit"
        self.parts[part].add((subject, element, target))
        return "link", None, None

    def model(self):
        header = self.header
        header.profiles, header.depends = sorted(set(header.profiles)), sorted(set(header.depends))
        header.supersedes = sorted(set(header.supersedes))
        if self.kind == "full":
            return Full(header, self.parts["whole"])
        return Difference(header, self.parts["pre"], self.parts["rev"], self.parts["fwd"])


def read(data: bytes):
    """The model that the document states; Fault with its place and code for any other."""
    is_long = len(data) > MOST_DOCUMENT
    data = data[:MOST_DOCUMENT]
    at, judge = 3 if data.startswith(b"\xef\xbb\xbf") else 0, Judge()
    while at < len(data):
        try:
            piece, end = piece_at(data, at, not is_long)
        except NoPiece:
            raise Fault(at, "piece") from None
        except Unfinished:
            if is_long:
                break
            raise Fault(at, "cut") from None
        code = judge.judge(piece)
        if code is not None:
            raise Fault(at, code)
        at = end
    if is_long:
        raise Fault(MOST_DOCUMENT, "limit")
    if judge.place != "after" or judge.stack:
        raise Fault(at, "cut")
    return judge.model()


def told(data: bytes) -> tuple:
    """What `check` says of the document, and its status."""
    try:
        model = read(data)
    except Fault as fault:
        return b"%s\n" % str(fault).encode(), 1
    if isinstance(model, Full):
        return b"full %s %d\n" % (uuid_text(model.header.id), len(model.statements)), 0
    counts = tuple(len(part) for part in (model.pre, model.rev, model.fwd))
    return b"difference %s %d %d %d\n" % (uuid_text(model.header.id), *counts), 0


if __name__ == "__main__":
    written, ended = told(sys.stdin.buffer.read())
    sys.stdout.buffer.write(written)
    sys.exit(ended)

"""The page on HTTP: its paths, methods and phrases are those of the tables that the crate nm_http is proved by, and each
path has its line with curl."""
import re

from harness import check, finish
from shown import ROOT

PAGE = (ROOT / "docs/http.md").read_text()
SPECS = ROOT / "crates/nm_http/specs"
PARAMETERS = [("{day}", "DAY", r"\d{4}-\d\d-\d\d"), ("{id}", "ID", "[^/ ]+"), ("{project}", "PROJECT", "[0-9a-f-]{36}")]


def table_of_routes() -> list:
    """A method, a path and the methods of the path, for each row of the definition."""
    text = (SPECS / "Table.antt").read_text()
    one = [(path, [method]) for path, method in re.findall(r'= row \(codes "([^"]*)"\) \(codes "([^"]*)"\)', text)]
    many = [(path, re.findall(r'codes "([^"]*)"', methods))
            for path, methods in re.findall(r'path = codes "([^"]*)";\n\s*methods = (.*);', text)]
    return [(method, path, ", ".join(methods)) for path, methods in one + many for method in methods]


def in_words(path: str) -> str:
    for braces, word, _ in PARAMETERS:
        path = path.replace(braces, word)
    return path


def pattern(path: str) -> str:
    for braces, _, form in PARAMETERS:
        path = path.replace(braces, form)
    return path


routes = table_of_routes()
shown = re.findall(r"^\| `([A-Z]+)` \| `(/[^`]*)` \|.*\| `([A-Z, ]+)` \|$", PAGE, re.M)
check("nine routes", 9, len(routes))
check("the page has the routes of the table", sorted((m, in_words(path), allow) for m, path, allow in routes), sorted(shown))

lines = re.findall(r"^    curl (.*)http://127\.0\.0\.1:8080(/[^ \n]*)$", PAGE, re.M)
OPTIONS = {"GET": {""}, "POST": {"--data-binary @project.xml "}, "PUT": {"-T project.xml ", "-X PUT "}, "DELETE": {"-X DELETE "}}
for method, path, _ in routes:
    found = [1 for options, target in lines if options in OPTIONS[method] and re.fullmatch(pattern(path), target)]
    check(f"a line with curl for {method} {path}", True, bool(found))

phrases = re.findall(r'\((\d+), codes "([^"]*)"\)', (SPECS / "Reply.antt").read_text())
check("the page has the phrases of the table", phrases, re.findall(r"^\| (\d+) \| `([^`]*)` \|$", PAGE, re.M))

finish()

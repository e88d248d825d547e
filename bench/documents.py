"""`nm check` and `nm canon` on exports of 10 and 60 MB, and `nm check` on documents that are made to be slow.

The exports are those of reading.py. Beside them stand `xmlwf -n`, which judges XML with namespaces and
does nothing else, and `xmllint --c14n`, where these are installed. A document that is made to be slow
has as much of one thing as fits into 60 MB; its processor time stands beside that of the export.
"""
import os
import resource
import shutil
import subprocess
import tempfile
from pathlib import Path

from reading import NM, base, export

MEGABYTES = (10, 60)
LARGEST = 60_000_000
ROOT = (b"<r:RDF xmlns:r='http://www.w3.org/1999/02/22-rdf-syntax-ns#' xmlns:m='http://iec.ch/TC57/61970-552/ModelDescription/1#'"
        b" xmlns:c='urn:x#'")
HEADER = b"<m:FullModel r:about='urn:uuid:10000000-0000-4000-8000-000000000001'"
SKIPPED = ROOT + b">" + HEADER + b"><m:Model.other>", b"</m:Model.other></m:FullModel></r:RDF>"


def many(part) -> bytes:
    """The parts of the numbers from 0 on, as many as fit."""
    parts, length, number = [], 0, 0
    while length < LARGEST:
        parts.append(part(number))
        length += len(parts[-1])
        number += 1
    return b"".join(parts)


def skipped(text: bytes) -> bytes:
    """A model with a header property that is not kept."""
    return text.join(SKIPPED)


SLOW = {
    "attributes in one tag": lambda: ROOT + b">" + HEADER + many(lambda n: b" a%d=''" % n) + b"/></r:RDF>",
    "declarations in one tag": lambda: ROOT + many(lambda n: b" xmlns:p%d='urn:x#'" % n) + b">" + HEADER + b"/></r:RDF>",
    "references": lambda: skipped(many(lambda n: b"&lt;")),
    "CDATA of a byte each": lambda: skipped(many(lambda n: b"<![CDATA[x]]>")),
    "a declaration on each element": lambda: ROOT + b">" + HEADER + b"/>" + many(lambda n: b"<q:A xmlns:q='urn:y%d#' r:ID='a'/>" % n) + b"</r:RDF>",
    "a comment without an end": lambda: ROOT + b"><!--" + b"x" * LARGEST,
    "a million zeros in each reference": lambda: skipped(many(lambda n: b"&#" + b"0" * 1_000_000 + b"65;")),
}


def seconds(words: list, path: Path) -> float:
    """The processor time of a program on a file."""
    before = resource.getrusage(resource.RUSAGE_CHILDREN)
    with open(path, "rb") as given:
        subprocess.run(words, stdin=given, stdout=subprocess.DEVNULL, stderr=subprocess.DEVNULL)
    after = resource.getrusage(resource.RUSAGE_CHILDREN)
    return after.ru_utime + after.ru_stime - before.ru_utime - before.ru_stime


def main() -> None:
    with tempfile.TemporaryDirectory() as folder:
        path = Path(folder) / "document.xml"
        programs = [[NM, "check"], [NM, "canon"], ["xmlwf", "-n"], ["xmllint", "--c14n", "--huge", "-"]]
        for size in MEGABYTES:
            path.write_bytes(export(base(size * 1_000_000)))
            for words in programs:
                if shutil.which(words[0]):
                    print(f"an export of {size} MB, {os.path.basename(words[0])} {words[1]}: {seconds(words, path):.2f} s of processor time")
        ordinary = seconds([NM, "check"], path)
        for name, document in SLOW.items():
            path.write_bytes(document())
            print(f"60 MB of {name}: {seconds([NM, 'check'], path) / ordinary:.1f} times the export")


if __name__ == "__main__":
    main()

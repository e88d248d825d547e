"""Reads a large export, and reads and assembles a large base: time, bytes per second, and peak memory per byte.

    python3 bench/reading.py [MEGABYTES]      60 where nothing is said, 62 at most

The base is of mixed statements: UUIDs and local identifiers, links, IRIs and literals with escapes,
of two namespaces. What follows the header of its assembly has to be the base's own bytes. The export
states the same model with lines that are indented and end in CR LF, and `nm canon` has to write the
base of it. Beside both stands `xmllint --c14n`, which reads and writes the same document in the
canonical form of XML.
"""
import os
import shutil
import subprocess
import sys
import tempfile
import time
from pathlib import Path

NM = os.environ.get("NM", str(Path(__file__).resolve().parent.parent / "crates/nm/out/nm"))
FRONT = b"""<?xml version="1.0" encoding="UTF-8"?>
<rdf:RDF xmlns:rdf="http://www.w3.org/1999/02/22-rdf-syntax-ns#" xmlns:md="http://iec.ch/TC57/61970-552/ModelDescription/1#" \
xmlns:n1="http://example.org/grid#" xmlns:cim="http://iec.ch/TC57/2013/CIM-schema-cim16#">
<md:FullModel rdf:about="urn:uuid:10000000-0000-4000-8000-000000000001">
</md:FullModel>
"""
END = b"</rdf:RDF>\n"
HEADER_END = b"</md:FullModel>\n"


def element(j: int, is_local: bool) -> bytes:
    name = b"Bay-%08d" % j if is_local else b"_20000000-0000-4000-8000-%012x" % j
    kind = (b"Breaker", b"Disconnector", b"Terminal")[j % 3]
    return (b'<cim:%s rdf:ID="%s">\n' % (kind, name)
            + b'<n1:owner rdf:resource="http://example.org/owner?of=%d&amp;in=&quot;grid&quot;"/>\n' % j
            + b'<cim:Equipment.EquipmentContainer rdf:resource="#_30000000-0000-4000-8000-%012x"/>\n' % (j // 10)
            + b"<cim:IdentifiedObject.description>Bay %d, 110 kV &amp; 20 kV, \xe2\x89\xa4 40 kA</cim:IdentifiedObject.description>\n" % j
            + b"<cim:IdentifiedObject.name>Q%d</cim:IdentifiedObject.name>\n" % j
            + b"<cim:Switch.normalOpen>false</cim:Switch.normalOpen>\n</cim:%s>\n" % kind)


def base(size: int) -> bytes:
    """A canonical document of about so many bytes, a tenth of its objects with local identifiers."""
    parts, length, j = [FRONT], len(FRONT) + len(END), 0
    while True:
        part = element(j, length > size * 9 // 10)
        if length + len(part) > size:
            return b"".join(parts) + END
        parts.append(part)
        length += len(part)
        j += 1


def export(document: bytes) -> bytes:
    """The same model, spelt as tools spell it."""
    return document.replace(b"\n<cim:", b"\n  <cim:").replace(b"\n<n1:", b"\n    <n1:").replace(b"\n", b"\r\n")


def measured(words: list, source: Path, sink: Path):
    """The seconds, the peak memory in bytes and the status of a program on files."""
    with open(source, "rb") as given, open(sink, "wb") as taken:
        began = time.monotonic()
        process = subprocess.Popen(words, stdin=given, stdout=taken)
        _, status, usage = os.wait4(process.pid, 0)
        process.returncode = os.waitstatus_to_exitcode(status)
        return time.monotonic() - began, usage.ru_maxrss * 1024, process.returncode


def told(name: str, seconds: float, memory: int, size: int) -> None:
    print(f"{name}: {seconds:.2f} s, {size / seconds / 1e6:.1f} MB/s, {memory / size:.1f} bytes of memory per byte")


def beside_xmllint(seconds: float, memory: int, document: Path, sink: Path) -> None:
    if shutil.which("xmllint") is None:
        print("xmllint is not installed: nothing to compare with")
        return
    size = document.stat().st_size
    other, other_memory, status = measured(["xmllint", "--c14n", str(document)], document, sink)
    told(f"xmllint --c14n, status {status}", other, other_memory, size)
    print(f"nm takes {seconds / other:.1f} times the time and {memory / other_memory:.1f} times the memory of xmllint")


def canonical_form(document: bytes, folder: Path) -> bool:
    """Measures `nm canon` on the export of the document, and says whether it writes the document."""
    given, sink = folder / "export.xml", folder / "canonical.xml"
    given.write_bytes(export(document))
    size = given.stat().st_size
    print(f"an export of {size} bytes")
    seconds, memory, status = measured([NM, "canon"], given, sink)
    told("nm canon", seconds, memory, size)
    same = status == 0 and sink.read_bytes() == document
    print("its canonical document is the base" if same else f"FAILED: another document, status {status}")
    beside_xmllint(seconds, memory, given, sink)
    return same


def main() -> int:
    size = min(int(sys.argv[1]) if sys.argv[1:] else 60, 62) * 1_000_000
    document = base(size)
    with tempfile.TemporaryDirectory() as folder:
        stream, replies, alone = (Path(folder) / name for name in ("stream", "replies", "alone.xml"))
        alone.write_bytes(document)
        stream.write_bytes(b"base %d\n" % len(document) + document + b"assemble 2027-01-01\nend\n")
        print(f"a base of {len(document)} bytes and {document.count(b' rdf:ID=')} objects")
        seconds, memory, status = measured([NM, "session"], stream, replies)
        told("nm session, read and assembled", seconds, memory, len(document))
        found = replies.read_bytes()
        same = (status == 0 and found.startswith(b"ok 0\ndocument ") and found.endswith(b"end 0\n")
                and found[:-len(b"end 0\n")].partition(HEADER_END)[2] == document.partition(HEADER_END)[2])
        print("what follows the header is the base's bytes" if same else f"FAILED: another document, status {status}")
        beside_xmllint(seconds, memory, alone, replies)
        same = canonical_form(document, Path(folder)) and same
    return 0 if same else 1


if __name__ == "__main__":
    sys.exit(main())

"""Which addresses of a list share one read request: a capture can't tell these apart.

Takes a stored list of addresses in UTF-8, one to a line: T4:123PRE is element 12 in it, as every separator but a newline is taken. Prints each request from its
function byte on (in the 17 bytes in front only requester and sequence number vary), what it reads, and under it the addresses that give it. After
`./slc lib python`:

    PYTHONPATH=bindings/python python3 examples/shared_requests.py [FILE]

That addresses under one request agree in type, file, element, position (a missing one counts as 0) and count, and addresses under two don't, is proved of
the call that is made here, slc_read_request: OneRequestOfExports in crates/theorem_one_request/specs/Exported.antt. The bit isn't on the wire.

An empty line is passed over. Any other that is no read address is told on standard error, with the question that was answered with no; the exit status is then 1.
Where the list or the library can't be read it is 2.
"""
import argparse
import signal
import sys
from io import TextIOWrapper
from pathlib import Path

from slc_link import Address, Reading, Refused, read_request

# behind CIP service and path (6), the requester's id (7), CMD, STS and the sequence number
FUNCTION_AT = 17


def shown(tag: bytes) -> str:
    """A tag as a text of one line, as Python writes it between quotes: with escapes for backslashes, for what can't be printed, as the separator of a timer or
    counter may be, and for bytes that aren't UTF-8 (these as \\udc and two digits)."""
    return repr(tag.decode("utf-8", "surrogateescape"))[1:-1]


def grouped(lines: list[bytes]) -> tuple[dict[bytes, tuple[Address, list[bytes]]], list[str]]:
    """By each message, with one requester and one sequence number, the address that it is for and the lines that give it; and what is refused."""
    groups: dict[bytes, tuple[Address, list[bytes]]] = {}
    refused: list[str] = []
    for number, tag in enumerate(lines, 1):
        try:
            request = read_request(tag, reading=Reading.STORED)
            groups.setdefault(request.message, (request.address, []))[1].append(tag)
        except Refused as why:
            if tag:
                refused.append(f"line {number}: {shown(tag)}: {why}")
    return groups, refused


def main() -> int:
    parser = argparse.ArgumentParser(description=__doc__, formatter_class=argparse.RawDescriptionHelpFormatter)
    parser.add_argument("file", nargs="?", type=Path, help="the addresses; standard input if there is none")
    file = parser.parse_args().file
    try:
        with open(0 if file is None else file, "rb") as source:
            text = source.read()
        # a list that comes from Windows may have a byte order mark, and carriage returns
        groups, refused = grouped([line.removesuffix(b"\r") for line in text.removeprefix(b"\xEF\xBB\xBF").split(b"\n")])
    except OSError as why:
        parser.error(str(why))
    for line in refused:
        print(line, file=sys.stderr)
    for message, (a, tags) in groups.items():
        print(f"{message[FUNCTION_AT:].hex(' ').upper()}: {a.code.name}, file {a.file_number}, element {a.element_number}, "
              f"position {a.position or 0}, count {a.element_count}")
        for tag in tags:
            print(f"    {shown(tag)}")
    return 1 if refused else 0


if __name__ == "__main__":
    # where nobody reads the output any more, the system ends it
    signal.signal(signal.SIGPIPE, signal.SIG_DFL)
    # what is printed is UTF-8, as the list is
    for stream in (sys.stdout, sys.stderr):
        if isinstance(stream, TextIOWrapper):
            stream.reconfigure(encoding="utf-8", errors="backslashreplace")
    sys.exit(main())

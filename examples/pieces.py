#!/usr/bin/env python3
"""Filters a file of MRT records of any size with the program grainlantern.

    pieces.py FILTERFILE RECORDFILE [PROGRAM] > LINES

The program reads the first 65,536 bytes of its input. So the file is cut between records into pieces of at most that many bytes, and the
program is run on each of them, in order. A record that is longer gets a piece of its own: the program prints nothing for it.

PROGRAM is bin/grainlantern where none is named, which looks at each run whether a source has changed; crates/grainlantern/out/grainlantern, which it builds, is
quicker.
"""

import pathlib
import subprocess
import sys

COMMAND = pathlib.Path(__file__).resolve().parent.parent / "bin" / "grainlantern"
LIMIT = 65536


def records(file):
    """The records of a file; at its end perhaps one that is cut."""
    while header := file.read(12):
        yield header + file.read(int.from_bytes(header[8:12], "big"))


def pieces(file):
    piece = bytearray()
    for record in records(file):
        if piece and len(piece) + len(record) > LIMIT:
            yield piece
            piece = bytearray()
        piece += record
    yield piece


def main():
    if len(sys.argv) not in (3, 4):
        sys.exit("usage: pieces.py FILTERFILE RECORDFILE [PROGRAM]")
    filter_name, records_name, program = (sys.argv[1:] + [COMMAND])[:3]

    def lines(piece):
        return subprocess.run([program, filter_name], input=piece, stdout=subprocess.PIPE, check=True).stdout

    # without records only a bad filter has something to say
    refused = lines(b"")
    if refused:
        sys.exit(f"{filter_name}: {refused.decode().strip()}")
    with open(records_name, "rb") as file:
        for piece in pieces(file):
            sys.stdout.buffer.write(lines(piece))


if __name__ == "__main__":
    main()

#!/usr/bin/env python3
"""Makes a trace of a text that has a record on each line.

    python3 tools/assemble.py TEXT TRACE

Numbers are decimal, or hexadecimal with 0x. Empty lines and lines that start with # are passed over.

    advance TICKS
    read PORT
    write PORT BYTE
    acknowledge
    queue TICK PORT BYTE
    note TEXT
"""
import struct
import sys

VERSION = b"\x01"

# kind and field layout of each record but the note
RECORDS = {
    "advance": (1, ">Q"),
    "read": (2, ">H"),
    "write": (3, ">HB"),
    "acknowledge": (4, ">"),
    "queue": (5, ">QHB"),
}


def body(line):
    """The counted bytes of a record."""
    word, _, rest = line.partition(" ")
    if word == "note":
        return b"\x06" + rest.encode("ascii")
    kind, layout = RECORDS[word]
    return bytes([kind]) + struct.pack(layout, *(int(number, 0) for number in rest.split()))


def assemble(text):
    trace = VERSION
    for number, line in enumerate(text.splitlines(), 1):
        if not line.strip() or line.startswith("#"):
            continue
        try:
            counted = body(line)
        except (KeyError, ValueError, struct.error) as error:
            sys.exit(f"line {number} is no record: {line!r} ({error!r})")
        trace += struct.pack(">H", len(counted)) + counted
    return trace


def main():
    if len(sys.argv) != 3:
        sys.exit(__doc__)
    with open(sys.argv[1], encoding="ascii") as text:
        trace = assemble(text.read())
    with open(sys.argv[2], "wb") as file:
        file.write(trace)


if __name__ == "__main__":
    main()

#!/usr/bin/env python3
"""Makes files of records from text: make_records.py FILE.txt .. writes FILE.bin beside each.

A line is a record: its kind, then its fields as BIT=VALUE, as in `3 0=1 3=20 9=3000`.
A line `bytes 03 00 ..` stands for those bytes as they are. What follows a # is a comment.
The text may spell records that a reader refuses: a kind that is not known, a bit beyond the
kind's fields, a field of 0. docs/FORMAT.md describes the records.
"""

import pathlib
import sys


def width(kind):
    return 4 if 1 <= kind <= 7 else 8


def record(words):
    kind = int(words[0])
    fields = {}
    for word in words[1:]:
        bit, value = (int(part) for part in word.split("="))
        if not 0 <= bit < 16 or bit in fields:
            raise ValueError(f"bit {bit}")
        fields[bit] = value
    standing = sum(1 << bit for bit in fields)
    head = kind.to_bytes(1, "big") + standing.to_bytes(2, "big")
    return head + b"".join(fields[bit].to_bytes(width(kind), "big", signed=True) for bit in sorted(fields))


def line_bytes(line):
    words = line.split("#")[0].split()
    if not words:
        return b""
    if words[0] == "bytes":
        return bytes.fromhex("".join(words[1:]))
    return record(words)


def main(names):
    for name in names:
        path = pathlib.Path(name)
        out = bytearray()
        for number, line in enumerate(path.read_text().splitlines(), 1):
            try:
                out += line_bytes(line)
            except (ValueError, OverflowError) as error:
                sys.exit(f"{name}:{number}: {error}")
        path.with_suffix(".bin").write_bytes(out)


if __name__ == "__main__":
    main(sys.argv[1:])

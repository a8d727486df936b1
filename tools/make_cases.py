#!/usr/bin/env python3
"""Makes the cases of crates/entry_tests from their text: make_cases.py DIR reads DIR/data/cases.txt and writes
DIR/data/cases.bin, which the program reads, and DIR/stdout, which it has to print.

A case is a line `case NAME`, records as make_records.py has them, and a line `-> ANSWER; COUNTS`. A line `file` between
records begins another file; `TIMES x RECORD` is a record over and over. An answer is `accepted` or `FAULT at PLACE`, one
for each file, with commas; the counts are those of windows, buys, baskets, and children and substitutes that are kept.
A line `also TEXT` is printed after the cases: for those that the program makes itself.
"""

import pathlib
import sys

from make_records import line_bytes


def part(data):
    return len(data).to_bytes(2, "big") + data


def repeated(line):
    times, mark, rest = line.partition(" x ")
    return line_bytes(rest) * int(times) if mark else line_bytes(line)


def main(folder):
    out, lines, also = bytearray(), [], []
    name, files = None, []
    text = folder / "data" / "cases.txt"
    for number, line in enumerate(text.read_text().splitlines(), 1):
        line = line.split("#")[0].strip()
        if line.startswith("case "):
            name, files = line[5:], [b""]
        elif line.startswith("also "):
            also.append(line[5:])
        elif line.startswith("->"):
            out += part(name.encode()) + part(b"".join(part(file) for file in files))
            lines.append(f"{name}: {line[2:].strip()}")
        elif line == "file":
            files.append(b"")
        elif line:
            try:
                files[-1] += repeated(line)
            except (IndexError, OverflowError, ValueError) as error:
                sys.exit(f"{text}:{number}: {error}")
    (folder / "data" / "cases.bin").write_bytes(out)
    (folder / "stdout").write_text("\n".join(lines + also) + "\n")


if __name__ == "__main__":
    main(pathlib.Path(sys.argv[1]))

#!/usr/bin/env python3
"""Lists the places in src/ that may read like an older language, by kind, and how many there are of each.

    python3 tools/places.py [--list] [COMMIT]

Without a commit it reads the files as they stand. `--list` prints each place, else only the counts. What it lists is found
by the look of the code, so a place can be right as it is: docs/DESIGN-PASS.md says which were changed and which are kept.
"""
import re
import subprocess
import sys
from collections import defaultdict


def sources(commit):
    """Each .rt file of src/ with its text."""
    if commit is None:
        names = subprocess.run(["git", "ls-files", "--cached", "--others", "--exclude-standard", ":(glob)crates/*/src/**/*.rt"],
                               capture_output=True, text=True, check=True).stdout.split()
        found = []
        for name in sorted(set(names)):
            try:
                found.append((name, open(name).read()))
            except FileNotFoundError:
                pass
        return found
    names = subprocess.run(["git", "ls-tree", "-r", "--name-only", commit, "crates"],
                           capture_output=True, text=True, check=True).stdout.split()
    return [(n, subprocess.run(["git", "show", f"{commit}:{n}"], capture_output=True, text=True, check=True).stdout)
            for n in sorted(names) if re.match(r"crates/[^/]+/src/.*\.rt$", n)]


def code_of(text):
    """The text without comments, clauses and ghost lines, with its lines kept."""
    lines, depth = [], 0
    for line in text.split("\n"):
        bare = re.sub(r"//.*", "", line)
        if depth:
            depth += bare.count("{") - bare.count("}")
            lines.append("")
            continue
        if re.match(r"\s*(requires|ensures|ghost)\b", bare):
            depth = bare.count("{") - bare.count("}")
            lines.append("")
            continue
        lines.append(bare)
    return "\n".join(lines)


def functions(code):
    """Each function with a body: its line, its name, its parameters and its body."""
    for m in re.finditer(r"\bfn (\w+)\s*(<[^>(]*>)?\(", code):
        at, depth = m.end(), 1
        while depth and at < len(code):
            depth += {"(": 1, ")": -1}.get(code[at], 0)
            at += 1
        parameters = code[m.end():at - 1]
        opening = re.search(r"[{;]", code[at:])
        if not opening or opening.group() == ";":
            continue
        start = at + opening.start()
        end, depth = start + 1, 1
        while depth and end < len(code):
            depth += {"{": 1, "}": -1}.get(code[end], 0)
            end += 1
        yield code.count("\n", 0, m.start()) + 1, m.group(1), parameters, code[start:end]


WORDS = set("let mut if else match for in while loop return Some None Ok Err true false self Self as ref move break continue fn"
            " i64 u64 i32 u32 u8 u16 usize bool push_str write println print fault place number layer".split())


def shape(body):
    """The body with its own names and numbers taken out."""
    tokens = re.findall(r"b?\"(?:[^\"\\]|\\.)*\"|[A-Za-z_]\w*|\d[\d_]*|\S", body)
    return " ".join(t if t in WORDS or not re.match(r"[A-Za-z_\d]|b?\"", t) else "_" for t in tokens)


KINDS = [
    ("1 a number for the kind of a record", r"\bkind == \d|\bnumber: \d+,|^\s*\d+ => (Step|Ok\(Entry)"),
    ("1 an error as an Option", r"-> Option<Fault>"),
    ("1 an Option that is a sentinel: a length, 255, 0 for none", r"return row\.len\(\)|== MOST_HELD|\b(255|65_535)$|for none|fault: 0\b"),
    ("3 a loop over a count", r"^\s*for \w+ in .*\.\."),
    ("3 a loop that counts or finds by hand", r"^\s*loop \{|\bcount \+= 1"),
    ("4 a conversion by `as`", r"\bas (i8|u8|i16|u16|i32|u32|i64|u64|i128|u128|usize)\b"),
    ("4 a refusal taken apart to be printed", r"\.fault\.(number|layer)\(\)"),
    ("4 an enum compared by its number", r"\.number\(\) =="),
    ("4 a name or a number printed by a function of its own", r"fn (show_\w+|\w*_name|name)\("),
    ("6 a buffer with a length beside it", r"count: usize|let mut count = 0|\[0\.\.(self\.)?count\]"),
    ("7 a step chosen by a number", r"fn in_turn|in_turn\("),
]


def main():
    arguments = [a for a in sys.argv[1:] if a != "--list"]
    listing = "--list" in sys.argv
    files = sources(arguments[0] if arguments else None)
    counts, places = defaultdict(int), defaultdict(list)

    def add(kind, name, line, text):
        counts[kind] += 1
        places[kind].append(f"{name}:{line}: {text.strip()[:110]}")

    shapes, groups, requires = defaultdict(list), defaultdict(list), defaultdict(list)
    types = defaultdict(list)
    for name, text in files:
        code = code_of(text)
        for n, line in enumerate(code.split("\n"), 1):
            for kind, pattern in KINDS:
                if re.search(pattern, line):
                    add(kind, name, n, line)
        for n, function, parameters, body in functions(code):
            form = shape(body)
            if len(form.split()) >= 16:
                shapes[form].append((name, n, function))
            pairs = [p.strip() for p in parameters.split(",") if ":" in p]
            for a in range(len(pairs)):
                for b in range(a + 2, len(pairs) + 1):
                    groups[", ".join(re.sub(r"'\w+ ", "", p) for p in pairs[a:b])].append((name, n, function))
        for m in re.finditer(r"pub struct (\w+) \{([^}]*)\}", code):
            fields = re.sub(r"\s+", " ", m.group(2))
            types[re.sub(r": [\w:]+,", ": _,", fields)].append((name, code.count("\n", 0, m.start()) + 1, m.group(1)))
        for n, line in enumerate(text.split("\n"), 1):
            m = re.match(r"\s*requires (?:\w+ )?\{ (.*) \}", line)
            if m:
                for part in re.split(r" × ", m.group(1)):
                    requires[re.sub(r"\b\w+\.(now|old)\b", "_", part.strip("() "))].append((name, n, line))
    for form, found in shapes.items():
        if len(found) > 1:
            for name, n, function in found:
                add("2 a function of the same shape as another", name, n, f"{function}, one of {len(found)}: " + ", ".join(f for _, _, f in found))
    for fields, found in types.items():
        if len(found) > 1:
            for name, n, kind in found:
                add("2 a type of the same fields as another", name, n, f"{kind}, one of {len(found)}")
    for group, found in groups.items():
        if len(found) >= 3:
            add("5 parameters that travel together through three functions or more", *found[0][:2], f"{group}: {len(found)} functions")
    for part, found in requires.items():
        if len(found) >= 3:
            add("5 a fact that three or more contracts require", *found[0][:2], f"{part}: {len(found)} contracts")
    for kind in sorted(counts):
        print(f"{counts[kind]:4}  {kind}")
        if listing:
            for place in places[kind]:
                print(f"        {place}")


if __name__ == "__main__":
    main()

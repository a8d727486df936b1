#!/usr/bin/env python3
"""Brings the repository's own definitions and lemmas to one spelling: functions, lemmas and fields in snake case, facts and
records in upper camel case.

usage: respell.py [--list], once, at the top of the repository as the kit's script left it; --list prints the names alone

A name is respelled in every file of crates/ and in the edits of misuse/, planted/ and must-fail/. It stays in a file that imports it from a
library of the toolchain, and where it is a label that the check makes of the code (in Answers, Invariants and Proof files).
"""

import pathlib
import re
import sys

NAME = r"[^\s(){}\[\].,;:@«»\"`]+"
HEAD = re.compile(rf"( *)((?:(?:unfoldable|abbrev|pub|record|data) )*)({NAME})\s*[:({{]")
MADE = {"Answers.antt", "Invariants.antt", "Proof.antt"}
KEYWORDS = {"use", "mod", "pub", "unfolding", "record", "data", "where"}

# Names whose plain respelling would meet another of the repository or of a library in one file.
CHOSEN = {
    "extra-window": "extra_window_lem",
    "held-parts": "held_parts_lem",
    "in-pence": "in_pence_lem",
    "is-child": "is_child_lem",
    "is-zero": "is_zero_lem",
    "leaf-bytes": "leaf_bytes_lem",
    "no-basket": "no_other_basket",
    "no-buy": "no_other_buy",
    "no-weights": "without_weights",
    "no_extra": "no_other_extra",
    "node-step": "node_step_lem",
    "no-window": "no_other_window",
    "non-neg": "non_neg_lem",
    "on-lines": "on_lines_lem",
    "sell-on": "sell_on_lem",
    "sell-worth": "sell_worth_lem",
    "tree-bytes": "tree_bytes_lem",
    "window-of": "window_of_lem",
}


def respelled(name):
    if name in CHOSEN:
        return CHOSEN[name]
    name = name.replace("′", "'")
    if name[0].isupper():
        return "".join(part[:1].upper() + part[1:] for part in name.split("-"))
    name = name.replace("-", "_")
    return re.sub(r"(?<=[a-z0-9])([A-Z])(?=[a-z]|$)", lambda m: "_" + m.group(1).lower(), name)


def own_names(files):
    """The names that a text declares: at most two blanks in, behind `pub`, or with a line below that defines the name."""
    names = set()
    for file in files:
        if file.suffix != ".antt" or file.name in MADE:
            continue
        text = file.read_text()
        for line in text.splitlines():
            match = HEAD.match(line)
            if line.lstrip().startswith("--") or not match or match.group(3) in KEYWORDS:
                continue
            blanks, words, name = match.groups()
            if len(blanks) <= 2 or "pub" in words or re.search(rf"^{blanks}{re.escape(name)} .*=", text, re.M):
                names.add(name)
    for file in files:
        names |= set(re.findall(rf"^(?:ghost )?use .* as ({NAME})\}};?$", file.read_text(), re.M))
    return names


def plainly(text):
    """A word of the library goes by its own name, where it had another that stands for something else there."""
    if "{AllByRecursion as All}" not in text:
        return text
    text = text.replace("{AllByRecursion as All}", "{AllByRecursion}")
    lines = text.split("\n")
    return "\n".join(line if line.lstrip().startswith("--") else re.sub(NAME, lambda m: "AllByRecursion" if m.group(0) == "All" else m.group(0), line) for line in lines)


def imported(text):
    names = set()
    for path, group in re.findall(r"^(?:ghost )?use ([^\s{]+)\.\{([^}]*)\}", text, re.M):
        if path.split(".")[0] != "Rattle" or path.split(".")[1] == "std":
            names |= {name.split(" as ")[0].strip() for name in group.split(",")}
    return names


def labels(text):
    """The names that a file of answers defines."""
    return set(re.findall(rf"^(?:abbrev )?(?:pub )?({NAME})", text, re.M))


def turn(text, names, made):
    kept = imported(text)
    if made:
        kept |= labels(text)

    def word(match):
        name = match.group(0)
        if name in kept or name not in names:
            return name
        before = text[max(0, match.start() - 5):match.start()]
        if made and (before.endswith("goal.") or before.endswith(" c.") or before.endswith("(c.")):
            return name
        return names[name]

    return re.sub(NAME, word, text)


def main():
    files = [file for file in sorted(pathlib.Path("crates").rglob("*")) if file.suffix in {".antt", ".rt", ".edit"} and "out" not in file.parts]
    beside = [file for folder in ("misuse", "planted") for file in sorted(pathlib.Path(folder).glob("*")) if file.is_file()]
    own = own_names(files)
    if "no_other_extra" in own:
        sys.exit("respell.py: this tree is respelled already")
    names = {name: respelled(name) for name in own if respelled(name) != name}
    if "--list" in sys.argv:
        for name in sorted(names):
            print(name, names[name])
        return
    for file in files + beside:
        text = file.read_text()
        new = turn(plainly(text), names, file.name in MADE)
        if new != text:
            file.write_text(new)


main()

#!/usr/bin/env python3
"""Plants bugs, one at a time, and says what catches each.

    planted.py [--jobs N] [NAME ..]        plants the named ones, or all of planted/*.txt, and proves
    planted.py --outputs [NAME ..]         runs programs with the bug in, and proves nothing
    planted.py --fits                      only says whether the text of each bug of planted/ stands where the bug is to be planted
    planted.py --report                    writes the outcomes into docs/PLANTED-BUGS.md

NAME is that of a file of planted/ (CRATE, or CRATE-SUBJECT), or NAME/LABEL for one bug of it. A bug is a paragraph there:

    label: what is wrong then
    src/file.rt
    - a text that stands once in that file
    + what is planted in its place

with a line of its own for each line of text, and more texts and more files if need be; a lone + plants nothing. Under the label
a line `= why` says that the prover is not expected to refuse the bug, and why; a line `~ PROGRAM` says that the output of that
program shows the bug too, whatever is proved.

Each bug is made in a copy of the repository, and its crate is proved over what is proved of it already (so run `rt all check` first).
A function is proved from its own body and the contracts of those that it calls, so bugs in the bodies of several functions are
planted in one copy, and each is judged by its own function; one whose function is still proved is then planted alone.
What is still proved alone is followed up: all that depends on the crate is proved, every program of that is run and its output
compared, and the tests are run. A bug that cannot be planted, compiled or read is unfit: it says nothing. A function can also fall
only because its proof names what the bug takes away (a local, a call, a condition); that says little of the contract, and is told
apart (named), and is not what is expected.

The outcomes are kept in target/planted, with what the check said of each bug. A copy takes as much disk as crates/ with what the
checks keep there (some 2 GB); --jobs N has N of them, in a temporary folder. It takes long, so it is run by hand and is no part of
the checks.
"""

import argparse
import concurrent.futures
import json
import pathlib
import queue
import re
import shutil
import subprocess
import sys
import tempfile

ROOT = pathlib.Path(__file__).resolve().parent.parent
KEPT = ROOT / "target" / "planted"
DOC = ROOT / "docs" / "PLANTED-BUGS.md"
MARK = "<!-- What follows is written by tools/planted.py --report. -->"


class Bug:
    def __init__(self, subject, head):
        self.subject = subject
        self.crate = subject.partition("-")[0]
        self.label, _, self.says = head.partition(": ")
        self.name = f"{subject}/{self.label}"
        self.why = ""
        self.programs = []
        self.texts = []  # file, the lines that stand there, the lines to plant

    def add(self, line):
        if line.startswith("= "):
            self.why = line[2:]
        elif line.startswith("~ "):
            self.programs += line[2:].split()
        elif line.startswith("- "):
            file, old, new = self.texts[-1]
            if new:
                self.texts.append((file, [line[2:]], []))
            else:
                old.append(line[2:])
        elif line.startswith("+"):
            self.texts[-1][2].append(line[2:])
        else:
            self.texts.append((line.strip(), [], []))


def all_bugs():
    bugs = []
    for path in sorted((ROOT / "planted").glob("*.txt")):
        begun = False
        for line in path.read_text().splitlines():
            if not line.strip():
                begun = False
            elif begun:
                bugs[-1].add(line)
            elif not line.startswith("#"):
                bugs.append(Bug(path.stem, line))
                begun = True
    return bugs


def body_of(bug):
    """The function in whose body the bug is planted, if it is in one."""
    names = set()
    for file, old, _ in bug.texts:
        if not file.startswith("src/"):
            return None
        text = (ROOT / "crates" / bug.crate / file).read_text()
        before = text[: text.find("\n".join(old))]
        heads = list(re.finditer(r"^(?: *#\[cycle\((\w+)\)\]\n)? *(?:pub(?:\(\w+\))? )?fn (\w+)|^\}", before, re.M))
        # functions that call one another have one proof, so a bug in one of them is planted alone
        names.add(heads[-1].group(2) if heads and not heads[-1].group(1) else None)
    return names.pop() if len(names) == 1 else None


def groups_of(bugs):
    """Bugs in bodies of different functions of one crate, together; all others alone."""
    groups = []
    for bug in bugs:
        body = None if bug.why else body_of(bug)
        for group in groups:
            if body and group["bodies"] and group["bugs"][0].crate == bug.crate and body not in group["bodies"]:
                group["bugs"].append(bug)
                group["bodies"].append(body)
                break
        else:
            groups.append({"bugs": [bug], "bodies": [body] if body else []})
    return groups


def plant(bug, copy):
    """Makes the bug in a copy; says why, where that cannot be done."""
    for file, old, new in bug.texts:
        path = copy / "crates" / bug.crate / file
        text, old, new = path.read_text(), "\n".join(old), "\n".join(new)
        if text.count(old) != 1:
            return f"the text stands {text.count(old)} times in {file}: {old}"
        path.write_text(text.replace(old, new))
    return ""


def fits():
    """Whether each bug can be made; those that cannot are named."""
    bugs, unfit = all_bugs(), 0
    with tempfile.TemporaryDirectory() as folder:
        copy = pathlib.Path(folder)
        for bug in bugs:
            for part in ("src", "specs", "proofs"):
                (copy / "crates" / bug.crate).mkdir(parents=True, exist_ok=True)
                restored(copy, f"crates/{bug.crate}/{part}")
            fault = plant(bug, copy) if bug.texts else "it has no texts"
            if fault:
                unfit += 1
                print(f"{bug.name}: {fault}")
    print(f"{len(bugs)} bugs, of which {len(bugs) - unfit} fit and {unfit} do not")
    return unfit == 0


def above(crate):
    """The crate and all that depend on it."""
    uses = {}
    for line in (ROOT / "crates.txt").read_text().splitlines():
        name, _, deps = line.partition("#")[0].partition(":")
        if name.strip():
            uses[name.split()[0]] = set(deps.split())
    found = {crate}
    while more := {name for name, deps in uses.items() if deps & found} - found:
        found |= more
    return [name for name in uses if name in found]


def rt(copy, crate, *words):
    folder = copy / "crates" / crate
    done = subprocess.run(["rt", *words], cwd=folder, stdin=subprocess.DEVNULL, capture_output=True, text=True)
    return done.returncode, done.stdout + done.stderr


def check(copy, crate):
    return rt(copy, crate, "check", "--jobs", "1")


def tests(copy, crate):
    """Proves and runs the tests, where the crate has any."""
    has = any("#[test]" in path.read_text() for path in (copy / "crates" / crate / "src").rglob("*.rt"))
    return rt(copy, crate, "test")[0] == 0 if has else True


def is_program(copy, crate):
    return (copy / "crates" / crate / "src" / "main.rt").exists()


def run(copy, program):
    """What the program does, run without a proof on the files that `rt ci` runs it on: as it should, something else, or it does not compile."""
    folder = copy / "crates" / program
    words = ["rt", "try"]
    for file in sorted((folder / "data").glob("*")):
        words += ["--data", f"{file.name}={file}"]
    if (folder / "args").exists():
        words += ["--", *(folder / "args").read_text().splitlines()]
    given, wanted, status = (folder / name for name in ("stdin", "stdout", "status"))
    done = subprocess.run(words, cwd=folder, input=given.read_bytes() if given.exists() else b"", capture_output=True)
    if b"run=none" in done.stderr:
        return "does not compile"
    same = done.stdout == (wanted.read_bytes() if wanted.exists() else b"")
    return "same" if same and done.returncode == (int(status.read_text()) if status.exists() else 0) else "differs"


ERROR = re.compile(r"^(?:\./)?((?:src|specs|proofs)/\S+\.(?:antt|rt)):\d+:\d+: error: (.*)", re.M)
GONE = re.compile(r"has no field|is not in scope|has no `|was not admitted")
UNREAD = re.compile(r"is not in scope|has no field|is no name|operand is missing|expected the end|cannot continue")


def where_refused(said, only=""):
    """The functions that are no longer proved, but for those of which only a callee is not, else the files that are no longer accepted."""
    names = re.findall(r"^fn (\S+): (?:not proved|no proof(?!: (?:it calls|it passes|a call of))|could not tell)" + only, said, re.M)
    return list(dict.fromkeys(names or [file for file, _ in ERROR.findall(said)]))


def refused_among(said):
    """Of bugs that are planted together: the functions that are no longer proved, whatever is planted in those that they call."""
    names = where_refused(said, r"(?!.*(?:it calls|it passes|a call of))")
    return [name for name in names if not by_name_only(said, name.split("::")[-1])]


def by_name_only(said, body=""):
    """Whether all that is wrong (with the proof of one function) is that a proof names what is not there now."""
    errors = [(file, told) for file, told in ERROR.findall(said) if not body or re.search(rf"/\+?{body}/", file)]
    return bool(errors) and all(file.startswith("proofs/") and GONE.search(told) for file, told in errors)


def unread(bug, said):
    """What the prover cannot read of the files in which the bug is planted: a bug that only makes a statement false reads well."""
    for file, told in ERROR.findall(said):
        plain = re.sub(r"`[^`]*`", "", told.partition(": ")[2] if told.startswith("`") else told)
        if file in {name for name, _, _ in bug.texts} and (not told.startswith("`") or UNREAD.search(plain)):
            return f"{file}: {told}"
    return ""


def prove(bugs, bodies, copy):
    """What becomes of each bug (refused, named, seen, survived or unfit), and where."""
    where = proved_together(bugs, copy) if len(bugs) > 1 else []
    outcomes = []
    for bug, body in zip(bugs, bodies or [None]):
        names = [name for name in where if name.split("::")[-1] == body]
        if not names:
            restored(copy, f"crates/{bug.crate}")
        outcomes.append(("refused", names) if names else prove_alone(bug, copy))
    return outcomes


def proved_together(bugs, copy):
    """Plants all but those that do not compile, and says which functions are refused then."""
    planted = []
    for bug in bugs:
        if not plant(bug, copy):
            planted.append(bug)
    for _ in bugs:
        said = check(copy, bugs[0].crate)[1]
        (KEPT / f"{bugs[0].name.replace('/', '.')}.together.log").write_text(said)
        if re.search(r"^logic=", said, re.M):
            return refused_among(said)
        places = [(file, int(line)) for file, line in re.findall(r"(src/\S+?\.rt):(\d+):\d+: error", said)]
        left = [bug for bug in planted if not any(stands_at(bug, copy, *place) for place in places)]
        if len(left) == len(planted):
            return []
        planted = left
        restored(copy, f"crates/{bugs[0].crate}")
        for bug in planted:
            plant(bug, copy)
    return []


def stands_at(bug, copy, file, line):
    """Whether what the bug plants stands at that line of the file, or right beside it."""
    for name, _, new in bug.texts:
        text = (copy / "crates" / bug.crate / name).read_text()
        at = text.find("\n".join(new))
        first = text[:at].count("\n") + 1
        if name == file and at >= 0 and first - 1 <= line <= first + len(new):
            return True
    return False


def prove_alone(bug, copy):
    fault = plant(bug, copy)
    if fault:
        return "unfit", [fault]
    status, said = check(copy, bug.crate)
    (KEPT / f"{bug.name.replace('/', '.')}.log").write_text(said)
    if re.search(r"^logic=not-proved", said, re.M):
        fault = unread(bug, said)
        if fault:
            return "unfit", [fault]
        return "named" if by_name_only(said) else "refused", where_refused(said)
    if status != 0:
        return "unfit", [" ".join(said.split())[:400]]
    try:
        return follow_up(bug, copy)
    finally:
        for crate in above(bug.crate):
            restored(copy, f"crates/{crate}")


def follow_up(bug, copy):
    """What becomes of a bug with which its crate is still proved: whether a crate above is not, or a program or a test shows it."""
    crates = above(bug.crate)
    for crate in crates:
        status, said = check(copy, crate)
        if status != 0:
            (KEPT / f"{bug.name.replace('/', '.')}.log").write_text(said)
            return ("refused", where_refused(said)) if re.search(r"^logic=not-proved", said, re.M) else ("unfit", [" ".join(said.split())[:400]])
    seen = [f"the output of {crate} differs" for crate in crates if is_program(copy, crate) and run(copy, crate) != "same"]
    seen += [f"a test of {crate} fails" for crate in crates if not tests(copy, crate)]
    return ("seen", seen) if seen else ("survived", [])


def run_programs(bugs, bodies, copy):
    """Of the programs that are to show a bug, those that do, or those that do not."""
    fault = plant(bugs[0], copy)
    if fault:
        return [("unfit", [fault])]
    told = {program: run(copy, program) for program in bugs[0].programs}
    if "does not compile" in told.values():
        return [("unfit", ["it does not compile"])]
    same = [program for program in told if told[program] == "same"]
    return [("same", same) if same else ("differs", bugs[0].programs)]


def restored(copy, part):
    shutil.rmtree(copy / part, ignore_errors=True)
    if (ROOT / part).exists():
        subprocess.run(["cp", "-a", ROOT / part, copy / part], check=True)


def kept(kind):
    """The outcomes so far, by the bug's name."""
    return {path.stem.replace(".", "/"): json.loads(path.read_text()) for path in sorted((KEPT / kind).glob("*.json"))}


def plant_all(groups, jobs, judge, kind):
    """Judges each group of bugs in a copy, and keeps the outcomes."""
    (KEPT / kind).mkdir(parents=True, exist_ok=True)
    outcomes = {}
    with tempfile.TemporaryDirectory() as folder, concurrent.futures.ThreadPoolExecutor(jobs) as pool:
        copies = queue.Queue()
        for n in range(jobs):
            copy = pathlib.Path(folder) / str(n)
            copy.mkdir()
            for part in ("crates", "crates.txt", "HANDLES"):
                restored(copy, part)
            copies.put(copy)

        def work(group):
            copy = copies.get()
            try:
                return judge(group["bugs"], group["bodies"], copy)
            finally:
                restored(copy, f"crates/{group['bugs'][0].crate}")
                copies.put(copy)

        for group, told in zip(groups, pool.map(work, groups)):
            for bug, outcome in zip(group["bugs"], told):
                print(f"{bug.name}: {outcome[0]}: {', '.join(outcome[1])}", flush=True)
                (KEPT / kind / f"{bug.name.replace('/', '.')}.json").write_text(json.dumps(outcome))
                outcomes[bug.name] = outcome[0]
    return outcomes


def cell(text):
    return " ".join(text.split()).replace("|", "\\|")


def row(bug, proved, ran):
    kind, where = proved
    told = {
        "refused": "refused: " + ", ".join(f"`{name.removeprefix(bug.crate + '::')}`" for name in where[:4]),
        "named": "refused, but only since a proof names what is gone: " + ", ".join(f"`{name.removeprefix(bug.crate + '::')}`" for name in where[:4]),
        "seen": f"proved, but {', '.join(where)}: {bug.why}",
        "survived": f"survives: {bug.why}",
    }[kind]
    if ran:
        told += f"; the output of {', '.join(ran[1])} {ran[0]}"
    texts = "; ".join(f"`{cell(' '.join(old))}` → `{cell(' '.join(new))}`" for _, old, new in bug.texts)
    return f"| {cell(bug.says)} | {bug.texts[0][0]}: {texts} | {cell(told)} |"


def report():
    proved, ran = kept("proved"), kept("ran")
    lines, subject, counts = [], None, {}
    for bug in all_bugs():
        if proved.get(bug.name, ["unfit"])[0] == "unfit" or (bug.programs and ran.get(bug.name, ["unfit"])[0] == "unfit"):
            sys.exit(f"{bug.name} has not been planted")
        if bug.subject != subject:
            subject = bug.subject
            lines += ["", f"## {subject.replace('-', ': ')}", "", "| what is wrong | where | outcome |", "|---|---|---|"]
        lines.append(row(bug, proved[bug.name], ran.get(bug.name)))
        counts[proved[bug.name][0]] = counts.get(proved[bug.name][0], 0) + 1
    told = ", ".join(f"{count} {kind}" for kind, count in sorted(counts.items()))
    head = DOC.read_text().partition(MARK)[0]
    DOC.write_text(f"{head}{MARK}\n\n{sum(counts.values())} in all: {told}.\n" + "\n".join(lines) + "\n")


def main():
    parse = argparse.ArgumentParser(description=__doc__, formatter_class=argparse.RawDescriptionHelpFormatter)
    parse.add_argument("--jobs", type=int, default=2)
    parse.add_argument("--outputs", action="store_true")
    parse.add_argument("--fits", action="store_true")
    parse.add_argument("--report", action="store_true")
    parse.add_argument("names", nargs="*")
    told = parse.parse_args()
    if told.fits:
        sys.exit(0 if fits() else 1)
    if told.report:
        return report()
    names = set(told.names)
    bugs = [bug for bug in all_bugs() if not names or names & {bug.name, bug.subject}]
    unknown = names - {bug.name for bug in bugs} - {bug.subject for bug in bugs}
    if unknown:
        sys.exit("no such bugs: " + ", ".join(sorted(unknown)))
    if told.outputs:
        bugs = [bug for bug in bugs if bug.programs]
        alone = [{"bugs": [bug], "bodies": []} for bug in bugs]
        outcomes = plant_all(alone, told.jobs, run_programs, "ran")
        wrong = [bug.name for bug in bugs if outcomes[bug.name] != "differs"]
    else:
        outcomes = plant_all(groups_of(bugs), told.jobs, prove, "proved")
        wrong = [bug.name for bug in bugs if outcomes[bug.name] not in (("seen", "survived") if bug.why else ("refused",))]
    if wrong:
        sys.exit("not as expected: " + ", ".join(wrong))


if __name__ == "__main__":
    main()

#!/usr/bin/env bash
# Misuses that must not compile. Each misuse/*.edit has four lines: a file, a text that stands once in it, what is to stand
# there instead, and what the compiler then says. The edit is made in a copy, which is compiled and not proved.
set -euo pipefail
cd "$(dirname "$0")/.."

copy=$(mktemp -d)
trap 'rm -rf "$copy"' EXIT

# Makes an edit in the copy, and prints what the compiler is to say of it.
edit() {
  python3 - "$1" "$copy" <<'PYTHON'
import pathlib
import sys

name, copy = sys.argv[1:]
words = ["file: ", "old: ", "new: ", "says: "]
lines = pathlib.Path(name).read_text().splitlines()
file, old, new, says = (line.removeprefix(word) for line, word in zip(lines, words, strict=True))
path = pathlib.Path(copy) / file
text = path.read_text()
if text.count(old) != 1:
    sys.exit(f"{name}: the text to be replaced does not stand once in {file}")
path.write_text(text.replace(old, new))
print(says)
PYTHON
}

# Compiles the program `panel` of the copy with all that it is made of, from the sources, and runs it where it compiles.
compile() {
  (cd "$copy/crates/panel" && rt try 2>&1)
}

fresh() {
  rm -rf "$copy/crates"
  mkdir "$copy/crates"
  tar -C crates --exclude=out -c . | tar -C "$copy/crates" -x
}

cp crates.txt "$copy"
fresh
compile >/dev/null || {
  echo "misuse: the program does not compile as it is"
  exit 1
}
for misuse in misuse/*.edit; do
  fresh
  says=$(edit "$misuse")
  if said=$(compile); then
    echo "$misuse: it compiles"
    exit 1
  fi
  if [[ $said != *"$says"* ]]; then
    echo "$misuse: refused, but for another reason:"
    echo "$said"
    exit 1
  fi
  echo "$misuse: does not compile, as it must not"
done

#!/usr/bin/env bash
# All checks: the bundled files against the texts that they were made from, the misuses that must not compile, and then the
# layout of the sources, the proofs, the must-fail edits, the programs' output and the tests, from nothing but for what an
# earlier run on this machine passed. The last line is 'N passed, 0 failed'.
set -euo pipefail
cd "$(dirname "$0")/.."

# The bundled files, made again in a copy, are those that are committed.
made=$(mktemp -d)
said=$(mktemp)
trap 'rm -rf "$made" "$said"' EXIT
tar --exclude=out -c crates tools | tar -C "$made" -x
rm -f "$made"/crates/*/data/*.bin "$made/crates/entry_tests/stdout"
(
  cd "$made"
  python3 tools/make_cases.py crates/entry_tests
  for text in crates/*/data/*.txt; do
    case "$text" in
      crates/entry_tests/*) ;;
      *) python3 tools/make_records.py "$text" ;;
    esac
  done
)
for file in crates/*/data/*.bin crates/entry_tests/stdout; do
  cmp "$file" "$made/$file"
done

tools/misuse.sh

# An edit that can no longer be made or read shows nothing of the contracts, so it counts as a failure here.
rt ci 2>&1 | tee "$said"
ok=$(grep -E '^rt: ok' "$said") || {
  echo "check: rt ci printed no line 'rt: ok'"
  exit 1
}
if [[ $ok != *"must-fail edits: "* || $ok =~ ,\ [1-9][0-9]*\ bad ]]; then
  echo "check: a must-fail edit is bad, or none was tried"
  exit 1
fi

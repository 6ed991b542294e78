#!/usr/bin/env bash
# Counts the instructions of `openlink compile`, by callgrind, on rule files that have a quarter, half and all of the
# bytes that a rule file may have, and prints a table. Fails if the code has another size than is known. It needs the
# built program, and is not part of the gate.
set -euo pipefail
cd "$(dirname "$0")/.."
program=$PWD/crates/openlink/out/openlink
[ -x "$program" ] || { echo "benches/compile.sh: no built program; rt ci builds it" >&2; exit 1; }
work=$(mktemp -d)
trap 'rm -rf "$work"' EXIT

# names N: rules with a name and a link text of their own, of 247 bytes each.
names() {
  for ((i = 0; i < $1; i++)); do printf 'rule\nwhen has n%03d\nlink http://e.org/%03d%0207d\n' "$i" "$i" 0; done
}

# So many guards of one rule, each with a text of its own.
texts() {
  printf 'rule\n'
  for ((i = 0; i < $1; i++)); do printf 'when x is "%04d"\n' "$i"; done
  printf 'link b\n'
}

# row RULES COUNT BYTES SIZE: the rules, filled up with a comment to that many bytes, have a code of that size.
row() {
  "$1" "$2" > "$work/all.rules"
  printf '#%0*d' $(($3 - $(stat -c %s "$work/all.rules") - 1)) 0 >> "$work/all.rules"
  [ "$(stat -c %s "$work/all.rules")" = "$3" ] || { echo "$1 $2: not $3 bytes" >&2; exit 1; }
  valgrind --tool=callgrind --callgrind-out-file=/dev/null "$program" compile "$work/all.rules" "$work/all.olk" \
    > "$work/printed" 2> "$work/count.log" ||
    { echo "$1 $2: not compiled" >&2; cat "$work/printed" "$work/count.log" >&2; exit 1; }
  [ "$(cat "$work/printed")" = "$4 bytes" ] ||
    { echo "$1 $2: a code of another size" >&2; cat "$work/printed" >&2; exit 1; }
  echo "| $1 | $2 | $3 | $(sed -n 's/.*Collected : //p' "$work/count.log") |"
}

echo "| rules | how many | bytes | instructions |"
echo "|---|---:|---:|---:|"
# A name takes 6 bytes of the file, a link text of 223 takes 226, and a rule 4 instructions; FAIL comes after all.
for part in 1 2 4; do row names $((part * 60)) $((part * 16384)) $((10 + part * 60 * (6 + 226 + 32) + 8)); done
# The name x, a text of 4 bytes and 4 instructions for each guard; the text b, EMIT, HALT and FAIL.
for part in 1 2 4; do row texts $((part * 255)) $((part * 16384)) $((10 + 3 + part * 255 * (7 + 32) + 4 + 24)); done

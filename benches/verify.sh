#!/usr/bin/env bash
# Counts the instructions of `openlink verify` on long code files, by callgrind, and prints a table. Fails if a verdict
# is wrong. It needs the built program, and is not part of the gate.
set -euo pipefail
cd "$(dirname "$0")/.."
program=$PWD/crates/openlink/out/openlink
[ -x "$program" ] || { echo "benches/verify.sh: no built program; rt ci builds it" >&2; exit 1; }
work=$(mktemp -d)
trap 'rm -rf "$work"' EXIT

u16() { printf '\\x%02x\\x%02x' $(($1 >> 8)) $(($1 & 255)); }

# instruction OP A B C D
instruction() { printf '\\x%02x\\x%02x%s%s%s' "$1" "$2" "$(u16 "$3")" "$(u16 "$4")" "$(u16 "$5")"; }

# The beginning of a code of N instructions, with the text x, the list l and an empty comparison text.
front() { printf 'OLK2%s%s%s\\x00\\x01x\\x01\\x01l\\x01\\x00\\x00' "$(u16 2)" "$(u16 1)" "$(u16 "$1")"; }

# Reads the text x into one register after the other.
straight() {
  front "$1"
  for ((i = 0; i < $1 - 1; i++)); do instruction 4 $((i % 64)) 0 0 0; done
  instruction 1 0 0 0 0
}

# A loop before which 62 registers have texts, and whose body makes lists of them: each rises at the loop's head.
loop() {
  front "$1"
  instruction 5 0 1 0 0
  for ((i = 2; i < 64; i++)); do instruction 6 "$i" 0 0 0; done
  instruction 16 1 0 0 $(($1 - 1))
  for ((i = 64; i < $1 - 2; i++)); do instruction 5 $((2 + i % 62)) 1 0 0; done
  instruction 18 0 0 0 0
  instruction 1 0 0 0 0
}

row() {
  printf %b "$("$1" "$2")" > "$work/code.olk"
  valgrind --tool=callgrind --callgrind-out-file=/dev/null "$program" verify "$work/code.olk" \
    > "$work/verdict" 2> "$work/count.log" || { echo "$1 $2: not accepted" >&2; exit 1; }
  [ "$(head -2 "$work/verdict")" = "ok"$'\n'"steps $3 + $4*M" ] || { echo "$1 $2: a wrong verdict" >&2; exit 1; }
  echo "| $1 | $2 | $(sed -n 's/.*Collected : //p' "$work/count.log") |"
}

echo "| code | length | instructions |"
echo "|---|---:|---:|"
for size in 1000 2000 3000 4000; do row straight "$size" "$size" 0; done
for size in 1000 2000 3000 4000; do row loop "$size" 65 $((size - 65)); done

#!/usr/bin/env bash
# What `openlink lint` costs. Compares the instructions that it takes for a rule file of almost 65,536 bytes with those
# of `openlink inspect` on the table, by callgrind, so that other work on the machine makes no difference. Fails if it
# takes more than four times as many, or if the number of its findings is wrong. The first rules have hosts made of
# cells, in a table of 20,000 rows; the second are links of many slashes that are optional; the third are links of many
# expressions, in a table of 9,000 columns; and the next two have links of names that nothing defines, which are longer
# than the names of columns, or as long. The last three have guards on names that nothing defines, over a header of
# 32,701 columns without rows: the first name is hashed like the first column if hashes are not secret, the second has a
# letter in common with it but does not resemble it, and the third resembles the last column alone. It needs the built
# program and Valgrind, and is not part of the gate.
set -euo pipefail
cd "$(dirname "$0")/.."
program=$PWD/crates/openlink/out/openlink
[ -x "$program" ] || { echo "benches/lint.sh: no built program; rt ci builds it" >&2; exit 1; }
scratch=$(mktemp -d)
trap 'rm -rf "$scratch"' EXIT

# many TEXT MOST: as many copies of the text as have at most that many bytes; `#` becomes the number of the copy.
many() {
  awk -v text="$1" -v most="$2" 'BEGIN {
    for (n = 1; bytes <= most; n++) {
      copy = text
      gsub("#", n, copy)
      bytes += length(copy)
      if (bytes <= most) printf "%s", copy
    }
  }'
}

# links TEXT END: eight rules, each with a link of almost 8,192 bytes, made of copies of the text and the end.
links() {
  local rule
  for rule in 1 2 3 4 5 6 7 8; do
    printf 'rule\nwhen given c%s\nlink https://e.org' "$rule"
    many "$1" 8100
    printf '%s\n' "$2"
  done
}

# guards NAME: a rule with as many guards on the name as fit.
guards() {
  printf 'rule\n'
  many "when has $1"$'\n' 65480
  printf 'link https://e.org/\n'
}

# instructions COMMAND..: how many instructions it takes. What it prints is kept.
instructions() {
  local status=0
  valgrind --tool=callgrind --callgrind-out-file="$scratch/callgrind" --log-file="$scratch/log" "$@" \
    >"$scratch/printed" || status=$?
  [ "$status" -le 1 ] || { echo "$*: status $status" >&2; exit 1; }
  sed -n 's/.*Collected : //p' "$scratch/log" | grep . || { echo "$*: callgrind counted nothing" >&2; exit 1; }
}

awk 'BEGIN {
  printf "publication_title\tprint_identifier\tonline_identifier\thost\ttitle_url\n"
  for (row = 0; row < 20000; row++)
    printf "Tides %06d\t%08d\t978%010d\tpress.example\thttps://press.example.com/%06d\n", row, row, row, row
}' >"$scratch/rows.tsv"
awk 'BEGIN {
  for (column = 1; column <= 9000; column++) printf "c%d%s", column, column < 9000 ? "\t" : "\n"
  for (row = 0; row < 28; row++)
    for (column = 1; column <= 9000; column++) printf "x%04d%s", column, column < 9000 ? "\t" : "\n"
}' >"$scratch/columns.tsv"
awk 'BEGIN {
  printf "Aa"
  for (column = 1; column < 32700; column++) printf "\tz"
  printf "\tQqq\n"
}' >"$scratch/header.tsv"
many 'rule
when given host
link https://{+host}{title_url}/{+title_url}
' 65536 >"$scratch/hosts.rules"
links '{c#}' '' >"$scratch/names.rules"
links '{/x}' 'foo' >"$scratch/slashes.rules"
links '{absent#}' '' >"$scratch/absent.rules"
links '{yz#}' '' >"$scratch/alike.rules"
guards BB >"$scratch/hashed.rules"
guards aB >"$scratch/letter.rules"
guards Qq >"$scratch/last.rules"
failed=0
echo "instructions: inspecting, lint, times, findings"
# The rules, the table, what has a finding in the rules, each time, and the text of these findings.
while IFS=: read -r rules table name text; do
  count=$(grep -o -- "$name" "$scratch/$rules.rules" | wc -l || true)
  inspected=$(instructions "$program" inspect "$scratch/$table.tsv")
  linted=$(instructions "$program" lint "$scratch/$rules.rules" "$scratch/$table.tsv")
  found=$(grep -c -- "$text" "$scratch/printed" || true)
  [ "$found" -eq "$count" ] || { echo "benches/lint.sh: $rules: $found lines with $text, not $count" >&2; failed=1; }
  awk -v rules="$rules" -v inspected="$inspected" -v linted="$linted" -v found="$found" 'BEGIN {
    printf "  %s: %d, %d, %.2f, %d\n", rules, inspected, linted, linted / inspected, found
    exit !(linted <= 4 * inspected)
  }' || { echo "benches/lint.sh: $rules: lint takes more than four times as much as inspect" >&2; failed=1; }
done <<'END'
hosts:rows:{nothing}:unknown name
slashes:rows:^link:unknown name x
names:columns:{nothing}:unknown name
absent:columns:{absent:unknown name absent
alike:columns:{yz:unknown name yz
hashed:header:when has BB:unknown name BB
letter:header:when has aB:unknown name aB
last:header:when has Qq:unknown name Qq, did you mean Qqq
END
exit "$failed"

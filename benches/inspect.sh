#!/usr/bin/env bash
# What inspecting a holdings table costs. Compares the processor time of `openlink inspect` on a table of almost 16 MiB
# and 200,000 rows with that of reading it, as `openlink resolve` does for a request that matches no row. Fails if
# inspecting takes more than twice the time of reading. In the first table each row has two identifiers of its own, in
# the second all rows have the same two, and in the third each row has an error in every cell that is looked at. It
# needs the built program, and is not part of the gate.
set -euo pipefail
cd "$(dirname "$0")/.."
program=$PWD/crates/openlink/out/openlink
[ -x "$program" ] || { echo "benches/inspect.sh: no built program; rt ci builds it" >&2; exit 1; }
scratch=$(mktemp -d)
trap 'rm -rf "$scratch"' EXIT

# rows PRINT ONLINE DATE URL: a table of 200,000 rows with these formats of the row's number.
rows() {
  printf 'publication_title\tprint_identifier\tonline_identifier\tdate_first_issue_online\ttitle_url\n'
  awk -v print_id="$1" -v online_id="$2" -v date="$3" -v url="$4" 'BEGIN {
    for (row = 0; row < 200000; row++)
      printf "The journal %06d\t" print_id "\t" online_id "\t" date "\t" url "\n", row, row, row, row, row
  }'
}

# seconds COMMAND..: the least processor time of five runs, in seconds.
seconds() {
  local run status TIMEFORMAT='%U %S'
  for run in 1 2 3 4 5; do
    status=0
    { time "$@" >"$scratch/printed.$run" 2>&1 || status=$?; } 2>>"$scratch/times"
    [ "$status" -le 1 ] || { echo "$*: status $status" >&2; exit 1; }
  done
  awk '{ sum = $1 + $2; if (NR == 1 || sum < least) least = sum } END { printf "%.3f", least }' "$scratch/times"
  rm "$scratch/times"
}

rows '%08d' '978%010d' '%04d' 'https://press.example.com/%06d' >"$scratch/own.tsv"
rows '2901-0012%.0s' '2908-0142%.0s' '2001-05%.0s' 'https://press.example.com/%06d' >"$scratch/same.tsv"
rows '"%07d"' '%06d, %%' '3/1/%d' 'www.press.example.com/%06d' >"$scratch/faults.tsv"
printf 'rule\nlink https://press.example.com/\n' >"$scratch/one.rules"
"$program" compile "$scratch/one.rules" "$scratch/one.olk" >"$scratch/compiled"
failed=0
echo "seconds of processor time: reading, inspecting"
for name in own same faults; do
  table=$scratch/$name.tsv
  printf 'one\t%s\t%s\n' "$scratch/one.olk" "$table" >"$scratch/registry.tsv"
  read=$(seconds "$program" resolve "$scratch/registry.tsv" 'rft.issn=0')
  inspected=$(seconds "$program" inspect "$table")
  echo "  $name, $(wc -c <"$table") bytes: $read, $inspected"
  awk -v read="$read" -v inspected="$inspected" 'BEGIN { exit !(inspected <= 2 * read) }' || failed=1
done
[ "$failed" = 0 ] || echo "benches/inspect.sh: a table takes more than twice the time of reading it" >&2
exit "$failed"

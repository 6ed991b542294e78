#!/usr/bin/env bash
# What holdings tables cost: the time of reading one of 16 MiB and 200,000 rows, compared with the same work in plain
# Rust; the memory that tables keep; and the instructions of a look-up. The measured programs are tables.rt.txt, which
# checks its results, and tables.rs, which is skipped if there is no rustc.
# Not part of the gate.
set -euo pipefail
cd "$(dirname "$0")/.."
scratch=$(mktemp -d)
trap 'rm -rf "$scratch"' EXIT

mkdir "$scratch/now"
benches/copy_crates "$scratch/now"
mkdir -p "$scratch/now/crates/tables_bench/src"
cp benches/tables.rt.txt "$scratch/now/crates/tables_bench/src/main.rt"
echo 'tables_bench: kbart_rows kev_read' >> "$scratch/now/crates.txt"
echo print_identifier > "$scratch/none.tsv"
(cd "$scratch/now/crates/tables_bench" && rt run -- read "$scratch/none.tsv" 0) > "$scratch/build.log" 2>&1 ||
  { tail -20 "$scratch/build.log"; exit 1; }
program=$scratch/now/crates/tables_bench/out/tables_bench

columns='publication_title print_identifier online_identifier date_first_issue_online num_first_vol_online
  num_first_issue_online date_last_issue_online num_last_vol_online num_last_issue_online title_url first_author
  title_id embargo_info coverage_depth notes publisher_name publication_type date_monograph_published_print
  date_monograph_published_online monograph_volume monograph_edition first_editor parent_publication_title_id
  preceding_publication_title_id access_type'

# So many rows of 83 bytes with all columns, each with two identifiers of its own; of them the first EACH-th, and so on,
# have 9999-9999 as the first: MANY rows, evenly spread.
rows() {
  # shellcheck disable=SC2086 # the names are words of their own
  echo $columns | tr ' ' '\t'
  awk -v rows="$1" -v many="$2" 'BEGIN {
    each = many ? rows / many : 0
    for (row = 0; row < rows; row++) {
      print_id = each && row % each == 0 ? "9999-9999" : sprintf("%04d-%04d", row / 10000, row % 10000)
      printf "Title %06d\t%s\t%04d-%03dX\t2001\t\t\t\t\t\thttps://e.org/%06d\t\t\t\t\t\t\t\t\t\t\t\t\t\t\t\n",
        row, print_id, row / 1000 + 5000, row % 1000, row
    }
  }'
}

# Rows of one-letter cells, as many cells as 16 MiB hold.
dense() {
  awk 'BEGIN {
    for (i = 0; i < 41; i++) printf "c%d%s", i, i < 40 ? "\t" : "\n"
    line = "x"; for (i = 1; i < 41; i++) line = line "\tx"
    for (row = 0; row < 200000; row++) print line
  }'
}

# Seconds of N rounds, without those of the start.
seconds() {
  local some none
  TIMEFORMAT=%U
  some=$({ time "${@:2}" "$1" > /dev/null; } 2>&1)
  none=$({ time "${@:2}" 0 > /dev/null; } 2>&1)
  awk -v some="$some" -v none="$none" -v rounds="$1" 'BEGIN { printf "%.3f", (some - none) / rounds }'
}

instructions() {
  valgrind --tool=callgrind --callgrind-out-file=/dev/null "$program" "$@" 2> "$scratch/count.log" > /dev/null ||
    { echo "$*: a wrong answer" >&2; exit 1; }
  sed -n 's/.*Collected : //p' "$scratch/count.log"
}

kept() {
  awk -v pages="$("$program" keep "$1")" -v bytes="$(wc -c < "$1")" 'BEGIN { printf "%.1f", pages * 4096 / bytes }'
}

rows 200000 0 > "$scratch/large.tsv"
dense > "$scratch/dense.tsv"
echo "reading $(wc -c < "$scratch/large.tsv") bytes, 200,000 rows, seconds of processor time"
echo "  kbart_rows   $(seconds 5 "$program" read "$scratch/large.tsv")"
if command -v rustc > "$scratch/rustc.log"; then
  rustc -O -o "$scratch/plain" benches/tables.rs
  echo "  plain Rust   $(seconds 5 "$scratch/plain" "$scratch/large.tsv")"
fi
echo "memory kept, times the table's bytes"
echo "  large table  $(kept "$scratch/large.tsv")"
echo "  dense cells  $(kept "$scratch/dense.tsv")"

echo "next_match over 200,000 rows, instructions of a call"
for many in 1 1000 100000; do
  rows 200000 "$many" > "$scratch/many.tsv"
  # Of the last row of the identifier, in a table where it has that many.
  row=$((200000 - 200000 / many))
  none=$(instructions match "$scratch/many.tsv" 0 99999999 "$row" "$row")
  some=$(instructions match "$scratch/many.tsv" 1000 99999999 "$row" "$row")
  echo "  $many rows: $(((some - none) / 1000))"
done

#!/usr/bin/env bash
# What it costs to expand a template for a stored request: the instructions and allocations of each round, by callgrind.
# The measured program, expand.rt.txt, checks its results. Not part of the gate.
#
#   benches/expand.sh             the working tree
#   benches/expand.sh COMMIT      that commit, and then the working tree
set -eu
cd "$(dirname "$0")/.."
scratch=$(mktemp -d)
trap 'rm -rf "$scratch"' EXIT

# The measured program, built on the crates of a folder.
build() {
    mkdir -p "$1/crates/expand_bench/src"
    cp benches/expand.rt.txt "$1/crates/expand_bench/src/main.rt"
    echo 'expand_bench: target_vars kev_read uri_template form_urlencoded' >> "$1/crates.txt"
    (cd "$1/crates/expand_bench" && rt run -- text 1) > "$1/build.log" 2>&1 || { tail -20 "$1/build.log"; exit 1; }
}

# Instructions and allocations of N rounds of a workload.
counted() {
    local out=$scratch/callgrind.out
    valgrind --tool=callgrind --compress-strings=no --compress-pos=no --callgrind-out-file="$out" \
        "$1/crates/expand_bench/out/expand_bench" "$2" "$3" > "$scratch/run.log" 2>&1 \
        || { echo "$2: a wrong answer" >&2; exit 1; }
    awk '/^totals:/ { total = $2 } /^cfn=/ { callee = $0 }
        /^calls=/ && callee ~ /^cfn=(malloc|realloc)$/ { split($1, n, "="); allocations += n[2] }
        END { print total, allocations + 0 }' "$out"
}

# A row: what a round takes beyond the program's start.
row() {
    local none some
    none=$(counted "$1" "$2" 0)
    some=$(counted "$1" "$2" 100)
    echo "$none $some" | awk -v work="$3" \
        '{ printf "  %-48s %12d %8d\n", work, ($3 - $1) / 100, ($4 - $2) / 100 }'
}

table() {
    printf '%-50s %12s %8s\n' "$2" instructions allocations
    row "$1" decode 'decode a stored query of 24 pairs, and no more'
    row "$1" text 'expand a template with one text for it'
    row "$1" list 'the same with a list, exploded'
    row "$1" names 'the same with fifteen names'
}

if [ $# -gt 0 ]; then
    mkdir "$scratch/before"
    git archive "$1" | tar -x -C "$scratch/before"
    build "$scratch/before"
    table "$scratch/before" "$1"
fi
mkdir "$scratch/now"
benches/copy_crates "$scratch/now"
build "$scratch/now"
table "$scratch/now" 'working tree'

#!/usr/bin/env bash
# What it costs to read a request and to fill an environment from it: the instructions and allocations of each round, by
# callgrind. The measured program, requests.rt.txt, checks its results. Not part of the gate.
#
#   benches/requests.sh             the working tree
#   benches/requests.sh COMMIT      that commit, and then the working tree
set -eu
cd "$(dirname "$0")/.."
scratch=$(mktemp -d)
trap 'rm -rf "$scratch"' EXIT

# The measured program, built on the crates of a folder.
build() {
    mkdir -p "$1/crates/requests_bench/src"
    cp benches/requests.rt.txt "$1/crates/requests_bench/src/main.rt"
    echo 'requests_bench: target_vars kev_read form_urlencoded source_requests' >> "$1/crates.txt"
    (cd "$1/crates/requests_bench" && rt run -- read 1) > "$1/build.log" 2>&1 || { tail -20 "$1/build.log"; exit 1; }
}

# Instructions and allocations of N rounds of a workload.
counted() {
    local out=$scratch/callgrind.out
    valgrind --tool=callgrind --compress-strings=no --compress-pos=no --callgrind-out-file="$out" \
        "$1/crates/requests_bench/out/requests_bench" "$2" "$3" > "$scratch/run.log" 2>&1 \
        || { echo "$2: a wrong answer" >&2; exit 1; }
    awk '/^totals:/ { total = $2 } /^cfn=/ { callee = $0 }
        /^calls=/ && callee ~ /^cfn=(malloc|realloc)$/ { split($1, n, "="); allocations += n[2] }
        END { print total, allocations + 0 }' "$out"
}

# A row: what a round takes beyond the program's start.
row() {
    local none some
    none=$(counted "$1" "$2" 0)
    some=$(counted "$1" "$2" "$3")
    echo "$none $some" | awk -v rounds="$3" -v work="$4" \
        '{ printf "  %-48s %12d %8d\n", work, ($3 - $1) / rounds, ($4 - $2) / rounds }'
}

table() {
    printf '%-50s %12s %8s\n' "$2" instructions allocations
    row "$1" decode 100 'decode a stored query of 24 pairs, and no more'
    row "$1" read 100 'read it'
    row "$1" read-source 100 'read it as a query of any source'
    row "$1" read-and-fill 100 'read it, and fill an environment'
    row "$1" read-many 1 'read 4,096 pairs'
    row "$1" fill-many 1 'fill an environment from them'
    row "$1" fill-many-lists 1 'the same with 256 declared lists'
}

if [ $# -gt 0 ]; then
    mkdir "$scratch/before"
    git archive "$1" | tar -x -C "$scratch/before"
    build "$scratch/before"
    table "$scratch/before" "$1"
fi
mkdir "$scratch/now"
benches/copy_crates "$scratch/now"
build "$scratch/now"
table "$scratch/now" 'working tree'

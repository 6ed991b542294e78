#!/usr/bin/env bash
# What a step of accepted code costs, run without tags and by the checked machine: its instructions, by callgrind. The
# measured program, runs.rt.txt, checks its results. Not part of the gate.
set -eu
cd "$(dirname "$0")/.."
scratch=$(mktemp -d)
trap 'rm -rf "$scratch"' EXIT
benches/copy_crates "$scratch"
mkdir -p "$scratch/crates/runs_bench/src"
cp benches/runs.rt.txt "$scratch/crates/runs_bench/src/main.rt"
echo 'runs_bench: target_vars code_file interpreter verifier' >> "$scratch/crates.txt"
(cd "$scratch/crates/runs_bench" && rt run -- rule 1) > "$scratch/build.log" 2>&1 ||
  { tail -20 "$scratch/build.log"; exit 1; }

# Instructions of N rounds of a workload.
counted() {
    local out=$scratch/callgrind.out
    valgrind --tool=callgrind --callgrind-out-file="$out" "$scratch/crates/runs_bench/out/runs_bench" "$1" "$2" \
        > "$scratch/run.log" 2>&1 || { echo "$1: a wrong answer" >&2; exit 1; }
    sed -n 's/^totals: //p' "$out"
}

# The cost of a step, for N steps in each round.
row() {
    local none some
    none=$(counted "$1" 0)
    some=$(counted "$1" "$3")
    echo "$none $some" | awk -v work="$2" -v rounds="$3" -v steps="$4" \
        '{ printf "  %-52s %12d %8.1f\n", work, ($2 - $1) / rounds, ($2 - $1) / rounds / steps }'
}

printf '%-54s %12s %8s\n' "instructions" "a run" "a step"
row list-checked 'members of a list, the checked machine' 2 150003
row list 'members of a list, a run' 2 150003
row rule-checked 'a compiled rule, the checked machine' 1000 8
row rule 'a compiled rule, a run' 1000 8

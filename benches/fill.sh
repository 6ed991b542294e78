#!/usr/bin/env bash
# Counts the instructions of filling an environment, by callgrind, and prints a table: benches/fill.sh [FOLDER]
# FOLDER has the crates to measure, and is this repository if it is not given. Not part of the gate.
set -euo pipefail

here=$(cd "$(dirname "$0")" && pwd)
from=${1:-$here/..}
work=$(mktemp -d)
trap 'rm -rf "$work"' EXIT

mkdir "$work/crates"
for crate in text_model environment_model target_vars; do
  cp -a "$from/crates/$crate" "$work/crates/"
done
mkdir -p "$work/crates/fill_bench/src"
cp "$here/fill.rt.txt" "$work/crates/fill_bench/src/main.rt"
cat > "$work/crates.txt" <<END
text_model:
environment_model: text_model
target_vars: text_model environment_model thiserror
fill_bench: target_vars
END

cd "$work/crates/fill_bench"
if ! rt run -- mixed 1 > "$work/build.log" 2>&1; then
  cat "$work/build.log"
  exit 1
fi

# The instructions of one run, which fails where the environment answers wrongly.
instructions() {
  valgrind --tool=callgrind --callgrind-out-file=/dev/null out/fill_bench "$@" 2> "$work/count.log" ||
    { echo "$*: a wrong answer" >&2; exit 1; }
  sed -n 's/.*Collected : //p' "$work/count.log"
}

# The instructions of filling alone, without those of making its names that many times.
row() {
  local all names
  all=$(instructions "$1" "$2")
  names=$(instructions "$1" "$2" names)
  echo "| $1 | $2 | $((all - names - (names - start) * ($3 - 1))) |"
}

start=$(instructions mixed 0 names)
echo "| filled | size | instructions |"
echo "|---|---:|---:|"
for kind in mixed rising falling; do
  for size in 24 1024 2048 4096; do row $kind $size 1; done
done
row bits 384 1
for size in 512 1024 2048; do row lists $size 2; done

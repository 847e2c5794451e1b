#!/bin/sh
# Measures every load by both sides in one run: `bench/all.sh CRATE`, where CRATE is the folder of futures-intrusive 0.5.0. Proves and
# builds this project's programs, builds those over the Rust crate, runs each load by both in turn, and writes bench/figures.csv, the tables
# of docs/BENCHMARKS.md and docs/benchmarks.svg. Needs rustc, a C compiler, Python and valgrind, and a quarter of an hour beside the proofs.
# BUILT names a folder that keeps the copies of the crates between runs.
set -eu
here=$(cd "$(dirname "$0")" && pwd)
crate=$(cd "$1" && pwd)
work=$(mktemp -d)
trap 'rm -rf "$work"' EXIT
built=${BUILT:-$work/built}
mkdir -p "$built" "$work/ours" "$work/rust" "$work/scripts"
"$here/rust/build.sh" "$crate" "$work/rust"
(cd "$here/../crates/schedule" && rt run < stdin > /dev/null)
cp "$here/../crates/schedule/out/schedule" "$work/ours/"
for program in bench_calls bench_sync; do
    KEEP="$built" "$here/part.sh" "$program" > /dev/null
    cp "$built/crates/$program/out/$program" "$work/ours/"
done
"$here/measure.py" "$work/ours" "$work/rust" "$work/scripts" "$here/figures.csv"
"$here/tables.py" "$here/figures.csv"

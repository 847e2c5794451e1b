#!/bin/sh
# Proves, builds and runs one of bench/programs beside a copy of the crates that it uses: `bench/part.sh bench_calls timer 1000 1`,
# `bench/part.sh bench_sync lock 1000 1`, `bench/part.sh bench_buffer 20000000`. The programs stand here under another ending, so that the
# gate takes them for no crate. Where KEEP names a folder, the copy is made there and stays.
set -eu
here=$(cd "$(dirname "$0")" && pwd)
program=$1
shift
if [ -n "${KEEP:-}" ]; then
    work=$KEEP
else
    work=$(mktemp -d)
    trap 'rm -rf "$work"' EXIT
fi
case $program in
    bench_sync) crates="fi_parts fi_channels fi_locks fi_run fi_desk fi_sync futures_intrusive" ;;
    *) crates="fi_parts fi_channels fi_locks fi_run fi_desk" ;;
esac
mkdir -p "$work/crates/$program/src" "$work/crates/$program/specs"
for crate in $crates; do
    cp -r "$here/../crates/$crate" "$work/crates/"
    grep -E "^$crate[: ]" "$here/../crates.txt"
done > "$work/crates.txt"
: > "$work/crates/$program/specs/Lib.antt"
cp "$here/../HANDLES" "$work/"
cp "$here/programs/$program.rt.in" "$work/crates/$program/src/main.rt"
if [ -f "$here/programs/$program.Invariants.antt.in" ]; then
    mkdir -p "$work/crates/$program/proofs/main"
    cp "$here/programs/$program.Invariants.antt.in" "$work/crates/$program/proofs/main/Invariants.antt"
fi
printf '%s: %s futures\n' "$program" "$crates" >> "$work/crates.txt"
cd "$work/crates/$program"
rt run -- "$@"

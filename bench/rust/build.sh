#!/bin/sh
# Builds the programs over the Rust crate: `bench/rust/build.sh CRATE OUT`, where CRATE is the folder of futures-intrusive 0.5.0 and OUT
# gets `schedule-rust`, `calls`, `sync`, `heap`, and `blocking` over std alone. Needs rustc alone: the crate's two dependencies are stood in
# for by the few names that it uses of them, and the lock that its thread-safe types stand behind is std's mutex in the place of
# parking_lot's.
set -eu
here=$(cd "$(dirname "$0")" && pwd)
crate=$1
out=$2
mkdir -p "$out"
options="--edition 2021 -C opt-level=3 --cap-lints allow -L $out"
rustc $options --crate-type rlib --crate-name futures_core -o "$out/libfutures_core.rlib" "$here/stand_ins/futures_core.rs"
rustc $options --crate-type rlib --crate-name lock_api -o "$out/liblock_api.rlib" "$here/stand_ins/lock_api.rs"
rustc $options --crate-type rlib --crate-name futures_intrusive --cfg 'feature="alloc"' \
    --extern futures_core="$out/libfutures_core.rlib" --extern lock_api="$out/liblock_api.rlib" \
    -o "$out/libfutures_intrusive.rlib" "$crate/src/lib.rs"
used="--extern futures_intrusive=$out/libfutures_intrusive.rlib --extern lock_api=$out/liblock_api.rlib"
rustc $options $used -o "$out/schedule-rust" "$here/src/main.rs"
rustc $options $used -o "$out/calls" "$here/src/bin/calls.rs"
rustc $options $used -o "$out/sync" "$here/src/bin/sync.rs"
rustc $options -o "$out/blocking" "$here/src/bin/blocking.rs"
# Its heap is private, so it is compiled as a module of the program.
cp "$here/src/heap.rs" "$crate/src/intrusive_pairing_heap.rs" "$out/"
rustc $options -o "$out/heap" "$out/heap.rs"

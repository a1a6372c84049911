#!/bin/sh
# Builds both programs in a scratch folder and runs each five times. The least figure of each line counts.
set -eu
here=$(cd "$(dirname "$0")" && pwd)
work=$(mktemp -d)
mkdir -p "$work/crates/bench_wires/src"
cp -r "$here/../../crates/tk_base" "$here/../../crates/tk_frames" "$here/../../crates/tk_wire" "$work/crates/"
cp "$here/main.rt.in" "$work/crates/bench_wires/src/main.rt"
{
    echo 'tk_base:'
    echo 'tk_frames: tk_base byteorder'
    echo 'tk_wire: tk_base tk_frames rtrb'
    echo 'bench_wires: tk_base tk_frames tk_wire'
} > "$work/crates.txt"
rustc -O -o "$work/native" "$here/native.rs"
cd "$work/crates/bench_wires"
rt run > /dev/null
for round in 1 2 3 4 5; do
    echo "proved, round $round"
    out/bench_wires
    echo "native, round $round"
    "$work/native"
done

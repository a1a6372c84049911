#!/bin/sh
# Builds both programs in a scratch folder and runs each five times. The least figure of each line counts.
set -eu
here=$(cd "$(dirname "$0")" && pwd)
work=$(mktemp -d)
mkdir -p "$work/crates/bench_frames/src"
cp -r "$here/../../crates/tk_base" "$here/../../crates/tk_frames" "$work/crates/"
cp "$here/main.rt.in" "$work/crates/bench_frames/src/main.rt"
printf 'tk_base:\ntk_frames: tk_base byteorder\nbench_frames: tk_base tk_frames\n' > "$work/crates.txt"
rustc -O -o "$work/native" "$here/native.rs"
cd "$work/crates/bench_frames"
rt run > /dev/null
for round in 1 2 3 4 5; do
    echo "proved, round $round"
    out/bench_frames
    echo "native, round $round"
    "$work/native"
done

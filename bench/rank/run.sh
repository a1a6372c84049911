#!/bin/sh
# Builds both programs in a scratch folder and runs each three times. The least figure of each line counts.
set -eu
here=$(cd "$(dirname "$0")" && pwd)
work=$(mktemp -d)
mkdir -p "$work/crates/bench_rank/src" "$work/crates/bench_rank/proofs/zeros"
cp -r "$here/../../crates/tk_base" "$here/../../crates/tk_border" "$here/../../crates/tk_rank" "$work/crates/"
cp "$here/main.rt.in" "$work/crates/bench_rank/src/main.rt"
cp "$here/zeros.antt.in" "$work/crates/bench_rank/proofs/zeros/Answers.antt"
printf 'tk_base:\ntk_border: tk_base\ntk_rank: tk_base tk_border\nbench_rank: tk_base tk_border tk_rank\n' > "$work/crates.txt"
rustc -O -o "$work/native" "$here/native.rs"
cd "$work/crates/bench_rank"
rt run > /dev/null
for round in 1 2 3; do
    echo "proved, round $round"
    out/bench_rank
    echo "native, round $round"
    "$work/native"
done

#!/usr/bin/env python3
"""Measures `topk multi` beside a replay for each of its queries.

    bench/queries/run.py [--times N] crates/topk/out/topk

Makes 1,000,000 changes of 10,000 objects at 16 monitors, deterministic, and 16 queries, each of which watches the objects
whose names begin with its hexadecimal digit; runs them as one `multi`, and as 16 replays over the logs that each query
watches, whose making is not timed. It checks that each query's text is that of its replay, and prints the least wall
seconds of N runs (3 if not said), the processor seconds and the greatest resident memory. It wants GNU time.
"""
import argparse
import os
import random
import subprocess
import sys
import tempfile
import time

TIME = "/usr/bin/time"
OBJECTS, CHANGES, MONITORS, K, EPSILON = 10_000, 1_000_000, 16, 20, 100
DIGITS = "0123456789abcdef"


def run(words, folder):
    """The wall seconds, processor seconds and megabytes of one run, and what it wrote."""
    told = os.path.join(folder, "told")
    start = time.perf_counter()
    done = subprocess.run([TIME, "-o", told, "-f", "%U %S %M", *words], cwd=folder, capture_output=True, check=True)
    wall = time.perf_counter() - start
    with open(told) as line:
        user, system, kilobytes = map(float, line.read().split())
    return wall, user + system, kilobytes / 1024, done.stdout


def write(folder, name, lines):
    with open(os.path.join(folder, name), "w") as file:
        file.writelines(line + "\n" for line in lines)


def make(folder):
    draw = random.Random(1)
    names = [f"{DIGITS[place % 16]}/{place}" for place in range(OBJECTS)]
    chosen = draw.choices(names, weights=[1 / (rank + 10) for rank in range(OBJECTS)], k=CHANGES)
    logs = [[] for _ in range(MONITORS)]
    for place, name in enumerate(chosen):
        logs[place % MONITORS].append(f"{name},1")
    write(folder, "objects.csv", names)
    write(folder, "queries.csv", [f"q{digit},{K},{EPSILON},{digit}/" for digit in DIGITS])
    for monitor, lines in enumerate(logs, 1):
        write(folder, f"{monitor}.csv", lines)
    for digit in DIGITS:
        write(folder, f"objects-{digit}.csv", [name for name in names if name[0] == digit])
        for monitor, lines in enumerate(logs, 1):
            write(folder, f"{monitor}-{digit}.csv", [line for line in lines if line[0] == digit])


def multi(topk, folder):
    logs = [f"{monitor}={monitor}.csv" for monitor in range(1, MONITORS + 1)]
    return run([topk, "multi", "--objects", "objects.csv", "--queries", "queries.csv", *logs], folder)


def replays(topk, folder):
    """All replays one after the other: their seconds together, the greatest memory, and the text that `multi` writes."""
    wall, processor, megabytes, text = 0, 0, 0, b""
    for digit in DIGITS:
        logs = [f"{monitor}={monitor}-{digit}.csv" for monitor in range(1, MONITORS + 1)]
        words = ["--k", str(K), "--epsilon", str(EPSILON), "--objects", f"objects-{digit}.csv", *logs]
        one = run([topk, "replay", *words], folder)
        wall, processor, megabytes = wall + one[0], processor + one[1], max(megabytes, one[2])
        text += f"query q{digit}\n".encode() + one[3]
    return wall, processor, megabytes, text


def main():
    words = argparse.ArgumentParser()
    words.add_argument("--times", type=int, default=3)
    words.add_argument("topk")
    asked = words.parse_args()
    topk = os.path.abspath(asked.topk)
    with tempfile.TemporaryDirectory() as folder:
        make(folder)
        best = {}
        for _ in range(asked.times):
            runs = {"one multi": multi(topk, folder), "16 replays": replays(topk, folder)}
            if runs["one multi"][3] != runs["16 replays"][3]:
                sys.exit("a query's text is not that of its replay")
            for name, one in runs.items():
                best[name] = min(best.get(name, one), one)
    for name, (wall, processor, megabytes, _) in best.items():
        print(f"{name}: {wall:.2f} s, {processor:.2f} processor s, {megabytes:.0f} MB")


if __name__ == "__main__":
    main()

#!/usr/bin/env python3
"""Measures `topk replay` beside the same protocol in plain Rust, and beside what a user would do instead: sum up every log.

    bench/replay/run.py [--times N] crates/topk/out/topk [WORKLOAD..]

Makes each workload in a folder that it deletes afterwards, runs the program, `native.rs`, awk and `sum.rs` over the
same files, N times in turn (3 if not said), and prints a table: the least wall seconds, the processor seconds of that
run, its greatest resident memory, updates a second, and the frames an update that the ledger tells. It checks that the
last set is within epsilon of the exact totals, and that `native.rs` prints the same text. It wants rustc and GNU time, which starts each program, since the memory
that the system tells of a child counts its starter's.
"""
import argparse
import collections
import filecmp
import os
import shutil
import subprocess
import sys
import tempfile
import time

import workloads

HERE = os.path.dirname(os.path.abspath(__file__))
TIME = "/usr/bin/time"
AWK = """{sum[$1] += $2} END {for (name in sum) printf "%d %s\\n", sum[name], name}"""
Run = collections.namedtuple("Run", "wall processor megabytes")


def run(words, folder, output):
    """One run of a program in the folder, with its standard output in a file."""
    told = os.path.join(folder, "told")
    with open(output, "wb") as out:
        start = time.perf_counter()
        subprocess.run([TIME, "-o", told, "-f", "%U %S %M", *words], cwd=folder, stdout=out, check=True)
        wall = time.perf_counter() - start
    with open(told) as line:
        user, system, kilobytes = map(float, line.read().split())
    return Run(wall, user + system, kilobytes / 1024)


def programs(topk, built, words, work):
    """The programs by name, each with the words that run it."""
    logs = [word.split("=", 1)[1] for word in words if "=" in word]
    table = {"topk": [topk, "replay", *words], "native": [os.path.join(built, "native"), "replay", *words],
             "native sum": [os.path.join(built, "sum"), str(work.k), *logs]}
    awk = shutil.which("mawk") or shutil.which("awk")
    if awk:
        ranked = f"{awk} -F, '{AWK}' {' '.join(logs)} | sort -k1,1nr -k2 | head -n {work.k}"
        table[os.path.basename(awk)] = ["sh", "-c", ranked]
    return table


def totals_of(work):
    totals = dict.fromkeys(work.objects, 0)
    for line in (line for log in work.logs.values() for line in log):
        name, change = line.rsplit(",", 1)
        totals[name] += int(change)
    return totals


def check(work, text):
    """The number of frames that the text tells; exits where its last set is not within epsilon."""
    last, frames = None, 0
    for line in text.splitlines():
        kind, *rest = line.split()
        if kind in ("set", "final"):
            last = rest[rest.index("members") + 1:]
        elif kind == "frames":
            frames = sum(map(int, rest[1::2]))
    totals = totals_of(work)
    members = [totals.pop(name) for name in last]
    if len(members) != work.k or min(members) + work.epsilon < max(totals.values()):
        sys.exit(f"{work.name}: the last set is not within epsilon")
    return frames


def measure(work, topk, built, times):
    with tempfile.TemporaryDirectory() as folder:
        words = work.write(folder)
        table = programs(topk, built, words, work)
        runs = {name: [] for name in table}
        for name in list(table) * times:
            runs[name].append(run(table[name], folder, os.path.join(folder, f"{name}.out")))
        with open(os.path.join(folder, "topk.out")) as text:
            frames = check(work, text.read())
        if not filecmp.cmp(*(os.path.join(folder, f"{name}.out") for name in ("topk", "native")), shallow=False):
            sys.exit(f"{work.name}: native.rs prints another text")
    for name in table:
        least = min(runs[name])
        told = f"{frames / work.updates:.4f}" if name == "topk" else ""
        print(f"| {work.name} | {name} | {least.wall:.3f} | {least.processor:.3f} | {least.megabytes:.0f} "
              f"| {work.updates / least.wall:,.0f} | {told} |", flush=True)


def main():
    parser = argparse.ArgumentParser(description=__doc__, formatter_class=argparse.RawDescriptionHelpFormatter)
    parser.add_argument("topk")
    parser.add_argument("--times", type=int, default=3)
    parser.add_argument("workloads", nargs="*", metavar="WORKLOAD")
    args = parser.parse_args()
    with tempfile.TemporaryDirectory() as built:
        for name in ("native", "sum"):
            source = os.path.join(HERE, f"{name}.rs")
            subprocess.run(["rustc", "--edition", "2021", "-O", "-o", os.path.join(built, name), source], check=True)
        print(f"Load before: {os.getloadavg()[0]:.1f}, {os.cpu_count()} processors\n")
        print("| workload | program | wall s | processor s | MB | updates a second | frames an update |")
        print("|---|---|---|---|---|---|---|")
        for make in workloads.ALL:
            if not args.workloads or make.__name__ in args.workloads:
                measure(make(), os.path.abspath(args.topk), built, args.times)


if __name__ == "__main__":
    main()

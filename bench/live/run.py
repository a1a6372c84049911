#!/usr/bin/env python3
"""Times live runs over loopback sockets beside replays of the same logs, and beside a program that sends every update.

    bench/live/run.py crates/topk/out/topk

It makes the workload `web` of bench/replay, deals its changes to 1, 4 and 16 monitors, and prints the least wall time of
two runs each, processor seconds, megabytes, updates a second and the frames of the ledger. `sending.rs` sends each update
of the same logs from one thread to another, in a write of its own or 1,000 in a write. Nothing in it is a promise.
"""
import argparse
import os
import pathlib
import random
import subprocess
import sys
import tempfile
import time

HERE = pathlib.Path(__file__).resolve().parent
sys.path.insert(0, str(HERE.parent / "replay"))
import workloads  # noqa: E402


def dealt(monitors):
    """The changes of the workload in another order, a log for each monitor."""
    work = workloads.web()
    if monitors != work.monitors:
        changes = [change for log in work.logs.values() for change in log]
        random.Random(5).shuffle(changes)
        work.logs = {(j, 1): changes[j - 1::monitors] for j in range(1, monitors + 1)}
    return work


def run(words, folder):
    """Wall seconds, processor seconds and megabytes of a run, and the frames that its ledger tells, if it has one."""
    start = time.perf_counter()
    done = subprocess.run(["/usr/bin/time", "-f", "%U %S %M", *words], cwd=folder,
                          capture_output=True, text=True, timeout=120, check=True)
    wall = time.perf_counter() - start
    user, system, kilobytes = map(float, done.stderr.split("\n")[-2].split())
    ledger = [line for line in done.stdout.splitlines() if line.startswith("frames")]
    frames = sum(map(int, ledger[0].split()[2::2])) if ledger else ""
    return wall, user + system, kilobytes / 1024, frames


def programs(topk, sending, work, words):
    """The words of each program, by what the table calls it."""
    logs = [word.split("=", 1)[1] for word in words if "=" in word]
    table = {command: [topk, command, *words] for command in ("live", "replay")}
    for batch in (1, 1000):
        table[f"every update, {batch:,} a write"] = [sending, str(batch), str(work.k), "objects.csv", *logs]
    return table


def measure(topk, sending, monitors):
    work = dealt(monitors)
    with tempfile.TemporaryDirectory() as folder:
        for name, words in programs(topk, sending, work, work.write(folder)).items():
            wall, processor, megabytes, frames = min(run(words, folder) for _ in range(2))
            print(f"| {monitors} | {name} | {wall:.2f} | {processor:.2f} | {megabytes:.0f} "
                  f"| {work.updates / wall:,.0f} | {frames} |", flush=True)


def main():
    parser = argparse.ArgumentParser(description=__doc__, formatter_class=argparse.RawDescriptionHelpFormatter)
    parser.add_argument("topk")
    topk = os.path.abspath(parser.parse_args().topk)
    with tempfile.TemporaryDirectory() as built:
        sending = os.path.join(built, "sending")
        subprocess.run(["rustc", "--edition", "2021", "-O", "-o", sending, HERE / "sending.rs"], check=True)
        print(f"Load before: {os.getloadavg()[0]:.1f}, {os.cpu_count()} processors\n")
        print("| monitors | program | wall s | processor s | MB | updates a second | frames |\n|---|---|---|---|---|---|---|")
        for monitors in (1, 4, 16):
            measure(topk, sending, monitors)


if __name__ == "__main__":
    main()

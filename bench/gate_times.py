#!/usr/bin/env python3
"""Prints how many processor seconds each crate takes in the gate: its proof, its tests, its edits.

    bench/gate_times.py              runs .ci/run, whose output goes to gate.log
    bench/gate_times.py --watch PID  looks at a gate that runs already, by the process that began it

What a run before has passed is not done again and takes nothing: for a table from nothing, run it where nothing is kept.
It looks at the provers' processes twice a second, so a process that ends sooner is not counted.
"""
import argparse
import collections
import os
import subprocess
import time

TICKS = os.sysconf("SC_CLK_TCK")
KINDS = ("proof", "tests", "edits")


def state(pid):
    """The session of a process, when it began and the seconds it took, or None where it is gone."""
    try:
        with open(f"/proc/{pid}/stat") as stat:
            fields = stat.read().rpartition(")")[2].split()
    except OSError:
        return None
    return int(fields[3]), int(fields[19]), (int(fields[11]) + int(fields[12])) / TICKS


def prover(pid):
    """The crate and the kind of work of a prover's process, or None for any other process. An edit is tried in a folder of its own."""
    try:
        with open(f"/proc/{pid}/cmdline") as line:
            words = line.read().split("\0")
        folder = os.readlink(f"/proc/{pid}/cwd")
    except OSError:
        return None
    if "--crate-name" not in words:
        return None
    name = words[words.index("--crate-name") + 1]
    if not folder.endswith(f"/crates/{name}"):
        return name, "edits"
    return name, "tests" if "--test" in words else "proof"


def watch(first, goes_on):
    """Seconds by crate and kind, of all processes in the session of the first one, as long as the gate goes on."""
    session, _, _ = state(first)
    seen = {}
    while goes_on():
        for pid in filter(str.isdigit, os.listdir("/proc")):
            now = state(pid)
            if now and now[0] == session:
                # Numbers of processes come again, and a look may fall before a new one is a prover.
                known = pid, now[1]
                kind = (seen[known][0] if known in seen else None) or prover(pid)
                seen[known] = kind, now[2]
        time.sleep(0.5)
    return seen


def table(seen):
    seconds = collections.defaultdict(float)
    for kind, taken in seen.values():
        if kind:
            seconds[kind] += taken
    crates = sorted({crate for crate, _ in seconds}, key=lambda crate: -sum(seconds[crate, kind] for kind in KINDS))
    print("| crate | proof | tests | edits |\n|---|---|---|---|")
    for crate in crates:
        print(f"| {crate} | " + " | ".join(f"{seconds[crate, kind]:.0f}" for kind in KINDS) + " |")
    print("| all | " + " | ".join(f"{sum(seconds[crate, kind] for crate in crates):.0f}" for kind in KINDS) + " |")


def main():
    parser = argparse.ArgumentParser(description=__doc__, formatter_class=argparse.RawDescriptionHelpFormatter)
    parser.add_argument("--watch", type=int, metavar="PID")
    pid = parser.parse_args().watch
    if pid:
        table(watch(pid, lambda: state(pid)))
        return
    top = os.path.dirname(os.path.dirname(os.path.abspath(__file__)))
    with open("gate.log", "wb") as log:
        gate = subprocess.Popen([".ci/run"], cwd=top, stdout=log, stderr=log, start_new_session=True)
    table(watch(gate.pid, lambda: gate.poll() is None))


if __name__ == "__main__":
    main()

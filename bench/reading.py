#!/usr/bin/env python3
"""Times how long the program reads a catalogue of 65,536 names and four logs of 1,000,000 changes.

    bench/reading.py crates/topk/out/topk

The run ends at an order file that is no order, which is read last: so it reads and judges the whole input and
drives nothing. The same bytes are read by Python's csv for comparison. Prints seconds and the peak memory.
"""
import csv
import os
import random
import resource
import subprocess
import sys
import tempfile
import time

NAMES = 65_536
CHANGES = 1_000_000
MONITORS = 4


def write_input(folder):
    draw = random.Random(1)
    with open(os.path.join(folder, "objects.csv"), "w") as out:
        out.writelines(f"object-{n}\n" for n in range(1, NAMES + 1))
    for mon in range(1, MONITORS + 1):
        with open(os.path.join(folder, f"{mon}.csv"), "w") as out:
            out.writelines(
                f"object-{draw.randint(1, NAMES)},{draw.randint(-20, 79)}\n" for _ in range(CHANGES)
            )
    with open(os.path.join(folder, "order.txt"), "w") as out:
        out.write("no order\n")


def words(folder):
    logs = [f"{mon}={folder}/{mon}.csv" for mon in range(1, MONITORS + 1)]
    return ["replay", "--k", "1", "--epsilon", "0", "--objects", f"{folder}/objects.csv",
            "--order", f"{folder}/order.txt", *logs]


def read_plainly(folder):
    names = {}
    with open(f"{folder}/objects.csv", newline="") as file:
        for row in csv.reader(file):
            names[row[0]] = len(names) + 1
    return [
        [(names[row[0]], int(row[1])) for row in csv.reader(open(f"{folder}/{mon}.csv", newline=""))]
        for mon in range(1, MONITORS + 1)
    ]


def main():
    program = os.path.abspath(sys.argv[1])
    with tempfile.TemporaryDirectory() as folder:
        write_input(folder)
        size = sum(os.path.getsize(os.path.join(folder, name)) for name in os.listdir(folder))
        start = time.perf_counter()
        run = subprocess.run([program, *words(folder)], capture_output=True, text=True)
        seconds = time.perf_counter() - start
        peak = resource.getrusage(resource.RUSAGE_CHILDREN).ru_maxrss
        if run.returncode != 4 or not run.stderr.endswith("order.txt: line 1: bad order\n"):
            sys.exit(f"the input was not read: {run.returncode} {run.stderr}")
        print(f"input {size / 2**20:.1f} MiB")
        print(f"topk {seconds:.2f} s, {peak / 1024:.0f} MiB at most")
        start = time.perf_counter()
        read_plainly(folder)
        print(f"python's csv {time.perf_counter() - start:.2f} s")


main()

#!/usr/bin/env python3
"""Times one monitor over a pipe, beside mawk that sums the same pipe.

    bench/nodes/speed.py [PROGRAM] [--records 2000000]

A coordinator and one monitor with one stream, k 10 of 1,000 objects and an epsilon of 1,000,000, so that no set changes. Each time
is that from the first record to the end of the process; the medians of three are printed. Nothing in it is a promise.
"""
import argparse
import pathlib
import random
import statistics
import subprocess
import tempfile
import time

ROOT = pathlib.Path(__file__).resolve().parents[2]
PROGRAM = ROOT / "crates" / "topk" / "out" / "topk"
OBJECTS, TIMES, SECONDS = 1000, 3, 600
SUM = "{s[$1]+=$2} END {for (o in s) n++; print n}"


def write(room, records):
    """The catalogue, and a file with the records, of which no object gets so many that a set changes."""
    names = [f"o{number}" for number in range(1, OBJECTS + 1)]
    (room / "objects.csv").write_text("".join(f"{name}\n" for name in names))
    pick = random.Random(1)
    with (room / "records.csv").open("w") as out:
        out.writelines(f"{name},{by}\n" for name, by in zip(pick.choices(names, k=records), pick.choices(range(1, 10), k=records)))


def fed(room, words):
    """The seconds from the first record to the end of a process that reads them from a pipe, and what it printed."""
    with (room / "records.csv").open("rb") as records:
        feeder = subprocess.Popen(["cat"], stdin=records, stdout=subprocess.PIPE)
    start = time.perf_counter()
    done = subprocess.run(words, cwd=room, stdin=feeder.stdout, capture_output=True, text=True, timeout=SECONDS, check=True)
    seconds = time.perf_counter() - start
    feeder.stdout.close()
    feeder.wait()
    return seconds, done.stdout


def by_monitor(program, room, records):
    """The seconds of a monitor, whose coordinator prints one set of members alone: once a session, and at the end."""
    coordinator = subprocess.Popen(
        [program, "coordinate", "--monitors", "1", "--k", "10", "--epsilon", "1000000", "--objects", "objects.csv", "--run", "1",
         "--listen", "127.0.0.1:0"], cwd=room, stdout=subprocess.PIPE, text=True)
    address = coordinator.stdout.readline().split()[1]
    seconds, told = fed(room, [program, "monitor", "--number", "1", "--objects", "objects.csv", "--run", "1", "--connect", address, "-"])
    lines, _ = coordinator.communicate(timeout=SECONDS)
    sets = [line.partition(" members ") for line in lines.splitlines() if line.startswith(("set", "final"))]
    if f"ended at {records + 1} " not in told or len({members for _, _, members in sets}) > 1 or f" cut 1:{records + 1}" not in sets[-1][0]:
        raise SystemExit(f"another run than was meant: {told} {lines}")
    return seconds


def by_mawk(room):
    seconds, told = fed(room, ["mawk", "-F,", SUM])
    if int(told) != OBJECTS:
        raise SystemExit(f"mawk saw {told.strip()} objects")
    return seconds


def main():
    parser = argparse.ArgumentParser(description=__doc__, formatter_class=argparse.RawDescriptionHelpFormatter)
    parser.add_argument("program", nargs="?", type=pathlib.Path, default=PROGRAM)
    parser.add_argument("--records", type=int, default=2_000_000)
    options = parser.parse_args()
    with tempfile.TemporaryDirectory() as folder:
        room = pathlib.Path(folder)
        write(room, options.records)
        program = str(options.program.resolve())
        for name, once in (("monitor", lambda: by_monitor(program, room, options.records)), ("mawk", lambda: by_mawk(room))):
            seconds = statistics.median(once() for _ in range(TIMES))
            print(f"{name}: {options.records / seconds:,.0f} records a second", flush=True)


if __name__ == "__main__":
    main()

#!/usr/bin/env python3
"""Feeds monitors at full speed for long, and tells what their processes keep.

    bench/nodes/soak.py [PROGRAM] [--seconds 3600] [--monitors 2] [--every 60]

Each monitor has one stream through a pipe: blocks of records that come round and round, each with hot objects of its own, as fast as
they are read. A session ends where a monitor's room is full, and the next goes on behind its counts. Each set is judged by plain sums
over the prefixes printed beside it. A line an interval has the resident size of each process, how many records, sets and
sessions there were. It fails where a size of the second half is much above those of the first. Nothing in it is a promise.
"""
import argparse
import collections
import pathlib
import random
import signal
import subprocess
import sys
import tempfile
import threading
import time

ROOT = pathlib.Path(__file__).resolve().parents[2]
PROGRAM = ROOT / "crates" / "topk" / "out" / "topk"
OBJECTS, K, EPSILON = 1000, 10, 1000
# How much above the first half of the time the second may be.
GROWTH = 1.1
BLOCKS, LENGTH = 100, 10_000


class Round:
    """The blocks of one stream, and what they sum to."""

    def __init__(self, seed):
        pick = random.Random(seed)
        self.blocks, self.behind = [], [[0] * OBJECTS]
        for _ in range(BLOCKS):
            hot = pick.choices(range(OBJECTS), k=3)
            objects = pick.choices(range(OBJECTS), k=LENGTH - 300) + pick.choices(hot, k=300)
            pick.shuffle(objects)
            self.blocks.append([(o, pick.randint(1, 9)) for o in objects])
            sums = list(self.behind[-1])
            for o, by in self.blocks[-1]:
                sums[o] += by
            self.behind.append(sums)

    def bytes(self):
        return b"".join(f"o{o + 1},{by}\n".encode() for block in self.blocks for o, by in block)

    def totals(self, place):
        """The values behind so many records."""
        rounds, left = divmod(place, BLOCKS * LENGTH)
        block, rest = divmod(left, LENGTH)
        sums = [rounds * whole + part for whole, part in zip(self.behind[-1], self.behind[block])]
        for o, by in self.blocks[block][:rest] if rest else ():
            sums[o] += by
        return sums


class Judge:
    """Reads the lines of the coordinator, and counts."""

    def __init__(self, rounds, lines):
        self.rounds, self.counts, self.wrong = rounds, collections.Counter(), None
        self.places = [0] * len(rounds)
        self.thread = threading.Thread(target=self.read, args=(lines,), daemon=True)
        self.thread.start()

    def read(self, lines):
        for line in lines:
            head = line.split(" ", 1)[0]
            self.counts["causes " + line.split()[2] if head == "ended" else head] += 1
            if head in ("set", "final"):
                self.judge(line)

    def judge(self, line):
        cut, _, members = line.partition(" members ")
        places = [int(part.split(":")[1]) for part in cut.split()[3:]]
        if any(now < before for now, before in zip(places, self.places)):
            self.wrong = f"a place goes back: {line}"
        self.places = places
        totals = [sum(one) for one in zip(*(some.totals(place) for some, place in zip(self.rounds, places)))]
        inside = {int(name[1:]) - 1 for name in members.split()}
        least = min(totals[o] for o in inside)
        if any(total > least + EPSILON for o, total in enumerate(totals) if o not in inside):
            self.wrong = f"not within epsilon: {line}"
        self.counts["judged"] += 1


def resident(process):
    """In MB."""
    for line in pathlib.Path(f"/proc/{process.pid}/status").read_text().splitlines():
        if line.startswith("VmRSS:"):
            return int(line.split()[1]) / 1000
    return 0.0


def grown(sizes):
    """What has grown in the second half beyond the first."""
    first, second = sizes[:len(sizes) // 2], sizes[len(sizes) // 2:]
    pairs = [(max(before), max(behind)) for before, behind in zip(zip(*first), zip(*second))]
    return [f"from {before} to {behind} MB" for before, behind in pairs if behind > before * GROWTH]


def feeder(path):
    """Gives a file again and again."""
    return subprocess.Popen(["sh", "-c", 'while cat "$0"; do :; done', path], stdout=subprocess.PIPE)


def main():
    parser = argparse.ArgumentParser(description=__doc__, formatter_class=argparse.RawDescriptionHelpFormatter)
    parser.add_argument("program", nargs="?", type=pathlib.Path, default=PROGRAM)
    parser.add_argument("--seconds", type=int, default=3600)
    parser.add_argument("--monitors", type=int, default=2)
    parser.add_argument("--every", type=int, default=60)
    options = parser.parse_args()
    program, some = str(options.program.resolve()), range(1, options.monitors + 1)
    with tempfile.TemporaryDirectory() as folder:
        room = pathlib.Path(folder)
        (room / "objects.csv").write_text("".join(f"o{number}\n" for number in range(1, OBJECTS + 1)))
        rounds = [Round(number) for number in some]
        for number in some:
            (room / f"{number}.csv").write_bytes(rounds[number - 1].bytes())
        coordinator = subprocess.Popen(
            [program, "coordinate", "--monitors", str(options.monitors), "--k", str(K), "--epsilon", str(EPSILON), "--objects", "objects.csv",
             "--run", "1", "--listen", "127.0.0.1:0"], cwd=room, stdout=subprocess.PIPE, text=True)
        address = coordinator.stdout.readline().split()[1]
        judge = Judge(rounds, coordinator.stdout)
        feeders = [feeder(str(room / f"{number}.csv")) for number in some]
        monitors = [subprocess.Popen([program, "monitor", "--number", str(number), "--objects", "objects.csv", "--run", "1", "--connect", address,
                                      "-"], cwd=room, stdin=one.stdout, stdout=subprocess.DEVNULL) for number, one in zip(some, feeders)]
        begun, status, kept = time.monotonic(), 0, []
        while time.monotonic() - begun < options.seconds and not status:
            time.sleep(options.every)
            kept.append([resident(one) for one in (coordinator, *monitors)])
            sizes = " ".join(f"{size:.1f}" for size in kept[-1])
            print(f"{time.monotonic() - begun:.0f} s: MB {sizes}; records {sum(judge.places):,}; {dict(sorted(judge.counts.items()))}", flush=True)
            if judge.wrong or any(one.poll() is not None for one in (coordinator, *monitors)):
                print(judge.wrong or "a process ended")
                status = 1
        if grown(kept):
            print(f"grown: {grown(kept)}")
            status = 1
        for one in (*monitors, *feeders, coordinator):
            one.send_signal(signal.SIGKILL)
    return status


if __name__ == "__main__":
    sys.exit(main())

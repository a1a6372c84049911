#!/usr/bin/env python3
"""Runs a coordinator and its monitors as real processes, hurts them by a seed, and judges every set that was printed.

    bench/nodes/faults.py [PROGRAM] [--seconds 60] [--faults 5] [--seed 1] [--runs 1] [--at-once 1] [--namespaces] [--keep FOLDER]

Streams come by pipes from this script, which keeps every record of every incarnation of each monitor. A set is right where plain
sums over exactly the prefixes printed beside it make it so. Monitors reach their coordinator through small proxies of this
script, or, as root and with --namespaces, from network namespaces of their own.
"""
import argparse
import functools
import multiprocessing
import os
import pathlib
import signal
import sys
import tempfile
import time
import traceback

import judging
import kinds
import tables
import world
from world import Failed

ROOT = pathlib.Path(__file__).resolve().parents[2]
PROGRAM = ROOT / "crates" / "topk" / "out" / "topk"


class Nodes(world.World):
    """A world with what faults need of it."""

    longest = 30

    def mark(self):
        """The session behind which another must begin, where all is well now."""
        return self.place() if self.coordinator.is_settled(self.count) else (0, 0)

    def expect_kill(self, process):
        """Kills a process that must be running and has told no fault."""
        ended = process.kill() if process.is_running() else process.wait(1)
        if ended != (-signal.SIGKILL, ""):
            raise Failed(f"{' '.join(process.words[1:4])} had ended before: {ended}")


def drawn(nodes, options):
    """Kinds of faults without end: each comes once before one comes again."""
    while True:
        some = list(options.only or kinds.kinds_of(nodes))
        nodes.pick.shuffle(some)
        yield from some


def hurt(nodes, options, table):
    """Hurts a world as often as was asked for, spread over the seconds."""
    gap = options.seconds / (options.faults + 1)
    # The session behind which another must begin before all is well.
    owed = (0, 0)
    for number, kind in zip(range(options.faults), drawn(nodes, options)):
        time.sleep(gap * (0.5 + nodes.pick.random()) if nodes.pick.random() < 0.8 else 0)
        if kind in kinds.CALM:
            nodes.recovered(owed)
        nodes.say(kind.__name__)
        owed = max(owed, nodes.mark()) if kind in kinds.BREAKING else owed
        start, seconds, still = time.monotonic(), None, None
        outcome = kind(nodes)
        if nodes.pick.random() < 0.8 or number == options.faults - 1:
            nodes.recovered(owed)
            nodes.progressed()
            seconds = time.monotonic() - start
            nodes.within_bounds(options.megabytes)
            still = nodes.stood()
        nodes.say(f"{outcome}, {seconds} s, still {still} s")
        table.note(kind, outcome, seconds, still)
    # Some faults came at once, so there is time left.
    time.sleep(max(gap, nodes.begun + options.seconds - time.monotonic()))


def judged(nodes):
    """Judges all that was printed."""
    judge = judging.Judge(nodes.names, nodes.incarnations, nodes.greetings)
    for coordinator in nodes.coordinators:
        judge.coordinator(coordinator)
    return judge


def keep(nodes, folder, fault):
    """Writes what a failed run printed and read into a folder."""
    folder.mkdir(parents=True, exist_ok=True)
    (folder / "fault").write_text(fault + "\n")
    (folder / "log").write_text("\n".join(nodes.log) + "\n")
    for at, process in enumerate(nodes.all_processes()):
        begun = f"{' '.join(process.words)}\nfrom {process.begun - nodes.begun:.3f} to {(process.left or 0) - nodes.begun:.3f}\n"
        process.errors.seek(0)
        text = "".join(f"{when - nodes.begun:9.3f} {line}\n" for when, line in process.lines)
        (folder / f"process_{at}").write_text(begun + text + process.errors.read())
        for number, stream in enumerate(getattr(process, "streams", ())):
            (folder / f"process_{at}_stream_{number}.csv").write_text("".join(f"{name},{by}\n" for name, by in stream.changes()))


def run(options, seed):
    """One run by a seed, from its start to its final set; what is wrong with it, or None, and its table."""
    with tempfile.TemporaryDirectory() as room:
        nodes, table, fault = Nodes(options.program, room, seed, options), tables.Table(), None
        nodes.longest = options.seconds / 4
        try:
            nodes.recovered()
            nodes.within_bounds(options.megabytes)
            hurt(nodes, options, table)
            seconds = nodes.finish()
            judge = judged(nodes)
            judging.last_set(nodes.names, nodes.coordinator, nodes.monitors())
            table.add(nodes, judge)
            if max(table.most[kind, "kilobytes"] for kind in ("coordinate", "monitor")) > options.megabytes * 1024:
                raise Failed(f"more than {options.megabytes} MB: {table.most}")
            print(f"seed {seed}: {nodes.rate} records a second, {judge.sets} sets, {sum(row[0] for row in table.rows.values())} faults, "
                  f"{time.monotonic() - nodes.begun:.0f} s, final after {seconds:.1f} s", flush=True)
        except Exception as wrong:
            fault = f"seed {seed}: {type(wrong).__name__}: {wrong}"
            if not isinstance(wrong, (Failed, judging.Wrong)):
                fault += "\n" + traceback.format_exc()
            print(fault, flush=True)
        finally:
            nodes.close()
        if fault:
            keep(nodes, options.keep / f"seed_{seed}", fault)
        return fault, table


def read_words():
    parser = argparse.ArgumentParser(description=__doc__, formatter_class=argparse.RawDescriptionHelpFormatter)
    parser.add_argument("program", nargs="?", type=pathlib.Path, default=PROGRAM)
    parser.add_argument("--seconds", type=float, default=60)
    parser.add_argument("--faults", type=int, default=5)
    parser.add_argument("--seed", type=int, default=1)
    parser.add_argument("--runs", type=int, default=1, help="how many runs, by this seed and those behind it")
    parser.add_argument("--at-once", type=int, default=1, help="how many of them at once")
    parser.add_argument("--monitors", type=int, default=3)
    parser.add_argument("--rate", type=int, help="records a second; by the seed if left out")
    parser.add_argument("--megabytes", type=int, default=200, help="how much memory a process may have")
    parser.add_argument("--namespaces", action="store_true")
    parser.add_argument("--only", type=lambda names: [getattr(kinds, name) for name in names.split(",")], help="these faults alone")
    parser.add_argument("--keep", type=pathlib.Path, default=pathlib.Path(tempfile.gettempdir()) / "topk_faults")
    options = parser.parse_args()
    options.program = options.program.resolve()
    return options


def main():
    options, table = read_words(), tables.Table()
    # What was started is ended too where this script is asked to end.
    signal.signal(signal.SIGTERM, lambda *_: sys.exit(1))
    if options.namespaces and os.geteuid():
        raise SystemExit("--namespaces takes root")
    seeds = range(options.seed, options.seed + options.runs)
    with multiprocessing.get_context("fork").Pool(options.at_once, maxtasksperchild=1) as pool:
        done = pool.map(functools.partial(run, options), seeds, 1)
    faults = [fault for fault, _ in done]
    for _, one in done:
        table.join(one)
    table.show()
    wrong = sum(fault is not None for fault in faults)
    print(f"nodes: {'ok' if not wrong else f'{wrong} of {len(faults)} runs failed'}")
    return 1 if wrong else 0


if __name__ == "__main__":
    sys.exit(main())

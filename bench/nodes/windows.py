#!/usr/bin/env python3
"""Runs two monitors with windows over two streams each, ends and begins their coordinator again, and judges every set.

    bench/nodes/windows.py [PROGRAM] [--width 3] [--seconds 30] [--kills 3] [--rate 500] [--tick 0] [--every 60] [--seed 1]

Streams come by pipes from this script, which ends ticks by lines `tick` and knows what each takes back: often by itself, or with
--tick every so many seconds in all streams at once, with a short rest behind. A set is right where plain sums over exactly the
prefixes printed beside it make it so; and where all of these end ticks, the same sums are those of the last ticks alone, which are
counted apart. Of each line `tick` of a monitor the ticks ended at these places, and each such set is one that these lines tell. A line
an interval has the resident size of each process. In the second half none may be much above the first.
"""
import argparse
import pathlib
import random
import sys
import tempfile
import threading
import time

import judging
import processes
import streams
from world import free_port

ROOT = pathlib.Path(__file__).resolve().parents[2]
PROGRAM = ROOT / "crates" / "topk" / "out" / "topk"
MONITORS, STREAMS, OBJECTS = 2, 2, 24
# In so many seconds a session has its first set, and a run its final one.
PATIENCE = 60
# The part of a tick for which streams rest behind its end; and how much above the first half the second may be.
REST, GROWTH = 0.3, 1.1


class Ticking(streams.Stream):
    """A stream with ticks: what was told of it, its records and what their windows take back; where ticks end, and the sums of each."""

    def __init__(self, names, pick, rate, opened, width, tick):
        self.width, self.ticks, self.ends, self.tick, self.past = width, [[0] * len(names)], {0: 0}, tick, 0
        self.places = [0]
        super().__init__(names, pick, rate, opened)

    def piece(self):
        """Records, and mostly the end of a tick; now and then a tick without records, or some at once."""
        if self.tick:
            return self.timed_piece()
        text = super().piece()
        if self.pick.random() < 0.7:
            text += b"tick\n" * self.end_ticks(self.pick.choice((1, 1, 1, 1, 2, self.width + 1)))
        return text

    def timed_piece(self):
        """Records, the end of a tick where its time has come, or nothing in the rest behind it."""
        now, into = divmod(time.monotonic(), self.tick)
        if now > self.past:
            self.past = now
            return b"tick\n" * self.end_ticks(1)
        return super().piece() if into > REST * self.tick else b""

    def record(self):
        chosen, by = super().record()
        self.ticks[-1][chosen] += by
        return chosen, by

    def end_ticks(self, count):
        """Ends so many ticks."""
        for _ in range(count):
            self.ticks.append([0] * len(self.names))
            past = len(self.ticks) - 2 - self.width
            for chosen, by in enumerate(self.ticks[past] if past >= 0 else ()):
                if by:
                    self.objects.append(chosen)
                    self.amounts.append(-by)
            self.ends[len(self.objects)] = len(self.ticks) - 1
            self.places.append(len(self.objects))
        return count

    def window_at(self, place):
        """The sums of the last ticks, where a tick ends at this place."""
        ended = self.ends.get(place)
        if ended is None:
            return None
        return [sum(by) for by in zip(*self.ticks[max(0, ended - self.width):ended], [0] * len(self.names))]


class Windowed(processes.Process):
    """A monitor with a window over its streams."""

    def __init__(self, nodes, number):
        self.number, self.gate, self.told = number, None, {(0,) * STREAMS}
        self.paths = [nodes.fifo(number, stream) for stream in range(STREAMS)]
        super().__init__([nodes.program, "monitor", "--number", str(number), "--objects", "objects.csv", "--run", str(processes.RUN),
                          "--connect", nodes.address, "--pause", "50", "--width", str(nodes.width), *self.paths], nodes.room)
        self.streams = [Ticking(nodes.names, nodes.random(), nodes.rate, streams.opened_fifo(nodes.room / path), nodes.width, nodes.tick)
                        for path in self.paths]

    def keep_ends(self):
        """Keeps the places of its lines of ends of ticks, beside those before the first."""
        for _, line in self.lines:
            if line.startswith("tick "):
                ticks, places = ([int(number) for number in field.split(",")] for field in line[5:].split(" at "))
                if places != [stream.places[tick] for stream, tick in zip(self.streams, ticks)]:
                    raise judging.Wrong(f"not where ticks ended: {line}")
                self.told.add(tuple(places))

    def whole(self):
        """The places behind all that is told and the closing records."""
        return [len(stream.objects) + 1 for stream in self.streams]


class Judge(judging.Judge):
    """Judges by the prefixes, and counts the sets at the ends of ticks, whose totals are those of the windows."""

    def __init__(self, *known):
        super().__init__(*known)
        self.at_ends = 0

    def totals(self, cut, chosen):
        totals = super().totals(cut, chosen)
        ends = {number: tuple(min(place, len(stream.objects)) for stream, place in zip(chosen[number][0].streams, places))
                for number, places in cut.items()}
        windows = [stream.window_at(place) for number in ends for stream, place in zip(chosen[number][0].streams, ends[number])]
        if None not in windows:
            self.at_ends += 1
            if not all(ends[number] in chosen[number][0].told for number in ends):
                raise judging.Wrong(f"no line has the ends of ticks {ends}")
            if list(totals.values()) != [sum(by) for by in zip(*windows)]:
                raise judging.Wrong(f"places {cut} have not the sums of their last ticks")
        return totals


class Nodes:
    """The coordinators one after the other, and the monitors."""

    def __init__(self, options, room):
        self.program, self.room, self.pick = str(options.program.resolve()), pathlib.Path(room), random.Random(options.seed)
        self.count, self.width, self.rate, self.silence, self.tick = MONITORS, options.width, options.rate, 5, options.tick
        self.address = f"127.0.0.1:{free_port()}"
        self.names = [f"o{number}" for number in range(1, OBJECTS + 1)]
        (self.room / "objects.csv").write_text("".join(f"{name}\n" for name in self.names))
        self.coordinators, self.monitors, self.sizes, self.over = [], [], [], threading.Event()
        self.start_coordinator()
        self.monitors = [Windowed(self, number) for number in range(1, MONITORS + 1)]
        threading.Thread(target=self.watch, args=(options.every,), daemon=True).start()

    def watch(self, every):
        """Prints and keeps the resident size of each process, an interval each."""
        begun = time.monotonic()
        while not self.over.wait(every):
            looks = [process.look() for process in (self.coordinators[-1], *self.monitors)]
            if None not in looks:
                self.sizes.append([look["kilobytes"] / 1000 for look in looks])
                told = sum(len(stream.objects) for one in self.monitors for stream in one.streams)
                print(f"{time.monotonic() - begun:.0f} s: MB {' '.join(f'{size:.1f}' for size in self.sizes[-1])}; {told:,} records told; "
                      f"session {self.coordinators[-1].sessions()} of coordinator {len(self.coordinators)}", flush=True)

    def grown(self):
        """What has grown in the second half beyond the first."""
        first, second = self.sizes[:len(self.sizes) // 2], self.sizes[len(self.sizes) // 2:]
        pairs = [(max(before), max(behind)) for before, behind in zip(zip(*first), zip(*second))]
        return [f"from {before} to {behind} MB" for before, behind in pairs if behind > before * GROWTH]

    def random(self):
        return random.Random(self.pick.random())

    def within(self, host):
        return ()

    def fifo(self, number, stream):
        path = self.room / f"{number}_{stream}.csv"
        streams.os.mkfifo(path)
        return path.name

    def start_coordinator(self):
        self.coordinators.append(processes.Coordinator(self, *self.pick.choice(((1, 0), (3, 5), (5, 0)))))

    def settle(self):
        """Waits until all have joined the last coordinator, and a set of it was printed."""
        start = time.monotonic()
        while not self.coordinators[-1].is_settled(MONITORS):
            if time.monotonic() > start + PATIENCE:
                raise SystemExit(f"no set: {self.coordinators[-1].session()}")
            time.sleep(0.02)

    def finish(self):
        """Ends the streams, and waits for the ends of all."""
        for one in self.monitors:
            for stream in one.streams:
                stream.end()
                stream.thread.join(PATIENCE)
        for process in [self.coordinators[-1], *self.monitors]:
            ended = process.wait(PATIENCE)
            if ended != (0, ""):
                raise SystemExit(f"{' '.join(process.words[1:4])} ended with {ended}: {process.lines[-1:]}")

    def close(self):
        self.over.set()
        for process in [*self.coordinators, *self.monitors]:
            if process.is_running():
                process.kill()


def run(nodes, options):
    for _ in range(options.kills):
        nodes.settle()
        time.sleep(options.seconds / (options.kills + 1))
        nodes.coordinators[-1].kill()
        nodes.start_coordinator()
    nodes.settle()
    time.sleep(options.seconds / (options.kills + 1))
    nodes.over.set()
    nodes.finish()
    for one in nodes.monitors:
        one.keep_ends()
    judge = Judge(nodes.names, {one.number: [one] for one in nodes.monitors}, [])
    for coordinator in nodes.coordinators:
        judge.coordinator(coordinator)
    judging.last_set(nodes.names, nodes.coordinators[-1], nodes.monitors)
    ticks = sum(len(stream.ticks) - 1 for one in nodes.monitors for stream in one.streams)
    print(f"right: {judge.sets} sets in {judge.sessions} sessions, {judge.at_ends} at ends of ticks; {ticks} ticks of "
          f"{sum(sum(one.whole()) for one in nodes.monitors)} records told")
    if nodes.grown():
        sys.exit(f"grown: {nodes.grown()}")


def main():
    parser = argparse.ArgumentParser(description=__doc__, formatter_class=argparse.RawDescriptionHelpFormatter)
    parser.add_argument("program", nargs="?", type=pathlib.Path, default=PROGRAM)
    parser.add_argument("--width", type=int, default=3)
    parser.add_argument("--seconds", type=float, default=30)
    parser.add_argument("--kills", type=int, default=3)
    parser.add_argument("--rate", type=float, default=500)
    parser.add_argument("--tick", type=float, default=0)
    parser.add_argument("--every", type=float, default=60)
    parser.add_argument("--seed", type=int, default=1)
    options = parser.parse_args()
    with tempfile.TemporaryDirectory() as room:
        nodes = Nodes(options, room)
        try:
            run(nodes, options)
        except judging.Wrong as wrong:
            sys.exit(f"wrong: {wrong}")
        finally:
            nodes.close()


if __name__ == "__main__":
    main()

"""Runs `topk coordinate` and `topk monitor` as processes of their own on 127.0.0.1, and judges every set that is printed.

The folder examples/three_processes has the words of each process; what stands for the address is filled in. A set is right where
plain sums over the places printed beside it make it so. Besides: monitors fed by pipes at once, whose coordinator is ended and
begun anew; one that begins first, one that comes too late, one of another run, of another catalogue, or that nobody answers; lines
that are no records; logs of web servers, routers and caches through the scripts that make streams of them; the lines of ends of
ticks; the units for systemd; and strangers, who change nothing.
"""
import os
import pathlib
import random
import shutil
import socket
import struct
import subprocess
import sys
import tempfile
import threading
import time

import check_examples as plain

ROOT = pathlib.Path(__file__).resolve().parent.parent
FOLDER = ROOT / "examples" / "three_processes"
PROGRAM = ROOT / "crates" / "topk" / "out" / "topk"
LIMIT = 60

# How many monitors the made streams have.
MONITORS = 8


def words(name, address):
    return [word.replace("ADDRESS", address) for word in (FOLDER / name).read_text().split()]


class Process:
    """A process whose lines can be read while it runs."""

    def __init__(self, asked, told=""):
        self.out, self.fault, given = tempfile.TemporaryFile("w+"), tempfile.TemporaryFile("w+"), tempfile.TemporaryFile("w+")
        given.write(told)
        given.seek(0)
        self.child = subprocess.Popen([PROGRAM, *asked], cwd=FOLDER, stdin=given, stdout=self.out, stderr=self.fault)

    def lines(self):
        self.out.seek(0)
        return self.out.read().splitlines()

    def ended(self, status):
        """What it printed, once it has ended with this status."""
        self.child.wait(timeout=LIMIT)
        self.fault.seek(0)
        assert self.child.returncode == status, f"status {self.child.returncode}: {self.fault.read()}"
        return self.lines()

    def killed(self):
        self.child.kill()
        self.child.wait(timeout=LIMIT)
        return self.lines()

    def awaited(self, line):
        """It prints this line next, within some time."""
        until, before = time.monotonic() + LIMIT, len(self.lines())
        while time.monotonic() < until and self.lines()[-1:] != [line]:
            time.sleep(0.01)
        assert self.lines()[-1:] == [line], f"not {line!r} behind {before} lines: {self.lines()}"

    def address(self):
        """Where a coordinator listens: its first line, behind which it begins a session."""
        until = time.monotonic() + LIMIT
        while time.monotonic() < until:
            lines = self.lines()
            if len(lines) >= 2:
                assert lines[0].startswith("listening ") and lines[1] == "session 1", f"no address: {lines}"
                return lines[0].split()[1]
            time.sleep(0.01)
        raise AssertionError("no address")


def free_address():
    with socket.socket() as door:
        door.bind(("127.0.0.1", 0))
        return "127.0.0.1:%d" % door.getsockname()[1]


def judged(lines):
    """Each set of a coordinator is right over its cut, and the last one is final, over the whole logs."""
    names = plain.catalogue_of(FOLDER, {"objects": "objects.csv"})
    closing = ("a", 0)
    logs = {1: [[*plain.changes_of(FOLDER / "one.csv"), closing]], 2: [[*plain.changes_of(FOLDER / "two.csv"), closing]]}
    return plain.check_sets("three_processes", names, logs, {"k": "1", "epsilon": "0"}, lines, {})


def in_order(before=lambda address: None):
    """The three processes, the coordinator first; what is done before the monitors begin changes nothing."""
    coordinator = Process(words("coordinate", "127.0.0.1:0"))
    address = coordinator.address()
    before(address)
    monitors = [Process(words(name, address)) for name in ("monitor_1", "monitor_2")]
    told = [monitor.ended(0) for monitor in monitors]
    lines = coordinator.ended(0)
    joined = [line.split(" at ")[0] for line in lines if line.startswith("joined")]
    assert sorted(joined) == ["joined 1", "joined 2"], f"not joined: {lines}"
    assert all(one[0].startswith("joined 1 at ") and one[-1] == "ended at 2 skipped 0" for one in told), f"monitors: {told}"
    return judged(lines)


def monitors_first():
    """The monitors, which dial until somebody answers, and the coordinator then."""
    address = free_address()
    monitors = [Process(words(name, address)) for name in ("monitor_1", "monitor_2")]
    time.sleep(0.7)
    coordinator = Process(words("coordinate", address))
    lines = coordinator.ended(0)
    assert lines[0] == f"listening {address}", f"another address: {lines}"
    for monitor in monitors:
        monitor.ended(0)
    return judged(lines)


def alone():
    """One monitor over its standard input, and one session."""
    asked = words("coordinate", "127.0.0.1:0")
    asked[asked.index("--monitors") + 1] = "1"
    coordinator = Process([*asked, "--sessions", "1"])
    monitor = Process([*words("monitor_1", coordinator.address())[:-1], "-"], "a,5\nb,3\n")
    told, lines = monitor.ended(0), coordinator.ended(0)
    assert told[-1] == "ended at 3 skipped 0", f"the monitor: {told}"
    assert lines[-1].startswith("final ") and lines[-1].endswith(" cut 1:3 members a"), f"the last set: {lines}"


def made_streams(pick, count):
    """Streams of random length over six objects, each behind the monitor that it is of."""
    names = [f"o{number}" for number in range(1, 7)]
    streams = {}
    for number in range(count):
        records = [(pick.choice(names), pick.randrange(-5, 20)) for _ in range(pick.randrange(800))]
        streams.setdefault(1 + number % MONITORS, []).append(records)
    return names, streams


def feed(path, records, halved):
    """Gives a pipe its records in pieces, the second half of them once it may."""
    with open(path, "w") as pipe:
        for begin in range(0, len(records), 50):
            if begin > len(records) // 2:
                halved.wait(LIMIT)
            pipe.write("".join(f"{name},{by}\n" for name, by in records[begin:begin + 50]))
            pipe.flush()
            time.sleep(0.002)
        halved.wait(LIMIT)


def is_right_over(names, streams, lines, k, epsilon):
    """Each set of some sessions is right over its cut of the true logs, in which a closing record is nothing."""
    logs = {monitor: [[*records, (names[0], 0)] for records in some] for monitor, some in streams.items()}
    for line in lines:
        fields = line.split()
        if fields[0] in ("set", "final"):
            cut, members = plain.cut_of(fields[3:fields.index("members")]), fields[fields.index("members") + 1:]
            if not plain.is_right(names, plain.totals_at(names, logs, cut), members, k, epsilon):
                return f"not within epsilon: {line}"
    return None


def fed_at_once():
    """Eight monitors over twenty streams that come by pipes at once; the first coordinator is ended, and another goes on."""
    names, streams = made_streams(random.Random(7), 20)
    halved = threading.Event()
    with tempfile.TemporaryDirectory() as folder:
        room = pathlib.Path(folder)
        (room / "objects.csv").write_text("".join(f"{name}\n" for name in names))
        address = free_address()
        asked = ["coordinate", "--monitors", str(MONITORS), "--k", "2", "--epsilon", "3", "--objects", str(room / "objects.csv"),
                 "--run", "9", "--listen", address]
        first = Process(asked)
        first.address()
        monitors, feeders = [], []
        for monitor, some in streams.items():
            pipes = [room / f"{monitor}_{number}" for number in range(len(some))]
            for pipe in pipes:
                os.mkfifo(pipe)
            feeders += [threading.Thread(target=feed, args=(*item, halved)) for item in zip(pipes, some)]
            monitors.append(Process(["monitor", "--number", str(monitor), "--objects", str(room / "objects.csv"), "--run", "9",
                                     "--connect", address, "--pause", "20", *map(str, pipes)]))
        for feeder in feeders:
            feeder.start()
        time.sleep(0.5)
        lines = first.killed()
        halved.set()
        second = Process(asked)
        for monitor in monitors:
            monitor.ended(0)
        for feeder in feeders:
            feeder.join()
        ends = second.ended(0)
    whole = {monitor: [len(records) + 1 for records in some] for monitor, some in streams.items()}
    last = ends[-1].split()
    assert last[0] == "final" and plain.cut_of(last[3:last.index("members")]) == whole, f"the last set: {ends[-1]}"
    return is_right_over(names, streams, [*lines, *ends], 2, 3)


def one_is_missing():
    """Sets go on without a monitor that does not come in time; when it comes the session ends, and the next has both."""
    coordinator = Process([*words("coordinate", "127.0.0.1:0"), "--missing", "1"])
    address = coordinator.address()
    first, until = Process(words("monitor_1", address)), time.monotonic() + LIMIT
    while not any(line.startswith("set ") for line in coordinator.lines()):
        assert time.monotonic() < until, f"no set without monitor 2: {coordinator.lines()}"
        time.sleep(0.1)
    second = Process(words("monitor_2", address))
    first.ended(0)
    second.ended(0)
    lines = coordinator.ended(0)
    back = lines.index("ended 1 back 2")
    alone = lines[lines.index("missing 2") + 1:back]
    assert all(line.startswith("set ") and " 2:- " in line for line in alone), f"the sets without monitor 2: {alone}"
    return judged(lines[back + 1:])


def odd_lines():
    """A line that is no record ends the monitor, with its number, or is passed over and counted."""
    coordinator = Process([*words("coordinate", "127.0.0.1:0"), "--sessions", "1"])
    address = coordinator.address()
    text = 'a,5\r\n\n"b",3\nc,1\nb;2\na,x\nb,-1'
    monitor = Process([*words("monitor_1", address)[:-1], "-"], text)
    monitor.ended(4)
    monitor.fault.seek(0)
    assert monitor.fault.read() == "topk: -: line 4: unknown object\n", "a bad line is told otherwise"
    coordinator.killed()
    asked = words("coordinate", "127.0.0.1:0")
    asked[asked.index("--monitors") + 1] = "1"
    coordinator = Process(asked)
    monitor = Process([*words("monitor_1", coordinator.address())[:-1], "--skip-bad", "yes", "-"], text)
    told, lines = monitor.ended(0), coordinator.ended(0)
    assert told[-1] == "ended at 4 skipped 3", f"the monitor: {told}"
    assert lines[-1].endswith(" cut 1:4 members a"), f"the last set: {lines}"


# What the streams of a monitor give, one after the other, and what it says then.
TICKS = ((0, "a,5\nb,3\ntick\n", "tick 1,0 at 2,0"), (1, "b,4\ntick\n", "tick 1,1 at 2,1"),
         # The first tick of the first stream leaves its window: two records that take it back.
         (0, "a,1\ntick\n", "tick 2,1 at 5,1"), (1, "tick\n", "tick 2,2 at 5,2"), (0, "a,2\n", None),
         # The first is in the midst of a tick now, and its place is that of its last end.
         (1, "b,-1\ntick\n", "tick 2,3 at 5,3"), (0, "tick\n", "tick 3,3 at 7,3"))

# The greatest by the sums over the windows at ends of ticks of both.
GREATEST = {(2, 0): "a", (2, 1): "b", (5, 1): "b", (5, 2): "a", (7, 3): "a"}


def ticks_are_told():
    """A monitor with a window says where the ticks of its streams ended; a set there is right for the last ticks."""
    asked = words("coordinate", "127.0.0.1:0")
    asked[asked.index("--monitors") + 1] = "1"
    coordinator = Process(asked)
    with tempfile.TemporaryDirectory() as folder:
        pipes = [pathlib.Path(folder) / name for name in ("one", "two")]
        for pipe in pipes:
            os.mkfifo(pipe)
        monitor = Process([*words("monitor_1", coordinator.address())[:-1], "--width", "1", *map(str, pipes)])
        streams = [open(pipe, "w") for pipe in pipes]
        monitor.awaited("joined 1 at 0,0")
        for stream, text, line in TICKS:
            streams[stream].write(text)
            streams[stream].flush()
            if line:
                monitor.awaited(line)
        for stream in streams:
            stream.close()
        told, lines = monitor.ended(0), coordinator.ended(0)
    wanted = ["joined 1 at 0,0", *(line for _, _, line in TICKS if line), "ended at 8,4 skipped 0"]
    assert told == wanted, f"the monitor: {told}"
    assert lines[-1].endswith(" cut 1:8,4 members a"), f"the last set: {lines}"
    for line in lines:
        fields = line.split()
        if fields[0] in ("set", "final"):
            places = tuple(plain.cut_of(fields[3:fields.index("members")])[1])
            if fields[-1] != GREATEST.get(places, fields[-1]):
                return f"not the greatest of the last ticks: {line}"
    return None


# Logs as they are written, and the script of their folder that makes a stream of one.
SOURCES = {"access_log": "web{}.log", "flow_records": "edge{}.flows", "cache_keys": "node{}.txt"}


def three_sources():
    """Three monitors behind a pipe of each kind of log, whose final set plain sums over the logs find right."""
    for name, log in SOURCES.items():
        folder = plain.ROOT / "examples" / name
        objects = ["--objects", str(folder / "objects.csv"), "--run", "3"]
        coordinator = Process(["coordinate", "--monitors", "3", "--k", "3", "--epsilon", "5", *objects, "--listen", "127.0.0.1:0"])
        address, monitors = coordinator.address(), []
        for number in (1, 2, 3):
            pipe = subprocess.run(["awk", "-f", folder / "to_stream.awk", folder / log.format(number)], capture_output=True, check=True)
            monitors.append(Process(["monitor", "--number", str(number), *objects, "--connect", address, "--skip-bad", "yes", "-"],
                                    pipe.stdout.decode()))
        for monitor in monitors:
            monitor.ended(0)
        lines = coordinator.ended(0)
        names = plain.catalogue_of(folder, {"objects": "objects.csv"})
        records = {number: [c for tick in plain.ticks_of(folder / f"{number}.csv") for c in tick] for number in (1, 2, 3)}
        whole = {number: [len(some) + 1] for number, some in records.items()}
        last = lines[-1].split()
        assert plain.cut_of(last[3:last.index("members")]) == whole, f"{name}: the last set: {lines[-1]}"
        fault = is_right_over(names, {number: [some] for number, some in records.items()}, lines, 3, 5)
        if fault:
            return f"{name}: {fault}"
    return None


def units():
    """The units are as systemd wants them, where it is there to say so."""
    verify = shutil.which("systemd-analyze")
    if not verify:
        return None
    with tempfile.TemporaryDirectory() as folder:
        room = pathlib.Path(folder)
        for unit in ("topk-coordinate.service", "topk-monitor@.service"):
            text = (plain.ROOT / "examples" / "units" / unit).read_text()
            (room / unit).write_text(text.replace("/usr/local/bin/topk", str(PROGRAM)))
        said = subprocess.run([verify, "verify", room / "topk-coordinate.service", room / "topk-monitor@.service"], capture_output=True)
        return said.stderr.decode() if said.returncode else None


def others_are_strangers():
    """A monitor of another run, and one with other objects, join nothing; nobody answers one that dials elsewhere."""
    coordinator = Process(words("coordinate", "127.0.0.1:0"))
    address = coordinator.address()
    other = words("monitor_1", address)
    other[other.index("--run") + 1] = "6"
    renamed = words("monitor_1", address)
    renamed[renamed.index("--objects") + 1] = "others.csv"
    strangers = [Process(other), Process(renamed)]
    time.sleep(1)
    lines = coordinator.killed()
    assert lines[1:] == ["session 1"], f"a stranger joined: {lines}"
    for process in strangers:
        process.killed()
    alone = Process([*words("monitor_1", free_address()), "--tries", "2", "--pause", "10"])
    alone.ended(8)


def greeting(mark=b"TKC1", run=0, monitor=1, streams=1):
    return mark + struct.pack(">QIB", run, monitor, streams) + bytes(96)


# What strangers say: nothing, noise, half a greeting, greetings of another form, run or monitor.
STRANGE = [b"", b"GET / HTTP/1.1\r\n\r\n" + bytes(200), greeting()[:112], greeting(mark=b"TKC2"), greeting(run=7),
           greeting(monitor=0), greeting(monitor=3), greeting(streams=0), greeting(streams=9)]


def knock(address):
    """A hundred strangers, some of whom stay and say nothing more."""
    host, port = address.split(":")
    held = []
    for number in range(100):
        guest = socket.create_connection((host, int(port)), timeout=5)
        try:
            guest.sendall(STRANGE[number % len(STRANGE)])
        except OSError:
            pass
        if number % 3:
            guest.close()
        else:
            held.append(guest)
    knock.held = held


def main():
    if not PROGRAM.exists():
        print("processes: the program is not built")
        return 1
    for case in (in_order, monitors_first, alone, one_is_missing, fed_at_once, odd_lines, ticks_are_told, three_sources, units,
                 others_are_strangers, lambda: in_order(knock)):
        fault = case()
        if fault:
            print(f"processes: {fault}")
            return 1
    print("processes: ok")
    return 0


if __name__ == "__main__":
    sys.exit(main())

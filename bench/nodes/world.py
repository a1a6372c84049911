"""One run over real processes: who lives, what is started anew, and whether all is well again."""
import os
import pathlib
import random
import socket
import threading
import time

import disk
import gates
import judging
import namespaces
import processes

K_AND_EPSILON = ((1, 0), (2, 0), (3, 5), (3, 20), (5, 0), (4, 100))
# In so many seconds all have joined again and a set is printed; in so many the last set is right over all that was given, once
# the streams are still; in so many a final set comes once all streams have ended.
RECOVERY, STILL, FINAL = 60, 60, 60


class Failed(Exception):
    """What did not come about as it must."""


def free_port():
    """A port that is free, below those that the system gives to who dials."""
    for port in random.sample(range(20000, 30000), 100):
        with socket.socket() as door:
            try:
                door.bind(("127.0.0.1", port))
                return port
            except OSError:
                continue
    raise OSError("no free port")


class World:
    """The coordinators one after the other, and each monitor's incarnations."""

    def __init__(self, program, room, seed, options):
        self.program, self.room, self.pick, self.count = str(program), pathlib.Path(room), random.Random(seed), options.monitors
        self.network = namespaces.Network(self.count) if options.namespaces else None
        self.host = f"{self.network.net}.1" if self.network else "127.0.0.1"
        self.address = f"{self.host}:{free_port()}"
        self.rate = options.rate or int(10 * 2000 ** self.pick.random())
        self.pause, self.silence = self.pick.choice((20, 100, 500)), self.pick.choice((2, 5, 20))
        self.names = [f"o{number}" for number in range(1, 25)]
        (self.room / "objects.csv").write_text("".join(f"{name}\n" for name in self.names))
        self.pipes, self.coordinators, self.greetings, self.first_look, self.log, self.disk = 0, [], [], {}, [], None
        self.incarnations = {number: [] for number in range(1, self.count + 1)}
        self.begun, self.over = time.monotonic(), threading.Event()
        self.start_coordinator()
        for number in self.incarnations:
            self.start_monitor(number)
        threading.Thread(target=self.watch, daemon=True).start()

    def watch(self):
        """Looks at each process that runs, for its greatest size."""
        while not self.over.wait(0.5):
            for process in self.running():
                if process.is_running():
                    process.look()

    def say(self, text):
        self.log.append(f"{time.monotonic() - self.begun:9.3f} {text}")

    def random(self):
        return random.Random(self.pick.random())

    def within(self, host):
        return self.network.within(host) if self.network else ()

    def path(self, number):
        """A name for what a monitor reads."""
        self.pipes += 1
        return f"{number}_{self.pipes}.csv"

    def fifo(self, number):
        path = self.path(number)
        os.mkfifo(self.room / path)
        return path

    def file(self, number, stream):
        """A file with all records of a stream."""
        path = self.path(number)
        (self.room / path).write_text(stream.text())
        return path

    def disk_file(self):
        """A path on a small file system, which is made the first time."""
        self.disk = self.disk or disk.Disk(self.room / "disk")
        return self.disk.file()

    @property
    def coordinator(self):
        return self.coordinators[-1]

    def monitor(self, number):
        return self.incarnations[number][-1]

    def monitors(self):
        return [ones[-1] for ones in self.incarnations.values()]

    def running(self):
        return [self.coordinator, *self.monitors()]

    def start_coordinator(self, output=None):
        k, epsilon = self.pick.choice(K_AND_EPSILON)
        self.coordinators.append(processes.Coordinator(self, k, epsilon, output))
        self.say(f"coordinator {len(self.coordinators)} begins, k {k} epsilon {epsilon}")

    def greet(self, *greeting):
        """Notes a greeting that is carried to whoever listens now."""
        self.greetings.append((time.monotonic(), greeting))

    def start_monitor(self, number, past=(), output=None):
        """A new incarnation, behind a gate of its own where there are gates; a file gives it the records of past streams."""
        gate = None if self.network else gates.Gate(self.address, self.greet)
        one = processes.Monitor(self, number, gate, past, output)
        self.incarnations[number].append(one)
        self.say(f"monitor {number} begins, incarnation {len(self.incarnations[number])}, {len(one.streams)} streams")

    def expect(self, process, status, line):
        """Waits until a process ends with this status and line."""
        ended = process.wait(RECOVERY)
        if ended != (status, line):
            raise Failed(f"{' '.join(process.words[1:4])} ended with {ended}, not {(status, line)}")

    def place(self):
        """Which session it is, of which coordinator."""
        return len(self.coordinators), self.coordinator.sessions()

    def recovered(self, behind=(0, 0)):
        """Waits until all have joined a session behind this one and a set is printed, and answers the seconds; nobody may have ended."""
        start = time.monotonic()
        while not self.coordinator.is_settled(self.count) or self.place() <= behind:
            for process in self.running():
                if not process.is_running():
                    raise Failed(f"{' '.join(process.words[1:4])} has ended by itself: {process.wait(1)}")
            if time.monotonic() > start + RECOVERY:
                raise Failed(f"not all well after {RECOVERY} s: {self.coordinator.session()}")
            time.sleep(0.02)
        return time.monotonic() - start

    def sets(self):
        return sum(line.startswith("set ") for _, line in list(self.coordinator.lines))

    def going(self):
        """The streams that have not ended, each by its monitor and its place there."""
        return [(one, at) for one in self.monitors() for at, stream in enumerate(one.streams) if not stream.ending.is_set()]

    def progressed(self):
        """Waits until one set more is printed, where the order of the objects changes often."""
        if self.rate < 300 or self.coordinator.epsilon > 5 or not self.going():
            return
        before, start = self.sets(), time.monotonic()
        while self.sets() <= before:
            if time.monotonic() > start + RECOVERY:
                raise Failed(f"no set within {RECOVERY} s: {self.coordinator.session()[-5:]}")
            time.sleep(0.02)

    def stood(self):
        """Holds all streams still until the last set is right over all that they gave, and stays so; answers the seconds."""
        given = [stream for one in self.monitors() for stream in one.streams]
        for stream in given:
            stream.still.set()
        start = right = time.monotonic()
        before = None
        while before is None or time.monotonic() < right + 0.5:
            now = (self.sets(), self.totals(given))
            if not self.is_right(now[1]):
                before = None
            elif now != before:
                before, right = now, time.monotonic()
            if before is None and time.monotonic() > start + STILL:
                raise Failed(f"{STILL} s behind the last record the last set is not right: {self.coordinator.session()[-5:]}, {now[1]}")
            time.sleep(0.02)
        for stream in given:
            stream.still.clear()
        return right - start

    def totals(self, given):
        return dict(zip(self.names, map(sum, zip(*(stream.totals for stream in given)))))

    def is_right(self, totals):
        """Whether the last set of this session is right over these totals."""
        sets = [line for line in self.coordinator.session() if line.startswith(("set ", "final "))]
        members = sets[-1].partition(" members ")[2].split() if sets else []
        return bool(members) and judging.plain.is_right(self.names, totals, members, self.coordinator.k, self.coordinator.epsilon)

    def within_bounds(self, megabytes):
        """Whether each process has no more threads and descriptors than when it first was well, and little memory."""
        start = time.monotonic()
        while True:
            faults = [fault for fault in map(lambda process: self.excess(process, megabytes), self.running()) if fault]
            if not faults:
                return
            if time.monotonic() > start + self.silence + 10:
                raise Failed("; ".join(faults))
            time.sleep(0.1)

    def excess(self, process, megabytes):
        """What a process has too much of."""
        now = process.look()
        if now is None:
            return None
        first = self.first_look.setdefault(process, now)
        if now["threads"] > first["threads"] + 1 or now["descriptors"] > first["descriptors"] + 2:
            return f"{' '.join(process.words[1:4])} has {now}, first {first}"
        if now["kilobytes"] > megabytes * 1024:
            return f"{' '.join(process.words[1:4])} has {now['kilobytes']} kB"
        return None

    def finish(self):
        """Ends all streams, waits for the final set and the ends of all, and answers the seconds."""
        self.say("all streams end")
        start = time.monotonic()
        for one in self.monitors():
            for stream in one.streams:
                stream.end()
        for one in self.monitors():
            for stream in one.streams:
                stream.thread.join(FINAL)
        for process in self.running():
            ended = process.wait(max(1, start + FINAL - time.monotonic()))
            if ended != (0, ""):
                raise Failed(f"{' '.join(process.words[1:4])} at the end: {ended}, last line {process.lines[-1:]}")
        for one in self.monitors():
            told = "ended at " + ",".join(map(str, one.whole())) + " skipped 0"
            if one.lines[-1][1] != told:
                raise Failed(f"monitor {one.number}: {one.lines[-1][1]}, not {told}")
        return time.monotonic() - start

    def all_processes(self):
        return [*self.coordinators, *(one for ones in self.incarnations.values() for one in ones)]

    def close(self):
        """Ends each process that was started and still runs."""
        self.over.set()
        for process in self.all_processes():
            if process.is_running():
                process.child.kill()
                process.wait(10)
        for ones in self.incarnations.values():
            for one in ones:
                one.close()
        if self.disk:
            self.disk.close()
        if self.network:
            self.network.close()

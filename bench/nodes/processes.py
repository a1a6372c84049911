"""A coordinator and its monitors as real processes, whose lines are read as they come."""
import os
import pathlib
import select
import subprocess
import tempfile
import threading
import time

import streams

RUN = 11
# After so many seconds a session goes on without a monitor.
MISSING = 2
UNWRITTEN, UNLINKED = "topk: the output cannot be written\n", "topk: a link failed\n"


def opened(output):
    """A file to read from, and to write to behind its end."""
    written = os.open(output, os.O_WRONLY | os.O_CREAT | os.O_APPEND, 0o600)
    return os.open(output, os.O_RDONLY), written


class Process:
    """A process with the lines that it printed, each behind the time when it came."""

    def __init__(self, words, room, given=None, within=(), output=None):
        self.words, self.begun, self.left, self.output = words, time.monotonic(), None, output
        self.errors = tempfile.TemporaryFile("w+")
        self.out, written = opened(output) if output else os.pipe()
        self.child = subprocess.Popen([*within, *words], cwd=room, stdin=given if given is not None else subprocess.DEVNULL,
                                      stdout=written, stderr=self.errors)
        os.close(written)
        self.lines, self.hung_up, self.stopped = [], threading.Event(), False
        self.most = {"kilobytes": 0, "threads": 0, "descriptors": 0}
        self.reader = threading.Thread(target=self.read, daemon=True)
        self.reader.start()

    def read(self):
        """Keeps each line until the output ends, or nobody wants to read it any more."""
        poll, rest = select.poll(), b""
        if not self.output:
            poll.register(self.out, select.POLLIN)
        while not self.hung_up.is_set():
            piece = self.piece(poll)
            if piece is None:
                continue
            if not piece:
                break
            *whole, rest = (rest + piece).split(b"\n")
            now = time.monotonic()
            # Empty lines stand where a disk was filled.
            self.lines += [(now, line.decode()) for line in whole if line or not self.output]
        os.close(self.out)

    def piece(self, poll):
        """What was written next, nothing at the end, None where nothing came in a moment; a file ends with its process."""
        if not self.output:
            return os.read(self.out, 65536) if poll.poll(20) else None
        ended = not self.is_running()
        piece = os.read(self.out, 65536)
        if not piece and not ended:
            time.sleep(0.02)
            return None
        return piece

    def hang_up(self):
        """Closes the pipe behind the output."""
        self.hung_up.set()
        self.reader.join()

    def is_running(self):
        return self.child.poll() is None

    def kill(self):
        self.child.kill()
        return self.wait(20)

    def wait(self, seconds):
        """The status and the line of errors, once it has ended; None where it goes on."""
        try:
            self.child.wait(timeout=seconds)
        except subprocess.TimeoutExpired:
            return None
        self.left = self.left or time.monotonic()
        self.reader.join()
        self.errors.seek(0)
        return self.child.returncode, self.errors.read()

    def look(self):
        """Resident kilobytes, threads and open descriptors now; the greatest are kept."""
        try:
            status = pathlib.Path(f"/proc/{self.child.pid}/status").read_text()
            fields = dict(line.split(":", 1) for line in status.splitlines() if ":" in line)
            now = {"kilobytes": int(fields["VmRSS"].split()[0]), "threads": int(fields["Threads"]),
                   "descriptors": len(os.listdir(f"/proc/{self.child.pid}/fd"))}
        except (OSError, KeyError):
            return None
        self.most = {what: max(now[what], most) for what, most in self.most.items()}
        return now


class Coordinator(Process):
    """A coordinator."""

    def __init__(self, nodes, k, epsilon, output=None):
        self.k, self.epsilon = k, epsilon
        words = [nodes.program, "coordinate", "--monitors", str(nodes.count), "--k", str(k), "--epsilon", str(epsilon), "--objects",
                 "objects.csv", "--run", str(RUN), "--listen", nodes.address, "--silence", str(nodes.silence), "--missing", str(MISSING)]
        super().__init__(words, nodes.room, within=nodes.within(0), output=output)

    def session(self):
        """The lines of its last session."""
        lines = [line for _, line in list(self.lines)]
        starts = [at for at, line in enumerate(lines) if line.startswith("session ")]
        return lines[starts[-1]:] if starts else []

    def sessions(self):
        return sum(line.startswith("session ") for _, line in list(self.lines))

    def is_settled(self, count):
        """Whether all have joined the last session, and a set of it was printed."""
        heads = [line.split()[0] for line in self.session()]
        return heads.count("joined") == count and "ended" not in heads and ("set" in heads or "final" in heads)


class Monitor(Process):
    """A monitor from its start to its end, with the records of its streams, the first of them a file where there is a past."""

    def __init__(self, nodes, number, gate, past=(), output=None):
        self.number, self.gate = number, gate
        pick, given, opened = nodes.pick, None, []
        count = pick.randint(1, 3)
        before = [streams.of_file(nodes.names, past)] if past else []
        self.paths = [nodes.file(number, one) for one in before]
        for stream in range(count):
            if stream == 0 and pick.random() < 0.4:
                given, pipe = os.pipe()
                self.paths.append("-")
                opened.append(lambda dropped, pipe=streams.unblocked(pipe): pipe)
            else:
                self.paths.append(nodes.fifo(number))
                opened.append(streams.opened_fifo(nodes.room / self.paths[-1]))
        words = [nodes.program, "monitor", "--number", str(number), "--objects", "objects.csv", "--run", str(RUN), "--connect",
                 gate.address if gate else nodes.address, "--frames", str(pick.choice((1, 2))), "--pause", str(nodes.pause),
                 "--silence", str(nodes.silence), *self.paths]
        super().__init__(words, nodes.room, given, nodes.within(number), output)
        if given is not None:
            os.close(given)
        rate = nodes.rate / nodes.count / count
        self.streams = before + [streams.Stream(nodes.names, nodes.random(), rate, one) for one in opened]

    def whole(self):
        """The places behind all records and closing records."""
        return [len(stream.objects) + 1 for stream in self.streams]

    def close(self):
        """Ends what fed it and carried it."""
        for stream in self.streams:
            stream.drop()
        if self.gate:
            self.gate.close()

#!/usr/bin/env python3
"""Runs the program over devices that fail, and looks at how it ends.

    bench/failing_devices/run.py [PROGRAM]

Each case below is the example two_monitors, or a live run of it, with one thing that fails: the output, a file, the
descriptors, the loopback. It must end within the seconds below with the status and the line that stand beside it, and what
it wrote must be a front of the text in whole lines, but where the output itself broke. It is no part of the gate; cases
that want a namespace of their own are left out, and named, where the machine gives none.
"""
import os
import pathlib
import resource
import shutil
import signal
import subprocess
import sys
import tempfile
import threading

ROOT = pathlib.Path(__file__).resolve().parent.parent.parent
PROGRAM = ROOT / "crates" / "topk" / "out" / "topk"
EXAMPLE = ROOT / "examples" / "two_monitors"
SECONDS = 20
WORDS = "--k 1 --epsilon 0 --objects {objects} 1={one} 2={two}"
UNWRITTEN = b"topk: the output cannot be written\n"
UNLINKED = b"topk: a link failed\n"


def words(command="replay", objects="objects.csv", one="one.csv", two="two.csv"):
    return [command, *WORDS.format(objects=objects, one=one, two=two).split()]


def unread(name):
    return f"topk: {name}: cannot be read\n".encode()


def run(room, words, **more):
    """The status, what was written and the line of a run in a folder."""
    more = {"stdout": subprocess.PIPE, "stderr": subprocess.PIPE, **more}
    done = subprocess.run([PROGRAM, *words], cwd=room, timeout=SECONDS, **more)
    return done.returncode, done.stdout, done.stderr


def without_descriptors(room):
    """A run that is left without descriptors while it waits for its objects, which come through a FIFO."""
    os.mkfifo(room / "fifo.csv")
    started = subprocess.Popen(
        [PROGRAM, *words(objects="fifo.csv")], cwd=room, stdout=subprocess.PIPE, stderr=subprocess.PIPE
    )
    with (room / "fifo.csv").open("wb") as out:
        resource.prlimit(started.pid, resource.RLIMIT_NOFILE, (3, 3))
        out.write((room / "objects.csv").read_bytes())
    out, line = started.communicate(timeout=SECONDS)
    return started.returncode, out, line


def limit(descriptors):
    return lambda: resource.setrlimit(resource.RLIMIT_NOFILE, (descriptors, descriptors))


def closed_pipe(room, command):
    """A run whose reader is gone before the first line."""
    reading, writing = os.pipe()
    os.close(reading)
    try:
        return run(room, words(command), stdout=writing)
    finally:
        os.close(writing)


def full_device(room, command):
    with open("/dev/full", "wb") as full:
        return run(room, words(command), stdout=full)


def file_size_limit(room, command):
    """A run whose output may have 40 bytes, in a file; the text so far goes back."""
    path = room / "text"
    with path.open("wb") as out:
        status, _, line = run(room, words(command), stdout=out, preexec_fn=small_files)
    return status, path.read_bytes(), line


def small_files():
    signal.signal(signal.SIGXFSZ, signal.SIG_IGN)
    resource.setrlimit(resource.RLIMIT_FSIZE, (40, 40))


def fifo(room, content):
    """A log that is a FIFO, into which someone writes this."""
    os.mkfifo(room / "fifo.csv")

    def write():
        with (room / "fifo.csv").open("wb") as out:
            try:
                out.write(content)
            except BrokenPipeError:
                pass

    writer = threading.Thread(target=write)
    writer.start()
    ended = run(room, words(one="fifo.csv"))
    writer.join()
    return ended


def growing(room):
    """A log that grows for as long as it is read."""
    path = room / "growing.csv"
    line = b"a,1\n" * 16384
    path.write_bytes(line * 1000)
    going = threading.Event()

    def grow():
        with path.open("ab") as out:
            while not going.is_set() and out.tell() < 256 * 2**20:
                out.write(line)

    writer = threading.Thread(target=grow)
    writer.start()
    try:
        return run(room, words(one="growing.csv"))
    finally:
        going.set()
        writer.join()


def interrupted(room, number):
    """A live run of long logs that a signal ends."""
    for name in ("one.csv", "two.csv"):
        (room / name).write_bytes(b"a,1\nb,1\n" * 450_000)
    started = subprocess.Popen([PROGRAM, *words("live")], cwd=room, stdout=subprocess.PIPE, stderr=subprocess.PIPE)
    # With its first set the run has begun, and most of the logs are still to come.
    first = started.stdout.readline()
    started.send_signal(number)
    out, line = started.communicate(timeout=SECONDS)
    return started.returncode, first + out, line


def without_loopback(room):
    """A live run where the loopback device is down, or None where there is no such namespace to be had."""
    if not shutil.which("unshare") or subprocess.run(["unshare", "-n", "true"], capture_output=True).returncode:
        return None
    done = subprocess.run(["unshare", "-n", PROGRAM, *words("live")], cwd=room, capture_output=True, timeout=SECONDS)
    return done.returncode, done.stdout, done.stderr


def unreadable(room, name):
    """A run whose log cannot be opened, for a reader that is not root."""
    (room / name).chmod(0)
    return run(room, words(one=name))


NOTHING = "nothing"
FRONT = "a front in whole lines"
CUT = "a front"
WHOLE = "the whole text"

# What fails, the run, its status, its line, and what stands written.
CASES = (
    ("nothing fails", lambda room: run(room, words()), 0, b"", WHOLE),
    ("the output is a full device", lambda room: full_device(room, "replay"), 6, UNWRITTEN, NOTHING),
    ("the same, live", lambda room: full_device(room, "live"), 6, UNWRITTEN, NOTHING),
    ("the reader of the output is gone", lambda room: closed_pipe(room, "replay"), 6, UNWRITTEN, NOTHING),
    ("the same, live", lambda room: closed_pipe(room, "live"), 6, UNWRITTEN, NOTHING),
    ("the output takes 40 bytes", lambda room: file_size_limit(room, "replay"), 6, UNWRITTEN, CUT),
    ("a file is not there", lambda room: run(room, words(two="none.csv")), 3, unread("none.csv"), NOTHING),
    ("a file is a folder", lambda room: run(room, words(two=".")), 3, unread("."), NOTHING),
    ("the objects are a folder", lambda room: run(room, words(objects=".")), 3, unread("."), NOTHING),
    ("the same, live", lambda room: run(room, words("live", objects=".")), 3, unread("."), NOTHING),
    ("a log is a FIFO", lambda room: fifo(room, (room / "one.csv").read_bytes()), 0, b"", WHOLE),
    ("a log is a FIFO without end", lambda room: fifo(room, b"a,1\n" * (17 * 2**20)), 4, b"topk: fifo.csv: the file is too long\n", NOTHING),
    ("a log is a device without end", lambda room: run(room, words(one="/dev/zero")), 4, b"topk: /dev/zero: the file is too long\n", NOTHING),
    ("a log grows while it is read", growing, 4, b"topk: growing.csv: the file is too long\n", NOTHING),
    ("no descriptor is left for a log", without_descriptors, 3, unread("one.csv"), NOTHING),
    ("none is left for a socket", lambda room: run(room, words("live"), preexec_fn=limit(4)), 8, UNLINKED, NOTHING),
    ("none is left for the second connection", lambda room: run(room, words("live"), preexec_fn=limit(9)), 8, UNLINKED, NOTHING),
    ("there is no loopback", without_loopback, 8, UNLINKED, NOTHING),
    ("a live run is terminated", lambda room: interrupted(room, signal.SIGTERM), -signal.SIGTERM, b"", FRONT),
    ("a live run is interrupted", lambda room: interrupted(room, signal.SIGINT), -signal.SIGINT, b"", FRONT),
)


def is_written(kind, out, whole):
    if kind == NOTHING:
        return not out
    if kind == WHOLE:
        return out == whole
    if kind == CUT:
        return whole.startswith(out) and out != whole
    return not out or out.endswith(b"\n")


def fault_of(ended, status, line, kind, whole):
    """What is wrong with a run, or None."""
    if ended[0] != status:
        return f"status {ended[0]}, not {status}; told {ended[2]!r}"
    if ended[2] != line:
        return f"told {ended[2]!r}, not {line!r}"
    if not is_written(kind, ended[1] or b"", whole):
        return f"wrote {ended[1]!r}, where {kind} should stand"
    return None


def main():
    global PROGRAM
    PROGRAM = pathlib.Path(sys.argv[1]).resolve() if len(sys.argv) > 1 else PROGRAM
    whole = (EXAMPLE / "expected.txt").read_bytes()
    faults = 0
    for name, case, status, line, kind in CASES:
        with tempfile.TemporaryDirectory() as room:
            room = pathlib.Path(room)
            for file in EXAMPLE.glob("*.csv"):
                shutil.copy(file, room)
            try:
                ended = case(room)
            except subprocess.TimeoutExpired:
                ended = (f"none within {SECONDS} s", b"", b"")
        if ended is None:
            print(f"left out: {name}")
            continue
        fault = fault_of(ended, status, line, kind, whole)
        print(f"{name}: {fault or 'status ' + str(status)}")
        faults += fault is not None
    print(f"failing devices: {'ok' if not faults else str(faults) + ' of ' + str(len(CASES)) + ' differ'}")
    return 1 if faults else 0


if __name__ == "__main__":
    sys.exit(main())

#!/usr/bin/env python3
"""Measures the trace of a run and its check beside the replay, or checks a small trace with each of its bytes changed.

    bench/traces/run.py [--times N] crates/topk/out/topk
    bench/traces/run.py --bytes crates/topk/out/topk

The first makes the workload `web` of bench/replay, replays it, writes its trace and checks that, and prints the least wall
seconds of N runs each (3 if not said), the processor seconds of that run and its greatest resident memory, and the length
of the trace. It sees that the check prints the sets of the replay and yes. It wants GNU time.

The second takes the trace of the example two_monitors. Each byte in turn is one more, has its top bit turned, or is 0, and
what comes of it is checked: it must be refused with status 11 and its line, or answered yes, and then it must be the trace
that the program writes of the settings, names and logs that stand in it. It prints how many of each there are in each part
of the grammar, and which are answered yes.
"""
import argparse
import collections
import csv
import os
import pathlib
import subprocess
import sys
import tempfile
import time

HERE = pathlib.Path(__file__).resolve().parent
sys.path.insert(0, str(HERE.parent / "replay"))
import workloads  # noqa: E402

TIME = "/usr/bin/time"
TRACE = HERE.parent.parent / "examples" / "checked" / "two_monitors.trace"
REFUSED = b"topk: run.trace: not a legal trace\n"
SETTINGS = (("k", 4), ("epsilon", 16), ("own weight", 4), ("objects", 4), ("monitors", 4))
SECONDS = 20


# ---- the workload

def measure(words, folder, output):
    """The wall seconds, processor seconds and megabytes of one run, whose output is written to a file of the folder."""
    told = folder / "told"
    with (folder / output).open("wb") as out:
        start = time.perf_counter()
        subprocess.run([TIME, "-o", told, "-f", "%U %S %M", *words], cwd=folder, stdout=out, check=True)
        wall = time.perf_counter() - start
    user, system, kilobytes = map(float, told.read_text().split())
    return wall, user + system, kilobytes / 1024


def is_answered(folder):
    """Whether the check told the sets of the replay, and yes."""
    lines = (folder / "text").read_text().splitlines(keepends=True)
    sets = [line for line in lines if line.startswith(("set ", "final "))]
    return (folder / "answer").read_text() == "".join(sets) + "yes\n"


def measure_workload(topk, times):
    work = workloads.web()
    with tempfile.TemporaryDirectory() as folder:
        folder = pathlib.Path(folder)
        words = work.write(folder)
        table = {"replay": ("text", words), "trace": ("run.trace", words), "check": ("answer", ["run.trace"])}
        best = {}
        for command, (output, rest) in [*table.items()] * times:
            one = measure([topk, command, *rest], folder, output)
            best[command] = min(best.get(command, one), one)
        if not is_answered(folder):
            sys.exit("the check does not tell the sets of the replay")
        length = (folder / "run.trace").stat().st_size
    print("| command | wall s | processor s | MB |\n|---|---|---|---|")
    for command, (wall, processor, megabytes) in best.items():
        print(f"| {command} | {wall:.2f} | {processor:.2f} | {megabytes:.0f} |")
    print(f"\nThe trace has {length:,} bytes, {length / work.updates:.1f} a change.")


# ---- reading a trace, which is whole

class Reader:
    """A trace, how far it is read, and where each field ends, with its part of the grammar and what it is."""

    def __init__(self, trace):
        self.trace, self.place, self.ends = trace, 0, []

    def take(self, size):
        self.place += size
        return self.trace[self.place - size:self.place]

    def number(self, size, signed=False):
        return int.from_bytes(self.take(size), "big", signed=signed)

    def end(self, part, field):
        self.ends.append((self.place, part, field))


def numbers(reader):
    """A set, or places."""
    return [reader.number(4) for _ in range(reader.number(4))]


def frame(reader):
    reader.take(reader.number(4))


def setting(reader, name, size):
    value = reader.number(size)
    reader.end("settings", name)
    return value


def name(reader, number):
    text = reader.take(reader.number(1)).decode()
    reader.end("names", f"the name of object {number}")
    return text


def log(reader, monitor):
    """The parts of a monitor, each a list of objects and changes."""
    parts = []
    for _ in range(reader.number(1)):
        parts.append([(reader.number(4), reader.number(16, signed=True)) for _ in range(reader.number(4))])
    reader.end("logs", f"the log of monitor {monitor}")
    return parts


def noted(reader, monitors):
    """An entry of the journal: got, sent, published or tuned."""
    kind = reader.number(1)
    if kind in (1, 2):
        reader.take(4)
        frame(reader)
    elif kind == 3:
        reader.take(29)
        for _ in range(monitors + 1):
            numbers(reader)
    else:
        reader.take(20)


def entry(reader):
    """An entry of a trail: raised, took or sent."""
    if reader.number(1) == 1:
        reader.take(1)
    else:
        frame(reader)


def histories(reader, monitors):
    for place in range(reader.number(8)):
        noted(reader, monitors)
        reader.end("journal", f"entry {place} of the journal")
    for monitor in range(1, monitors + 1):
        for place in range(reader.number(8)):
            entry(reader)
            reader.end("trails", f"entry {place} of the trail of monitor {monitor}")


def read(trace):
    """The settings, names and logs of a trace, and where each of its fields ends."""
    reader = Reader(trace)
    reader.take(8)
    reader.end("mark", "the mark")
    settings = {what: setting(reader, what, size) for what, size in SETTINGS}
    names = [name(reader, number) for number in range(1, settings["objects"] + 1)]
    logs = [log(reader, monitor) for monitor in range(1, settings["monitors"] + 1)]
    histories(reader, settings["monitors"])
    return settings, names, logs, reader.ends


# ---- each byte changed

def write_rows(file, rows):
    with file.open("w", newline="") as out:
        csv.writer(out, lineterminator="\n").writerows(rows)


def words_of(trace, folder):
    """Writes the names and logs of a trace into the folder, and gives the words of its run."""
    settings, names, logs, _ = read(trace)
    write_rows(folder / "objects.csv", [[text] for text in names])
    words = ["--objects", "objects.csv"]
    for option in ("k", "epsilon", "own weight"):
        words += ["--" + option.replace(" ", "-"), str(settings[option])]
    for monitor, parts in enumerate(logs, 1):
        for feeder, part in enumerate(parts, 1):
            file = f"{monitor}-{feeder}.csv"
            write_rows(folder / file, [(names[number - 1], change) for number, change in part])
            words.append(f"{monitor}={file}")
    return words


def is_yes(topk, folder, trace):
    """Whether a trace is answered yes. Any other ending than that or its refusal is an error."""
    (folder / "run.trace").write_bytes(trace)
    done = subprocess.run([topk, "check", "run.trace"], cwd=folder, capture_output=True, timeout=SECONDS)
    if (done.returncode, done.stdout, done.stderr) == (11, b"", REFUSED):
        return False
    if (done.returncode, done.stderr) == (0, b"") and done.stdout.endswith(b"\nyes\n"):
        return True
    sys.exit(f"a check ends in another way: status {done.returncode}, told {done.stderr!r}, wrote {done.stdout!r}")


def is_made_again(topk, folder, trace):
    """Whether the program writes this trace of the settings, names and logs that stand in it."""
    words = words_of(trace, folder)
    done = subprocess.run([topk, "trace", *words], cwd=folder, capture_output=True, timeout=SECONDS)
    return done.returncode == 0 and done.stdout == trace


def changes_of(trace):
    """The trace with each byte in turn changed, with the place of that."""
    for place, byte in enumerate(trace):
        for other in sorted({(byte + 1) % 256, byte ^ 0x80, 0} - {byte}):
            yield place, trace[:place] + bytes([other]) + trace[place + 1:]


def field_at(ends, place):
    """The part of the grammar and the field in which a byte stands; a count stands in front of what it counts."""
    return next((part, field) for end, part, field in ends if place < end)


def change_bytes(topk):
    trace = TRACE.read_bytes()
    ends = read(trace)[3]
    changed, answered = collections.Counter(), []
    with tempfile.TemporaryDirectory() as folder:
        folder = pathlib.Path(folder)
        for place, other in changes_of(trace):
            part, field = field_at(ends, place)
            changed[part] += 1
            if is_yes(topk, folder, other):
                if not is_made_again(topk, folder, other):
                    sys.exit(f"byte {place}, {field}: answered yes, and not the trace that the program writes of it")
                answered.append((part, f"byte {place}, {field}: {trace[place]} becomes {other[place]}"))
    tell(changed, answered)


def tell(changed, answered):
    yes = collections.Counter(part for part, _ in answered)
    print("| part | changes | refused | yes |\n|---|---|---|---|")
    for part, count in changed.items():
        print(f"| {part} | {count:,} | {count - yes[part]:,} | {yes[part]} |")
    print("\nAnswered yes, each the trace of another run, which the program writes too:")
    for _, change in answered:
        print(change)


def main():
    words = argparse.ArgumentParser(description=__doc__, formatter_class=argparse.RawDescriptionHelpFormatter)
    words.add_argument("--times", type=int, default=3)
    words.add_argument("--bytes", action="store_true")
    words.add_argument("topk")
    asked = words.parse_args()
    topk = os.path.abspath(asked.topk)
    if asked.bytes:
        change_bytes(topk)
    else:
        measure_workload(topk, asked.times)


if __name__ == "__main__":
    main()

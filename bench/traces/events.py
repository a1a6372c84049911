#!/usr/bin/env python3
"""Counts what happened in traces from their bytes alone, and compares it with the text that `show` prints of them.

    bench/traces/events.py crates/topk/out/topk [FILE..]

It takes the traces of the worked examples that are replays, which the program writes, or the given files. From the bytes it counts
the events of each kind (raises, frames taken by a monitor, frames sent by checks, frames taken by the coordinator, retunes), the
frames of each kind that a monitor or the coordinator took or sent in them, and the publications. A sent frame right behind a taken
Collect or Assign is its answer, and no check. From the text it counts the lines of each kind and the frames in their parts. Each
difference is told, and it ends with status 1 where there is one.
"""
import collections
import pathlib
import subprocess
import sys
import tempfile

import run

EXAMPLES = pathlib.Path(__file__).resolve().parent.parent.parent / "examples"
KINDS = {1: "hello", 2: "report", 3: "collect", 4: "values", 5: "assign", 6: "settled", 7: "stop"}
ANSWERED = ("collect", "assign")
SECONDS = 60


def frame(reader):
    """The kind of a frame, which is read."""
    return KINDS[reader.take(reader.number(4))[0]]


def journal_counts(reader, monitors, counts):
    for _ in range(reader.number(8)):
        kind = reader.number(1)
        if kind in (1, 2):
            reader.take(4)
            event = "up" if kind == 1 else "to"
            counts[event, frame(reader)] += 1
        elif kind == 3:
            reader.take(29)
            for _ in range(monitors + 1):
                run.numbers(reader)
            counts["published"] += 1
        else:
            reader.take(20)
            counts["retune"] += 1


def trail_counts(reader, counts):
    taken = None
    for _ in range(reader.number(8)):
        kind = reader.number(1)
        if kind == 1:
            reader.take(1)
            counts["raise"] += 1
            taken = None
        elif kind == 2:
            taken = frame(reader)
            counts["down", taken] += 1
        else:
            event = "answer" if taken in ANSWERED else "check"
            counts[event, frame(reader)] += 1
            taken = None


def in_bytes(trace):
    """The counts of a whole trace."""
    counts = collections.Counter()
    reader = run.Reader(trace)
    reader.take(8)
    settings = {what: run.setting(reader, what, size) for what, size in run.SETTINGS}
    for number in range(settings["objects"]):
        run.name(reader, number + 1)
    for monitor in range(settings["monitors"]):
        run.log(reader, monitor + 1)
    journal_counts(reader, settings["monitors"], counts)
    for _ in range(settings["monitors"]):
        trail_counts(reader, counts)
    return counts


def count_part(part, counts):
    """A part behind the first of a line: a frame to a monitor, a publication, an answer, or a word on the round."""
    words = part.split(" ")
    if words[0] == "to":
        counts["to", words[2]] += 1
    elif words[0] in ("set", "final"):
        counts["published"] += 1


def count_line(line, counts):
    first, *parts = line.split("; ")
    event = first.split(" ")[0]
    if event in ("raise", "retune"):
        counts[event] += 1
    elif event in ("check", "up", "down"):
        counts[event, first.split(": ", 1)[1].split(" ")[0]] += 1
    elif event != "start":
        sys.exit(f"no line of an event: {line}")
    if event == "down":
        counts.update(("answer", part.split(" ")[0]) for part in parts)
    else:
        for part in parts:
            count_part(part, counts)


def in_text(text):
    """The counts of a shown run, whose first line has its settings."""
    counts = collections.Counter()
    for line in text.splitlines()[1:]:
        count_line(line, counts)
    return counts


def shown(topk, file):
    return subprocess.run([topk, "show", file.name], cwd=file.parent, capture_output=True, text=True, check=True, timeout=SECONDS).stdout


def traces_of_examples(topk, room):
    """Writes the trace of each worked example that is a replay, and gives the files."""
    for folder in sorted(EXAMPLES.iterdir()):
        words = folder / "words"
        if not words.exists() or (folder / "status").exists() or words.read_text().split("\n")[0] != "replay":
            continue
        file = room / f"{folder.name}.trace"
        with file.open("wb") as out:
            rest = [word for word in words.read_text().split("\n")[1:] if word]
            subprocess.run([topk, "trace", *rest], cwd=folder, stdout=out, check=True, timeout=SECONDS)
        yield file


def differences(file, text):
    """What the bytes tell otherwise than the text."""
    ours, theirs = in_bytes(file.read_bytes()), in_text(text)
    for what in sorted(set(ours) | set(theirs), key=str):
        if ours[what] != theirs[what]:
            yield f"{file.stem}: {what}: {ours[what]} in the bytes, {theirs[what]} in the text"


def main():
    if len(sys.argv) < 2:
        sys.exit(__doc__)
    topk = pathlib.Path(sys.argv[1]).resolve()
    differ, total, count = [], collections.Counter(), 0
    with tempfile.TemporaryDirectory() as room:
        files = [pathlib.Path(file).resolve() for file in sys.argv[2:]] or traces_of_examples(topk, pathlib.Path(room))
        for file in files:
            differ += differences(file, shown(topk, file))
            total += in_bytes(file.read_bytes())
            count += 1
    for what in sorted(total, key=str):
        print(f"{' '.join(what) if isinstance(what, tuple) else what}: {total[what]}")
    print(f"{count} traces, {len(differ)} differences")
    if differ:
        sys.exit("\n".join(differ))


if __name__ == "__main__":
    main()

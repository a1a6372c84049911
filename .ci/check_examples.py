"""Checks each example's expected text against plain sums over its logs, and that the program, which must be built, prints
these texts.

It knows nothing of the protocol: a printed set is right where each member's total over the printed
prefixes, plus epsilon, is at least that of every object outside. An example with a status is refused with it, and its
fault stands in the file `fault`; of a run that is made from a seed the text alone is compared. What a live run prints
depends on how its threads meet, so it has no expected text: each set that it prints is checked by plain sums. The scripts are
tried by check_tools.py. The trace that is kept is made once more and compared, each replay
is run in pieces too, its trace is checked, what is no whole trace is refused, and so is each row of `refusals` and a word
that is no UTF-8; and each line is one write.
"""
import csv
import os
import pathlib
import re
import resource
import shutil
import signal
import socket
import subprocess
import sys
import tempfile

import check_tools

ROOT = pathlib.Path(__file__).resolve().parent.parent
PROGRAM = ROOT / "crates" / "topk" / "out" / "topk"
# The other ways in which the frames of a replay go.
WAYS = ("--piece 1", "--piece 1 --frames 2", "--piece 7 --frames 2", "--piece 4096", "--frames 2")
# A run, and its trace.
TRACED = ROOT / "examples" / "two_monitors"
TRACE = ROOT / "examples" / "checked" / "two_monitors.trace"
# What is refused: a status, the words, and the fault that is told.
REFUSALS = ROOT / "examples" / "refusals"


def words_in(folder):
    return [word for word in (folder / "words").read_text().split("\n") if word]


def words_of(folder):
    words = words_in(folder)
    options, logs = {}, {}
    place = 1
    while place < len(words):
        if words[place].startswith("--"):
            options[words[place][2:]] = words[place + 1]
            place += 2
        else:
            monitor, file = words[place].split("=", 1)
            logs.setdefault(int(monitor), []).append(file)
            place += 1
    return options, logs


def changes_of(path):
    with path.open(newline="") as file:
        return [(name, int(by)) for name, by in csv.reader(file)]


def ticks_of(path):
    """The changes of each tick of a log, which a record of the single field `tick` ends."""
    ticks = [[]]
    with path.open(newline="") as file:
        for row in csv.reader(file):
            if row == ["tick"]:
                ticks.append([])
            else:
                ticks[-1].append((row[0], int(row[1])))
    return ticks


def expanded(ticks, width):
    """Before the changes of a tick those that leave the window are taken back."""
    gone = [[]] * width + ticks
    return [change for leaving, coming in zip(gone, ticks)
            for change in [(name, -by) for name, by in leaving] + coming]


def window_at(ticks, tick, width):
    return [change for coming in ticks[max(0, tick - width):tick] for change in coming]


def totals_at(names, logs, cut):
    totals = dict.fromkeys(names, 0)
    for monitor, places in cut.items():
        for changes, place in zip(logs[monitor], places):
            for name, by in changes[:place]:
                totals[name] += by
    return totals


def cut_of(fields):
    cut = {}
    for field in fields:
        monitor, places = field.split(":")
        cut[int(monitor)] = [int(place) for place in places.split(",")]
    return cut


def asked(fields, options):
    """The k and epsilon of a line, which says them once they were retuned."""
    if "epsilon" in fields:
        return int(fields[3]), int(fields[5])
    return int(options["k"]), int(options["epsilon"])


def is_refused(folder):
    return (folder / "status").exists()


def command_of(folder):
    return words_in(folder)[0]


def check(folder):
    if is_refused(folder) or command_of(folder) not in ("replay", "window", "multi", "sessions", "check"):
        return None
    by_command = {"multi": check_queries, "check": check_trace}.get(command_of(folder), check_text)
    return by_command(folder, (folder / "expected.txt").read_text())


def is_right(names, totals, members, count, epsilon):
    least = min(totals[name] for name in members)
    greatest = max((totals[name] for name in names if name not in members), default=least)
    return len(set(members)) == count and least + epsilon >= greatest


def catalogue_of(folder, options):
    return [row[0] for row in csv.reader((folder / options["objects"]).open(newline=""))]


def check_text(folder, text):
    options, files = words_of(folder)
    names = catalogue_of(folder, options)
    width = int(options.get("width", 0))
    ticked = {m: [ticks_of(folder / file) for file in some] for m, some in files.items()} if width else {}
    logs = {m: [expanded(ticks, width) for ticks in some] for m, some in ticked.items()}
    if not width:
        logs = {m: [changes_of(folder / file) for file in some] for m, some in files.items()}
    return check_sets(folder.name, names, logs, options, text.splitlines(), ticked)


def check_queries(folder, text):
    """Each query is right over the changes of the objects that it watches, and the queries stand in order."""
    options, files = words_of(folder)
    names = catalogue_of(folder, options)
    logs = {m: [changes_of(folder / file) for file in some] for m, some in files.items()}
    queries = list(csv.reader((folder / options["queries"]).open(newline="")))
    parts = re.split("^query ", text, flags=re.MULTILINE)[1:]
    if [part.split("\n", 1)[0] for part in parts] != [query[0] for query in queries]:
        return f"{folder.name}: other queries"
    for (name, k, epsilon, prefix), part in zip(queries, parts):
        watched = [object for object in names if object.startswith(prefix)]
        own = {m: [[change for change in changes if change[0] in watched] for changes in some] for m, some in logs.items()}
        fault = check_sets(f"{folder.name}: {name}", watched, own, {"k": k, "epsilon": epsilon}, part.splitlines()[1:], {})
        if fault:
            return fault
    return None


def check_trace(folder, text):
    """The sets of the trace that is kept are right over the logs of its run, and yes stands behind them."""
    fault = check_text(TRACED, text) if text.endswith("\nyes\n") else "no yes behind the sets"
    return f"{folder.name}: {fault}" if fault else None


def check_sets(label, names, logs, options, lines, ticked):
    width = int(options.get("width", 0))
    final = None
    for line in lines:
        fields = line.split()
        if fields[0] == "ticks":
            # The set of the line before is right for plain sums over the windows at these ticks.
            windows = {m: [window_at(ticks, tick, width) for ticks, tick in zip(ticked[m], places)]
                       for m, places in cut_of(fields[1:]).items()}
            ends = {m: [len(changes) for changes in some] for m, some in windows.items()}
            if not is_right(names, totals_at(names, windows, ends), members, count, epsilon):
                return f"{label}: not within epsilon in the windows: {line}"
        if fields[0] not in ("set", "final"):
            continue
        count, epsilon = asked(fields, options)
        begin, middle = fields.index("cut") + 1, fields.index("members")
        cut, members = cut_of(fields[begin:middle]), fields[middle + 1:]
        if not is_right(names, totals_at(names, logs, cut), members, count, epsilon):
            return f"{label}: not within epsilon: {line}"
        final = cut if fields[0] == "final" else final
    ends = {m: [len(changes) for changes in some] for m, some in logs.items()}
    return None if final == ends else f"{label}: the final set is not over the whole logs"


def run(folder):
    done = subprocess.run([PROGRAM, *words_in(folder)], cwd=folder, capture_output=True, text=True, timeout=60)
    status = int((folder / "status").read_text()) if is_refused(folder) else 0
    fault = (folder / "fault").read_text() if is_refused(folder) else ""
    if done.returncode != status or done.stderr != fault:
        return f"{folder.name}: the program ends in another way, status {done.returncode}"
    if command_of(folder) == "live":
        return check_text(folder, done.stdout)
    if done.stdout != (folder / "expected.txt").read_text():
        return f"{folder.name}: the program prints another text"
    return None


def altered():
    """The altered trace is the one that is kept, with one other byte."""
    kept, other = TRACE.read_bytes(), (ROOT / "examples" / "altered_trace" / "altered.trace").read_bytes()
    differ = sum(a != b for a, b in zip(kept, other))
    return None if len(kept) == len(other) and differ == 1 else "altered_trace: not the trace with one other byte"


def traces():
    """The program makes the trace that is kept, however its frames go."""
    for folder in (TRACED, ROOT / "examples" / "in_pieces"):
        words = ["trace", *words_in(folder)[1:]]
        done = subprocess.run([PROGRAM, *words], cwd=folder, capture_output=True, timeout=60)
        if (done.returncode, done.stdout, done.stderr) != (0, TRACE.read_bytes(), b""):
            yield f"{folder.name}: the program makes another trace"


def replays_in_pieces(folders):
    """Each replay prints the same text in whatever pieces and version its frames go."""
    for folder in folders:
        words = words_in(folder)
        if is_refused(folder) or words[0] != "replay" or "--piece" in words:
            continue
        for way in WAYS:
            done = subprocess.run([PROGRAM, words[0], *way.split(), *words[1:]], cwd=folder, capture_output=True, text=True, timeout=60)
            if (done.returncode, done.stdout, done.stderr) != (0, (folder / "expected.txt").read_text(), ""):
                yield f"{folder.name}: with {way} the program prints another text"


def checked_replays(folders):
    """The trace of each replay is checked, and tells the sets that the replay prints."""
    with tempfile.TemporaryDirectory() as room:
        for folder in folders:
            if is_refused(folder) or command_of(folder) != "replay":
                continue
            file = pathlib.Path(room) / f"{folder.name}.trace"
            with file.open("wb") as out:
                subprocess.run([PROGRAM, "trace", *words_in(folder)[1:]], cwd=folder, stdout=out, timeout=60)
            done = subprocess.run([PROGRAM, "check", file.name], cwd=room, capture_output=True, text=True, timeout=60)
            lines = (folder / "expected.txt").read_text().splitlines(keepends=True)
            if done.stdout != "".join(line for line in lines if line.startswith(("set", "final"))) + "yes\n":
                yield f"{folder.name}: its trace is not checked, status {done.returncode}"


def unfinished(kept):
    """The kept trace without the last turn of its journal, once with its trails as they are, and once without Stop in them.

    Each part of both is legal. Of the first a monitor took Stop that nobody sent to it; the second tells a legal run that has not
    come to its end.
    """
    stop = b"\0\0\0\1\7"
    stops = b"\2\0\0\0\1" + stop + b"\2\0\0\0\2" + stop
    # That turn begins with a Settled of monitor 2; behind it stand the final publication and Stop to each monitor.
    end = kept.index(stops) + len(stops)
    begin = kept.rindex(b"\1\0\0\0\2\0\0\0\x12\6", 0, end)
    # The journal counts its entries in front of them: 16 there, 12 here. So does each trail, whose last entry is that it took Stop.
    journal = kept[:begin].replace((16).to_bytes(8, "big"), (12).to_bytes(8, "big"), 1)
    first, second = kept[end:].split(b"\2" + stop)[:2]
    trails = [(int.from_bytes(trail[:8], "big") - 1).to_bytes(8, "big") + trail[8:] for trail in (first, second)]
    return journal + kept[end:], journal + b"".join(trails)


def ends_of_checks():
    """A trace that is cut, has one byte more, or tells no run to its end is refused, and a file that is too long, each by its
    status and line."""
    kept = TRACE.read_bytes()
    cut = [kept[:length] for length in (0, 7, 8, 60, len(kept) // 2, len(kept) - 1)]
    rows = [(other, 11, "not a legal trace") for other in (*cut, kept + b"\0", *unfinished(kept))]
    rows.append((bytes(64 * 2**20 + 1), 4, "the file is too long"))
    with tempfile.TemporaryDirectory() as room:
        file = pathlib.Path(room) / "run.trace"
        for other, status, fault in rows:
            file.write_bytes(other)
            done = subprocess.run([PROGRAM, "check", file.name], cwd=room, capture_output=True, timeout=60)
            if (done.returncode, done.stdout, done.stderr) != (status, b"", f"topk: {file.name}: {fault}\n".encode()):
                yield f"a trace of {len(other)} bytes: the program ends in another way, status {done.returncode}"


def ends_of_output():
    """The program tells a full device, a reader that is gone, and a closed output, each by its status and line."""
    words = words_in(TRACED)
    read, write = os.pipe()
    os.close(read)
    with open("/dev/full", "wb") as full, open(write, "wb") as gone:
        ways = {"a full device": dict(stdout=full), "a reader that is gone": dict(stdout=gone),
                "a closed output": dict(preexec_fn=lambda: os.close(1))}
        for way, how in ways.items():
            done = subprocess.run([PROGRAM, *words], cwd=TRACED, stderr=subprocess.PIPE, timeout=60, **how)
            if done.returncode != 6 or done.stderr != b"topk: the output cannot be written\n":
                yield f"{way}: the program ends in another way, status {done.returncode}"


def writes_of(folder):
    """What the program writes, call by call: a socket that keeps the bounds of what is sent has each write as a message."""
    ours, theirs = socket.socketpair(socket.AF_UNIX, socket.SOCK_SEQPACKET)
    with ours:
        with theirs:
            theirs.setsockopt(socket.SOL_SOCKET, socket.SO_SNDBUF, 2**20)
            subprocess.run([PROGRAM, *words_in(folder)], cwd=folder, stdout=theirs, stderr=subprocess.PIPE, timeout=60)
        return list(iter(lambda: ours.recv(2**16), b""))


def written_by_lines(folders):
    """Each line is written by one call, and a set of a window together with its ticks, so that no reader meets half a line. Help is
    written by one call as a whole."""
    for folder in folders:
        writes = [] if is_refused(folder) or command_of(folder) == "help" else writes_of(folder)
        if writes != re.findall(rb"[^\n]*\n(?:ticks[^\n]*\n)?", b"".join(writes)):
            yield f"{folder.name}: not each line is written by one call"


def short_of_room(most):
    """What makes a file of a child's take no more than so many bytes."""
    def limit():
        signal.signal(signal.SIGXFSZ, signal.SIG_IGN)
        resource.setrlimit(resource.RLIMIT_FSIZE, (most, most))
    return limit


def ends_of_room():
    """Where the output takes so many bytes and no more, the run ends with status 6, and those bytes of its text are written."""
    text = (TRACED / "expected.txt").read_bytes()
    with tempfile.TemporaryDirectory() as room:
        file = pathlib.Path(room) / "text"
        for most in (0, 1, len(text.split(b"\n")[0]) + 3, len(text) - 1):
            with file.open("wb") as out:
                done = subprocess.run([PROGRAM, *words_in(TRACED)], cwd=TRACED, stdout=out, stderr=subprocess.PIPE,
                                      timeout=60, preexec_fn=short_of_room(most))
            if (done.returncode, file.read_bytes()) != (6, text[:most]):
                yield f"room for {most} bytes: the program ends in another way, status {done.returncode}"


def write_great_files(room):
    """A log of the most changes, one of one more, one that a window would make too long, one name too many, and a file that is
    too long."""
    (room / "most.csv").write_bytes(b"a,1\n" * 10**6)
    (room / "more.csv").write_bytes(b"a,1\n" * (10**6 + 1))
    (room / "ticks.csv").write_bytes(b"a,1\n" * (10**6 // 2 + 1) + b"tick\n" * 2)
    (room / "names.csv").write_bytes(b"".join(b"n%d\n" % number for number in range(2**16 + 1)))
    with (room / "long.csv").open("wb") as file:
        file.truncate(64 * 2**20 + 1)


def refusals():
    """Each row of refusals ends with its status and tells its fault, and a text is printed where there is none alone."""
    with tempfile.TemporaryDirectory() as folder:
        room = pathlib.Path(folder) / "files"
        shutil.copytree(REFUSALS, room)
        write_great_files(room)
        for status, words, fault in csv.reader((room / "rows.csv").open(newline="")):
            done = subprocess.run([PROGRAM, *words.split()], cwd=room, capture_output=True, text=True, timeout=60)
            told = f"topk: {fault}\n" if fault else ""
            if (done.returncode, done.stderr, done.stdout == "") != (int(status), told, fault != ""):
                yield f"{words}: the program ends in another way, status {done.returncode}: {done.stderr.strip()}"


def words_of_bytes():
    """A word that is no UTF-8 is not understood, wherever it stands."""
    for words in ([b"replay\xff"], [b"check", b"\xff.trace"], [b"replay", b"--k", b"1", b"--epsilon", b"0", b"--objects", b"\xc3", b"1=one.csv"]):
        done = subprocess.run([PROGRAM, *words], cwd=REFUSALS, capture_output=True, timeout=60)
        if (done.returncode, done.stdout, done.stderr) != (2, b"", b"topk: the words are not understood\n"):
            yield f"{words}: the program ends in another way, status {done.returncode}"


def main():
    folders = [words.parent for words in sorted((ROOT / "examples").glob("*/words"))]
    faults = [check(folder) for folder in folders]
    faults.append(altered())
    if PROGRAM.exists():
        faults += [run(folder) for folder in folders]
        faults += [*ends_of_output(), *ends_of_room(), *traces()]
        faults += [*replays_in_pieces(folders), *checked_replays(folders), *ends_of_checks(), *refusals(), *words_of_bytes()]
        faults += written_by_lines(folders)
    else:
        faults.append(f"{PROGRAM}: the program is not built, so that no example was run")
    faults += check_tools.tried()
    if (TRACED / "expected.txt").read_text() != (ROOT / "crates" / "topk" / "stdout").read_text():
        faults.append("crates/topk/stdout: not the expected text")
    faults = [fault for fault in faults if fault]
    print("\n".join(faults) or "examples: ok")
    return 1 if faults else 0


if __name__ == "__main__":
    sys.exit(main())

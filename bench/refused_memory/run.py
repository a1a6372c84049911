#!/usr/bin/env python3
"""Refuses each allocation of the program in turn, and looks at how it ends.

    bench/refused_memory/run.py [--every N] [--only NAME] [--jobs N]

For the examples below it asks how many allocations a run makes, and runs it again with the first, the second, .. refused.
Each run must end with status 7 or 0 within ten seconds, what it wrote must be a front of the whole text, and its
line, if there is one, must be that of want of memory. Of a live run, whose text and whose allocations depend on how its
threads meet, what it wrote must be whole lines. `in_memory` is a live run over links in memory, by a program of its own
(main.rt.in), which is proved and built first, over the crates of this repository; that program tells no line. With
--every N it tries each Nth allocation alone. It wants a C compiler and the program as `rt run` or the gate leaves it; it is
no part of the gate.
"""
import argparse
import concurrent.futures
import os
import pathlib
import shutil
import subprocess
import sys
import tempfile

HERE = pathlib.Path(__file__).resolve().parent
ROOT = HERE.parent.parent
PROGRAM = ROOT / "crates" / "topk" / "out" / "topk"
EXAMPLES = ("two_monitors", "ninth_report", "pages", "live_two_monitors")
GENERATED = "gen --seed 7 --monitors 4 --objects 64 --updates 2000 --k 5 --epsilon 200".split()
USED = "in_memory: tk_base tk_input tk_net tk_serve tk_run tk_live\n"
LINE = b"topk: out of memory\n"
STARTS = (b"set ", b"final ", b"frames ", b"rounds ", b"bytes ", b"monitor ")


def build(room):
    """The program that runs live over links in memory."""
    top = pathlib.Path(room, "top")
    shutil.copytree(ROOT / "crates", top / "crates", ignore=shutil.ignore_patterns("out"))
    shutil.copy(ROOT / "HANDLES", top)
    source = top / "crates" / "in_memory" / "src"
    source.mkdir(parents=True)
    shutil.copy(HERE / "main.rt.in", source / "main.rt")
    (top / "crates.txt").write_text((ROOT / "crates.txt").read_text() + USED)
    ended = subprocess.run(["rt", "run"], cwd=source.parent, capture_output=True, text=True, check=False)
    program = source.parent / "out" / "in_memory"
    # It is run without words, so its status is 2 where all is well.
    if not program.exists():
        sys.exit(f"in_memory was not built:\n{ended.stdout[-2000:]}{ended.stderr[-2000:]}")
    return program


def words_of(name):
    if name == "generated":
        return ROOT, GENERATED
    folder = ROOT / "examples" / ("live_two_monitors" if name == "in_memory" else name)
    return folder, [word for word in (folder / "words").read_text().split("\n") if word]


def run(program, name, shim, **more):
    folder, words = words_of(name)
    environment = {**os.environ, "LD_PRELOAD": str(shim), **more}
    return subprocess.run([program, *words], cwd=folder, env=environment, capture_output=True, timeout=10)


def is_of_lines(text):
    """Whether a text is whole lines of published sets and of a ledger."""
    lines = text.split(b"\n")
    return lines.pop() == b"" and all(line.startswith(STARTS) for line in lines)


def fault_of(name, done, whole):
    """What is wrong with a run, or None."""
    if done.returncode not in (0, 7):
        return f"status {done.returncode}"
    if words_of(name)[1][0] == "live":
        if done.returncode == 7 and not is_of_lines(done.stdout):
            return "another text"
    elif not whole.startswith(done.stdout) or (done.returncode == 0 and done.stdout != whole):
        return "another text"
    if done.stderr not in ((b"",) if done.returncode == 0 else (b"", LINE)):
        return f"another line: {done.stderr!r}"
    return None


def ended(program, name, shim, number, whole):
    """How a run ends whose allocation of this number is refused, and what is wrong with that."""
    try:
        done = run(program, name, shim, REFUSE=str(number))
    except subprocess.TimeoutExpired:
        return None, f"{name}: hangs where allocation {number} is refused"
    fault = fault_of(name, done, whole)
    return done.returncode, fault and f"{name}: {fault} where allocation {number} is refused"


def try_all(program, name, shim, count, every, jobs):
    whole = run(program, name, shim, COUNT=str(count))
    if whole.returncode:
        return [f"{name}: status {whole.returncode} with all memory"]
    asked = int(count.read_text())
    with concurrent.futures.ThreadPoolExecutor(jobs) as pool:
        numbers = range(1, asked + 1, every)
        ends = list(pool.map(lambda number: ended(program, name, shim, number, whole.stdout), numbers))
    refused, done = (sum(status == wanted for status, _ in ends) for wanted in (7, 0))
    print(f"{name}: {asked} allocations; {refused} runs ended with status 7, {done} were done all the same", flush=True)
    return [fault for _, fault in ends if fault]


def main():
    parser = argparse.ArgumentParser(description=__doc__, formatter_class=argparse.RawDescriptionHelpFormatter)
    parser.add_argument("--every", type=int, default=1, metavar="N")
    parser.add_argument("--only", metavar="NAME")
    parser.add_argument("--jobs", type=int, default=os.cpu_count(), metavar="N")
    asked = parser.parse_args()
    names = [name for name in (*EXAMPLES, "generated", "in_memory") if asked.only in (None, name)]
    faults = []
    with tempfile.TemporaryDirectory() as room:
        shim = pathlib.Path(room, "refuse.so")
        subprocess.run(["cc", "-O2", "-shared", "-fPIC", "-o", shim, HERE / "refuse.c"], check=True)
        for name in names:
            program = build(room) if name == "in_memory" else PROGRAM
            faults += try_all(program, name, shim, pathlib.Path(room, "count"), asked.every, asked.jobs)
    print("\n".join(faults) or "refused memory: ok")
    return 1 if faults else 0


if __name__ == "__main__":
    sys.exit(main())

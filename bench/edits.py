#!/usr/bin/env python3
"""Tries the edits of edits/, which the prover must refuse, outside the gate.

    bench/edits.py [--anew] [NAME..]    all crates, or these
    bench/edits.py --table              writes the table of edits/README.md from what was tried

A crate at a time it works on a copy of the repository without tests and without the gate's own edits, and takes what `rt check`
and `rt lib` kept in this one, so begin with a checkout whose crates are built. A crate's first edit costs a check of that crate.

Each edit gets a line of edits/tried.txt: its name, a digest of it and of its crate's text, what came of it, and the goal that stayed
open. What has a line with the digest of today is not tried again, but with --anew. It ends with status 1 where one was not refused.
"""
import collections
import glob
import hashlib
import os
import re
import shutil
import subprocess
import sys
import tempfile

TOP = os.path.dirname(os.path.dirname(os.path.abspath(__file__)))
TRIED = f"{TOP}/edits/tried.txt"
TABLE = f"{TOP}/edits/README.md"
SAID = re.compile(r"rt: must-fail (\S+)\.edit: (refused, as it must be|NOT REFUSED|BAD EDIT)(.*)")
# A note has the goal's name in brackets at its end, an error of a proof in front of what it says.
GOAL = re.compile(r"note: (\S+?):\d+:\d+: .*?\(`([\w-]+)|(?:\./)?(\S+?):\d+:\d+: [^`]*`([\w-]+)")


def crates():
    return sorted(name for name in os.listdir(f"{TOP}/edits") if os.path.isdir(f"{TOP}/edits/{name}"))


def edits_of(name):
    return sorted(file[:-len(".edit")] for file in os.listdir(f"{TOP}/edits/{name}"))


def digest(name, edit):
    """What tells whether an edit or the text of its crate has changed since it was tried."""
    seen = hashlib.sha256()
    parts = [file for part in ("src", "specs", "proofs") for file in glob.glob(f"{TOP}/crates/{name}/{part}/**", recursive=True)]
    for file in [f"{TOP}/edits/{name}/{edit}.edit", *sorted(parts)]:
        if os.path.isfile(file):
            with open(file, "rb") as text:
                seen.update(text.read())
    return seen.hexdigest()[:12]


def tried_before():
    """The lines of edits/tried.txt, by the edit's name."""
    if not os.path.isfile(TRIED):
        return {}
    with open(TRIED, encoding="utf-8") as lines:
        return {line.split()[0]: line.rstrip("\n") for line in lines}


def keep(lines):
    with open(TRIED, "w", encoding="utf-8") as kept:
        kept.writelines(f"{lines[edit]}\n" for edit in sorted(lines))


def result(said, rest):
    """What came of an edit, in a word, and the goal that stayed open, with its file."""
    if said != "refused, as it must be":
        return "proved" if said == "NOT REFUSED" else "bad"
    goal = GOAL.match(rest.lstrip(": "))
    if "only because a proof file names" in rest or not goal:
        return "refused a name in a proof"
    return f"refused {goal[1] or goal[3]} {goal[2] or goal[4]}"


def copied(room):
    """Copies what a check reads, and what earlier checks kept."""
    left_out = shutil.ignore_patterns("must-fail", "*_tests")
    shutil.copytree(f"{TOP}/crates", f"{room}/crates", ignore=left_out)
    shutil.copy(f"{TOP}/HANDLES", room)
    with open(f"{TOP}/crates.txt") as lines, open(f"{room}/crates.txt", "w") as kept:
        kept.writelines(line for line in lines if "_tests:" not in line)
    subprocess.run(["git", "init", "-q", room], check=True)


def tried(room, name, edits):
    """Tries edits of one crate, and gives the line of each that the prover reached."""
    os.mkdir(f"{room}/crates/{name}/must-fail")
    for edit in edits:
        shutil.copy(f"{TOP}/edits/{name}/{edit}.edit", f"{room}/crates/{name}/must-fail")
    ran = subprocess.run(["rt", "must-fail", name], cwd=room, stdout=subprocess.PIPE, stderr=subprocess.STDOUT, text=True, check=False)
    for edit, said, rest in SAID.findall(ran.stdout):
        yield edit, f"{edit} {digest(*edit.split('/'))} {result(said, rest)}"


def try_crates(names, anew):
    lines = tried_before()
    with tempfile.TemporaryDirectory(prefix="edits-") as room:
        copied(room)
        for name in names:
            left = [edit for edit in edits_of(name)
                    if anew or lines.get(f"{name}/{edit}", "").split()[1:2] != [digest(name, edit)]]
            for edit, line in tried(room, name, left) if left else ():
                lines[edit] = line
                print(line, flush=True)
            keep({edit: line for edit, line in lines.items() if os.path.isfile(f"{TOP}/edits/{edit}.edit")})


def came(names):
    """How often each end came, by crate."""
    lines = tried_before()
    for name in names:
        ends = [lines.get(f"{name}/{edit}", "").split() for edit in edits_of(name)]
        yield name, collections.Counter(line[2] if len(line) > 2 else "untried" for line in ends)


def write_table():
    """Writes the table behind the line of edits/README.md that begins one."""
    rows, sums = [], collections.Counter()
    for root in sorted(glob.glob(f"{TOP}/crates/*/src/lib.rt")):
        name = root.split("/")[-3]
        gate = len(glob.glob(f"{TOP}/crates/{name}/must-fail/*.edit"))
        ends = dict(came([name]))[name] if name in crates() else collections.Counter()
        if gate or ends:
            cells = collections.Counter({"gate": gate, "here": sum(ends.values()), **ends})
            sums += cells
            rows.append((name, cells))
    rows.append(("all", sums))
    with open(TABLE, encoding="utf-8") as text:
        head = text.read().split("| crate |")[0]
    with open(TABLE, "w", encoding="utf-8") as text:
        text.write(head + "| crate | in the gate | here | refused | proved |\n|---|---|---|---|---|\n")
        for name, cells in rows:
            text.write(f"| {name} | {cells['gate']} | {cells['here']} | {cells['refused']} | {cells['proved']} |\n")


def main():
    words = sys.argv[1:]
    if words == ["--table"]:
        write_table()
        return 0
    names = [word for word in words if word != "--anew"] or crates()
    try_crates(names, "--anew" in words)
    ends = sum((ends for _, ends in came(names)), collections.Counter())
    print(f"edits of {len(names)} crates: {', '.join(f'{count} {end}' for end, count in sorted(ends.items()))}")
    return 0 if set(ends) <= {"refused"} else 1


if __name__ == "__main__":
    sys.exit(main())

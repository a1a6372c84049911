#!/usr/bin/env python3
"""Looks whether each edit that the prover must refuse can still be made: its files are there, and each old text stands once.

    .ci/check_edits.py      looks at edits/ and at crates/*/must-fail, in a second

Whether the prover refuses them is tried by the gate, for must-fail/, and by bench/edits.py, for edits/. Each of edits/ has a line
in edits/tried.txt that says so, perhaps of an earlier text.
"""
import glob
import os
import sys

TOP = os.path.dirname(os.path.dirname(os.path.abspath(__file__)))


def fault(edit, crate):
    """Why the edit cannot be made in the crate, or None."""
    texts, path, old, pairs = {}, None, None, 0
    with open(edit, encoding="utf-8") as lines:
        for line in lines.read().split("\n"):
            word, _, rest = line.partition(": ")
            if word == "file":
                path = rest.strip()
            elif word == "old":
                old = rest
            elif line.startswith("new:"):
                if path is None or not old:
                    return "a 'new:' line without 'file:' and 'old:' before it"
                if path not in texts:
                    if not path.startswith("src/") or not os.path.isfile(f"{crate}/{path}"):
                        return f"there is no {path}"
                    with open(f"{crate}/{path}", encoding="utf-8") as text:
                        texts[path] = text.read()
                count = texts[path].count(old)
                if count != 1:
                    return f"an old text stands {count} times in {path}"
                texts[path] = texts[path].replace(old, rest if word == "new" else "")
                old, pairs = None, pairs + 1
    return None if pairs else "it changes nothing"


def refused():
    """The edits of edits/ that were tried and refused, each by its crate and name."""
    with open(f"{TOP}/edits/tried.txt", encoding="utf-8") as lines:
        return {line.split()[0] for line in lines if line.split()[2:3] == ["refused"]}


def main():
    found, told = {}, refused()
    for edit in sorted(glob.glob(f"{TOP}/edits/*/*") + glob.glob(f"{TOP}/crates/*/must-fail/*")):
        folder = os.path.dirname(edit)
        name = os.path.basename(os.path.dirname(folder) if folder.endswith("/must-fail") else folder)
        crate = f"{TOP}/crates/{name}"
        if not edit.endswith(".edit"):
            found[edit] = "its name does not end in .edit"
        elif not os.path.isdir(crate):
            found[edit] = f"there is no crate {name}"
        elif folder == f"{TOP}/edits/{name}" and f"{name}/{os.path.basename(edit)[:-5]}" not in told:
            found[edit] = "edits/tried.txt does not say that it was refused"
        else:
            found[edit] = fault(edit, crate)
    bad = {edit: why for edit, why in found.items() if why}
    for edit, why in bad.items():
        print(f"edits: {os.path.relpath(edit, TOP)}: {why}")
    print(f"edits: {len(found)} can be made" if not bad else f"edits: {len(bad)} of {len(found)} must be looked at")
    return 1 if bad else 0


if __name__ == "__main__":
    sys.exit(main())

"""Holds the documents to their sizes and sentence lengths, runs their command blocks, and looks for the files that they name.

A word is what stands between spaces and holds a letter or a digit. All of a file counts, tables and blocks too; of the
manual the names of its requests do not.

A sentence ends with a full stop, a question or exclamation mark, with a paragraph or an item of a list. Headings, blocks
of code and the bold words at the head of a paragraph are no sentences, and what stands in backquotes is one word. The cell
of a table is prose where it has eight words or more, and then it counts as a paragraph.

Each block of the README runs in a shell at the root, each of the manual's examples in the folder `examples/..` named in
front of it, with the program's folder on the PATH. What stands in the block directly behind it is what it must print. Any
program serves, `unproved.sh` makes one; without one this fails.
"""
import os
import pathlib
import re
import statistics
import subprocess
import sys

ROOT = pathlib.Path(__file__).resolve().parent.parent
PROGRAM = ROOT / "crates" / "topk" / "out" / "topk"
MANUAL = ROOT / "docs" / "topk.1"
# The most words of some documents together, the greatest median of their sentences, and the most words of nine in ten.
LIMITS = ((("README.md",), 1750, 18, 35), (("docs/*",), 18900, 22, 45), (("bench/README.md",), 2000, 22, 45))
# Commands that build or prove for minutes or hours.
NOT_RUN = ("./unproved.sh", "(cd crates/topk && rt run", "RT_JOBS=4 .ci/run")
PATH_NAMED = re.compile(r"(?<![\w/])(?:\.ci|bench|crates|docs|edits|examples)/[\w./-]*\w")


def words_in(text):
    return sum(1 for word in text.split() if re.search(r"\w", word))


def plain_manual(text):
    """The manual as paragraphs: its requests gone, its blocks indented, its tags and synopsis left out."""
    lines, is_block, is_tag, section = [], False, False, ""
    for line in text.splitlines():
        request, _, rest = line.partition(" ") if line.startswith(".") else ("", "", line)
        rest = re.sub(r"\\f.|\\&|\\(?=[-.|])|\"", "", rest).replace(".|.|.", "..")
        if request == ".SH":
            section = rest
        if request in (".nf", ".fi"):
            is_block = request == ".nf"
        if request in (".SH", ".TH", ".TP", ".PP", ".br", ".nf", ".fi", ".RS", ".RE"):
            is_tag = request == ".TP"
            lines.append("")
        elif is_tag:
            is_tag = False
            lines += ["# " + rest, ""]
        elif section != "SYNOPSIS":
            lines.append("    " * is_block + rest)
    return "\n".join(lines)


def text_of(file):
    return plain_manual(file.read_text()) if file == MANUAL else file.read_text()


def paragraphs(text):
    """The paragraphs, items and prose cells of a text, each in one line."""
    text = re.sub(r"^```.*?^```$|<!--.*?-->", "", text, flags=re.M | re.S)
    for part in re.split(r"\n\s*\n", text):
        lines = part.strip("\n").split("\n")
        if lines[0].startswith("|"):
            for cell in (cell for line in lines[2:] for cell in line.strip("|").split("|")):
                yield from [cell] * (words_in(re.sub(r"`[^`]*`", "x", cell)) >= 8)
        elif not lines[0].startswith(("    ", "#")):
            yield from re.split(r"\n(?=\s*(?:[-*]|\d+\.) )", part)


def sentences(text):
    for paragraph in paragraphs(text):
        line = re.sub(r"^\s*(?:[-*]|\d+\.) |^#.*$", "", " ".join(paragraph.split()))
        line = re.sub(r"`[^`]*`", "x", re.sub(r"^\*\*[^*]*\*\*\.?", "", line))
        line = re.sub(r"\b([A-Z])\. (?=[A-Z])", r"\1 ", line)
        for sentence in re.split(r"(?<=[^.][.!?])[)*\"]*\s+", line):
            if words_in(sentence) > 1:
                yield sentence


def sizes():
    for patterns, most, median, nine_in_ten in LIMITS:
        files = sorted(file for pattern in patterns for file in ROOT.glob(pattern))
        label = ", ".join(patterns)
        texts = [text_of(file) for file in files]
        count = sum(words_in(re.sub(r"^\.[A-Z]+", "", file.read_text(), flags=re.M)) for file in files)
        lengths = sorted(words_in(sentence) for text in texts for sentence in sentences(text))
        middle, long = statistics.median(lengths), lengths[(9 * len(lengths) + 9) // 10 - 1]
        print(f"{label}: {count} words of {most}; sentences {middle:g} of {median}, nine in ten {long} of {nine_in_ten}")
        if count > most or middle > median or long > nine_in_ten:
            yield f"{label}: past a limit"


def readme_blocks():
    """Each block of commands with its folder and the text that it must print, if one stands behind it."""
    parts = re.split(r"^```\n", (ROOT / "README.md").read_text(), flags=re.M)
    for part, fenced in zip(parts[::2], parts[1::2] + [None]):
        for found in re.finditer(r"^(?:    .*\n)+", part, re.M):
            wanted = None if part[found.end():].strip() else fenced
            yield ROOT, [line[4:] for line in found[0].splitlines()], wanted


def manual_blocks():
    examples = MANUAL.read_text().split(".SH EXAMPLES\n")[1].split("\n.SH ")[0]
    parts = re.split(r"^\.nf\n(?:\.RS\n)?(.*?)(?:\.RE\n)?^\.fi$", re.sub(r"\\-", "-", examples), flags=re.M | re.S)
    folder, waits = None, []
    for before, block in zip(parts[::2], parts[1::2]):
        named = re.findall(r"examples/(\w+)", before)
        if named:
            waits.append([ROOT / "examples" / named[-1], block.rstrip("\n").split("\n"), None])
        else:
            waits[-1][2] = block
    return waits


def run_blocks():
    room = {**os.environ, "PATH": f"{PROGRAM.parent}:{os.environ['PATH']}"}
    for folder, block, wanted in [*readme_blocks(), *manual_blocks()]:
        commands = [line for line in block if not line.startswith(NOT_RUN)]
        done = subprocess.run(["bash", "-euc", "\n".join(commands)], cwd=folder, env=room, capture_output=True, text=True, timeout=60)
        if done.returncode or done.stderr or wanted is not None and done.stdout != wanted:
            yield f"a block ends with status {done.returncode}, or prints another text: {commands[-1]}\n{done.stderr}{done.stdout}"


def lost_files():
    for file in [ROOT / "README.md", ROOT / "bench" / "README.md", *sorted((ROOT / "docs").iterdir())]:
        for name in sorted(set(PATH_NAMED.findall(re.sub(r"\\-", "-", file.read_text())))):
            if "*" not in name and not (ROOT / name).exists():
                yield f"{file.relative_to(ROOT)}: there is no {name}"


def main():
    faults = [*sizes(), *lost_files()]
    faults += run_blocks() if PROGRAM.exists() else [f"{PROGRAM}: the program is not built, so no block was run"]
    print("\n".join(faults) or "documents: ok")
    return 1 if faults else 0


if __name__ == "__main__":
    sys.exit(main())

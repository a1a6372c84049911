"""Tries the scripts of the examples and install.sh, for check_examples.py, with mawk and gawk where these are there.

What hot.awk and counts.awk say of all examples stands in examples/tools, an example behind its name; one picture stands
beside its run. Called by itself this writes these three files anew, for a reader to judge what differs. Over a run of 20,000
updates, which is made here from a seed, both scripts are compared with plain sums.
"""
import pathlib
import random
import re
import shutil
import subprocess
import sys
import tempfile
import xml.etree.ElementTree as xml

ROOT = pathlib.Path(__file__).resolve().parent.parent
PROGRAM = ROOT / "crates" / "topk" / "out" / "topk"
EXAMPLES = ROOT / "examples"
TOOLS = EXAMPLES / "tools"
# What is kept of all examples: the script that prints it, and the commands whose texts it reads.
KEPT = {"hot.txt": ("hot.awk", ("replay", "window", "multi", "sessions", "check")),
        "counts.txt": ("counts.awk", ("replay", "window", "sessions"))}
# The picture that is kept.
PICTURE = EXAMPLES / "pages" / "hot.svg"
AWKS = [awk for awk in ("mawk", "gawk") if shutil.which(awk)] or [awk for awk in ("awk",) if shutil.which(awk)]
# Examples whose logs a script made: the folder of the script and of what it read, its options, and the names of that.
SOURCES = (("access_log", "access_log", (), "*.log"), ("access_log_window", "access_log", ("-v", "ticks=60"), "*.log"),
           ("flow_records", "flow_records", (), "*.flows"), ("cache_keys", "cache_keys", ("-v", "ticks=10"), "node*.txt"))
# The run that is made: its options, its monitors, and its updates.
OPTIONS = ("--k", "10", "--epsilon", "50", "--objects", "objects.csv")
MONITORS, OBJECTS, UPDATES = 4, 100, 20000


def told_by(awk, script, words, text, folder):
    """What a script prints of a text, and its status."""
    done = subprocess.run([awk, "-f", TOOLS / script, *words], cwd=folder, input=text, capture_output=True, text=True, timeout=60)
    return done.stdout, done.returncode


def words_in(folder):
    return [word for word in (folder / "words").read_text().split("\n") if word]


def with_sets(commands):
    """The examples of some commands with the texts that have sets."""
    for words in sorted(EXAMPLES.glob("*/words")):
        text = words.parent / "expected.txt"
        if words_in(words.parent)[0] in commands and text.exists() and re.search("^final", text.read_text(), re.M):
            yield words.parent, text.read_text()


def told_of_all(awk, kept):
    """What a script prints of each example that it serves, and its status."""
    script, commands = KEPT[kept]
    for folder, text in with_sets(commands):
        yield folder, *told_by(awk, script, words_in(folder) if script == "counts.awk" else (), text, folder)


def text_of_all(awk, kept):
    return "".join(f"== {folder.name}\n{out}" for folder, out, _ in told_of_all(awk, kept))


def as_kept(awk):
    """Each script ends with status 0 over each example, and prints what is kept."""
    for kept in KEPT:
        for folder, _, status in told_of_all(awk, kept):
            # The numbers of this one are past those of awk.
            if status != (2 if (kept, folder.name) == ("counts.txt", "at_the_limit") else 0):
                yield f"{folder.name}: {awk} ends with status {status} where {kept} is made"
        if text_of_all(awk, kept) != (TOOLS / kept).read_text():
            yield f"examples/tools/{kept}: {awk} prints another text; python3 .ci/check_tools.py writes it anew"


def picture_of(awk, folder):
    return told_by(awk, "hot_svg.awk", (), (folder / "expected.txt").read_text(), folder)[0]


def pictured(awk):
    for folder, _ in with_sets(KEPT["hot.txt"][1]):
        if not xml.fromstring(picture_of(awk, folder)).tag.endswith("svg"):
            yield f"{folder.name}: {awk} makes no picture"
    if picture_of(awk, PICTURE.parent) != PICTURE.read_text():
        yield f"{PICTURE.name}: {awk} makes another picture; python3 .ci/check_tools.py writes it anew"


def ends_of_drawing(awk):
    """A text without a set is refused, a strip has so many sets, and a picture may have any name."""
    text = "set 1 cut 1:0 members a&b<c>\nset 2 cut 1:1 members \"'\nfinal 3 cut 1:2 members \"'\n"
    strips = "sets 1 to 2, a column each: # a member, . not\na&b<c> #.\n\"'     .#\nsets 3 to 3, a column each: # a member, . not\n\"'     #\n"
    if told_by(awk, "hot.awk", ("-v", "most=2"), text, TOOLS) != (strips, 0):
        yield f"hot.awk: {awk} draws other strips"
    named = [label.text for label in xml.fromstring(told_by(awk, "hot_svg.awk", (), text, TOOLS)[0]).iter() if label.text]
    if not {"a&b<c>", "\"'"} <= set(named):
        yield f"hot_svg.awk: {awk} draws other names"
    for script in ("hot.awk", "hot_svg.awk"):
        if told_by(awk, script, (), "", TOOLS) != ("", 1):
            yield f"{script}: {awk} draws a text without a set"


def judged(awk):
    """Sets that are wrong are told, each with its reason."""
    folder = EXAMPLES / "past_epsilon"
    words, text = words_in(folder), (folder / "expected.txt").read_text()
    rows = [("members b", "members a", "final 2: not within epsilon 2"), ("members b", "members a b", "final 2: 2 members, not 1"),
            ("2:1", "2:2", "final 2: log 2:1 ends at 1")]
    for right, wrong, why in rows:
        out, status = told_by(awk, "counts.awk", words, text.replace(right, wrong), folder)
        if status != 1 or not out.endswith(f"WRONG: {why}\n"):
            yield f"counts.awk: {awk} does not tell: {why}"
    folder = EXAMPLES / "restarted"
    retuned = "session 1\nset 1 k 2 epsilon 7 cut 1:0 2:0 members a b\nsession 2\nset 1 cut 1:0 2:1 members a\n"
    if not told_by(awk, "counts.awk", words_in(folder), retuned, folder)[0].endswith("WRONG: set 1: not within epsilon 0\n"):
        yield f"counts.awk: {awk} judges a session by the settings of the one before"


def ends_of_judging(awk):
    """Where nothing can be judged the status says so."""
    folder = EXAMPLES / "past_epsilon"
    words, text = words_in(folder), (folder / "expected.txt").read_text()
    for other, row in ([*words[:-1], "2=none.csv"], text), (words, ""), (words, text.replace("1:0 2:0 members a", "1:0 2:0 members c")):
        out, status = told_by(awk, "counts.awk", other, row, folder)
        if status != 2 or "final" in out:
            yield f"counts.awk: {awk} ends with status {status} where nothing can be judged"


def make_run(room):
    """A run whose hot objects change: updates of a few objects, of which one is left and one is new every 500 updates."""
    pick = random.Random(59)
    names = [f"o{number}" for number in range(1, OBJECTS + 1)]
    logs = {monitor: [] for monitor in range(1, MONITORS + 1)}
    for update in range(UPDATES):
        name = names[min(update // 500 + pick.randrange(20), pick.randrange(OBJECTS))]
        logs[pick.randrange(MONITORS) + 1].append((name, pick.randrange(-20, 80)))
    (room / "objects.csv").write_text("".join(f"{name}\n" for name in names))
    for monitor, log in logs.items():
        (room / f"{monitor}.csv").write_text("".join(f"{name},{by}\n" for name, by in log))
    return names, logs


def sets_in(text):
    for line in re.findall("^(?:set|final) .*", text, re.M):
        head, members = line.split(" members ")
        yield head, {int(m): int(place) for m, place in re.findall(r"(\d+):(\d+)", head)}, members.split()


def counts_of(names, logs, text):
    """What counts.awk should print of a run without feeders."""
    lines = []
    for head, cut, members in sets_in(text):
        totals = dict.fromkeys(names, 0)
        for monitor, place in cut.items():
            for name, by in logs[monitor][:place]:
                totals[name] += by
        best = max((name for name in names if name not in members), key=totals.get)
        lines += [" ".join(head.split()[:2]), *(f"  {totals[name]} {name}" for name in sorted(members, key=lambda name: -totals[name]))]
        lines.append(f"  {totals[best]} {best} (outside)")
    return "\n".join(lines) + "\n"


def drawing_of(text):
    sets = [members for _, _, members in sets_in(text)]
    names = list(dict.fromkeys(name for members in sets for name in members))
    rows = [name.ljust(max(map(len, names))) + " " + "".join("#" if name in members else "." for members in sets) for name in names]
    return "\n".join([f"sets 1 to {len(sets)}, a column each: # a member, . not", *rows]) + "\n"


def generated():
    with tempfile.TemporaryDirectory() as folder:
        room = pathlib.Path(folder)
        names, logs = make_run(room)
        words = ["replay", *OPTIONS, *(f"{monitor}={monitor}.csv" for monitor in logs)]
        text = subprocess.run([PROGRAM, *words], cwd=room, capture_output=True, text=True, check=True, timeout=60).stdout
        wanted = {"counts.awk": counts_of(names, logs, text), "hot.awk": drawing_of(text)}
        given = {"counts.awk": words, "hot.awk": ("-v", "most=0")}
        for awk in AWKS:
            for script, out in wanted.items():
                if told_by(awk, script, given[script], text, room) != (out, 0):
                    yield f"{script}: {awk} tells the generated run in another way"


def made_again(awk, folder, options, script, logs):
    """Compares the catalogue and the change logs of an example with what a script makes of the field's logs."""
    with tempfile.TemporaryDirectory() as room:
        done = subprocess.run([awk, *options, "-f", script, *logs], cwd=room, capture_output=True, text=True, timeout=60)
        made = {file.name: file.read_bytes() for file in pathlib.Path(room).iterdir()}
    kept = {file.name: file.read_bytes() for file in folder.glob("*.csv")}
    if made != kept or done.returncode or done.stderr:
        yield f"{folder.name}: with {awk} its script makes other logs"


def fields_logs(awk):
    """The logs of the examples whose input came from elsewhere, and those of a server without a line among others."""
    for name, source, options, pattern in SOURCES:
        folder = EXAMPLES / source
        yield from made_again(awk, EXAMPLES / name, options, folder / "to_logs.awk", sorted(folder.glob(pattern)))
        with tempfile.TemporaryDirectory() as room:
            logs = ["/dev/null", sorted(folder.glob(pattern))[1], "/dev/null"]
            subprocess.run([awk, *options, "-f", folder / "to_logs.awk", *logs], cwd=room, check=True, timeout=60)
            lines = [(pathlib.Path(room) / f"{number}.csv").read_text().splitlines() for number in (1, 2, 3)]
        ticks = [line for line in lines[1] if line == "tick"]
        if len(lines[1]) == len(ticks) or lines[0] != ticks or lines[2] != ticks:
            yield f"{name}: with {awk} its script loses a server without lines"


def installed():
    """The program and the manual come under the prefix, and run there without an environment; one that is not built is told."""
    with tempfile.TemporaryDirectory() as folder:
        room = pathlib.Path(folder)
        done = subprocess.run([ROOT / "install.sh", room / "a prefix"], capture_output=True, text=True, timeout=60)
        program, manual = room / "a prefix" / "bin" / "topk", room / "a prefix" / "share" / "man" / "man1" / "topk.1"
        if done.returncode or done.stderr or not done.stdout.endswith(" or later, and no other library\n"):
            yield f"install.sh: ends with status {done.returncode}: {done.stdout}{done.stderr}"
            return
        two = EXAMPLES / "two_monitors"
        text = subprocess.run([program, *words_in(two)], cwd=two, env={}, capture_output=True, text=True, timeout=60).stdout
        if manual.read_bytes() != (ROOT / "docs" / "topk.1").read_bytes() or text != (two / "expected.txt").read_text():
            yield "install.sh: puts other files in place"
        shutil.copy(ROOT / "install.sh", room)
        done = subprocess.run([room / "install.sh", room / "none"], capture_output=True, text=True, timeout=60)
        told = "install: there is no crates/topk/out/topk: build it first, as README.md says\n"
        if (done.returncode, done.stdout, done.stderr, (room / "none").exists()) != (1, "", told, False):
            yield "install.sh: does not tell that the program is not built"


def live_runs(awk):
    """The sets of a live run are judged too, and drawn."""
    folder = EXAMPLES / "live_pages"
    text = subprocess.run([PROGRAM, *words_in(folder)], cwd=folder, capture_output=True, text=True, timeout=60).stdout
    if told_by(awk, "counts.awk", words_in(folder), text, folder)[1] or told_by(awk, "hot.awk", (), text, folder)[1]:
        yield f"live_pages: {awk} does not tell its sets"


def leeways_of(text):
    done = subprocess.run([sys.executable, TOOLS / "leeways.py"], input=text, capture_output=True, text=True, timeout=60)
    return done.stdout, done.returncode


def leeways():
    """The leeways of a round that docs/protocol.md reckons, a factor that is not dealt so, and no text."""
    text, right = (EXAMPLES / "show_two_monitors" / "expected.txt").read_text(), "event 12, up 1: leeways a 0 b -2\n"
    rows = [(text, (right, 0)), ("", ("", 2)),
            (text.replace("factors a 0 b 4", "factors a 0 b 5", 1), (right + "WRONG: monitor 1 gets b 5, not 4\n", 1))]
    for given, wanted in rows:
        if leeways_of(given) != wanted:
            yield f"leeways.py: tells {leeways_of(given)}, not {wanted}"


def dealt():
    """What each replay among the examples deals is what its leeways give."""
    for folder, _ in with_sets(("replay",)):
        with tempfile.NamedTemporaryFile() as trace:
            subprocess.run([PROGRAM, "trace", *words_in(folder)[1:]], cwd=folder, stdout=trace, check=True, timeout=60)
            shown = subprocess.run([PROGRAM, "show", trace.name], capture_output=True, text=True, check=True, timeout=60)
        if leeways_of(shown.stdout)[1]:
            yield f"{folder.name}: its factors are not dealt as leeways.py says"


def tried():
    yield from leeways()
    for awk in AWKS:
        yield from [*as_kept(awk), *pictured(awk), *ends_of_drawing(awk), *judged(awk), *ends_of_judging(awk), *fields_logs(awk)]
        yield from live_runs(awk) if PROGRAM.exists() else ()
    if PROGRAM.exists():
        yield from [*generated(), *dealt(), *(installed() if AWKS else ())]


def main():
    for kept in KEPT:
        (TOOLS / kept).write_text(text_of_all(AWKS[0], kept))
    PICTURE.write_text(picture_of(AWKS[0], PICTURE.parent))


if __name__ == "__main__":
    main()

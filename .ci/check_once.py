#!/usr/bin/env python3
"""Looks whether what could stand once stands in two crates: a lemma's statement, a definition, or the body of a function.

    .ci/check_once.py      looks at proofs/, specs/ and src/ of all crates, in two seconds

Names that a text binds or gives itself count for nothing, so a copy is found under another name. A name that is imported counts with
the module that it comes from. Statements of up to 30 characters, those that only name a goal, and bodies of fewer than four lines pass;
so do definitions and bodies in crates of tests, and bodies that name different types or variants. What may stand twice is listed below, with its reason.
"""
import collections
import glob
import os
import re
import sys

TOP = os.path.dirname(os.path.dirname(os.path.abspath(__file__)))

# What may stand in two crates: the names that one such group has, and why.
EXCEPTIONS = {
    "number number_bytes": "a number of a trace, and one of a greeting, into which no proof of theirs looks",
    "factor_of kept_at level_at node_at": "a factor and a level, what is kept and a node of a tree: each looked up in a list",
    "lent_name name_in text_in": "bytes that are lent: a name, the name of a file, a word",
    "HasRisen": "a count of the faults of files, and one of what a wire took",
    "no_frame no_payload": "no crate below tk_hub and tk_port knows both the ends and the odd bytes of a story",
    "len": "lists of pairs and of changes, each with forms of its own",
    "row_of": "parts of one monitor, and logs with ticks of one monitor",
    "IsSteady halted": "a hub and a port, neither below the other",
    "ledger_behind ledger_lines session_text session_title": "tk_host, tk_live and tk_run, none below another",
    "publications_line push_kind push_names push_place push_places push_count session_line "
    "strip_return number_after next_number far_none or_left none_of whole_number_of put_line bytes_in "
    "none_left none_back": "lines of sets, of orders, of streams and of ticks: short, and private below",
}

LEMMA = re.compile(r"(?:pub |abbrev |unfoldable )*([a-z][^\s:]*) : (.*)")
DEFINITION = re.compile(r"(?:pub |abbrev |unfoldable |record |data )*([^\s:({]+)")
IMPORT = re.compile(r"^(?:pub )?use (\S+)\.\{([^}]*)\}", re.M)
MODULE = re.compile(r"^use (\S+) as (\S+)", re.M)
FIELD = re.compile(r"^  (?:pub )?(\w+) :", re.M)
FUNCTION = re.compile(r"^( *)(?:pub(?:\([^)]*\))? )?(?:const )?fn (\w+)")
WORD = re.compile(r"(?<=[\w)])\.\w[\w'◌-]*|[\w◌⊥⊤][\w'◌-]*|\S")
BINDERS = re.compile(r"[({]([a-z_][\w' ]*) :|λ ([^.]*)\.|^[^\s(]+ ([^=:→]*) =(?: |$)", re.M)
BOUND = re.compile(r"[a-z_][\w']*$")
KEPT = set("if then else let in match for while return mut self record where elim case as true false pos suc zero None Some".split())


def crate(path):
    return os.path.relpath(path, f"{TOP}/crates").split(os.sep)[0]


def texts(pattern):
    for path in sorted(glob.glob(f"{TOP}/crates/*/{pattern}", recursive=True)):
        with open(path, encoding="utf-8") as text:
            yield path, text.read()


def module(path):
    return "Rattle." + os.path.relpath(path, f"{TOP}/crates")[:-5].replace(os.sep, ".")


def known(path, text):
    """Where each name comes from that a file imports from our crates or declares; those of the library keep their name."""
    names = {}
    for found in re.finditer(r"^(?:pub |abbrev |unfoldable |record |data )*([\w◌][^\s:({]*)", text, re.M):
        names.setdefault(found[1], f"{module(path)}.{found[1]}")
    for place, listed in IMPORT.findall(text):
        for name in listed.split(","):
            old, _, new = name.strip().partition(" as ")
            names[new or old] = f"{place}.{old}" if ".tk_" in place else old
    for place, name in MODULE.findall(text):
        names[name] = place
    return names


def plain(text, names, own, calls=False):
    """The words of a text, with what it binds and its own name under numbers; of code, calls and fields keep their names."""
    seen, words, bound = {own: "own"}, [], set()
    for front in BINDERS.findall(text):
        bound.update(word for word in "".join(front).split() if BOUND.match(word) and word not in KEPT)
    all_words = WORD.findall(re.sub(r"\b(?:pub|abbrev) |--.*", "", text))
    for word, follows in zip(all_words, all_words[1:] + [""]):
        if word in seen:
            words.append(seen[word])
        elif word in names and word not in bound or word in KEPT or not BOUND.match(word) or calls and follows == "(":
            words.append(names.get(word, word))
        else:
            words.append(seen.setdefault(word, f"v{len(seen)}"))
    return " ".join(words)


def items(text, head):
    """Each item that begins with such a line, with its lines up to the next."""
    lines, at = text.split("\n"), 0
    while at < len(lines):
        found = head.match(lines[at])
        start, at = at, at + 1
        if found and not lines[start].startswith(("use ", "pub use ", "pub mod ", "mod ", "--", "infix")):
            while at < len(lines) and lines[at].strip() and (lines[at][0] in " ])}" or lines[at].split()[0] in ("unfolding", found[1])):
                at += 1
            yield found[1], start + 1, lines[start:at]


def statements():
    for path, text in texts("proofs/**/*.antt"):
        names = known(path, text)
        for name, line, lines in items(text, LEMMA):
            said = LEMMA.match(lines[0])[2]
            for more in lines[1:]:
                if not more.startswith(" "):
                    break
                said += " " + more.strip()
            if len(said) > 30 and not said.startswith("goal."):
                yield plain(said, names, name), path, line, name


def definitions():
    for path, text in texts("specs/*.antt"):
        if crate(path).endswith("_tests"):
            continue
        names = known(path, text)
        for name, line, lines in items(text, DEFINITION):
            fields = {field: field for field in FIELD.findall("\n".join(lines))} if "record " in lines[0] else {}
            yield plain("\n".join(lines), {k: v for k, v in {**names, **fields}.items() if k != name}, name), path, line, name


def bodies():
    for path, text in texts("src/**/*.rt"):
        lines, at = text.split("\n"), 0
        while at < len(lines) and not crate(path).endswith("_tests"):
            found = FUNCTION.match(lines[at])
            at += 1
            if found:
                line = at
                while at < len(lines) and lines[at] != found[1] + "{" and lines[at] != found[1] + "}" and not lines[at - 1].endswith(" {"):
                    at += 1
                end = next((k for k in range(at, len(lines)) if lines[k] == found[1] + "}"), at)
                body = [x for x in lines[at + 1:end] if x.strip() and not x.strip().startswith("//")]
                if len(body) >= 4:
                    yield plain("\n".join(body), {}, "Self", calls=True), path, line, found[2]
                at = end


def main():
    allowed = [set(names.split()) for names in EXCEPTIONS]
    twice = count = 0
    for kind, found in (("statement", statements()), ("definition", definitions()), ("body", bodies())):
        groups = collections.defaultdict(list)
        for text, path, line, name in found:
            groups[text].append((path, line, name))
            count += 1
        for group in groups.values():
            names = {name for _, _, name in group}
            if len({crate(path) for path, _, _ in group}) > 1 and not any(names <= some for some in allowed):
                twice += 1
                print(f"once: one {kind}:", ", ".join(f"{os.path.relpath(path, TOP)}:{line} {name}" for path, line, name in group))
    print(f"once: {twice} stand twice" if twice else f"once: ok, {count} looked at")
    return 1 if twice else 0


if __name__ == "__main__":
    sys.exit(main())

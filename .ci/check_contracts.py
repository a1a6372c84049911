"""Compares the table of docs/contracts.md with the code: calls, clauses, and edits.

A public call is a function that a crate's root names in a `pub use`, or a method of a type or trait that it names; it
belongs into the table where its contract has an ensures. Crates of tests and the program have none. A row names calls,
what they promise, clauses and edits. Behind `Type::call` a name without a type is a call of the same type, if that has one
so named, and else a function. A name in the third cell is a clause of one of the row's calls, and each clause with a name
stands in a row of its call, or, where it repeats one of a trait, of the trait's. Each edit that a row names is in the
crate's must-fail/ or under its name in edits/, and each of must-fail/ stands in a row; those of edits/ need not.
"""
import pathlib
import re
import sys

ROOT = pathlib.Path(__file__).resolve().parent.parent
TABLE = ROOT / "docs" / "contracts.md"
# Comments, strings and characters, in which a brace counts for nothing.
PLAIN = re.compile(r"//[^\n]*|b?\"(?:\\.|[^\"\\])*\"|b?'(?:\\.|[^'\\])'")
BLOCK = re.compile(r"^(?:pub )?(?:impl\b|trait\b)[^{;]*\{", re.M)
FUNCTION = re.compile(r"\b(pub\s+)?(?:const\s+)?fn\s+(\w+)")
CLAUSE = re.compile(r"\b(ensures|requires|decreases)\b\s*(\w*)\s*\{?$")


def masked(text):
    return PLAIN.sub(lambda found: " " * len(found[0]), text)


def end_of(text, at, begin="{", end="}"):
    """The place of the bracket that closes the one at this place."""
    depth = 0
    for place in range(at, len(text)):
        depth += (text[place] == begin) - (text[place] == end)
        if text[place] == end and not depth:
            return place
    return len(text)


def without_parameters(head):
    """What follows the `<..>` of an impl."""
    if not head.startswith("<"):
        return head
    depth = 0
    for place, letter in enumerate(head):
        depth += (letter == "<") - (letter == ">" and head[place - 1] != "-")
        if not depth:
            return head[place + 1:]
    return ""


def owners(text):
    """Where the body of each impl and trait stands, whether it is of a trait, and the type or trait."""
    for found in BLOCK.finditer(text):
        head = re.sub(r"^pub\s+", "", found[0][:-1].strip())
        word, rest = re.match(r"(impl|trait)\b\s*(.*)", head, re.S).groups()
        rest = without_parameters(rest).strip() if word == "impl" else rest
        is_open = word == "trait" or re.search(r"\bfor\b", rest) is not None
        named = re.search(r"(\w+)\s*(?:<|$|:|where|\n)", re.split(r"\bfor\b", rest)[-1].strip() + "\n")
        yield found.end(), end_of(text, found.end() - 1), is_open, named[1] if named else ""


def clauses_of(text, at):
    """The names of the ensures of the function whose name ends here; one without a name is `-`."""
    place = end_of(text, text.index("(", at), "(", ")") + 1
    names = []
    while place < len(text):
        begin = place
        while place < len(text) and text[place] not in "{;":
            place += 1
        clause = CLAUSE.search(text[begin:place].rstrip())
        if place == len(text) or text[place] == ";" or not clause:
            return names
        if clause[1] == "ensures":
            names.append(clause[2] or "-")
        place = end_of(text, place) + 1
    return names


def exported(root):
    names = set()
    for path in re.findall(r"^pub use ([^;]+);", masked(root.read_text()), re.M):
        inner = path.split("{")[1].rstrip("} \n").split(",") if "{" in path else [path.split("::")[-1]]
        names |= {name.split(" as ")[-1].strip() for name in inner}
    return names - {""}


def calls_of(crate):
    """The public calls of a crate with clauses, each with the clauses' names."""
    names = exported(crate / "src" / "lib.rt")
    calls = {}
    for file in sorted((crate / "src").rglob("*.rt")):
        text = masked(file.read_text())
        blocks = list(owners(text))
        for found in FUNCTION.finditer(text):
            inside = [block for block in blocks if block[0] <= found.start() < block[1]]
            owner = inside[0][3] if inside else found[2]
            if owner not in names or not (found[1] or inside and inside[0][2]):
                continue
            clauses = clauses_of(text, found.end())
            if clauses:
                key = f"{owner}::{found[2]}" if inside else found[2]
                calls.setdefault(key, set()).update(clauses)
    return calls


def rows_of(text):
    """The crate, the calls, the clauses and the edits of each row."""
    crate = None
    for line in text.splitlines():
        if line.startswith("### "):
            crate = line[4:].strip()
        cells = line.strip().strip("|").split("|") if line.startswith("| `") else []
        if cells and len(cells) != 4:
            yield crate, line, None, None
        elif cells:
            yield crate, *(re.findall(r"`([^`]+)`", cells[place]) for place in (0, 2, 3))


def named(calls, names):
    """The keys of a row's calls."""
    owner = None
    for name in names:
        if "::" in name:
            owner = name.split("::")[0]
        elif owner and f"{owner}::{name}" in calls:
            name = f"{owner}::{name}"
        yield name


def edits_of_the_gate():
    """The edits that the gate tries, each by its crate and name."""
    return {(file.parent.parent.name, file.stem) for file in ROOT.glob("crates/*/must-fail/*.edit")}


def edits_beside_the_gate():
    """The edits that bench/edits.py tries, each by its crate and name."""
    return {(file.parent.name, file.stem) for file in ROOT.glob("edits/*/*.edit")}


def untold(key, clauses, told):
    """That a call is not in the table, or a clause of it is not, there or in a row of a call of the same name."""
    if key not in told:
        yield f"{key} is not in the table ({', '.join(sorted(clauses))})"
        return
    alike = [names for other, names in told.items() if other.split("::")[-1] == key.split("::")[-1]]
    for name in sorted(clauses - {"-"} - set().union(*alike)):
        yield f"{key}: the table does not tell the clause {name}"


def faults():
    crates = [root.parent.parent for root in sorted(ROOT.glob("crates/*/src/lib.rt"))]
    code = {crate.name: calls_of(crate) for crate in crates if not crate.name.endswith("_tests")}
    told = {crate: {} for crate in code}
    tried = set()
    for crate, calls, clauses, refused in rows_of(TABLE.read_text()):
        if clauses is None:
            yield f"{crate}: a row has not four cells: {calls[:60]}"
            continue
        keys = list(named(code.get(crate, {}), calls))
        for key in keys:
            if key not in code.get(crate, {}):
                yield f"{crate}: there is no public call {key} with clauses"
            told.setdefault(crate, {}).setdefault(key, set()).update(clauses)
        there = set().union(*(code.get(crate, {}).get(key, set()) for key in keys))
        for name in clauses:
            if name not in there:
                yield f"{crate}: {', '.join(calls)}: there is no clause {name}"
        tried |= {(crate, name) for name in refused}
    for crate, calls in code.items():
        for key in sorted(calls):
            yield from (f"{crate}: {fault}" for fault in untold(key, calls[key], told[crate]))
    in_gate = edits_of_the_gate()
    yield from (f"{crate}: there is no edit {name}" for crate, name in sorted(tried - in_gate - edits_beside_the_gate()))
    yield from (f"{crate}: the table does not tell the edit {name}" for crate, name in sorted(in_gate - tried))


def main():
    found = [f"docs/contracts.md: {fault}" for fault in faults()]
    print("\n".join(found) or "contracts: ok")
    return 1 if found else 0


if __name__ == "__main__":
    sys.exit(main())

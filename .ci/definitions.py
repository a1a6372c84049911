"""Makes the table of docs/definitions.md, and compares it with what stands there; with --write it writes it.

The table has each relation and record of a specs/ folder that an ensures of a public call of these crates cites, and what
they stand on most, with the comment above it. The crates are those that say what a finished run is and what the program's
calls promise. Every other definition has its line in the file that a contract's imports name.
"""
import re
import sys

sys.dont_write_bytecode = True
import check_contracts as code  # noqa: E402

CRATES = ("tk_verify", "tk_run", "tk_live", "tk_process")
STOOD_ON = [("tk_input", "Logs", "IsValid"), ("tk_input", "Logs", "total"), ("tk_load", "Input", "input_of"), ("tk_run", "Ends", "HasRun"),
            ("tk_run", "Ends", "Ends"), ("tk_live", "Lived", "HasLived"), ("tk_live", "Lived", "Concludes"),
            ("tk_live", "Lived", "Leaves"), ("tk_story", "Story", "IsStory"), ("tk_story", "Links", "IsOrderedLink"), ("tk_story", "Moments", "IsMoment"),
            ("tk_story", "Moments", "IsQuiet"), ("tk_story", "Moments", "IsPublishedValid"), ("tk_story", "Moments", "IsOver"),
            ("tk_story", "Ends", "KeptEnds"), ("tk_trail", "Legal", "IsLegal"), ("tk_journal", "Legal", "IsLegal")]
PAGE = code.ROOT / "docs" / "definitions.md"
BEGIN, END = "<!-- made by .ci/definitions.py --write -->\n", "<!-- end -->\n"
DEFINITION = re.compile(r"^(?:(?:abbrev|unfoldable) +pub|pub (?:abbrev|unfoldable|record|data)) +([A-Za-z_]\w*)")
USE = re.compile(r"^ghost use Rattle\.(tk_\w+)\.specs\.([\w.]+)\.\{([^}]*)\};", re.M)


def defined_in(crate, file):
    """The definitions of a file of specs/, each with the comment above it."""
    lines = (code.ROOT / "crates" / crate / "specs" / f"{file.replace('.', '/')}.antt").read_text().splitlines()
    for place, line in enumerate(lines):
        found = DEFINITION.match(line)
        if found:
            begin = place
            while begin and lines[begin - 1].startswith("--"):
                begin -= 1
            yield found[1], " ".join(each[2:].strip() for each in lines[begin:place])


def ensured(text, at):
    """The text of all ensures of the function whose name ends here."""
    place = code.end_of(text, text.index("(", at), "(", ")") + 1
    told = ""
    while place < len(text):
        begin = place
        while place < len(text) and text[place] not in "{;":
            place += 1
        clause = code.CLAUSE.search(text[begin:place].rstrip())
        if place == len(text) or text[place] == ";" or not clause:
            return told
        end = code.end_of(text, place)
        told += text[place:end] if clause[1] == "ensures" else ""
        place = end + 1
    return told


def cited(crate):
    """The crate, file and name of each definition that an ensures of a public call cites."""
    root = code.ROOT / "crates" / crate / "src"
    names = code.exported(root / "lib.rt")
    for file in sorted(root.rglob("*.rt")):
        text = code.masked(file.read_text())
        uses = {name.strip(): (owner, path) for owner, path, some in USE.findall(text) for name in some.split(",")}
        blocks = list(code.owners(text))
        for found in code.FUNCTION.finditer(text):
            inside = [block for block in blocks if block[0] <= found.start() < block[1]]
            if (inside[0][3] if inside else found[2]) in names and found[1]:
                for word in re.findall(r"[A-Za-z_]\w*", ensured(text, found.end())):
                    if word in uses and ".declared." not in f".{uses[word][1]}.":
                        yield (*uses[word], word)


def rows():
    # A function is read where it stands; a relation or a record is what a reader looks up.
    relations = {each for crate in CRATES for each in cited(crate) if each[2][0].isupper()}
    for crate, file, name in sorted(relations | set(STOOD_ON)):
        line = dict(defined_in(crate, file)).get(name)
        # One that says "the same" of other arguments means nothing away from its file.
        if line and not line.startswith("the same "):
            yield f"| `{name}` | {crate}/{file} | {line} |\n"


def main():
    table = BEGIN + "| definition | file | in words |\n|---|---|---|\n" + "".join(rows()) + END
    text = PAGE.read_text()
    before, rest = text.split(BEGIN)
    made = before + table + rest.split(END, 1)[1]
    if "--write" in sys.argv:
        PAGE.write_text(made)
    elif made != text:
        print("docs/definitions.md: the table is not that of the code: run .ci/definitions.py --write")
        return 1
    print("definitions: ok")
    return 0


if __name__ == "__main__":
    sys.exit(main())

#!/usr/bin/env python3
"""documents.py: what README.md and docs/ say of the crates is there: files, crates and their layers, public functions, must-fail edits; and the version.

The notes are history and are not looked at. What FORMAT.md says of the rules is tested by format.py.
"""
import re
import sys

from cases import ROOT

CRATES = ROOT / "crates"
PATH = re.compile(r"`(?:crates/)?(?:(?P<crate>\w+)/)?(?P<folder>specs|src|proofs)/(?P<file>[\w/]+\.(?:antt|rt))`|`(?P<more>\w+\.antt)`")
ROW = re.compile(r"[| ]*`(\w+)` \|")
# An impl, of a trait or of a type's own, and a function; those of a trait's impl are public without saying so.
ITEM = re.compile(r'^(?:impl (.* for )?(\w+)|\s*(pub )?(?:extern "C" )?fn (\w+))')
# What the crates of each part of README's map may stand on, besides their own part.
MAY = {
    "What must be believed": [],
    "What is computed": ["What must be believed", "Laws"],
    "Laws": ["What must be believed", "What is computed"],
    "Programs": ["What must be believed", "What is computed", "Laws"],
}
ALWAYS = {"laws"}  # the general laws


def absent_files(name):
    """The files that a document names and that aren't there; a bare name is of the folder named before it, in its paragraph or table row. In a folder F they are
    those of any function."""
    for paragraph in re.split(r"\n\n|\n\|", (ROOT / name).read_text()):
        row = ROW.match(paragraph)
        crate, folder = row[1] if row else None, None
        for found in PATH.finditer(paragraph):
            crate, folder = found["crate"] or crate, found["folder"] or folder
            file = found["file"] or found["more"]
            if folder and not file.startswith("F/") and not (CRATES / str(crate) / folder / file).is_file():
                yield f"{name}: no file {crate}/{folder}/{file}"


def stands_on():
    """The crates, each with those that its text names."""
    lines = [line.split("#")[0].split(":") for line in (ROOT / "crates.txt").read_text().splitlines()]
    return {line[0].split()[0]: line[1].split() for line in lines if len(line) == 2}


def layers():
    """The parts of README's map, each with its crates."""
    text = (ROOT / "README.md").read_text().split("## Map of the crates")[1].split("\n## ")[0]
    parts = re.split(r"^\*\*(.*?)\*\*", text, flags=re.MULTILINE)[1:]
    return {part: re.findall(r"^\| `(\w+)` \|", body, re.MULTILINE) for part, body in zip(parts[::2], parts[1::2])}


def misplaced():
    """Crates that the map leaves out, has twice, or has above what they stand on."""
    edges, map_ = stands_on(), layers()
    if set(map_) != set(MAY):
        yield f"README.md: the map has the parts {sorted(map_)}"
        return
    listed = [crate for crates in map_.values() for crate in crates]
    for crate in sorted(set(edges) ^ set(listed)):
        yield f"README.md: crate {crate} is not both in the map and in crates.txt"
    for crate in sorted({crate for crate in listed if listed.count(crate) > 1}):
        yield f"README.md: crate {crate} is twice in the map"
    part = {crate: name for name, crates in map_.items() for crate in crates}
    for crate in set(edges) & set(part):
        for below in set(edges[crate]) - ALWAYS:
            if part.get(below) not in [part.get(crate)] + MAY[part[crate]]:
                yield f"crates.txt: {crate} ({part[crate]}) stands on {below} ({part.get(below)})"


def public_functions():
    """crate::name, or crate::Type::name, of each function that other crates can call."""
    for file in sorted(CRATES.glob("*/src/*.rt")):
        kind, trait = "", None
        for line in file.read_text().splitlines():
            found = ITEM.match(line)
            if found and found[2]:
                kind, trait = found[2] + "::", found[1]
            elif found and file.name == "lib.rt" and (found[3] or line.startswith(" ") and trait):
                yield f"{file.parts[-3]}::{kind if line.startswith(' ') else ''}{found[4]}"


def spread(cell, mark):
    """The names of a table's cell; one without a prefix has that of the name before it."""
    prefix = ""
    for name in re.findall(r"`([\w:/]+)`", cell):
        parts = name.rsplit(mark, 1)
        prefix = parts[0] + mark if len(parts) == 2 else prefix
        yield prefix + parts[-1]


def rows_of(table):
    """The rows of a table, cut into cells."""
    return [line.split("|") for line in table.splitlines() if line.startswith("| `")]


def unpromised():
    """Public functions and must-fail edits that PROMISES.md leaves out, or has and aren't there. Its second table is of theorems, which have edits too."""
    functions, theorems = map(rows_of, (ROOT / "docs" / "PROMISES.md").read_text().split("\n| theorem |"))
    told = {name for row in functions for name in spread(row[1], "::")}
    edits = {name for row in functions + theorems for name in spread(re.sub(r"\(.*?\)", "", row[4]), "/")}
    there = {f"{file.parts[-3]}/{file.stem}" for file in CRATES.glob("*/must-fail/*.edit")}
    for what, named, held in (("function", told, set(public_functions())), ("edit", edits, there)):
        for name in sorted(named ^ held):
            yield f"docs/PROMISES.md: {what} {name} is {'not there' if name in named else 'left out'}"


def misnumbered():
    """A version that isn't that of the newest note."""
    newest = max(int(file.name.split("-")[0]) for file in (ROOT / "docs" / "notes").glob("*.md"))
    if (ROOT / "VERSION").read_text() != f"0.{newest}\n":
        yield f"VERSION: the newest note is {newest}"


def main():
    documents = ["README.md"] + sorted(f"docs/{file.name}" for file in (ROOT / "docs").glob("*.md"))
    wrong = [text for name in documents for text in absent_files(name)] + list(misplaced()) + list(unpromised()) + list(misnumbered())
    for text in wrong:
        print(f"documents: {text}")
    crates, functions = len(stands_on()), len(set(public_functions()))
    print(f"documents: {len(documents)} documents, {crates} crates, {functions} public functions; {len(wrong)} wrong")
    sys.exit(1 if wrong or not crates or not functions else 0)


if __name__ == "__main__":
    main()

"""Brings the repository's own definitions and lemmas to Rattle's spelling: words in snake case, types and modules in camel case.

Run once at the top, after the kit's port.py: `python3 tools/names.py`. `--list` only prints each name with its new one.

A name is ours where a file of specs/ or proofs/ declares it: a signature, a field, a constructor, a local of a `where`. The names of goals in the proof of a function
are Rattle's and stay. A dash becomes an underscore too. Of two names that would fall together the lemma gets `_lem`.
"""
import pathlib
import re
import sys

ROOT = pathlib.Path(__file__).resolve().parent.parent
TOKEN = re.compile(r"(?<![A-Za-z0-9_'₀-₉-])([A-Za-z][A-Za-z0-9_'₀-₉]*(?:-[A-Za-z0-9_'₀-₉]+)*)")
SIGNATURE = re.compile(r"^\s*(?:(?:pub|abbrev|unfoldable|pattern|data|record)\s+)*([A-Za-z][A-Za-z0-9_'₀-₉-]*)\s*(?:\{[^}]*\}|\([^)]*\)|\s)*:(?!=)", re.M)
CODE = re.compile(r"`[^`\n]*`")
# lemmas whose names port.py had turned already, and that would now be those of definitions
LEMMAS = {name: name + "_lem" for name in ("place_at", "way_in", "way_back", "sum_then", "is_never")}


def files(*patterns):
    return [path for pattern in patterns for path in sorted(ROOT.glob(pattern)) if "/out/" not in str(path)]


def snake(name):
    """The name in snake case; a type or a module, which begins with a capital, stays."""
    if name[0].isupper():
        return name
    return re.sub(r"([A-Z])", lambda m: "_" + m.group(1).lower(), name.replace("-", "_"))


def is_goal(text, name):
    """Whether the file of a function's proof has the name for a goal that Rattle makes, or for the whole proof."""
    return re.search(r"^\s*(?:pub |abbrev )*" + re.escape(name) + r"\s*:.*\btie\.", text, re.M) is not None or name.endswith("-spec")


def table():
    names = set()
    for path in files("crates/*/specs/**/*.antt", "crates/*/proofs/**/*.antt"):
        text = path.read_text()
        shared = path.parent.name in ("specs", "proofs")
        names |= {name for name in SIGNATURE.findall(text) if shared or not is_goal(text, name)}
    turned = {name: snake(name) for name in names if snake(name) != name}
    together = {new for new in turned.values() if new in names or [*turned.values()].count(new) > 1} - {"one_more"} - set(LEMMAS)
    lemmas = {name: new + "_lem" for name, new in turned.items() if "-" in name and new in together}
    return {**turned, **lemmas, **LEMMAS}


def turn(text, names):
    """The text with each name turned; behind a dot a name with a dash is a step of a proof, and never gets `_lem`."""
    def new(match):
        name = match.group(1)
        if name not in names:
            return name
        if match.start() > 0 and text[match.start() - 1] == "." and names[name].endswith("_lem"):
            return snake(name)
        return names[name]
    return TOKEN.sub(new, text)


def main():
    names = table()
    if "--list" in sys.argv:
        for name, new in sorted(names.items()):
            print(name, new)
        return
    for path in files("crates/*/specs/**/*.antt", "crates/*/proofs/**/*.antt", "crates/*/src/*.rt", "crates/*/must-fail/*.edit"):
        text = path.read_text()
        path.write_text(turn(text, names))
    for path in files("README.md", "docs/*.md", "docs/notes/*.md"):
        text = path.read_text()
        path.write_text(CODE.sub(lambda m: turn(m.group(0), names), text))


if __name__ == "__main__":
    main()

#!/usr/bin/env python3
"""standby.py: docs/standby-guards.md says of the six cases what their definition, their examples and the runs of these say.

Its table is the definition's, its blocks are the examples, word for word, and its drawings have the sums of the runs, worked out here.
"""
import re

from cases import ROOT
from pages import CRATES, blocks, table
from tally import Tally

EXAMPLES = ROOT / "examples"
PAGE = ROOT / "docs" / "standby-guards.md"
CASES = [(trend, side) for trend in ("rises", "stays", "falls") for side in ("above", "below")]
NAMES = {case: f"standby-{'-'.join(case)}.case" for case in CASES}
# The definition's names, and the page's words for them.
SIDES = {"AtOrAbove": "above", "Below": "below"}
COURSES = {"AlwaysTrue": "true every time", "AlwaysFalse": "false every time", "TrueThenFalse": "true, then false", "FalseThenTrue": "false, then true"}
HALVES = slice(4, 50), slice(54, None)  # the columns of a drawing on the left, and of one on the right
ROUNDS = 6


def courses():
    """How the truth of a guard goes in the endless loop, by how its sum goes and where it is the first time: the definition, in the page's words."""
    source = (CRATES / "verdict" / "specs" / "Rounds.antt").read_text(encoding="utf-8")
    lines = re.findall(r"^course (\w+) (\w+) = (\w+)$", source, re.M)
    return {(trend.lower(), SIDES[side]): COURSES[course] for trend, side, course in lines}


def shown(name):
    """An example as the page has it: what stands below its head of comments, and its line."""
    head, records = (EXAMPLES / name).read_text().split("\n\n", 1)
    return records.splitlines() + [head.split("\n")[0].replace("# gives: ", "gives ")]


# ---- drawings


def runs(name):
    """The guards of an example, each as its bound and its sums at a place of the endless loop, round by round. It has no other loop."""
    text = re.sub(r"#.*", "", (EXAMPLES / name).read_text()).replace("/", "\n")
    records = [line.split() for line in text.splitlines() if line.strip()]
    items = {kind: [[None if field == "." else int(field) for field in record[1:]] for record in records if record[0] == kind] for kind in "WGTP"}
    endless = next(place for place, fields in enumerate(items["P"]) if len(fields) > 3)
    counters, seen = (items["W"] or [[0] * 4])[0], {}
    for round_ in range(ROUNDS):
        for place in range(endless if round_ else 0, len(items["P"])):
            move = items["P"][place][5 if round_ and place == endless else 1]
            if move is not None:
                counters = [counter + more for counter, more in zip(counters, items["T"][move][2:6])]
            for number, guard in enumerate(items["G"]):
                total = sum(coefficient * counter for coefficient, counter in zip(guard, counters))
                seen.setdefault((number, place), []).append(total)
    return [(items["G"][number][4], sums) for (number, _), sums in seen.items()]


def drawing(rows):
    """A drawing: its bound, the number above each round, and the letter below it."""
    *picture, rounds, letters = rows[1:]
    bound = next(int(row.split()[1]) for row in picture if row.startswith("bound"))
    numbers = [found for row in picture for found in re.finditer(r"\(?-?\d+\)?", " " * 8 + row[8:])]
    columns = [found.start() for found in re.finditer(r"\d", rounds)]
    above = [next((found[0] for found in numbers if found.start() <= column < found.end()), None) for column in columns]
    return bound, above, [letters[column] for column in columns]


def drawings(tally, text, said):
    """Each drawing is of a guard of its example, and its letters tell whether the sum reaches the bound; in brackets it isn't tested."""
    pictures = [part.split("\n") for part in text.split("\n\n") if re.match("    (rises|stays|falls),", part)]
    halves = [[row[half].rstrip() for row in part] for part in pictures for half in HALVES]
    tally.equal("drawings", len(CASES), len(halves))
    for case, rows in zip(CASES, halves):
        words = f"{case[0]}, {'at or above' if case[1] == 'above' else 'below'}: {said.get(case)}"
        bound, above, letters = drawing(rows)
        tally.equal(f"{words}: numbers above its rounds", ROUNDS, sum(number is not None for number in above))
        if None in above:
            continue
        sums = [int(number.strip("()")) for number in above]
        truth = ["-" if "(" in number else "FT"[total >= bound] for number, total in zip(above, sums)]
        tally.equal("a drawing's title", words, rows[0])
        tally.equal(f"{words}: drawn {bound}, {sums}: of a guard of its example", True, (bound, sums) in runs(NAMES[case]))
        tally.equal(f"{words}: its letters", truth, letters)


def main():
    tally = Tally("standby")
    text = PAGE.read_text(encoding="ascii")
    said = courses()
    cells = [(trend, cell) for trend, *cells in table(text, "| with each round the sum |") for cell in cells]
    tally.equal("the table", [(case[0], f"{said.get(case)}: `{NAMES[case]}`") for case in CASES], cells)
    found = blocks(text, "case")
    tally.equal("blocks, and all fences", (len(CASES), 2 * len(CASES)), (len(found), text.count("```")))
    for name, (first, lines) in zip(NAMES.values(), found):
        tally.equal(f"{name}, from line {first} on", shown(name), lines)
    drawings(tally, text, said)
    tally.finish(f" ({len(CASES)} cases)")


if __name__ == "__main__":
    main()

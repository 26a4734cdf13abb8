#!/usr/bin/env python3
"""cut.py PLANCHECK: `tools/case cut`: a cut case is accepted exactly where the uncut one is; what it writes; and what it must refuse.

PLANCHECK reads a case file from standard input and prints its line. The loops of the examples are cut by the tool, those of the stored cases by
its function. What a wrong tool would write isn't accepted. The command of README.md, run.
"""
import os
import pathlib
import re
import sys
import tempfile

from cases import ROOT, TWELVE, stored, with_field
from examples import EXAMPLES, case, refused, taken
from program import answered
from tally import Tally
from tool import NO_NUMBERS
from wrapper import run

sys.path.insert(0, str(ROOT / "tools"))
from cut import RANGES, ROOM, cut_loop
from notation import Refused, show, spell

ROUNDS_TWELVE = "P 0 . 21 2 12 1\nP 1 0 21\n"
CUT_TWELVE = "P 0 . 21 2 5 1\nP 1 0 21\nP 0 1 21 2 7 1\nP 1 0 21\n"
CUT_AGAIN = "P 0 . 21 2 5 1\nP 1 0 21\nP 0 1 21 2 3 1\nP 1 0 21\nP 0 1 21 2 4 1\nP 1 0 21\n"
# A loop whose back move adds 1, and behind it guards that want 3 exactly. Its parts, cut after 1 round; and parts that are wrong.
THREE = "S 1 / G 1 0 0 0 3 / G -1 0 0 0 -3 / T 0 0 1 0 0 0 / T 0 0 0 0 0 0 / T 0 0 0 0 0 0 0 1 / F 0 / P 0 . 1 / P 0 1 1 1 4 0 / P 0 2 1 1 . 1"
PARTS = "P 0 1 1 1 1 0\nP 0 0 1 1 3 0\n"
WRONG_PARTS = {
    "the loop's own way in": "P 0 1 1 1 1 0\nP 0 1 1 1 3 0\n",
    "all rounds once more": "P 0 1 1 1 1 0\nP 0 0 1 1 4 0\n",
    "a round too few": "P 0 1 1 1 1 0\nP 0 0 1 1 2 0\n",
    "all rounds at first": "P 0 1 1 1 4 0\nP 0 0 1 1 3 0\n",
    "the first part alone": "P 0 1 1 1 1 0\n",
}
LAST = 10**19 - 1
NO_PLACES = "S 0 / T 0 0 0 0 0 0 / F 0 / "


def rows(places, length):
    """A case with so many places, whose first loop has 2 rounds."""
    return NO_PLACES + f"P 0 . 1 {length} 2 0" + " / P 0 0 1" * (places - 2) + " / P 0 0 1 1 . 0"


# Notation that is cut after 1 round of loop 0 though no plan is like it, and what is written.
ALSO_CUT = [
    ("P 7 . . 1 2 63 . . # comment", "P 7 . . 1 1 63\nP 7 63 . 1 1 63\n"),
    ("P . 3 1 2 2 0 9 -8 / S 1 / P / W / P 5", "P . 3 1 2 1 0 9 -8\nS 1\nP\nP . 0 1 2 1 0 9 -8\nP\nW\nP 5\n"),
    ("P 0 . 1 . 4 0 / P 0 . 1 1 3 5", "P 0 . 1 . 4 0\nP 0 . 1 1 1 5\nP 0 5 1 1 2 5\n"),
]

# Notation, a loop, after how many rounds it is to be cut, and why it isn't.
NOT_CUT = [
    ("S 1\nS +1", 0, 1, "line 2, record 1, field 1: '+1' has a plus sign"),
    ("", 0, 1, "there is no loop 0: the plan has 0, numbered from 0"),
    ("P 0 . 1 . 4 0", 0, 1, "there is no loop 0: the plan has 0, numbered from 0"),
    (THREE, 2, 1, "there is no loop 2: the plan has 2, numbered from 0"),
    (THREE, LAST, LAST, f"there is no loop {LAST}: the plan has 2, numbered from 0"),
    (THREE, 1, 0, "loop 1 is endless: only a counted loop can be cut"),
    ("P 0 . 1 0 2 0", 0, 1, "loop 0: field 4 is 0, not 1 to 64"),
    ("P 0 . 1 -1 2 0", 0, 1, "loop 0: field 4 is -1, not 1 to 64"),
    ("P 0 . 1 65 2 0", 0, 1, "loop 0: field 4 is 65, not 1 to 64"),
    ("P 0 . 1 1 0 0", 0, 1, "loop 0: field 5 is 0, not 1 to 1000000"),
    ("P 0 . 1 1 -12 0", 0, 1, "loop 0: field 5 is -12, not 1 to 1000000"),
    ("P 0 . 1 1 1000001 0", 0, 1, "loop 0: field 5 is 1000001, not 1 to 1000000"),
    ("P 0 . 1 1 2", 0, 1, "loop 0: field 6 is blank, not 0 to 63"),
    ("P 0 . 1 1 2 -1", 0, 1, "loop 0: field 6 is -1, not 0 to 63"),
    ("P 0 . 1 1 2 64", 0, 1, "loop 0: field 6 is 64, not 0 to 63"),
    ("P 0 . 1 3 2 0 / P 0 0 1", 0, 1, "loop 0 has 3 places, and the plan ends after 2 of them"),
    ("P 0 . 1 1 1 0", 0, 1, "loop 0 has 1 round: it can't be cut"),
    (THREE, 0, 0, "loop 0 has 4 rounds: it can be cut after 1 to 3 of them"),
    (THREE, 0, 4, "loop 0 has 4 rounds: it can be cut after 1 to 3 of them"),
    (THREE, 0, LAST, "loop 0 has 4 rounds: it can be cut after 1 to 3 of them"),
    (rows(ROOM, 1), 0, 1, "the plan would have 65 places, and there is room for 64"),
    (rows(ROOM, 2), 0, 1, "the plan would have 66 places, and there is room for 64"),
]

# Arguments that are bad usage.
BAD_USAGE = [[], ["-"], ["-", "0"], ["0", "1"], ["-", "0", "1", "2"], ["-", "0", "1", "-"]]


def cut(text, loop, after):
    """What the tool writes for a notation, what it complains of, and its status."""
    return case("cut", text.encode(), "-", str(loop), str(after))


def line_of(program, text):
    return answered([program], spell(text).encode()).strip()


def cuts(text):
    """The loops of a notation, with some of the rounds after which each can be cut."""
    places = [line.split() for line in text.splitlines() if line.startswith("P")]
    for loop, fields in enumerate(fields for fields in places if fields[4:5] not in ([], ["."])):
        rounds = int(fields[5]) if fields[5:6] not in ([], ["."]) else 0
        yield from ((loop, after) for after in sorted({1, rounds // 2, rounds - 1}) if 0 < after < rounds)


def twelve(tally, program):
    """The twelve rounds, cut once and again, and into single rounds."""
    text = show(TWELVE.decode())
    once, again = text.replace(ROUNDS_TWELVE, CUT_TWELVE), text.replace(ROUNDS_TWELVE, CUT_AGAIN)
    tally.equal("twelve rounds, cut", taken(once.encode()), cut(text, 0, 5))
    tally.equal("twelve rounds, cut again", taken(again.encode()), cut(once, 1, 3))
    tally.equal("the example that is cut", taken(spell(once).encode()), case("spell", (EXAMPLES / "twelve-rounds-cut.case").read_bytes()))
    single = text
    for loop in range(11):
        single = cut(single, loop, 1)[0].decode()
    for name, notation in (("whole", text), ("cut", once), ("cut again", again), ("in single rounds", single)):
        tally.equal(f"twelve rounds, {name}", "0 0 0", line_of(program, notation))
    tally.equal("places of single rounds", 26, single.count("P"))
    tally.equal("a single round", refused("loop 11 has 1 round: it can't be cut"), cut(single, 11, 1))


def examples(tally, program):
    """The examples, read from their files: how many cuts of accepted cases and of others."""
    seen = {True: 0, False: 0}
    for file in sorted(EXAMPLES.glob("*.case")):
        text = show(spell(file.read_text()))
        accepted = line_of(program, text).startswith("0 ")
        for loop, after in cuts(text):
            written, complaint, status = case("cut", b"", file, str(loop), str(after))
            name = f"{file.name}: loop {loop} after {after}"
            tally.equal(name, ("", 0, accepted), (complaint, status, line_of(program, written.decode()).startswith("0 ")))
            seen[accepted] += 1
    tally.equal("examples, accepted and not", True, min(seen.values()) >= 8)
    return sum(seen.values())


def stored_cases(tally, program):
    """The stored cases without edits of their bytes, each loop that isn't refused."""
    seen = {True: 0, False: 0}
    for one in stored():
        text = one.records.replace("/", "\n")
        for loop, after in cuts(text) if not one.edits else ():
            try:
                line = line_of(program, cut_loop(text, loop, after))
            except Refused:
                continue
            accepted = one.line.startswith("0 ")
            tally.equal(f"{one.name}: loop {loop} after {after}", accepted, line.startswith("0 "))
            seen[accepted] += 1
    tally.equal("stored cases, accepted and not", True, min(seen.values()) >= 2_000)
    return sum(seen.values())


def wrong_tools(tally, program):
    """What the tool would write with a mistake is seen by the line."""
    text = cut_loop(THREE, 0, 1)
    tally.equal("the parts are there", 1, text.count(PARTS))
    tally.equal("the right parts", "0 0 0", line_of(program, text))
    for name, parts in WRONG_PARTS.items():
        tally.equal(name, "33", line_of(program, text.replace(PARTS, parts)).split()[0])
    own = show(TWELVE.decode()).replace(ROUNDS_TWELVE, CUT_TWELVE.replace("P 0 1 21 2 7 1", "P 0 . 21 2 7 1"))
    tally.equal("the way in of place 0, which is none", "26 13 2", line_of(program, own))


def limits(tally, program):
    """What the tool takes a loop's fields and the room for is what the program does; a plan can be cut until the room is full."""
    for field, (least, most) in RANGES.items():
        for number in (least - 1, least, most, most + 1):
            line = answered([program], with_field(TWELVE, 11, field, str(number)))
            tally.equal(f"field {field} is {number}", not least <= number <= most, line == f"16 11 {field}\n")
    full = cut_loop(rows(ROOM - 1, 1), 0, 1)
    tally.equal("a full plan", (ROOM, "0 0 0"), (full.count("P"), line_of(program, full)))
    tally.equal("a place too many", f"22 {3 + ROOM} 0", line_of(program, rows(ROOM + 1, 1)))


def refuses(tally, folder):
    for text, loop, after, why in NOT_CUT:
        tally.equal(f"{text:.60}, loop {loop} after {after}", refused(why), cut(text, loop, after))
    bad = BAD_USAGE + [["-", number, "1"] for number in NO_NUMBERS] + [["-", "0", number] for number in NO_NUMBERS]
    for words in bad:
        written, complaint, status = case("cut", THREE.encode(), *words)
        tally.equal(f"bad usage: {words}", (b"", True, 2), (written, "\nusage: tools/case " in complaint, status))
    (folder / "three").write_text(THREE)
    why = "loop 0 has 4 rounds: it can be cut after 1 to 3 of them"
    tally.equal("a file", (b"", f"case: {folder / 'three'}: {why}\n", 1), case("cut", b"", folder / "three", "0", "9"))
    return len(NOT_CUT) + len(bad)


def readme(tally, folder):
    """The command of README.md, run in a shell, and all that it prints."""
    for name in ("plancheck", "tools", "examples"):
        (folder / name).symlink_to(ROOT / name)
    part = (ROOT / "README.md").read_text(encoding="utf-8").split("\n## A loop cut in two\n")[1].split("\n## ")[0]
    [(command, want)] = re.findall(r"^    \$ (.*)\n((?:    [^$].*\n)*)", part, re.M)
    tally.equal(f"README.md: {command}", (0, re.sub("^    ", "", want, flags=re.M), ""), run("bash", "-c", command, cwd=folder, timeout=None))


def main():
    if len(sys.argv) != 2:
        sys.exit(__doc__)
    program, tally = os.path.abspath(sys.argv[1]), Tally("cut")
    twelve(tally, program)
    of_examples, of_stored = examples(tally, program), stored_cases(tally, program)
    wrong_tools(tally, program)
    limits(tally, program)
    for text, want in ALSO_CUT:
        tally.equal(text, taken(want.encode()), cut(text, 0, 1))
    with tempfile.TemporaryDirectory() as name:
        refusals = refuses(tally, pathlib.Path(name))
        readme(tally, pathlib.Path(name))
    tally.finish(f" ({of_examples} cuts of examples, {of_stored} of stored cases, {refusals} refusals)")


if __name__ == "__main__":
    main()

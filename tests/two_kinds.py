#!/usr/bin/env python3
"""two_kinds.py PLANTOOL: case files and the short notation are never taken for one another by a command that writes a case.

Every stored case is given to the commands of tools/case in both forms: as a case file, also with the damage that sending it may do (spaces stripped
at the ends of lines, carriage returns, a byte order mark, indented, with comments behind its records); and in the notation, as it is, spread with spaces,
and lined up in columns. What is then read is worked out here, apart from the tools: a text is a case file where a line has a letter and eight
columns, and otherwise its records are its words, if no blank column can be among them. Then random texts of letters, numbers, points and spaces. The
program PLANTOOL, which writes a case file for its word fill, is given the notation.
"""
import os
import random
import re
import sys

from cases import FIELDS, LENGTH, ROOT, WIDTH, pack, stored
from program import answered
from tally import Tally

sys.path.insert(0, str(ROOT / "tools"))
from cut import cut_loop
from notation import Refused, reads, show, spell

SHOW, SPELL = "tools/case show", "tools/case spell"
RANDOM = 30_000


def answer(command, text):
    """What a command makes of a text, and why it refuses it."""
    try:
        return command(text), None
    except Refused as refused:
        return None, str(refused)


def is_case_file(text):
    """Whether a line is the letter of a kind and eight columns, each blank or a number set to the right."""
    lines = [line.rstrip("\r") for line in text.split("\n")]
    return any(len(line) == LENGTH - 1 and line[0] in "SWGTFP" and columns(line) is not None for line in lines)


def columns(line):
    """The fields of a record in a case file; None where it has another byte or a number that isn't at the right."""
    fields = [line.ljust(LENGTH - 1)[start:start + WIDTH] for start in range(1, LENGTH - 1, WIDTH)]
    if all(field == " " * WIDTH or re.fullmatch(" *(0|-?[1-9][0-9]*)", field) for field in fields) and len(line) < LENGTH:
        return [field.strip() or "." for field in fields]
    return None


def is_read_rightly(tally, name, text, turn=spell):
    """A command that reads the notation refuses a case file, with what to do; and what it takes has no record that could be read by columns as another."""
    made, why = answer(turn, text)
    if is_case_file(text):
        tally.equal(f"{name}: a case file is refused, with what to do", True, made is None and (SHOW in why or "byte order mark" in why))
    if made is None:
        return False
    for line in (part.strip(" ") for line in text.split("\n") for part in line.split("#")[0].split(" / ")):
        words, fields = line.split(), columns(line)
        tally.equal(f"{name}: {line!r} is read one way", True, fields is None or " ".join(fields).rstrip(" .") == " ".join(words[1:]))
    tally.equal(f"{name}: its words", words_of(text), spelled(made))
    return True


def words_of(text):
    """The words of each record of a text in the notation, without blank fields at the end."""
    lines = [part.split() for line in text.split("\n") for part in line.split("#")[0].split(" / ")]
    return [re.sub("( [.])*$", "", " ".join(words)) for words in lines if words]


def spelled(text):
    """The words of each record of a case file, without blank fields at the end."""
    return [re.sub("( [.])*$", "", " ".join([text[at], *columns(text[at:at + LENGTH - 1])])) for at in range(0, len(text), LENGTH)]


def damaged(text):
    """A case file as it may come to someone."""
    lines = text.split("\n")
    yield "as it is", text
    yield "stripped", "\n".join(line.rstrip(" ") for line in lines)
    yield "with carriage returns", text.replace("\n", "\r\n")
    yield "with a byte order mark", "\xef\xbb\xbf" + text
    yield "indented", "".join(f"  {line}\n" for line in lines)
    yield "with comments", "".join(f"{line.rstrip(' ')}    # record {number}\n" for number, line in enumerate(lines) if line)
    yield "with spaces too many", "".join(f"{line} \n" for line in lines if line)
    yield "in one line", text.replace("\n", " / ")
    yield "without line feeds", text.replace("\n", "")


def lined_up(records):
    """The notation: one record a line, joined by slashes, spread, and in columns, with points for blank fields and without those at the end."""
    yield "one a line", "\n".join(records)
    yield "with slashes", " / ".join(records)
    yield "spread", "\n".join(record.replace(" ", "   ") for record in records)
    for width in (2, 5, WIDTH, WIDTH + 1, 10):
        yield f"in columns of {width}", "\n".join("".join([record[0], *(word.rjust(width) for word in record.split()[1:])]) for record in records)
        yield f"to the left, in columns of {width}", "\n".join("".join(word.ljust(width) + " " for word in record.split()) for record in records)
    full = [(record.split() + ["."] * FIELDS)[:FIELDS + 1] for record in records]
    yield "in eight columns", "\n".join("".join([record[0], *(word.rjust(WIDTH) for word in record[1:])]) for record in full)


def stored_cases(tally):
    """All stored cases, in both forms."""
    seen = {"read": 0, "refused": 0}
    for case in stored():
        text = case.data[:300 * LENGTH].decode("latin-1")
        for how, other in damaged(text):
            seen["read" if is_read_rightly(tally, f"{case.name}, {how}", other) else "refused"] += 1
        tally.equal(f"{case.name}: a case file isn't said to be notation", False, is_case_file(text) and reads(text))
        records = case.records.split("/") if case.records else []
        for how, other in lined_up(records):
            name = f"{case.name}, {how}"
            seen["read" if is_read_rightly(tally, name, other) else "refused"] += 1
            made, why = answer(show, other)
            tally.equal(f"{name}: isn't shown", True, not records or is_case_file(other) or (made is None and (SPELL in why) == reads(other)))
        tally.equal(f"{case.name}: notation is said to be it", True, not records or bool(case.edits) or reads("\n".join(records)))
        made, why = answer(lambda one: cut_loop(one, 0, 1), text)
        tally.equal(f"{case.name}: a case file isn't cut", True, made is None and (not is_case_file(text) or SHOW in why))
    tally.equal("stored cases, read and refused", True, min(seen.values()) > 10_000)
    return sum(seen.values())


def random_texts(tally, count):
    """Records with gaps of all lengths between their words, and bytes changed here and there."""
    draw, seen = random.Random(1), {True: 0, False: 0}
    for number in range(count):
        lines = []
        for _ in range(draw.randrange(1, 4)):
            words = [draw.choice("SWGTFP")] + [draw.choice([".", "", "0", "7", "-12", "1250", "9999999"]) for _ in range(draw.randrange(9))]
            width = draw.choice([1, 2, 6, 7, 7, 7, 8])
            lines.append("".join([words[0], *(word.rjust(width) if draw.random() < 0.9 else f" {word}" for word in words[1:])]).ljust(draw.choice([0, LENGTH - 1])))
        text = "\n".join(lines)
        if draw.random() < 0.3:
            at = draw.randrange(len(text))
            text = text[:at] + draw.choice([" ", ".", "-", "0", "/", "#", "\r", "S"]) + text[at + draw.randrange(2):]
        seen[is_read_rightly(tally, f"random text {number}", text)] += 1
    tally.equal("random texts, read and refused", True, min(seen.values()) > count // 20)


def filled(tally, program):
    """The notation of the stored cases, one record a line and in eight columns: the program refuses it by the first record."""
    for case in stored():
        forms = dict(lined_up(case.records.split("/") if case.records else []))
        for how in ("one a line", "in eight columns"):
            refused = answered([program, "fill"], forms[how].encode()).split()
            tally.equal(f"{case.name}, {how}: filled", True, refused == ["24", "0", "0"] if not case.records else "11" <= refused[0] <= "14")


def planted(tally):
    """A command that takes one for the other is found: one that reads the words of any line."""
    found = Tally("planted")
    found.equal = lambda what, want, got: setattr(found, "failed", found.failed + (want != got))

    def careless(text):
        return "".join(pack(line.split("#")[0].split()).decode() for line in text.split("\n") if line.strip(" "))

    for _, text in damaged("".join(pack(record.split()).decode() for record in ("S 1", "P 0 . 21"))):
        try:
            is_read_rightly(found, "planted", text, careless)
        except (KeyError, TypeError, ValueError):
            pass
    tally.equal("a careless reader is found", True, found.failed >= 4)


def main():
    if len(sys.argv) != 2:
        sys.exit(__doc__)
    tally = Tally("two_kinds")
    texts = stored_cases(tally)
    filled(tally, os.path.abspath(sys.argv[1]))
    random_texts(tally, RANDOM)
    planted(tally)
    tally.finish(f" ({texts} texts of stored cases, {RANDOM} random texts)")


if __name__ == "__main__":
    main()

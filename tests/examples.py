#!/usr/bin/env python3
"""examples.py PLANCHECK PLANTOOL: the examples, each spelled by tools/case, give the lines that their first comments say; and tools/case itself.

PLANCHECK reads a case file from standard input and prints its line. PLANTOOL does so with the word fill, and prints the file with the right marks
behind its line; an example whose second comment says so gives that line when it is filled. tools/case is tested on the records of the stored
cases, there and back, against the spelling of tests/cases.py, and on notation and bytes that it must refuse.
"""
import os
import subprocess
import sys

from cases import LENGTH, ROOT, TWELVE, pack, stored
from tally import Tally
from wrapper import IS_FOLDER, IS_NOTATION, NO_FILE, no_room, run, says, unheard

EXAMPLES = ROOT / "examples"
TOOL = ROOT / "tools" / "case"
KINDS = "is none of S, W, G, T, F, P"
RECORD = TWELVE[4 * LENGTH:5 * LENGTH]  # its field 3 is 1250
MINUS = "and the minus is the hyphen of the keyboard"
CASE_FILE = "is a record of a case file, and not of the short notation: tools/case show turns a case file into that"
WAS_BLANK = "7 spaces or more between its fields, as where one of a case file is blank: in the notation a blank field is ."

# Notation, and why `spell` refuses it.
NO_NOTATION = [
    ("S 1\nX 1\n", f"line 2, record 1: the kind 'X' {KINDS}"),
    ("s 1", f"line 1, record 0: the kind 's' {KINDS}"),
    ("SG 1", f"line 1, record 0: the kind 'SG' {KINDS}"),
    ("S 1 / w 0 0 0 0", f"line 1, record 1: the kind 'w' {KINDS}"),
    ("# two records\n\n`S 1` / `S 2`", f"line 3, record 0: the kind '`S' {KINDS}"),
    ("S 1 / P 0 . 21 2 12 1`", "line 1, record 1, field 6: '1`' has a backquote"),
    ("T 0 1 1 2 3 4 5 6 7", "line 1, record 0: 9 fields, and a record has 8"),
    ("S 1 . . . . . . . .", "line 1, record 0: 9 fields, and a record has 8"),
    ("T 0 1 1,250", "line 1, record 0, field 3: '1,250' has a comma"),
    ("S +1", "line 1, record 0, field 1: '+1' has a plus sign"),
    ("S 1.0", "line 1, record 0, field 1: '1.0' has a point"),
    ("S 1 ..", "line 1, record 0, field 2: '..' has a point"),
    ("S 01", "line 1, record 0, field 1: '01' has a leading zero"),
    ("S -01", "line 1, record 0, field 1: '-01' has a leading zero"),
    ("S 00", "line 1, record 0, field 1: '00' has a leading zero"),
    ("G 0 -0", "line 1, record 0, field 2: '-0' is minus zero"),
    ("S -", "line 1, record 0, field 1: '-' is no number"),
    ("S one", "line 1, record 0, field 1: 'one' is no number"),
    ("S 10000000", "line 1, record 0, field 1: '10000000' has 8 characters, and a field has room for 7"),
    ("W 0 0 0 10000000", "line 1, record 0, field 4: '10000000' has 8 characters, and a field has room for 7"),
    ("G 0 0 0 0 -1000000", "line 1, record 0, field 5: '-1000000' has 8 characters, and a field has room for 7"),
    ("S 1/S 2", "line 1, record 0, field 1: '1/S' has a slash (between records it needs a space on each side)"),
    ("S 1 / / S 2", "line 1: a slash without a record on each side"),
    ("S 1 /\nS 2", "line 1: a slash without a record on each side"),
    ("S 1\nS\t2", "line 2: a tab, and fields have spaces between them"),
    ("S 1\r\n", "line 1: a carriage return, and lines end with a line feed alone"),
    ("\ufeffS 1", "line 1: a byte order mark of UTF-8 in front, and the notation begins with its first record"),
    ("S 1\nG \u22121", f"line 2: a typographic minus (U+2212, MINUS SIGN), {MINUS}"),
    ("G \u20131", f"line 1: a typographic minus (U+2013, EN DASH), {MINUS}"),
    ("S \u0661", "line 1: a digit that is none of 0 to 9 (U+0661, ARABIC-INDIC DIGIT ONE)"),
    ("S \uff11", "line 1: a digit that is none of 0 to 9 (U+FF11, FULLWIDTH DIGIT ONE)"),
    ("S 1\u00a02", "line 1: a character that isn't of the notation (U+00A0, NO-BREAK SPACE)"),
    ("S 1\0", r"line 1: the byte '\x00', which isn't of the notation"),
    (TWELVE.decode(), f"line 1 {CASE_FILE}"),
    ("# a comment\n" + RECORD.decode(), f"line 2 {CASE_FILE}"),
    (RECORD.decode().replace("\n", "\r\n"), f"line 1 {CASE_FILE}"),
    ("S 1 / P      0            21", f"line 1, record 1: {WAS_BLANK}"),
    ("P      0            21      # a place", f"line 1, record 0: {WAS_BLANK}"),
]
# The same as bytes that no text is.
NO_TEXT = [
    (b"S 1\nS \xff1", r"line 2: the byte '\xff', which isn't of the notation"),
    ("S 1".encode("utf-16"), "line 1: a byte order mark of UTF-16 in front, and the notation begins with its first record"),
]

# Bytes, and why `show` refuses them.
NO_CASE = [
    (RECORD + RECORD[:57], "record 1: 57 bytes, and a record has 58"),
    (RECORD + b"\n", "record 1: 1 bytes, and a record has 58"),
    (RECORD[:57] + b"\r\n", r"record 0: byte 57 is '\r', not a line feed"),
    (RECORD + b"\0" + RECORD[1:], rf"record 1: the kind '\x00' {KINDS}"),
    (RECORD.replace(b"  1250", b" 1,250"), "record 0, field 3: '  1,250' has a comma"),
    (RECORD.replace(b" 1250", b"1250 "), "record 0, field 3: '  1250 ' has a space that is not before the number"),
    (RECORD.replace(b" 1250", b"+1250"), "record 0, field 3: '  +1250' has a plus sign"),
    (RECORD.replace(b" 1250", b"01250"), "record 0, field 3: '  01250' has a leading zero"),
    (RECORD.replace(b"   1250", b"     -0"), "record 0, field 3: '     -0' is minus zero"),
    (RECORD + RECORD.replace(b"   1250", b"      ."), "record 1, field 3: '      .' has a point"),
    (RECORD.replace(b"   1250", b"   125\xb2"), r"record 0, field 3: '   125\xb2' is no number"),
    (RECORD.replace(b"   1250", b"1250\n  "), r"record 0, field 3: '1250\n  ' has a space that is not before the number"),
]

# Notation that `show` is given, lined up in columns too.
NOT_SHOWN = ["S 1", "# nothing\n\nS 1 / F 0\n", RECORD.decode().replace("   1250", "      ."), "S 1\nS 1,250"]

# Arguments that are bad usage, and what is said of them first.
COMMANDS = ["spell", "show", "explain", "cut"]
BAD_USAGE = [
    ([], "the following arguments are required: COMMAND"),
    (["spel"], "there is no command 'spel'; the nearest is spell"),
    (["expalin", "x"], "there is no command 'expalin'; the nearest is explain"),
    (["zzz"], "there is no command 'zzz'"),
    ([""], "there is no command ''"),
    (["spell", "x", "y"], "unrecognized arguments: y"),
    (["spell", "--raw"], "unrecognized arguments: --raw"),
    (["explain", "x", "y"], "an argument too many"),
    (["explain", "--word", "fil", "x"], "there is no word 'fil'; the nearest is fill"),
    (["explain", "--word", "fill", "0", "x"], "an argument too many"),
    (["explain", "--word", "rounds"], "an argument is missing"),
    (["explain", "--word", "rounds", "x"], "'x' is no number in plain digits, at most 19, without a 0 in front"),
    (["explain", "--word", "set", "0", "00", "x"], "'00' is no number in plain digits, at most 19, without a 0 in front"),
    (["explain", "--word"], "argument --word: expected one argument"),
    (["cut", "x", "0"], "the following arguments are required: M"),
    (["cut", "x", "0", "-1"], "argument M: '-1' is no number in plain digits, at most 19, without a 0 in front"),
]

# Other notation that is taken, and the records that it spells.
ALSO_NOTATION = [
    ("", []),
    ("\n  # nothing / here\n", []),
    ("  S  1   /   P  0  .  21#0 / 1\n\n S 2", [["S", "1"], ["P", "0", ".", "21"], ["S", "2"]]),
    ("G -999999 9999999 . . . . . .", [["G", "-999999", "9999999"]]),
    ("W -999999 9999999 0 -1", [["W", "-999999", "9999999", "0", "-1"]]),
    ("S / F . . . . . . . 0", [["S"], ["F", ".", ".", ".", ".", ".", ".", ".", "0"]]),
]


def case(turn, data, *words):
    """What tools/case writes, what it complains of, and its status."""
    done = subprocess.run([sys.executable, TOOL, turn, *words], input=data, capture_output=True)
    return done.stdout, done.stderr.decode(), done.returncode


def taken(data):
    return data, "", 0


def refused(why):
    """Nothing is written then."""
    return b"", f"case: standard input: {why}\n", 1


def filled(tool, data):
    """The file that filling gives."""
    return subprocess.run([tool, "fill"], input=data, stdout=subprocess.PIPE).stdout.partition(b"\n")[2]


def examples(tally, program, tool):
    """The examples give their lines, and come back from `show` as they were spelled; those without marks, filled, give another line."""
    line_of = lambda data: subprocess.run([program], input=data, stdout=subprocess.PIPE).stdout.decode()
    unmarked = 0
    files = {file.name: case("spell", file.read_bytes()) for file in sorted(EXAMPLES.glob("*.case"))}
    for name, (spelled, complaint, _) in files.items():
        first, second = (EXAMPLES / name).read_text().split("\n")[:2]
        tally.equal(f"{name}: complaint", "", complaint)
        tally.equal(name, first + "\n", "# gives: " + line_of(spelled))
        if second.startswith("# filled: "):
            tally.equal(f"{name}: filled", second + "\n", "# filled: " + line_of(filled(tool, spelled)))
            unmarked += 1
        tally.equal(f"{name}: there and back", taken(spelled), case("spell", case("show", spelled)[0]))
    tally.equal("examples without marks", True, unmarked > 0)
    tally.equal("twelve-rounds.case spells the program's stdin", taken(TWELVE), files["twelve-rounds.case"])
    return len(files)


def records_there_and_back(tally):
    """The records of the stored cases, those without edits of their bytes."""
    records = [record for stored_case in stored() if not stored_case.edits for record in stored_case.records.split("/") if record]
    lines = "".join(record + "\n" for record in records).encode()
    data = b"".join(pack(record.split(" ")) for record in records)
    tally.equal("there are stored records", True, data != b"")
    tally.equal("stored records, one a line", taken(data), case("spell", lines))
    tally.equal("stored records, with slashes", taken(data), case("spell", " / ".join(records).encode()))
    tally.equal("stored records, shown", taken(lines), case("show", data))
    return len(records)


def usage(tally):
    """Help and version on standard output; what is wrong with the arguments, a nearest command or word, and the usage on standard error; no room."""
    for words, begins in (
        (["--help"], "usage: tools/case [-h] [--version] COMMAND"),
        (["-h"], "usage: tools/case [-h] [--version] COMMAND"),
        (["--version"], f"Redwoodjig {(ROOT / 'VERSION').read_text()}"),
        *(([command, "--help"], f"usage: tools/case {command} ") for command in COMMANDS),
    ):
        status, text, message = run(sys.executable, TOOL, *words)
        tally.equal(f"{words}", (0, "", begins), (status, message, text[:len(begins)]))
    for words, why in BAD_USAGE:
        status, text, message = run(sys.executable, TOOL, *words)
        tally.equal(f"bad usage: {words}", (2, "", f"case: {why}", "usage: tools/case"), (status, text, *message.split("\n", 1)[:1], message.split("\n", 1)[1][:17]))
    twelve = EXAMPLES / "twelve-rounds.case"
    for words in (["--help"], ["--version"], ["spell", twelve], ["cut", twelve, "0", "5"], ["show", ROOT / "crates" / "plancheck" / "stdin"]):
        no_room(tally, "case", [sys.executable, TOOL, *words], {})
    unheard(tally, sys.executable, TOOL)
    for command in COMMANDS:
        words = [command, "absent", "0", "1"][:4 if command == "cut" else 2]
        tally.equal(f"{command}: no such file", (2, "", says("case", "cannot read absent", NO_FILE)), run(sys.executable, TOOL, *words))
        words[1] = "."
        tally.equal(f"{command}: a folder", (2, "", says("case", "cannot read .", IS_FOLDER)), run(sys.executable, TOOL, *words))


def main():
    if len(sys.argv) != 3:
        sys.exit(__doc__)
    tally = Tally("examples")
    tally.equal("tools/case can be run", True, os.access(TOOL, os.X_OK))
    files = examples(tally, *map(os.path.abspath, sys.argv[1:]))
    records = records_there_and_back(tally)
    for text, want in ALSO_NOTATION:
        tally.equal(repr(text), taken(b"".join(map(pack, want))), case("spell", text.encode()))
    for text, why in NO_NOTATION:
        tally.equal(repr(text), refused(why), case("spell", text.encode()))
    for data, why in NO_TEXT:
        tally.equal(repr(data), refused(why), case("spell", data))
    for data, why in NO_CASE + [(text.encode(), IS_NOTATION) for text in NOT_SHOWN]:
        tally.equal(repr(data), refused(why), case("show", data))
    usage(tally)
    refusals = len(NO_NOTATION) + len(NO_TEXT) + len(NO_CASE) + len(NOT_SHOWN)
    tally.finish(f" ({files} examples, {records} records there and back, {refusals} refusals, {len(BAD_USAGE)} bad usages)")


if __name__ == "__main__":
    main()

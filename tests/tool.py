#!/usr/bin/env python3
"""tool.py PLANTOOL PLANCHECK: the program plantool and its wrapper ./plantool.

The program, with its words as arguments and the case on standard input: the cases of fill.tsv and rounds.tsv, the stored cases beside what
plancheck says of them, inputs of all shapes, and arguments that it must refuse. A filled file is judged with 0 or 35, and filled as it is; the
rounds at the ends of those that are found, set, are accepted, and those beside them aren't. The wrapper: what it puts where and its status, for
each sort of answer and of bad usage, and what a terminal shows; in a small repository, that it builds the program, passes numbers on, and never
gives a part of a file. A refusal is said as `tools/case explain --word` says it. What README.md and FORMAT.md show of the two, run.
"""
import os
import pathlib
import pty
import re
import subprocess
import sys
import tempfile

from cases import LENGTH, ROOT, TWELVE, spelled, stored, with_field, worded
from pages import blocks, changed, cut, spell, with_changes
from program import answered, refused, shapes, slowly, unreadable
from tally import Tally
from wrapper import IS_FOLDER, NO_FILE, NO_ROOM, TOO_LARGE, WRITES, linked_tools, little_room, no_room, repository, run, says, unheard, usage
from wrapper import refused as said

FILL = ROOT / "tests" / "fill.tsv"
ROUNDS = ROOT / "tests" / "rounds.tsv"
WRAPPER = ROOT / "plantool"
CASE = ROOT / "tools" / "case"
# The results that the files of cases have at least by word, with a record that is refused; and those of the words alone.
RESULTS = {"fill": {0, 23, 24, 31, 32, 33, 37}, "rounds": {0, 15, 24, 27, 31, 32, 33, 34, 35}, "set": {0, 15, 16, 24, 27}}
CHANGES = 37
NO_LOOP = 27
MOST = 1_000_000
# A file that is filled, and one whose truth changes.
UNMARKED = spelled("S 0/S 1/T 0 1 0 0 0 0/T 1 1 0 0 0 0/F 1 0/F 5 0/P 0 . 0/P 1 0 0 1 . 1")
MARKED = spelled("S 0/S 1/T 0 1 0 0 0 0/T 1 1 0 0 0 0/F 1 0/F 5 0/P 0 . 2/P 1 0 3 1 . 1")
CHANGING = spelled("S 0/S 1/T 0 0 0 0 0 0/T 0 1 0 0 0 0/T 1 1 0 0 0 0/F 1 0/F 5 0/P 0 . 0 1 2 0/P 1 1 0 1 . 2")
# A file with counted loops of which the first may have 11 to 21 rounds, and the second any; the third loop is endless.
BOX = spelled(
    "S 1/G 1 0 0 0 10/G -1 0 0 0 -20/T 0 0 1 0 0 0/T 0 0 0 0 0 0 0 1/T 0 0 0 0 0 0/F 0/"
    "P 0 . 1 1 15 0/P 0 2 1 1 4 2/P 0 1 1/P 0 2 1 1 . 2"
)
ALONE = with_field(with_field(BOX, 2, 5, "-10"), 7, 5, "11")
# Files that are refused, by their lines.
REFUSED = {
    "14 4 18": with_field(TWELVE, 4, 3, "1,250"),
    "11 0 0": b"S",
    "21 15 0": TWELVE + TWELVE[:LENGTH],
    "23 11 3": with_field(TWELVE, 11, 3, "53"),
    "24 0 0": b"",
    "24 14 0": TWELVE[:-LENGTH],
    "25 15 0": TWELVE + TWELVE[-LENGTH:],
    "31 0 0": with_field(TWELVE, 11, 1, "1"),
    "32 2 0": with_field(TWELVE, 13, 6, "0"),
    "33 1 1": with_field(TWELVE, 4, 3, "1251"),
    "37 0 1": CHANGING,
}
# Arguments that the program refuses.
NO_WORDS = [
    [], [""], ["FILL"], ["fil"], ["fills"], ["fill "], [" fill"], ["x" * 5000],
    ["fill", "1"], ["fill", ""], ["fill", "fill"], ["fill", "1", "2"], ["--raw", "fill"],
    ["rounds"], ["rounds", "0", "1"], ["rounds", "0", ""], ["round", "0"], ["roundss", "0"], ["ROUNDS", "0"], ["rounds 0"], ["0", "rounds"],
    ["set"], ["set", "0"], ["set", "0", "1", "2"], ["set", "0", "1", ""], ["se", "0", "1"], ["sets", "0", "1"], ["set 0", "1"], ["set 0 1"],
]
# Arguments of the wrapper that are bad usage; "plain" is a file that is there.
BAD_USAGE = [
    [], ["--raw"], ["--"], ["--raw", "--"], ["plain"], ["fil", "plain"], ["FILL", "plain"], ["", "plain"], ["fill|", "plain"], ["*", "plain"],
    ["fill\nfill", "plain"], ["fill"], ["--raw", "fill"], ["-", "fill"], ["fill", "plain", "plain"], ["fill", "plain", "-"], ["fill", "1", "plain"],
    ["--raw", "fill", "plain", "plain"], ["--", "--raw", "fill", "plain"], ["--rawer", "fill", "plain"], ["fill", "-x"], ["-r", "fill", "plain"],
    ["rounds", "plain"], ["rounds", "0"], ["rounds", "0", "1", "plain"], ["rounds", "plain", "0"], ["rounds", "00", "plain"],
    ["--raw", "rounds", "plain"], ["set", "plain"], ["set", "0", "plain"], ["set", "0", "1"], ["set", "0", "1", "2", "plain"],
    ["set", "0", "-1", "plain"], ["--raw", "set", "0", "plain"],
]
# What is no number for a word that takes one.
NO_NUMBERS = [
    "", " ", "-1", "+1", "-0", "00", "01", "0" * 19, "1.0", "1,000", "1 ", " 1", "1\n", "0x1", "x", "1e3", "\u0661", "*", "--raw", "1/", "1:",
    "1" + "0" * 19, "18446744073709551615", "18446744073709551616", "9" * 20, "9" * 400,
]
NUMBERS = ["0", "1", "10", "1000000", "1" + "0" * 18, "9" * 19]
# Programs of the shell that don't print a line with as many bytes as it tells, or don't end well.
FAILING = [
    "echo 0 9 0; echo abc", "echo 0 1 0; echo abc", "echo 0 08 0; echo abc", "echo 0 4", "echo 0 4 0 0; echo abc", "echo abc", "echo; echo",
    "printf '0 0 0'; exit 3", "echo 0 4 0; echo abc; kill -9 $$",
]
# More words for the wrapper of a small repository, whose program is a script of the shell.
MORE_WORDS = '    "count": Word(["L"], ALONE, "so many"),\n    "two": Word(["L", "N"], FILE, "two"),\n'


def filled(data):
    """What the program prints for a file whose marks are right."""
    return f"0 {len(data)} 0\n" + data.decode("latin-1")


def product(output):
    """The file behind the line of an output."""
    return output[output.index("\n") + 1:].encode("latin-1")


def explained(program, words, data):
    """What `tools/case explain` says of what a word prints."""
    surroundings = {**os.environ, "PLANTOOL": program}
    return subprocess.run([sys.executable, CASE, "explain", "--word", *words, "-"], input=data, stdout=subprocess.PIPE, env=surroundings).stdout.decode()


def is_refused(tally, program, words, line, data, here):
    """A refusal: nothing is printed, and standard error has the line and the words for it; with --raw the line is printed."""
    status, printed, message = run(WRAPPER, *words, "-", input=data, **here)
    tally.equal(f"{words}: {line} is refused", (1, "", line), (status, printed, message.split("\n")[0]))
    tally.equal(f"{words}: {line} is explained", explained(program, words, data), message)
    tally.equal(f"{words}: {line} is printed raw", (1, line + "\n", ""), run(WRAPPER, "--raw", *words, "-", input=data, **here))


# ---- the program


def is_right(tally, name, command, plancheck, output):
    """Of a file that was filled: judged, it gets 0 or 35; filled again, it is the same."""
    file = product(output)
    tally.equal(f"{name}: its count", f"0 {len(file)} 0", output.split("\n")[0])
    tally.equal(f"{name}: judged", True, answered([plancheck], file).split()[0] in ("0", "35"))
    tally.equal(f"{name}: filled again", filled(file), answered(command, file))


def are_ends(tally, name, program, plancheck, case, output):
    """Of the rounds that were found: with them, and with one more or less where there is such a number, set by the program and judged."""
    _, least, greatest = map(int, output.split())
    for rounds in sorted({least - 1, least, greatest, greatest + 1} & set(range(1, MOST + 1))):
        line = answered([plancheck], product(answered([program, "set", case.words[1], str(rounds)], case.data)))
        tally.equal(f"{name}: accepted with {rounds} rounds", least <= rounds <= greatest, line == "0 0 0\n")


def vectors(tally, program, plancheck, path, words):
    """The cases of a file, which has these words."""
    cases, results = worded(path), {word: set() for word in words}
    for case in cases:
        output = answered([program, *case.words], case.data)
        tally.equal(case.name, case.output, output)
        results[case.words[0]].add(int(case.output.split(" ")[0]))
        if output.startswith("0 ") and case.words[0] == "fill":
            is_right(tally, case.name, [program, "fill"], plancheck, output)
        elif output.startswith("0 ") and case.words[0] == "rounds":
            are_ends(tally, case.name, program, plancheck, case, output)
    for word in words:
        tally.equal(f"results of {path.name}: {word}", RESULTS[word], RESULTS[word] & results[word])
    return len(cases)


def beside_plancheck(tally, program, plancheck):
    """The stored cases and inputs of all shapes, with their lines: right marks stay, and what is refused before the marks is refused here too."""
    command, seen = [program, "fill"], set()
    for name, line, data in [(case.name, case.line, case.data) for case in stored()] + [(name, line, data) for name, data, line in shapes()]:
        output, result = answered(command, data), int(line.split()[0])
        if result == 34:
            seen.add(int(output.split(" ")[0]))
            if output.startswith("0 "):
                is_right(tally, name, command, plancheck, output)
        else:
            tally.equal(f"{name}, filled", filled(data) if result in (0, 35) else line + "\n", output)
    tally.equal("wrong marks, filled", {0, CHANGES}, seen)


def loops_beside_plancheck(tally, program):
    """The stored cases, and inputs of all shapes: one that isn't accepted has its own line, and otherwise rounds are found; or there is no such loop.
    For setting, a record or 24 is refused as it is by judging."""
    seen = {"rounds": set(), "set": set()}
    for name, line, data in [(case.name, case.line, case.data) for case in stored()] + [(name, line, data) for name, data, line in shapes()]:
        result = int(line.split()[0])
        for words, refused_alike in ((["rounds", "0"], result > 0), (["set", "0", "1"], 10 < result < 30)):
            output = answered([program, *words], data)
            seen[words[0]].add(int(output.split(" ")[0]))
            if refused_alike:
                tally.equal(f"{name}, {words[0]}", line + "\n", output)
            else:
                tally.equal(f"{name}, {words[0]}", True, output.split(" ")[0] in ("0", str(NO_LOOP)))
    for word, results in seen.items():
        tally.equal(f"results of {word} beside refusals", {0, NO_LOOP}, {0, NO_LOOP} & results)


def words(tally, program):
    """Arguments, and inputs that can't be read."""
    no_numbers = [words for number in NO_NUMBERS for words in (["rounds", number], ["set", number, "1"], ["set", "0", number])]
    for arguments in NO_WORDS + no_numbers:
        tally.equal(f"arguments {arguments!r:.60} are refused", True, refused([program, *arguments], input=TWELVE))
    for number in NUMBERS:
        absent = f"27 {number} 0\n"
        tally.equal(f"rounds {number}", "0 1 1000000\n" if number == "0" else absent, answered([program, "rounds", number], TWELVE))
        tally.equal(f"set {number} 12", filled(TWELVE) if number == "0" else absent, answered([program, "set", number, "12"], TWELVE))
        done = filled(with_field(TWELVE, 11, 5, number)) if 1 <= int(number) <= MOST else "16 11 5\n"
        tally.equal(f"set 0 {number}", done, answered([program, "set", "0", number], TWELVE))
    for arguments, want in ((["fill"], filled(TWELVE)), (["rounds", "0"], "0 1 1000000\n"), (["set", "0", "12"], filled(TWELVE))):
        tally.equal(f"{arguments[0]}, a byte at a time", want, slowly([program, *arguments]))
        unreadable(tally, [program, *arguments])
        with open("/dev/full", "wb") as full:
            want = (0, "", says("plantool", "standard output", NO_ROOM))
            tally.equal(f"{arguments[0]}: a full disk is told", want, run(program, *arguments, stdout=full, input=TWELVE))


# ---- the wrapper


def answers(tally, program, folder, path):
    """What is printed where, and the status. The path has no rt, so nothing can be built."""
    files = {"plain": UNMARKED, "right": MARKED, "two words": UNMARKED, "-x": UNMARKED, "--raw": UNMARKED}
    for name, data in files.items():
        (folder / name).write_bytes(data)
    (folder / "link").symlink_to(WRAPPER)
    here = {"cwd": folder, "env": {"PATH": f"{path}:{ROOT}"}}
    done, raw = (0, MARKED.decode(), ""), (0, filled(MARKED), "")
    for what, want, command in (
        ("a file", done, [WRAPPER, "fill", "plain"]),
        ("one whose marks are right", done, [WRAPPER, "fill", "right"]),
        ("a name with a space", done, [WRAPPER, "fill", "two words"]),
        ("a name with a dash", done, [WRAPPER, "fill", "./-x"]),
        ("a name behind the end of options", done, [WRAPPER, "fill", "--", "-x"]),
        ("a name like an option", done, [WRAPPER, "--", "fill", "--raw"]),
        ("through a link", done, ["./link", "fill", "plain"]),
        ("found in the path", done, ["plantool", "fill", "plain"]),
        ("raw", raw, [WRAPPER, "--raw", "fill", "plain"]),
        ("raw, behind the word", raw, [WRAPPER, "fill", "--raw", "plain"]),
    ):
        tally.equal(what, want, run(*command, **here))
    tally.equal("with a closed standard input", done, run(WRAPPER, "fill", "plain", preexec_fn=lambda: os.close(0), **here))
    tally.equal("standard input", done, run(WRAPPER, "fill", "-", input=UNMARKED, **here))
    for line, data in REFUSED.items():
        is_refused(tally, program, ["fill"], line, data, here)


def on_terminal(*command, data):
    """Status, and what a terminal shows of standard output and standard error."""
    ours, theirs = pty.openpty()
    done = subprocess.run(command, input=data, stdout=theirs, stderr=theirs, timeout=60)
    os.close(theirs)
    shown = b""
    try:
        while part := os.read(ours, 4096):
            shown += part
    except OSError:  # all is read, and the other end is closed
        pass
    os.close(ours)
    return done.returncode, shown.decode("latin-1").replace("\r\n", "\n")


def loops(tally, program, folder, path):
    """Rounds found and set: into a pipe only the line, or only the file, and on a terminal the line in words too."""
    here = {"cwd": folder, "env": {"PATH": path}}
    (folder / "box").write_bytes(BOX)
    for want, words in (
        ((0, "0 11 21\n", ""), ["rounds", "0", "box"]),
        ((0, "0 1 1000000\n", ""), ["rounds", "1", "box"]),
        ((0, with_field(BOX, 7, 5, "1000000").decode(), ""), ["set", "0", "1000000", "box"]),
        ((0, filled(with_field(BOX, 8, 5, "1")), ""), ["--raw", "set", "1", "1", "box"]),
    ):
        tally.equal(" ".join(words), want, run(WRAPPER, *words, **here))
    for line, words in (
        ("27 2 0", ["rounds", "2"]), ("27 3 0", ["rounds", "3"]), ("27 2 0", ["set", "2", "0"]), ("16 8 5", ["set", "1", "0"]), ("16 7 5", ["set", "0", "1000001"]),
    ):
        is_refused(tally, program, words, line, BOX, here)
    for line, data in REFUSED.items():
        result = int(line.split()[0])
        for words in [["rounds", "0"]] * (result != CHANGES) + [["set", "0", "1"]] * (result < 30):
            is_refused(tally, program, words, line, data, here)
    for want, words, data in (
        ((0, "0 11 21\nplantool: loop 0 may have 11 to 21 rounds\n"), ["rounds", "0"], BOX),
        ((0, "0 11 11\nplantool: loop 0 may have no other number of rounds than 11\n"), ["rounds", "0"], ALONE),
        ((0, "0 11 21\n"), ["--raw", "rounds", "0"], BOX),
        ((1, explained(program, ["rounds", "2"], BOX)), ["rounds", "2"], BOX),
        ((0, with_field(BOX, 8, 5, "9").decode()), ["set", "1", "9"], BOX),
    ):
        tally.equal(f"on a terminal: {' '.join(words)}", want, on_terminal(WRAPPER, *words, "-", data=data))


def no_answer(tally, folder, path):
    """What gives no answer: bad usage, files that can't be opened or read, no room for what is printed."""
    here = {"cwd": folder, "env": {"PATH": path}}
    for arguments in BAD_USAGE:
        status, printed, message = run(WRAPPER, *arguments, **here)
        tally.equal(f"bad usage: {arguments}", (2, "", True), (status, printed, "\nusage: ./plantool " in message))
    tally.equal("the nearest word", says("plantool", "there is no word 'fil'; the nearest is fill"), run(WRAPPER, "fil", "plain", **here)[2].split("usage")[0])
    for option in ([], ["--raw"]):
        for name, why in (("absent", NO_FILE), (".", IS_FOLDER), ("", NO_FILE)):
            want = (2, "", says("plantool", f"cannot read {name or repr('')}", why))
            tally.equal(f"no file: {name!r} {option}", want, run(WRAPPER, *option, "fill", name, **here))
        no_room(tally, "plantool", [WRAPPER, *option, "fill", "plain"], here)
        for room in (0, 100):
            whole = filled(MARKED) if option else MARKED.decode()
            tally.equal(f"files of {room} bytes, and a pipe {option}", (0, whole, ""), run(WRAPPER, *option, "fill", "plain", preexec_fn=little_room(room), **here))
            with open(folder / "out", "wb") as out:
                status, _, message = run(WRAPPER, *option, "fill", "plain", stdout=out, preexec_fn=little_room(room), **here)
            tally.equal(f"a file of {room} bytes {option}", (2, says("plantool", "standard output", TOO_LARGE)), (status, message))
    unheard(tally, WRAPPER, **here)
    said(tally, "a closed standard input", 2, run(WRAPPER, "fill", "-", preexec_fn=lambda: os.close(0), **here))


def small_repository(tally, folder, path):
    """The wrapper builds its program. Then with a program of the shell, and words of its own: numbers, and programs that fail."""
    crate, program = repository(folder, WRAPPER), folder / "target" / "bin" / "plantool"
    wrapper, words, empty = folder / "plantool", folder / "tools" / "command.py", {"input": b""}
    usage(tally, wrapper, {"env": {"PATH": path}})
    want = says("plantool", "cannot read absent", NO_FILE)
    tally.equal("an absent file is told before anything is built", (2, "", want), run(wrapper, "fill", "absent", cwd=folder, env={"PATH": path}))
    (crate / "src" / "main.rt").write_text(WRITES % "0 4 0\\nabc")
    (crate / "stdout").write_text("0 4 0\nabc\n")
    tally.equal("no program and no rt", (2, ""), run(wrapper, "fill", "-", env={"PATH": path}, **empty)[:2])
    tally.equal("built from nothing", (0, "0 4 0\nabc\n"), run(wrapper, "--raw", "fill", "-", **empty)[:2])

    def shell(text):
        program.write_text(f"#!/bin/sh\n{text}\n")

    text = words.read_text()
    words.write_text(re.sub(r'^(    "fill": .*\n)', lambda found: found[1] + MORE_WORDS, text, flags=re.M))
    tally.equal("a word is one line", text.count("\n") + MORE_WORDS.count("\n"), words.read_text().count("\n"))
    shell('echo "0 $# $2"')
    for number in NUMBERS:
        tally.equal(f"the number {number:.30}", (0, f"0 2 {number}\n", ""), run(wrapper, "count", number, "-", **empty))
    for number in NO_NUMBERS:
        for arguments in (["count", number, "-"], ["two", "1", number, "-"], ["two", number, "1", "-"]):
            status, printed, message = run(wrapper, *arguments, **empty)
            tally.equal(f"no number: {arguments}", (2, "", True), (status, printed, "usage: " in message))
    for arguments in (["count", "-"], ["count", "1", "2", "-"], ["two", "1", "-"], ["two", "1", "2", "3", "-"]):
        tally.equal(f"too few or too many: {arguments}", (2, ""), run(wrapper, *arguments, **empty)[:2])
    shell('printf "0 %d 0\\n%s\\n\\n" $((${#2} + ${#3} + 3)) "$2 $3"')
    tally.equal("line feeds at the end", (0, "12 7\n\n", ""), run(wrapper, "two", "12", "7", "-", **empty))
    shell("cat >&2; printf '0 4 0\\na\\000\\377\\n'")
    tally.equal("any bytes, and what is read", (0, "a\0\xff\n", "the case"), run(wrapper, "two", "1", "2", "-", input=b"the case"))
    shell("echo 99 1 2")
    tally.equal("a result without words", (1, "", "99 1 2\n"), run(wrapper, "two", "1", "2", "-", **empty))
    for script in FAILING:
        shell(script)
        for option in ([], ["--raw"]):
            said(tally, f"a program that fails: {script} {option}", 2, run(wrapper, *option, "two", "1", "2", "-", **empty))
    shell("exit 0")
    tally.equal("a program that says nothing", (2, ""), run(wrapper, "fill", "-", **empty)[:2])


# ---- the documents


def readme(tally, folder):
    """The commands of the sections of README.md that use plantool, run in a shell one after the other, and all that they print."""
    for name in ("plancheck", "plantool", "tools", "examples"):
        (folder / name).symlink_to(ROOT / name)
    sections = re.split(r"^## (.*)\n", (ROOT / "README.md").read_text(encoding="utf-8"), flags=re.M)[1:]
    shown = {title: re.findall(r"^    \$ (.*)\n((?:    [^$].*\n)*)", part, re.M) for title, part in zip(sections[::2], sections[1::2])}
    commands = shown["Marks filled in"]
    tally.equal("README.md: two commands from a case without marks to an accepted file", (2, "    0 0 0\n"), (len(commands), commands[-1][1]))
    for commands in shown.values():
        for command, want in commands if any("./plantool" in command for command, _ in commands) else ():
            command = command.split("      #")[0]
            tally.equal(f"README.md: {command}", (0, re.sub("^    ", "", want, flags=re.M), ""), run("bash", "-c", command, cwd=folder))


def format_page(tally, program):
    """The examples of FORMAT.md: the marks of the places after filling, or the line of a refusal."""
    examples = 0
    for first, lines in blocks((ROOT / "docs" / "FORMAT.md").read_text(encoding="utf-8"), "fill"):
        claims = [re.fullmatch(r"(marks|gives) ([\d ]+?)(?: +with (.*?))? *(?:#.*)?", line) for line in lines]
        case = spell("\n".join(line for line, claim in zip(lines, claims) if not claim))
        for number, (sort, want, changes) in ((number, claim.groups()) for number, claim in enumerate(claims, first) if claim):
            output = answered([program, "fill"], with_changes(case, changes))
            marks = " ".join(record[15:22].decode().strip() for record in cut(product(output)) if record[:1] == b"P")
            tally.equal(f"FORMAT.md: line {number}", want, marks if sort == "marks" else output.strip())
            examples += 1
    tally.equal("FORMAT.md has examples of filling", True, examples >= 10)


def loops_in_format_page(tally, program):
    """The examples of FORMAT.md: the line of finding rounds or of a refusal; or the record that is another where rounds are set."""
    sort = re.compile(r"((?:rounds|set)[\d ]+) (gives|makes) (.*?)(?: +with (.*?))? *(?:#.*)?")
    examples = {"rounds": 0, "set": 0}
    for first, lines in blocks((ROOT / "docs" / "FORMAT.md").read_text(encoding="utf-8"), "rounds"):
        claims = [sort.fullmatch(line) for line in lines]
        case = spell("\n".join(line for line, claim in zip(lines, claims) if not claim))
        for number, (words, verb, want, changes) in ((number, claim.groups()) for number, claim in enumerate(claims, first) if claim):
            data, words = with_changes(case, changes), words.split()
            want = filled(changed(data, want)) if verb == "makes" else want + "\n"
            tally.equal(f"FORMAT.md: line {number}", want, answered([program, *words], data))
            examples[words[0]] += 1
    tally.equal("FORMAT.md has examples of rounds", True, min(examples.values()) >= 9)


def main():
    if len(sys.argv) != 3:
        sys.exit(__doc__)
    program, plancheck, tally = *map(os.path.abspath, sys.argv[1:]), Tally("tool")
    filled_cases = vectors(tally, program, plancheck, FILL, ["fill"])
    loop_cases = vectors(tally, program, plancheck, ROUNDS, ["rounds", "set"])
    beside_plancheck(tally, program, plancheck)
    loops_beside_plancheck(tally, program)
    words(tally, program)
    with tempfile.TemporaryDirectory() as name:
        tools, files, small, shown = (pathlib.Path(name) / part for part in ("tools", "files", "small", "shown"))
        for folder in (tools, files, small, shown):
            folder.mkdir()
        linked_tools(tools)
        # after a change of any crate, the next call looks whether the program is built, and may build it
        tally.equal("the program is built", 0, run(WRAPPER, "--raw", "fill", ROOT / "crates" / "plancheck" / "stdin", timeout=None)[0])
        answers(tally, program, files, tools)
        loops(tally, program, files, tools)
        no_answer(tally, files, tools)
        small_repository(tally, small, tools)
        readme(tally, shown)
    format_page(tally, program)
    loops_in_format_page(tally, program)
    tally.finish(f" ({filled_cases} cases of fill.tsv, {loop_cases} of rounds.tsv)")


if __name__ == "__main__":
    main()

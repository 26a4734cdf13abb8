#!/usr/bin/env python3
"""explained.py PLANCHECK PLANTOOL: docs/EXPLAIN.md and README.md, held against `tools/case explain`; and that tool on bytes of all sorts.

The programs read a case file from standard input, and print its line. Every block of the page prints what it shows, and every result of
answers/specs/Answers.antt has one, as have those of plantool alone. Every stored case and random bytes are explained, also for words of plantool;
a record that is shown as bytes can be read back, the caret is under the bad byte, and what damages files is named. A program that fails is told,
with status 2.
"""
import os
import pathlib
import random
import re
import subprocess
import sys
import tempfile

from cases import LENGTH, ROOT, TWELVE, pack, stored, with_field, worded
from pages import blocks, cut, results_defined, spell, table, unspelled, with_changes
from program import answered
from tally import Tally
from wrapper import repository

PAGE = ROOT / "docs" / "EXPLAIN.md"
FORMAT = ROOT / "docs" / "FORMAT.md"
README = ROOT / "README.md"
TOOL = ROOT / "tools" / "case"
BLOCKS = 116  # that the page has at least; whoever adds to it raises this
WORDED = {27, 37}  # the results of words of plantool alone
COMMA = with_field(TWELVE, 4, 3, "1,250")
WEIGHED = TWELVE[:2 * LENGTH] + pack(["W", "0", "0", "0", "0"]) + TWELVE[2 * LENGTH:]  # with weights, behind the states
LETTERS = b"SWGTFP"
# What the way in which a file is written or sent may do to it, and the words in which that is said.
DAMAGES = [
    ("the file begins with a byte order mark", lambda data: b"\xef\xbb\xbf" + data),
    ("the line ends with a carriage return and a line feed", lambda data: data.replace(b"\n", b"\r\n")),
    ("spaces at its end are missing", lambda data: re.sub(rb" +(?=\r?\n)", b"", data)),
    ("spaces at its end are missing", lambda data: data.rstrip()),
    ("a line feed is missing", lambda data: data.replace(b"\n", b"")),
    ("the last line feed is missing", lambda data: data[:-1]),
    ("the last line feed is missing", lambda data: data.rstrip()),
    ("the file ends with an empty line", lambda data: data + b"\n"),
    ("an empty line stands where the record should begin", lambda data: data.replace(b"\n", b"\n\n")),
]
ASKED = [(), ("fill",), ("rounds", 0), ("set", 0, 5), ("set", 0, 0), ("set", 1, 5)]  # what random bytes are asked for
# The results of words that the cases have at least, of those that are explained another way than by judging.
SAID = {("fill", 0), ("fill", 37), ("rounds", 0), ("rounds", 27), ("set", 0), ("set", 16), ("set", 27)}
# Programs of the shell that print no line, or one that doesn't fit the twelve rounds, and what is said of them.
NO_LINE = [
    ("exit 3", "no line: PROGRAM ended with status 3"),
    ("echo 0 0 0; exit 1", "no line: PROGRAM ended with status 1"),
    ("kill -9 $$", "no line: PROGRAM ended with status -9"),
    ("true", "no line: PROGRAM printed '', which isn't three numbers"),
    ("printf '0 0 0'", "no line: PROGRAM printed '0 0 0', which isn't three numbers"),
    ("echo 0 0", r"no line: PROGRAM printed '0 0\n', which isn't three numbers"),
    ("echo 0 0 0 0", r"no line: PROGRAM printed '0 0 0 0\n', which isn't three numbers"),
    ("echo 14 4 -1", r"no line: PROGRAM printed '14 4 -1\n', which isn't three numbers"),
    ("echo 0 0 0; echo 0 0 0", "PROGRAM printed 6 bytes behind its line, and 0 belong there"),
    ("printf '\\377'", r"no line: PROGRAM printed '\xff', which isn't three numbers"),
    ("echo 17 0 0", "standard input: the line 17 0 0 doesn't fit the case"),
    ("echo 16 15 1", "standard input: the line 16 15 1 doesn't fit the case"),
    ("echo 16 4 9", "standard input: the line 16 4 9 doesn't fit the case"),
    ("echo 14 4 0", "standard input: the line 14 4 0 doesn't fit the case"),
    ("echo 14 4 57", "standard input: the line 14 4 57 doesn't fit the case"),
    ("echo 25 11 0", "standard input: the line 25 11 0 doesn't fit the case"),
    ("echo 32 4 0", "standard input: the line 32 4 0 doesn't fit the case"),
    ("echo 33 0 2", "standard input: the line 33 0 2 doesn't fit the case"),
]


def explain(data, *words, program=None, plantool=None, tool=TOOL, **where):
    """Status of `tools/case explain`, what it prints, what it complains of; with these programs, or without a word of one."""
    surroundings = {name: value for name, value in os.environ.items() if name not in ("PLANCHECK", "PLANTOOL")}
    for name, value in (("PLANCHECK", program), ("PLANTOOL", plantool)):
        if value:
            surroundings[name] = str(value)
    done = subprocess.run([sys.executable, tool, "explain", *words], input=data, capture_output=True, env=surroundings, **where)
    return done.returncode, done.stdout.decode("latin-1"), done.stderr.decode("latin-1")


def script(file, text):
    """A program of the shell."""
    file.write_text(f"#!/bin/sh\n{text}\n")
    file.chmod(0o755)
    return file


def example(tally, programs, name, case, lines):
    """Explains the case as the first lines of a block say, for a word of plantool and with changes, and compares with the others; the result."""
    lines = list(lines)
    words = ["--word", *lines.pop(0).split()[1:]] if lines[0].startswith("word ") else []
    changes = lines.pop(0).removeprefix("with ") if lines[0].startswith("with ") else None
    tally.equal(name, (0, "".join(line + "\n" for line in lines), ""), explain(with_changes(case, changes), *words, **programs))
    return int(lines[0].split()[0])


def page(tally, programs):
    """The blocks of the page, each a change of the last case above it: every result has one."""
    text, results = PAGE.read_text(encoding="ascii"), set()
    tally.equal("names of blocks", ["case", "explain"], sorted(set(re.findall("^```(.+)$", text, re.M))))
    cases = [(first, spell("\n".join(lines))) for first, lines in blocks(text, "case")]
    examples = blocks(text, "explain")
    for first, lines in examples:
        try:
            results.add(example(tally, programs, f"{PAGE.name}: line {first}", [case for line, case in cases if line < first][-1], lines))
        except (LookupError, ValueError, subprocess.CalledProcessError) as error:
            tally.equal(f"{PAGE.name}: line {first} can be read", True, error)
    tally.equal("results that are explained", sorted({*results_defined(), *WORDED}), sorted(results))
    tally.equal(f"examples, at least {BLOCKS}", True, len(examples) >= BLOCKS)
    return len(examples)


def readme(tally, program):
    """What README.md shows: its command, run in a shell, and all that it prints."""
    shown = re.findall(r"^    \$ (.*\| tools/case explain)\n((?:    [^$].*\n)+)", README.read_text(encoding="utf-8"), re.M)
    tally.equal("README.md has one command with explain", 1, len(shown))
    for command, want in shown:
        done = subprocess.run(["bash", "-c", command], cwd=ROOT, env={**os.environ, "PLANCHECK": program}, stdout=subprocess.PIPE)
        tally.equal(f"README.md: {command}", re.sub("^    ", "", want, flags=re.M), done.stdout.decode("latin-1"))


def where_it_reads(tally, program, folder):
    """A file, standard input by no word or by -, and more of it than a program reads."""
    (folder / "comma").write_bytes(COMMA)
    want = explain(COMMA, program=program)
    tally.equal("the comma's line", (0, "14 4 18\n"), (want[0], want[1][:8]))
    tally.equal("standard input by -", want, explain(COMMA, "-", program=program))
    tally.equal("a file", want, explain(b"", folder / "comma", program=program))
    tally.equal("bytes that nobody reads", want, explain(COMMA + bytes(3_000_000), program=program))
    tally.equal("a program that reads nothing", 0, explain(TWELVE * 1_000, program=script(folder / "deaf", "echo 24 15000 0"))[0])
    status, printed, _ = explain(b"", "/dev/zero", program=program)
    tally.equal("a file without end", (0, "12 0 0\n"), (status, printed[:7]))


def failing(tally, folder):
    """Programs that print no line, or one that doesn't fit; and what is no program: there is no answer."""
    program = folder / "program"
    for text, why in NO_LINE:
        script(program, f"cat >/dev/null\n{text}")
        tally.equal(text, (2, "", f"case: {why.replace('PROGRAM', str(program))}\n"), explain(TWELVE, program=program))
    program.chmod(0o644)
    for absent in (program, folder / "absent", folder):
        status, printed, message = explain(TWELVE, program=absent)
        tally.equal(f"no program: {absent.name}", (2, "", f"case: cannot run {absent}: "), (status, printed, message[:19 + len(str(absent))]))


def unnamed(tally, folder):
    """Where no program is named, it is the one of the tool's own project, also through a link and from elsewhere."""
    repository(folder / "root", ROOT / "plancheck")
    (folder / "link").symlink_to(folder / "root" / "tools" / "case")
    programs = folder / "root" / "target" / "bin"
    programs.mkdir(parents=True)
    for name, words in (("plancheck", []), ("plantool", ["set", "1", "7"])):
        script(programs / name, f"cat >{folder}/read\necho \"$@\" >{folder}/words\necho 24 15 0")
        status, printed, message = explain(TWELVE, *["--word"][:len(words)], *words, tool=folder / "link", cwd="/")
        tally.equal(f"{name}: no program is named", (0, "24 15 0\n", ""), (status, printed[:8], message))
        given = (folder / "words").read_text().split(), (folder / "read").read_bytes()
        tally.equal(f"{name}: what the program is given", (words, TWELVE), given)


def seen(byte):
    """A byte as it is to be shown."""
    return {92: r"\\"}.get(byte, chr(byte) if 32 <= byte < 127 else rf"\x{byte:02x}")


def bad_byte(result, record, what):
    """The byte under which the caret is: of a record without its end or without a line feed there, the first that doesn't print."""
    odd = re.search(rb"[^ -~]", record[:LENGTH - 1])
    last = None if result == 11 else LENGTH - 1
    return {13: 0, 14: what}.get(result, odd.start() if odd else last)


def bytes_shown(tally, name, data, lines):
    """Of the results 11 to 14: the record's bytes can be read back, and the caret is under the bad one, or there is none."""
    result, where, what = map(int, lines[0].split())
    record = cut(data)[where]
    quoted = next(number for number, line in enumerate(lines) if line[0] == '"')
    text = record[:-1] if len(record) == LENGTH and record[-1:] == b"\n" else record
    tally.equal(f"{name}: its bytes", text, unspelled(lines[quoted][1:-1]))
    bad = bad_byte(result, record, what)
    carets = [] if bad is None else [" " * (1 + len("".join(map(seen, record[:bad])))) + "^"]
    tally.equal(f"{name}: the caret", carets, [line for line in lines if line.strip(" ") == "^"])


def scrambled(draw):
    """Bytes at random, all of them or some of the twelve rounds, weighed or not; with line feeds at the ends of records, and letters and digits often; or damaged."""
    data = bytearray(draw.choice([TWELVE, WEIGHED]) if draw.random() < 0.6 else draw.randbytes(draw.randrange(300)))
    for _ in range(draw.choice([0, 1, 1, 2, 5]) if data else 0):
        data[draw.randrange(len(data))] = draw.choice([draw.randrange(256), draw.choice(b" 0123456789-"), draw.choice(LETTERS)])
    if draw.random() < 0.5:
        data[LENGTH - 1::LENGTH] = b"\n" * len(data[LENGTH - 1::LENGTH])
    if draw.random() < 0.5 and data:
        data[0] = draw.choice(LETTERS)
    for _ in range(draw.choice([0, 0, 0, 1, 2])):
        data = draw.choice(DAMAGES)[1](data)
    return bytes(data[:draw.randrange(len(data) + 1)] if draw.random() < 0.2 else data)


def lined(programs, name, data, asked=()):
    """A case with what is asked for, and the line that is printed."""
    command = [programs["plantool"], *map(str, asked)] if asked else [programs["program"]]
    return f"{name} {asked}", data, asked, answered(command, data).split("\n")[0]


def many_cases(programs, count):
    """Cases with their names, what is asked for and their lines: stored ones, damaged ones, random bytes."""
    draw = random.Random(1)
    yield from ((case.name, case.data, (), case.line) for case in stored())
    for file in ("fill.tsv", "rounds.tsv"):
        for name, (word, *numbers), output, data in worded(ROOT / "tests" / file):
            yield name, data, (word, *map(int, numbers)), output.split("\n")[0]
    yield from (lined(programs, words, damage(data)) for words, damage in DAMAGES for data in (TWELVE, WEIGHED))
    for number in range(count):
        data = scrambled(draw)
        yield from (lined(programs, f"random bytes {number}", data, asked) for asked in dict.fromkeys([(), draw.choice(ASKED)]))


def named_kinds(tally, kinds):
    """The table of the kinds that fields name, beside the format's: such a field has the range that all of them have, or is the marks."""
    listed = {}
    for record, fields, holds, limits, *_ in table(FORMAT.read_text(encoding="utf-8"), "| record | field |"):
        if limits == "0 to 63" or "marks" in holds:
            [kind] = [kind for kind in ("state", "guard", "move", "sentence") if kind in holds]
            listed.setdefault(record, {}).update({int(field): kind for field in fields.split(", ")})
    tally.equal("the kinds that fields name", listed, kinds)


def many(tally, programs, count):
    """Many cases, explained in this process."""
    sys.path.insert(0, str(ROOT / "tools"))
    import explain as tool

    named_kinds(tally, tool.NAMED_KINDS)
    results, cases = set(), list(many_cases(programs, count))
    for name, data, asked, line in cases:
        try:
            lines = tool.explained(data.decode("latin-1"), line, asked)
        except Exception as error:  # whatever it is, it is a failure
            tally.equal(f"{name}: {data!r}", "explained", repr(error))
            continue
        text = "".join(lines)
        results.add((*asked[:1], int(line.split()[0])))
        tally.equal(f"{name}: lines of print", (line, True), (lines[0], len(lines) > 1 and all(lines) and text.isprintable() and text.isascii()))
        if lines[0][:2] in ("11", "12", "13", "14"):
            bytes_shown(tally, name, data, lines)
        for words in {words for words, _ in DAMAGES if name.startswith(words)}:
            tally.equal(f"{name}: named as what it is", True, words in "\n".join(lines))
    tally.equal("results of stored and random cases", sorted(results_defined()), sorted(result[0] for result in results if len(result) == 1))
    tally.equal("results of words", SAID, SAID & results)
    return len(cases)


def main():
    if len(sys.argv) != 3:
        sys.exit(__doc__)
    program, plantool, tally = *map(os.path.abspath, sys.argv[1:]), Tally("explained")
    programs = {"program": program, "plantool": plantool}
    examples = page(tally, programs)
    readme(tally, program)
    with tempfile.TemporaryDirectory() as name:
        where_it_reads(tally, program, pathlib.Path(name))
        failing(tally, pathlib.Path(name))
        unnamed(tally, pathlib.Path(name))
    cases = many(tally, programs, 600)
    tally.finish(f" ({examples} examples, {len(NO_LINE)} programs that fail, {cases} cases)")


if __name__ == "__main__":
    main()

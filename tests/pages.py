"""What the tests of documents share: fenced blocks, tables, cases in the short notation, changes of a case, the results that are defined."""
import functools
import itertools
import re
import subprocess
import sys

from cases import LENGTH, ROOT

CRATES = ROOT / "crates"
ANSWERS = "answers/specs/Answers.antt"
JUDGED = "meaning/specs/Judged.antt"

PUT = re.compile(r'(put|insert) (\d+) (\d+) "(.*)"')
DELETE = re.compile(r"delete (\d+) (\d+) (\d+)")
CUT = re.compile(r"cut (\d+)")
BUT = re.compile(r"(\d+) ([SWGTFP].*)")
ESCAPED = re.compile(rb"\\(?:x([0-9a-f]{2})|(\\))")


@functools.cache
def spell(notation):
    """The bytes that the notation spells."""
    return subprocess.run([sys.executable, ROOT / "tools" / "case", "spell"], input=notation.encode(), stdout=subprocess.PIPE, check=True).stdout


def cut(data):
    """The records of a file."""
    return [data[start:start + LENGTH] for start in range(0, len(data), LENGTH)]


def blocks(text, name):
    """The fenced blocks with this name: the number of the line after the fence, and the lines."""
    found, lines = [], None
    for number, line in enumerate(text.split("\n"), 1):
        if lines is None and line == "```" + name:
            lines = []
            found.append((number + 1, lines))
        elif line.startswith("```"):
            lines = None
        elif lines is not None:
            lines.append(line)
    return found


def table(text, head):
    """The rows of the table whose first line begins so: their cells."""
    lines = itertools.dropwhile(lambda line: not line.startswith(head), text.split("\n"))
    rows = itertools.takewhile(lambda line: line.startswith("|"), lines)
    return [[cell.strip() for cell in row.strip("|").split("|")] for row in itertools.islice(rows, 2, None)]


def unspelled(text):
    r"""The bytes of a text in which \xNN is a byte and \\ a backslash."""
    return ESCAPED.sub(lambda found: bytes.fromhex(found[1].decode()) if found[1] else b"\\", text.encode())


def changed(data, change):
    """The file after one change: a record in the place of another; bytes written into a record, or inserted before a byte of it; so many deleted from a byte of it on;
    or only so many bytes of the file."""
    if end := CUT.fullmatch(change):
        return data[:int(end[1])]
    if put := PUT.fullmatch(change):
        start, patch = int(put[2]) * LENGTH + int(put[3]), unspelled(put[4])
        gone = len(patch) if put[1] == "put" else 0
    elif delete := DELETE.fullmatch(change):
        start, patch, gone = int(delete[1]) * LENGTH + int(delete[2]), b"", int(delete[3])
    elif but := BUT.fullmatch(change):
        start, patch = int(but[1]) * LENGTH, spell(but[2])
        gone = len(patch)
    else:
        raise ValueError(f"no change of a case: {change}")
    if start + gone > len(data):
        raise ValueError(f"past the end of the case: {change}")
    return data[:start] + patch + data[start + gone:]


def with_changes(data, changes):
    """The file after changes with semicolons between them, or none."""
    for change in re.split("; *", changes) if changes else []:
        data = changed(data, change)
    return data


def results_defined():
    """The numbers of all results in their order: of the tests of a record, then of what a judgement says. (`Ok tt` is 0, `Err` of a variant another.)"""
    answers, judged = ((CRATES / path).read_text(encoding="utf-8") for path in (ANSWERS, JUDGED))
    told = dict(re.findall(r"^told \((?:Err \(?)?(\w+).* = \((\d+),", answers, re.M))
    numbers_of = dict(re.findall(r"^numbers_of \((?:Err \(?)?(\w+).* = numbers (\d+)", answers, re.M))
    tested = re.findall(r"Err \(?(\w+)", re.search(r"^test_order f =\n(.*)", answers, re.M)[1])
    return [int(told[name]) for name in tested] + [int(numbers_of[name]) for name in re.findall(r"^Judged x θ \((?:Err \(?)?(\w+)", judged, re.M)]

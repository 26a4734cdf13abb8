#!/usr/bin/env python3
"""The stored cases (vectors.tsv), those of the words of plantool (fill.tsv, rounds.tsv), and the twelve rounds of document 01 (plancheck's stdin).

As a program, cases.py [FILE] prints each stored case as name TAB expected line TAB its bytes in hex, for the tests in Rust.

Each line of the file: name TAB expected line TAB records TAB edits; '#' starts a comment line. For a word of plantool: name TAB the word and its
numbers TAB all that is printed, with \\n for a line feed, TAB records TAB edits.
records: 'K f1 f2 ...' joined by '/', '.' for a blank field, trailing blanks left off; '' is the empty file.
edits, separated by spaces, applied in order to the bytes: @OFF=HEX overwrite at OFF; !LEN cut to LEN bytes; +HEX append;
-OFF,N delete N bytes; *N repeat the file N times.
"""
import collections
import pathlib
import sys

ROOT = pathlib.Path(__file__).resolve().parent.parent
FIELDS = 8
WIDTH = 7
LENGTH = 58
TWELVE = (ROOT / "crates" / "plancheck" / "stdin").read_bytes()

Stored = collections.namedtuple("Stored", "name line records edits data")
Worded = collections.namedtuple("Worded", "name words output data")


def pack(words):
    """A record of its kind letter and its fields as text, '.' for a blank one."""
    fields = ["" if word == "." else word for word in words[1:]]
    if len(fields) > FIELDS or any(len(field) > WIDTH for field in fields):
        raise ValueError(f"no record: {words}")
    return (words[0] + "".join(field.rjust(WIDTH) for field in fields)).ljust(LENGTH - 1).encode("ascii") + b"\n"


def spelled(records):
    """The bytes of records that are joined by '/'."""
    return b"".join(pack(record.split(" ")) for record in records.split("/") if record)


def with_field(data, record, field, text):
    """The file with one field of a record written anew."""
    at = record * LENGTH + 1 + (field - 1) * WIDTH
    return data[:at] + text.rjust(WIDTH).encode("ascii") + data[at + WIDTH:]


def edited(data, edits):
    for edit in edits.split():
        if edit[0] == "@":
            offset, text = edit[1:].split("=")
            patch = bytes.fromhex(text)
            data = data[:int(offset)] + patch + data[int(offset) + len(patch):]
        elif edit[0] == "!":
            data = data[:int(edit[1:])]
        elif edit[0] == "+":
            data += bytes.fromhex(edit[1:])
        elif edit[0] == "-":
            offset, count = map(int, edit[1:].split(","))
            data = data[:offset] + data[offset + count:]
        elif edit[0] == "*":
            data *= int(edit[1:])
        else:
            raise ValueError(f"no edit: {edit}")
    return data


def rows(path, columns):
    """The lines of a file of cases, in columns; a file that has none, or a line without as many columns, is an error."""
    found = []
    with open(path, encoding="ascii") as lines:
        for number, line in enumerate(lines, 1):
            if line.startswith("#"):
                continue
            found.append(line.rstrip("\n").split("\t"))
            if len(found[-1]) != columns:
                raise ValueError(f"{path}: line {number} has {len(found[-1])} columns, and a case has {columns}")
    if not found:
        raise ValueError(f"{path}: no case")
    return found


def stored(path=ROOT / "tests" / "vectors.tsv"):
    """The stored cases."""
    return [Stored(name, line, records, edits, edited(spelled(records), edits)) for name, line, records, edits in rows(path, 4)]


def worded(path):
    """The cases of a word of plantool."""
    return [
        Worded(name, words.split(" "), output.replace("\\n", "\n"), edited(spelled(records), edits))
        for name, words, output, records, edits in rows(path, 5)
    ]


if __name__ == "__main__":
    for case in stored(*sys.argv[1:]):
        print(case.name, case.line, case.data.hex(), sep="\t")

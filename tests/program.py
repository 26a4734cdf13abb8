#!/usr/bin/env python3
"""program.py PROGRAM [FILE]: the stored cases, and inputs of all shapes, fed to the program's standard input; its lines compared.

Where a read fails there must be no line, and a message on standard error. Then files that are named to it as arguments: each has its line with its
name, or a message, and the others have theirs all the same.
"""
import errno
import os
import pathlib
import shutil
import subprocess
import sys
import tempfile

from cases import TWELVE, pack, spelled, stored, with_field
from tally import Tally

STATE = pack(["S", "1"])
PLACE = pack(["P", "0", "0", "1"])
# as many records of each kind as there is room for, 213 in all: an endless loop of 64 places
FULL = STATE * 32 + spelled("W 0 0 0 0" + "/G 0 0 0 0 0" * 32 + "/T 0 0 0 0 0 0" * 64 + "/F 0" * 20 + "/P 0 . 1048575 64 . 0" + "/P 0 0 1048575" * 63)

# What the program says where it can't write.
FULL_DISK = f"plancheck: standard output: {os.strerror(errno.ENOSPC)}\n"
# The most bytes of an argument that the program reads; a path has one less.
PATH_MAX = 4096
# Names that can't be read, and why.
UNREAD = {
    "absent": errno.ENOENT,
    "folder": errno.EISDIR,
    "": errno.ENOENT,
    "plain/plain": errno.ENOTDIR,
    "/proc/self/mem": errno.EIO,
    "n" * 256: errno.ENAMETOOLONG,
    "./" * (PATH_MAX // 2): errno.ENAMETOOLONG,
}
# Names that are not UTF-8, which the program can't open.
NO_TEXT = ["caf\xe9", "\xff"]


def answered(command, data):
    """What a program prints."""
    try:
        return subprocess.run(command, input=data, stdout=subprocess.PIPE, check=True).stdout.decode("latin-1")
    except BrokenPipeError:
        return "(the pipe broke)"


def shapes():
    """Inputs with their lines: the lines of document 01 that no proof has by name, and files of all shapes."""
    for rounds, line in (("1", "0 0 0"), ("12", "0 0 0"), ("1000000", "0 0 0"), ("1000001", "16 11 5")):
        yield f"twelve with rounds {rounds}", with_field(TWELVE, 11, 5, rounds), line
    yield "place 0 in state 1", with_field(TWELVE, 11, 1, "1"), "31 0 0"
    yield "nothing", b"", "24 0 0"
    yield "one byte", b"S", "11 0 0"
    yield "57 bytes", STATE[:57], "11 0 0"
    yield "58 bytes", STATE, "24 1 0"
    yield "59 bytes", STATE + b"S", "11 1 0"
    yield "all NUL", bytes(58), "12 0 0"
    yield "all spaces", b" " * 58, "12 0 0"
    yield "CR LF", STATE[:57] + b"\r\n", "12 0 0"
    yield "214 states", STATE * 214, "22 32 0"
    yield "213 records", FULL, "0 0 0"
    yield "213 records and 57 bytes", FULL + PLACE[:57], "11 213 0"
    yield "214 records", FULL + PLACE, "22 213 0"
    yield "214 records and other bytes", FULL + PLACE + bytes(100), "22 213 0"
    yield "100 MB", bytes(100_000_000), "12 0 0"


def slowly(command):
    """A pipe that gives a byte at a time."""
    process = subprocess.Popen(command, stdin=subprocess.PIPE, stdout=subprocess.PIPE, bufsize=0)
    for byte in TWELVE:
        process.stdin.write(bytes([byte]))
    process.stdin.close()
    return process.stdout.read().decode("latin-1")


def refused(command, **where):
    """Whether there is no line, and a message."""
    run = subprocess.run(command, capture_output=True, **where)
    return run.stdout == b"" and run.stderr != b""


def unreadable(tally, command):
    """A standard input that can't be read."""
    tally.equal("a directory is refused", True, refused(command, stdin=os.open("/", os.O_RDONLY)))
    tally.equal("a closed standard input is refused", True, refused(command, preexec_fn=lambda: os.close(0)))


def told(command, folder, names, **where):
    """What the program prints and what it says of named files of a folder, a character for each byte."""
    names = [name.encode("latin-1") for name in names]
    usual = {"stdout": subprocess.PIPE, "stderr": subprocess.PIPE}
    run = subprocess.run([os.path.abspath(command[0]), *names], cwd=folder, **{**usual, **where})
    return (run.stdout or b"").decode("latin-1"), run.stderr.decode("latin-1")


def lines(names, line="0 0 0"):
    """The lines of named files that all have the same numbers."""
    return "".join(f"{line} {name}\n" for name in names)


def stored_at_once(tally, command, folder, cases):
    """The stored cases in one process, each in a file of its number."""
    names = [str(number) for number, case in enumerate(cases)]
    for name, case in zip(names, cases):
        (folder / name).write_bytes(case.data)
    printed, said = told(command, folder, names)
    tally.equal("the messages of the stored cases", "", said)
    tally.equal("the lines of the stored cases", len(cases), printed.count("\n"))
    for name, case, line in zip(names, cases, printed.split("\n")):
        tally.equal(f"{case.name}, named", f"{case.line} {name}", line)


def names_of_all_sorts(tally, command, folder):
    """Names, each alone and all in order; the longest is one that a path can just have."""
    names = ["plain", "two words", "-x", "--", " ", "tab\t", "caf\xc3\xa9", "0 0 0 plain", "./-", "./" * (PATH_MAX // 2 - 3) + "plain"]
    for name in names:
        (folder / os.fsdecode(name.encode("latin-1"))).write_bytes(TWELVE)
        tally.equal(f"the name {name[:20]!r}", (lines([name]), ""), told(command, folder, [name]))
    tally.equal("names in order", (lines(names), ""), told(command, folder, names))
    tally.equal("a name twice", (lines(["plain", "plain"]), ""), told(command, folder, ["plain", "plain"]))
    (folder / "short").write_bytes(b"S")
    tally.equal("other numbers", ("0 0 0 plain\n11 0 0 short\n", ""), told(command, folder, ["plain", "short"]))


def named_input(tally, command, folder):
    """Standard input among named files; what is left of it is nothing."""
    mixed = ["plain", "-", "plain"]
    tally.equal("standard input by name", (lines(mixed), ""), told(command, folder, mixed, input=TWELVE))
    tally.equal("standard input twice", ("0 0 0 -\n24 0 0 -\n", ""), told(command, folder, ["-", "-"], input=TWELVE))
    want = (lines(["plain", "plain"]), f"plancheck: -: {os.strerror(errno.EBADF)}\n")
    tally.equal("a closed standard input by name", want, told(command, folder, mixed, preexec_fn=lambda: os.close(0)))


def unread(tally, command, folder):
    """Names that have no line: a message for each, and the files before and behind it have theirs."""
    (folder / "folder").mkdir()
    beside = lines(["plain", "plain"])
    for name, why in UNREAD.items():
        want = (beside, f"plancheck: {name}: {os.strerror(why)}\n")
        tally.equal(f"the unread name {name[:20]!r}", want, told(command, folder, ["plain", name, "plain"]))
    name = "n" * PATH_MAX + "more"
    want = (beside, f"plancheck: {name[:PATH_MAX]}: {os.strerror(errno.ENAMETOOLONG)}\n")
    tally.equal("a name that is too long to be read", want, told(command, folder, ["plain", name, "plain"]))
    (folder / "two\nlines").write_bytes(TWELVE)
    want = (beside, "plancheck: a name with a line feed has no line: two\nlines\n")
    tally.equal("a name of two lines", want, told(command, folder, ["plain", "two\nlines", "plain"]))
    for name in NO_TEXT:
        (folder / os.fsdecode(name.encode("latin-1"))).write_bytes(TWELVE)
        want = (beside, f"plancheck: {name}: the name isn't UTF-8\n")
        tally.equal(f"the name {name!r}", want, told(command, folder, ["plain", name, "plain"]))
    tally.equal("no file at all", ("", f"plancheck: absent: {os.strerror(errno.ENOENT)}\n"), told(command, folder, ["absent"]))


def forbidden(tally, command, folder):
    """A file that may not be read; root may read any, and is nobody here."""
    program = shutil.copy(command[0], folder / "program")
    folder.chmod(0o711)
    (folder / "secret").write_bytes(TWELVE)
    (folder / "secret").chmod(0)
    nobody = {"user": 65534, "group": 65534, "extra_groups": []} if os.geteuid() == 0 else {}
    want = (lines(["plain", "plain"]), f"plancheck: secret: {os.strerror(errno.EACCES)}\n")
    tally.equal("a forbidden file", want, told([program], folder, ["plain", "secret", "plain"], **nobody))


def full_disk(tally, command, folder):
    """A standard output that takes nothing: one message, whatever is named behind."""
    with open("/dev/full", "wb") as full:
        for what, names in (("one", ["plain"]), ("two", ["plain", "plain"]), ("none", [])):
            tally.equal(f"a full disk and {what} named", ("", FULL_DISK), told(command, folder, names, stdout=full, input=TWELVE))


def many(tally, command, folder):
    """10,000 files in one process."""
    names = [f"{number:05}" for number in range(10_000)]
    for name in names:
        (folder / name).write_bytes(TWELVE)
    tally.equal("10,000 files", (lines(names), ""), told(command, folder, names))


def main():
    if len(sys.argv) not in (2, 3):
        sys.exit(__doc__)
    command, tally, cases = sys.argv[1:2], Tally("program"), stored(*sys.argv[2:])
    for case in cases:
        tally.equal(case.name, case.line + "\n", answered(command, case.data))
    for name, data, line in shapes():
        tally.equal(name, line + "\n", answered(command, data))
    tally.equal("a byte at a time", "0 0 0\n", slowly(command))
    unreadable(tally, command)
    for test in (names_of_all_sorts, named_input, unread, forbidden, full_disk, many):
        with tempfile.TemporaryDirectory() as folder:
            (pathlib.Path(folder) / "plain").write_bytes(TWELVE)
            test(tally, command, pathlib.Path(folder))
    with tempfile.TemporaryDirectory() as folder:
        stored_at_once(tally, command, pathlib.Path(folder), cases)
    tally.finish()


if __name__ == "__main__":
    main()

#!/usr/bin/env python3
"""wrapper.py: the wrapper ./plancheck: its status by verdict, what it prints where, and usage that is told before anything is built.

First over the program of this repository; then in a small one, whose program only writes a line, where the wrapper has to build it. What README.md
shows of it, run.
"""
import os
import pathlib
import re
import resource
import shutil
import signal
import subprocess
import sys
import tempfile

from cases import LENGTH, ROOT, TWELVE, with_field
from tally import Tally

WRAPPER = ROOT / "plancheck"
ACCEPTED = (0, "0 0 0\n", "")
# A program that only writes a line, and one that reads past the end of two bytes.
WRITES = '#![tactic(auto)]\n\nuse std::io;\n\nfn main(rt: HostRuntime) -> io::Result<()> {\n    rt.write_all(b"%s\\n")\n}\n'
PAST_THE_END = "#![tactic(auto)]\n\nuse std::io;\n\nfn main(rt: HostRuntime) -> io::Result<()> {\n    let bytes = [0u8; 2];\n    rt.write_all(&bytes[..3])\n}\n"
IS_NOTATION = "this is the short notation: tools/case spell turns it into a case file"
NO_FILE, IS_FOLDER, NO_ROOM, TOO_LARGE = "No such file or directory", "Is a directory", "No space left on device", "File too large"
# Files that are refused, by their lines.
REFUSED = {
    "11 15 0": TWELVE + b"\n",
    "14 4 18": with_field(TWELVE, 4, 3, "1,250"),
    "24 0 0": b"",
    "24 14 0": TWELVE[:-LENGTH],
    "33 1 1": with_field(TWELVE, 4, 3, "1251"),
}
# Arguments that are bad usage, and what is said of them first.
BAD_USAGE = [
    ([], "no file"),
    (["--"], "no file"),
    (["--helpp"], "there is no option '--helpp'; the nearest is --help"),
    (["-x"], "there is no option '-x'"),
    (["plain", "--version=1"], "there is no option '--version=1'; the nearest is --version"),
    (["-", "plain", "-"], "standard input can be read once only"),
]


def run(*command, **where):
    """Status, standard output and standard error, a character for each byte."""
    usual = {"stdout": subprocess.PIPE, "stderr": subprocess.PIPE, "timeout": 300}
    if "input" not in where:
        usual["stdin"] = subprocess.DEVNULL
    done = subprocess.run(command, **{**usual, **where})
    return done.returncode, (done.stdout or b"").decode("latin-1"), (done.stderr or b"").decode("latin-1")


def refused(tally, what, status, answer):
    tally.equal(what, (status, "", "a message"), (*answer[:2], "a message" if answer[2] else ""))


def says(name, *parts):
    """What a wrapper says: its name, and parts with colons between."""
    return ": ".join((name, *parts)) + "\n"


def linked_tools(folder):
    """A folder with what a wrapper calls beside rt."""
    (folder / "python3").symlink_to(sys.executable)


def repository(folder, wrapper):
    """A small repository with a wrapper and a crate of its program that does nothing yet: the crate's folder."""
    crate = folder / "crates" / wrapper.name
    (crate / "src").mkdir(parents=True)
    shutil.copytree(ROOT / "tools", folder / "tools", ignore=shutil.ignore_patterns("__pycache__"))
    for file in (wrapper, ROOT / "VERSION"):
        shutil.copy(file, folder)
    (folder / "crates.txt").write_text(f"# a crate\n{wrapper.name}:\n")
    return crate


def answers(tally, folder, path):
    """What gives a line. The path has no rt, so nothing can be built."""
    for name in ("plain", "two words", "-x"):
        (folder / name).write_bytes(TWELVE)
    (folder / "link").symlink_to(WRAPPER)
    here = {"cwd": folder, "env": {"PATH": f"{path}:{ROOT}"}}
    for what, command in (
        ("a file", [WRAPPER, "plain"]),
        ("a name with a space", [WRAPPER, "two words"]),
        ("a name with a dash", [WRAPPER, "./-x"]),
        ("a name behind the end of options", [WRAPPER, "--", "-x"]),
        ("through a link", ["./link", "plain"]),
        ("found in the path", ["plancheck", "plain"]),
    ):
        tally.equal(what, ACCEPTED, run(*command, **here))
    tally.equal("from its own folder", ACCEPTED, run("./plancheck", "crates/plancheck/stdin", **{**here, "cwd": ROOT}))
    tally.equal("with a closed standard input", ACCEPTED, run(WRAPPER, "plain", preexec_fn=lambda: os.close(0), **here))
    with open(folder / "plain", "rb") as file:
        tally.equal("standard input", ACCEPTED, run(WRAPPER, "-", stdin=file, **here))
    for line, data in REFUSED.items():
        tally.equal(f"{line} is refused", (1, line + "\n", ""), run(WRAPPER, "-", input=data, **here))
    tally.equal("a file without end", (1, "12 0 0\n", ""), run(WRAPPER, "/dev/zero", **here))


def several(tally, folder, path):
    """A line for each of several files, and a status for all of them."""
    here = {"cwd": folder, "env": {"PATH": path}}
    names = {line: line.replace(" ", "-") for line in REFUSED}
    for line, name in names.items():
        (folder / name).write_bytes(REFUSED[line])
    good, bad = "0 0 0 plain\n", "".join(f"{line} {name}\n" for line, name in names.items())
    absent, is_folder = says("plancheck", "cannot read absent", NO_FILE), says("plancheck", "cannot read .", IS_FOLDER)
    for what, want, words in (
        ("accepted", (0, good + "0 0 0 two words\n" + good, ""), ["plain", "two words", "plain"]),
        ("behind the end of options", (0, good + "0 0 0 -x\n", ""), ["--", "plain", "-x"]),
        ("refused", (1, good + bad + good, ""), ["plain", *names.values(), "plain"]),
        ("one is absent", (2, good + bad, absent), ["absent", "plain", *names.values()]),
        ("a folder", (2, good, is_folder), ["plain", "."]),
        ("none is there", (2, "", absent + is_folder), ["absent", "."]),
    ):
        tally.equal(f"several: {what}", want, run(WRAPPER, *words, **here))
    for name in (b"caf\xe9", b"\xff", b"caf\xc3\xa9"):
        (folder / os.fsdecode(name)).write_bytes(TWELVE)
        want = (0, f"{good}0 0 0 {name.decode('latin-1')}\n{good}", "")
        tally.equal(f"several: the name {name}", want, run(WRAPPER, "plain", name, "plain", **here))
    tally.equal("several: standard input", (0, good + "0 0 0 -\n", ""), run(WRAPPER, "plain", "-", input=TWELVE, **here))
    status, lines, message = run(WRAPPER, "plain", "line\nfeed", "plain", **here)
    tally.equal("several: a name with a line feed that is absent", (2, good * 2, says("plancheck", r"cannot read 'line\nfeed'", NO_FILE)), (status, lines, message))
    (folder / "line\nfeed").write_bytes(TWELVE)
    status, lines, message = run(WRAPPER, "plain", "line\nfeed", "plain", **here)
    tally.equal("several: a name with a line feed", (2, good * 2, True), (status, lines, "line feed" in message))
    tally.equal("alone: a name with a line feed", ACCEPTED, run(WRAPPER, "line\nfeed", **here))
    status, lines, message = run("bash", "-c", f"{WRAPPER} <(cat plain) <(cat plain)", **{**here, "env": {"PATH": f"{path}:{os.environ['PATH']}"}})
    tally.equal("several: pipes", (0, 2, ""), (status, lines.count("0 0 0 /dev/fd/"), message))


def notation(tally, folder, path):
    """A text in the short notation, or in a case file with a mistake: only the first is said to be one."""
    here = {"cwd": folder, "env": {"PATH": path}}
    example = ROOT / "examples" / "twelve-rounds.case"
    (folder / "notation").write_bytes(example.read_bytes())
    (folder / "long").write_text("S 1 / S 2".ljust(LENGTH - 1) + "\n")
    for name, line in (("notation", "12 0 0"), ("long", "14 0 3")):
        want = says("plancheck", name, IS_NOTATION)
        tally.equal(f"{name}: said", (1, line + "\n", want), run(WRAPPER, name, **here))
        tally.equal(f"{name}: said among others", (1, f"{line} {name}\n0 0 0 plain\n", want), run(WRAPPER, name, "plain", **here))
    tally.equal("standard input: said", says("plancheck", "standard input", IS_NOTATION), run(WRAPPER, "-", input=example.read_bytes(), **here)[2])


def no_answer(tally, folder, path):
    """What gives no answer, and why that is: files that can't be read, and no room for what is printed."""
    (folder / "loop").symlink_to("loop")
    here = {"cwd": folder, "env": {"PATH": path}}
    for name, why in (("absent", NO_FILE), ("loop", "Too many levels of symbolic links"), (".", IS_FOLDER), ("", NO_FILE)):
        tally.equal(f"no file: {name!r}", (2, "", says("plancheck", f"cannot read {name or repr('')}", why)), run(WRAPPER, name, **here))
    closed = run(WRAPPER, "-", preexec_fn=lambda: os.close(0), **here)
    tally.equal("a closed standard input", (2, "", says("plancheck", "cannot read standard input", "Bad file descriptor")), closed)
    for words in (["plain"], ["plain", "plain"], ["--help"], ["--version"]):
        no_room(tally, "plancheck", [WRAPPER, *words], here)
    unheard(tally, WRAPPER, **here)


def no_room(tally, name, command, here):
    """Where standard output has no room this is told, with status 2; where nobody reads it the call ends as other programs do."""
    with open("/dev/full", "wb") as full:
        tally.equal(f"{command[1:]}: a full disk", (2, "", says(name, "standard output", NO_ROOM)), run(*command, stdout=full, **here))
    reader, writer = os.pipe()
    os.close(reader)
    tally.equal(f"{command[1:]}: a closed pipe", (-signal.SIGPIPE, "", ""), run(*command, stdout=writer, **here))
    os.close(writer)


def unheard(tally, *command, **here):
    """Where nobody reads what is said of bad usage, the status is the same."""
    reader, writer = os.pipe()
    os.close(reader)
    tally.equal(f"{command}: nobody reads what is said", (2, "", ""), run(*command, "--absent", stderr=writer, **here))
    os.close(writer)


def little_room(bytes_):
    """Limits the files that a process writes to so many bytes."""
    return lambda: resource.setrlimit(resource.RLIMIT_FSIZE, (bytes_, bytes_))


def usage(tally, wrapper, here):
    """What is told without a program, and with nothing to build one: of a small repository."""
    for option in ("-h", "--help"):
        status, text, message = run(wrapper, option, **here)
        tally.equal(f"{option} without a program", (0, "", f"usage: ./{wrapper.name} "), (status, message, text[:len(wrapper.name) + 10]))
        tally.equal(f"{option} says the status", True, all(f"{number}: " in text for number in ("Status 0", "1", "2")))
    version = (ROOT / "VERSION").read_text()
    tally.equal("--version without rt", (0, f"Redwoodjig {version}the Rattle toolchain (rt) is missing\n", ""), run(wrapper, "--version", **here))
    kit = subprocess.run(["rt", "version"], stdout=subprocess.PIPE).stdout.decode()
    tally.equal("--version", (0, f"Redwoodjig {version}{kit}", ""), run(wrapper, "--version"))


def told_first(tally, wrapper, here):
    """What is told before anything is built, of a repository in which nothing is."""
    usage(tally, wrapper, here)
    for words, why in BAD_USAGE:
        want = says("plancheck", why) + "usage: ./plancheck FILE ..   (- for standard input)\n"
        tally.equal(f"bad usage: {words}", (2, "", want), run(wrapper, *words, **here))
    for words in (["absent"], ["absent", "absent"]):
        want = says("plancheck", "cannot read absent", NO_FILE) * len(words)
        tally.equal(f"{words} is told before anything is built", (2, "", want), run(wrapper, *words, **here))
    status, line, message = run(wrapper, "/dev/null", **here)
    tally.equal("no program and no rt", (2, "", True), (status, line, "rt is missing" in message))


def builds(tally, command, crate, program):
    """The wrapper builds its program where it is absent or older than the crates, and only then."""
    first, second = (1, "1 2 3\n", ""), (1, "4 5 6\n", "")

    def write(text, line):
        (crate / "src" / "main.rt").write_text(text)
        (crate / "stdout").write_text(line)

    write(WRITES % "1 2 3", "1 2 3\n")
    status, line, message = run(*command)
    tally.equal("built from nothing", first[:2], (status, line))
    for part in ("1 crates", "crate 1 of 1: plancheck proved"):
        tally.equal(f"built from nothing: {part}", True, part in message)
    made = program.stat().st_mtime_ns
    tally.equal("not built again", (first, made), (run(*command), program.stat().st_mtime_ns))
    (crate / "src" / "main.rt").touch()
    tally.equal("touched: nothing is said", first, run(*command))
    tally.equal("touched, and not built again", first, run(*command))
    program.unlink()
    tally.equal("only the program gone", first[:2], run(*command)[:2])
    write(WRITES % "4 5 6", "4 5 6\n")
    tally.equal("built after a change", second[:2], run(*command)[:2])
    tally.equal("built after a change, and not again", second, run(*command))
    write(PAST_THE_END, "")
    refused(tally, "not proved", 2, run(*command))
    tally.equal("not proved: there is a program", False, program.exists())


def failing(tally, command, program):
    """Programs of the shell that print no line, or not one for each file: no answer."""
    for script in ("echo 0 0 0; kill -9 $$", "exit 3", "true", "echo 0 0", "echo 0 0 0 0", "echo 0 0 0; echo 0 0 0", "echo 1.0 0 0"):
        program.write_text(f"#!/bin/sh\n{script}\n")
        program.chmod(0o755)
        refused(tally, f"a program that fails: {script}", 2, run(*command))
    for script in ("echo 0 0 0 /dev/null; kill -9 $$", "echo 0 0 0 /dev/null", "true"):
        program.write_text(f"#!/bin/sh\n{script}\n")
        tally.equal(f"a program that fails with several: {script}", 2, run(*command, "/dev/null")[0])


def small_repository(tally, folder, path):
    """A repository in which nothing is built yet, and whose program only writes a line."""
    crate, program = repository(folder, WRAPPER), folder / "target" / "bin" / "plancheck"
    command = [folder / "plancheck", "/dev/null"]
    told_first(tally, command[0], {"env": {"PATH": path}, "cwd": folder})
    builds(tally, command, crate, program)
    failing(tally, command, program)


def readme(tally, folder):
    """The commands of README.md that judge cases, run in a shell one after the other, and all that they print."""
    for name in ("plancheck", "tools", "examples", "crates"):
        (folder / name).symlink_to(ROOT / name)
    text = (ROOT / "README.md").read_text(encoding="utf-8")
    for title, status in (("Two commands", [0, 0, 1]), ("Cases written by hand", [1, 1, 0])):
        shown = re.findall(r"^    \$ (.*)\n((?:    [^$].*\n)*)", text.split(f"\n## {title}\n")[1].split("\n## ")[0], re.M)
        got = [run("bash", "-c", command, cwd=folder, stderr=subprocess.STDOUT) for command, _ in shown]
        tally.equal(f"README.md: {title}", [(number, re.sub("^    ", "", want, flags=re.M)) for number, (_, want) in zip(status, shown)], [one[:2] for one in got])


def main():
    tally = Tally("wrapper")
    with tempfile.TemporaryDirectory() as name:
        tools, files, small, shown = (pathlib.Path(name) / part for part in ("tools", "files", "small", "shown"))
        for folder in (tools, files, small, shown):
            folder.mkdir()
        linked_tools(tools)
        # after a change of any crate, the next call looks whether the program is built, and may build it
        tally.equal("the program is built", ACCEPTED[:2], run(WRAPPER, ROOT / "crates" / "plancheck" / "stdin", timeout=None)[:2])
        answers(tally, files, tools)
        several(tally, files, tools)
        notation(tally, files, tools)
        no_answer(tally, files, tools)
        small_repository(tally, small, tools)
        readme(tally, shown)
    tally.finish()


if __name__ == "__main__":
    main()

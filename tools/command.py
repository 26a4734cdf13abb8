"""What ./plancheck, ./plantool and tools/case share: files read, programs built and run, what is printed, and how a call ends.

As a program, command.py NAME .. builds programs into target/bin/, where one is absent or older than the crates.
"""
import collections
import difflib
import os
import pathlib
import re
import shutil
import signal
import subprocess
import sys

ROOT = pathlib.Path(__file__).resolve().parent.parent
# The status of a call, as grep and cmp have it: accepted or done; refused; no answer (usage, unreadable, not built, the program failed, no room).
DONE, REFUSED, NO_ANSWER = range(3)
LINE = re.compile(rb"([0-9]+) ([0-9]+) ([0-9]+)\n")
NUMBER = re.compile("0|[1-9][0-9]{0,18}")
NO_NUMBER = "is no number in plain digits, at most 19, without a 0 in front"
# More bytes of a case than any program reads. (What stands behind its 214th record can't change an answer: casefile/specs/Bounded.antt.)
MOST = 1 << 20
CHUNK = 1 << 16
# What rt says of each crate that it proves, last of all whether it is; and then that it runs the program, where all are.
CRATE, PROVED, RUNS = re.compile(r"crate (\w+): "), re.compile(r"logic=(not-)?proved\b"), "rt: running "

# A word of plantool: names for its numbers; what comes of it, a case file behind the program's line or the line alone; and that in words.
FILE, ALONE = "a file behind the line", "the line alone"
Word = collections.namedtuple("Word", "numbers product gives")
WORDS = {
    "fill": Word([], FILE, "the case file with the right marks in the place of its own"),
    "rounds": Word(["LOOP"], ALONE, "0, and the least and the greatest rounds of a loop with which the case is accepted"),
    "set": Word(["LOOP", "ROUNDS"], FILE, "the case file with these rounds in a loop"),
}


class NoAnswer(Exception):
    """Why there is no answer."""


class BadUsage(NoAnswer):
    """What is wrong with the arguments."""


# ---- what is said and printed


def tell(text):
    """Writes lines for a person to standard error; that nobody reads them changes nothing."""
    try:
        os.write(2, f"{text}\n".encode("utf-8", "surrogateescape"))
    except OSError:
        pass


def say(text):
    """Says something to a person, with the name that was called in front."""
    tell(f"{pathlib.Path(sys.argv[0]).name}: {text}")


def put(data):
    """Writes bytes to standard output, all of them and at once. A reader that has enough ends this as it ends any program; a full disk is told."""
    try:
        while data:
            data = data[os.write(1, data):]
    except BrokenPipeError:
        end_by(signal.SIGPIPE)
    except OSError as error:
        raise NoAnswer(f"standard output: {error.strerror}") from None


def end_by(number):
    """Ends this process by a signal."""
    signal.signal(number, signal.SIG_DFL)
    os.kill(os.getpid(), number)
    sys.exit(NO_ANSWER)  # where the signal is held back


def version():
    """The project's version, and that of the toolchain."""
    kit = "the Rattle toolchain (rt) is missing"
    if shutil.which("rt"):
        kit = subprocess.run(["rt", "version"], stdout=subprocess.PIPE).stdout.decode("latin-1").strip()
    return f"Redwoodjig {(ROOT / 'VERSION').read_text(encoding='ascii').strip()}\n{kit}\n".encode()


def nearest(what, word, known):
    """That there is no such word, with the one that is most like it."""
    like = difflib.get_close_matches(word, known, 1)
    return f"there is no {what} {word!r}" + (f"; the nearest is {like[0]}" if like else "")


def end_with(main, usage=""):
    """Ends the process with the status that a function gives for the arguments. Where there is no answer, says why; and the usage where that is bad."""
    try:
        status = main(sys.argv[1:])
    except NoAnswer as why:
        say(f"{why}\n{usage.strip()}" if isinstance(why, BadUsage) else why)
        status = NO_ANSWER
    except KeyboardInterrupt:
        end_by(signal.SIGINT)
    sys.exit(status)


def arguments(words, known):
    """The options among the arguments, and the others. `--` ends options, and - is none."""
    options, others = set(), []
    for at, word in enumerate(words):
        if word == "--":
            return options, others + words[at + 1:]
        if not word.startswith("-") or word == "-":
            others.append(word)
        elif word in known:
            options.add(word)
        else:
            raise BadUsage(nearest("option", word, known))
    return options, others


# ---- files


def named(file):
    """A file's name as it is said: so that all of it can be seen."""
    return "standard input" if file == "-" else file if file and file.isprintable() else ascii(file)


def read(file, most=MOST):
    """The bytes of a file, or of standard input where it is -; no more than so many."""
    parts, left = [], most
    try:
        number = 0 if file == "-" else os.open(file, os.O_RDONLY)
        while left and (part := os.read(number, min(left, CHUNK))):
            parts.append(part)
            left -= len(part)
        if file != "-":
            os.close(number)
    except OSError as error:
        raise NoAnswer(f"cannot read {named(file)}: {error.strerror}") from None
    return b"".join(parts)


# ---- programs


def listed():
    """The crates, each with those that it stands on."""
    lines = [line.split("#")[0].split(":") for line in (ROOT / "crates.txt").read_text(encoding="ascii").splitlines()]
    return {line[0].split()[0]: line[1].split() for line in lines if len(line) == 2}


def below(name):
    """All of the project that a crate stands on, each behind those that it stands on, and last the crate: the order in which rt proves them."""
    crates, found = listed(), []

    def add(crate):
        if crate in crates and crate not in found:
            for other in crates[crate]:
                add(other)
            found.append(crate)

    add(name)
    return found


def is_older(program):
    """Whether a program is older than crates.txt or something in the crates, but for what rt makes there."""
    made, paths = program.stat().st_mtime_ns, [ROOT / "crates.txt"]
    for folder, folders, files in os.walk(ROOT / "crates"):
        folders[:] = [name for name in folders if name != "out"]
        paths += [os.path.join(folder, name) for name in (".", *files)]
    return any(os.lstat(path).st_mtime_ns > made for path in paths)


def prove(name):
    """Has rt prove and build a program, and says each crate when it is proved; nothing of those that are unchanged. Whether all are.

    rt runs a program that it has built, so this one gets no input, and what it prints is thrown away.
    """
    crates, crate, is_built = below(name), "", False
    how = {"stdin": subprocess.DEVNULL, "stdout": subprocess.DEVNULL, "stderr": subprocess.PIPE}
    with subprocess.Popen(["rt", "run"], cwd=ROOT / "crates" / name, **how) as process:
        for line in process.stderr:
            line = line.decode("latin-1")
            is_built = is_built or line.startswith(RUNS)
            if is_built:
                continue  # what the program says
            if found := CRATE.match(line):
                crate = found[1]
            elif (found := PROVED.match(line)) and crate in crates:
                say(f"crate {crates.index(crate) + 1} of {len(crates)}: {crate} {'NOT PROVED' if found[1] else 'proved'}")
    return is_built


def build(name, program):
    """Proves and builds a program, and copies it from where rt leaves it."""
    if not shutil.which("rt"):
        raise NoAnswer("rt is missing: the program is proved and built by the Rattle toolchain")
    if not program.exists():
        say(f"proving and building the program into target/: {len(below(name))} crates, some minutes from nothing")
    if not prove(name):
        program.unlink(missing_ok=True)
        raise NoAnswer(f"not built: 'rt check' in crates/{name} says more")
    program.parent.mkdir(parents=True, exist_ok=True)
    new = program.with_name(f"{name}.{os.getpid()}")
    shutil.copy(ROOT / "crates" / name / "out" / name, new)
    new.replace(program)


def built(name):
    """The program of this name, built if there is none, or one that is older than the crates."""
    program = ROOT / "target" / "bin" / name
    if not os.access(program, os.X_OK) or is_older(program):
        build(name, program)
    return program


def run(program, words, data):
    """What a program prints for a case, and the three numbers of its first line."""
    try:
        done = subprocess.run([program, *words], input=data, stdout=subprocess.PIPE)
    except OSError as error:
        raise NoAnswer(f"cannot run {program}: {error.strerror}") from None
    if done.returncode:
        raise NoAnswer(f"no line: {program} ended with status {done.returncode}")
    line = LINE.match(done.stdout)
    if not line:
        raise NoAnswer(f"no line: {program} printed {ascii(done.stdout.decode('latin-1')):.80}, which isn't three numbers")
    told = [int(number) for number in line.groups()]
    behind, follow = len(done.stdout) - line.end(), told[1] if words and WORDS[words[0]].product == FILE and not told[0] else 0
    if behind != follow:
        raise NoAnswer(f"{program} printed {behind} bytes behind its line, and {follow} belong there")
    return done.stdout, told


def main(names):
    """Builds programs, for the tests and the benchmarks."""
    for name in names:
        built(name)
    return DONE


if __name__ == "__main__":
    end_with(main)

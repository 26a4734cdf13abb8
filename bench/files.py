#!/usr/bin/env python3
"""files.py PLANCHECK: files judged a second by the program, in one process and in one for each; at least 5 times as many are wanted in one.

The files are small: the twelve rounds, under 10,000 names.
"""
import os
import pathlib
import subprocess
import sys
import tempfile
import time

FILES, ALONE, LIMIT = 10_000, 1_000, 5
TWELVE = (pathlib.Path(__file__).resolve().parent.parent / "crates" / "plancheck" / "stdin").read_bytes()


def together(program, names):
    """Files a second in one process."""
    began = time.perf_counter()
    lines = subprocess.run([program, *names], stdout=subprocess.PIPE, check=True).stdout
    took = time.perf_counter() - began
    if lines.count(b"0 0 0 ") != len(names):
        sys.exit("files: a line is missing")
    return len(names) / took


def apart(program, names):
    """Files a second with a process for each, started as fast as can be."""
    began = time.perf_counter()
    for name in names:
        files = [(os.POSIX_SPAWN_OPEN, 0, name, os.O_RDONLY, 0), (os.POSIX_SPAWN_OPEN, 1, os.devnull, os.O_WRONLY, 0)]
        os.waitpid(os.posix_spawn(program, [program], os.environ, file_actions=files), 0)
    return len(names) / (time.perf_counter() - began)


def main():
    if len(sys.argv) != 2:
        sys.exit(__doc__)
    program = os.path.abspath(sys.argv[1])
    with tempfile.TemporaryDirectory() as folder:
        names = [os.path.join(folder, str(number)) for number in range(FILES)]
        for name in names:
            pathlib.Path(name).write_bytes(TWELVE)
        one, each = together(program, names), apart(program, names[:ALONE])
    print(f"{FILES:,} files: {one:,.0f} a second in one process, {each:,.0f} with a process for each, ratio {one / each:.0f} (at least {LIMIT})")
    sys.exit(0 if one >= LIMIT * each else 1)


if __name__ == "__main__":
    main()

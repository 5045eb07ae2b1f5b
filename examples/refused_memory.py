#!/usr/bin/env python3
"""Refuses each allocation of a run in turn, one at a time, and checks how each run ends.

    examples/refused_memory.py                     # the scripts first.iopt and forks.iopt of this folder
    examples/refused_memory.py SCRIPT ..           # others

The first allocation is one for the words of the command line. A run in which one is refused has to end with exit status 6 and
nothing put, or with status 0 and the whole text. The toolchain doesn't say whether a run came to the allocation that was to be
refused, so it goes on until ten runs after one another end with the whole text. Each run is built anew, some ten seconds each.
"""
import pathlib
import subprocess
import sys

HERE = pathlib.Path(__file__).resolve().parent
CRATE = HERE.parent / "crates" / "iopt"
MEMORY = 6
IN_A_ROW = 10


def attempt(text, refused):
    """How a run ends in which this allocation is refused: its exit status, and what it put."""
    ran = subprocess.run(["rt", "try", "--fail-alloc", str(refused), "--", "run"], cwd=CRATE, input=text, capture_output=True, timeout=900)
    return ran.returncode, ran.stdout


def refuse_each(script):
    """How many runs of a script ended for want of memory, each of them as it has to."""
    text = script.read_bytes()
    status, whole = attempt(text, 2**31)
    if status or not whole:
        sys.exit(f"{script.name}: ends with status {status} where no allocation is refused")
    ended = refused = done = 0
    while done < IN_A_ROW:
        refused += 1
        status, put = attempt(text, refused)
        if (status, put) == (0, whole):
            done += 1
        elif (status, put) == (MEMORY, b""):
            done, ended = 0, ended + 1
        else:
            sys.exit(f"{script.name}: allocation {refused} is refused, and it ends with status {status} and {len(put)} bytes put")
    return ended, refused


def main():
    for script in [pathlib.Path(p) for p in sys.argv[1:]] or [HERE / "first.iopt", HERE / "forks.iopt"]:
        ended, refused = refuse_each(script)
        print(f"{script.name}: of {refused} allocations, one refused a run, {ended} end the run for want of memory with nothing put; the others leave the whole text")


if __name__ == "__main__":
    main()

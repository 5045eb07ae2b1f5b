#!/usr/bin/env python3
"""Counts the instructions of pt_bench's loads, and prints a line of docs/PERFORMANCE.md for each format.

    (cd crates/pt_bench && rt run)
    examples/loads.py vtdss4 vmsa64 sv48
    examples/loads.py --over shared vtdss4
    examples/loads.py --over quarter vtdss4
    examples/loads.py --threads vtdss4

`--over` names the holder that the loads run over: `owner`, `shared` or `quarter`. `--threads` takes the processor's time in
place of instructions: of rounds over 1, 2 and 4 leases beside each other.
"""
import argparse
import os
import re
import resource
import subprocess

PROGRAM = os.path.join(os.path.dirname(os.path.abspath(__file__)), "../crates/pt_bench/out/pt_bench")
GRANULES = {"vmsa16": 14, "vmsa64": 16}


OVER = {"owner": [], "shared": ["shared"], "quarter": ["quarter"]}
ROUNDS = 400


def count(*words):
    """The instructions of one run."""
    command = ["valgrind", "--tool=callgrind", "--callgrind-out-file=/dev/null", PROGRAM, *map(str, words)]
    run = subprocess.run(command, capture_output=True, text=True, check=True)
    return int(re.search(r"Collected : (\d+)", run.stderr).group(1))


def line(over, form):
    """The cost of a step of each load, by differences of runs."""
    words = [form, *OVER[over]]
    nothing = count(*words, "pages", 0)

    def step(load, steps):
        return (count(*words, load, steps) - nothing) / steps

    def lookup(load, steps):
        return (count(*words, load, steps, "lookup") - count(*words, load, steps)) / steps

    pages = step("pages", 16384)
    blocks = step("blocks", 4096)
    pages_of_gigabyte = 2 ** (30 - GRANULES.get(form, 12))
    figures = [
        pages, lookup("pages", 16384), 2 * step("unmap", 32768) - pages,
        blocks, lookup("blocks", 4096), 2 * step("unmap-blocks", 8192) - blocks,
        step("sixteen", 4096), step("driver", 1023), lookup("driver", 1023), step("mix", 1024),
    ]
    run = step("gigabytes", 1)
    undone = 2 * step("unmap-gigabytes", 2) - run
    runs = [run / pages_of_gigabyte, undone / pages_of_gigabyte]
    return " | ".join([f"| `{form}`", *(f"{figure:,.0f}" for figure in figures), *(f"{figure:.1f}" for figure in runs)]) + " |"


def seconds(form, leases, rounds):
    """The processor's seconds of one run, in the program and in the system, of all its threads."""
    before = resource.getrusage(resource.RUSAGE_CHILDREN)
    subprocess.run([PROGRAM, form, "threads", str(leases), str(rounds)], capture_output=True, check=True)
    after = resource.getrusage(resource.RUSAGE_CHILDREN)
    return after.ru_utime + after.ru_stime - before.ru_utime - before.ru_stime


def threads_line(form):
    """The milliseconds of a round at each lease, by the least of five runs, and the work of four threads in those of one."""

    def least(leases, rounds):
        return min(seconds(form, leases, rounds) for _ in range(5))

    def a_round(leases):
        return (least(leases, ROUNDS) - least(leases, 0)) / ROUNDS / leases

    one, two, four = (a_round(leases) for leases in (1, 2, 4))
    times = [f"{1000 * time:.2f}" for time in (one, two, four)]
    return " | ".join([f"| `{form}`", *times, f"{4 * one / four:.2f}"]) + " |"


def main():
    parser = argparse.ArgumentParser(description=__doc__.split("\n")[0])
    parser.add_argument("--over", choices=OVER, default="owner")
    parser.add_argument("--threads", action="store_true")
    parser.add_argument("formats", nargs="+")
    words = parser.parse_args()
    for form in words.formats:
        print(threads_line(form) if words.threads else line(words.over, form), flush=True)


main()

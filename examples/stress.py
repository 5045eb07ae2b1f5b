#!/usr/bin/env python3
"""Runs scripts with deep forks many times beside each other, and checks each output against what the definitions allow.

    examples/stress.py 200             # so many scripts, each run five times
    examples/stress.py 200 17 20       # others, each run twenty times

Which map of a short fork lacks frames may differ from run to run. So the set of lines inside forks that the program answered
`map frames` is taken from its replies; with that set the slow book has to give every reply, the census included. No line that its
outermost fork covers may be in the set: by the need of the fork's maps up to it, or by what its branch's maps up to it use. Where the
frames held are at least the script's need the output has to be that of `run --plain`. The program has to be built.
"""
import random
import subprocess
import sys

import slow_book
from slow_book import Book, Run, Scripts


class Shared(Run):
    """The run of a script whose set of lines that lack frames inside forks is given, by their places."""

    def __init__(self, lines, lacking):
        self.lacking, self.inside, self.lacks, self.covered, self.within = lacking, 0, False, set(), set()
        self.positions = {}
        super().__init__(lines)

    def body(self, place, low, high, runs):
        if place > 3:
            self.inside += 1
        last = super().body(place, low, high, runs)
        if place > 3:
            self.inside -= 1
        return last

    def fork(self, place, at, low, high):
        admitted = super().fork(place, at, low, high)
        if admitted and not self.inside:
            self.cover(place)
        return admitted

    def map(self, place, low, high, words):
        self.lacks = self.inside and place in self.lacking
        frames = self.book.frames
        if self.inside:
            self.book.frames = -1 if self.lacks else 2**80
        super().map(place, low, high, words)
        self.book.frames = frames

    def branch(self, place):
        """The places of a branch's lines, from this one on, and the place of the line that ends it."""
        depth, begin = 0, place
        while True:
            word = self.lines[place].split()[0]
            if word in ("with", "end") and not depth:
                return range(begin, place), place
            depth += (word == "fork") - (word == "end")
            place += 1

    def needed(self, place):
        """The positions that the map at a place needs in a new space, found once."""
        if place not in self.positions:
            self.positions[place] = self.found(place)
        return self.positions[place]

    def found(self, place):
        words, form = self.lines[place].split(), self.form
        if words[0] != "map":
            return set()
        va, pa, length = (int(w, 16) for w in words[1:4])
        first, out, count = va // self.page, pa // self.page, length // self.page
        if (va | pa | length) % self.page or not count or first + count > form.pages or out + count > form.outputs:
            return set()
        new = Book(form, self.book.levels, self.book.frames)
        return new.needed(new.tiling(first, out, count, words[4]))

    def need(self, places):
        return sum(min(self.book.frames + 1, max(len(self.needed(p)) - 1, 0)) for p in places)

    def use(self, places):
        return max(len(set().union(*(self.needed(p) for p in places))) - 1, 0)

    def cover(self, place):
        """Notes which lines the outermost fork at a place covers."""
        left, middle = self.branch(place + 1)
        right, _ = self.branch(middle + 1)
        share = self.book.frames - len(self.book.linked())
        left_share = min(self.need(left), share)
        for branch, before, own in ((left, 0, left_share), (right, self.need(left), share - left_share)):
            for at in branch:
                upto = range(branch.start, at + 1)
                forks = any(self.lines[p].startswith("fork") for p in upto)
                if before + self.need(upto) <= share or (not forks and self.use(upto) <= own):
                    self.covered.add(at)
                self.within.add(at)


def forked(seed):
    """A script with many forks, which holds its need, or less, or nothing."""
    made = Scripts(seed)
    pick = random.Random(seed).choice
    lines = made.script()
    body = made.body(4, pick([4, 8, 12])) + made.body(6, pick([1, 3]))
    lines[3:3] = body
    lines[1:3] = ["frames 32768" if made.form.granule == 12 else "frames 2048", "hold 0"]
    need = Shared(lines, set()).need(range(3, len(lines)))
    frames = max(2, pick([need + 2, need, need // 2, need // 4, 3, 8]))
    frames = min(frames, 2048)
    lines[1:3] = [f"frames {frames}", f"hold {min(frames - 1, pick([need, need // 2, 0]))}"]
    return lines, need


def inside_places(lines):
    """The places of the lines inside forks."""
    depth, places = 0, set()
    for place, line in enumerate(lines):
        depth -= line == "end" and depth > 0
        if depth:
            places.add(place)
        depth += line.startswith("fork ")
    return places


def run(lines, *words):
    text = "".join(line + "\n" for line in lines)
    ran = subprocess.run([slow_book.PROGRAM, "run", *words], input=text, capture_output=True, text=True, timeout=120)
    return ran.stdout if ran.returncode == 0 else ran.stderr


def wrong(lines, need, output, plain):
    """What is wrong with an output, if anything, and how many lines lacked frames inside forks."""
    found = [" ".join(l.split()[:5]) if l.startswith("block ") else l for l in output.splitlines()]
    inside = inside_places(lines)
    lacking = {int(l.split()[0]) - 1 for l in found if l.endswith(" map frames")} & inside
    model = Shared(lines, lacking)
    if model.replies != found:
        return next((f"wanted {w}, found {f}" for w, f in zip(model.replies, found) if w != f), "another number of lines"), 0
    if lacking & model.covered:
        return f"covered lines are refused: {sorted(p + 1 for p in lacking & model.covered)}", 0
    if not lacking <= model.within:
        return "a line is refused outside the outermost forks that run", 0
    if need <= int(lines[2].split()[1]) and output != plain:
        return "frames enough are held, and the text is not that of one owner", 0
    return None, len(lacking)


def main():
    count = int(sys.argv[1]) if len(sys.argv) > 1 else 100
    begin = int(sys.argv[2]) if len(sys.argv) > 2 else 0
    times = int(sys.argv[3]) if len(sys.argv) > 3 else 5
    lacked = several = 0
    for seed in range(begin, begin + count):
        lines, need = forked(seed)
        plain = run(lines, "--plain")
        outputs = [run(lines) for _ in range(times)]
        for output in {plain, *outputs}:
            fault, lacks = wrong(lines, need, output, plain)
            if fault:
                print("\n".join(lines))
                sys.exit(f"script {seed}: {fault}")
            lacked += lacks * outputs.count(output)
        several += len(set(outputs)) > 1
    print(f"{count} scripts, {times} runs each: each output is allowed; {lacked} maps lacked frames inside forks, {several} scripts had several outputs")


if __name__ == "__main__":
    main()

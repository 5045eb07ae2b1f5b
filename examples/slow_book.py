#!/usr/bin/env python3
"""Compares the program with a slow book of its own, written apart from the definitions, on random scripts.

    examples/slow_book.py 300         # so many scripts, in all formats
    examples/slow_book.py 300 17      # others

The book is a list of blocks and a set of table positions. Scripts have forks in forks, frames that run out, numbers that are
misaligned, ranges at the borders of tables and of the space, dumps, walks and the census. The program has to be built.
"""
import os
import random
import subprocess
import sys

PROGRAM = os.path.join(os.path.dirname(os.path.abspath(__file__)), "../crates/iopt/out/iopt")


class Format:
    """A format: the log2 of a page's bytes, of a table's entries and of the spaces, levels, and the sizes of blocks."""

    def __init__(self, name, granule, index, input, output, start, levels, sizes):
        self.name, self.granule, self.index = name, granule, index
        self.input, self.output = input, output
        self.start, self.levels, self.sizes = start, levels, sorted(sizes)
        self.page, self.pages = 1 << granule, 1 << input - granule
        self.outputs = 1 << output - granule


FORMATS = [
    Format("amdv1", 12, 9, 64, 52, 3, 6, range(27)),
    Format("vtdss3", 12, 9, 39, 52, 3, 3, [0, 9, 18]),
    Format("vtdss4", 12, 9, 48, 52, 4, 4, [0, 9, 18]),
    Format("vtdss5", 12, 9, 57, 52, 5, 5, [0, 9, 18]),
    Format("x86-4", 12, 9, 47, 52, 4, 4, [0, 9, 18]),
    Format("x86-5", 12, 9, 56, 52, 5, 5, [0, 9, 18]),
    Format("vmsa4", 12, 9, 48, 48, 4, 4, [0, 4, 9, 13, 18, 22]),
    Format("vmsa16", 14, 11, 48, 48, 4, 4, [0, 7, 11, 16]),
    Format("vmsa64", 16, 13, 48, 48, 3, 3, [0, 5, 13, 18]),
    Format("sv39", 12, 9, 38, 56, 3, 3, [0, 4, 9, 18]),
    Format("sv48", 12, 9, 47, 56, 4, 4, [0, 4, 9, 18, 27]),
    Format("sv57", 12, 9, 56, 56, 5, 5, [0, 4, 9, 18, 27, 36]),
]


class Block:
    def __init__(self, first, log2, out, prot):
        self.first, self.log2, self.out, self.prot = first, log2, out, prot
        self.end = first + (1 << log2)

    def meets(self, first, end):
        return self.first < end and first < self.end

    def lies_in(self, first, end):
        return first <= self.first and self.end <= end


class Book:
    """What is mapped in a whole space, and where tables are linked: positions of a level and a first page."""

    def __init__(self, form, levels, frames):
        self.form, self.levels, self.frames = form, levels, frames
        self.blocks, self.tables, self.top = [], set(), levels - 1

    def pages_of_table(self, level):
        return 1 << self.form.index * (level + 1)

    def spine(self, top):
        return {(level, 0) for level in range(self.levels - 1, top + 1)}

    def linked(self):
        return self.tables | self.spine(self.top)

    def least_top(self, end):
        top = self.levels - 1
        while self.pages_of_table(top) < end:
            top += 1
        return top

    def tiling(self, first, out, count, prot):
        blocks = []
        while count:
            log2 = max(k for k in self.form.sizes if first % (1 << k) == out % (1 << k) == 0 and 1 << k <= count)
            blocks.append(Block(first, log2, out, prot))
            first, out, count = first + (1 << log2), out + (1 << log2), count - (1 << log2)
        return blocks

    def needed(self, blocks):
        positions = set()
        for block in blocks:
            top = self.least_top(block.end)
            positions |= self.spine(top)
            for level in range(block.log2 // self.form.index, top + 1):
                positions.add((level, block.first - block.first % self.pages_of_table(level)))
        return positions

    def drop_tables(self, first, end):
        self.tables = {p for p in self.tables if not (first <= p[1] and p[1] + self.pages_of_table(p[0]) <= end)}

    def at(self, page):
        return next((b for b in self.blocks if b.first <= page < b.end), None)


class Run:
    """The run of a script: the book of the whole space, and the replies so far. A span is the pages from `low` to `high`."""

    def __init__(self, lines):
        self.lines = lines
        words = lines[0].split()
        form = next(f for f in FORMATS if f.name == words[1])
        levels = int(words[3]) if form.name == "amdv1" else form.levels
        self.form, self.page = form, form.page
        self.book = Book(form, levels, int(lines[1].split()[1]))
        self.replies = []
        close = self.body(3, 0, form.pages, True)
        for place in range(close + 1, len(lines) - 1):
            self.ask(place, lines[place].split())

    def say(self, place, text):
        self.replies.append(f"{place + 1} {text}")

    def body(self, place, low, high, runs):
        """Runs the lines from a place on, and answers the place of the line that ends them."""
        while True:
            words = self.lines[place].split()
            if words[0] in ("with", "end", "close"):
                return place
            if words[0] == "fork":
                at = int(words[1], 16)
                runs_it = runs and self.fork(place, at, low, high)
                middle = self.body(place + 1, low, at // self.page, runs_it)
                place = self.body(middle + 1, at // self.page, high, runs_it)
            elif runs:
                getattr(self, words[0])(place, low, high, words[1:])
            place += 1

    def fork(self, place, at, low, high):
        page = at // self.page
        if at % self.page:
            self.say(place, "fork misaligned")
        elif not low < page < high:
            self.say(place, "fork outside")
        elif any(b.first < page < b.end for b in self.book.blocks):
            block = next(b for b in self.book.blocks if b.first < page < b.end)
            self.say(place, "fork cuts " + self.extent(block))
        else:
            self.say(place, "fork ok")
            return True
        return False

    def extent(self, block):
        return f"{block.first * self.page:#x} {self.page << block.log2:#x}"

    def output(self, block, address):
        byte = (block.out + address // self.page - block.first) * self.page + address % self.page
        return f"{byte:#x} {block.prot}"

    def map(self, place, low, high, words):
        self.say(place, "map " + self.mapped(low, high, *(int(w, 16) for w in words[:3]), words[3]))

    def mapped(self, low, high, va, pa, length, prot):
        book, page = self.book, self.page
        if va % page or pa % page or length % page or not length:
            return "misaligned"
        first, out, count = va // page, pa // page, length // page
        end = first + count
        if first < low or end > high:
            return "outside"
        if out + count > self.form.outputs:
            return "output"
        taken = [max(b.first, first) for b in book.blocks if b.meets(first, end)]
        if taken:
            return f"occupied {min(taken) * page:#x}"
        blocks = book.tiling(first, out, count, prot)
        needed = book.needed(blocks)
        if len(book.linked() | needed) > book.frames:
            return "frames"
        for block in blocks:
            book.drop_tables(block.first, block.end)
        book.blocks = sorted(book.blocks + blocks, key=lambda b: b.first)
        book.top = max(book.top, book.least_top(end))
        book.tables |= needed - book.spine(self.form.levels)
        return "ok"

    def unmap(self, place, low, high, words):
        self.say(place, "unmap " + self.unmapped(low, high, *(int(w, 16) for w in words)))

    def unmapped(self, low, high, va, length):
        book, page = self.book, self.page
        if va % page or length % page or not length:
            return "misaligned"
        first, end = va // page, (va + length) // page
        if first < low or end > high:
            return "outside"
        for block in book.blocks:
            if block.meets(first, end) and not block.lies_in(first, end):
                return "cuts " + self.extent(block)
        gone = [b for b in book.blocks if b.lies_in(first, end)]
        book.blocks = [b for b in book.blocks if not b.lies_in(first, end)]
        book.drop_tables(first, end)
        return f"ok {sum(b.end - b.first for b in gone)}"

    def lookup(self, place, low, high, words):
        va = int(words[0], 16)
        block = self.book.at(va // self.page)
        if not low <= va // self.page < high:
            self.say(place, "lookup outside")
        else:
            self.say(place, "lookup " + (self.output(block, va) if block else "none"))

    def dump(self, place, low, high, words):
        blocks = [b for b in self.book.blocks if b.lies_in(low, high)]
        self.say(place, f"dump {len(blocks)}")
        for b in blocks[:1000]:
            self.replies.append(f"block {self.extent(b)} {b.out * self.page:#x} {b.prot}")

    def release(self, place, low, high, words):
        self.say(place, "release ok")

    def ask(self, place, words):
        book = self.book
        if words[0] == "walk":
            va = int(words[1], 16)
            block = book.at(va // self.page)
            self.say(place, "walk " + (self.output(block, va) if block else "none"))
        else:
            pages = sum(b.end - b.first for b in book.blocks)
            self.say(place, f"census levels {book.top + 1} tables {len(book.linked())} blocks {len(book.blocks)} pages {pages}")


class Scripts:
    """Random scripts: pages are near the borders of tables, blocks and the space."""

    def __init__(self, seed):
        self.random = random.Random(seed)
        self.form = self.random.choice(FORMATS)
        self.dumps = 0

    def page(self):
        form, pick = self.form, self.random.choice
        border = pick([0, 1 << form.index, 1 << 2 * form.index, 3 << 2 * form.index, form.pages - (1 << form.index), form.pages // 2])
        off = pick([-2, -1, 0, 0, 1, 2, 1 << pick(form.sizes[:4]), self.random.randrange(1 << form.index)])
        return max(0, min(form.pages - 1, border + off))

    def count(self):
        form, pick = self.form, self.random.choice
        some = 1 << pick(form.sizes[:4])
        return pick([1, 1, 2, 3, some, some, some + 1, 1 << form.index, (1 << form.index) - 1, self.random.randrange(1, 600)])

    def seldom(self):
        return self.random.random() < 0.03

    def command(self, depth):
        form, kind, size = self.form, self.random.random(), self.form.page
        if kind < 0.42:
            page = self.page()
            out = self.random.choice([page % 2**20, 0, 1 << form.index, self.random.randrange(2**20), form.outputs - 1])
            length = 0 if self.seldom() else self.count() * size + self.seldom()
            va, pa = page * size + self.seldom(), out * size + 8 * self.seldom()
            return f"map {va:#x} {pa:#x} {length:#x} {self.random.choice(['r', 'rw'])}"
        if kind < 0.65:
            count = self.random.choice([self.count(), self.count(), 1 << 2 * form.index])
            return f"unmap {self.page() * size + self.seldom():#x} {count * size:#x}"
        if kind < 0.85:
            return f"lookup {self.page() * size + self.random.randrange(size):#x}"
        if (kind < 0.93 or depth) and self.dumps < 200:
            self.dumps += 1
            return "dump"
        return "lookup 0x0" if depth else "release"

    def body(self, depth, count):
        lines = []
        for _ in range(count):
            if depth < 16 and self.random.random() < (0.5 if depth > 5 else 0.15):
                at = self.page() * self.form.page + self.seldom()
                left, right = (self.body(depth + 1, self.random.randrange(4)) for _ in range(2))
                lines += [f"fork {at:#x}", *left, "with", *right, "end"]
            else:
                lines.append(self.command(depth))
        return lines

    def script(self):
        frames = self.random.choice([1, 2, 4, 5, 8, 12, 40, 400])
        name = f"amdv1 levels {self.random.randint(3, 6)}" if self.form.name == "amdv1" else self.form.name
        head = [f"format {name}", f"frames {frames}", f"hold {self.random.randrange(frames)}"]
        body = self.body(0, self.random.randrange(2, 25))
        asks = [self.random.choice(["census", f"walk {self.page() * self.form.page + 5:#x}", f"walk {self.random.randrange(2**64):#x}"])
                for _ in range(self.random.randrange(6))]
        return head + body + ["close", *asks, "end"]


def answered(lines):
    """The program's replies; of a block's line what comes before the words of its tables."""
    run = subprocess.run([PROGRAM, "run", "--plain"], input="".join(l + "\n" for l in lines), capture_output=True, text=True)
    if run.returncode:
        return [run.stderr.strip()]
    return [" ".join(l.split()[:5]) if l.startswith("block ") else l for l in run.stdout.splitlines()]


def main():
    count = int(sys.argv[1]) if len(sys.argv) > 1 else 100
    begin = int(sys.argv[2]) if len(sys.argv) > 2 else 0
    forks = 0
    for seed in range(begin, begin + count):
        lines = Scripts(seed).script()
        wanted, found = Run(lines).replies, answered(lines)
        forks += sum(r.endswith("fork ok") for r in wanted)
        if wanted != found:
            print("\n".join(lines))
            wrong = next(((w, f) for w, f in zip(wanted, found) if w != f), (len(wanted), len(found)))
            sys.exit(f"script {seed}: wanted {wrong[0]}, found {wrong[1]}")
    print(f"{count} scripts with {forks} forks that run: the program answers as the slow book does")


if __name__ == "__main__":
    main()

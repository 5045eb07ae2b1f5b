#!/usr/bin/env python3
"""Turns every byte of small images, one at a time, and checks what the program resumes.

    examples/turned_images.py                  # a small image of each format, each byte turned once
    examples/turned_images.py vtdss3 sv48      # of these formats
    examples/turned_images.py vmsa64 --every 7 # where an entry is zero, every seventh byte alone

An image is saved by the program, and a byte of it is turned to another. A slow checker written apart from the program, from the words
that each format writes, says at which fault the image is refused, or that it is good. Then the lookups behind the image have to be
those of the checker's own walk of the entries. The program has to be built.
"""
import concurrent.futures
import os
import random
import struct
import subprocess
import sys

PROGRAM = os.path.join(os.path.dirname(os.path.abspath(__file__)), "../crates/iopt/out/iopt")
MARK = b"IOPTIMG1"
FRAMES = 2**32  # the address of frame 0


class Form:
    """A format: its sizes, and the words that it writes."""

    def __init__(self, name, granule, input_bits, output_bits, start, levels, sizes, words):
        self.name, self.granule, self.index = name, granule, granule - 3
        self.pages, self.outputs = 2 ** (input_bits - granule), 2 ** (output_bits - granule)
        self.start, self.levels, self.sizes = start, levels, sizes
        self.pointer, self.leaf, self.base_of = words
        self.limit = 2 ** (27 - granule)


ADDRESS = 2**52 - 2**12


def amd_pointer(level, table):
    return table | 1 | level << 9 | 3 << 61


def amd_leaf(level, size, out, part, writes):
    bits = 1 | 1 << 61 | writes << 62
    if size == 9 * level:
        return out | bits
    return out | 2 ** (size + 11) - 2**12 | 7 << 9 | bits


def amd_base(level, size, word, part):
    return word & ADDRESS & ~(2 ** (size + 12) - 1)


def vtd_pointer(level, table):
    return table | 3


def vtd_leaf(level, size, out, part, writes):
    return out | 1 | writes << 1 | (level > 0) << 7


def x86_pointer(level, table):
    return table | 0x27


def x86_leaf(level, size, out, part, writes):
    return out | 0x65 | writes << 1 | (level > 0) << 7


def plain_base(level, size, word, part):
    return word & ADDRESS & ~(2 ** (size + 12) - 1)


def vmsa_words(granule):
    """A word of a group has the address of its own part."""

    def leaf(level, size, out, part, writes):
        grouped = size > (granule - 3) * level
        kind = 3 if level == 0 else 1
        return out + (part << granule + (granule - 3) * level) | 0xF40 | (0 if writes else 0x80) | kind | grouped << 52

    def base(level, size, word, part):
        own = word & 2**48 - 2**granule
        return own - (part << granule + (granule - 3) * level)

    return vtd_pointer, leaf, base


def risc_pointer(level, table):
    return table >> 12 << 10 | 1


def risc_leaf(level, size, out, part, writes):
    napot = 1 << 63 | 8 << 10 if size == 4 else 0
    return out >> 12 << 10 | 0xD3 | writes << 2 | napot


def risc_base(level, size, word, part):
    return (word >> 10 & 2**44 - 1) << 12 & ~(2 ** (size + 12) - 1)


AMD, VTD, X86 = (amd_pointer, amd_leaf, amd_base), (vtd_pointer, vtd_leaf, plain_base), (x86_pointer, x86_leaf, plain_base)
RISC = (risc_pointer, risc_leaf, risc_base)
NINE = [[0], [9], [18], [], []]
FORMS = [
    Form("amdv1", 12, 64, 52, 3, 6, [list(range(9)), list(range(9, 18)), list(range(18, 27)), [], [], []], AMD),
    *[Form(f"vtdss{n}", 12, 9 * n + 12, 52, n, n, NINE[:n], VTD) for n in (3, 4, 5)],
    *[Form(f"x86-{n}", 12, 9 * n + 11, 52, n, n, NINE[:n], X86) for n in (4, 5)],
    Form("vmsa4", 12, 48, 48, 4, 4, [[0, 4], [9, 13], [18, 22], []], vmsa_words(12)),
    Form("vmsa16", 14, 48, 48, 4, 4, [[0, 7], [11, 16], [], []], vmsa_words(14)),
    Form("vmsa64", 16, 48, 48, 3, 3, [[0, 5], [13, 18], []], vmsa_words(16)),
    *[Form(f"sv{9 * n + 12}", 12, 9 * n + 11, 56, n, n, [[0, 4], [9], [18], [27], [36]][:n], RISC) for n in (3, 4, 5)],
]


class Fault(Exception):
    """The first fault of an image, as the program names it."""


class Image:
    """The slow check of the bytes of an image, and what its entries map."""

    def __init__(self, data):
        self.blocks, self.reached = [], set()
        self.read_header(data)
        root = struct.unpack_from("<Q", data, 14)[0]
        count = self.frames << self.form.index
        self.entries = struct.unpack_from(f"<{count}Q", data, 22)
        if root // 8 >= self.frames or not self.start - 1 <= root % 8 < self.form.levels:
            raise Fault("root")
        self.top = root % 8
        self.reached.add(root // 8)
        self.visit(root // 8, self.top, 0)
        for frame in range(self.frames):
            if frame not in self.reached and any(self.table(frame)):
                raise Fault("stray")

    def read_header(self, data):
        if len(data) < 14:
            raise Fault("truncated")
        if data[:8] != MARK or data[8] >= len(FORMS):
            raise Fault("header")
        self.form, self.start = FORMS[data[8]], data[9]
        self.frames = int.from_bytes(data[10:14], "little")
        if not self.form.start <= self.start <= self.form.levels or not 1 <= self.frames <= self.form.limit:
            raise Fault("header")
        self.length = 22 + (8 * self.frames << self.form.index)
        if len(data) < self.length:
            raise Fault("truncated")

    def table(self, frame):
        return self.entries[frame << self.form.index : frame + 1 << self.form.index]

    def visit(self, frame, level, base):
        for number, word in enumerate(self.table(frame)):
            page = base + (number << self.form.index * level)
            spine = number == 0 and base == 0 and level > self.start - 1
            if not word:
                if spine:
                    raise Fault("entry")
                continue
            if page >= self.form.pages:
                raise Fault("entry")
            child = self.pointed(level, word)
            if child is not None:
                if child in self.reached:
                    raise Fault("entry")
                self.reached.add(child)
                self.visit(child, level - 1, page)
            elif spine or not self.in_block(frame, level, page, number, word):
                raise Fault("entry")

    def pointed(self, level, word):
        if level:
            for frame in range(self.frames):
                if self.form.pointer(level, FRAMES + (frame << self.form.granule)) == word:
                    return frame
        return None

    def in_block(self, frame, level, page, number, word):
        """Whether a word is one of a legal block, each of whose words is in its place."""
        form, table = self.form, self.table(frame)
        for size in form.sizes[level]:
            count = 1 << size - form.index * level
            part = number % count
            first = page - (part << form.index * level)
            out = form.base_of(level, size, word, part)
            legal = out >= 0 and out % (1 << size + form.granule) == 0 and (out >> form.granule) + (1 << size) <= form.outputs
            if not legal or first + (1 << size) > form.pages:
                continue
            for writes in (0, 1):
                wanted = [form.leaf(level, size, out, p, writes) for p in range(count)]
                if list(table[number - part : number - part + count]) == wanted:
                    if not part:
                        self.blocks.append((first, size, out, writes))
                    return True
        return False

    def lookup(self, va):
        page = va >> self.form.granule
        for first, size, out, writes in self.blocks:
            if first <= page < first + (1 << size):
                return f"{out + va - (first << self.form.granule):#x} " + ("rw" if writes else "r")
        return "none" if page < self.form.pages else "outside"


def header_of(form, frames):
    return f"format {form.name}" + (f" levels {form.start}" if form.levels > form.start else "") + f"\nframes {frames}\nhold 0\n"


def small_script(form, frames):
    """Maps pages, blocks of the two lowest sizes of each level, and what raises the root where a tree grows."""
    size = 1 << form.granule
    sizes = [s for level in form.sizes for s in level[:2]]
    lines, va = [], 0
    for s in sizes:
        block = size << s
        va = (va + block - 1) // block * block
        if va + block > form.pages * size or va + block > form.outputs * size:
            break
        lines.append(f"map {va:#x} {va + block:#x} {block:#x} {'r' if s % 2 else 'rw'}")
        va += 2 * block
    lines.append(f"map {size * 3:#x} {size * 7:#x} {size:#x} rw")
    if form.levels > form.start:
        lines.append(f"map {size << 27:#x} {0:#x} {size << 18:#x} rw")
    return header_of(form, frames) + "".join(line + "\n" for line in lines) + "close\nend\n"


def run(word, data):
    ran = subprocess.run([PROGRAM, word], input=data, capture_output=True, timeout=60)
    return ran.returncode, ran.stdout, ran.stderr.decode().strip()


def wanted(data, script, places):
    """How the program has to end on an input: its exit status, and what it says."""
    try:
        image = Image(data)
    except Fault as fault:
        return 3, f"bad image: {fault}"
    behind = data[image.length :]
    if behind != script:
        return 3, "refused"
    lines = behind.decode().splitlines()
    given = header_of(image.form, image.frames).splitlines()[:2]
    for number, line in enumerate(given):
        if lines[number] != line:
            return 3, f"script differs at line {number + 1}"
    return 0, "".join(f"{n + 4} lookup {image.lookup(va)}\n" for n, va in enumerate(places))


def wrong(data, script, places):
    """What is wrong with how the program ends on an input, if anything."""
    status, says = wanted(data, script, places)
    ended, put, line = run("resume", data)
    found = line if ended else put.decode()
    if ended == status and (found == says or says == "refused" and found.startswith("refused at line ")):
        return None
    return f"wanted {status} {says!r}, and it ended with {ended} {found!r}"


def small_image(form):
    """An image of as few frames as its script needs."""
    for frames in range(1, 32):
        script = small_script(form, frames).encode()
        if b"map frames" not in run("run", script)[1]:
            return frames, run("save", script)[1]
    sys.exit(f"{form.name}: no small image")


def try_form(form, every):
    frames, image = small_image(form)
    blocks = Image(image).blocks
    places = [first << form.granule for first, *_ in blocks] + [(form.pages << form.granule) - 1, (form.pages << form.granule) // 3]
    script = (header_of(form, frames) + "".join(f"lookup {va:#x}\n" for va in places) + "close\nend\n").encode()
    pick = random.Random(form.name)
    turned = []
    for at in range(len(image)):
        start = 22 + (at - 22) // 8 * 8
        if at < 22 or any(image[start : start + 8]) or at % every == 0:
            turned.append((at, image[at] ^ pick.randrange(1, 256)))
    good = 0

    def attempt(place):
        at, value = place
        data = image[:at] + bytes([value]) + image[at + 1 :] + script
        return at, value, wrong(data, script, places), wanted(data, script, places)[0] == 0

    if fault := wrong(image + script, script, places):
        sys.exit(f"{form.name}: the image itself: {fault}")
    with concurrent.futures.ThreadPoolExecutor(4) as pool:
        for at, value, fault, is_good in pool.map(attempt, turned):
            if fault:
                sys.exit(f"{form.name}: byte {at} turned to {value}: {fault}")
            good += is_good
    print(f"{form.name}: {frames} frames, {len(blocks)} blocks, {len(turned)} of {len(image)} bytes turned: {good} images are good, the others refused", flush=True)


def main():
    words = sys.argv[1:]
    every = 1
    if "--every" in words:
        at = words.index("--every")
        every = int(words[at + 1])
        del words[at : at + 2]
    for form in FORMS:
        if not words or form.name in words:
            try_form(form, every)


if __name__ == "__main__":
    main()

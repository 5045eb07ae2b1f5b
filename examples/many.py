#!/usr/bin/env python3
"""Prints a script of many maps and lookups: examples/many.py MAPS LOOKUPS [FRAMES]

The pages are spread over 1 GiB by a fixed stride, so the script is the same each time.
"""
import sys

maps, lookups = int(sys.argv[1]), int(sys.argv[2])
frames = int(sys.argv[3]) if len(sys.argv) > 3 else 32768
pages = [number * 40503 % 2**18 for number in range(maps)]
print(f"format vtdss3\nframes {frames}\nhold 0")
for page in pages:
    print(f"map {page * 4096:#x} {(page + 5) * 4096:#x} 0x1000 rw")
for number in range(lookups):
    print(f"lookup {pages[number % maps] * 4096 + 0xABC:#x}")
print("close\nend")

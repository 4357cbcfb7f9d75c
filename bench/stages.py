#!/usr/bin/env python3
"""Tells where the time of a correction goes, by runs that end one stage later each.

usage: bench/stages.py PROGRAM

Reading and cutting is `moves` with a line that names no fragment, which is refused after the cut. The sums are what `simulate` takes
more, the mask file what `moves` without a move takes more than that, and the rounds what `correct` takes more again. Run by hand; the
gate never runs it.
"""
import os
import subprocess
import sys
import tempfile
import time

from probe_large import boundary, layout, structure
from sizes import WORDS, kernels, rules, squares

RUNS = 3


def apart(count):
    """So many rectangles, 64 bytes of layout each, which lie apart."""
    return layout(structure(b"TOP\0", b"".join(boundary(1, 40 * (i % 32), 40 * (i // 32), 40 * (i % 32) + 20, 40 * (i // 32) + 30) for i in range(count))))


ROWS = (
    ("32,768 fragments, 8 kernels of reach 40", squares(128, 64), kernels(8, 40),
     rules(samples=8, rounds=4, tile=64, workers=4, threshold=100_000_000)),
    ("64 KiB of layout, 16 kernels of reach 64", apart(1020), kernels(16, 64),
     rules(samples=8, rounds=4, tile=64, workers=4, threshold=1_500_000_000)),
)


def seconds(program, folder, command):
    """The least time of a few runs."""
    words = [os.path.join(folder, word) for word in WORDS[command]]
    times = []
    for _ in range(RUNS):
        begin = time.perf_counter()
        subprocess.run([program, command, *words], stdout=subprocess.DEVNULL)
        times.append(time.perf_counter() - begin)
    return min(times)


def main():
    if len(sys.argv) != 2:
        sys.exit(__doc__)
    program = os.path.abspath(sys.argv[1])
    print("| Run | Reading, cutting | Sums | Mask file | Rounds |\n|---|---|---|---|---|")
    for name, *files in ROWS:
        with tempfile.TemporaryDirectory() as folder:
            for file, content in zip(("layout", "kernels", "rules"), files):
                with open(os.path.join(folder, file), "wb") as out:
                    out.write(content)
            ends = []
            for command, moves in (("moves", b"99999999 1\n"), ("simulate", b""), ("moves", b""), ("correct", b"")):
                with open(os.path.join(folder, "moves"), "wb") as out:
                    out.write(moves)
                ends.append(seconds(program, folder, command))
            parts = [ends[0]] + [later - earlier for earlier, later in zip(ends, ends[1:])]
            print(f"| {name} | " + " | ".join(f"{part:.2f} s" for part in parts) + " |", flush=True)


if __name__ == "__main__":
    main()

#!/usr/bin/env python3
"""Prints how long the printed image of 2,097,152 pixels takes with one, two and four workers, at some sides of a tile.

usage: bench/image.py PROGRAM [SQUARES]

PROGRAM is the built program (`rt run` in crates/bench_image leaves it as crates/bench_image/out/bench_image). It prints a
window of 2,048 by 1,024 pixels with 8 kernels of reach 40 over 2,312 squares of ten pixels, or so many, and with no workers
over the same squares without an image; the difference of the least wall times of five runs is printed, and that of the
processor times, which other work changes less. All have to print the same number. Run by hand; the gate never runs it.
"""
import sys

from timing import best

ROWS = 1024


def main():
    if len(sys.argv) not in (2, 3):
        sys.exit(__doc__)
    squares = int(sys.argv[2]) if len(sys.argv) == 3 else 2312
    before, start, _ = best(sys.argv[1], 0, 256, squares, ROWS)
    said = set()
    for side in (256, 512, 1024):
        for workers in (1, 2, 4):
            after, user, number = best(sys.argv[1], workers, side, squares, ROWS)
            said.add(number)
            print(f"side {side}, workers {workers}: {(after - before) * 1e3:.0f} ms, "
                  f"{(user - start) * 1e3:.0f} ms of processor time")
    print(f"the numbers are {'the same' if len(said) == 1 else 'DIFFERENT'}")


if __name__ == "__main__":
    main()

#!/usr/bin/env python3
"""Prints how long fragments, moves and the mask file take.

usage: bench/geometry.py PROGRAM

PROGRAM is the built program (`rt run` in crates/bench_geometry leaves it as crates/bench_geometry/out/bench_geometry). Each
layer is run with what it stands on and then without, and the difference of the least processor times of five runs is
printed. Run by hand; the gate never runs it.
"""
import os
import subprocess
import sys


def best(program, layer, count):
    """The least processor time of five runs, in seconds."""
    times = []
    for _ in range(5):
        child = subprocess.Popen([program, layer, str(count)], stdout=subprocess.DEVNULL)
        _, status, usage = os.wait4(child.pid, 0)
        if status != 0:
            sys.exit(f"{layer} {count} ended with status {status}")
        times.append(usage.ru_utime + usage.ru_stime)
    return min(times)


def main():
    if len(sys.argv) != 2:
        sys.exit(__doc__)
    program = sys.argv[1]
    cut = best(program, "cut", 8192) - best(program, "target", 8192)
    print(f"cut of 32,768 fragments: {cut * 1e3:.1f} ms")
    moves = 200_000
    judged = best(program, "moves", moves) - best(program, "moves", 0)
    print(f"first_broken, of 32,768 fragments: {judged / moves * 1e6:.2f} microseconds a move")
    bars = best(program, "bars", 8192) - best(program, "apart", 8192)
    print(f"bars of 32,768 edges: {bars * 1e3:.1f} ms")
    mask = best(program, "mask", 65536) - best(program, "tower", 65536)
    print(f"write_mask of 65,536 rectangles: {mask * 1e3:.1f} ms")
    tall = best(program, "tall", 65536) - best(program, "tower", 65536)
    print(f"write_polygons of one component of 65,536 rectangles: {tall * 1e3:.1f} ms")
    polygons = best(program, "polygons", 32768) - best(program, "frames", 32768)
    print(f"write_polygons of 8,192 frames round holes, 32,768 rectangles: {polygons * 1e3:.1f} ms")


if __name__ == "__main__":
    main()

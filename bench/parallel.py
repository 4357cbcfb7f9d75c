#!/usr/bin/env python3
"""Prints how long the parallel phase takes with one, two and four workers, beside the same loops in C.

usage: bench/parallel.py PROGRAM [SQUARES]

PROGRAM is the built program (`rt run` in crates/bench_parallel leaves it as crates/bench_parallel/out/bench_parallel). It is
run on the four edges of each of 8,192 squares, or of so many, with these workers and with none, who add nothing, and the
difference of the least wall times of five runs is printed. The loops in C, bench/parallel.c, are those of one worker; they
are compiled with $CC or cc for the processor that the kit builds for. All have to leave the same number. Beside other work
the threads of one session may share one processor, whatever their priority: measure on an idle machine, or give the session
priority (/proc/self/autogroup). Processor times are printed too, which other work changes less. Run by hand; the gate never
runs it.
"""
import sys
import tempfile

from timing import best, compiled


def measure(name, program, counts, squares):
    """Prints the times of a program, and returns the processor time of one worker and the numbers that it printed."""
    before, start, _ = best(program, 0, squares)
    print(f"{name}: fragments, tables, tiles and moves: {before * 1e3:.0f} ms")
    first, said = None, set()
    for workers in counts:
        after, user, number = best(program, workers, squares)
        said.add(number)
        first = first or user - start
        print(f"{name}: {4 * squares:,} moves of as many fragments, workers {workers}: {(after - before) * 1e3:.0f} ms, "
              f"{(user - start) * 1e3:.0f} ms of processor time")
    return first, said


def main():
    if len(sys.argv) not in (2, 3):
        sys.exit(__doc__)
    squares = int(sys.argv[2]) if len(sys.argv) == 3 else 8192
    with tempfile.TemporaryDirectory() as folder:
        by_hand, wanted = measure("C", compiled("parallel", folder), (1,), squares)
        proved, said = measure("proved", sys.argv[1], (1, 2, 4), squares)
    print(f"ratio of processor times {proved / by_hand:.2f}, the numbers are {'the same' if said == wanted else 'DIFFERENT'}")


if __name__ == "__main__":
    main()

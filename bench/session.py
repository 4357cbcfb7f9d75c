#!/usr/bin/env python3
"""Prints how long a session takes to open, to make a round and to make 60,000 moves, with one worker and with four.

usage: bench/session.py PROGRAM [SQUARES]

PROGRAM is the built program (`rt run` in crates/bench_session leaves it as crates/bench_session/out/bench_session). It is run
on the four edges of each of 7,500 squares, or of so many: 8 kernels of reach 40, and 8 samples to a side. The least times of
five runs are printed, less those of the run that does everything but the work that the line names. The loops in C,
bench/parallel.c, do the parallel phase alone, for one worker: what as many sweeps add as there are fragments. Measure on an
idle machine: beside other work the threads of one session may share one processor. Run by hand; the gate never runs it.
"""
import sys
import tempfile

from timing import best, compiled

MOVES = 60000


def line(name, with_work, without):
    """Prints the wall time and the processor time of the work in which two runs differ."""
    print(f"{name}: {(with_work[0] - without[0]) * 1e3:.0f} ms, {(with_work[1] - without[1]) * 1e3:.0f} ms of processor time")


def main():
    if len(sys.argv) not in (2, 3):
        sys.exit(__doc__)
    program, squares = sys.argv[1], int(sys.argv[2]) if len(sys.argv) == 3 else 7500
    said = set()
    for workers in (1, 4):
        scene = best(program, squares, workers, 0, 0, 0)
        opened = best(program, squares, workers, 1, 0, 0)
        made = best(program, squares, workers, 1, 1, 0)
        moved = best(program, squares, workers, 1, 0, MOVES)
        line(f"open and read all errors, workers {workers}", opened, scene)
        line(f"one round, workers {workers}", made, opened)
        line(f"{MOVES:,} moves, workers {workers}", moved, opened)
        said.add((opened[2], made[2], moved[2]))
    with tempfile.TemporaryDirectory() as folder:
        loops = compiled("parallel", folder)
        line(f"C: the sums of {4 * squares:,} sweeps", best(loops, 1, squares), best(loops, 0, squares))
    print(f"the numbers of one worker and of four are {'the same' if len(said) == 1 else 'DIFFERENT'}")


if __name__ == "__main__":
    main()

#!/usr/bin/env python3
"""Times additions of rectangles to lanes beside the same loop in C.

usage: bench/add_rect.py [COUNT]

Run `rt run` in crates/bench_sums first, which leaves the built program as crates/bench_sums/out/bench_sums. The loop in C,
bench/add_rect.c, is compiled with $CC or cc for the processor that the kit builds for. Both programs print one number,
which has to be the same. The time of the tables is that of a run without rectangles, less that of a run which makes the
kernels alone. Run by hand; the gate never runs it.
"""
import os
import sys
import tempfile

from timing import HERE, best, compiled

PROVED = os.path.join(HERE, "..", "crates", "bench_sums", "out", "bench_sums")


def main():
    count = int(sys.argv[1]) if len(sys.argv) > 1 else 20_000_000
    with tempfile.TemporaryDirectory() as folder:
        written = compiled("add_rect", folder)
        each = []
        for name, program in (("proved", PROVED), ("C", written)):
            kernels, _, _ = best(program, "set")
            tables, before, _ = best(program, 0)
            _, after, said = best(program, count)
            each.append((after - before, said))
            print(f"{name}: start and kernels {kernels * 1e3:.1f} ms, tables {(tables - kernels) * 1e3:.1f} ms, {count} rectangles "
                  f"{(after - before) * 1e3:.0f} ms, {(after - before) / count * 1e9:.1f} ns each, number {said}")
    (proved, said), (by_hand, wanted) = each
    print(f"ratio {proved / by_hand:.2f}, the numbers are {'the same' if said == wanted else 'DIFFERENT'}")


if __name__ == "__main__":
    main()

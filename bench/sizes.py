#!/usr/bin/env python3
"""Runs the program on the greatest files that it takes, and on files one step greater, and prints time and peak memory.

usage: bench/sizes.py PROGRAM [NAME..]

Each row is one run: its files, its status and line, its wall time, its processor time and its
peak memory. With names, only the rows are run whose names have one of them. Run by hand; the gate never runs it.
"""
import os
import random
import struct
import subprocess
import sys
import tempfile
import time

from hostile import RULES
from probe_large import SEED, array, boundary, comb, kernel_file, layout, other_layers, record, structure

MOST_LAYOUT = 67_108_864
MOST_RULES = 65_536
MOST_MOVES = 1_048_576


def rules(**changes):
    lines = dict(line.split(" = ") for line in RULES.splitlines())
    lines.update({key: str(value) for key, value in changes.items()})
    return "".join(f"{key} = {value}\n" for key, value in lines.items()).encode()


def kernels(count, reach):
    """So many kernels whose entries come from a seed, small enough that an edge has intensities around the threshold of `dense`."""
    source = random.Random(SEED)
    side = 2 * reach + 1
    out = bytearray(b"OPK1" + struct.pack(">HH", count, reach))
    for _ in range(count):
        out += struct.pack(">H", 1)
        for _ in range(side * side):
            out += struct.pack(">hh", source.randrange(0, 9), source.randrange(-4, 5))
    return bytes(out)


def squares(columns, rows, pitch=20):
    """An array of squares, so many pixels from one to the next: four fragments each with piece = 8 or more and line_end = 10."""
    cell = boundary(1, 0, 0, 10, 10)
    corners = struct.pack(">iiiiii", 0, 0, pitch * columns, 0, 0, pitch * rows)
    reference = (record(0x0B00) + record(0x1206, b"CELL") + record(0x1302, struct.pack(">hh", columns, rows))
                 + record(0x1003, corners) + record(0x1100))
    return layout(structure(b"TOP\0", reference) + structure(b"CELL", cell))


def bar(length):
    """One bar of 10 pixels across, whose long edges have a fragment for each 8 pixels."""
    return layout(structure(b"TOP\0", boundary(1, 0, 0, length, 10)))


def filled(text, size):
    """A rule file of that size: a comment fills it."""
    return text + b"#" * (size - len(text) - 1) + b"\n"


def moves(size):
    """A moves file of that size or up to 8 bytes less: the first edge moves to and fro."""
    line = b"0 1\n0 -1\n"
    return line * (size // len(line))


SMALL = {"layout": squares(2, 2), "kernels": kernel_file(), "rules": rules(), "moves": b"0 1\n"}

# Name, command, the files that differ from a small run.
ROWS = (
    ("layout of 67,108,864 bytes on another layer", "simulate", lambda: {"layout": padded(MOST_LAYOUT)}),
    ("layout of one byte more", "simulate", lambda: {"layout": padded(MOST_LAYOUT + 1)}),
    ("rule file of 65,536 bytes", "simulate", lambda: {"rules": filled(rules(), MOST_RULES)}),
    ("rule file of one byte more", "simulate", lambda: {"rules": filled(rules(), MOST_RULES + 1)}),
    ("moves file of 1,048,572 bytes, 233,016 moves", "moves", lambda: {"moves": moves(MOST_MOVES)}),
    ("moves file that is too long", "moves", lambda: {"moves": b"0 1\n" * (MOST_MOVES // 4 + 1)}),
    ("16 kernels of reach 64", "simulate", lambda: {"kernels": kernels(16, 64)}),
    ("kernel file of one byte more", "simulate", lambda: {"kernels": kernels(16, 64) + b"\0" * 9}),
    ("1,048,575 placed points, 209,715 squares that touch", "probe", lambda: {"layout": array(1023, 205)}),
    ("65,536 corners, a comb, probe", "probe", lambda: {"layout": comb(16_384)}),
    ("65,540 corners", "probe", lambda: {"layout": comb(16_385)}),
    ("32,768 fragments, one kernel, simulate", "simulate", lambda: {"layout": squares(128, 64)}),
    ("32,768 fragments, one kernel, correct", "correct", lambda: {"layout": squares(128, 64)}),
    ("a bar of 131,042 by 10 pixels, 32,764 fragments along two lines, correct", "correct", lambda: {"layout": bar(131_042)}),
    ("32,772 fragments", "simulate", lambda: {"layout": squares(8193, 1)}),
    ("32,768 fragments, one kernel, polygons", "polygons", lambda: {"layout": squares(128, 64)}),
    ("32,768 fragments, one kernel, a window of 2558 by 1278 pixels", "check", lambda: {"layout": squares(128, 64)}),
    ("a window of more than 4,194,304 pixels", "check", lambda: {"layout": squares(2, 2, 2031)}),
    ("1,638 squares with four bars each, 32,760 fragments", "assist", lambda: {"layout": squares(42, 39, 60)}),
    ("1,640 squares with four bars each, 32,800 fragments", "assist", lambda: {"layout": squares(41, 40, 60)}),
    ("32,768 fragments, four conditions of one kernel", "window", lambda: {"layout": squares(128, 64)}),
    ("the greatest trial", "trial", lambda: {}),
    ("30,056 fragments, 8 kernels of reach 40, simulate, 1 worker", "simulate", lambda: session(0, 1)),
    ("30,056 fragments, 8 kernels of reach 40, simulate, 4 workers", "simulate", lambda: session(0, 4)),
    ("30,056 fragments, 8 kernels of reach 40, correct in 4 rounds, 1 worker", "correct", lambda: session(4, 1)),
    ("30,056 fragments, 8 kernels of reach 40, correct in 4 rounds, 4 workers", "correct", lambda: session(4, 4)),
    ("30,056 fragments, 8 kernels of reach 40, 60,000 moves, 1 worker", "moves", lambda: session(0, 1)),
    ("30,056 fragments, 8 kernels of reach 40, 60,000 moves, 4 workers", "moves", lambda: session(0, 4)),
    ("30,056 fragments, 16 kernels of reach 64, simulate, 4 workers", "simulate", lambda: session(0, 4, 16, 64)),
    ("30,056 fragments, 16 kernels of reach 64, correct in one round, 4 workers", "correct", lambda: session(1, 4, 16, 64)),
    ("32,768 fragments, 16 kernels of reach 64, 16 samples, simulate", "simulate", lambda: greatest(0)),
    ("32,768 fragments, 16 kernels of reach 64, 16 samples, correct in one round, 1 worker", "correct", lambda: greatest(1, 1)),
    ("32,768 fragments, 16 kernels of reach 64, 16 samples, correct in one round, 4 workers", "correct", lambda: greatest(1, 4)),
    ("a window of 2684 by 1404 pixels, 16 kernels of reach 64, no round, 4 workers", "check", lambda: greatest(0, 4)),
)

WORDS = {
    "probe": ("layout", "kernels", "=TOP", "=1", "=0", "=5", "=5"),
    "simulate": ("layout", "kernels", "rules", "table"),
    "correct": ("layout", "kernels", "rules", "mask", "table"),
    "moves": ("layout", "kernels", "rules", "moves", "mask", "table"),
    "polygons": ("layout", "kernels", "rules", "mask", "table"),
    "check": ("layout", "kernels", "rules", "mask", "table"),
    "assist": ("layout", "kernels", "rules", "mask", "table", "=4", "=2", "=1", "=10"),
    "window": ("layout", "rules", "mask", "table") + ("kernels", "=37", "=1") * 4,
    "trial": ("=64",),
}


def padded(size):
    """A layout of exactly that size: rectangles on another layer, then zero bytes after its end."""
    content = other_layers(size)
    return content + bytes(size - len(content))


def greatest(rounds, workers=1):
    """The greatest session: 256 MiB of sums. The threshold lies where the image of these squares has it."""
    return {"layout": squares(128, 64), "kernels": kernels(16, 64),
            "rules": rules(samples=16, rounds=rounds, workers=workers, threshold=1_500_000_000, tile=256)}


def session(rounds, workers, count=8, reach=40):
    """7,514 squares, 8 samples, and moves of each fragment to and fro. The threshold lies where the image of these squares has it."""
    lines = [b"%d %d\n" % (at % 30_056, 1 if at < 30_056 else -1) for at in range(60_000)]
    return {"layout": squares(221, 34), "kernels": kernels(count, reach), "moves": b"".join(lines),
            "rules": rules(samples=8, rounds=rounds, workers=workers, threshold=count * reach**4 * 16, tile=256)}


def write_files(change, folder):
    """Makes and writes the files in a process of its own, since a child's peak memory counts that of the process that starts it."""
    child = os.fork()
    if child == 0:
        for file, content in {**SMALL, **change()}.items():
            with open(os.path.join(folder, file), "wb") as out:
                out.write(content)
        os._exit(0)
    if os.waitpid(child, 0)[1]:
        sys.exit("the files could not be written")


def run(program, name, command, change, folder):
    write_files(change, folder)
    words = [it[1:] if it.startswith("=") else os.path.join(folder, it) for it in WORDS[command]]
    begin = time.time()
    child = subprocess.Popen([program, command, *words], stdout=subprocess.PIPE)
    said = child.stdout.read().decode().strip()
    _, status, usage = os.wait4(child.pid, 0)
    seconds = time.time() - begin
    print(f"| {name} | {os.waitstatus_to_exitcode(status)} | `{said}` | {seconds:.2f} s "
          f"| {usage.ru_utime + usage.ru_stime:.2f} s | {usage.ru_maxrss // 1024} MiB |", flush=True)


def main():
    if len(sys.argv) < 2:
        sys.exit(__doc__)
    print("| Run | Status | Said | Time | Processor time | Peak memory |\n|---|---|---|---|---|---|")
    with tempfile.TemporaryDirectory() as folder:
        for name, command, change in ROWS:
            if not sys.argv[2:] or any(it in name for it in sys.argv[2:]):
                run(os.path.abspath(sys.argv[1]), name, command, change, folder)


if __name__ == "__main__":
    main()

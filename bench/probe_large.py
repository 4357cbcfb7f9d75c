#!/usr/bin/env python3
"""Makes large layouts from a seed, and prints how long `opc probe` takes on each and how much memory.

usage: bench/probe_large.py PROGRAM [NAME..]

PROGRAM is the built program (`rt run` in crates/opc leaves it as crates/opc/out/opc). Each row has the least times of three runs,
and the peak memory. With names, only these layouts are tried. Run by hand; the gate never runs it.
"""
import os
import random
import struct
import subprocess
import sys
import tempfile
import time

SEED = 20261201


def record(code, body=b""):
    return struct.pack(">HH", len(body) + 4, code) + body


def points(*pairs):
    return b"".join(struct.pack(">ii", x, y) for x, y in pairs)


def boundary(layer, x0, y0, x1, y1):
    corners = points((x0, y0), (x1, y0), (x1, y1), (x0, y1), (x0, y0))
    return (record(0x0800) + record(0x0D02, struct.pack(">H", layer)) + record(0x0E02, b"\0\0")
            + record(0x1003, corners) + record(0x1100))


def structure(name, elements):
    padded = name + b"\0" * (len(name) % 2)
    return record(0x0502, bytes(24)) + record(0x0606, padded) + elements + record(0x0700)


def layout(structures):
    units = bytes.fromhex("4110000000000000") * 2
    return (record(0x0002, struct.pack(">h", 600)) + record(0x0102, bytes(24)) + record(0x0206, b"LIB\0")
            + record(0x0305, units) + structures + record(0x0400))


def overlapping(count):
    """So many rectangles of up to 200 by 200 pixels that overlap one another, corners well below the limit."""
    source = random.Random(SEED)
    side = 2000
    elements = bytearray()
    for _ in range(count):
        x, y = source.randrange(side), source.randrange(side)
        elements += boundary(1, x, y, x + source.randrange(100, 200), y + source.randrange(100, 200))
    return layout(structure(b"TOP", bytes(elements)))


def tall(count):
    """So many rectangles that nearly all lie in one row."""
    elements = bytearray()
    for i in range(count):
        elements += boundary(1, i, -i, i + 50, 500_000 - i)
    return layout(structure(b"TOP", bytes(elements)))


def active(count):
    """So many rectangles that nearly all are active in each of some thousand rows, few corners left of them."""
    source = random.Random(SEED)
    elements = bytearray()
    for i in range(count):
        x = 5 * i
        elements += boundary(1, x, source.randrange(1000), x + 100_000, 500_000 - source.randrange(1000))
    return layout(structure(b"TOP", bytes(elements)))


def comb(count):
    """So many columns apart from one another, of different heights in no order: four corners each."""
    heights = list(range(1, count + 1))
    random.Random(SEED).shuffle(heights)
    return layout(structure(b"TOP", b"".join(boundary(1, 2 * i, -heights[i], 2 * i + 1, heights[i]) for i in range(count))))


def joined_comb(count):
    """The same, joined by a bar across all columns."""
    heights = list(range(2, count + 2))
    random.Random(SEED).shuffle(heights)
    columns = b"".join(boundary(1, 2 * i, -heights[i], 2 * i + 1, heights[i]) for i in range(count))
    return layout(structure(b"TOP", boundary(1, 0, 0, 2 * count, 1) + columns))


def both_ways(count):
    """So many columns, and above them so many rows, of different lengths in no order."""
    lengths = list(range(1, count + 1))
    random.Random(SEED).shuffle(lengths)
    columns = b"".join(boundary(1, 2 * i, -lengths[i], 2 * i + 1, lengths[i]) for i in range(count))
    rows = b"".join(boundary(1, -lengths[i], 100_000 + 2 * i, lengths[i], 100_001 + 2 * i) for i in range(count))
    return layout(structure(b"TOP", columns + rows))


def many(name, columns, rows, across, up):
    """An array reference to a structure of a name of even length."""
    corners = points((0, 0), (columns * across, 0), (0, rows * up))
    return (record(0x0B00) + record(0x1206, name) + record(0x1302, struct.pack(">hh", columns, rows))
            + record(0x1003, corners) + record(0x1100))


def one(name, x, y):
    """A reference to a structure of a name of even length."""
    return record(0x0A00) + record(0x1206, name) + record(0x1003, points((x, y))) + record(0x1100)


def array(columns, rows):
    """An array of a square, 5 points a copy, side by side."""
    return layout(structure(b"TOP", many(b"CELL", columns, rows, 10, 10)) + structure(b"CELL", boundary(1, 0, 0, 10, 10)))


def polygons(columns, rows):
    """An array of a cross, 14 points a copy, whose corners its neighbours cover."""
    cross = points((2, 0), (10, 0), (18, 0), (18, 2), (20, 2), (20, 18), (18, 18), (18, 20), (2, 20), (2, 18), (0, 18), (0, 2), (2, 2), (2, 0))
    cell = record(0x0800) + record(0x0D02, b"\0\1") + record(0x0E02, b"\0\0") + record(0x1003, cross) + record(0x1100)
    return layout(structure(b"TOP", many(b"CELL", columns, rows, 10, 10)) + structure(b"CELL", cell))


def structures(count, others):
    """So many structures, each with a square and so many rectangles on another layer. The squares lie side by side."""
    side = 250
    names = [b"S%07d" % i for i in range(count)]
    cells = b"".join(structure(name, boundary(1, 0, 0, 10, 10) + boundary(2, 0, 0, 10, 10) * others) for name in names)
    return layout(structure(b"TOP", b"".join(one(name, 10 * (i % side), 10 * (i // side)) for i, name in enumerate(names))) + cells)


def references(count):
    """So many references to a structure that places nothing."""
    return layout(structure(b"TOP", one(b"NOTHINGYET", 0, 0) * count) + structure(b"NOTHINGYET", b""))


def crossing(count):
    """An array of so many columns across one of so many rows."""
    length = 2 * count
    top = many(b"COLUMN", count, 1, 2, 2) + many(b"ROWS", 1, count, 2, 2)
    return layout(structure(b"TOP", top) + structure(b"COLUMN", boundary(1, 0, 0, 1, length)) + structure(b"ROWS", boundary(1, 0, 0, length, 1)))


def other_layers(size):
    """About so many bytes of rectangles on another layer."""
    one = boundary(2, 0, 0, 10, 10)
    frame = len(layout(structure(b"TOP", b"")))
    return layout(structure(b"TOP", one * ((size - frame) // len(one))))


LAYOUTS = {
    "structures": lambda: structures(60_000, 15),
    "array": lambda: array(1023, 205),
    "polygons": lambda: polygons(274, 273),
    "overlapping": lambda: overlapping(100_000),
    "one_row": lambda: tall(15_000),
    "active": lambda: active(100_000),
    "comb": lambda: comb(16_384),
    "joined_comb": lambda: joined_comb(8_000),
    "both_ways": lambda: both_ways(8_192),
    "references": lambda: references(1_900_000),
    "crossing": lambda: crossing(2_000),
    "crossing_more": lambda: crossing(32_000),
    "other_layers": lambda: other_layers(67_108_864),
}


def kernel_file():
    return b"OPK1" + struct.pack(">HHH", 1, 1, 1) + struct.pack(">hh", 1, 0) * 9


def write_files(folder, make):
    """Makes and writes the files in a process of its own, since a child's peak memory counts that of the process that starts it."""
    child = os.fork()
    if child == 0:
        for file, content in (("layout", make()), ("kernels", kernel_file())):
            with open(os.path.join(folder, file), "wb") as out:
                out.write(content)
        os._exit(0)
    if os.waitpid(child, 0)[1]:
        sys.exit("the files could not be written")


def run_once(program, folder):
    """What a run says, its wall time and processor time in seconds, and its peak memory in MiB."""
    paths = (os.path.join(folder, "layout"), os.path.join(folder, "kernels"))
    begin = time.time()
    child = subprocess.Popen([program, "probe", *paths, "TOP", "1", "0", "5", "5"], stdout=subprocess.PIPE)
    said = child.stdout.read().decode().strip()
    _, _, usage = os.wait4(child.pid, 0)
    return said, time.time() - begin, usage.ru_utime + usage.ru_stime, usage.ru_maxrss // 1024


def main():
    if len(sys.argv) < 2:
        sys.exit(__doc__)
    print("| Layout | Bytes | Said | Time | Processor time | Peak memory |\n|---|---|---|---|---|---|")
    with tempfile.TemporaryDirectory() as folder:
        for name, make in LAYOUTS.items():
            if not sys.argv[2:] or name in sys.argv[2:]:
                write_files(folder, make)
                runs = [run_once(os.path.abspath(sys.argv[1]), folder) for _ in range(3)]
                wall, processor = (min(it[at] for it in runs) for at in (1, 2))
                print(f"| {name} | {os.path.getsize(os.path.join(folder, 'layout')):,} | `{runs[0][0]}` | {wall * 1e3:.0f} ms "
                      f"| {processor * 1e3:.0f} ms | {max(it[3] for it in runs)} MiB |", flush=True)


if __name__ == "__main__":
    main()

#!/usr/bin/python3
"""Makes cell.gds: a small real layout with hierarchy, arrays, bars, line ends, corners and contacts.

usage: examples/make_layout.py [FOLDER]           (python3-gdspy)

One database unit is 1 nm and all coordinates are multiples of 4 nm, the pixel of duv.opk. Layer 10 is a metal layer: bars 64 nm
wide at a pitch of 128 nm, line ends 80 nm apart, an L, a Z, a comb, squares of 96 nm. Layer 11 is its contacts, squares of 96 nm.
TOP has two rows of two CELLs, the upper row reflected, which share the rail between them, as rows of standard cells do.
"""
import datetime
import os
import sys

import gdspy

HERE = os.path.dirname(os.path.abspath(__file__))
METAL = {"layer": 10, "datatype": 0}
CONTACT = {"layer": 11, "datatype": 0}
WIDTH, HEIGHT, RAIL = 2048, 1536, 96


def rectangle(cell, x0, y0, x1, y1, spec):
    cell.add(gdspy.Rectangle((x0 / 1000, y0 / 1000), (x1 / 1000, y1 / 1000), **spec))


def polygon(cell, points, spec):
    cell.add(gdspy.Polygon([(x / 1000, y / 1000) for x, y in points], **spec))


def array(cell, what, columns, rows, step, at):
    spacing = (step[0] / 1000, step[1] / 1000)
    cell.add(gdspy.CellArray(what, columns, rows, spacing, (at[0] / 1000, at[1] / 1000)))


def small_cells():
    bar = gdspy.Cell("BAR", exclude_from_current=True)
    rectangle(bar, 0, 0, 64, 1216, METAL)
    square = gdspy.Cell("SQUARE", exclude_from_current=True)
    rectangle(square, 0, 0, 96, 96, METAL)
    contact = gdspy.Cell("CONTACT", exclude_from_current=True)
    rectangle(contact, 0, 0, 96, 96, CONTACT)
    return bar, square, contact


def main_cell(bar, square, contact):
    cell = gdspy.Cell("CELL", exclude_from_current=True)
    rectangle(cell, 0, 0, WIDTH, RAIL, METAL)
    rectangle(cell, 0, HEIGHT - RAIL, WIDTH, HEIGHT, METAL)
    array(cell, bar, 5, 1, (128, 128), (96, 160))
    for x, end, begin in ((736, 720, 800), (864, 620, 700)):
        rectangle(cell, x, 160, x + 64, end, METAL)
        rectangle(cell, x, begin, x + 64, 1376, METAL)
    cell.add(gdspy.FlexPath([(1.024, 0.160), (1.024, 0.800), (1.216, 0.800), (1.216, 1.376)], 0.064, gdsii_path=True, **METAL))
    polygon(cell, ((1152, 160), (1344, 160), (1344, 640), (1280, 640), (1280, 224), (1152, 224)), METAL)
    rectangle(cell, 1024, 1000, 1088, 1376, METAL)
    array(cell, square, 2, 5, (192, 240), (1424, 176))
    comb = ((1760, 160), (1824, 160), (1824, 544), (1888, 544), (1888, 160), (1952, 160), (1952, 608), (1760, 608))
    polygon(cell, comb, METAL)
    rectangle(cell, 1760, 720, 1952, 784, METAL)
    rectangle(cell, 1824, 784, 1888, 1376, METAL)
    array(cell, contact, 3, 5, (256, 240), (80, 240))
    array(cell, contact, 2, 5, (192, 240), (1424, 176))
    cell.add(gdspy.Label("net", (0.1, 0.05), layer=10))
    return cell


def run():
    folder = sys.argv[1] if len(sys.argv) > 1 else HERE
    bar, square, contact = small_cells()
    cell = main_cell(bar, square, contact)
    top = gdspy.Cell("TOP", exclude_from_current=True)
    array(top, cell, 2, 1, (WIDTH, HEIGHT), (0, 0))
    for column in range(2):
        at = (column * WIDTH / 1000, (2 * HEIGHT - RAIL) / 1000)
        top.add(gdspy.CellReference(cell, at, x_reflection=True))
    path = os.path.join(folder, "cell.gds")
    when = datetime.datetime(2026, 12, 1)
    writer = gdspy.GdsWriter(path, name="EXAMPLE", unit=1e-6, precision=1e-9, timestamp=when)
    for it in (bar, square, contact, cell, top):
        writer.write_cell(it, timestamp=when)
    writer.close()
    print(f"{path}: {os.path.getsize(path)} bytes")


if __name__ == "__main__":
    run()

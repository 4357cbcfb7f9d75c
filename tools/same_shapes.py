#!/usr/bin/python3
"""Compares what two cells place on two layers, by KLayout.

usage: tools/same_shapes.py FILE CELL LAYER/DATATYPE FILE CELL LAYER/DATATYPE

Says both merged areas and that of their difference, in database units; ends with status 1 where they differ.
"""
import os
import sys

sys.path.insert(0, os.path.dirname(os.path.abspath(__file__)))
import opcfiles
from opcfiles import BadInput


def run():
    given = opcfiles.inside_klayout(__file__, sys.argv[1:])
    if len(given) != 6:
        raise BadInput("six words are wanted: FILE CELL LAYER/DATATYPE, twice")
    import image

    regions = []
    for path, cell, spec in (given[:3], given[3:]):
        layer, datatype = opcfiles.layer_of(spec)
        regions.append(image.region_of(image.load(path), cell, layer, datatype, path))
    different = (regions[0] ^ regions[1]).area()
    print(f"merged areas {regions[0].area()} and {regions[1].area()}, difference {different}")
    sys.exit(1 if different or regions[0].is_empty() else 0)


if __name__ == "__main__":
    opcfiles.main(run)

#!/usr/bin/python3
"""Compares the intensities and errors of two tables of opc with an image that numpy computes for the same masks.

usage: tools/compare_image.py LAYOUT KERNELS RULES BEFORE MASK TABLE

BEFORE is the table of `opc simulate`, MASK and TABLE are what `opc correct` stored. Of every fragment the intensities at the last
sample inside and the first outside, and its error, are computed again from the image. Ends with status 1 where an intensity differs by more than a billionth, or an error by more than the one
sixteenth that a rounded quotient can.
"""
import os
import sys

sys.path.insert(0, os.path.dirname(os.path.abspath(__file__)))
import opcfiles
from opcfiles import BadInput

SHARE = 1e-9


def edge_error(samples, threshold, each_side):
    """The error in sixteenths; samples[t + each_side] is sample t."""
    at = lambda t: samples[t + each_side]
    prints = lambda t: at(t) >= threshold
    if prints(-1):
        places = [t for t in range(each_side) if not prints(t)]
        nothing = 16 * each_side
    else:
        places = [-k for k in range(1, each_side) if prints(-1 - k)]
        nothing = -16 * each_side
    if not places:
        return nothing
    d = places[0]
    return 16 * d - 8 + int(16 * (at(d - 1) - threshold) // (at(d - 1) - at(d)))


def compare(table, field, window, name):
    """The greatest share by which an intensity differs, and the greatest difference of errors."""
    greatest = apart = 0
    for it in opcfiles.on_target(table.fragments):
        x, y, step_x, step_y = opcfiles.site(it)
        samples = [float(field[y + t * step_y - window.bottom, x + t * step_x - window.left]) for t in range(-table.samples, table.samples)]
        for said, found in ((it.inside, samples[table.samples - 1]), (it.outside, samples[table.samples])):
            greatest = max(greatest, abs(said - found) / max(said, found, table.threshold))
        apart = max(apart, abs(it.error - edge_error(samples, table.threshold, table.samples)))
    print(f"{name}: {len(table.fragments)} fragments, intensities differ by at most {greatest:.1e}, errors by at most {apart} sixteenths")
    return greatest <= SHARE and apart <= 1


def run():
    given = opcfiles.inside_klayout(__file__, sys.argv[1:])
    if len(given) != 6:
        raise BadInput("six words are wanted: LAYOUT KERNELS RULES BEFORE MASK TABLE")
    import image

    layout, kernels_path, rules_path, before_path, mask_path, table_path = given
    rules, kernels = opcfiles.read_rules(rules_path), opcfiles.read_kernels(kernels_path)
    before, table = opcfiles.read_table(before_path), opcfiles.read_table(table_path)
    target, _ = image.target_of(layout, rules)
    grid = rules["grid"]
    box, margin = target.bbox(), before.samples + kernels.reach + 128
    window = type(box)(*(it // grid for it in (box.left, box.bottom, box.right, box.top))).enlarged(margin, margin)
    fine = True
    for name, region, said in ((before_path, target, before), (table_path, image.output_of(mask_path, rules), table)):
        field = image.image(image.pixels(region, grid, window), kernels)
        fine = compare(said, field, window, name) and fine
    sys.exit(0 if fine else 1)


if __name__ == "__main__":
    opcfiles.main(run)

#!/usr/bin/python3
"""Makes duv.opk and duv_defocus.opk: integer kernels of a scanner at 193 nm.

usage: examples/make_kernels.py [FOLDER]          (python3-numpy; about half a minute)

What is computed, and from where:

  wavelength 193 nm, numerical aperture 1.35 in water (index 1.44), annular illumination from 0.5 to 0.8 of the aperture
  pixel 4 nm, reach 48 pixels (192 nm, 1.3 wavelengths over the aperture); light scalar, mask thin and binary: covered pixels let
  light through, all others none

  The partially coherent image is Hopkins' (H. H. Hopkins, "On the diffraction theory of optical images", Proc. Royal Society
  A 217, 1953): an integral over the points of the source, each of which makes a coherent image. The source is 432 points of a
  square raster. The point s has the coherent kernel h(x) exp(-2 pi i s x), h being the transform of the pupil: 1 inside the
  aperture, with the phase of a defocus of 0 nm, and of 60 nm in duv_defocus.opk.

  These 432 kernels, cut to the window of the reach, are gathered into few by their singular values, which is the sum of coherent
  systems of N. Cobb ("Fast Optical and Process Proximity Correction Algorithms for Integrated Circuit Manufacturing",
  Berkeley 1998): no other nine kernels keep more energy in this window. Nine are taken, so that no pair of equal values is parted.
  The script prints the energy that they keep.

  All entries are multiplied by one factor, so that the greatest part of duv.opk is 2048, and rounded: tools/kernels.py, with
  weights of 1. duv_defocus.opk has the same factor, so that one threshold is one dose: the rules have 0.3 of the clear field of
  duv.opk. The window cuts the kernels' tails, so the clear field of the two files isn't quite the same.
"""
import os
import sys

HERE = os.path.dirname(os.path.abspath(__file__))
sys.path.insert(0, os.path.join(os.path.dirname(HERE), "tools"))
import numpy

import kernels as kernel_tool
import opcfiles

WAVELENGTH = 193.0
APERTURE = 1.35
INDEX = 1.44
INNER, OUTER = 0.5, 0.8
PIXEL = 4.0
REACH = 48
COUNT = 9
LEVEL = 0.3
SOURCE_SIDE = 31
PUPIL_STEPS = 64
RIM_STEPS = 8


def pupil(defocus):
    """The pupil on a raster of frequencies; a square at its rim counts by the share that lies inside."""
    cutoff = APERTURE / WAVELENGTH
    steps = numpy.arange(-PUPIL_STEPS, PUPIL_STEPS + 1) / PUPIL_STEPS * cutoff
    fx, fy = numpy.meshgrid(steps, steps)
    size = steps[1] - steps[0]
    share = numpy.zeros_like(fx)
    for a in (numpy.arange(RIM_STEPS) + 0.5) / RIM_STEPS - 0.5:
        for b in (numpy.arange(RIM_STEPS) + 0.5) / RIM_STEPS - 0.5:
            share += (fx + a * size) ** 2 + (fy + b * size) ** 2 <= cutoff**2
    share /= RIM_STEPS**2
    along = numpy.sqrt(numpy.maximum((INDEX / WAVELENGTH) ** 2 - fx**2 - fy**2, 0))
    return steps, share * numpy.exp(2j * numpy.pi * defocus * (along - INDEX / WAVELENGTH)) * size**2


def coherent_kernels(defocus):
    """The kernels of all points of the source, a column each, over the window's pixels; places x and y of the pixels."""
    steps, transmission = pupil(defocus)
    places = numpy.arange(-REACH, REACH + 1) * PIXEL
    waves = numpy.exp(2j * numpy.pi * numpy.outer(places, steps))
    spread = (waves @ transmission @ waves.T).ravel() * PIXEL**2
    x, y = (it.ravel() for it in numpy.meshgrid(places, places))
    raster = numpy.linspace(-OUTER, OUTER, SOURCE_SIDE)
    source = numpy.array([(a, b) for b in raster for a in raster if INNER**2 <= a * a + b * b <= OUTER**2 + 1e-12])
    source *= APERTURE / WAVELENGTH
    tilt = numpy.exp(-2j * numpy.pi * (numpy.outer(x, source[:, 0]) + numpy.outer(y, source[:, 1])))
    return spread[:, None] * tilt / numpy.sqrt(len(source)), x, y


def settled_pairs(columns, values, x, y):
    """Kernels of equal energy are any two of a plane: the two that differ most along x and y; each turned to be as real as it can."""
    out, at = columns.copy(), 0
    while at < len(values):
        to = at + 1
        while to < len(values) and values[to] > values[at] * (1 - 1e-6):
            to += 1
        group = out[:, at:to]
        _, turn = numpy.linalg.eigh(group.conj().T @ (group * (x**2 - y**2)[:, None]))
        out[:, at:to] = group @ turn
        at = to
    for j in range(len(values)):
        column = out[:, j] * numpy.exp(-0.5j * numpy.angle((out[:, j] ** 2).sum()))
        greatest = column[numpy.argmax(numpy.round(abs(column) / abs(column).max(), 6))]
        out[:, j] = column * numpy.sign(greatest.real)
    return out


def system_kernels(defocus):
    """The strongest kernels, and three shares of energy: in the window of all, kept of the window, kept of all."""
    columns, x, y = coherent_kernels(defocus)
    values, vectors = numpy.linalg.eigh(columns.conj().T @ columns)
    order = numpy.argsort(values)[::-1][:COUNT]
    kept = settled_pairs(columns @ vectors[:, order], values[order], x, y)
    everything = numpy.pi * (APERTURE / WAVELENGTH) ** 2 * PIXEL**2
    window, strongest = values.sum(), values[order].sum()
    side = 2 * REACH + 1
    return kept.T.reshape(COUNT, side, side), (window / everything, strongest / window, strongest / everything)


def run():
    folder = sys.argv[1] if len(sys.argv) > 1 else HERE
    factor = None
    for name, defocus in (("duv.opk", 0.0), ("duv_defocus.opk", 60.0)):
        exact, (window, of_window, of_all) = system_kernels(defocus)
        rounded, factor = kernel_tool.integer_kernels(exact, factor=factor)
        opcfiles.write_whole(os.path.join(folder, name), opcfiles.pack_kernels(rounded))
        print(f"{name}: defocus {defocus:g} nm, energy in the window {window:.4f}, kept of it {of_window:.4f}, of all {of_all:.4f}")
        print(kernel_tool.report(exact, rounded, factor, LEVEL))


if __name__ == "__main__":
    opcfiles.main(run)

#!/usr/bin/python3
"""Turns a user's own kernels into a kernel file of opc, and says what the rounding to whole numbers costs.

usage: tools/kernels.py OUT.opk KERNELS.. [options]

KERNELS are files of numpy (.npy, of one matrix or of a list of matrices) or texts of one complex matrix each, as numpy.loadtxt
reads them (numbers like 0.25-0.1j). A matrix has an odd side 2R+1. Its rows are v from -R to R, so the first row is the lowest,
and its columns are u from -R to R: the amplitude at pixel (x, y) is the sum of entry (u, v) over the pixels (x-u, y-v) that let
light through. A kernel of a sum of coherent systems with factor s is given as sqrt(s) times the kernel, or by --weights.

  --form 1|2             OPK1 (entries to 2048), or OPK2 (entries to 128, two transmissions); 1 where no transmission is given
  --covered RE IM        what a covered pixel lets through, whole numbers from -8 to 8 (OPK2)
  --uncovered RE IM      the same of any other pixel; an attenuated mask of 6.25 % is --covered 4 0 --uncovered -1 0
  --weights W,W,..       whole weights, one a kernel, together at most 2048; 1 each where none are given
  --factor F             the factor of all entries, as for a second file beside a first; by itself the greatest part is 2048 (or 128)
  --level L              the share of the clear field that prints, for the key threshold; 0.3 where none is given
  --top-first            the first row of each matrix is the highest
"""
import os
import sys

sys.path.insert(0, os.path.dirname(os.path.abspath(__file__)))
import numpy

import opcfiles
from opcfiles import BadInput, KernelSet


def read_matrices(paths):
    """The matrices of all files, one list."""
    matrices = []
    for path in paths:
        opcfiles.read_whole(path)
        try:
            if path.endswith(".npy"):
                found = numpy.load(path, allow_pickle=False)
            else:
                found = numpy.loadtxt(path, dtype=complex, ndmin=2)
        except (ValueError, EOFError) as fault:
            raise BadInput(f"{path} holds no matrix of numbers ({fault}): give .npy, or a text of rows of numbers") from None
        if found.ndim not in (2, 3) or not numpy.issubdtype(found.dtype, numpy.number):
            raise BadInput(f"{path} has {found.ndim} dimensions of {found.dtype}: give a matrix of numbers or a list of them")
        matrices += list(found.astype(complex).reshape((-1,) + found.shape[-2:]))
    return matrices


def check_matrices(matrices):
    """All matrices as one array; each must be square, of one odd side, and finite."""
    if not 1 <= len(matrices) <= opcfiles.MOST_KERNELS:
        raise BadInput(f"{len(matrices)} kernels are given: 1 to {opcfiles.MOST_KERNELS} are allowed, so leave out the weakest")
    shapes = sorted({it.shape for it in matrices})
    if len(shapes) > 1 or shapes[0][0] != shapes[0][1] or shapes[0][0] % 2 == 0:
        raise BadInput(f"the kernels have the sizes {shapes}: all must be square with one odd side, so that one entry is the middle")
    if shapes[0][0] > 2 * opcfiles.MOST_REACH + 1:
        raise BadInput(f"a side of {shapes[0][0]} is too large: cut the kernels to {2 * opcfiles.MOST_REACH + 1}, or take larger pixels")
    kernels = numpy.array(matrices)
    if not numpy.isfinite(kernels).all():
        raise BadInput("an entry is infinite or not a number: mend the matrices")
    if not kernels.any():
        raise BadInput("all entries are 0: nothing would print")
    return kernels


def integer_kernels(kernels, form=1, covered=(1, 0), uncovered=(0, 0), weights=None, factor=None):
    """The kernels times one factor, rounded, and the factor: the one given, or that which uses the format's whole range."""
    weights = weights or [1] * len(kernels)
    if len(weights) != len(kernels) or min(weights) < 1 or sum(weights) > opcfiles.MOST_WEIGHT:
        raise BadInput(f"the weights {weights} don't fit: one for each of {len(kernels)} kernels, at least 1, together at most 2048")
    if max(map(abs, (*covered, *uncovered))) > opcfiles.MOST_TRANSMISSION:
        raise BadInput(f"the transmissions {covered} and {uncovered} have a part beyond 8: scale both down together")
    if form == 1 and (tuple(covered), tuple(uncovered)) != ((1, 0), (0, 0)):
        raise BadInput("OPK1 has the transmissions 1 and 0 alone: take --form 2")
    pairs = numpy.stack([kernels.real, kernels.imag], axis=-1)
    greatest = opcfiles.MOST_PART[form] / numpy.abs(pairs).max()
    factor = factor or greatest
    if not 0 < factor <= greatest:
        raise BadInput(f"the factor {factor:g} makes entries beyond {opcfiles.MOST_PART[form]}: take one up to {greatest:g}")
    parts = numpy.rint(pairs * factor).astype(numpy.int64)
    reach = kernels.shape[1] // 2
    return KernelSet(reach, list(weights), parts, tuple(covered), tuple(uncovered), form), factor


def amplitudes_at_edges(entries):
    """The kernels' sums over half planes: every place of a vertical edge, then of a horizontal one."""
    return numpy.concatenate([entries.sum(1).cumsum(1), entries.sum(2).cumsum(1)], axis=1)


def rounding_error(kernels, rounded, factor):
    """What rounding changes, as shares of the clear field: at any half plane, and at most for any mask."""
    exact = kernels * factor
    whole = rounded.parts[..., 0] + 1j * rounded.parts[..., 1]
    a, b = complex(*rounded.covered), complex(*rounded.uncovered)
    weights = numpy.array(rounded.weights, dtype=float)[:, None]
    field = []
    for entries in (exact, whole):
        ground = entries.sum((1, 2))[:, None] * b
        amplitude = amplitudes_at_edges(entries) * (a - b) + ground
        field.append((weights * abs(amplitude) ** 2).sum(0))
    clear = float(opcfiles.clear_field(rounded))
    size = max(abs(a), abs(b))
    greatest = size * abs(exact).sum((1, 2))
    change = size * abs(exact - whole).sum((1, 2))
    bound = (weights[:, 0] * (2 * greatest * change + change**2)).sum()
    return abs(field[0] - field[1]).max() / clear, bound / clear


def threshold_of(kernels, level):
    """The key threshold for a share of the clear field."""
    if not 0 < level:
        raise BadInput(f"the level {level} prints everything: take a share of the clear field, as 0.3")
    threshold = max(1, int(level * opcfiles.clear_field(kernels)))
    if threshold > opcfiles.MOST_THRESHOLD:
        raise BadInput(f"the level {level} gives a threshold beyond {opcfiles.MOST_THRESHOLD}: take a lower level")
    return threshold


def report(kernels, rounded, factor, level):
    """Lines on what was made."""
    clear = opcfiles.clear_field(rounded)
    if clear == 0:
        raise BadInput("the clear field is 0: the kernels' entries sum to nothing, so no threshold can be a share of it")
    edge, bound = rounding_error(kernels, rounded, factor)
    return (
        f"OPK{rounded.form}: {len(rounded.weights)} kernels of reach {rounded.reach}, factor {factor:.6g}\n"
        f"clear field {clear}\n"
        f"rounding changes the image of half planes by at most {edge:.2e} of the clear field, of any mask by less than {bound:.2e}\n"
        f"threshold = {threshold_of(rounded, level)}   # {level:g} of the clear field"
    )


def weights(text):
    return [int(it) for it in text.split(",")]


def words():
    parser = opcfiles.Words(__doc__)
    parser.add_argument("out")
    parser.add_argument("kernels", nargs="+")
    parser.add_argument("--form", type=int, choices=(1, 2))
    parser.add_argument("--covered", type=int, nargs=2)
    parser.add_argument("--uncovered", type=int, nargs=2)
    parser.add_argument("--weights", type=weights)
    parser.add_argument("--factor", type=float)
    parser.add_argument("--level", type=float, default=0.3)
    parser.add_argument("--top-first", action="store_true")
    given = parser.parse_args()
    given.form = given.form or (2 if given.covered or given.uncovered else 1)
    return given


def run():
    given = words()
    kernels = check_matrices(read_matrices(given.kernels))
    if given.top_first:
        kernels = kernels[:, ::-1, :]
    covered, uncovered = given.covered or (1, 0), given.uncovered or (0, 0)
    rounded, factor = integer_kernels(kernels, given.form, covered, uncovered, given.weights, given.factor)
    said = report(kernels, rounded, factor, given.level)
    opcfiles.write_whole(given.out, opcfiles.pack_kernels(rounded))
    print(said)


if __name__ == "__main__":
    opcfiles.main(run)

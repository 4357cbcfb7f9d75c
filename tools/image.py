"""The image of a mask by fast Fourier transforms of numpy, in floating point, and layouts as regions and pixels by KLayout.

This is independent of opc, which sums whole numbers: the two are compared by tools/test.sh. It is for pictures and for comparison.
It runs in KLayout's Python, where the module pya is.
"""
import numpy
import pya

from opcfiles import BadInput


def load(path):
    """A layout file, by KLayout."""
    layout = pya.Layout()
    try:
        layout.read(path)
    except RuntimeError as fault:
        raise BadInput(f"{path} can't be read as a layout ({str(fault).splitlines()[0]}): give a GDSII file") from None
    return layout


def region_of(layout, cell_name, layer, datatype, name):
    """What the cell places on the layer, merged, in database units."""
    cell = layout.cell(cell_name)
    if cell is None:
        known = ", ".join(sorted(it.name for it in layout.each_cell())[:8])
        raise BadInput(f"{name} has no cell {cell_name}: its cells are {known}")
    index = layout.find_layer(layer, datatype)
    if index is None:
        return pya.Region()
    return pya.Region(cell.begin_shapes_rec(index)).merged()


def target_of(path, rules):
    """The target of a rule file in a layout, in database units, and the micrometres of a database unit."""
    top, layer, datatype = (rules[key] for key in ("top", "layer", "datatype"))
    layout = load(path)
    return region_of(layout, top, layer, datatype, path), layout.dbu


def output_of(path, rules):
    """A mask or a printed image that opc stored."""
    name, layer, datatype = (rules[key] for key in ("out_name", "out_layer", "out_datatype"))
    return region_of(load(path), name, layer, datatype, path)


def pixels(region, grid, window):
    """The pixels of the window, a pixel box, that a rectilinear region covers: an array of rows, the lowest first."""
    rows = numpy.zeros((window.height(), window.width()), dtype=bool)
    for polygon in region.decompose_trapezoids_to_region().each():
        box = polygon.bbox()
        x0, y0, x1, y1 = (it // grid for it in (box.left, box.bottom, box.right, box.top))
        rows[max(0, y0 - window.bottom) : max(0, y1 - window.bottom), max(0, x0 - window.left) : max(0, x1 - window.left)] = True
    return rows


def image(covered, kernels):
    """The intensity at each pixel of an array of covered pixels; beyond the array nothing is covered."""
    height, width = (it + 2 * kernels.reach for it in covered.shape)
    spectrum = numpy.fft.fft2(covered.astype(float), (height, width))
    a, b = complex(*kernels.covered), complex(*kernels.uncovered)
    total = numpy.zeros(covered.shape)
    for weight, parts in zip(kernels.weights, kernels.parts):
        entries = parts[..., 0] + 1j * parts[..., 1]
        whole = numpy.fft.ifft2(spectrum * numpy.fft.fft2(entries, (height, width)))
        reach = kernels.reach
        amplitude = (a - b) * whole[reach : reach + covered.shape[0], reach : reach + covered.shape[1]] + b * entries.sum()
        total += weight * abs(amplitude) ** 2
    return total

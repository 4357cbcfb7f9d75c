#!/usr/bin/python3
"""Corrects a layer of a cell by opc, and makes what KLayout shows: target beside mask, and the errors for its marker browser.

usage: tools/opc_klayout.py LAYOUT CELL LAYER/DATATYPE KERNELS RULES OUT [--opc PROGRAM]

Writes OUT.gds (the target on its layer and the mask on the rule file's output layer, in one cell), OUT.txt (the error table)
and OUT.lyrdb (a report database: a category a side and size class, an item a fragment). The keys top, layer and datatype of RULES
give way to CELL and LAYER/DATATYPE. To look at it: klayout OUT.gds -m OUT.lyrdb

tools/opc_klayout.lym does the same from the open layout, by the functions of this file.
"""
import os
import sys
import tempfile

sys.path.insert(0, os.path.dirname(os.path.abspath(__file__)))
import opcfiles
from opcfiles import BadInput


def save_cell(layout, cell, layer, datatype, path):
    """The chosen layer of the cell and of the cells below it, as an uncompressed GDSII file."""
    import pya

    index = layout.find_layer(layer, datatype)
    if index is None:
        known = ", ".join(sorted(f"{it.layer}/{it.datatype}" for it in layout.layer_infos()))
        raise BadInput(f"the layout has no layer {layer}/{datatype}: it has {known}")
    options = pya.SaveLayoutOptions()
    options.format = "GDS2"
    options.deselect_all_layers()
    options.add_layer(index, pya.LayerInfo(layer, datatype))
    options.clear_cells()
    options.add_cell(cell.cell_index())
    options.write_context_info = False
    layout.write(path, options)


def correct(layout, cell, layer, datatype, kernels, rules, opc):
    """What opc makes of the cell: the rules it was run with, the bytes of the mask file, and the text of the table."""
    rules = {**rules, "top": cell.name, "layer": layer, "datatype": datatype}
    with tempfile.TemporaryDirectory(prefix="opc-") as folder:
        names = [os.path.join(folder, it) for it in ("layout.gds", "rules.toml", "mask.gds", "table.txt")]
        save_cell(layout, cell, layer, datatype, names[0])
        opcfiles.write_whole(names[1], opcfiles.rules_text(rules))
        opcfiles.run_opc(opc, "correct", names[0], os.path.abspath(kernels), names[1], names[2], names[3])
        return rules, opcfiles.read_whole(names[2]), opcfiles.read_whole(names[3]).decode()


def put_mask(layout, cell, rules, mask):
    """Reads the mask file's shapes into a layer of the cell; gives the layer's index."""
    import pya

    with tempfile.TemporaryDirectory(prefix="opc-") as folder:
        path = os.path.join(folder, "mask.gds")
        opcfiles.write_whole(path, mask)
        other = pya.Layout()
        other.read(path)
    to = layout.layer(rules["out_layer"], rules["out_datatype"])
    index = other.find_layer(rules["out_layer"], rules["out_datatype"])
    if index is not None:
        cell.shapes(to).insert(pya.Region(other.cell(rules["out_name"]).begin_shapes_rec(index)))
    return to


def fill_report(report, cell_name, table, micron):
    """A category a side and size class, an item a fragment, at the fragment as it stands in the mask; micron is a pixel's size."""
    import pya

    report.description = f"{table.end}; samples {table.samples}, pixel {micron * 1000:g} nm"
    cell = report.create_cell(cell_name)
    categories = {}
    for side in opcfiles.SIDES:
        parent = report.create_category(side)
        for number in range(len(opcfiles.CLASSES), -1, -1):
            category = report.create_category(parent, opcfiles.class_name(number))
            category.description = f"edge errors {opcfiles.class_name(number)}, at {side} edges"
            categories[side, number] = category
    for it in table.fragments:
        category = categories[it.side, opcfiles.size_class(it.error, table.samples)]
        item = report.create_item(cell.rdb_id(), category.rdb_id())
        (x0, y0), (x1, y1) = it.ends()
        item.add_value(pya.DEdge(x0 * micron, y0 * micron, x1 * micron, y1 * micron))
        item.add_value(f"error {it.error / 16 * micron * 1000:+.2f} nm ({it.error} sixteenths), offset {it.offset * micron * 1000:+g} nm")
        item.add_value(f"intensity over the threshold: {it.inside / table.threshold:.3f} inside, {it.outside / table.threshold:.3f} outside")
        item.add_value(f"fragment {it.number}")


def words(given):
    parser = opcfiles.Words(__doc__)
    for name in ("layout", "cell", "layer", "kernels", "rules", "out"):
        parser.add_argument(name)
    parser.add_argument("--opc")
    return parser.parse_args(given)


def run():
    given = words(opcfiles.inside_klayout(__file__, sys.argv[1:]))
    import pya

    import image

    opc = opcfiles.program(given.opc)
    layer, datatype = opcfiles.layer_of(given.layer)
    layout = image.load(given.layout)
    cell = layout.cell(given.cell)
    if cell is None:
        raise BadInput(f"{given.layout} has no cell {given.cell}: names are compared to the letter")
    opcfiles.read_kernels(given.kernels)
    rules, mask, table_text = correct(layout, cell, layer, datatype, given.kernels, opcfiles.read_rules(given.rules), opc)
    table = opcfiles.parse_table(table_text, "the table")
    beside = pya.Layout()
    beside.dbu = layout.dbu
    top = beside.create_cell(given.cell)
    index = layout.find_layer(layer, datatype)
    top.shapes(beside.layer(layer, datatype)).insert(pya.Region(cell.begin_shapes_rec(index)).merged())
    put_mask(beside, top, rules, mask)
    report = pya.ReportDatabase(given.out)
    report.generator = "opc"
    report.original_file = os.path.abspath(given.out + ".gds")
    fill_report(report, given.cell, table, rules["grid"] * layout.dbu)
    opcfiles.write_by(beside.write, given.out + ".gds")
    opcfiles.write_by(report.save, given.out + ".lyrdb")
    opcfiles.write_whole(given.out + ".txt", table_text)
    print(table.end)


if __name__ == "__main__":
    opcfiles.main(run)

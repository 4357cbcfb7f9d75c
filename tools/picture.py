#!/usr/bin/python3
"""Draws target, mask, printed image and edge errors, as SVG and PNG.

usage: tools/picture.py OUT LAYOUT KERNELS RULES MASK TABLE [options]

Writes OUT.svg and OUT.png. LAYOUT, KERNELS and RULES are what `opc correct` was given, MASK and TABLE what it stored. Each fragment
is drawn on its target edge, coloured by its error; the worst one is marked. (KLayout, python3-numpy, python3-matplotlib)

  --before TABLE          the table of `opc simulate`: a second panel, the target as it prints uncorrected
  --printed FILE          the printed image that `opc check` stored for the mask; else it is computed here, in floating point
  --printed-before FILE   the same for the target, from a check with rounds = 0
  --window X0 Y0 X1 Y1    the part to draw, in micrometres; else all
"""
import io
import os
import sys

sys.path.insert(0, os.path.dirname(os.path.abspath(__file__)))
import opcfiles
from opcfiles import BadInput

MOST_PIXELS = 4_194_304


def words(given):
    parser = opcfiles.Words(__doc__)
    for name in ("out", "layout", "kernels", "rules", "mask", "table"):
        parser.add_argument(name)
    parser.add_argument("--before")
    parser.add_argument("--printed")
    parser.add_argument("--printed-before")
    parser.add_argument("--window", type=float, nargs=4)
    return parser.parse_args(given)


# Blue where it prints too far in, green on the target, red where it prints too far out.
COLOURS = ("#1338b8", "#4f9be8", "#2ca02c", "#f0953c", "#c01818")


class Drawing:
    """What all panels share: units, the window, the colours of errors."""

    def __init__(self, given):
        import image

        self.image = image
        self.rules = opcfiles.read_rules(given.rules)
        self.kernels = opcfiles.read_kernels(given.kernels)
        self.grid = self.rules["grid"]
        self.target, self.dbu = image.target_of(given.layout, self.rules)
        if self.target.is_empty():
            raise BadInput(f"{given.layout} has nothing on the layer of {given.rules}: see its keys top, layer and datatype")
        self.micron = self.grid * self.dbu
        self.window = self.pixel_window(given.window)

    def pixel_window(self, given):
        import pya

        if given:
            x0, y0, x1, y1 = (round(it / self.micron) for it in given)
        else:
            box, margin = self.target.bbox(), 16
            x0, y0 = box.left // self.grid - margin, box.bottom // self.grid - margin
            x1, y1 = box.right // self.grid + margin, box.top // self.grid + margin
        if x0 >= x1 or y0 >= y1 or (x1 - x0) * (y1 - y0) > MOST_PIXELS:
            raise BadInput(f"a window of {x1 - x0} by {y1 - y0} pixels can't be drawn: give --window with at most {MOST_PIXELS} pixels")
        return pya.Box(x0, y0, x1, y1)

    def path(self, region):
        """A matplotlib path of what the window shows of a region, in micrometres."""
        import pya
        from matplotlib.path import Path

        box = self.window.enlarged(2, 2)
        region = region & pya.Region(pya.Box(*(it * self.grid for it in (box.left, box.bottom, box.right, box.top))))

        points, codes = [], []
        for polygon in region.each():
            loops = [polygon.each_point_hull()] + [polygon.each_point_hole(i) for i in range(polygon.holes())]
            for loop in loops:
                loop = [(p.x * self.dbu, p.y * self.dbu) for p in loop]
                points += loop + loop[:1]
                codes += [Path.MOVETO] + [Path.LINETO] * (len(loop) - 1) + [Path.CLOSEPOLY]
        return Path(points, codes) if points else None

    def draw_region(self, axes, region, **style):
        from matplotlib.patches import PathPatch

        path = self.path(region)
        if path:
            axes.add_patch(PathPatch(path, **style))

    def draw_printed(self, axes, mask, printed):
        """The contour of what prints: from opc's file, or where the computed image has the threshold."""
        if printed:
            self.draw_region(axes, self.image.output_of(printed, self.rules), fc="none", ec="black", lw=1.0, zorder=5)
            return
        import numpy

        around = self.window.enlarged(self.kernels.reach, self.kernels.reach)
        covered = self.image.pixels(mask, self.grid, around)
        field = self.image.image(covered, self.kernels)
        x = (numpy.arange(around.left, around.right) + 0.5) * self.micron
        y = (numpy.arange(around.bottom, around.top) + 0.5) * self.micron
        threshold = self.rules["threshold"]
        axes.contour(x, y, field, levels=[threshold], colors="black", linewidths=1.0, zorder=5)

    def draw_errors(self, axes, table, norm, colours):
        """The seen fragments on the target, coloured by the table's errors; the worst of them marked."""
        from matplotlib.collections import LineCollection

        lines, errors = [], []
        for it in opcfiles.on_target(table.fragments):
            (x0, y0), (x1, y1) = it.ends()
            line = [(x0 * self.micron, y0 * self.micron), (x1 * self.micron, y1 * self.micron)]
            if self.is_seen(line):
                lines.append(line)
                errors.append(it.error / 16 * self.micron * 1000)
        if not lines:
            return
        axes.add_collection(LineCollection(lines, array=errors, cmap=colours, norm=norm, linewidths=2.2, capstyle="butt", zorder=4))
        worst = max(range(len(lines)), key=lambda i: abs(errors[i]))
        (x0, y0), (x1, y1) = lines[worst]
        at = ((x0 + x1) / 2, (y0 + y1) / 2)
        without = table.samples * self.micron * 1000
        sign = f"no contour within {without:g} nm" if abs(errors[worst]) == without else f"{errors[worst]:+.1f} nm"
        axes.plot(*at, marker="o", ms=16, mfc="none", mec="black", mew=1.8, zorder=6)
        axes.annotate(f"worst: {sign}", at, xytext=(12, 14), textcoords="offset points", fontsize=9, weight="bold", zorder=7,
                      bbox={"fc": "white", "ec": "black", "lw": 0.6, "pad": 2})

    def is_seen(self, line):
        box = self.window
        return all(box.left <= x / self.micron <= box.right and box.bottom <= y / self.micron <= box.top for x, y in line)

    def scale_bar(self, axes):
        width = self.window.width() * self.micron
        length = next(it for it in (10, 5, 2, 1, 0.5, 0.2, 0.1, 0.05, 0.02, 0.01) if it <= width / 4 or it == 0.01)
        x, y = self.window.left * self.micron + width * 0.03, self.window.bottom * self.micron + width * 0.03
        axes.plot([x, x + length], [y, y], color="black", lw=4, solid_capstyle="butt", zorder=8)
        text = f"{length:g} µm" if length >= 1 else f"{length * 1000:g} nm"
        axes.text(x + length / 2, y + width * 0.012, text, ha="center", va="bottom", fontsize=9, zorder=8,
                  bbox={"fc": "white", "ec": "none", "alpha": 0.8, "pad": 1})

    def finish(self, axes, title):
        box = self.window
        axes.set_xlim(box.left * self.micron, box.right * self.micron)
        axes.set_ylim(box.bottom * self.micron, box.top * self.micron)
        axes.set_aspect("equal")
        axes.set_xlabel("µm")
        axes.set_title(title, fontsize=10)
        self.scale_bar(axes)


def panels(given, drawing):
    """Title, table, mask, printed file of each panel."""
    after = opcfiles.read_table(given.table)
    mask = drawing.image.output_of(given.mask, drawing.rules)
    if mask.is_empty():
        raise BadInput(f"{given.mask} has no shape on the output layer of {given.rules}: give the mask that opc stored by these rules")
    said = lambda table: f"worst {table.worst / 16 * drawing.micron * 1000:.1f} nm, mean {mean(table, drawing):.2f} nm"
    out = [(f"corrected mask: {said(after)}", after, mask, given.printed)]
    if given.before:
        before = opcfiles.read_table(given.before)
        out.insert(0, (f"target as the mask: {said(before)}", before, None, given.printed_before))
    return out


def mean(table, drawing):
    return table.total / 16 / max(1, len(table.fragments)) * drawing.micron * 1000


def draw(given):
    import matplotlib

    matplotlib.use("Agg")
    matplotlib.rcParams["svg.hashsalt"] = "opc"
    from matplotlib import pyplot
    from matplotlib.colors import LinearSegmentedColormap, Normalize
    from matplotlib.lines import Line2D
    from matplotlib.patches import Patch

    drawing = Drawing(given)
    parts = panels(given, drawing)
    shape = drawing.window.height() / drawing.window.width()
    wide = len(parts) > 1
    # below the panels: the bar of colours with its words, and on one panel the legend below those
    below = 0.85 if wide else 1.15
    height = 6.6 * shape + below + 0.85
    figure, all_axes = pyplot.subplots(1, len(parts), figsize=(7.2 * len(parts), height), squeeze=False)
    greatest = max(8.0, min(40.0, max(abs(it.error) for _, table, _, _ in parts for it in table.fragments) / 16 * drawing.micron * 1000))
    norm, colours = Normalize(-greatest, greatest), LinearSegmentedColormap.from_list("errors", COLOURS)
    for axes, (title, table, mask, printed) in zip(all_axes[0], parts):
        drawing.draw_region(axes, drawing.target, fc="#d9d9d9", ec="#808080", lw=0.6)
        if mask is not None:
            drawing.draw_region(axes, mask, fc="#3b6fd4", ec="#1f4fa8", lw=0.8, alpha=0.35)
        drawing.draw_printed(axes, drawing.target if mask is None else mask, printed)
        drawing.draw_errors(axes, table, norm, colours)
        drawing.finish(axes, title)
    legend = [Patch(fc="#d9d9d9", ec="#808080", label="target"), Patch(fc="#3b6fd4", ec="#1f4fa8", alpha=0.35, label="mask"),
              Line2D([], [], color="black", lw=1, label="printed contour")]
    figure.legend(handles=legend, loc="lower left", ncol=3, fontsize=9, frameon=False, bbox_to_anchor=(0.02, 0.02 if wide else 0.0))
    colour = matplotlib.cm.ScalarMappable(norm=norm, cmap=colours)
    figure.tight_layout(rect=(0, below / height, 1, 1))
    bar = figure.add_axes((0.45 if wide else 0.1, (below - 0.3) / height, 0.5 if wide else 0.8, 0.15 / height))
    figure.colorbar(colour, cax=bar, orientation="horizontal")
    bar.set_xlabel("edge error in nm: below 0 prints too far in, above 0 too far out", fontsize=9)
    save(figure, given.out)


def save(figure, out):
    stem = out[:-4] if out.endswith((".svg", ".png")) else out
    for ending, how in (("svg", {"metadata": {"Date": None}}), ("png", {"dpi": 90})):
        content = io.BytesIO()
        figure.savefig(content, format=ending, **how)
        opcfiles.write_whole(f"{stem}.{ending}", content.getvalue())
        print(f"{stem}.{ending}: {len(content.getvalue())} bytes")


def run():
    given = words(opcfiles.inside_klayout(__file__, sys.argv[1:]))
    draw(given)


if __name__ == "__main__":
    opcfiles.main(run)

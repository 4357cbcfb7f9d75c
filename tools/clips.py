#!/usr/bin/python3
"""Cuts a layer that is larger than one run takes into clips, puts their masks together, and checks the seams.

usage: tools/clips.py cut LAYOUT KERNELS RULES FOLDER [--side P] [--margin P] [--shift]
       tools/clips.py join FOLDER OUT.gds
       tools/clips.py seams FOLDER OUT.gds
       tools/clips.py compare FOLDER OUT.gds OTHER.gds

cut      makes FOLDER with a layout a clip, the kernels, one rule file, plan.json, and jobs.txt: a line of shell a clip. The layer's
         surroundings are divided into cores, squares of --side pixels (1024 where none is given); a clip is its core grown by
         --margin pixels: twice reach + samples + the largest offset where none is given. With --shift the cores begin half a side
         earlier, so that their middles lie on the other plan's seams.
         Then, in FOLDER:  parallel --jobs 4 --joblog log --resume-failed < jobs.txt      (docs/SCALING.md: over ssh, Slurm)
join     puts together what each clip's mask has in its core, as one layout of one cell, and says the errors of all cores.
seams    computes the image of the joined mask, in floating point, at each fragment that is nearer to a seam than reach + samples, and
         says its errors beside those that the clips' tables had; and judges widths and spaces there by KLayout.
compare  says how two joined masks differ near the seams of the first: the second is of a plan made with --shift.
"""
import contextlib
import json
import os
import shutil
import sys
import tempfile

sys.path.insert(0, os.path.dirname(os.path.abspath(__file__)))
import opcfiles
from opcfiles import BadInput

TOP = "CLIP"
SIDE = 1024
JOB = '"${{OPC:-opc}}" correct clips/{0}.gds kernels.opk rules.toml masks/{0}.gds tables/{0}.txt > said/{0}.txt'


def words(given):
    parser = opcfiles.Words(__doc__)
    does = parser.add_subparsers(dest="does", required=True)
    orders = {"cut": ("layout", "kernels", "rules", "folder"), "join": ("folder", "out"), "seams": ("folder", "out"),
              "compare": ("folder", "out", "other")}
    for name, places in orders.items():
        order = does.add_parser(name, text=__doc__)
        for place in places:
            order.add_argument(place)
        if name == "cut":
            order.add_argument("--side", type=int, default=SIDE)
            order.add_argument("--margin", type=int)
            order.add_argument("--shift", action="store_true")
    return parser.parse_args(given)


# Cutting


def without_slivers(clip, box, least):
    """The clip without what the cut left narrower than the least width beside the border of its box."""
    import pya

    half = (least + 1) // 2
    inner = box.enlarged(-4 * half, -4 * half)
    border = pya.Region(box) - pya.Region(inner)
    narrow = clip - clip.sized(-half).sized(half)
    return clip - (narrow & border)


@contextlib.contextmanager
def new_folder(path):
    """A folder under another name beside, which gets its name when all in it is written; a failure leaves none."""
    try:
        made = tempfile.mkdtemp(dir=os.path.dirname(os.path.abspath(path)), prefix=".opc-")
    except OSError as fault:
        raise BadInput(f"cannot make {path} ({fault.strerror}): name a folder in one that is there and may be written") from None
    try:
        yield made
        mask = os.umask(0)
        os.umask(mask)
        os.chmod(made, 0o777 & ~mask)
        os.rename(made, path)
    except BaseException as fault:
        shutil.rmtree(made, ignore_errors=True)
        if isinstance(fault, (OSError, RuntimeError)):  # (of KLayout's writing)
            raise BadInput(f"cannot make {path} ({fault}): make room, or name another folder") from None
        raise


def write_clip(path, region, dbu, rules):
    import pya

    layout = pya.Layout()
    layout.dbu = dbu
    layout.create_cell(TOP).shapes(layout.layer(rules["layer"], rules["datatype"])).insert(region)
    options = pya.SaveLayoutOptions()
    options.format = "GDS2"
    options.write_context_info = False
    layout.write(path, options)


def check_cut(given, rules):
    """The margin, and that the numbers can be a plan."""
    kernels = opcfiles.read_kernels(given.kernels)
    samples, max_in, max_out = (rules[key] for key in ("samples", "max_in", "max_out"))
    near = kernels.reach + samples
    margin = 2 * (near + max(max_in, max_out)) if given.margin is None else given.margin
    if given.side < 2 * near:
        raise BadInput(f"cores of {given.side} pixels are too small: take --side of at least {2 * near}, twice the reach and the samples")
    if margin < near + max(max_in, max_out):
        raise BadInput(f"a margin of {margin} pixels hides light that counts: take at least {near + max(max_in, max_out)}")
    if os.path.exists(given.folder):
        raise BadInput(f"{given.folder} is there already: name a folder that isn't")
    return margin


def cores_of(box, grid, side, shift):
    """The cores, as pixel boxes by (row, column), that cover the box."""
    begin = side // 2 if shift else 0
    x0, y0 = box.left // grid - begin, box.bottom // grid - begin
    columns, rows = (-(-(box.right // grid + 1 - x0) // side), -(-(box.top // grid + 1 - y0) // side))
    return {(row, column): (x0 + column * side, y0 + row * side, x0 + (column + 1) * side, y0 + (row + 1) * side)
            for row in range(rows) for column in range(columns)}


def cut(given):
    import image

    rules = opcfiles.read_rules(given.rules)
    margin = check_cut(given, rules)
    target, dbu = image.target_of(given.layout, rules)
    if target.is_empty():
        raise BadInput(f"{given.layout} has nothing on the layer of {given.rules}: see its keys top, layer and datatype")
    plan = {"grid": rules["grid"], "dbu": dbu, "side": given.side, "margin": margin, "rules": rules,
            "layout": os.path.abspath(given.layout), "rules_path": os.path.abspath(given.rules), "clips": {}}
    with new_folder(given.folder) as folder:
        for name in ("clips", "masks", "tables", "said"):
            os.mkdir(os.path.join(folder, name))
        write_clips(folder, target, plan, given.shift)
        for name, content in (("kernels.opk", opcfiles.read_whole(given.kernels)),
                              ("rules.toml", opcfiles.rules_text({**rules, "top": TOP})),
                              ("jobs.txt", "".join(JOB.format(it) + "\n" for it in plan["clips"])),
                              ("plan.json", json.dumps(plan, indent=1))):
            opcfiles.write_whole(os.path.join(folder, name), content)
    print(f"{len(plan['clips'])} clips, cores of {given.side} pixels, margin {margin}")


def write_clips(folder, target, plan, shift):
    """Writes a layout a clip, and puts the clips' places into the plan."""
    import pya

    rules, grid, side, margin = (plan[key] for key in ("rules", "grid", "side", "margin"))
    least = rules["width"] * grid
    moved = max(rules["max_in"], rules["max_out"]) * grid  # (so far a mask reaches beyond its target)
    shapes = pya.Layout()
    index, cell = shapes.layer(1, 0), shapes.create_cell("T")
    cell.shapes(index).insert(target)  # (a cell finds what touches a box quickly; a region goes through all)
    for (row, column), core in cores_of(target.bbox().enlarged(moved, moved), grid, side, shift).items():
        inside = pya.Box(*(it * grid for it in core))
        box = inside.enlarged(margin * grid, margin * grid)
        near = pya.Region(cell.begin_shapes_rec_touching(index, box)) & pya.Region(box)
        if (near & pya.Region(inside.enlarged(moved, moved))).is_empty():
            continue
        middle = ((core[0] + core[2]) // 2, (core[1] + core[3]) // 2)
        clip = without_slivers(near, box, least).moved(-middle[0] * grid, -middle[1] * grid)
        name = f"{row}_{column}"
        write_clip(os.path.join(folder, "clips", name + ".gds"), clip, plan["dbu"], rules)
        plan["clips"][name] = {"core": core, "middle": middle}


# Joining


def read_plan(folder):
    try:
        plan = json.loads(opcfiles.read_whole(os.path.join(folder, "plan.json")))
    except ValueError:
        plan = None
    if not isinstance(plan, dict) or not {"grid", "dbu", "rules", "clips"} <= plan.keys():
        raise BadInput(f"{folder}/plan.json is damaged: cut the layout again")
    return plan


def check_done(folder, plan):
    """Each clip must have said its table's last line."""
    missing = []
    for name in plan["clips"]:
        path = os.path.join(folder, "said", name + ".txt")
        said = opcfiles.read_whole(path).decode("utf-8", "replace").strip() if os.path.exists(path) else ""
        if not opcfiles.END.fullmatch(said):
            missing.append((name, said))
    if missing:
        name, said = missing[0]
        why = f"opc said: {said} ({opcfiles.advice(said)})" if said else "it hasn't been run to its end"
        raise BadInput(f"{len(missing)} of {len(plan['clips'])} clips aren't done; clip {name}: {why}. "
                       f"In {folder}: parallel --joblog log --resume-failed < jobs.txt (over ssh or by Slurm: docs/SCALING.md)")


def clip_table(folder, name):
    return opcfiles.read_table(os.path.join(folder, "tables", name + ".txt"))


def is_within(x, y, box):
    return box[0] <= x < box[2] and box[1] <= y < box[3]


def fragments_of_core(folder, name, clip):
    """The clip's fragments whose last sample inside lies in its core, with their sites in the whole layout's pixels."""
    out = []
    for it in opcfiles.on_target(clip_table(folder, name).fragments):
        x, y, step_x, step_y = opcfiles.site(it)
        x, y = x + clip["middle"][0], y + clip["middle"][1]
        if is_within(x - step_x, y - step_y, clip["core"]):
            out.append((it, (x, y, step_x, step_y)))
    return out


def join(given):
    import pya

    import image

    plan = read_plan(given.folder)
    check_done(given.folder, plan)
    rules, grid = plan["rules"], plan["grid"]
    mask, worst, total, count = pya.Region(), 0, 0, 0
    for name, clip in plan["clips"].items():
        part = image.output_of(os.path.join(given.folder, "masks", name + ".gds"), rules)
        core = pya.Region(pya.Box(*(it * grid for it in clip["core"])))
        mask += part.moved(clip["middle"][0] * grid, clip["middle"][1] * grid) & core
        errors = [abs(it.error) for it, _ in fragments_of_core(given.folder, name, clip)]
        worst, total, count = max([worst, *errors]), total + sum(errors), count + len(errors)
    layout = pya.Layout()
    layout.dbu = plan["dbu"]
    shapes = layout.create_cell(rules["out_name"]).shapes(layout.layer(rules["out_layer"], rules["out_datatype"]))
    shapes.insert(mask.merged())
    options = pya.SaveLayoutOptions()
    options.format = "GDS2"
    opcfiles.write_by(lambda name: layout.write(name, options), given.out)
    print(f"{given.out}: {len(plan['clips'])} clips, {count} fragments in cores, worst {worst} total {total}")


# Seams


def seam_boxes(plan, reach):
    """Bands along the borders of all cores, in database units."""
    import pya

    bands = pya.Region()
    for clip in plan["clips"].values():
        x0, y0, x1, y1 = clip["core"]
        for box in ((x0 - reach, y0, x0 + reach, y1), (x1 - reach, y0, x1 + reach, y1),
                    (x0, y0 - reach, x1, y0 + reach), (x0, y1 - reach, x1, y1 + reach)):
            bands.insert(pya.Box(*(it * plan["grid"] for it in box)))
    return bands.merged()


def joined_mask(path, plan):
    import image

    return image.output_of(path, plan["rules"])


def errors_at_seams(folder, plan, mask, kernels, samples):
    """Of each fragment near the border of its core: its error in its clip's table, and in the image of the joined mask."""
    import pya

    import compare_image
    import image

    near, grid = kernels.reach + samples, plan["grid"]
    shapes = pya.Layout()
    index, cell = shapes.layer(1, 0), shapes.create_cell("M")
    cell.shapes(index).insert(mask)
    threshold = plan["rules"]["threshold"]
    for name, clip in plan["clips"].items():
        core = clip["core"]
        inner = (core[0] + near, core[1] + near, core[2] - near, core[3] - near)
        border = [(it, at) for it, at in fragments_of_core(folder, name, clip) if not is_within(at[0] - at[2], at[1] - at[3], inner)]
        if not border:
            continue
        window = pya.Box(*core).enlarged(near, near)
        region = pya.Region(cell.begin_shapes_rec_touching(index, window * grid))
        field = image.image(image.pixels(region.merged(), grid, window), kernels)
        for it, (x, y, step_x, step_y) in border:
            seen = [float(field[y + t * step_y - window.bottom, x + t * step_x - window.left]) for t in range(-samples, samples)]
            yield it.error, compare_image.edge_error(seen, threshold, samples)


def seams(given):
    import pya

    plan = read_plan(given.folder)
    check_done(given.folder, plan)
    rules, mask = plan["rules"], joined_mask(given.out, plan)
    kernels = opcfiles.read_kernels(os.path.join(given.folder, "kernels.opk"))
    pairs = list(errors_at_seams(given.folder, plan, mask, kernels, rules["samples"]))
    if pairs:
        said, found = max(abs(a) for a, _ in pairs), max(abs(b) for _, b in pairs)
        mean_said, mean_found = (sum(abs(it[k]) for it in pairs) / len(pairs) for k in (0, 1))
        apart = sorted(abs(a - b) for a, b in pairs)
        print(f"{len(pairs)} fragments near seams: worst {said} in the clips' tables, {found} in the joined mask's image, in sixteenths; "
              f"means {mean_said:.2f} and {mean_found:.2f}")
        print(f"an error differs by at most {apart[-1]} sixteenths, in 99 of 100 fragments by at most {apart[len(apart) * 99 // 100]}")
    bands = seam_boxes(plan, max(rules["width"], rules["space"]))
    near = mask.interacting(bands)
    for name, least, found in (
        ("width", rules["width"], near.width_check(rules["width"] * plan["grid"], False, pya.Region.Projection)),
        ("space", rules["space"], mask.space_check(rules["space"] * plan["grid"], False, pya.Region.Projection)),
    ):
        count = found.polygons().interacting(bands).count()
        print(f"{name} below {least} pixels near seams, by KLayout: {count} places")


def compare(given):
    plan = read_plan(given.folder)
    first, second = joined_mask(given.out, plan), joined_mask(given.other, plan)
    kernels = opcfiles.read_kernels(os.path.join(given.folder, "kernels.opk"))
    bands = seam_boxes(plan, kernels.reach + plan["rules"]["samples"])
    different = (first ^ second) & bands
    grid, thick = plan["grid"], 0
    while thick < 256 and not different.sized(-(thick * grid + 1) // 2).is_empty():
        thick += 1
    area = different.area() / grid**2
    print(f"near the seams the masks have {(first & bands).area() / grid**2:.0f} pixels and differ in {area:.0f}, at most {thick} pixels thick")


def run():
    given = words(opcfiles.inside_klayout(__file__, sys.argv[1:]))
    {"cut": cut, "join": join, "seams": seams, "compare": compare}[given.does](given)


if __name__ == "__main__":
    opcfiles.main(run)

"""What the tools share: the files of opc, its lines and statuses, and how it is run.

The formats are those of docs/FORMATS.md. A tool says one line on standard error for what is wrong and what to do, ends with
status 2, and writes each file whole or not at all.
"""
import argparse
import dataclasses
import json
import os
import re
import struct
import subprocess
import sys
import tempfile
import tomllib

REPOSITORY = os.path.dirname(os.path.dirname(os.path.abspath(__file__)))
MOST_KERNELS = 16
MOST_REACH = 64
MOST_WEIGHT = 2048
MOST_PART = {1: 2048, 2: 128}
MOST_TRANSMISSION = 8
MOST_THRESHOLD = 4_800_000_000_000_000_000
MOST_FRAGMENTS = 32_768
SIXTEENTHS = 16
SIDES = ("left", "right", "down", "up")


class BadInput(Exception):
    """What is wrong with what a user gave, and what to do."""


def main(run):
    """Runs a tool's work on its words; bad input is one line and status 2."""
    status = 0
    try:
        run()
    except BadInput as fault:
        print(f"{os.path.basename(sys.argv[0])}: {fault}", file=sys.stderr)
        status = 2
    except SystemExit as end:
        status = end.code or 0
    sys.stdout.flush()
    sys.stderr.flush()
    if "OPC_TOOL_WORDS" in os.environ:
        os._exit(status)  # (KLayout would end with 0)
    sys.exit(status)


def write_by(write, path):
    """Has another library write a file, elsewhere first: `write` is given the name."""
    with tempfile.TemporaryDirectory(prefix="opc-") as folder:
        made = os.path.join(folder, "made" + os.path.splitext(path)[1])
        write(made)
        write_whole(path, read_whole(made))


class Words(argparse.ArgumentParser):
    """The words of a tool: --help prints the tool's own text, and what is wrong is one line."""

    def __init__(self, text="", **more):
        super().__init__(**more)
        self.text = text

    def format_help(self):
        return self.text

    def error(self, message):
        raise BadInput(f"{message}: --help says how it is called")


def read_whole(path):
    try:
        with open(path, "rb") as file:
            return file.read()
    except OSError as fault:
        raise BadInput(f"cannot read {path} ({fault.strerror}): give the name of a file that is there") from None


def write_whole(path, content):
    """Writes the file under another name beside it and renames it, so that a failure leaves what was there."""
    if isinstance(content, str):
        content = content.encode()
    folder = os.path.dirname(os.path.abspath(path))
    try:
        handle, beside = tempfile.mkstemp(dir=folder, prefix=".opc-")
        try:
            with os.fdopen(handle, "wb") as file:
                file.write(content)
            mask = os.umask(0)
            os.umask(mask)
            os.chmod(beside, 0o666 & ~mask)
            os.replace(beside, path)
        except BaseException:
            os.unlink(beside)
            raise
    except OSError as fault:
        raise BadInput(f"cannot write {path} ({fault.strerror}): choose another name, or make room") from None


def layer_of(spec):
    """The two numbers of LAYER/DATATYPE."""
    if not re.fullmatch(r"\d{1,5}/\d{1,5}", spec):
        raise BadInput(f"{spec} is no layer: give LAYER/DATATYPE, as 10/0")
    return tuple(map(int, spec.split("/")))


# Kernel files


@dataclasses.dataclass
class KernelSet:
    """Integer kernels: weights[j], and parts[j][v][u] as pairs of a real and an imaginary part."""

    reach: int
    weights: list
    parts: object
    covered: tuple = (1, 0)
    uncovered: tuple = (0, 0)
    form: int = 1


def pack_kernels(kernels):
    """The bytes of a kernel file."""
    out = bytearray(b"OPK%d" % kernels.form + struct.pack(">HH", len(kernels.weights), kernels.reach))
    if kernels.form == 2:
        out += struct.pack(">hhhh", *kernels.covered, *kernels.uncovered)
    for weight, parts in zip(kernels.weights, kernels.parts):
        out += struct.pack(">H", weight) + parts.astype(">i2").tobytes()
    return bytes(out)


def parse_kernels(content, name):
    """The kernels of a file's bytes, as opc reads them."""
    import numpy

    form = {b"OPK1": 1, b"OPK2": 2}.get(content[:4])
    head = 16 if form == 2 else 8
    if form is None or len(content) < head:
        raise BadInput(f"{name} is no kernel file: it doesn't begin with OPK1 or OPK2 and a head")
    count, reach = struct.unpack(">HH", content[4:8])
    if not 1 <= count <= MOST_KERNELS or reach > MOST_REACH:
        raise BadInput(f"{name} has {count} kernels of reach {reach}: 1 to {MOST_KERNELS} of reach 0 to {MOST_REACH} are allowed")
    side = 2 * reach + 1
    size = 2 + 4 * side * side
    if len(content) != head + count * size:
        raise BadInput(f"{name} has {len(content)} bytes, and {count} kernels of reach {reach} have {head + count * size}")
    transmissions = struct.unpack(">hhhh", content[8:16]) if form == 2 else (1, 0, 0, 0)
    if max(map(abs, transmissions)) > MOST_TRANSMISSION:
        raise BadInput(f"{name} has a transmission beyond {MOST_TRANSMISSION}")
    weights, parts = [], []
    for number in range(count):
        at = head + number * size
        weights.append(struct.unpack(">H", content[at : at + 2])[0])
        numbers = numpy.frombuffer(content[at + 2 : at + size], dtype=">i2").astype(numpy.int64)
        parts.append(numbers.reshape(side, side, 2))
    parts = numpy.array(parts)
    if min(weights) < 1 or sum(weights) > MOST_WEIGHT or abs(parts).max() > MOST_PART[form]:
        raise BadInput(f"{name} has a weight or an entry out of its range: opc says which, by `opc probe`")
    return KernelSet(reach, weights, parts, transmissions[:2], transmissions[2:], form)


def read_kernels(path):
    return parse_kernels(read_whole(path), path)


def clear_field(kernels):
    """The intensity where every pixel is covered, a whole number."""
    real, imaginary = kernels.covered
    total = 0
    for weight, parts in zip(kernels.weights, kernels.parts):
        re_sum, im_sum = int(parts[..., 0].sum()), int(parts[..., 1].sum())
        total += weight * ((real * re_sum - imaginary * im_sum) ** 2 + (real * im_sum + imaginary * re_sum) ** 2)
    return total


# Rule files


# The keys that the tools use themselves.
TEXTS = ("top", "out_name")
NUMBERS = ("layer", "datatype", "grid", "threshold", "samples", "max_in", "max_out", "width", "space", "out_layer", "out_datatype")


def read_rules(path):
    """The rule file as a dictionary; the keys that the tools use are there and of their types. opc judges all keys and their ranges."""
    try:
        rules = tomllib.loads(read_whole(path).decode())
    except (tomllib.TOMLDecodeError, UnicodeDecodeError) as fault:
        raise BadInput(f"{path} is no TOML ({fault}): docs/FORMATS.md has the keys of a rule file") from None
    for key in TEXTS + NUMBERS:
        if key not in rules:
            raise BadInput(f"{path} has no key {key}: docs/FORMATS.md has the keys of a rule file")
        if type(rules[key]) is not (str if key in TEXTS else int):
            raise BadInput(f"{path}: {key} must be {'a text' if key in TEXTS else 'a whole number'}: docs/FORMATS.md has its range")
    if not 1 <= rules["grid"] <= 1000 or not 1 <= rules["samples"] <= 16:
        raise BadInput(f"{path}: grid must be 1 to 1000, and samples 1 to 16")
    return rules


def rules_text(rules):
    """A rule file's text. JSON's texts are TOML's too."""
    return "".join(f"{key} = {json.dumps(value, ensure_ascii=False)}\n" for key, value in rules.items())


# Error tables


@dataclasses.dataclass
class Fragment:
    """One fragment's line; the numbers are pixels, the error is in sixteenths of one."""

    number: int
    side: str
    line: int
    low: int
    high: int
    offset: int
    inside: int
    outside: int
    error: int

    def ends(self):
        """The two ends of the fragment as it stands in the mask."""
        if self.side in ("left", "right"):
            return (self.line, self.low), (self.line, self.high)
        return (self.low, self.line), (self.high, self.line)

    def target_line(self):
        """The line of its edge in the target: the offset is taken back."""
        return self.line + (self.offset if self.side in ("left", "down") else -self.offset)


@dataclasses.dataclass
class Table:
    samples: int
    threshold: int
    fragments: list
    rounds: list
    end: str
    worst: int
    total: int
    settled: bool
    rectangles: int


def on_target(fragments):
    """Each fragment as it lies in the target: offset 0, and at a corner the target line of the fragment that it meets there."""
    upright = {"left": True, "right": True, "down": False, "up": False}
    met = {(upright[it.side], end): it.target_line() for it in fragments for end in it.ends()}
    out = []
    for it in fragments:
        low, high = (met.get((not upright[it.side], end), old) for end, old in zip(it.ends(), (it.low, it.high)))
        out.append(dataclasses.replace(it, line=it.target_line(), low=low, high=high, offset=0))
    return out


def site(fragment):
    """Of a fragment in the target, its site: sample t is the pixel (x + t step_x, y + t step_y)."""
    along = fragment.low + (fragment.high - fragment.low) // 2
    line, step = (fragment.line - 1, -1) if fragment.side in ("left", "down") else (fragment.line, 1)
    return (line, along, step, 0) if fragment.side in ("left", "right") else (along, line, 0, step)


HEAD = re.compile(r"fragments (\d+) kernels \d+ reach \d+ samples (\d+) threshold (\d+)")
LINE = re.compile(
    r"fragment (\d+) (left|right|down|up) line (-?\d+) from (-?\d+) to (-?\d+) offset (-?\d+)"
    r" inside (\d+) outside (\d+) error (-?\d+)"
)
END = re.compile(r"end worst (\d+) total (\d+) settled (yes|no) rectangles (\d+)")


def parse_table(text, name):
    """The error table of simulate, correct, moves or polygons."""
    lines = text.splitlines()
    head = HEAD.fullmatch(lines[1]) if len(lines) > 2 and lines[0] == "opc table 2" else None
    end = END.fullmatch(lines[-1]) if head else None
    if not end:
        raise BadInput(f"{name} is no error table of simulate, correct, moves or polygons: give the file that one of them stored")
    found = [LINE.fullmatch(line) for line in lines if line.startswith("fragment ")]
    if not all(found) or len(found) != int(head[1]):
        raise BadInput(f"{name} has {len(found)} fragment lines and a head that speaks of {head[1]}: it is cut or changed")
    fragments = [Fragment(int(it[1]), it[2], *map(int, it.groups()[2:])) for it in found]
    rounds = [line for line in lines if line.startswith("round ")]
    return Table(int(head[2]), int(head[3]), fragments, rounds, lines[-1], int(end[1]), int(end[2]), end[3] == "yes", int(end[4]))


def read_table(path):
    return parse_table(read_whole(path).decode("ascii", "replace"), path)


# Size classes of errors, in sixteenths: each with its greatest size.
CLASSES = (
    ("up to half a pixel", 8),
    ("up to one pixel", 16),
    ("up to two pixels", 32),
    ("up to four pixels", 64),
    ("more than four pixels", None),
)
NO_CONTOUR = "no contour within the samples"


def size_class(error, samples):
    """The class of an error, by its place in CLASSES; len(CLASSES) where the samples show no contour."""
    if abs(error) == SIXTEENTHS * samples:
        return len(CLASSES)
    return next(i for i, (_, most) in enumerate(CLASSES) if most is None or abs(error) <= most)


def class_name(number):
    return NO_CONTOUR if number == len(CLASSES) else CLASSES[number][0]


# Running opc

STATUSES = {
    1: "the system gave the program no words",
    2: "the words are no command",
    3: "a file could not be read",
    4: "a file or the answer could not be written",
    5: "the layout is refused",
    6: "the kernel file is refused",
    7: "the rule file is refused",
    8: "the moves file is refused",
    9: "the target breaks a mask rule",
    10: "memory ran out",
}

ADVICE = [
    (r"words", "see the words of each command in docs/FORMATS.md; an output must not have the name of another file"),
    (r"cannot read .*", "give the name of a file that is there and may be read"),
    (r"cannot write .*", "make room or choose another name, then run it again: the outputs may be missing or cut"),
    (r"out of memory", "close other programs, or cut the layer into clips (docs/SCALING.md)"),
    (r"layout: too long", "save only the chosen layer (in KLayout: Save Layout As, selected layers), or cut the layer into clips"),
    (r"layout: (cut|bad length|unexpected record .*|bad body|trailing byte) at .*",
     "the file is damaged or no GDSII of release 6: save it again as uncompressed GDSII"),
    (r"layout: too many structures at .*", "save the chosen cell alone, with the cells below it"),
    (r"layout: duplicate name at .*", "two cells have one name: rename one and save again"),
    (r"layout: no top structure", "the key top names no cell of this file: names are compared to the letter"),
    (r"layout: missing structure at .*", "a reference names a cell that isn't in the file: save it with the cells below"),
    (r"layout: bad magnification at .*", "a reference magnifies: flatten it in the layout tool"),
    (r"layout: bad angle at .*", "a reference turns by other than quarter turns: flatten it in the layout tool"),
    (r"layout: bad array at .*", "an array has no columns or rows, or its steps aren't whole: resolve it in the layout tool"),
    (r"layout: cycle through structure .*", "cells refer to each other in a circle: break it in the layout tool"),
    (r"layout: too many (points|fragments) .*", "cut the layer into clips (tools/clips.py, docs/SCALING.md)"),
    (r"layout: too many corners", "cut the layer into clips (tools/clips.py, docs/SCALING.md)"),
    (r"layout: not closed at .*", "a polygon doesn't end where it begins: save it again from the layout tool"),
    (r"layout: not rectilinear at .*", "a shape on the layer has a slanted edge: opc corrects horizontal and vertical edges alone"),
    (r"layout: path ends at .*", "a path has round ends: turn it into a polygon with straight edges"),
    (r"layout: off grid at .*", "a coordinate is no multiple of the key grid: take a smaller grid, or snap the layer"),
    (r"layout: out of range at .*", "a shape lies further than 1,048,000 pixels from 0: move the cell towards 0, or cut clips"),
    (r"layout: too wide .*", "the window has more than 4,194,304 pixels: check smaller clips"),
    (r"kernels: .*", "make the kernel file again by tools/kernels.py, which keeps its ranges"),
    (r"rules: not toml", "the rule file is no TOML: docs/FORMATS.md has an example's keys"),
    (r"rules: unknown key", "the rule file has a key that opc doesn't know: compare it with docs/FORMATS.md"),
    (r"rules: (missing|wrong type|out of range) .*", "mend this key: docs/FORMATS.md has its range"),
    (r"rules: bars .*", "GAP must be at least the key space, WIDTH and MIN - 2 END at least the key width"),
    (r"moves: .*", "mend this line of the moves file: a fragment's number, a blank, a change in pixels"),
    (r"target: M1 at .*", "the target is narrower there than the key width: lower width, or widen the shape"),
    (r"target: M2 at .*", "the gap there is smaller than the key space: lower space, or widen the gap"),
    (r"target: M3 at .*", "two shapes meet there at a corner alone: join or part them"),
]


def advice(line):
    """What to do about a line of opc."""
    rest = line.removeprefix("opc: ")
    return next((say for form, say in ADVICE if re.fullmatch(form, rest)), "see docs/FORMATS.md")


class Refused(BadInput):
    """opc ended with a status other than 0."""

    def __init__(self, status, line):
        self.status, self.line = status, line
        what = STATUSES.get(status, "it was ended from outside")
        super().__init__(f"{line or 'opc said nothing'} (status {status}, {what}). What to do: {advice(line)}")


def program(given=None):
    """The built program: given, or by the variable OPC, or where `rt run` leaves it."""
    path = given or os.environ.get("OPC") or os.path.join(REPOSITORY, "crates", "opc", "out", "opc")
    if not os.access(path, os.X_OK) or os.path.isdir(path):
        raise BadInput(f"{path} is no program: build it by `cd crates/opc && rt run`, or name it by --opc or the variable OPC")
    return path


def run_opc(path, *words):
    """Runs opc and gives the line that it says; a status other than 0 is Refused."""
    try:
        ended = subprocess.run([path, *map(str, words)], stdin=subprocess.DEVNULL, stdout=subprocess.PIPE, check=False)
    except OSError as fault:
        raise BadInput(f"{path} doesn't start ({fault.strerror}): name the built program by --opc") from None
    said = ended.stdout.decode("utf-8", "replace").strip()
    if ended.returncode:
        raise Refused(ended.returncode, said)
    return said


# KLayout's Python module


def inside_klayout(script, words):
    """Runs the script again in KLayout, without a display, where Python has no KLayout module of its own; else gives the words."""
    try:
        import pya  # noqa: F401
    except ImportError:
        environment = {**os.environ, "OPC_TOOL_WORDS": json.dumps([script, *words]), "QT_QPA_PLATFORM": "offscreen"}
        try:
            ended = subprocess.run(["klayout", "-b", "-r", os.path.abspath(script)], env=environment, check=False)
        except OSError:
            raise BadInput("klayout isn't there: install it (Debian: apt-get install klayout)") from None
        sys.exit(ended.returncode)
    given = os.environ.get("OPC_TOOL_WORDS")
    if given is not None:
        sys.argv = json.loads(given)
        words = sys.argv[1:]
    return words

"""What the scripts on hostile use share: small input files for every command, and one run of the program, with its memory."""
import os
import resource
import signal
import struct
import subprocess
import time

from probe_large import boundary, kernel_file, layout, points, record, structure

# The whole line that each status but 0 says ends with a line feed; a run of more seconds than this hangs.
SECONDS = 20
OLD = b"old"

RULES = """top = "TOP"
layer = 1
datatype = 0
grid = 1
threshold = 37
samples = 2
piece = 8
corner_out = 5
corner_in = 5
line_end = 10
gain_num = 1
gain_den = 1
max_step = 4
max_in = 2
max_out = 3
settle = 0
rounds = 2
width = 2
space = 2
tile = 16
workers = 2
out_layer = 1
out_datatype = 0
out_name = "MASK"
"""

MOVES = b"0 1\n3 -1\n5 2\n1 1\n"

# Each command's words: names of files, numbers, and after `>` the outputs in the order of their stores.
COMMANDS = {
    "probe": ("layout kernels TOP 1 0 5 5", ""),
    "simulate": ("layout kernels rules", "table"),
    "correct": ("layout kernels rules", "mask table"),
    "moves": ("layout kernels rules moves", "mask table"),
    "polygons": ("layout kernels rules", "mask table"),
    "check": ("layout kernels rules", "mask table"),
    "window": ("layout rules", "mask table"),
    "assist": ("layout kernels rules", "mask table"),
    "trial": ("1", ""),
}
AFTER = {"window": "kernels 37 1 kernels 30 2", "assist": "4 2 1 10"}
FILES = ("layout", "kernels", "rules", "moves", "mask", "table")


def path_element(layer, width, pairs):
    return (record(0x0900) + record(0x0D02, struct.pack(">H", layer)) + record(0x0E02, b"\0\0") + record(0x2102, b"\0\2")
            + record(0x0F03, struct.pack(">i", width)) + record(0x1003, points(*pairs)) + record(0x1100))


def polygon_element(layer, pairs):
    return (record(0x0800) + record(0x0D02, struct.pack(">H", layer)) + record(0x0E02, b"\0\0")
            + record(0x1003, points(*pairs, pairs[0])) + record(0x1100))


def reference(name, at, turned):
    angle = record(0x1A01, b"\x80\0") + record(0x1C05, bytes.fromhex("425A000000000000")) if turned else b""
    return record(0x0A00) + record(0x1206, name) + angle + record(0x1003, points(at)) + record(0x1100)


def array(name, columns, rows, step, at):
    corners = points(at, (at[0] + columns * step, at[1]), (at[0], at[1] + rows * step))
    return (record(0x0B00) + record(0x1206, name) + record(0x1302, struct.pack(">hh", columns, rows)) + record(0x1003, corners)
            + record(0x1100))


def small_layout():
    """Rectangles, a polygon, a path, a turned reference and an array, on layer 1; well apart from one another."""
    bend = polygon_element(1, ((0, 0), (20, 0), (20, 8), (8, 8), (8, 20), (0, 20)))
    top = (boundary(1, 0, 0, 10, 10) + bend + path_element(1, 6, ((0, 40), (30, 40), (30, 60)))
           + reference(b"CELL", (60, 0), False) + reference(b"CELL", (60, 60), True) + array(b"CELL", 3, 2, 40, (100, 0)))
    return layout(structure(b"TOP\0", top) + structure(b"CELL", boundary(1, 0, 0, 12, 10) + boundary(2, 0, 0, 5, 5)))


def contents():
    return {"layout": small_layout(), "kernels": kernel_file(), "rules": RULES.encode(), "moves": MOVES}


def masked_kernels():
    """The second format: two kernels, and light through what isn't covered."""
    entries = struct.pack(">hh", 1, 0) * 9 + struct.pack(">hh", 0, 1) * 9
    return b"OPK2" + struct.pack(">HH", 2, 1) + struct.pack(">4h", 1, 0, 0, 1) + b"".join(
        struct.pack(">H", weight) + entries[at : at + 36] for weight, at in ((1, 0), (2, 36)))


def words(command, folder):
    inputs, outputs = COMMANDS[command]
    every = f"{inputs} {outputs} {AFTER.get(command, '')}".split()
    return [command] + [os.path.join(folder, it) if it in FILES else it for it in every]


def outputs(command):
    return COMMANDS[command][1].split()


def write_files(folder, files):
    for name, content in files.items():
        with open(os.path.join(folder, name), "wb") as file:
            file.write(content)


class Ended:
    """How one run ended: its status (below 0 for a signal, None for a hang), what it said, its peak memory in MiB, its seconds."""

    def __init__(self, status, said, peak, seconds):
        self.status, self.said, self.peak, self.seconds = status, said, peak, seconds


def run(program, given, seconds=SECONDS, **how):
    begin = time.time()
    child = subprocess.Popen([program, *given], stdin=subprocess.DEVNULL, stdout=subprocess.PIPE, stderr=subprocess.STDOUT, **how)
    signal.alarm(0)
    try:
        said = child.communicate(timeout=seconds)[0]
    except subprocess.TimeoutExpired:
        child.kill()
        said = child.communicate()[0]
        return Ended(None, said, 0, time.time() - begin)
    return Ended(child.returncode, said, 0, time.time() - begin)


def peak_of_children():
    """The greatest peak memory of any child so far, in MiB."""
    return resource.getrusage(resource.RUSAGE_CHILDREN).ru_maxrss / 1024


def is_known(program, command, folder):
    """Whether the program has the command: one that it doesn't have is refused as words."""
    ended = run(program, words(command, folder))
    return not (ended.status == 2 and ended.said == b"opc: words\n")

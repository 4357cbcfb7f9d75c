"""What the scripts that compare with C share: the best of a few runs of a program, and a program in C that is compiled."""
import os
import resource
import subprocess
import time

HERE = os.path.dirname(os.path.abspath(__file__))
RUNS = 5


def best(program, *words):
    """The least wall time and processor time of a few runs, in seconds, and what the program printed."""
    walls, users = [], []
    for _ in range(RUNS):
        user, start = resource.getrusage(resource.RUSAGE_CHILDREN).ru_utime, time.perf_counter()
        done = subprocess.run([program, *map(str, words)], check=True, capture_output=True, text=True)
        walls.append(time.perf_counter() - start)
        users.append(resource.getrusage(resource.RUSAGE_CHILDREN).ru_utime - user)
    return min(walls), min(users), done.stdout.strip()


def compiled(name, folder):
    """The program of bench/NAME.c, compiled into the folder with $CC or cc, for the processor that the kit builds for."""
    program = os.path.join(folder, name)
    source = os.path.join(HERE, name + ".c")
    subprocess.run([os.environ.get("CC", "cc"), "-O3", "-march=x86-64-v2", "-o", program, source], check=True)
    return program

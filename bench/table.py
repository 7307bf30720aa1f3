#!/usr/bin/env python3
"""How much time and memory a build takes on worlds of every kind, beside another program's.

Runs the program and another one in turn on each world of bench/worlds.py, and takes the medians of their processor time (user and system)
and of the most memory that they had. Where there is another program, PEER in the environment, the table has ratios: what the program
takes where that one takes 1. Without one it has seconds and megabytes. A process begins with the memory of the one that starts it, so that
nothing below that is measured: there the column has a line. The column `growth` says by how much the time for a module (or
what else the world's size counts) grows from the smaller size to the one that is four times as large: 1.00 where it doesn't. With
--instructions the growth is that of the instructions that valgrind counts, which no other program on the machine changes; it takes
a minute and more for each world.

Both programs have to write the same: where they don't, the row says so. Where the other one refuses the world, it has no ratios.

usage: [PEER=PROGRAM] bench/table.py [--world NAME,NAME..] [--runs N] [--instructions] [PROGRAM]      (crates/graph_info/out/graph_info)
"""
import argparse
import hashlib
import os
import re
import statistics
import subprocess
import sys
import tempfile

from worlds import WORLDS

HERE = os.path.dirname(os.path.abspath(__file__))
PROGRAM = os.path.join(os.path.dirname(HERE), "crates", "graph_info", "out", "graph_info")
# Further sizes of a world, for the table.
MORE = {"generated": [1_000, 20_000]}


def make(name, size, path):
    """Writes a world, by a program of its own: what this one has in memory counts for those that it starts."""
    with open(path, "wb") as out:
        subprocess.run([sys.executable, os.path.join(HERE, "worlds.py"), name, str(size)], stdout=out, check=True)


def run(program, path):
    """Runs a program on a world: its status, the sum of its text, its processor time in seconds, and its memory in megabytes."""
    with open(path, "rb") as source, tempfile.TemporaryFile() as text:
        started = subprocess.Popen([program, "build"], stdin=source, stdout=text, stderr=subprocess.DEVNULL)
        _, ended, used = os.wait4(started.pid, 0)
        started.returncode = os.waitstatus_to_exitcode(ended)
        text.seek(0)
        total = hashlib.sha256()
        # (in pieces: what this program has in memory counts for those that it starts)
        while piece := text.read(2**16):
            total.update(piece)
    return started.returncode, total.hexdigest(), used.ru_utime + used.ru_stime, used.ru_maxrss / 1000


def least_memory():
    """The memory in megabytes below which nothing is measured: that of a program that needs none."""
    started = subprocess.Popen(["true"])
    _, ended, used = os.wait4(started.pid, 0)
    started.returncode = os.waitstatus_to_exitcode(ended)
    return used.ru_maxrss / 1000


def measure(programs, path, runs):
    """Runs programs in turn: of each its status and the sum of its text, and the medians of its time and memory."""
    found = {it: [] for it in programs}
    for _ in range(runs):
        for program in programs:
            found[program].append(run(program, path))
    return {
        it: (*measured[0][:2], statistics.median(one[2] for one in measured), statistics.median(one[3] for one in measured))
        for it, measured in found.items()
    }


def instructions(program, path):
    """How many instructions a build takes."""
    words = ["valgrind", "--tool=cachegrind", "--cache-sim=no", "--cachegrind-out-file=/dev/null", program, "build"]
    with open(path, "rb") as source:
        said = subprocess.run(words, stdin=source, stdout=subprocess.DEVNULL, stderr=subprocess.PIPE, check=False).stderr.decode()
    return int(re.search(r"I\s+refs:\s+([0-9,]+)", said)[1].replace(",", ""))


def row_of(name, size, found, program, peer):
    """A row of the table, but for the growth."""
    status, total, time, memory = found[program]
    if status not in (0, 1):
        sys.exit(f"{program} ended with status {status} on the world {name} of size {size}")
    least, note = 1.1 * least_memory(), ""
    shown = [f"{time:.2f} s", f"{memory:.0f} MB" if memory > least else "-"]
    if peer and found[peer][0] not in (0, 1):
        note = f"; PEER ended with status {found[peer][0]}"
    elif peer:
        shown = [f"{time / found[peer][2]:.2f}", f"{memory / found[peer][3]:.2f}" if min(memory, found[peer][3]) > least else "-"]
        note = "" if found[peer][1] == total else "; the texts are different"
    return f"| {name} | {size:,} | {' | '.join(shown)} |", note


def main():
    words = argparse.ArgumentParser(description=__doc__, formatter_class=argparse.RawDescriptionHelpFormatter)
    words.add_argument("--world", default=",".join(WORLDS))
    words.add_argument("--runs", type=int, default=5)
    words.add_argument("--instructions", action="store_true")
    words.add_argument("program", nargs="?", default=PROGRAM)
    given = words.parse_args()
    program, peer = os.path.abspath(given.program), os.environ.get("PEER")
    for it in [program, *[peer] * bool(peer)]:
        if not os.access(it, os.X_OK):
            sys.exit(f"{it} isn't built" + (": ./graph_info --prove proves and builds it" if it == PROGRAM else ""))
    names = given.world.split(",")
    for name in names:
        if name not in WORLDS:
            sys.exit(f"there is no world {name}; bench/worlds.py --help lists them")
    print(f"{os.cpu_count()} processors, load {os.getloadavg()[0]:.0f}; medians of {given.runs} runs", end="")
    print(f", ratios to {os.path.basename(peer)}" if peer else "", end="\n\n")
    print("| World | Size | Time | Memory | Growth |\n|---|---|---|---|---|", flush=True)
    with tempfile.TemporaryDirectory(prefix="bench-") as folder:
        path = f"{folder}/world.json"
        for name in names:
            _, small, large = WORLDS[name]
            each = {}
            for size in sorted({*MORE.get(name, []), small, large}):
                make(name, size, path)
                is_shown = size != small
                programs = [program, *[peer] * bool(peer and is_shown)]
                found = measure(programs, path, given.runs)
                counted = instructions(program, path) if given.instructions and size in (small, large) else found[program][2]
                each[size] = counted / size
                if is_shown:
                    row, note = row_of(name, size, found, program, peer)
                    growth = f"{each[large] / each[small]:.2f}" if size == large else ""
                    print(f"{row} {growth}{note} |", flush=True)


if __name__ == "__main__":
    main()

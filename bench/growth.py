#!/usr/bin/env python3
"""How the time of a build grows with the number of modules or packages.

Makes worlds of three sizes, runs the program five times on each, and prints the medians: the whole run, a run on
the same world without roots and configured imports (which reads the input and builds nothing), and the difference
for each one. The last line says by how much the time for each one grows from the second size to the third.

usage: bench/growth.py [--world NAME] [PROGRAM]      (generated, and the proved program; bench/worlds.py --help lists the worlds)
"""
import argparse
import json
import os
import statistics
import subprocess
import sys
import tempfile
import time

from worlds import WORLDS

RUNS = 5


def median_seconds(program, path):
    times = []
    for _ in range(RUNS):
        with open(path, "rb") as source:
            start = time.perf_counter()
            done = subprocess.run([program, "build"], stdin=source, stdout=subprocess.DEVNULL)
            times.append(time.perf_counter() - start)
        if done.returncode not in (0, 1):
            sys.exit(f"{program} ended with status {done.returncode}")
    return statistics.median(times)


def main():
    here = os.path.dirname(os.path.dirname(os.path.abspath(__file__)))
    words = argparse.ArgumentParser()
    words.add_argument("--world", choices=sorted(WORLDS), default="generated")
    words.add_argument("program", nargs="?", default=os.path.join(here, "crates", "graph_info", "out", "graph_info"))
    given = words.parse_args()
    if not os.access(given.program, os.X_OK):
        sys.exit(f"{given.program} isn't built: ./graph_info --prove proves and builds it")
    world, middle, large = WORLDS[given.world]
    each = {}
    print(f"{os.cpu_count()} processors; median of {RUNS} runs, in seconds")
    print("   size     whole   reading  building  microseconds for each one")
    with tempfile.TemporaryDirectory() as folder:
        for size in (middle // 4, middle, large):
            whole = world(size)
            paths = {}
            for name, value in (("whole", whole), ("reading", {**whole, "roots": [], "imports": []})):
                paths[name] = os.path.join(folder, f"{name}.json")
                with open(paths[name], "w") as out:
                    json.dump(value, out)
            total = median_seconds(given.program, paths["whole"])
            reading = median_seconds(given.program, paths["reading"])
            each[size] = (total - reading) / size * 1e6
            print(f"{size:7}  {total:8.3f}  {reading:8.3f}  {total - reading:8.3f}  {each[size]:8.2f}")
    growth = each[large] / each[middle] - 1
    print(f"from {middle:,} to {large:,} the time for each one grows by {growth:+.0%}")


if __name__ == "__main__":
    main()

#!/usr/bin/env python3
"""Where a build spends its time: the instructions of each phase, in percent of all.

Counts the instructions of the program on a world by callgrind, in each function and in those that it calls, and prints the phases in the
order in which they come; a phase that stands further right is a part of the one above it. Then it prints the functions that take most by
themselves. A function of which the compiler left nothing, as its callers have it whole, has no number.

usage: bench/phases.py [--world NAME] [--size N] [--functions N] [PROGRAM]      (generated, its smaller size, 15, and the proved program)
"""
import argparse
import os
import re
import subprocess
import sys
import tempfile

from table import PROGRAM, make
from worlds import WORLDS

# The function that a phase is, and what it does; with the phase that it is a part of, by its depth.
PHASES = [
    (0, "program_phases::phases::read_input", "reading the world"),
    (1, "json::value::read_members", "its text to a document"),
    (1, "json_documents::whole::was_whole", "whether its numbers are whole"),
    (1, "world_file::input::read_world", "the document to a world"),
    (2, "world_answers::world_sources::read_sources", "sources"),
    (2, "world_answers::answer_order::ordered", "answers in order"),
    (2, "json_forms::infos::info::read_info", "infos"),
    (1, "json_documents::json++value++Value+Destruct::drop", "the end of the document"),
    (0, "program_phases::world_services::Tellers::new", "analyzer and resolver"),
    (0, "source_io::world_loader::WorldLoader::new", "loader"),
    (0, "graph_builder::machine::Build::start", "the build begins"),
    (0, "graph_builder::machine::Build::take_question", "questions"),
    (0, "source_io::calls::answer_of", "answers"),
    (0, "graph_builder::machine::Build::answer", "what an answer gives"),
    (1, "slot_making::make::make_slot", "slots"),
    (2, "import_records::dependency::Dependency::add", "dependencies"),
    (3, "import_records::target::Targets::target", "what texts resolve to"),
    (1, "graph_turns::state::State::store", "slots stored, with their edges"),
    (2, "graph_turns::state::State::enter", "loads entered"),
    (0, "graph_printing::report::verdict", "the verdict"),
    (0, "program_phases::phases::write_by", "the text, with the verdict"),
    (0, "source_io::world_loader::WorldLoader::drop", "the end of the loader"),
]
LINE = re.compile(r"^\s*([0-9,]+) \(\s*[0-9.]+%\)\s+(?:[^\s:]*:)?(.*?)(?: \[[^\]]*\])?$")


def counted(folder, is_inclusive):
    """The instructions of each function, by themselves or with those that it calls, and of all."""
    words = ["callgrind_annotate", f"--inclusive={'yes' if is_inclusive else 'no'}", "--threshold=100", f"{folder}/counts"]
    said = subprocess.run(words, stdout=subprocess.PIPE, stderr=subprocess.DEVNULL, check=True).stdout.decode()
    found, whole = {}, 0
    for line in said.splitlines():
        told = LINE.match(line)
        if not told:
            continue
        count, name = int(told[1].replace(",", "")), re.sub(r"::<#?[^>]*>$", "", told[2])
        if name == "PROGRAM TOTALS":
            whole = count
        else:
            found[name] = max(count, found.get(name, 0)) if is_inclusive else count + found.get(name, 0)
    return found, whole


def main():
    words = argparse.ArgumentParser(description=__doc__, formatter_class=argparse.RawDescriptionHelpFormatter)
    words.add_argument("--world", choices=WORLDS, default="generated")
    words.add_argument("--size", type=int)
    words.add_argument("--functions", type=int, default=15)
    words.add_argument("program", nargs="?", default=PROGRAM)
    given = words.parse_args()
    if not os.access(given.program, os.X_OK):
        sys.exit(f"{given.program} isn't built: ./graph_info --prove proves and builds it")
    size = given.size or WORLDS[given.world][1]
    with tempfile.TemporaryDirectory(prefix="bench-") as folder:
        make(given.world, size, f"{folder}/world.json")
        with open(f"{folder}/world.json", "rb") as source:
            run = ["valgrind", "--tool=callgrind", f"--callgrind-out-file={folder}/counts", given.program, "build"]
            subprocess.run(run, stdin=source, stdout=subprocess.DEVNULL, stderr=subprocess.DEVNULL, check=False)
        inclusive, whole = counted(folder, True)
        own, _ = counted(folder, False)
    print(f"{given.world}, {size:,}: {whole / 1e6:,.0f} million instructions, {whole / size:,.0f} for each one")
    for depth, name, what in PHASES:
        share = f"{inclusive[name] / whole:6.1%}" if name in inclusive else "     -"
        print(f"{share}  {'    ' * depth}{what} ({name.split('::')[-2]}::{name.split('::')[-1]})")
    print("by themselves")
    for name in sorted(own, key=own.get, reverse=True)[: given.functions]:
        print(f"{own[name] / whole:6.1%}  {name}")


if __name__ == "__main__":
    main()

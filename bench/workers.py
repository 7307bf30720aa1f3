#!/usr/bin/env python3
"""What workers gain where each answer takes time.

Makes a world of so many modules, all of which the first one imports, and builds its graph through none and more workers over a fetcher
that sleeps before each answer. It prints how long each build took, the median of several in turn, and how many times faster than without
workers that is. Each build has to print the same graph.

Once the first module is there, the questions about all others are open, and 64 of them are out with the workers at a time (`WINDOW` in
crates/waiting_builds/src/pooled.rt): up to 64 workers can be busy until the end. What keeps a build from being as many times faster as there
are workers is the build itself, which goes on in one thread, and a busy machine, on which a worker that wakes up has to wait.

The fetcher and the program around it stand below. They are proved and built in a folder of their own, over the crates' libraries, so that
`./graph_info --prove` should have run before. With --try they are compiled unproved, with checks: then the build itself takes so long that
workers gain little.

usage: bench/workers.py [--try] [--modules N] [--milliseconds N] [--workers N,N..] [--runs N]
"""
import argparse
import json
import os
import re
import shutil
import statistics
import subprocess
import sys
import tempfile

PROGRAM = """//! Builds of one world through workers, over a fetcher that sleeps before each answer.
#![tactic(auto)]

use byte_io::{ReaderSource, read_all};
use graph_core::{GraphKind, ModuleGraph};
use graph_printing::graph_text;
use program_phases::Tellers;
use source_io::{Answer, Fetch, Question, WorldLoader};
use std::alloc::{AllocError, Global};
use std::process::ExitCode;
use std::sync::{Arc, Wait};
use std::thread;
use std::thread::Threads;
use std::time::{Clock, Duration, Instant};
use waiting_builds::build_pooled;
use world_file::{Input, world_of};

#[derive(Drop)]
struct Slow<C: Drop> {
    clock: C,
    loader: WorldLoader,
}

impl<C: Clock + Drop> Fetch for Slow<C> {
    ghost use Rattle.std.specs.Prelude.{None};

    ghost world = { λ _. None };

    fn fetch(&self, question: &Question) -> Result<Answer, AllocError> {
        thread::sleep(&self.clock, Duration::from_millis(MILLISECONDS));
        self.loader.fetch(question)
    }

    fn max_redirects(&self) -> usize {
        Fetch::max_redirects(&self.loader)
    }
}

fn build<R>(rt: &R, clock: HostRuntime, alloc: Global, bytes: &[u8], workers: usize) -> Option<String>
where
    R: Wait + Threads + Clone + Drop + Send + Sync + 'static,
{
    let input = world_of(alloc, bytes).ok()?;
    let tellers = Tellers::new(alloc, &input).ok()?;
    let Input { roots, world, settings, max_loads, .. } = input;
    let loader = WorldLoader::new(alloc, world, Vec::new(alloc), Vec::new(alloc)).ok()?;
    let fetcher = Arc::new(alloc, Slow { clock, loader }).ok()?;
    let mut options = tellers.options(None, &settings, max_loads);
    let mut graph = ModuleGraph::new(alloc, GraphKind::All);
    build_pooled(rt, alloc, &mut graph, roots.into_vec(), Vec::new(alloc), fetcher, workers, &mut options).ok()?;
    graph_text(alloc, &graph).ok()
}

fn measure<R>(waits: &R, rt: &HostRuntime) -> Option<()>
where
    R: Wait + Threads + Clone + Drop + Send + Sync + 'static,
{
    let mut source = ReaderSource::new(rt.stdin());
    let bytes = read_all(rt.alloc(), &mut source).ok()?;
    for workers in [NUMBERS] {
        let clock = rt.clone().ok()?;
        let start = Instant::now(rt).ok()?;
        let text = build(waits, clock, rt.alloc(), bytes.as_slice(), workers)?;
        let took = start.elapsed(rt).ok()?.as_millis();
        let mut sum = 0u64;
        for byte in text.as_bytes() {
            sum = sum.wrapping_mul(31).wrapping_add(u64::from(*byte));
        }
        println!(rt; "{workers} {took} {sum}").ok()?;
    }
    Some(())
}

fn main(rt: HostRuntime) -> ExitCode {
    match measure(&rt, &rt) {
        Some(()) => ExitCode::from(0),
        None => ExitCode::from(1),
    }
}
"""


def wide(size):
    """A world of so many modules, all of which the first one imports."""
    first = "file:///m/0.js"
    return {
        "version": 1,
        "roots": [first],
        "sources": {f"file:///m/{module}.js": {"kind": "module", "text": str(module)} for module in range(size)},
        "infos": {
            first: {
                "dependencies": [
                    {"type": "static", "kind": "import", "specifier": f"./{module}.js", "specifierRange": [[module, 7], [module, 20]]}
                    for module in range(1, size)
                ]
            }
        },
    }


def lines_of(here, world, program, command):
    """Builds the program and gives it the world; returns the lines that it writes."""
    with tempfile.TemporaryDirectory() as folder:
        os.mkdir(f"{folder}/crates")
        with open(f"{here}/crates.txt", encoding="utf-8") as it:
            crates = it.read()
        for name in re.findall(r"^(\w+)", crates, re.M):
            shutil.copytree(f"{here}/crates/{name}", f"{folder}/crates/{name}")
        below = re.search(r"^build_tests: (.*)$", crates, re.M)[1]
        with open(f"{folder}/crates.txt", "w", encoding="utf-8") as it:
            it.write(f"{crates}slow_fetch: {below}\n")
        os.makedirs(f"{folder}/crates/slow_fetch/src")
        with open(f"{folder}/crates/slow_fetch/src/main.rt", "w", encoding="utf-8") as it:
            it.write(program)
        shutil.copy(f"{here}/HANDLES", f"{folder}/HANDLES")
        ran = subprocess.run(["rt", *command], cwd=f"{folder}/crates/slow_fetch", input=json.dumps(world).encode(), stdout=subprocess.PIPE,
                             stderr=subprocess.PIPE)
    if ran.returncode != 0:
        sys.exit(f"the program didn't run: {ran.stderr.decode()[-2000:]}")
    return ran.stdout.decode().splitlines()


def main():
    words = argparse.ArgumentParser()
    words.add_argument("--try", action="store_true", dest="is_try")
    words.add_argument("--modules", type=int, default=400)
    words.add_argument("--milliseconds", type=int, default=5)
    words.add_argument("--workers", default="0,1,2,4,8,16")
    words.add_argument("--runs", type=int, default=3)
    given = words.parse_args()
    here = os.path.dirname(os.path.dirname(os.path.abspath(__file__)))
    numbers = [int(it) for it in given.workers.split(",")]
    in_turn = ", ".join(str(it) for it in numbers * given.runs)
    program = PROGRAM.replace("MILLISECONDS", str(given.milliseconds)).replace("NUMBERS", in_turn)
    command = ["try", "--seconds", "600"] if given.is_try else ["run"]
    lines = [[int(it) for it in line.split()] for line in lines_of(here, wide(given.modules), program, command)]
    if len({text for _, _, text in lines}) != 1:
        sys.exit("the graphs are different")
    print(f"{os.cpu_count()} processors, load {os.getloadavg()[0]:.0f}", end="; ")
    print(f"{given.modules} modules, {given.milliseconds} milliseconds for each answer")
    print("workers  milliseconds  times faster")
    medians = [statistics.median(took for workers, took, _ in lines if workers == number) for number in numbers]
    for number, took in zip(numbers, medians):
        print(f"{number:7}  {took:12.0f}  {medians[0] / took:12.1f}")


if __name__ == "__main__":
    main()

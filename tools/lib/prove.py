#!/usr/bin/env python3
"""
Proves the crates of a program and builds it: ./graph_info --prove, or ./graph_tools --prove; the first word is the program's name. It needs
what the toolchain's rt needs, Python 3.8.

rt holds the folders of the crates below the one that it proves, so that two proofs in one checkout wait for each other. So each crate is
proved in a room of its own: a copy of the sources of the crate and of those below it, with their libraries. What rt made there goes to the
crate's own out/ once it is proved, and what it had kept so far where the run is stopped; a later run goes on from there. The program is
linked in a room, too: what stands in its out/ is whole.
"""
import ctypes
import fcntl
import hashlib
import os
import re
import shutil
import signal
import subprocess
import sys
import tempfile
import time

from proof_plan import Table, crates_of, in_words, longest_first, names_of, seconds_left, shares, with_jobs

PROGRAM = sys.argv[1]
TOP = os.path.realpath(os.path.join(os.path.dirname(__file__), "..", ".."))
TABLE = os.path.join(TOP, "docs", "proof_times.txt")
PARTS = ("src", "specs", "proofs")
SILENCE = 120
STATUS = 70
USAGE = f"./{PROGRAM} --prove takes --measure alone; --help says what it does"


class Stopped(Exception):
    """A signal asked for the end."""


class Failed(Exception):
    """A crate isn't proved."""


def say(text):
    print(f"{PROGRAM}: {text}", file=sys.stderr, flush=True)


def number_in(file, pattern=r"(\d+)"):
    try:
        with open(file, encoding="utf-8") as text:
            found = re.search(pattern, text.read())
    except OSError:
        return None
    return found and int(found[1])


def processors():
    """How many processors there are to use: those that the process may run on, or fewer by the quota of its control group."""
    count = len(os.sched_getaffinity(0))
    quota, period = number_in("/sys/fs/cgroup/cpu.max", r"^(\d+)"), number_in("/sys/fs/cgroup/cpu.max", r" (\d+)")
    return max(1, min(count, quota // period)) if quota and period else count


def free_megabytes():
    """The free memory, under the limit of the control group too."""
    found = [(number_in("/proc/meminfo", r"MemAvailable: +(\d+)") or 4_000_000) // 1000]
    limit, used = number_in("/sys/fs/cgroup/memory.max"), number_in("/sys/fs/cgroup/memory.current")
    if limit and used:
        found.append((limit - used) // 1_000_000)
    return min(found)


def rooms_folder():
    """Where the rooms are: on the disk of the repository, where libraries need no second copy, and where rt looks for no sources."""
    git = os.path.join(TOP, ".git")
    if os.path.isdir(git):
        return os.path.join(git, "proofs")
    own = hashlib.sha256(TOP.encode()).hexdigest()[:16]
    return os.path.join(tempfile.gettempdir(), f"graph-proofs-{os.getuid()}-{own}")


def newest(name):
    """When the newest source of a crate was written."""
    folders = [os.path.join(TOP, "crates", name, part) for part in PARTS]
    files = [os.path.join(at, it) for folder in folders for at, _, found in os.walk(folder) for it in found]
    return max((os.path.getmtime(it) for it in files), default=0)


def made_at(name):
    """When the library of a crate, or the program, was made; 0 where it isn't there."""
    made = os.path.join(TOP, "crates", name, "out", PROGRAM if name == PROGRAM else "rlib")
    return os.path.getmtime(made) if os.path.exists(made) else 0


def link_or_copy(one, other):
    try:
        os.link(one, other)
    except OSError:
        shutil.copyfile(one, other)


class Room:
    """The copy in which a crate is proved."""

    def __init__(self, top, name, below):
        self.name, self.folder = name, os.path.join(top, name)
        self.crate = os.path.join(self.folder, "crates", name)
        self.own = os.path.join(TOP, "crates", name, "out")
        self.below = below

    def open(self):
        shutil.rmtree(self.folder, ignore_errors=True)
        os.makedirs(self.folder, 0o700)
        os.makedirs(self.own, exist_ok=True)
        names = [*self.below, self.name]
        with open(os.path.join(TOP, "crates.txt"), encoding="utf-8") as text:
            kept = [line for line in text if line.partition(":")[0].strip().split(" ")[0] in names]
        with open(os.path.join(self.folder, "crates.txt"), "w", encoding="utf-8") as text:
            text.writelines(kept)
        if os.path.isfile(os.path.join(TOP, "HANDLES")):
            shutil.copyfile(os.path.join(TOP, "HANDLES"), os.path.join(self.folder, "HANDLES"))
        for name in names:
            one, other = os.path.join(TOP, "crates", name), os.path.join(self.folder, "crates", name)
            os.makedirs(os.path.join(other, "out"))
            for part in PARTS:
                if os.path.isdir(os.path.join(one, part)):
                    shutil.copytree(os.path.join(one, part), os.path.join(other, part), copy_function=shutil.copyfile)
            if os.path.isdir(os.path.join(one, "out", "rlib")):
                shutil.copytree(os.path.join(one, "out", "rlib"), os.path.join(other, "out", "rlib"), copy_function=link_or_copy)
        self.move("incremental", self.own, os.path.join(self.crate, "out"))
        for part in (PROGRAM, f"{PROGRAM}.stamp") if self.name == PROGRAM else ():
            if os.path.isfile(os.path.join(self.own, part)):
                shutil.copy2(os.path.join(self.own, part), os.path.join(self.crate, "out", part))

    def move(self, part, from_folder, to_folder):
        one, other = os.path.join(from_folder, part), os.path.join(to_folder, part)
        if os.path.isdir(one):
            shutil.rmtree(other, ignore_errors=True)
            os.makedirs(to_folder, exist_ok=True)
            shutil.move(one, other)

    def close(self, is_proved=False):
        """Takes to the crate's own folder what rt kept, and the library or the program where it is proved, and removes the room."""
        made = os.path.join(self.crate, "out")
        self.move("incremental", made, self.own)
        if is_proved:
            self.move("rlib", made, self.own)
        # The program is there whole, or isn't there: this is one step.
        for part in (PROGRAM, f"{PROGRAM}.stamp") if is_proved and self.name == PROGRAM else ():
            if os.path.isfile(os.path.join(made, part)):
                os.replace(os.path.join(made, part), os.path.join(self.own, part))
        shutil.rmtree(self.folder, ignore_errors=True)


class Run:
    """The command that proves one crate, or builds the program."""

    def __init__(self, name, jobs, folder, words):
        self.name, self.jobs, self.start = name, jobs, time.monotonic()
        self.log = tempfile.TemporaryFile("w+", errors="replace")
        # A group of its own, that is ended whole; and it ends where this process is killed.
        libc = ctypes.CDLL(None)
        how = {"cwd": folder, "stdin": subprocess.DEVNULL, "stdout": self.log, "stderr": subprocess.STDOUT, "start_new_session": True}
        self.process = subprocess.Popen(["rt", *words], preexec_fn=lambda: libc.prctl(1, signal.SIGTERM), **how)

    def elapsed(self):
        return time.monotonic() - self.start

    def said(self):
        self.log.seek(0)
        return self.log.read()

    def stop(self):
        try:
            os.killpg(self.process.pid, signal.SIGTERM)
        except ProcessLookupError:
            return
        self.process.wait()


class Prover:
    def __init__(self, is_measuring):
        with open(os.path.join(TOP, "crates.txt"), encoding="utf-8") as file:
            text = file.read()
        self.crates, self.names = crates_of(text, PROGRAM), names_of(text)
        self.table = Table(TABLE, TOP)
        self.left = longest_first(self.crates, self.table.seconds)
        # Most likely there is nothing to be proved in these: what was made of them is newer than all that it was made of.
        written = {name: newest(name) for name in self.crates}
        self.kept = {name for name, below in self.crates.items() if made_at(name) > max(written[it] for it in [name, *below])}
        self.is_measuring, self.measured = is_measuring, {}
        self.lanes, self.memory = processors(), 0.9 * free_megabytes()
        self.rooms, self.running, self.alone = {}, {}, set()
        # The speed of this machine: what the table says of the crates that were proved here, and what they took.
        self.tabled, self.taken, self.heard = 0, 0, time.monotonic()

    def room(self, name):
        return Room(rooms_folder(), name, self.crates[name])

    def seconds(self, name):
        """How long a crate takes here with one job, as far as it can be told."""
        if name in self.kept:
            return 1
        speed = self.taken / self.tabled if self.tabled else 1
        return speed * self.table.seconds(name)

    def time_left(self):
        running = {}
        for name, run in self.running.items():
            whole = self.seconds(name) / with_jobs(1, run.jobs)
            running[name] = (max(whole - run.elapsed(), 0.1 * whole), run.jobs)
        return in_words(seconds_left(self.crates, self.left, running, self.seconds, self.lanes))

    def tell(self, text):
        at = len(self.crates) - len(self.left) - len(self.running)
        rest = f"; {self.time_left()} left" if self.left or self.running else ""
        say(f"[{at} of {len(self.crates)}] {text}{rest}")
        self.heard = time.monotonic()

    def tell_again(self, *_):
        """Says what goes on where nothing was said for long."""
        if self.running and time.monotonic() - self.heard >= SILENCE:
            self.tell(f"proving {', '.join(self.running)}")

    def start(self):
        """Begins what can be begun: crates whose libraries are there, as processors and memory allow."""
        unproved = {*self.left, *self.running}
        ready = [it for it in self.left if not unproved & {*self.crates[it]}]
        idle = self.lanes - sum(it.jobs for it in self.running.values())
        for name, jobs in shares(ready, idle):
            jobs = 1 if self.is_measuring or name in self.alone else jobs
            planned = sum(with_jobs(self.table.megabytes(it), run.jobs) for it, run in self.running.items())
            while jobs > 1 and planned + with_jobs(self.table.megabytes(name), jobs) > self.memory:
                jobs -= 1
            is_alone = name in self.alone or self.alone & {*self.running}
            if self.running and (is_alone or planned + self.table.megabytes(name) > self.memory):
                return
            self.left.remove(name)
            self.running[name] = self.begin(name, jobs)

    def begin(self, name, jobs):
        self.rooms[name] = self.room(name)
        self.rooms[name].open()
        words = ["run", "--jobs", str(jobs), "--", "--version"] if name == PROGRAM else ["lib", "--jobs", str(jobs)]
        return Run(name, jobs, self.rooms[name].crate, words)

    def end(self, run, status, usage):
        del self.running[run.name]
        is_proved, said = status == 0, run.said()
        self.rooms.pop(run.name).close(is_proved)
        if not is_proved:
            return self.fail(run, status, said)
        if "logic=proved" not in said:
            return self.tell(f"{run.name}: {'built' if run.name == PROGRAM else 'proved'} before")
        if "begins with what a check kept" not in said and "logic=proved" in said:
            self.tabled += self.table.seconds(run.name) / with_jobs(1, run.jobs)
            self.taken += run.elapsed()
            self.measured[run.name] = (round(usage.ru_utime + usage.ru_stime), str(usage.ru_maxrss // 1000))
        self.tell(f"{run.name}: {'built' if run.name == PROGRAM else 'proved'} in {round(run.elapsed())} s")

    def fail(self, run, status, said):
        # 9 is the signal of a system without memory, which rt tells as a status.
        if status in (-9, 137, 247) and run.name not in self.alone:
            self.alone.add(run.name)
            self.left.insert(0, run.name)
            return self.tell(f"{run.name}: was killed, most likely for want of memory; once more, alone")
        last = "".join(f"  {it}\n" for it in said.splitlines()[-20:])
        raise Failed(f"{run.name}: failed after {round(run.elapsed())} s\n{last}".rstrip("\n"))

    def work(self):
        count, lanes = len(self.crates), self.lanes
        say(f"proving and building the program: {count} crates on {lanes} processor{'s' * (lanes > 1)}, {self.time_left()} left")
        while self.left or self.running:
            self.start()
            pid, status, usage = os.wait4(-1, 0)
            for run in [it for it in self.running.values() if it.process.pid == pid]:
                run.process.returncode = -os.WTERMSIG(status) if os.WIFSIGNALED(status) else os.WEXITSTATUS(status)
                self.end(run, run.process.returncode, usage)

    def stop(self):
        """Ends what runs, and keeps what it had done."""
        for run in self.running.values():
            run.stop()
        # What rt started is killed once rt has ended, and may still write.
        time.sleep(0.3 if self.running else 0)
        for room in self.rooms.values():
            room.close()


def salvage(prover):
    """Keeps what a run left that was killed."""
    for name in prover.crates:
        room = prover.room(name)
        if os.path.isdir(room.folder):
            room.close()


def prove(is_measuring):
    prover, since = Prover(is_measuring), time.time()
    built = os.path.join(TOP, "crates", PROGRAM, "out", "built")
    salvage(prover)
    signal.signal(signal.SIGALRM, prover.tell_again)
    signal.setitimer(signal.ITIMER_REAL, SILENCE, SILENCE)
    try:
        prover.work()
    except BaseException:
        signal.setitimer(signal.ITIMER_REAL, 0)
        prover.stop()
        raise
    finally:
        if is_measuring:
            prover.table.write(prover.measured, prover.names)
            say(f"{len(prover.measured)} of {len(prover.crates)} crates were proved from nothing, and their figures are in docs/proof_times.txt")
    # The time is that of the beginning: sources that change while it is built are newer.
    with open(built, "w", encoding="utf-8"):
        pass
    os.utime(built, (since, since))


def estimate():
    """How long a proof takes here on a quiet machine, in words."""
    prover = Prover(False)
    return prover.time_left()


def main(words):
    if words == ["--estimate"]:
        print(estimate())
        return 0
    if words not in ([], ["--measure"]):
        say(USAGE)
        return 2

    def stop(number, _):
        raise Stopped(number)

    os.makedirs(rooms_folder(), 0o700, exist_ok=True)
    with open(os.path.join(rooms_folder(), "lock"), "w", encoding="utf-8") as lock:
        try:
            fcntl.flock(lock, fcntl.LOCK_EX | fcntl.LOCK_NB)
        except BlockingIOError:
            say("another run proves it already: look there for what it says")
            return STATUS
        for number in (signal.SIGINT, signal.SIGTERM, signal.SIGHUP):
            signal.signal(number, stop)
        try:
            prove(words == ["--measure"])
        except Stopped as number:
            say("stopped; what is proved is kept, and the same command goes on from there")
            return 128 + number.args[0]
        except Failed as why:
            say(str(why))
            return STATUS
    return 0


if __name__ == "__main__":
    sys.exit(main(sys.argv[2:]))

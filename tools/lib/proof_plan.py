"""What ./graph_info --prove plans: the crates of a program, what their proofs take by a table, and how long is left."""
import os
import re

HEAD = """\
# What the proof of each crate of graph_info and graph_tools takes from nothing, with one job: CRATE, processor seconds, the most memory in
# megabytes ("-": not measured). --prove --measure of these programs writes the lines of the crates that it proves from nothing.
"""
# What is planned for a crate without figures.
MEGABYTES = 4000
SECONDS_A_LINE = 0.4
# A proof uses so many processors at most, and each further one counts for this part of the first, and takes this part of its memory.
MOST_JOBS = 4
FURTHER = 0.6


def crates_of(text, program):
    """The crates that a program is made of, from the bottom up, each with the crates below it, by the text of crates.txt."""
    named = {}
    for line in text.splitlines():
        name, colon, rest = line.partition("#")[0].partition(":")
        if colon:
            named[name.split()[0]] = rest.split()
    order, below = [], {}

    def visit(name):
        if name in below:
            return
        below[name] = set()
        for each in named[name]:
            if each in named:
                visit(each)
                below[name] |= {each, *below[each]}
        order.append(name)

    visit(program)
    return {name: sorted(below[name], key=order.index) for name in order}


def names_of(text):
    """The crates that crates.txt names, in its order."""
    lines = [line.partition("#")[0].partition(":") for line in text.splitlines()]
    return [name.split()[0] for name, colon, _ in lines if colon]


class Table:
    """The figures of crates, read from a file, which need not be there; for a crate that it hasn't got there are guesses."""

    def __init__(self, file, top):
        self.file, self.top, self.rows, self.guesses = file, top, {}, {}
        if os.path.isfile(file):
            with open(file, encoding="utf-8") as text:
                found = re.findall(r"(?m)^(\w+) +(\d+) +(\d+|-)$", text.read())
            self.rows = {name: (int(seconds), memory) for name, seconds, memory in found}

    def seconds(self, name):
        if name in self.rows:
            return self.rows[name][0]
        if name not in self.guesses:
            self.guesses[name] = round(5 + SECONDS_A_LINE * self.lines(name))
        return self.guesses[name]

    def lines(self, name):
        folder = os.path.join(self.top, "crates", name, "src")
        count = 0
        for file in os.listdir(folder) if os.path.isdir(folder) else ():
            with open(os.path.join(folder, file), "rb") as text:
                count += text.read().count(b"\n")
        return count

    def megabytes(self, name):
        known = self.rows.get(name, (0, "-"))[1]
        return MEGABYTES if known == "-" else int(known)

    def write(self, measured, order):
        """Writes the file again, its lines in this order of crates: measured rows take the place of older ones, and other crates are left out."""
        rows = {**self.rows, **measured}
        lines = [f"{name} {rows[name][0]} {rows[name][1]}\n" for name in order if name in rows]
        part = f"{self.file}.part"
        with open(part, "w", encoding="utf-8") as text:
            text.write(HEAD + "".join(lines))
        os.replace(part, self.file)


def longest_first(crates, seconds):
    """The crates in the order in which they are begun where several could be: first those with the longest chain of crates above them."""
    behind = {}
    for name in reversed(list(crates)):
        above = [behind[it] for it in crates if name in crates[it]]
        behind[name] = seconds(name) + max(above, default=0)
    return sorted(crates, key=lambda it: -behind[it])


def shares(ready, idle):
    """What to begin of the ready crates on so many idle processors, each with its jobs: more than one where no other crate is ready."""
    found = []
    for at, name in enumerate(ready):
        jobs = min(MOST_JOBS, idle // (len(ready) - at)) or 1
        if idle < jobs:
            break
        found.append((name, jobs))
        idle -= jobs
    return found


def with_jobs(one, jobs):
    """What `jobs` jobs of one proof come to: their speed where `one` is that of one job, or their memory."""
    return one * (1 + FURTHER * (jobs - 1))


def seconds_left(crates, left, running, seconds, lanes):
    """
    How long it takes until all is proved. `left` are the crates not begun, in the order in which they are begun; `running` has for each begun
    one the seconds that it still takes and its jobs; `seconds` answers those of a crate with one job.
    """
    now, left = 0, list(left)
    ends = {name: (rest, jobs) for name, (rest, jobs) in running.items()}
    while left or ends:
        unproved = {*left, *ends}
        ready = [it for it in left if not unproved & {*crates[it]}]
        for name, jobs in shares(ready, lanes - sum(jobs for _, jobs in ends.values())):
            left.remove(name)
            ends[name] = (now + seconds(name) / with_jobs(1, jobs), jobs)
        first = min(ends, key=ends.get)
        now = ends.pop(first)[0]
    return now


def in_words(seconds):
    """A time for people: "about 12 minutes", "about 1 h 40 min"."""
    minutes = max(1, round(seconds / 60))
    if minutes < 100:
        return f"about {minutes} minute{'s' * (minutes > 1)}"
    return f"about {minutes // 60} h {minutes % 60} min"

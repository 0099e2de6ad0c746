"""estimates.py: what a build takes of time, disk and memory, for build.py.

tools/build/seconds.tsv has the processor seconds that each crate is known to take. What is left of a crate is told by what its build has spent so far, and what is left on the clock by playing the
rest: each crate begins once those below it stand, as many at a time as there are processors."""

import glob
import os
import re
import shutil

import lanes
from lib import repository

# Of a crate that tools/build/seconds.tsv doesn't have: processor seconds to load its libraries, of any crate, and of one over a large library of the kit; and to prove a line of code.
LOAD, LARGE_LOAD = 15, 60
LARGE = {"clap", "sqlite"}
PER_LINE = 0.22
# Processor seconds of a crate whose proofs are all kept.
START = 10
# Seconds for which the first guess of a speed counts as much as what is seen.
PRIOR = 120
# Octets of disk for each processor second, and of memory; a build with less than the least can't work.
DISK, MEMORY = 12_000_000_000 / 3_100, 8_000_000_000
LEAST_DISK, LEAST_MEMORY = 1_000_000_000, 1_000_000_000


def known():
    """The seconds of each crate that tools/build/seconds.tsv has."""
    rows = [line.split() for line in repository.text_of("tools", "build", "seconds.tsv").splitlines() if line and not line.startswith("#")]
    return {crate: float(seconds) for crate, seconds in rows}


def source(crate):
    """The crate's code without its tests, which no build reads."""
    texts = {file: open(file, encoding="utf-8").read() for file in glob.glob(repository.path("crates", crate, "src", "**", "*.rt"), recursive=True)}
    tests = re.findall(r"#\[cfg\(test\)\]\s*mod (\w+);", "\n".join(texts.values()))
    return "\n".join(text for file, text in texts.items() if os.path.basename(file)[: -len(".rt")] not in tests)


def guessed(crate, graph):
    load = LARGE_LOAD if LARGE & set(graph[crate]) else LOAD
    return load + PER_LINE * source(crate).count("\n")


def seconds(crates, graph):
    """The processor seconds of each of these crates, from nothing."""
    table = known()
    return {crate: table.get(crate) or guessed(crate, graph) for crate in crates}


def part_kept(crate):
    """About how much of the crate's functions has a proof that was kept."""
    proofs = len(glob.glob(repository.path("crates", crate, "out", "incremental", "antt*", "Rattle-*.Proof.oantt")))
    functions = max(1, len(re.findall(r"\bfn \w", source(crate))) + source(crate).count("#[derive("))
    return min(1.0, proofs / functions)


def played(left, graph, at_once):
    """The seconds on the clock that crates take of which so much is left: of those that can begin, the one with the longest chain behind it first."""
    behind = {}
    for crate in reversed([one for one in graph if one in left]):
        behind[crate] = left[crate] + max((behind[up] for up in behind if crate in graph[up]), default=0)
    waiting, running, now = sorted(left, key=lambda one: -behind[one]), {}, 0.0
    while waiting or running:
        for crate in list(waiting):
            if len(running) < at_once and not any(below in waiting or below in running for below in graph[crate]):
                waiting.remove(crate)
                running[crate] = now + left[crate]
        first = min(running, key=running.get)
        now = running.pop(first)
    return now


class Left:
    """What is left of a build. `spent` answers the processor seconds that a crate's build has taken so far."""

    def __init__(self, crates, graph, processors, spent=lambda crate: 0.0):
        self.graph, self.processors, self.spent = graph, processors, spent
        self.whole = {crate: max(START, took * (1 - part_kept(crate))) for crate, took in seconds(crates, graph).items()}
        self.ended = {}
        self.first = self.clock()

    def end(self, crate):
        self.ended[crate] = self.spent(crate)

    def pace(self):
        """How many times as long as its figure a crate takes here."""
        return (PRIOR + sum(self.ended.values())) / (PRIOR + sum(self.whole[crate] for crate in self.ended))

    def part(self, crate):
        """About how much of a crate is done. One that takes longer than it should is told to have a tenth of that to go."""
        if crate in self.ended:
            return 1.0
        spent, wanted = self.spent(crate), self.whole[crate] * self.pace()
        return spent / (spent + max(wanted - spent, 0.1 * spent, 1.0))

    def clock(self):
        """Seconds on the clock for what is left, on a machine as fast as that of the figures."""
        left = {crate: (1 - self.part(crate)) * took for crate, took in self.whole.items() if crate not in self.ended}
        return played(left, self.graph, self.processors)

    def minutes(self, past):
        """The minutes that are left, so many seconds after the start: at the speed that was seen so far."""
        left = self.clock()
        speed = (PRIOR + max(0.0, self.first - left)) / (PRIOR + past)
        return max(1, round(left / speed / 60))


def gigabytes(octets):
    return "%g GB" % round(octets / 1e9, 0 if octets >= 1e10 else 1)


def room(whole, disk, memory):
    """What a build of so many processor seconds needs beside what is free, in lines, and whether it can work."""
    needed = max(LEAST_DISK, DISK * whole)
    lines = ["it needs some %s of disk and %s of memory; %s and %s are free" % tuple(map(gigabytes, (needed, MEMORY, disk, memory)))]
    if disk < needed:
        lines.append("that is too little disk: free %s in %s, or move the repository to a larger disk" % (gigabytes(needed - disk), repository.ROOT))
    if memory < MEMORY:
        lines.append("that is little memory: end other programs, or the system may end this one")
    can_work = disk >= LEAST_DISK and memory >= LEAST_MEMORY
    if len(lines) > 1:
        lines.append("it goes on; if it stops on the way, what is proved is kept for the next start" if can_work else "with so little it can't work, and isn't started")
    return lines, can_work


def room_here(whole):
    return room(whole, shutil.disk_usage(repository.ROOT).free, lanes.free())

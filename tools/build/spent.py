"""What processes below this one spend of processor time, by what they do: sampled from /proc once a second, and scaled to what the system counted.

`rt ci` is one process that proves, tests and edits crates side by side, and says of none what it cost. So each process below it is put to a crate and a
part by its words and its folder: `rattle` names its crate, an edit is checked in a folder `rt-edit-..`, and what else runs below belongs to its parent."""

import collections
import os
import re
import resource
import threading
import time

TICKS = os.sysconf("SC_CLK_TCK")
EVERY = 1.0
PARTS = ("proof", "tests", "edits", "compiled", "run")


def read(path):
    try:
        with open(path, "rb") as file:
            return file.read().decode(errors="replace")
    except OSError:
        return ""


def processes():
    """Each process: its number, its parent's, and the seconds that it spent itself."""
    for name in os.listdir("/proc"):
        if name.isdigit():
            found = re.fullmatch(r"(\d+) \(.*\) (.*)", read(f"/proc/{name}/stat").strip(), re.S)
            if found:
                fields = found[2].split()
                yield int(name), int(fields[1]), (int(fields[11]) + int(fields[12])) / TICKS


def place(number):
    """The crate and the part of the gate that a process works at by its own words, or None."""
    words = read(f"/proc/{number}/cmdline").split("\0")
    name = os.path.basename(words[0])
    if name == "rattle" and "--crate-name" in words:
        crate = words[words.index("--crate-name") + 1]
        try:
            folder = os.readlink(f"/proc/{number}/cwd")
        except OSError:
            folder = ""
        if "rt-edit-" in folder:
            return crate, "edits"
        if "--crate-checked" in words:
            return crate, "compiled"
        return crate, "tests" if "--test" in words else "proof"
    if re.search(r"/rt-run-[^/]*/bin/", words[0]):
        return re.sub("_tests$", "", name), "run"
    return None


class Spent:
    """Counts while it is entered: `by_place` has the seconds of each crate and part, `seconds` those of all children that ended."""

    def __init__(self):
        self.by_place, self.seconds = collections.Counter(), 0.0
        self.places, self.last, self.ended = {}, {}, threading.Event()
        self.thread = threading.Thread(target=self.tick, daemon=True)

    def __enter__(self):
        self.before = self.children()
        self.thread.start()
        return self

    def __exit__(self, *_):
        self.ended.set()
        self.thread.join()
        self.seconds = self.children() - self.before
        seen = sum(self.by_place.values())
        # what ended between two samples is shared out
        if seen:
            scale = max(1.0, self.seconds / seen)
            self.by_place = collections.Counter({key: scale * spent for key, spent in self.by_place.items()})

    @staticmethod
    def children():
        used = resource.getrusage(resource.RUSAGE_CHILDREN)
        return used.ru_utime + used.ru_stime

    def tick(self):
        while not self.ended.wait(EVERY):
            self.sample()

    def sample(self):
        now = {number: (parent, spent) for number, parent, spent in processes()}
        children = collections.defaultdict(list)
        for number, (parent, _) in now.items():
            children[parent].append(number)
        places, left = {}, children[os.getpid()]
        while left:
            number = left.pop()
            left += children[number]
            parent, spent = now[number]
            # a process that rattle forked, or started, works at what its parent does
            places[number] = self.places.get(number) or place(number) or places.get(parent)
            since = spent - self.last.get(number, 0.0)
            if places[number] and since > 0:
                self.by_place[places[number]] += since
        # a number may be given again to another process
        self.places = {number: found for number, found in places.items() if found}
        self.last = {number: now[number][1] for number in places}


def table(by_place):
    """A line for each crate and one for all: processor minutes by part."""
    crates = sorted({crate for crate, _ in by_place}, key=lambda it: -sum(by_place[it, part] for part in PARTS))
    lines = ["%-20s %8s %8s %8s %8s %8s %8s" % ("processor minutes", "whole", *PARTS)]
    for crate in [*crates, "all crates"]:
        spent = [sum(by_place[it, part] for it in crates) if crate == "all crates" else by_place[crate, part] for part in PARTS]
        lines.append("%-20s %8.1f %8.1f %8.1f %8.1f %8.1f %8.1f" % (crate, sum(spent) / 60, *(it / 60 for it in spent)))
    return lines

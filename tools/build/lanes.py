"""Proves and builds the libraries below a program side by side, over the kit's own library of `rt`.

`rt run` alone proves a crate at a time, and `rt lib` in several folders at once waits for locks; so this takes the locks once and builds each
crate by `rt`'s own `build_rlib`, which keeps its work in out/ as `rt lib` does. Each crate has one job, as several cost more than they save; one beside which
nothing runs and nothing else can begin has as many as there are processors and memory.

`lanes.py PROGRAM` has LLVM compile a program that is proved, and puts it in the place of the one that Rattle's own compiler made.

Both call inner parts of the kit, so this holds for the versions that it was tried with. With another one `rt run` does all."""

import importlib.machinery
import importlib.util
import os
import queue
import re
import shutil
import subprocess
import sys
import threading
import traceback

# nothing is left beside the tools
sys.dont_write_bytecode = True
from lib import repository

# The kits whose inner parts these are, as `rt version` says it.
KITS = ("rattle-kit-13b logic dac8208d650f15bf", "rattle-kit-13f logic dac8208d650f15bf")
# What a check of so many lines takes at most, in bytes, and what each job behind the first one takes.
LEAST, PER_LINE, PER_JOB = 1_000_000_000, 1_000_000, 400_000_000


def knows_kit():
    """Whether the kit on the PATH is one that this was written for."""
    return subprocess.run(["rt", "version"], capture_output=True, text=True, check=False).stdout.strip() in KITS


def kit():
    """The library that `rt` stands on, of the kit whose `rt` is on the PATH."""
    file = os.path.join(os.path.dirname(os.path.realpath(shutil.which("rt"))), "rtlib.py")
    loader = importlib.machinery.SourceFileLoader("rtlib", file)
    made = importlib.util.module_from_spec(importlib.util.spec_from_loader("rtlib", loader))
    sys.modules["rtlib"], sys.dont_write_bytecode = made, True
    loader.exec_module(made)
    made.guarded()
    return made


def needed(crate):
    """The bytes of memory that a check of one job takes at most."""
    return LEAST + PER_LINE * crate.count(rb"\n")


class Lines:
    """A file to which `rt` prints what a crate's build says: each line is handed on."""

    def __init__(self, hear):
        self.hear, self.rest = hear, ""

    def write(self, text):
        *lines, self.rest = (self.rest + text).split("\n")
        for line in lines:
            self.hear(line)

    def flush(self):
        pass


def free():
    found = re.search(r"MemAvailable:\s+(\d+)", open("/proc/meminfo", encoding="utf-8").read())
    return 1024 * int(found[1])


def longest_behind(crates, weights):
    """Of each crate the guessed seconds of itself and of the longest chain of crates that wait for it."""
    behind = {}
    for it in sorted(crates, key=lambda one: -len(one.below())):
        behind[it.name] = weights[it.name] + max([behind[up.name] for up in crates if it in up.deps], default=0)
    return behind


class Lanes:
    """Libraries that are built side by side: those that are left, those that run, each with the memory that it may take, and the first status that isn't 0."""

    def __init__(self, crates, weights, processors, hear):
        self.behind, self.processors, self.hear = longest_behind(crates, weights), processors, hear
        self.left, self.running = sorted(crates, key=lambda it: -self.behind[it.name]), {}
        self.ended, self.status = queue.Queue(), 0
        self.memory, self.saying = 0.85 * free(), threading.Lock()

    def say(self, crate, line):
        with self.saying:
            self.hear(crate.name, line)

    def build(self, crate, jobs):
        """What a thread does for one crate: `ended` gets the crate and its status, whatever happens, since others wait for it."""
        status = 2
        try:
            crate.out = Lines(lambda line: self.say(crate, line))
            os.makedirs(f"{crate.folder}/out", exist_ok=True)
            status = crate.build_rlib(["--jobs", str(jobs)], anew=False)
        except SystemExit as stopped:
            status = stopped.code or 1
        except Exception:
            for line in traceback.format_exc().splitlines():
                self.say(crate, line)
        finally:
            self.ended.put((crate, status))

    def start_ready(self):
        """Starts each crate below which all stands, as far as processors and memory go."""
        ready = [crate for crate in self.left if not any(below in self.left or below in self.running for below in crate.below())]
        is_alone = not self.running and len(ready) == 1
        for crate in ready:
            least, free = needed(crate), self.memory - sum(self.running.values())
            jobs = max(1, min(self.processors, 1 + int((free - least) // PER_JOB))) if is_alone else 1
            if len(self.running) < self.processors and (not self.running or least <= free):
                self.left.remove(crate)
                self.running[crate] = least + PER_JOB * (jobs - 1)
                # a daemon, so that Ctrl-C waits for none of them: `rt` sees to it that what they started ends too
                threading.Thread(target=self.build, args=(crate, jobs), daemon=True).start()

    def run(self):
        while self.running or self.left and not self.status:
            if not self.status:
                self.start_ready()
            crate, status = self.ended.get()
            self.running.pop(crate)
            self.status = self.status or status
        return self.status


def in_lanes(root, names, weights, processors, hear):
    """Builds these libraries of the repository, each once those below it stand. Answers 0, or the first status that isn't.

    `hear` gets a crate's name and each line that its build prints; `weights` are the crates' guessed processor seconds."""
    rtlib = kit()
    crates = [it for it in rtlib.crates_below(root) if it.name in names and it.makes_rlib()]
    held = rtlib.lock(crates)
    try:
        return Lanes(crates, weights, processors, hear).run()
    finally:
        for it in held:
            os.close(it)


def compiled_by_llvm(root, name):
    """Has LLVM compile a proved program, and puts it into its place, if its text is still what it was."""
    rtlib = kit()
    crate = rtlib.Crate(f"{root}/crates/{name}", root, {})
    # its own lock alone: those below it are only read, and another program may be built over them meanwhile
    held = rtlib.lock([crate])
    text, made = crate.stamp(), f"out/{name}.by-llvm"
    try:
        status = crate.compile(["--jobs", "1", "--backend", "llvm"], f"{made}.o")
        words = ["--target", "x86_64-unknown-linux-gnu", "--toolchain", f"{rtlib.KIT}/toolchain", "-o", made, f"{made}.o"]
        words += [f"{rtlib.KIT}/c/libos_c.a", f"{rtlib.KIT}/c/liblibc_c.a"]
        status = status or crate.call(f"{rtlib.KIT}/bin/rattle-link", *words)
        if not status and crate.stamp() == text:
            os.replace(f"{crate.folder}/{made}", f"{crate.folder}/out/{name}")
        return status
    finally:
        for it in held:
            os.close(it)


if __name__ == "__main__":
    os.chdir(repository.ROOT)
    sys.exit(compiled_by_llvm(os.getcwd(), sys.argv[1]))

"""build.py PROGRAM: builds this proved program for ./handled, ./run or ./hdl, and says how far it is: which crate, how much of it, and about how many
minutes are left (`estimates.py`).
build.py PROGRAM --unbuilt: says that it isn't built yet, and how long that takes, behind a stored text of ./hdl --help.

The libraries below it are proved side by side (`lanes.py`, where it knows the kit), and then `rt run` proves and builds the program itself, and what
isn't proved yet. Each proof is kept as it is made, so a break (Ctrl-C) loses little and the next start goes on from there."""

import glob
import os
import re
import signal
import subprocess
import sys
import threading
import time

# nothing is left beside the tools
sys.dont_write_bytecode = True
import estimates
import lanes
import spent
from lib import repository

PROGRAM = sys.argv[1]
# What runs it.
SCRIPT = {"hdl_web": "hdl proxy"}.get(PROGRAM, PROGRAM)
LOG = f"crates/{PROGRAM}/out/build.log"
# Which process has LLVM compile the program behind a start.
BEHIND = f"crates/{PROGRAM}/out/behind.pid"
EVERY = 20


def processors():
    return len(os.sched_getaffinity(0))


def below(crate, graph):
    """The crate and all of the repository that it stands on."""
    found = {crate}
    for name in graph[crate]:
        if name in graph and name not in found:
            found |= below(name, graph)
    return found


def written(crate):
    """When a file of the crate that a build reads was last written."""
    files = (glob.glob(f"crates/{crate}/{part}/**/*", recursive=True) for part in ("src", "specs", "proofs"))
    return max(os.path.getmtime(file) for part in files for file in part)


def is_built(crate, graph):
    """Whether the crate was built and neither it nor one below it was written since."""
    kept = "out/rlib/stamp" if os.path.isfile(f"crates/{crate}/src/lib.rt") else f"out/{crate}.stamp"
    stamp = f"crates/{crate}/{kept}"
    return os.path.isfile(stamp) and os.path.getmtime(stamp) >= max(written(one) for one in below(crate, graph))


class Progress:
    """Which crates are left, and how much of each is done by the processor time that its build took."""

    def __init__(self, crates, graph, taken):
        self.left, self.started = list(crates), time.time()
        at_once = processors() if lanes.knows_kit() else 1
        self.estimate = estimates.Left(crates, graph, at_once, lambda crate: sum(taken.by_place[crate, part] for part in spent.PARTS))
        self.ended = threading.Event()

    def say(self):
        parts = [(crate, self.estimate.part(crate)) for crate in self.left]
        began = ", ".join(f"{crate} {part:.0%}" for crate, part in parts if part > 0.005) or "reading the libraries"
        whole, past = len(self.estimate.whole), time.time() - self.started
        left = minutes(self.estimate.minutes(past))
        tell(f"{whole - len(self.left)} of {whole} crates proved; {began}; after {minutes(round(past / 60))}, about {left} left")

    def heard(self, line):
        ended = re.match(r"crate (\w+): modules loaded=", line)
        if ended and ended[1] in self.left:
            self.left.remove(ended[1])
            self.estimate.end(ended[1])

    def tick(self):
        while not self.ended.wait(EVERY):
            self.say()


def minutes(count):
    return "1 minute" if count == 1 else f"{count} minutes"


def tell(what):
    print(f"{SCRIPT}: {what}", file=sys.stderr, flush=True)


def ran(words, folder, log, progress):
    """Runs a command that takes no input, keeps what it says in the log, and answers its status."""
    how = {"stdin": subprocess.DEVNULL, "stdout": subprocess.PIPE, "stderr": subprocess.STDOUT}
    child = subprocess.Popen(words, cwd=folder, text=True, errors="replace", **how)
    try:
        for line in child.stdout:
            log.write(line)
            log.flush()
            progress.heard(line)
        return child.wait()
    except KeyboardInterrupt:
        child.send_signal(signal.SIGINT)
        child.wait()
        raise


def side_by_side(crates, log, progress):
    """Proves and builds these libraries, several at a time."""

    def hear(crate, line):
        log.write(f"{crate}: {line}\n")
        log.flush()
        progress.heard(line)

    return lanes.in_lanes(os.getcwd(), crates, progress.estimate.whole, processors(), hear)


def compile_behind():
    """Has LLVM compile the program behind this start."""
    how = {"stdin": subprocess.DEVNULL, "stdout": subprocess.DEVNULL, "stderr": subprocess.DEVNULL}
    started = subprocess.Popen(["nice", sys.executable, "tools/build/lanes.py", PROGRAM], start_new_session=True, **how)
    with open(BEHIND, "w", encoding="utf-8") as file:
        file.write(str(started.pid))


def stop_behind():
    """Ends what compiles an older text behind an earlier start, for which this build would wait."""
    try:
        with open(BEHIND, encoding="utf-8") as file:
            number = int(file.read())
        with open(f"/proc/{number}/cmdline", encoding="utf-8") as file:
            if f"tools/build/lanes.py\0{PROGRAM}\0" in file.read():
                os.killpg(number, signal.SIGTERM)
    except (OSError, ValueError):
        pass


def crates_left(graph):
    """All crates of the program, and those that aren't built, lowest first."""
    wanted = below(PROGRAM, graph)
    return wanted, [crate for crate in graph if crate in wanted and not is_built(crate, graph)]


def say_unbuilt(graph):
    left = estimates.Left(crates_left(graph)[1], graph, processors())
    tell(f"not built yet, so this is a stored text; the first ./{SCRIPT} that does something proves and builds it, in about {minutes(left.minutes(0))} on {processors()} processors that nothing else uses")


def say_first(wanted, left, estimate):
    """Says what is done, how long it takes and what it needs, and answers whether it can work."""
    if not left:
        return True
    time_said = f"in about {minutes(estimate.minutes(0))} on {processors()} processors that nothing else uses"
    if len(left) < len(wanted):
        tell(f"of {len(wanted)} crates {len(left)} changed, stand on one that did, or aren't built; what didn't change in them isn't proved again. It is done {time_said}")
    else:
        tell(f"the first build proves {len(left)} crates, {time_said}")
        tell(f"Ctrl-C loses little: the next ./{SCRIPT} goes on from there. Without proofs ./try runs a script, and ./try serve a server, in about a minute.")
    lines, can_work = estimates.room_here(sum(estimate.whole.values()))
    for line in lines if len(left) == len(wanted) or len(lines) > 1 else []:
        tell(line)
    return can_work


def build(left, progress):
    """Builds what is left, and answers the first status that isn't 0."""
    with open(LOG, "w", encoding="utf-8") as log:
        libraries = [crate for crate in left if crate != PROGRAM]
        status = side_by_side(libraries, log, progress) if libraries and lanes.knows_kit() else 0
        words = ["rt", "run", "--jobs", "1", "--backend", "rattle", "--", "--help"]
        return status or ran(words, f"crates/{PROGRAM}", log, progress)


def main():
    os.chdir(repository.ROOT)
    graph = repository.stands_on()
    if sys.argv[2:] == ["--unbuilt"]:
        return say_unbuilt(graph)
    stop_behind()
    wanted, left = crates_left(graph)
    os.makedirs(os.path.dirname(LOG), exist_ok=True)
    try:
        with spent.Spent() as taken:
            progress = Progress(left, graph, taken)
            if not say_first(wanted, left, progress.estimate):
                return 1
            threading.Thread(target=progress.tick, daemon=True).start()
            status = build(left, progress)
    except KeyboardInterrupt:
        tell(f"stopped; the next ./{SCRIPT} goes on from here")
        return 130
    progress.ended.set()
    if status:
        tell(f"not proved or not built; what was said stands in {LOG}, and ends so:")
        print(*open(LOG, encoding="utf-8").read().splitlines()[-20:], sep="\n", file=sys.stderr)
    elif lanes.knows_kit():
        tell("built by Rattle's own compiler, which is sooner; LLVM builds it once more behind this start, and the next one runs that")
        compile_behind()
    return status


sys.exit(main())

"""gate.py [--list | --write]: the gate of a submission, from nothing: all of tools/pages, ./test, the wrong bodies of wrong/gate/, and all of tools/trials. What a program there says of
itself, as that it runs alone, stands in it (tools/build/parts.py); --list prints what is run, in its order.

Before its last line it prints what each crate and each part took, in processor minutes, names the crates that took more than tools/build/limits.tsv
allows them, and says how many wrong bodies it didn't try. With --write it writes what they took there, if all passed: for a run in which nothing was kept. Its last line is 'N passed, M failed', the sum of what the parts' last lines count; its status is 0 only where nothing failed."""

import concurrent.futures
import glob
import os
import re
import subprocess
import sys
import tempfile
import threading
import time

# nothing is left beside the tools
sys.dont_write_bytecode = True
import parts
import spent
from lib import releases, repository

ROOT = repository.ROOT
LIMITS = os.path.join(ROOT, "tools/build/limits.tsv")
TEST = ["./test"]
# It checks over the libraries that ./test made, and uses every processor.
WRONG = [sys.executable, "tools/build/wrong.py", "--gate", "--jobs", str(len(os.sched_getaffinity(0)))]
printing = threading.Lock()


def side_by_side(do, of, at_once):
    """Does something of each of these, so many at a time, and answers what it gave. After Ctrl-C nothing more begins."""
    stopped = threading.Event()
    with concurrent.futures.ThreadPoolExecutor(max(1, at_once)) as pool:
        try:
            return list(pool.map(lambda it: None if stopped.is_set() else do(it), of))
        except KeyboardInterrupt:
            stopped.set()
            raise


def name_of(words):
    return " ".join(words).replace(sys.executable, "python3")


def count_of(last, status):
    """How much passed and failed, by a part's last line and its exit status."""
    found = re.fullmatch(r"(\d+) passed, (\d+) failed\n?", last)
    passed, failed = (int(found[1]), int(found[2])) if found else (0, 1)
    return passed, max(failed, int(status != 0))


def proved():
    """Runs ./test, prints what it says as it comes, and answers how much passed and failed."""
    last = ""
    with subprocess.Popen(TEST, cwd=ROOT, stdout=subprocess.PIPE, text=True, errors="replace") as part:
        for line in part.stdout:
            print(last, end="", flush=True)
            last = line
    print("%s: %s" % (name_of(TEST), last.strip() or "it said nothing"), flush=True)
    return count_of(last, part.returncode)


def tried(words):
    """Runs a part, prints what it said once it ends, and answers how much passed and failed, its processor seconds, and its seconds on the clock."""
    began = time.monotonic()
    with tempfile.TemporaryFile("w+", errors="replace") as said:
        part = subprocess.Popen(words, cwd=ROOT, stdin=subprocess.DEVNULL, stdout=said, stderr=subprocess.STDOUT)
        _, ended, used = os.wait4(part.pid, 0)
        part.returncode = os.waitstatus_to_exitcode(ended)
        said.seek(0)
        lines = said.readlines() or ["it said nothing"]
    with printing:
        print(*lines[:-1], sep="", end="")
        print("%s: %s" % (name_of(words), lines[-1].strip()), flush=True)
    return count_of(lines[-1], part.returncode), used.ru_utime + used.ru_stime, time.monotonic() - began


def alone(programs):
    return [part for part in programs if part.alone]


def in_company(programs):
    return [part for part in programs if not part.alone]


def try_all(programs):
    """Runs programs side by side, as many as there are processors, and then those that run alone. Answers what each came to."""
    groups = ((in_company(programs), max(2, len(os.sched_getaffinity(0)))), (alone(programs), 1))
    return {name_of(part.words): found for group, at_once in groups for part, found in zip(group, side_by_side(lambda part: tried(part.words), group, at_once))}


def limits():
    """The processor minutes that tools/build/limits.tsv allows each crate: its last column."""
    with open(LIMITS, encoding="utf-8") as lines:
        rows = [line.rstrip("\n").split("\t") for line in lines if not line.startswith("#")]
    return {row[0]: float(row[-1]) for row in rows}


def write_limits(by_place):
    """Writes what each crate took by part in this run, and as its limit a fifth more."""
    with open(LIMITS, "w", encoding="utf-8") as lines:
        lines.write("# %s\n" % "\t".join(("crate", *spent.PARTS, "whole", "limit")))
        for crate in repository.stands_on():
            minutes = [by_place[crate, part] / 60 for part in spent.PARTS]
            lines.write("\t".join([crate, *("%.1f" % it for it in (*minutes, sum(minutes), 1.2 * sum(minutes) + 0.1))]) + "\n")


def told(by_place, by_part, minutes):
    """Prints the budget: what each crate took by part, each part of the gate with its minutes on the clock, and the whole."""
    for line in spent.table(by_place):
        print(line)
    for name, (seconds, clock) in by_part.items():
        print("%-40s %8.1f %8.1f" % (name, seconds / 60, clock / 60))
    allowed = limits()
    for crate in repository.stands_on():
        took = sum(seconds for (name, _), seconds in by_place.items() if name == crate) / 60
        if crate not in allowed:
            print("note: tools/build/limits.tsv has no limit for %s, which took %.1f processor minutes" % (crate, took))
        elif took > allowed[crate]:
            print("note: %s took %.1f processor minutes, and tools/build/limits.tsv allows it %.1f" % (crate, took, allowed[crate]))
    whole = sum(seconds for seconds, _ in by_part.values()) / 60
    print("the whole took %.1f processor minutes, and %.1f minutes on the clock of %d processors" % (whole, minutes, len(os.sched_getaffinity(0))))


def listed():
    """Prints what is run, in its order."""
    for part in parts.of("pages"):
        print(name_of(part.words))
    trials = parts.of("trials")
    for words in (TEST, WRONG, *(part.words for part in in_company(trials))):
        print(name_of(words))
    for part in alone(trials):
        print("%s, alone" % name_of(part.words))
    return 0


def main():
    if sys.argv[1:] == ["--list"]:
        return listed()
    began = time.monotonic()
    counts = [(0, int(subprocess.run(page.words, cwd=ROOT, check=False).returncode != 0)) for page in parts.of("pages")]
    with spent.Spent() as part:
        counts.append(proved())
    by_part = {name_of(TEST): (part.seconds, time.monotonic() - began)}
    for name, (count, seconds, clock) in {name_of(WRONG): tried(WRONG), **try_all(parts.of("trials"))}.items():
        counts.append(count)
        by_part[name] = seconds, clock
    told(part.by_place, by_part, (time.monotonic() - began) / 60)
    left = len(glob.glob(os.path.join(ROOT, "crates/*/wrong/*.edit")))
    print("the %d wrong bodies right in crates/*/wrong/ weren't tried by this run: tools/build/wrong.py tries them, and ./check those of crates that changed" % left)
    passed, failed = (sum(column) for column in zip(*counts))
    if not failed:
        releases.note_passed()
        if "--write" in sys.argv[1:]:
            write_limits(part.by_place)
    print("%d passed, %d failed" % (passed, failed))
    return 1 if failed else 0


if __name__ == "__main__":
    sys.exit(main())

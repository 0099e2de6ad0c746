#!/usr/bin/env python3
"""Random and mutated frames, messages and tenants texts for `handled replay`, a process for each script and table.

    tools/trials/fuzz.py [COUNT] [SEED]       by default 300 scripts of seed 1; needs the program of ./test, or of `rt run` in crates/handled

The scripts grow from those of crates/hdl_scripts/data: octets are flipped, cut, spliced and repeated, lengths and counts replaced by edges,
lines swapped and dropped, events of several scripts mixed. A script runs over a table in SQL, and over one in memory with a new file beside it
(`--table`). It fails on a crash, on a run of more than a second of processor time (over a file ten), on more than 200 MB of memory (over a file 1,000,
since a thread writes it), on an output line that isn't one of the four forms, on an exit status or a fault line that docs/PROTOCOL.md doesn't have,
and on any difference between the two runs.
Its last line is 'N passed, M failed', in scripts.
"""

import collections
import glob
import os
import random
import re
import resource
import signal
import subprocess
import sys
import tempfile

# nothing is left beside the tools
sys.dont_write_bytecode = True
from lib import repository

# What the gate reads of it (tools/build/parts.py).
GATE = {"needs_proof": "it bounds the memory of each process, and the checks need more"}
ROOT = repository.ROOT
PROGRAM = os.path.join(ROOT, "crates", "handled", "out", "handled")
SCRIPTS = os.path.join(ROOT, "crates", "hdl_scripts", "data", "*.script")
EDGES = ["00000000", "00000001", "7fffffff", "80000000", "ffffffff", "40000000", "00010000", "00010001", "000001ec", "000001ed", "00000800", "00000801"]
LINE = re.compile(rb"\d+ (silent|reply ([0-9a-f]{2})+|busy [0-9a-f]{104}|close [0-9a-f]{104})")
FAULT = re.compile(rb"(line \d+: bad event|input too long|input not UTF-8|no memory|store refused|device fault"
                   rb"|tenants: line \d+: (bad line|prefix given twice|publisher given twice|more than 64 lanes|no memory))\n")
# The seconds of processor time and the octets of memory that a run may take, over each of the tables.
IN_SQL, OVER_A_FILE = (1, 200 * 1024 * 1024), (10, 1000 * 1024 * 1024)
# Scripts with more characters are left out.
LONGEST = 20000


def uncommented(name):
    """A script without the comments that tools/trials/examples.py puts there."""
    with open(name, encoding="utf-8") as text:
        return "".join(line for line in text if not line.startswith(("#:", "#+")))


def parts(script):
    lines = script.split("\n")
    run = lines.index("run") if "run" in lines else len(lines)
    return lines[:run], lines[run + 1:]


def mutated_digits(chance, digits):
    """Hexadecimal digits with something changed."""
    octets = bytearray.fromhex(digits) if re.fullmatch(r"([0-9a-fA-F]{2})+", digits) else bytearray(b"\0")
    for _ in range(chance.randint(1, 3)):
        at = chance.randrange(len(octets)) if octets else 0
        what = chance.randrange(6)
        if what == 0 and octets:
            octets[at] ^= 1 << chance.randrange(8)
        elif what == 1 and len(octets) > 1:
            del octets[at:]
        elif what == 2 and len(octets) >= 4:
            at = at // 4 * 4
            octets[at:at + 4] = bytes.fromhex(chance.choice(EDGES))
        elif what == 3:
            octets[at:at] = bytes(chance.randrange(256) for _ in range(chance.randint(1, 8)))
        elif what == 4 and octets:
            octets += octets[at:at + chance.randint(1, 64)]
        elif octets:
            del octets[at:at + chance.randint(1, 8)]
    # the envelope's length is mended now and then, so that what is behind it is read
    if len(octets) >= 20 and chance.random() < 0.7:
        octets[16:20] = (len(octets) - 20).to_bytes(4, "big")
    return bytes(octets or b"\0").hex()


def mutated_line(chance, line):
    words = line.split(" ")
    if words[0] in ("frame", "value") and chance.random() < 0.8:
        words[-1] = mutated_digits(chance, words[-1])
    elif len(words) > 1:
        words[chance.randrange(1, len(words))] = chance.choice(["0", "1", "2", "3", "63", "64", "65535", "acme", "bolt", "10", "10.abc", "20", "0.na", ""])
    return " ".join(words)


def made(chance, scripts):
    tenants, events = parts(chance.choice(scripts))
    if chance.random() < 0.5:
        _, more = parts(chance.choice(scripts))
        events = events + more
        chance.shuffle(events) if chance.random() < 0.3 else None
    if chance.random() < 0.2 and tenants:
        at = chance.randrange(len(tenants))
        tenants = tenants[:at] + [mutated_line(chance, tenants[at])] + tenants[at + 1:]
    events = [mutated_line(chance, line) if chance.random() < 0.4 else line for line in events[:200] if chance.random() < 0.95]
    return ("\n".join(tenants + ["run", "open 0", "open 2"] + events) + "\n").encode()


def limit(seconds, octets):
    resource.setrlimit(resource.RLIMIT_AS, (octets, octets))
    resource.setrlimit(resource.RLIMIT_CPU, (seconds, seconds + 1))


def run(script, limits, options=()):
    """What the program tells, or why it failed."""
    words = [PROGRAM, "replay", *options]
    how = {"stdout": subprocess.PIPE, "stderr": subprocess.PIPE, "timeout": 60, "check": False}
    try:
        done = subprocess.run(words, input=script, preexec_fn=lambda: limit(*limits), **how)
    except subprocess.TimeoutExpired:
        return None, "no end in a minute"
    told = (done.returncode, done.stdout, done.stderr)
    if done.returncode == -signal.SIGXCPU:
        return told, "too much processor time"
    if done.returncode not in (0, 1, 3):
        return told, "exit status %d" % done.returncode
    if done.returncode != 0 and not FAULT.fullmatch(done.stderr):
        return told, "a fault line that isn't one"
    if any(not LINE.fullmatch(line) for line in done.stdout.split(b"\n")[:-1]):
        return told, "an output line of another form"
    return told, None


def compared(script):
    """The exit status of a script, or why it failed over one of the tables."""
    told, fault = run(script, IN_SQL)
    if fault:
        return None, fault
    with tempfile.TemporaryDirectory() as folder:
        filed, fault = run(script, OVER_A_FILE, ("--table", os.path.join(folder, "table")))
    if fault:
        return None, "over a file: " + fault
    return told[0], None if filed == told else "the tables differ"


def main():
    count, seed = [int(word) for word in sys.argv[1:]] + [300, 1][len(sys.argv) - 1:]
    if not os.access(PROGRAM, os.X_OK):
        print("fuzz: there is no %s\n0 passed, 1 failed" % PROGRAM)
        sys.exit(1)
    scripts = [script for script in map(uncommented, sorted(glob.glob(SCRIPTS))) if len(script) < LONGEST]
    ended, faults = collections.Counter(), {}
    for number in range(count):
        status, fault = compared(made(random.Random("%d %d" % (seed, number)), scripts))
        if fault:
            faults[number] = fault
        else:
            ended[status] += 1
    for number, fault in sorted(faults.items()):
        print("script %d of seed %d: %s" % (number, seed, fault))
    print("%d scripts of seed %d: %s" % (count, seed, ", ".join("%d ended with status %d" % (ended[status], status) for status in sorted(ended))))
    print("%d passed, %d failed" % (count - len(faults), len(faults)))
    sys.exit(1 if faults else 0)


main()

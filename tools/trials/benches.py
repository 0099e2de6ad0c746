"""benches.py [NAME..]: sees that each program of bench/, or these, starts: `bench/NAME --dry` measures the least of each of its cases.

A program passes where it ends with status 0 and has printed a number. `masks` and `replay` compile a small program first, without proofs, which takes
a minute. Its last line is 'N passed, M failed', a program counting one."""

import os
import re
import subprocess
import sys

# nothing is left beside the tools
sys.dont_write_bytecode = True
from lib import repository

# What the gate reads of it (tools/build/parts.py).
GATE = {"needs_proof": "numbers of a slower program say nothing"}
# The longest that one may take, on a machine that others use too.
PATIENCE = 900


def names():
    return sorted(name for name in os.listdir(repository.path("bench")) if "." not in name and not name.startswith("_"))


def fault_of(name):
    """Why it failed, or nothing."""
    try:
        done = subprocess.run([repository.path("bench", name), "--dry"], stdout=subprocess.PIPE, stderr=subprocess.STDOUT, text=True, check=False,
                              timeout=PATIENCE)
    except subprocess.TimeoutExpired:
        return "no end in %d seconds" % PATIENCE
    if done.returncode != 0 or not re.search(r"\d", done.stdout):
        return "status %d, and it said\n%s" % (done.returncode, done.stdout[-2000:])
    return None


def main():
    faults = {name: fault_of(name) for name in sys.argv[1:] or names()}
    for name, fault in faults.items():
        if fault:
            print("bench/%s: %s" % (name, fault))
    failed = sum(fault is not None for fault in faults.values())
    print("%d passed, %d failed" % (len(faults) - failed, failed))
    return 1 if failed else 0


sys.exit(main())

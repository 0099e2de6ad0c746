"""scripts.py [EVERY]: hands each script of crates/hdl_scripts/data to the proved program crates/handled/out/handled, and compares what it tells with what stands beside it: for
`NAME.script` the file `NAME.expected`.

`handled replay` runs it over a table in SQL, and `handled replay --table` over one in memory with a new file beside it: each script, or one in so many. What a script tells are its
printed lines, its fault line if it has one, and a line `status N`. A script without its expected lines fails, and so do lines without their script. Its last line is 'N passed, M
failed', a script over one of the tables counting one."""

import concurrent.futures
import glob
import os
import subprocess
import sys
import tempfile

# nothing is left beside the tools
sys.dont_write_bytecode = True
from lib import repository, servers

# What the gate reads of it (tools/build/parts.py).
GATE = {"leaves_out": "nine of ten scripts over a file, which take seconds each"}
FOLDER = repository.path("crates", "hdl_scripts", "data")
# Seconds after which a run that hangs is ended.
PATIENCE = 60 * servers.SLOWER


def told(script, options):
    """What a script tells: its lines, its fault line and its status."""
    done = subprocess.run([servers.HANDLED, "replay", *options], input=script, capture_output=True, timeout=PATIENCE, check=False)
    return done.stdout + done.stderr + b"status %d\n" % done.returncode


def octets_of(path):
    """What a file has; None if there is no such file."""
    if not os.path.exists(path):
        return None
    with open(path, "rb") as file:
        return file.read()


def difference(found, expected):
    """The first line that is another one; None if there is none."""
    if found == expected:
        return None
    lines, wanted = found.split(b"\n"), expected.split(b"\n")
    at = next((at for at, pair in enumerate(zip(lines, wanted)) if pair[0] != pair[1]), min(len(lines), len(wanted)))
    return "line %d is another one: %r" % (at + 1, b"".join(lines[at : at + 1])[:200])


def compared(name, options):
    """What a script tells otherwise than is expected; None if it tells that."""
    script, expected = (octets_of(os.path.join(FOLDER, name + ending)) for ending in (".script", ".expected"))
    if script is None or expected is None:
        return "there is no %s beside it" % (".script" if script is None else ".expected")
    return difference(told(script, options), expected)


def main():
    every = int(sys.argv[1]) if len(sys.argv) > 1 else 10 if servers.IS_UNPROVED else 1
    names = sorted({os.path.splitext(os.path.basename(path))[0] for ending in ("script", "expected") for path in glob.glob(os.path.join(FOLDER, "*." + ending))})
    with tempfile.TemporaryDirectory() as folder, concurrent.futures.ThreadPoolExecutor(len(os.sched_getaffinity(0))) as pool:
        cases = [("%s, in SQL" % name, name, ()) for name in names]
        cases += [("%s, over a file" % name, name, ("--table", os.path.join(folder, name))) for name in names[::every]]
        found = list(pool.map(lambda case: compared(*case[1:]), cases))
    for (case, _, _), fault in zip(cases, found):
        if fault:
            print("%s: %s" % (case, fault))
    failed = sum(fault is not None for fault in found)
    print("%d passed, %d failed" % (len(found) - failed, failed))
    return 1 if failed or not names else 0


sys.exit(main())

#!/usr/bin/env python3
"""Sees that the head of each library has one use of it, as it stands in a file that the gate proves, tests or compiles.

A use is a block of code in the head of `src/lib.rt`, whose first line names the file, as `// crates/hdl_tests/src/ops.rt`. The other lines stand in
that file one behind the other, but for their indentation. A library of laws alone, which no code calls, has none: `LAWS`. Prints each fault and a
count; the status is 1 where there is a fault."""

import os
import re
import sys

# nothing is left beside the tools
sys.dont_write_bytecode = True
from lib import repository

BLOCK = re.compile(r"^//! ```rust\n//! // (crates/\S+\.rt)\n(.*?)^//! ```$", re.M | re.S)
# Libraries whose functions are laws alone.
LAWS = ("hdl_peers_laws", "hdl_journal", "hdl_cluster_laws")


def libraries():
    """The libraries of crates.txt, without those of tests."""
    with open("crates.txt", encoding="utf-8") as lines:
        names = [re.split(r"[: ]", line)[0] for line in lines if line.strip() and not line.startswith("#")]
    return [name for name in names if not name.endswith("_tests") and os.path.exists(f"crates/{name}/src/lib.rt")]


def lines_of(text):
    return [line.strip() for line in text.split("\n") if line.strip()]


def stands(use, source):
    """Whether these lines stand there, one behind the other."""
    return any(source[at : at + len(use)] == use for at in range(len(source)))


def fault_of(name):
    """What is wrong with the head of a library, if something is."""
    with open(f"crates/{name}/src/lib.rt", encoding="utf-8") as file:
        found = BLOCK.search(file.read())
    if not found:
        return "its head has no use of it"
    path, block = found.groups()
    if path.startswith(f"crates/{name}/") or not os.path.exists(path):
        return f"{path} isn't a file of another crate"
    use = lines_of(re.sub(r"^//! ?", "", block, flags=re.M))
    with open(path, encoding="utf-8") as file:
        source = lines_of(file.read())
    return None if use and stands(use, source) else f"the use in its head doesn't stand so in {path}"


def main():
    faults = {name: fault_of(name) for name in libraries() if name not in LAWS}
    for name, fault in faults.items():
        if fault:
            print(f"crates/{name}/src/lib.rt: {fault}")
    count = sum(1 for fault in faults.values() if fault)
    print(f"heads of libraries: {len(faults)}, of which {count} have faults")
    return 1 if count else 0


if __name__ == "__main__":
    os.chdir(repository.ROOT)
    sys.exit(main())

"""price.py [CRATE..]: what the functions of these crates, or of all that were checked, cost to prove: about how many processor seconds, the ten
dearest of each crate. Guessed in a second from the sizes of what the last check kept; a function's part above 5 MB costs three times as much."""

import collections
import glob
import os
import sys

# nothing is left beside the tools
sys.dont_write_bytecode = True
from lib import repository

# Seconds a megabyte, by what a module is: a function's steps, its borrows, its goals that a search proved, and those answered by hand.
RATES = {"Lts": 1.16, "Tie": 1.84, "Proof": 2.99, "Answers": 3.0}
NAMES = {"Lts": "steps", "Tie": "borrows", "Proof": "searches", "Answers": "answers"}
# Where the steps of one function grow dear.
LARGE = 5.0


def kept_modules(crate):
    """The module names of a crate that the last check kept, each with its megabytes."""
    for file in glob.glob(f"crates/{crate}/out/incremental/antt*/Rattle-*.oantt"):
        module = os.path.basename(file)[: -len(".oantt")].split("-", 1)[1]
        if not module.endswith(".decls"):
            yield module, os.path.getsize(file) / 1e6


def seconds(kind, megabytes):
    over = max(0.0, megabytes - LARGE) if kind == "Lts" else 0.0
    return RATES[kind] * (megabytes + 2 * over)


def prices(crate):
    """For each function of the crate its seconds by kind."""
    parts = collections.defaultdict(dict)
    for module, megabytes in kept_modules(crate):
        function, _, kind = module.rpartition(".")
        if kind in RATES:
            name = function.partition(".")[2] or function
            parts[name][kind] = parts[name].get(kind, 0.0) + seconds(kind, megabytes)
    return parts


def main():
    os.chdir(repository.ROOT)
    for crate in sys.argv[1:] or repository.stands_on():
        parts = prices(crate)
        if not parts:
            print(f"{crate}: no check kept anything", file=sys.stderr)
            continue
        dearest = sorted(parts, key=lambda name: -sum(parts[name].values()))
        whole = sum(sum(kinds.values()) for kinds in parts.values())
        print(f"{crate}: about {whole:.0f} s in {len(parts)} functions")
        for name in dearest[:10]:
            kinds = ", ".join(f"{NAMES[kind]} {cost:.1f}" for kind, cost in sorted(parts[name].items()))
            print(f"  {sum(parts[name].values()):5.1f}  {name}  ({kinds})")


main()

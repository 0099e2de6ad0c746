"""Prints the crates that differ from origin/main (or from the first commit, where there is none), and all crates
that stand on them, lowest first."""

import re
import subprocess
import sys

# nothing is left beside the tools
sys.dont_write_bytecode = True
from lib import repository


def git(*words):
    done = subprocess.run(["git", *words], capture_output=True, text=True)
    return done.stdout.split("\n") if done.returncode == 0 else None


def changed():
    base = git("rev-parse", "-q", "--verify", "origin/main") or git("rev-list", "--max-parents=0", "HEAD") or [""]
    files = (git("diff", "--name-only", base[0]) or []) + (git("ls-files", "--others", "--exclude-standard") or [])
    found = (re.match(r"crates/([^/]+)/", name) for name in files if not name.endswith(".md"))
    return {match.group(1) for match in found if match}


def main():
    stands_on = repository.stands_on()
    touched = changed() & set(stands_on)
    order = []

    def visit(name):
        if name in order:
            return
        for below in stands_on[name]:
            if below in stands_on:
                visit(below)
        if any(below in touched for below in stands_on[name]):
            touched.add(name)
        order.append(name)

    for name in stands_on:
        visit(name)
    print(" ".join(name for name in order if name in touched))


main()

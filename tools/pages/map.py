#!/usr/bin/env python3
"""Sees that docs/DESIGN.md lists the crates as crates.txt does, and that crates.txt lists no crate in vain.

- "Crates" has a heading for each group of crates.txt, in its order, and below it a row for each crate of the group, in any order.
- What a line of crates.txt lists for a crate is named somewhere in that crate's src/, specs/ or proofs/, comments aside.

Prints what differs, and then the exit status is 1."""

import glob
import re
import sys

# nothing is left beside the tools
sys.dont_write_bytecode = True
from lib import repository

PAGE = ("docs", "DESIGN.md")
ROW = re.compile(r"^\| (\w+) \|", re.MULTILINE)


def section(page, title):
    return page.split("\n## %s\n" % title)[1].split("\n## ")[0]


def drawn(page):
    """The headings of the page's groups, each with the crates of its rows."""
    parts = section(page, "Crates").split("\n### ")[1:]
    return {part.split("\n")[0]: ROW.findall(part.split("|---|", 1)[-1]) for part in parts}


def code_of(crate):
    """The words of a crate's files, without those of comments."""
    files = [path for kind in ("src/**/*.rt", "specs/**/*.antt", "proofs/**/*.antt") for path in glob.glob(repository.path("crates", crate, kind), recursive=True)]
    return set(re.findall(r"\w+", re.sub(r"^\s*(//|--).*$", "", "\n".join(map(repository.text_of, files)), flags=re.MULTILINE)))


def unnamed():
    """What crates.txt lists in vain."""
    for crate, below in repository.stands_on().items():
        for name in sorted(set(below) - code_of(crate)):
            yield "crates.txt, %s: no file of it names %s; take that name out of the line" % (crate, name)


def differing(page):
    groups, rows = repository.groups(), drawn(page)
    if list(groups) != list(rows):
        yield "docs/DESIGN.md: the groups of crates are %s, and crates.txt has %s" % (list(rows), list(groups))
    for heading, names in groups.items():
        for name in sorted(set(names) ^ set(rows.get(heading, []))):
            yield "docs/DESIGN.md, %s: %s stands in one of the page and crates.txt" % (heading, name)


def main():
    page = repository.text_of(*PAGE)
    faults = [*differing(page), *unnamed()]
    for fault in faults:
        print(fault)
    print("crates in the map: %d, with %d faults" % (sum(map(len, drawn(page).values())), len(faults)))
    sys.exit(1 if faults else 0)


main()

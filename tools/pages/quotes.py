#!/usr/bin/env python3
"""Sees that the definitions which docs/ quotes stand so in specs/, and that docs/THEOREM.md explains the words of those that it quotes.

A block that begins with ```antt FILE quotes FILE: each of its paragraphs stands there word for word, comments and line breaks
included. A word of a definition of docs/THEOREM.md is explained where the page defines it, or names it outside its blocks. Prints what
has drifted and what isn't explained, and then the exit status is 1."""

import os
import re
import sys

# nothing is left beside the tools
sys.dont_write_bytecode = True
from lib import repository

BLOCK = re.compile(r"^```antt (\S+)\n(.*?)^```$", re.MULTILINE | re.DOTALL)
NAME = re.compile(r"(?<![\w.'])[A-Za-z_][\w']+")
DEFINED = re.compile(r"^(?:abbrev pub|unfoldable pub|pub record|pub data) (\S+)|^  pub (\w+) :", re.MULTILINE)
BOUND = re.compile(r"\((\w[\w' ]*?) :|λ (\w+)\.")


def drifted(page):
    """The quotes of a page that don't stand in their files, and how many there are in all."""
    missing, count = [], 0
    for name, block in BLOCK.findall(repository.text_of("docs", page)):
        source = repository.text_of(*name.split("/"))
        for paragraph in block.strip().split("\n\n"):
            count += 1
            if paragraph not in source:
                missing.append("docs/%s: not in %s: %s" % (page, name, paragraph.split("\n")[0]))
    return missing, count


def unexplained(page):
    """The words of the page's definitions that it neither defines nor names outside its blocks. Variables of equations have two letters at most."""
    text = repository.text_of("docs", page)
    code = "\n".join(line for _, block in BLOCK.findall(text) for line in block.splitlines() if not line.startswith("--"))
    known = set(re.findall(r"[\w']+", BLOCK.sub("", text)))
    for found in DEFINED.findall(code) + BOUND.findall(code):
        known |= set(" ".join(found).split())
    return ["docs/%s doesn't explain %s" % (page, name) for name in sorted(set(NAME.findall(code)) - known) if len(name) > 2]


def main():
    missing, count = [], 0
    for page in sorted(os.listdir(repository.path("docs"))):
        if page.endswith(".md"):
            lines, quotes = drifted(page)
            missing += lines
            count += quotes
    words = unexplained("THEOREM.md")
    for line in missing + words:
        print(line)
    print("quotes of definitions: %d, of which %d have drifted; words that aren't explained: %d" % (count, len(missing), len(words)))
    sys.exit(1 if missing or words else 0)


main()

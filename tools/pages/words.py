#!/usr/bin/env python3
"""words.py [--over N] [PAGE..]: sees that the pages are short and their sentences plain.

Prints for each page its words, the most that it may have, and the median and the longest of its sentences. It fails on

- a page with more words than `MOST` allows, and on more than `ALL` in README.md, CHANGES.md, docs/ and packaging/ together;
- a sentence of more than 40 words, and a table's cell of more than 45;
- a word or phrase of `BANNED`.

Words of a page are counted as `wc -w` does. Blocks of code, quotes of definitions, lists that a program makes, and pictures are no sentences, and code within a
sentence counts as one word. With --over N it prints each sentence of more than N words. Its last line is 'pages: N words, M faults'."""

import glob
import os
import re
import statistics
import sys

# nothing is left beside the tools
sys.dont_write_bytecode = True
from lib import repository

ALL = 47_000
MOST = {
    "README.md": 700,
    "CHANGES.md": 840,
    "packaging/README.md": 300,
    "docs/BELIEVED.md": 1_100,
    "docs/BENCHMARKS.md": 2_300,
    "docs/CLIENT_PROMISES.md": 2_300,
    "docs/CLUSTER.md": 900,
    "docs/DECISIONS.md": 5_000,
    "docs/DESIGN.md": 4_300,
    "docs/FILE.md": 1_690,
    "docs/FORMS.md": 490,
    "docs/GATE.md": 1_900,
    "docs/HANDLE_NET.md": 1_700,
    "docs/HDL.md": 2_110,
    "docs/OPERATING.md": 4_350,
    "docs/PAGES.md": 450,
    "docs/PROMISES.md": 4_300,
    "docs/PROTOCOL.md": 3_900,
    "docs/PROXY.md": 3_400,
    "docs/THEOREM.md": 4_500,
    "docs/TOOLCHAIN.md": 1_000,
    "docs/WORDS.md": 900,
    "docs/WRONG.md": 4_600,
}
# A page of one crate's decisions.
OF_CRATE = 700
SENTENCE, CELL = 40, 45
BANNED = ("whom", "whoever", "whomever", "behind", "beside", "told", "so many", "nobody", "spelt", "of which no", "bears with", "hither", "thereof", "whereby", "lest")
BANNED_WORDS = re.compile(r"\b(?:%s)\b" % "|".join(BANNED), re.IGNORECASE)
MADE = re.compile(r"<!-- tools/pages/\w+\.py --write makes this list -->.*?<!-- the list ends -->", re.DOTALL)
BLOCK = re.compile(r"^```.*?^```$", re.MULTILINE | re.DOTALL)
ENDS = re.compile(r"(?<=[.!?])[\"')*]*\s+(?=[A-Z0-9\"'(*\[]|acme|bolt|hdl|nginx|glibc)")


def pages():
    """The pages, by their paths."""
    found = [*glob.glob(repository.path("*.md")), *glob.glob(repository.path("docs", "*.md")), *glob.glob(repository.path("packaging", "*.md")), *glob.glob(repository.path("crates", "*", "*.md"))]
    return sorted(os.path.relpath(path, repository.ROOT) for path in found)


def plain(text):
    """A line without what is no words: code counts as one, a link as its text."""
    text = re.sub(r"<(?:img|a|br)\b[^>]*>|<!--.*?-->|</\w+>", " ", text)
    text = re.sub(r"(`+)(?:(?!\1).)+\1", "CODE", text)
    text = re.sub(r"!\[[^\]]*\]\([^)]*\)", " ", text)
    text = re.sub(r"\[([^\]]*)\]\([^)]*\)", r"\1", text)
    return re.sub(r"<?https?://\S+", "ADDRESS", text)


def words(text):
    return [word for word in text.split() if re.search(r"\w", word)]


def parts(text):
    """The cells of tables, and the paragraphs, headings and items of lists, each with the number of its line."""
    text = MADE.sub(lambda found: "\n" * found[0].count("\n"), text)
    text = BLOCK.sub(lambda found: "\n" * found[0].count("\n"), text)
    cells, prose, is_open = [], [], False
    for number, line in enumerate(text.splitlines(), 1):
        if line.startswith("|"):
            cells += [(number, cell) for cell in re.split(r"(?<!\\)\|", plain(line))[1:-1]]
            is_open = False
        elif not line.strip() or line.startswith(("    ", "#", "-->")):
            is_open = False
            if line.startswith("#"):
                prose.append((number, line.lstrip("# ")))
        else:
            item = re.match(r"\s*(?:[-*]|\d+\.)\s+", line)
            if item or not is_open:
                prose.append((number, line[item.end():] if item else line))
            else:
                prose[-1] = (prose[-1][0], prose[-1][1] + " " + line.strip())
            is_open = True
    return cells, [(number, plain(it)) for number, it in prose]


def sentences(prose):
    return [(number, sentence) for number, paragraph in prose for sentence in ENDS.split(paragraph) if words(sentence)]


def most_of(page):
    return MOST.get(page, OF_CRATE if page.startswith("crates/") else 0)


def faults(page, text, over):
    cells, prose = parts(text)
    said = sentences(prose)
    for number, sentence in said:
        if len(words(sentence)) > over:
            yield "%s:%d: a sentence of %d words: %s" % (page, number, len(words(sentence)), sentence)
    for number, cell in cells:
        if len(words(cell)) > CELL:
            yield "%s:%d: a cell of %d words: %s" % (page, number, len(words(cell)), cell.strip())
    for number, part in cells + prose:
        for found in BANNED_WORDS.findall(part):
            yield "%s:%d: '%s': %s" % (page, number, found, part.strip()[:120])
    count = len(text.split())
    if count > most_of(page):
        yield "%s: %d words, and tools/pages/words.py allows it %d" % (page, count, most_of(page))


def row(page, text):
    lengths = [len(words(sentence)) for _, sentence in sentences(parts(text)[1])] or [0]
    return "%-36s %6d of %6d words   sentences: median %2d, longest %2d" % (page, len(text.split()), most_of(page), statistics.median(lengths), max(lengths))


def main(given):
    over = int(given[given.index("--over") + 1]) if "--over" in given else SENTENCE
    named = [word for word in given if word.endswith(".md")]
    texts = {page: repository.text_of(page) for page in pages() if not named or page in named or os.path.basename(page) in named}
    found = [fault for page, text in texts.items() for fault in faults(page, text, over)]
    for page, text in texts.items():
        print(row(page, text))
    whole = sum(len(text.split()) for page, text in texts.items() if not page.startswith("crates/"))
    if whole > ALL:
        found.append("the pages have %d words, and tools/pages/words.py allows %d" % (whole, ALL))
    for fault in found:
        print(fault)
    print("pages: %d words, %d faults" % (whole, len(found)))
    return 1 if found else 0


sys.exit(main(sys.argv[1:]))

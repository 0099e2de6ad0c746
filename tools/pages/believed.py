#!/usr/bin/env python3
"""believed.py [--write] [CRATE/FILE/FUNCTION..]: the definitions that a function's contract rests on, which a reader has to believe.

Without words: of `Service::run` (hdl_core/service/run) and `serve` (hdl_serve/serving/serve), with the machine that both are made of, as docs/BELIEVED.md lists them; where the page differs it
says so, and then the exit status is 1. With --write it puts the list there.

From the clauses of a function, and from the views of the types in its file and in the files that its clauses name, it follows names through the `use`
lines of specs/. It prints each file with its lines (comments and imports aside) and definitions, a file behind those that it imports. Definitions of
std and of the kit are left out; types that src/ declares are counted. It goes by names and not by the checker: a bound variable that has the name of a
definition may make the list some parts in a hundred too long."""

import glob
import re
import sys

# nothing is left beside the tools
sys.dont_write_bytecode = True
from lib import repository

# The world of a service is that of its machine, whose view stands in the file of the third.
CONTRACTS = ("hdl_core/service/run", "hdl_serve/serving/serve", "hdl_core/machine/into_service")
BEGIN, END = "<!-- tools/pages/believed.py --write makes this list -->\n", "<!-- the list ends -->\n"
START = re.compile(r"^(?:abbrev |unfoldable |opaque )?(?:pub )?(?:(?:record|data) )?(\S+)")
USE = re.compile(r"^\s*(?:ghost )?use (\S+?)(?:\.\{([^}]*)\})?(?: as (\w+))?;?$")
CLAUSE = re.compile(r"^\s*(?:ensures|requires)\*? (?:\w+ )?\{(.*)\}$")
VIEW = re.compile(r"^\s*ghost (?:Value|view|invariant) = \{(.*)\};$")
WORD = re.compile(r"[A-Za-z_][\w']*(?:\.[A-Za-z_][\w']*)*")
BEGINS = re.compile(r"(?:record|data) |\s*(?:abbrev|unfoldable|opaque|pub record|pub data) ")


def read_definitions(text):
    """The definitions of a file of specs/, each with its lines."""
    found, current = {}, None
    for line in text.splitlines():
        if BEGINS.match(line):
            current = found.setdefault(START.match(line.strip())[1], [])
        if current is not None and line.strip() and not line.startswith(("--", "use ")):
            current.append(line.split(" -- ")[0])
    return found


def imported(text):
    """What a name, and what a module's name, stands for in a file."""
    names, modules = {}, {}
    for path, listed, alias in (USE.match(line).groups() for line in text.splitlines() if USE.match(line)):
        parts = path.split(".")
        if parts[0] != "Rattle" or len(parts) < 4 or parts[2] != "specs":
            continue
        target = (parts[1], ".".join(parts[3:]))
        if listed is None:
            modules[alias or parts[-1]] = target
        for one in (listed or "").split(","):
            old, _, new = one.strip().partition(" as ")
            names[new or old] = (target, old)
    return names, modules


def bound(name, lines):
    """The variables that a definition binds."""
    found = set()
    for line in lines:
        left = re.match(r"\s*" + re.escape(name) + r"( [^=]*?)? =( |$)", line)
        if left and left[1]:
            found |= set(re.findall(r"(?<![(\w.])([a-z][\w']*)", left[1]))
        for group in re.findall(r"λ \(?([\w' ]+?)(?: :|\.)", line) + re.findall(r"\(([a-z][\w' ]*) :", line):
            found |= set(group.split())
    return found


class Believed:
    """The definitions of all crates, and those that were reached, by file."""

    def __init__(self):
        self.files, self.texts, self.reached, self.declared = {}, {}, set(), set()
        for path in glob.glob(repository.path("crates", "*", "specs", "**", "*.antt"), recursive=True):
            parts = path[len(repository.path("crates")) + 1:].split("/")
            key = (parts[0], ".".join(parts[2:])[: -len(".antt")])
            self.texts[key] = repository.text_of(path)
            self.files[key] = read_definitions(self.texts[key])

    def words(self, text, names, modules, skipped=frozenset()):
        """The definitions that a text names by what its file imports, and the plain words that it may declare itself."""
        for word in WORD.findall(text):
            first, _, rest = word.partition(".")
            if first in modules and rest:
                yield modules[first], rest.split(".")[0]
            elif first not in skipped:
                yield names.get(first, (None, first))

    def reach(self, left):
        while left:
            key, name = left.pop()
            if key[1].startswith("declared."):
                self.declared.add((key[0], key[1].split(".TheVariants")[0]))
            if (key, name) in self.reached or name not in self.files.get(key, {}):
                continue
            self.reached.add((key, name))
            lines = self.files[key][name]
            found = self.words("\n".join(lines), *imported(self.texts[key]), bound(name, lines))
            left += [(target or key, other) for target, other in found]

    def reach_contract(self, place):
        """All that the clauses of a function rest on, and the views of its file's types and of those that the clauses name."""
        crate, file, function = place.split("/")
        text = repository.text_of("crates", crate, "src", file + ".rt")
        behind = text.split("fn %s" % function, 1)[1].split("\n{", 1)[0].split("\n    {", 1)[0]
        said = [CLAUSE.match(line)[1] for line in behind.splitlines() if CLAUSE.match(line)]
        said += [VIEW.match(line)[1] for line in text.splitlines() if VIEW.match(line)]
        found = self.words("\n".join(said), *imported(text))
        self.reach([(target, name) for target, name in found if target])

    def in_order(self):
        """The files that were reached, lower crates first, and in a crate each behind those that it imports."""
        crates, keys, done = list(repository.stands_on()), {key for key, _ in self.reached}, []

        def visit(key):
            if key in done or key not in keys:
                return
            names, modules = imported(self.texts[key])
            for target in sorted({target for target, _ in names.values()} | set(modules.values())):
                if target[0] == key[0] and target != key:
                    visit(target)
            done.append(key)

        for key in sorted(keys, key=lambda it: (crates.index(it[0]), it[1])):
            visit(key)
        return done

    def rows(self):
        total = 0
        for key in self.in_order():
            names = [name for name in self.files[key] if (key, name) in self.reached]
            lines = sum(len(self.files[key][name]) for name in names)
            total += lines
            yield "| %s `%s` | %d | %s |" % (key[0], key[1].replace(".", "/"), lines, ", ".join("`%s`" % name for name in names))
        files = {key for key, _ in self.reached}
        yield "\n%d definitions, %s lines, in %d files of %d crates; they speak of %d types that the code declares." % (
            len(self.reached), format(total, ","), len(files), len({crate for crate, _ in files}), len(self.declared))


def listed(places):
    believed = Believed()
    for place in places:
        believed.reach_contract(place)
    return "| File of specs/ | Lines | Definitions |\n|---|---|---|\n%s\n" % "\n".join(believed.rows())


def main():
    places = [word for word in sys.argv[1:] if word != "--write"]
    if places:
        print(listed(places), end="")
        return 0
    table, page = listed(CONTRACTS), repository.text_of("docs", "BELIEVED.md")
    before, rest = page.split(BEGIN)
    if "--write" in sys.argv[1:]:
        page = before + BEGIN + "\n" + table + "\n" + END + rest.split(END)[1]
        with open(repository.path("docs", "BELIEVED.md"), "w", encoding="utf-8") as text:
            text.write(page)
    same = table in page
    print("what must be believed: %s%s" % (table.splitlines()[-1], "" if same else " docs/BELIEVED.md differs; tools/pages/believed.py --write"))
    return 0 if same else 1


sys.exit(main())

#!/usr/bin/env python3
"""Sees that what the pages and comments cite is there, and that docs/PROTOCOL.md has the numbers of the limits.

- `FUNCTION` (`CLAUSE`, ..) of README.md, docs/ and crates/*/DECISIONS.md: some function of that name has each clause, or its clauses speak of a record that has a field of that name.
- CRATE `NAME`, `NAME` (`CLAUSE`, ..), and `NAME` of CRATE: that crate declares each name, and its function has each clause. In docs/PROMISES.md and docs/CLIENT_PROMISES.md a name of a table
  that stands below **CRATE** is that crate's, unless its cell names another one before it.
- must-fail `NAME`, .. and wrong `NAME`, ..: a crate has an edit of that name, in must-fail/ or wrong/gate/, or in wrong/; and docs/WRONG.md names each edit so.
- vectors `NAME`, ..: crates/hdl_vectors/stdin has a group of that name, which begins with a line `# NAME: WHAT`.
- [PAGE](PAGE.md#SECTION) of a page: there is such a file, and it has such a heading.
- docs/PAGE.md, "SECTION" of crates/ and docs/: the page has a heading that begins so.
- tools/FOLDER/NAME, bench/NAME and examples/NAME, wherever they are named: there is such a file (words in capitals stand for any). Comments of crates/ may leave
  the folder out, so that a move costs no proof. A file of tools/ or bench/ that nothing names or imports is told too.
- docs/DESIGN.md, "Five ways": in the first column CRATE `FILE`, `FILE` (`FUNCTION`): the crate has a file of src/ of each name, and a function of
  each name in parentheses.
- The kit of README.md, docs/TOOLCHAIN.md and `--version` is one, and CHANGES.md has the version.
- docs/PROTOCOL.md, "Limits": each row has the number of its constant, and each number of hdl_limits' `numbers` has a row.
- What programs print of defaults and limits: each number is that of its constant (`PRINTED`).

Prints what isn't there, and then the exit status is 1."""

import glob
import os
import re
import sys

# nothing is left beside the tools
sys.dont_write_bytecode = True
from lib import repository

ROOT = repository.ROOT
NAME = r"`(?:\w+::)*(\w+)`"
LIST = r"((?:`\w+`(?:, | and )?)+)"
FUNCTION = re.compile(r"^\s*(?:pub(?:\(crate\))? )?fn (\w+)")
CLAUSE = re.compile(r"^\s*(?:ensures|requires)\*? (\w+) \{")
SAYS = re.compile(r"^\s*(?:ensures|requires)")
WORD = re.compile(r"[A-Za-z_][\w']*")
FIELD = re.compile(r"^  pub (\w+) :")
TRAIT = re.compile(r"^(?:pub )?trait (\w+)", re.MULTILINE)
TOP = re.compile(r"^(?:abbrev |unfoldable |opaque |pub |record |data )*([A-Za-z_][\w']*)")
DECLARED = re.compile(r"\b(?:fn|struct|enum|trait|type|const|static|mod) (\w+)")
IMPLEMENTED = re.compile(r"^impl(?:<.*?>)? (\w+)(?:<.*>)? for ", re.MULTILINE)
VARIANT = re.compile(r"^    (?:pub )?([A-Z]\w*)(?:[,({]| \{)", re.MULTILINE)
DEFINED = re.compile(r"^ *(?:abbrev |unfoldable |opaque )?(?:pub )?(?:record |data )?(\w[\w']*) (?::|\(|=)", re.MULTILINE)
SPAN = r"`(\w+(?:::\w+)*)`((?: \([^)]*\))?)"
CITED = re.compile(SPAN)
OF_CRATE = re.compile(r"\b(hdl_\w+|handled) ((?:`\w+(?:::\w+)*`(?: \([^)]*\))?(?! of hdl_)(?:, and |, | and )?)+)")
BEFORE_CRATE = re.compile(SPAN + r" of (hdl_\w+)")
LIMIT = re.compile(r"^    ensures \w+ \{ (\w+) ≡ (\d+) \}$", re.MULTILINE)
INPUT_LIMIT = re.compile(r"^pub const (INPUT_LIMIT): usize = ([\d_]+);$", re.MULTILINE)
PROMISES = ("docs/PROMISES.md", "docs/CLIENT_PROMISES.md")
NUMERALS = {"two": "2", "eight": "8", "ten": "10", "zehn": "10"}
OPTIONS, LISTENING, LIMITS = "crates/hdl_server_options/src/commands.rt", "crates/hdl_listeners/src/listening.rt", "crates/hdl_limits/src/lib.rt"
COMMANDS, ARGUMENTS, SITES = "crates/hdl/src/commands.rt", "crates/hdl/src/arguments.rt", "crates/hdl_commands/src/sites.rt"
PROXY, GATHERING, ADVICE, REASONS = "crates/hdl_web/src/options.rt", "crates/hdl_web/src/change_requests.rt", "crates/hdl_commands/src/advice.rt", "crates/hdl_tenants_check/src/reasons.rt"
ENGLISH, GERMAN = "crates/hdl_languages/src/english.rt", "crates/hdl_languages/src/german.rt"
# Where a default or a limit stands in a text that a program prints, and the constant that it is.
PRINTED = (
    (OPTIONS, r"client waits; (\d+) by default", LISTENING, "idle_seconds"),
    (OPTIONS, r"answers a challenge; (\d+) by default", LISTENING, "AMPLIFY_DEFAULT"),
    (OPTIONS, r"overflow lane; (\d+) by default", LISTENING, "crowd"),
    (OPTIONS, r"reads go on; (\d+) by default", LISTENING, "reserve"),
    (OPTIONS, r"read last; (\d+) by default", "crates/hdl_cachedrows/src/cached.rt", "LIMIT_DEFAULT"),
    (OPTIONS, r"etcd begin with; (\w+) by default", "crates/hdl_server_options/src/serving.rt", "CLUSTER_NAME"),
    (COMMANDS, r"server to ask; (\S+) by default", ARGUMENTS, "DEFAULT_SERVER"),
    (COMMANDS, r"rows that say none; (\d+) by default", "crates/hdl_commands/src/imports/row.rt", "DAY_SECONDS"),
    (COMMANDS, r"port of its publisher; (\d+) by default", ARGUMENTS, "DEFAULT_PORT"),
    (COMMANDS, r"number of the data, (\d+) by default", ARGUMENTS, "DEFAULT_SERIAL"),
    (PROXY, r"listen at; may be repeated; (\S+) by default", PROXY, "DEFAULT_LISTEN"),
    (PROXY, r"each address; (\d+) by default", PROXY, "DEFAULT_THREADS"),
    (PROXY, r"asked at once; (\d+) by default", PROXY, "DEFAULT_ASKERS"),
    (PROXY, r"whole answer; (\d+) by default", PROXY, "DEFAULT_TIMEOUT_SECONDS"),
    (PROXY, r"every page; (\S+) by default", PROXY, "DEFAULT_SITE"),
    (PROXY, r"a redirect at most; (\d+) by default", PROXY, "DEFAULT_REDIRECT_SECONDS"),
    (GATHERING, r"larger than (\d+) octets", GATHERING, "BODY_MOST"),
    (GATHERING, r"within (\d+) seconds", GATHERING, "BODY_SECONDS"),
    (ADVICE, r"one reply \(([\d,]+) octets\)", LIMITS, "MESSAGE_MAX"),
    (REASONS, r"the handle has ([\d,]+) values", LIMITS, "VALUES_MAX"),
    (REASONS, r"a publisher's name is 1 to (\d+)", LIMITS, "PUBLISHER_NAME_MAX"),
    (REASONS, r"LANES is a number from 2 to (\d+)", LIMITS, "LANES"),
    (REASONS, r"site information is ([\d,]+) octets", "crates/hdl_tenants/src/sites.rt", "SITE_MAX"),
    ("crates/hdl_tenants_check/src/report.rt", r"of (\d+) lanes", LIMITS, "LANES"),
    ("crates/hdl_commands/src/init.rt", r"a server has (\d+) lanes", LIMITS, "LANES"),
    ("crates/hdl_commands/src/init.rt", r"const LANES: usize = (\d+);", LIMITS, "LANES"),
    (SITES, r"public key has more than ([\d,]+) octets", SITES, "KEY_MOST"),
    ("crates/hdl_commands/src/replaces/run.rt", r"request has more than (\d+) octets", LIMITS, "MESSAGE_MAX"),
    ("crates/hdl_tables/src/copying.rt", r"each of (\d+) tries", "crates/hdl_tables/src/copying.rt", "TRIES"),
    ("crates/hdl_rest/src/mint.rt", r"All (\w+) suffixes", "crates/hdl_rest/src/mint.rt", "DRAWN_MOST"),
    ("crates/hdl_rest/src/stop.rt", r"request of more than (\d+) octets", LIMITS, "MESSAGE_MAX"),
    ("crates/hdl_rest/src/stop.rt", r"remove more than (\d+) values", LIMITS, "WRITTEN_MAX"),
    ("crates/hdl_rest/src/change_answers.rt", r"at most (\d+) values", LIMITS, "VALUES_MAX"),
    ("crates/hdl_forms/src/forms.rt", r"within (\d+) seconds", GATHERING, "BODY_SECONDS"),
    ("crates/hdl_forms/src/fault.rt", r"at most (\d+) bytes", LIMITS, "DATA_MAX"),
    ("crates/hdl_forms/src/forms.rt", r"at most (\d+) bytes", "crates/hdl_web/src/change_requests.rt", "BODY_MOST"),
    (ENGLISH, r"beyond (\w+) handles", "crates/hdl_proxy/src/step.rt", "HOPS_MOST"),
    (GERMAN, r"über (\w+) Handles", "crates/hdl_proxy/src/step.rt", "HOPS_MOST"),
)
ROW = re.compile(r"^\| [^|]* \| ([\d,]+) \| `(\w+)` \|$", re.MULTILINE)
SCRIPTS = ("check", "run", "hdl", "test", "try", ".ci/*")


def text_of(path):
    with open(path, encoding="utf-8") as text:
        return text.read()


def files(*patterns):
    found = sorted(path for pattern in patterns for path in glob.glob(pattern, recursive=True) if os.path.isfile(path))
    return [path for path in found if "/out/" not in path and "__pycache__" not in path]


class Contract:
    """The names of a function's clauses, and the words that they say."""

    def __init__(self):
        self.names, self.words = set(), set()


def contracts(*patterns):
    """The contracts of the functions of each name, as one."""
    found = {}
    for path in files(*patterns):
        current = None
        for line in text_of(path).splitlines():
            if FUNCTION.match(line):
                current = found.setdefault(FUNCTION.match(line)[1], Contract())
            elif SAYS.match(line) and current is not None:
                current.names |= set(CLAUSE.findall(line))
                current.words |= set(WORD.findall(line))
    return found


def definitions():
    """The fields of each definition that is a record, and the words that each definition says."""
    found = {}
    for path in files("crates/*/specs/*.antt"):
        current = None
        for line in text_of(path).splitlines():
            if re.match(r"[A-Za-z]", line) and not line.startswith("use "):
                current = found.setdefault(TOP.match(line)[1], (set(), set()))
            if current is not None and not line.startswith("--"):
                current[0].update(FIELD.findall(line))
                current[1].update(WORD.findall(line))
    return found


def fields_of(contract, defined):
    """The fields of the records that a contract names, or that a definition names which it names."""
    near = {word for word in contract.words if word in defined}
    near |= {word for name in near for word in defined[name][1] if word in defined}
    return {field for name in near for field in defined[name][0]}


def pages():
    """Each line of README.md, docs/, packaging/ and the crates' decisions, with its page and number."""
    for path in files("*.md", "docs/*.md", "packaging/*.md", "crates/*/*.md"):
        for number, line in enumerate(text_of(path).splitlines(), 1):
            yield path, number, line


def missing_clauses():
    of, defined = contracts("crates/*/src/**/*.rt"), definitions()
    for path, number, line in pages():
        for name, cited in re.findall(NAME + r" \(" + LIST + r"\)", line):
            for clause in re.findall(r"\w+", cited.replace(" and ", " ")):
                if name in of and clause not in of[name].names | fields_of(of[name], defined):
                    yield "%s:%d: %s has no clause %s" % (path, number, name, clause)


class Crate:
    """What a crate declares: functions with their contracts, types, constants, modules and files, variants, definitions with their fields and what it exports again."""

    def __init__(self, name):
        self.contracts = contracts("crates/%s/src/**/*.rt" % name)
        self.names, self.fields = {name}, set()
        for path in files("crates/%s/src/**/*.rt" % name):
            self.names.add(os.path.basename(path)[: -len(".rt")])
            text = text_of(path)
            self.names |= set(DECLARED.findall(text)) | set(VARIANT.findall(text)) | set(IMPLEMENTED.findall(text))
            for used in re.findall(r"^pub use ([^;]+);", text, re.MULTILINE):
                self.names |= set(re.findall(r"\w+", used))
        for path in files("crates/%s/specs/**/*.antt" % name):
            self.names |= {os.path.basename(path)[: -len(".antt")]} | set(DEFINED.findall(text_of(path)))
            self.fields |= {field for line in text_of(path).splitlines() for field in FIELD.findall(line)}
        self.names |= {os.path.basename(path).partition(".")[0] for path in files("crates/%s/proofs/**/*.antt" % name, "crates/%s/data/*" % name)}


def cited_of_crates():
    """What the pages say of a crate: page, number of the line, crate, name and clauses."""
    section = None
    for path, number, line in pages():
        if line.startswith("#"):
            section = None
        bold = re.match(r"\*\*(hdl_\w+|handled)\*\*", line)
        section = bold[1] if bold and path in PROMISES else section
        for cell in line.split("|"):
            for crate, listed in OF_CRATE.findall(cell):
                yield from ((path, number, crate, name, clauses) for name, clauses in CITED.findall(listed))
            for name, clauses, crate in BEFORE_CRATE.findall(cell):
                yield path, number, crate, name, clauses
            if section and line.startswith("|"):
                first = re.split(r"\bhdl_\w+ `", cell)[0]
                yield from ((path, number, section, name, clauses) for name, clauses in CITED.findall(first) if clauses and "of hdl_" not in cell)


def missing_names():
    crates, defined = {name: Crate(name) for name in os.listdir("crates") if os.path.isdir("crates/%s/src" % name)}, definitions()
    anywhere = contracts("crates/*/src/**/*.rt")
    traits = {trait for path in files("crates/*/src/**/*.rt") for trait in TRAIT.findall(text_of(path))}
    for path, number, crate, name, clauses in cited_of_crates():
        if crate not in crates:
            yield "%s:%d: there is no crate %s" % (path, number, crate)
            continue
        known = crates[crate].names | set(crates[crate].contracts)
        for part in name.split("::"):
            if part not in known and part not in crates:
                yield "%s:%d: %s has no %s" % (path, number, crate, part)
        *owner, method = name.split("::")
        of = crates[crate].contracts.get(method)
        if of and (not of.words or owner and owner[0] in traits):
            # a trait's method has the contract that the trait gives it
            of = anywhere[method]
        told = of.names | fields_of(of, defined) | (known - crates[crate].fields) if of else known
        for clause in set(re.findall(r"`(\w+)`", clauses)):
            if of and clause not in told:
                yield "%s:%d: %s of %s has no clause %s" % (path, number, name, crate, clause)


def missing_edits():
    for folder, places in (("must-fail", ("must-fail", "wrong/gate")), ("wrong", ("wrong",))):
        edits, named = {os.path.basename(path)[: -len(".edit")] for path in files(*("crates/*/%s/*.edit" % place for place in places))}, set()
        for path, number, line in pages():
            for cited in re.findall(r"(?<!\ba )" + folder + " " + LIST, line):
                for edit in re.findall(r"`(\w+)`", cited):
                    named |= {edit} if path == "docs/WRONG.md" else set()
                    if edit not in edits:
                        yield "%s:%d: there is no edit %s in crates/*/%s/" % (path, number, edit, folder)
        for edit in sorted(edits - named):
            yield "docs/WRONG.md doesn't name the edit %s of crates/*/%s/" % (edit, folder)


def missing_vectors():
    groups = set(re.findall(r"^# (\w+): ", text_of("crates/hdl_vectors/stdin"), re.MULTILINE))
    for path, number, line in pages():
        for cited in re.findall(r"\bvectors " + LIST, line):
            for group in set(re.findall(r"`(\w+)`", cited)) - groups - {"NAME"}:
                yield "%s:%d: there are no vectors %s" % (path, number, group)


def imported(path, line):
    """The files that a line of a program imports: those of its own folder, and of tools/lib."""
    found = {"%s/%s.py" % (os.path.dirname(path), module) for module in re.findall(r"^(?:import|from) (\w+)\b", line)}
    found |= {"tools/lib/%s.py" % module for module in re.findall(r"^from lib\.(\w+) import", line)}
    return found | {"tools/lib/%s.py" % module for modules in re.findall(r"^from lib import (.+)$", line) for module in modules.split(", ")}


def only_tool(cited):
    """A file that a comment of crates/ names as tools/NAME, in the one folder of tools/ that has it."""
    found = [path for path in files("tools/*/*") if cited == "tools/" + os.path.basename(path)]
    return found[0] if len(found) == 1 else cited


def missing_places():
    headings = {os.path.basename(path): re.findall(r"^#+ (.*)$", text_of(path), re.MULTILINE) for path in files("docs/*.md")}
    named = set()
    for path in files("*.md", "docs/*.md", "packaging/*", "crates/**/*.rt", "crates/**/*.antt", "tools/*/*", "bench/*", *SCRIPTS):
        for number, line in enumerate(text_of(path).splitlines(), 1):
            for page, section in re.findall(r'docs/(\w+\.md), "([^"]+)"', line):
                if not section.isupper() and not any(heading.startswith(section) for heading in headings.get(page, [])):
                    yield "%s:%d: docs/%s has no section %s" % (path, number, page, section)
            named |= imported(path, line)
            for cited in re.findall(r"\b((?:tools/\w+|tools|bench|examples)/[\w.-]*\w)", line):
                cited = only_tool(cited) if path.startswith("crates/") else cited
                if os.path.isfile(cited):
                    named |= {cited} if cited != path else set()
                elif not os.path.basename(cited).split(".")[0].isupper() and not os.path.isdir(cited) and not os.path.isfile(cited.rstrip("s")):
                    yield "%s:%d: there is no %s" % (path, number, cited)
    for path in files("tools/*/*", "bench/*"):
        if path not in named:
            yield "%s: nothing names it" % path


def slug(heading):
    """How a link names a heading."""
    return re.sub(r"[^\w\- ]", "", heading.lower()).replace(" ", "-")


def missing_links():
    slugs = {path: {slug(heading) for heading in re.findall(r"^#+ (.*)$", text_of(path), re.MULTILINE)} for path in files("*.md", "docs/*.md", "packaging/*.md")}
    for path, number, line in pages():
        for target, anchor in re.findall(r"\]\((?!https?:)([^)#\s]*)(?:#([^)\s]+))?\)", line):
            found = os.path.normpath(os.path.join(os.path.dirname(path), target)) if target else path
            if not os.path.exists(found):
                yield "%s:%d: there is no %s" % (path, number, target)
            elif anchor and anchor not in slugs.get(found, ()):
                yield "%s:%d: %s has no section #%s" % (path, number, found, anchor)


def missing_stations():
    page = text_of("docs/DESIGN.md").split("\n## Five ways")[1].split("\n## ")[0]
    for cell in re.findall(r"^\| ([^|]*) \|", page, re.MULTILINE):
        for crate, rest in re.findall(r"(hdl_\w+|hdl)\b(.*?)(?=\bhdl_|$)", cell):
            sources = files("crates/%s/src/**/*.rt" % crate)
            functions = {FUNCTION.match(line)[1] for path in sources for line in text_of(path).splitlines() if FUNCTION.match(line)}
            there = {os.path.basename(path)[: -len(".rt")] for path in sources}
            inside = " ".join(re.findall(r"\([^)]*\)", rest))
            outside = re.sub(r"\([^)]*\)", "", rest)
            for named, known in ((re.findall(r"`(\w+)`", outside), there), (re.findall(r"`(\w+)`", inside), functions)):
                for name in set(named) - known:
                    yield "docs/DESIGN.md, Five ways: %s has no %s" % (crate, name)


def wrong_limits():
    limits = {name: int(number) for name, number in LIMIT.findall(text_of("crates/hdl_limits/src/lib.rt"))}
    limits.update((name, int(number)) for name, number in INPUT_LIMIT.findall(text_of("crates/hdl_programs/src/input.rt")))
    rows = {name: int(number.replace(",", "")) for number, name in ROW.findall(text_of("docs/PROTOCOL.md"))}
    for name in sorted(limits.keys() | rows.keys()):
        if limits.get(name) != rows.get(name):
            yield "docs/PROTOCOL.md: %s is %s there, and %s in the code" % (name, rows.get(name), limits.get(name))


def number_of(path, name):
    """A constant's value, a number without its underscores or a text. It may be that of a limit less numbers."""
    less = re.search(r"\b%s: usize = (\w+) as usize((?: - \d+)+);$" % name, text_of(path), re.MULTILINE)
    if less:
        return str(int(number_of(LIMITS, less[1])) - sum(map(int, re.findall(r"\d+", less[2]))))
    found = re.search(r'\b%s(?:: &?\w+ =|:) ("?)((?<=")[\w.:]+|\d[\w.:]*)\1[;,]$' % name, text_of(path), re.MULTILINE)
    return found and found[2].replace("_", "")


def wrong_numbers():
    """Numbers that programs print in words of their own: each is that of its constant."""
    for path, words, where, name in PRINTED:
        printed = [number.replace(",", "") for number in re.findall(words, text_of(path))]
        number = number_of(where, name)
        if not printed or {NUMERALS.get(it, it) for it in printed} != {number}:
            yield "%s: '%s' prints %s, and %s of %s is %s" % (path, words, " and ".join(printed) or "nothing", name, where, number)


def wrong_versions():
    kits = set(re.findall(r"rattle-kit-\w+ logic \w+", text_of("README.md") + text_of("docs/TOOLCHAIN.md") + text_of("crates/hdl_programs/src/lib.rt")))
    if len(kits) != 1:
        yield "README.md, docs/TOOLCHAIN.md and VERSION of hdl_programs name %s" % " and ".join(sorted(kits))
    version = re.search(r'VERSION: &str = "(\S+) ', text_of("crates/hdl_programs/src/lib.rt"))
    if not version or "## %s" % version[1] not in text_of("CHANGES.md"):
        yield "CHANGES.md has no heading of the version of hdl_programs"


def main():
    os.chdir(ROOT)
    found = [fault for faults in (missing_clauses, missing_names, missing_edits, missing_vectors, missing_places, missing_links, missing_stations, wrong_limits, wrong_numbers, wrong_versions) for fault in faults()]
    for fault in found:
        print(fault)
    print("citations: %d faults" % len(found))
    sys.exit(1 if found else 0)


main()

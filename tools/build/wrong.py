#!/usr/bin/env python3
"""wrong.py [--all | --gate] [--jobs N] [CRATE..]: tries the wrong bodies of crates/CRATE/wrong/ and wrong/gate/, and with --all those of must-fail/ too, of these crates or of all: the check must refuse each.

The edits of a crate are tried together: one text has as many of them as change functions of their own, it is checked once, and each of these functions must be refused by a goal of its own. A caller
rests on a function's contract and not on its body, so a wrong body beside another changes nothing of its verdict. What isn't told so is tried alone, as are edits of constants and definitions. A
crate that isn't proved is proved first, and each check begins with what that kept. --jobs N tries N crates at a time, with one check of one job each, as far as there is memory for one more. With --all it notes
for tools/build/release.py which crates it tried without a failure, if no file differs from the commit.

With --gate it tries those of wrong/gate/ alone, behind `rt ci`, which has proved every crate and kept nothing of its work: so a check is of the changed functions and those that they call, and proves nothing else once more.

An edit that can't be applied, doesn't compile, or is refused only since a proof names what it took away has failed. The last line is 'N passed, M failed'."""

import argparse
import collections
import concurrent.futures
import contextlib
import functools
import glob
import os
import re
import shutil
import subprocess
import sys
import tempfile
import threading

# nothing is left beside the tools
sys.dont_write_bytecode = True
import lanes
from lib import releases, repository

PARTS = ("src", "specs", "proofs")
REFUSED = "refused"
# A goal that isn't proved, or an answer that doesn't prove one, and the place.
TOLD = re.compile(r"(?:note: )?(?:\./)?(\S+?):(\d+):\d+: .*")
# What says only that a proof names something that isn't there.
NAMES = re.compile(r"has no field|is not in scope|has no `|was not admitted")
# What says that a text can't be read, so that nothing of it was tried.
UNREAD = re.compile(r"is not in scope|has no field|is no name|operand is missing|expected the end|cannot continue")

# A function of a source: its file, the type or impl that it belongs to or "", its name, and its lines.
Function = collections.namedtuple("Function", "file owner name first last")
# What a check said: its lines, its status, and the processor seconds that it took.
Said = collections.namedtuple("Said", "lines status seconds")


class Unfit(Exception):
    """Why an edit can't be applied."""


class Memory:
    """Lets a check begin only where there is memory for it beside those that run. One alone begins at once, since nothing that runs here would make room for it."""

    def __init__(self, free):
        self.free, self.room, self.running, self.turn = free, 0.85 * free(), [], threading.Condition()

    def fits(self, bytes_needed):
        return not self.running or sum(self.running) + bytes_needed <= self.room and bytes_needed <= 0.85 * self.free()

    @contextlib.contextmanager
    def taken(self, bytes_needed):
        with self.turn:
            while not self.fits(bytes_needed):
                # others on the machine say nothing when they end
                self.turn.wait(5)
            self.running.append(bytes_needed)
        try:
            yield
        finally:
            with self.turn:
                self.running.remove(bytes_needed)
                self.turn.notify_all()


class Edit:
    """An .edit file: in its order each file that it changes, with a text and the one that goes for it."""

    def __init__(self, path):
        self.path, self.changes, file, old = path, [], "", ""
        with open(path, encoding="utf-8") as lines:
            for line in lines.read().splitlines():
                word, _, text = line.partition(":")
                text = text[1:] if text.startswith(" ") else text
                if word == "file":
                    file = text
                elif word == "old":
                    old = text
                elif word == "new":
                    self.changes.append((file, old, text))

    def applied(self, texts):
        """The crate's texts by file, as they are with the edit."""
        texts = dict(texts)
        if not self.changes:
            raise Unfit("it has no lines 'file: ', 'old: ' and 'new: '; docs/WRONG.md says how an edit is written")
        for file, old, new in self.changes:
            if file not in texts:
                raise Unfit("the crate has no file '%s'; name one below src/, specs/ or proofs/" % file)
            if not old or texts[file].count(old) != 1:
                raise Unfit("its old text stands %d times in %s; write it so that it stands there once" % (texts[file].count(old), file))
            texts[file] = texts[file].replace(old, new)
        return texts

    def functions(self, texts):
        """The functions whose bodies it changes, or None if it changes something else too. A change is within a line, so these are their lines behind it too."""
        found = {function_at(file, texts[file], texts[file].index(old)) for file, old, _ in self.changes if file.startswith("src/") and old in texts[file]}
        is_body = all(file.startswith("src/") and not re.search(r"\b(?:ensures|requires|fn|use) ", behind_head(old, new) + behind_head(new, old)) for file, old, new in self.changes)
        return found if found and is_body and None not in found else None


def behind_head(text, other):
    """A text without the head that it has in common with another one, if a body begins behind that on the same line."""
    return text[os.path.commonprefix((text, other)).rfind("{") + 1:]


def owner_at(lines, first):
    """The impl in which a function begins, as the check names it: its type, and the trait behind it. "" for a function that stands in none."""
    for line in reversed(lines[:first]):
        if line.startswith("impl"):
            head = re.sub(r"<[^<>]*>", "", re.sub(r"<[^<>]*>", "", re.sub(r"->", "", line)))
            found = re.match(r"impl (?:([\w:]+) for )?&?(?:\w+::)*(\w+)", head)
            return found[2] + (found[1] or "").rpartition(":")[2] if found else ""
        if line.startswith("}"):
            return ""
    return ""


def function_at(file, text, place):
    """The function of a source in which a place stands, or None."""
    lines, at = text.split("\n"), text[:place].count("\n")
    for first in range(at, -1, -1):
        head = re.match(r"( *)(?:pub(?:\(\w+\))? )?(?:const )?fn (\w+)", lines[first])
        if head:
            ends = (line for line in range(first, len(lines)) if lines[line].startswith(head[1] + "}") or line == first and lines[line].endswith("}"))
            last = next(ends, len(lines))
            return Function(file, owner_at(lines, first) if head[1] else "", head[2], first + 1, last + 1) if at <= last else None
    return None


def in_rounds(edits, texts):
    """The edits in rounds, each with the functions that it changes: no function is changed twice in one, and what changes something else than bodies is a round by itself."""
    rounds, alone = [], []
    for edit in edits:
        functions = edit.functions(texts)
        if functions is None:
            alone.append([(edit, set())])
            continue
        free = next((one for one in rounds if not any(functions & others for _, others in one)), None)
        if free is None:
            rounds.append(free := [])
        free.append((edit, functions))
    return rounds + alone


@functools.lru_cache(maxsize=None)
def kit():
    return lanes.kit()


def texts_of(crate):
    """All that the crate's check reads of it, by file."""
    files = [path for part in PARTS for path in glob.glob(f"{crate.folder}/{part}/**/*", recursive=True) if os.path.isfile(path)]
    return {os.path.relpath(path, crate.folder): open(path, encoding="utf-8").read() for path in files}


def path_of(function):
    """The path by which a check knows a function, below the crate."""
    return "::".join(filter(None, [*module_of(function).split("/"), function.owner, function.name]))


def module_of(function):
    return re.sub(r"^(?:src/)(?:lib|main)?|\.rt$", "", function.file)


def checked(crate, changed, only=()):
    """What a check says of the crate with these texts for its own, or of these functions alone, over a copy of what was kept of it. A check replaces files of proofs and changes none, so these are not copied but named twice."""
    with tempfile.TemporaryDirectory(prefix="wrong-") as room:
        for part in PARTS:
            if os.path.isdir(f"{crate.folder}/{part}"):
                shutil.copytree(f"{crate.folder}/{part}", f"{room}/{part}")
        for file, text in changed.items():
            with open(f"{room}/{file}", "w", encoding="utf-8") as written:
                written.write(text)
        words = [*kit().guarded(), kit().RATTLE, "check", *crate.words(["--jobs", "1"], keeps=False)]
        words += [word for function in sorted(only) for word in ("--only", path_of(function))]
        kept = f"{crate.folder}/out/incremental"
        if os.path.isdir(kept):
            shutil.copytree(kept, f"{room}/kept", copy_function=lambda one, other: (os.link if one.endswith(".oantt") else shutil.copy2)(one, other))
            words += ["--incremental", f"{room}/kept"]
        how = {"stdin": subprocess.DEVNULL, "stdout": subprocess.PIPE, "stderr": subprocess.STDOUT, "text": True, "errors": "replace"}
        with subprocess.Popen(words, cwd=room, **how) as ran:
            lines = ran.stdout.read().rstrip("\n").split("\n")
            _, status, used = os.wait4(ran.pid, 0)
            ran.returncode = os.WEXITSTATUS(status) if os.WIFEXITED(status) else -os.WTERMSIG(status)
        return Said(lines, ran.returncode, used.ru_utime + used.ru_stime)


def is_refusal(said):
    return said.status == 1 and said.lines[-1].startswith(("logic=not-proved", "only="))


def faults(said):
    """Each place where a goal isn't proved, by file and line, but where a proof only names what isn't there."""
    for line in said.lines:
        found = TOLD.fullmatch(line)
        if found and (line.startswith("note: ") or ": error" in line) and not (found[1].startswith("proofs/") and NAMES.search(line)):
            yield found[1], int(found[2])


def is_told(crate, function, said):
    """Whether a check says of this very function that it isn't proved, and of which goal of its own."""
    module = module_of(function)
    path = "::".join([crate.name, *filter(None, module.split("/"))])
    own = re.compile(r"fn %s::(?:%s\w*::)?(?:fn::)?%s(?:::\S+)?: (?:not proved|no proof: .*did not prove .*)" % (path, function.owner or "-", function.name))
    proofs = re.compile(r"proofs/%s/?(?:%s\w*/)?%s/.*" % (module, function.owner or "-", function.name))
    places = [file == function.file and function.first <= line <= function.last or proofs.fullmatch(file) for file, line in faults(said)]
    return any(places) and any(own.fullmatch(line) for line in said.lines)


def unread(said, changed):
    """The first line by which a changed text can't be read or doesn't compile, so that nothing of it was tried; or ""."""
    for line in said.lines:
        found = re.match(r"(?:\./)?(\S+?):\d+:\d+: error: (?:`[^`]*`: )?(.*)", line)
        if re.search(r"\berror\[[\w-]+\]", line) or found and found[1] in changed and UNREAD.search(re.sub(r"`[^`]*`", "", found[2])):
            return line
    return ""


def verdict(said, changed):
    """What a check's words come to for an edit that was tried alone: REFUSED, or what is wrong, and what to do."""
    named = next((line for line in said.lines if TOLD.fullmatch(line) and NAMES.search(line)), "")
    if said.status == 0:
        return "NOT REFUSED: the crate is proved with it. Strengthen the clause, or say in docs/WRONG.md why it is let through"
    if said.status == 1 and unread(said, changed):
        return "NOT TRIED: its text can't be read or doesn't compile, so write it anew: %s" % unread(said, changed)[:200]
    if is_refusal(said) and named and not list(faults(said)):
        return "REFUSED BY A NAME ALONE, which says nothing of the contract. Turn a value, and keep the names that a proof has: %s" % named[:200]
    if is_refusal(said):
        return REFUSED
    return "NO VERDICT: the check ended with status %d. Try it again, or choose a change that is refused sooner: %s" % (said.status, said.lines[-1][:200])


def told_together(crate, together, texts, check):
    """The edits of a round whose functions one check of all of them refuses, each by a goal of its own."""
    if len(together) == 1:
        return []
    try:
        said = check(functools.reduce(lambda made, one: one[0].applied(made), together, texts), set().union(*(functions for _, functions in together)))
    except Unfit:
        # one edit's text has what another one replaces
        return []
    return [edit for edit, functions in together if is_refusal(said) and all(is_told(crate, one, said) for one in functions)]


def tried(crate, edits, memory, by_function=False):
    """Tries the edits of a crate, all together as far as that tells each, and prints each verdict once it is known, and what all took. Answers how many are refused, and how many aren't."""
    texts, seen, counts = texts_of(crate), [], collections.Counter()

    def check(made, changed):
        with memory.taken(lanes.needed(crate)):
            seen.append(checked(crate, {file: text for file, text in made.items() if text != texts[file]}, changed if by_function else ()))
        return seen[-1]

    def tell(edit, what):
        counts[what == REFUSED] += 1
        print("%s: %s\n" % (edit.path, what), end="", flush=True)

    fit = []
    for edit in edits:
        try:
            edit.applied(texts)
            fit.append(edit)
        except Unfit as why:
            tell(edit, "NOT TRIED: %s" % why)
    for together in in_rounds(fit, texts):
        for edit in told_together(crate, together, texts, check):
            tell(edit, REFUSED)
            together = [one for one in together if one[0] is not edit]
        for edit, functions in together:
            tell(edit, verdict(check(edit.applied(texts), functions), {file for file, _, _ in edit.changes}))
    print("%s: %d wrong bodies, %d checks, %.0f processor seconds\n" % (crate.name, len(edits), len(seen), sum(said.seconds for said in seen)), end="", flush=True)
    return counts[True], counts[False]


def prove(names, jobs):
    """Proves what of these crates isn't, with all below them, and prints what was said if that fails. Answers 0, or the status that isn't."""
    said = []
    needed = repository.below(*names)
    status = lanes.in_lanes(repository.ROOT, needed, dict.fromkeys(needed, 1), jobs, lambda crate, line: said.append("%s: %s" % (crate, line)))
    if status:
        print("\n".join(line for line in said if not line.endswith(": proved")))
    return status


def words_of(given):
    words = argparse.ArgumentParser(prog="tools/build/wrong.py", description=__doc__.split("\n\n", maxsplit=1)[0])
    which = words.add_mutually_exclusive_group()
    which.add_argument("--all", action="store_true", help="those of must-fail/ too")
    which.add_argument("--gate", action="store_true", help="those of wrong/gate/ alone, by the functions that they change, over the libraries of `rt ci`")
    words.add_argument("--jobs", type=int, default=1, metavar="N", help="so many crates at a time")
    words.add_argument("crates", nargs="*", metavar="CRATE")
    found = words.parse_args(given)
    unknown = [name for name in found.crates if name not in repository.stands_on()]
    found.jobs = max(1, found.jobs)
    if unknown:
        words.error("crates.txt lists no crate '%s'" % unknown[0])
    return found


def main():
    os.chdir(repository.ROOT)
    words = words_of(sys.argv[1:])
    folders = ("wrong/gate",) if words.gate else ("must-fail", "wrong/gate", "wrong") if words.all else ("wrong/gate", "wrong")
    edits = {name: [Edit(path) for folder in folders for path in sorted(glob.glob(f"crates/{name}/{folder}/*.edit"))] for name in words.crates or repository.stands_on()}
    edits = {name: found for name, found in edits.items() if found}
    if not lanes.knows_kit():
        sys.exit("wrong.py: it calls inner parts of the kit, and KITS of tools/build/lanes.py doesn't list this one: see that both still hold with it, and list it there")
    if not words.gate and prove(list(edits), words.jobs):
        sys.exit("wrong.py: a crate isn't proved as it stands, so nothing was tried: mend what the lines above say first")
    crates = {crate.name: crate for crate in kit().crates_below(repository.ROOT)}
    # the largest first, so that none of them is left for the end
    order = sorted(edits, key=lambda name: -crates[name].count(rb"\n"))
    memory = Memory(lanes.free)
    with concurrent.futures.ThreadPoolExecutor(words.jobs) as pool:
        counts = list(pool.map(lambda name: tried(crates[name], edits[name], memory, words.gate), order))
    if words.all:
        releases.note_refused([name for name, (_, failed) in zip(order, counts) if not failed])
    passed, failed = (sum(column) for column in zip((0, 0), *counts))
    print("%d passed, %d failed" % (passed, failed))
    return 1 if failed else 0


if __name__ == "__main__":
    sys.exit(main())

"""examples.py [--write]: the examples and the scripts of the gate say in comments what `hdl explain` prints of their octets, and the examples are what `hdl`
makes of words.

- Of each script in examples/ and crates/hdl_scripts/data: behind a line with octets (`value`, `frame`, or a comment with what `handled` prints) stand
  comments that begin with `#:`, one for each line that `hdl explain` prints of it, and then some that begin with `#+`, one for each other line that
  `hdl explain --keys` prints. Left out are scripts whose answer names a line by its number, those that
  hdl_scripts plays line by line, and those that are about the ends of lines.
- examples/NAME.tenants is what `hdl tenants` makes of examples/NAME.words, and examples/NAME.script what `hdl script` makes of
  examples/NAME.batch, comments aside.

It runs the proved program crates/hdl/out/hdl. With --write it puts these comments and texts there. Its last line is 'N passed, M failed',
an example or a script counting one."""

import glob
import os
import re
import subprocess
import sys

# nothing is left beside the tools
sys.dont_write_bytecode = True
from lib import repository, servers

FOLDER = repository.path("examples")
SCRIPTS = repository.path("crates", "hdl_scripts")
PROGRAM = os.environ.get("HDL", repository.program("hdl"))
MARK = "#: "
KEYS_MARK = "#+ "
MADE = {".words": ("tenants", ".tenants"), ".batch": ("script", ".script")}


def said(command, text, *options):
    return subprocess.run([PROGRAM, command, *options], input=text, capture_output=True, text=True, check=True, timeout=60 * servers.SLOWER).stdout


def uncommented(line):
    return line[2:] if line.startswith("# ") else line


def has_octets(line):
    words = uncommented(line).split(" ")
    return words[0] in ("value", "frame") and len(words) > 2 or len(words) == 3 and words[1] in ("reply", "busy", "close")


def shown(lines, *options):
    """What is said of each of these lines. `hdl explain` leaves a line without octets as it is, so one of these stands between two."""
    asked = "".join("@ %d\n%s\n" % (number, uncommented(line)) for number, line in enumerate(lines))
    parts = re.split(r"^@ \d+\n", said("explain", asked, *options), flags=re.MULTILINE)[1:]
    return [part.splitlines() for part in parts]


def explained(text):
    """The script with a comment for each line that is said of its octets, in place of those that stand there."""
    kept = [line for line in text.splitlines() if not line.startswith((MARK.strip(), KEYS_MARK.strip()))]
    octets = [line for line in kept if has_octets(line)]
    comments = iter(zip(shown(octets), shown(octets, "--keys")))
    lines = []
    for line in kept:
        lines.append(line)
        if has_octets(line):
            plainly, with_keys = next(comments)
            lines += [MARK + it for it in plainly]
            lines += [KEYS_MARK + it for it in with_keys if it not in plainly]
    return "\n".join(lines) + "\n"


def scripts():
    """The scripts of the gate in which a comment changes nothing that is told."""
    played = {line.split(" ")[-1] for line in repository.text_of("crates", "hdl_scripts", "stdin").splitlines() if line.startswith(("memory", "sql"))}
    for path in sorted(glob.glob(os.path.join(SCRIPTS, "data", "*.script"))):
        name = os.path.basename(path)[: -len(".script")]
        with open(path, "rb") as script:
            is_plain = re.fullmatch(rb"[^\r]*\n", script.read())
        if is_plain and name not in played and not re.search(r"line \d+:", repository.text_of(path[: -len("script")] + "expected")):
            yield path


def plain(text):
    return [line for line in text.splitlines() if line and not line.startswith("#")]


def read(path):
    return repository.text_of(path) if os.path.exists(path) else ""


def write(path, text):
    with open(path, "w", encoding="utf-8") as it:
        it.write(text)


def differs(path, text, writes):
    """Whether a script differs from this text, or differed and was not written."""
    if writes:
        write(path, text)
    return read(path) != text


def differing(writes):
    """Each example and script, and whether it differs from what it should say."""
    for name in sorted(os.listdir(FOLDER)):
        stem, ending = os.path.splitext(os.path.join(FOLDER, name))
        if ending in MADE:
            command, made = MADE[ending]
            text = said(command, read(stem + ending))
            if writes and plain(read(stem + made)) != plain(text):
                write(stem + made, text)
            yield name, plain(read(stem + made)) != plain(text)
        if ending == ".script":
            yield name, differs(stem + ending, explained(read(stem + ending)), writes)
    for path in scripts():
        yield os.path.basename(path), differs(path, explained(read(path)), writes)


def main():
    found = list(differing("--write" in sys.argv[1:]))
    for name, is_other in found:
        if is_other:
            print("%s: it differs from what hdl says; tools/trials/examples.py --write" % name)
    failed = sum(is_other for _, is_other in found)
    print("%d passed, %d failed" % (len(found) - failed, failed))
    return 1 if failed else 0


sys.exit(main())

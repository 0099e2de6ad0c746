"""help_texts.py [--write [PROGRAM..]]: before they are built, ./handled, ./run, ./hdl and ./hdl proxy answer --help, also behind a command, and --version by the texts of tools/trials/help, and these are what
the proved programs print.

The words are started in a folder without a program: they print the program's text, end with its status, and say on standard error that it isn't built yet. With --write the texts are written anew, of
all programs or of these. Its last line is 'N passed, M failed', a text or a start counting one."""

import os
import re
import shutil
import subprocess
import sys
import tempfile

# nothing is left beside the tools
sys.dont_write_bytecode = True
from lib import repository, servers

PROGRAMS = {
    "handled": servers.HANDLED,
    "hdl": os.environ.get("HDL", repository.program("hdl")),
    "hdl_web": os.environ.get("PROXY", repository.program("hdl_web")),
}
# How each is started, and which program that is.
STARTS = {"./handled": "handled", "./run": "handled", "./hdl": "hdl", "./hdl proxy": "hdl_web"}
# Words by which the same is asked.
SHORT = {"--help": "-h", "--version": "-V"}
UNBUILT = "not built yet"


def said(words, folder=repository.ROOT):
    done = subprocess.run(words, cwd=folder, stdin=subprocess.DEVNULL, capture_output=True, text=True, check=False, timeout=60 * servers.SLOWER)
    return done.returncode, done.stdout, done.stderr


def stored(program, text):
    return repository.path("tools", "trials", "help", program, text)


def commands(program):
    """The program's commands by its help, but for `help` itself."""
    listed = re.search(r"^Commands:\n((?:  .*\n)+)", said([PROGRAMS[program], "--help"])[1], re.MULTILINE)
    return [name for name in re.findall(r"^  (\S+)", listed[1] if listed else "", re.MULTILINE) if name != "help"]


def asked(program):
    """Each text of the program, and the words for it."""
    yield "--help", ["--help"]
    yield "--version", ["--version"]
    for name in commands(program):
        yield name, [name, "--help"]


def write(programs):
    for program in programs:
        shutil.rmtree(repository.path("tools", "trials", "help", program), ignore_errors=True)
        os.makedirs(repository.path("tools", "trials", "help", program))
        for text, words in asked(program):
            with open(stored(program, text), "w", encoding="utf-8") as to:
                to.write(said([PROGRAMS[program], *words])[1])


def texts():
    """Each text, and whether the program prints it for its words; a program has no other text."""
    for program, file in PROGRAMS.items():
        folder, names = repository.path("tools", "trials", "help", program), []
        for text, words in asked(program):
            names.append(text)
            wanted = (0, repository.text_of(stored(program, text)) if os.path.exists(stored(program, text)) else None, "")
            yield "tools/trials/help/%s/%s" % (program, text), said([file, *words]) == wanted == said([file, *words[:-1], SHORT[words[-1]]])
        yield "tools/trials/help/%s has no other text" % program, os.path.isdir(folder) and sorted(os.listdir(folder)) == sorted(names)


def runs():
    """Of each program that `./test` runs for a text, whether it wants the one that is stored."""
    for program in PROGRAMS:
        args = repository.path("crates", program, "args")
        words = repository.text_of(args).split() if os.path.exists(args) else []
        if len(words) == 1 and words[0] in SHORT:
            yield "crates/%s/stdout" % program, repository.text_of("crates", program, "stdout") == repository.text_of(stored(program, words[0]))


def starts():
    """Each start of a word whose program isn't there."""
    with tempfile.TemporaryDirectory() as folder:
        shutil.copytree(repository.path("tools"), os.path.join(folder, "tools"))
        for name in ("handled", "run", "hdl", "crates.txt"):
            shutil.copy(repository.path(name), folder)
        for start, program in STARTS.items():
            first = commands(program)[:1]
            for words in (["--help"], ["-h"], ["--version"], ["-V"], *([name, "--help"] for name in first), *(["help", name] for name in first), *(["help"] for _ in first)):
                status, output, faults = said([*start.split(), *words], folder)
                good = (status, output) == (0, said([PROGRAMS[program], *words])[1]) and UNBUILT in faults and faults.count("\n") == 1
                yield "%s %s before it is built" % (start, " ".join(words)), good


def main():
    if sys.argv[1:2] == ["--write"]:
        write(sys.argv[2:] or PROGRAMS)
    return servers.tally([*texts(), *runs(), *starts()], "another text, or other words; tools/trials/help_texts.py --write writes tools/trials/help")


if __name__ == "__main__":
    sys.exit(main())

"""repository.py: the folder of the repository and what crates.txt says, for the other programs of tools/ and bench/.

A line of crates.txt that begins with '#' is the heading of a group, and stands for the crates below it up to the next one."""

import os
import shutil
import subprocess

# The folder above this one that has crates.txt.
ROOT = os.path.dirname(os.path.realpath(__file__))
while not os.path.exists(os.path.join(ROOT, "crates.txt")):
    ROOT = os.path.dirname(ROOT)


def path(*names):
    return os.path.join(ROOT, *names)


def text_of(*names):
    with open(path(*names), encoding="utf-8") as text:
        return text.read()


def program(crate):
    """Where the gate and `rt run` leave the proved program of a crate."""
    return path("crates", crate, "out", crate)


def listed(lines):
    """Of each line that lists a crate: its group's heading, the crate, what it stands on, and the line itself."""
    heading = ""
    for line in lines:
        if line.startswith("#"):
            heading = line[1:].strip()
        name, _, below = line.split("#")[0].partition(":")
        if name.strip():
            yield heading, name.split()[0], below.split(), line


def stands_on():
    """Each crate, in the order of the file, with all that it stands on, crates of the kit too."""
    return {name: below for _, name, below, _ in listed(text_of("crates.txt").splitlines())}


def stands_on_own():
    """Each crate with what it stands on in this repository."""
    crates = stands_on()
    return {name: [one for one in below if one in crates] for name, below in crates.items()}


def groups():
    """The headings, in order, each with its crates."""
    found = {}
    for heading, name, _, _ in listed(text_of("crates.txt").splitlines()):
        found.setdefault(heading, []).append(name)
    return found


def below(*names):
    """These crates with all of the repository that they stand on, in the order of the file."""
    own = stands_on_own()
    found, left = set(), list(names)
    while left:
        name = left.pop()
        if name not in found:
            found.add(name)
            left += own[name]
    return [name for name in own if name in found]


def lines_of(names):
    """The lines of crates.txt that list these crates."""
    return [line for _, name, _, line in listed(text_of("crates.txt").splitlines()) if name in names]


def lay_out(folder, crate, below_it, source):
    """A repository in a folder: a small program of one file, and the crates that it stands on with what was proved of them.

    `below_it` are the crates that the program lists, of this repository or of the kit. Answers the program's crate."""
    names = below(*(name for name in below_it if name in stands_on()))
    with open(os.path.join(folder, "crates.txt"), "w", encoding="utf-8") as lines:
        lines.write("\n".join(lines_of(names) + ["%s: %s" % (crate, " ".join(below_it))]) + "\n")
    for name in names:
        shutil.copytree(path("crates", name), os.path.join(folder, "crates", name))
    made = os.path.join(folder, "crates", crate)
    os.makedirs(os.path.join(made, "src"))
    with open(os.path.join(made, "src", "main.rt"), "w", encoding="utf-8") as program:
        program.write(source)
    subprocess.run(["git", "init", "-q", folder], check=True)
    return made

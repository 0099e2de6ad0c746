"""parts.py: the programs of a folder of tools/, which are all of its files but `lib.py`, and what each says of itself by `GATE = {..}` at its top level.

    "by_hand": True         the gate doesn't run it
    "alone": True           it measures times, takes up ports or memory, or uses every processor, so it runs behind the others
    "long": True            it is one of those that take longest, so it begins first
    "needs": ["cc"]         ./try tests leaves it out where one of these commands isn't there
    "needs_proof": "why"    it can't run over programs that aren't proved
    "leaves_out": "what"    it leaves this out over those"""

import ast
import collections
import os
import sys

# nothing is left beside the tools
sys.dont_write_bytecode = True
from lib import repository

DEFAULTS = {"by_hand": False, "alone": False, "long": False, "needs": [], "needs_proof": "", "leaves_out": ""}
# A program: its path, the words that start it, and what it says of itself.
Part = collections.namedtuple("Part", ("path", "words", *DEFAULTS))


def part(path):
    said = {}
    for line in ast.parse(repository.text_of(path)).body:
        if isinstance(line, ast.Assign) and getattr(line.targets[0], "id", None) == "GATE":
            said = ast.literal_eval(line.value)
    return Part(path, [sys.executable, path] if path.endswith(".py") else [path], **{**DEFAULTS, **said})


def of(folder):
    """The programs of a folder that the gate runs: those that take longest, and then the others by their names."""
    names = [name for name in os.listdir(repository.path("tools", folder)) if name != "lib.py" and os.path.splitext(name)[1] in ("", ".py")]
    paths = ["/".join(("tools", folder, name)) for name in sorted(names)]
    found = [part(path) for path in paths if os.path.isfile(repository.path(path))]
    return sorted((one for one in found if not one.by_hand), key=lambda one: not one.long)

"""preloaded.py: compiles the libraries here that are preloaded to refuse a program memory or the disk."""

import os
import shutil
import subprocess

from lib import repository


def library(folder, source):
    """The library of a source that lies here, by the machine's C compiler, or where there is none by the one that the toolchain has for itself."""
    made = os.path.join(folder, source + ".so")
    kit = os.path.dirname(os.path.dirname(os.path.realpath(shutil.which("rt") or "rt")))
    compiler = [shutil.which("cc")] if shutil.which("cc") else [os.path.join(kit, "toolchain", "bin", "clang"), "-fuse-ld=lld"]
    subprocess.run([*compiler, "-O2", "-shared", "-fPIC", "-nostdlib", "-fno-builtin", "-o", made, repository.path("tools", "lib", source)], check=True)
    return made

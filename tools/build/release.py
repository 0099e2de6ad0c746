"""release.py: puts together what is installed.

    tools/build/release.py [--from CLONE] [--proved] [FOLDER]   writes into FOLDER, by default out/, an archive and a Debian package of the commit that is checked out, and their sums

It takes the programs with which the gate passed for just these files, here or by --from in another clone (tools/lib/releases.py). Before a release tools/build/wrong.py tries the wrong bodies
that the gate leaves out, of each crate that changed, or stands on one that did, since they were refused; with --proved it is made without, and says which weren't tried."""

import argparse
import os
import sys

# nothing is left beside the tools
sys.dont_write_bytecode = True
from lib import releases, repository


def words_of(given):
    words = argparse.ArgumentParser(prog="tools/build/release.py", description=__doc__.split("\n\n", maxsplit=1)[0])
    words.add_argument("--from", dest="clone", metavar="CLONE", help="a clone of this repository in which the gate passed for just these files")
    words.add_argument("--proved", action="store_true", help="without trying wrong bodies: what the gate proved is enough")
    words.add_argument("folder", nargs="?", default=repository.path("out"), metavar="FOLDER", help="where it is written; out/ by default")
    return words.parse_args(given)


def main(given):
    words = words_of(given)
    clones = [repository.ROOT] + ([words.clone] if words.clone else [])
    programs = releases.passed(clones)
    if not programs:
        sys.exit("release: the gate hasn't passed for what is checked out here, or a file differs from it: commit, and run .ci/run first, or name by --from a clone in which it passed for these files")
    left = releases.untried(clones)
    if left and words.proved:
        print("release: wrong bodies of these crates weren't tried as they stand; tools/build/wrong.py --all does that: %s" % " ".join(left), file=sys.stderr)
    elif left and not releases.are_refused(left):
        sys.exit("release: tools/build/wrong.py failed, as its lines above say: mend that, commit, and run .ci/run again")
    for name in releases.release(words.folder, programs):
        print(os.path.join(words.folder, name))
    return 0


if __name__ == "__main__":
    sys.exit(main(sys.argv[1:]))

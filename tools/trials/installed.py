"""installed.py: makes a release of the programs that stand here, twice, and tries what is in it: the same octets, the programs' answers, what the gate keeps for a release, and the lines of
packaging/ that pages name. Its last line is 'N passed, M failed', a case counting one."""

import os
import re
import sys
import tarfile
import tempfile

# nothing is left beside the tools
sys.dont_write_bytecode = True
from lib import releases, repository, servers

# What the gate reads of it (tools/build/parts.py).
GATE = {"needs_proof": "only proved programs are installed"}


def answers(bin_folder):
    """Whether the programs of an unpacked folder say their version, and serve and ask what README shows."""
    handled, hdl = (os.path.join(bin_folder, name) for name in ("handled", "hdl"))
    yield "handled --version", releases.said(handled, "--version").stdout.startswith("handled %s " % releases.version())
    yield "hdl --version", releases.said(hdl, "--version").stdout.startswith("hdl %s " % releases.version())
    yield "hdl proxy --version", " %s " % releases.version() in releases.said(hdl, "proxy", "--version").stdout
    with servers.serving(servers.example, 2, handled) as (port, _):
        asked = releases.said(hdl, "resolve", "10/report-7", "--type", "URL", "--short", "--server", "127.0.0.1:%d" % port)
        yield "hdl resolve", asked.stdout == "https://example.org/report-7\n"


def ran(clone, *words):
    """What tools/build/release.py of a clone says."""
    return releases.said(sys.executable, "tools/build/release.py", *words, cwd=clone)


def committed(clone, name):
    """Writes a line more into a file of a clone, and commits that."""
    with open(os.path.join(clone, name), "a", encoding="utf-8") as file:
        file.write("\n")
    releases.git("-c", "user.name=release", "-c", "user.email=release", "commit", "-q", "-a", "-m", "Try", at=clone)


def kept_trials(room, archive):
    """What the gate kept is enough for a release: in its clone, in another one, and once its minutes are committed. For other files it is none."""
    here, other = (os.path.join(room, name) for name in ("here", "other"))
    for clone in (here, other):
        releases.git("clone", "-q", repository.ROOT, clone)
    name = os.path.basename(archive)
    yield "no release without a gate", ran(here, "--proved", "made").returncode == 1
    releases.said(sys.executable, "-c", "from lib import releases; releases.keep(releases.built(%r))" % repository.ROOT, cwd=os.path.join(here, "tools", "build"))
    for clone, words in ((here, ()), (other, ("--from", here))):
        done = ran(clone, "--proved", *words, "made")
        yield "a release of what was kept", done.returncode == 0 and releases.said("cmp", archive, os.path.join(clone, "made", name)).returncode == 0
    yield "a release says what wasn't tried", "weren't tried" in done.stderr
    committed(other, releases.MEASURED)
    yield "a release with the gate's minutes", ran(other, "--proved", "--from", here, "made").returncode == 0
    committed(other, "README.md")
    yield "no release of other files", ran(other, "--proved", "--from", here, "made").returncode == 1


def trials(room):
    first, second = os.path.join(room, "first"), os.path.join(room, "second")
    names = releases.release(first, releases.built())
    yield "the sums", releases.said("sha256sum", "--check", "--strict", "SHA256SUMS", cwd=first).returncode == 0
    releases.release(second, releases.built())
    for name in names:
        yield "the same %s twice" % name, releases.said("cmp", os.path.join(first, name), os.path.join(second, name)).returncode == 0
    with tarfile.open(os.path.join(first, names[0])) as archive:
        archive.extractall(room)
    yield from answers(os.path.join(room, "%s-%s" % (releases.PRODUCT, releases.version()), "bin"))
    if len(names) > 1:
        releases.said("dpkg-deb", "--extract", os.path.join(first, names[1]), os.path.join(room, "installed"))
        yield from answers(os.path.join(room, "installed", "usr", "bin"))
    yield from kept_trials(room, os.path.join(first, names[0]))
    named = re.findall(r"^\| `(\w+.*?[;s])` \|", repository.text_of("docs", "PROXY.md").partition("## nginx and TLS")[2], re.MULTILINE)
    yield "docs/PROXY.md names lines of %s" % releases.NGINX, len(named) > 3 and all(it in repository.text_of(*releases.NGINX.split("/")) for it in named)
    named = re.findall(r"^\| `(\w+=[^.`]*)", repository.text_of("docs", "OPERATING.md"), re.MULTILINE)
    service = repository.text_of(*releases.SERVICE.split("/"))
    yield "docs/OPERATING.md names lines of %s" % releases.SERVICE, len(named) > 3 and all(it in service for it in named if not it.startswith("Ambient"))


def tried():
    passed = failed = 0
    with tempfile.TemporaryDirectory() as room:
        for what, is_well in trials(room):
            passed, failed = passed + is_well, failed + (not is_well)
            if not is_well:
                print("installed: %s: failed" % what)
    print("%d passed, %d failed" % (passed, failed))
    return 1 if failed else 0


if __name__ == "__main__":
    sys.exit(tried())

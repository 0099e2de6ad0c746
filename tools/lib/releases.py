"""releases.py: what is installed, and the programs with which the gate passed.

An archive and a Debian package hold the programs that the gate proved and built, the pages, the licence, the examples and the files of packaging/. A gate that passes keeps its programs in the
repository's own folder, for just these files, so that a release needs no second proof. The same files and programs give the same octets: each moment in them is that of the commit."""

import glob
import gzip
import hashlib
import io
import os
import re
import shutil
import subprocess
import sys
import tarfile
import tempfile

from lib import repository

PRODUCT = "buckramjade"
PROGRAMS = {"handled": "bin/handled", "hdl": "lib/buckramjade/hdl", "hdl_web": "lib/buckramjade/hdl_web"}
SERVICE = "packaging/handled.service"
NGINX = "packaging/nginx.conf"
# Where the package puts files of packaging/, with their modes. All others are pages of it.
PLACES = {
    "hdl": ("usr/bin/hdl", 0o755),
    "copy-table": ("usr/lib/buckramjade/copy-table", 0o755),
    "handled.service": ("lib/systemd/system/handled.service", 0o644),
    "hdl-proxy.service": ("lib/systemd/system/hdl-proxy.service", 0o644),
    "handled-copy.service": ("lib/systemd/system/handled-copy.service", 0o644),
    "handled-copy.timer": ("lib/systemd/system/handled-copy.timer", 0o644),
    "logrotate": ("etc/logrotate.d/buckramjade", 0o644),
}
CONFFILES = ("etc/buckramjade/publishers.tenants", "etc/logrotate.d/buckramjade")
# In the repository's own folder: the programs with which the gate passed, by a sum of the files that it passed for, and which crates' wrong bodies were refused, by a sum of what that read.
PASSED, REFUSED = "passed", "refused"
# What the gate writes itself once it has passed.
MEASURED = "tools/build/limits.tsv"
# The programs of so many gates are kept.
KEPT = 3
TENANTS = """# Replace this by the text of your publishers: see OPERATING.md beside this package, and `hdl init`.
"""
CONTROL = """Package: {product}
Version: {version}
Architecture: amd64
Maintainer: Buckramjade maintainers <maintainers@users.noreply.buckramjade.example>
Depends: libc6
Section: net
Priority: optional
Description: local handle service with isolated publishers
 handled answers the values behind handles, for many publishers on one host;
 hdl shows and changes handles, hdl proxy redirects browsers to a handle's URL.
"""

def git(*words, at=repository.ROOT):
    return subprocess.run(["git", *words], cwd=at, capture_output=True, text=True, check=True).stdout.rstrip()


def own(what, at=repository.ROOT):
    """A place in the own folder of the repository, or of a clone."""
    return os.path.join(git("rev-parse", "--absolute-git-dir", at=at), what)


def sum_of(lines):
    return hashlib.sha256("\n".join(lines).encode()).hexdigest()


def files(others="all"):
    """Each file of the commit that is checked out, with the sum of its octets, but for what the gate measured; None where another file differs from it, or stands beside its files, or with "no" where one differs."""
    if any(line[3:] != MEASURED for line in git("status", "--porcelain", "--untracked-files=" + others).splitlines()):
        return None
    return [line for line in git("ls-tree", "-r", "HEAD").splitlines() if line.partition("\t")[2] != MEASURED]


def built(root=repository.ROOT):
    """Where the gate leaves each program."""
    return {crate: os.path.join(root, "crates", crate, "out", crate) for crate in PROGRAMS}


def keep(programs):
    """Keeps programs with which the gate passed for the files of the commit."""
    place = own(PASSED)
    folder = os.path.join(place, sum_of(files()))
    shutil.rmtree(folder + ".new", ignore_errors=True)
    os.makedirs(folder + ".new")
    for crate, program in programs.items():
        shutil.copy2(program, os.path.join(folder + ".new", crate))
    shutil.rmtree(folder, ignore_errors=True)
    os.rename(folder + ".new", folder)
    by_age = sorted((os.path.join(place, name) for name in os.listdir(place)), key=os.path.getmtime)
    for old in by_age[:-KEPT]:
        shutil.rmtree(old)


def note_passed():
    """Notes that the gate passed for what is checked out, if that is a commit's."""
    try:
        if files() is not None:
            keep(built())
    except (OSError, subprocess.CalledProcessError):
        pass


def passed(clones):
    """The programs with which the gate passed for these files in one of these clones, or None."""
    listed = files("no")
    folders = [os.path.join(own(PASSED, clone), sum_of(listed)) for clone in clones] if listed is not None else []
    folder = next(filter(os.path.isdir, folders), None)
    return {crate: os.path.join(folder, crate) for crate in PROGRAMS} if folder else None


def wrong_keys(listed):
    """Of each crate with wrong bodies a line of its name and a sum of all that trying them reads: the kit, the crate and all below it, and its edits."""
    kit = said("rt", "version").stdout
    parts = re.compile(r".*\tcrates/(\w+)/(src|specs|proofs|must-fail|wrong)/.*")
    found = [(line, *parts.fullmatch(line).groups()) for line in listed if parts.fullmatch(line)]
    keys = {}
    for crate in repository.stands_on():
        below = repository.below(crate)
        read = [line for line, name, part in found if name == crate or name in below and part in ("src", "specs", "proofs")]
        if any(name == crate and part in ("must-fail", "wrong") for _, name, part in found):
            keys[crate] = "%s %s" % (crate, sum_of([kit, *read]))
    return keys


def note_refused(crates):
    """Notes that all wrong bodies of these crates are refused, as they stand in the commit."""
    listed = files()
    keys = wrong_keys(listed) if listed is not None else {}
    with open(own(REFUSED), "a", encoding="utf-8") as lines:
        lines.write("".join(keys[crate] + "\n" for crate in crates if crate in keys))


def untried(clones):
    """The crates whose wrong bodies weren't refused as they stand, in any of these clones."""
    noted = set()
    for place in (own(REFUSED, clone) for clone in clones):
        if os.path.exists(place):
            with open(place, encoding="utf-8") as lines:
                noted |= set(lines.read().splitlines())
    return [crate for crate, key in wrong_keys(files("no")).items() if key not in noted]


def are_refused(crates):
    """Whether all wrong bodies of these crates are refused. tools/build/wrong.py notes it."""
    words = [sys.executable, "tools/build/wrong.py", "--all", "--jobs", str(len(os.sched_getaffinity(0))), *crates]
    return subprocess.run(words, cwd=repository.ROOT, check=False).returncode == 0


def version():
    return re.search(r'VERSION: &str = "(\S+) ', repository.text_of("crates", "hdl_programs", "src", "lib.rt"))[1]


def licences():
    """The licences of all crates of the kit, of which the programs have some in them: each text once, behind the names of its crates."""
    if not shutil.which("rt"):
        sys.exit("release: the kit's `rt` isn't on the PATH, and the licences of its crates go with the programs: see docs/TOOLCHAIN.md")
    crates = os.path.join(os.path.dirname(os.path.dirname(os.path.realpath(shutil.which("rt")))), "rattle")
    found = {}
    for name in sorted(glob.glob(os.path.join(crates, "*", "LICENSE*"))):
        with open(name, encoding="utf-8", errors="replace") as text:
            found.setdefault(text.read().strip(), []).append(os.path.relpath(name, crates))
    return "\n\n".join("%s\n%s\n\n%s" % ("-" * 80, "\n".join(names), text) for text, names in found.items()).encode() + b"\n"


def octets_of(*names):
    with open(repository.path(*names), "rb") as file:
        return file.read()


def pages():
    """README, the licences, the changes, and all of docs/ and examples/, by their paths."""
    names = git("ls-files", "README.md", "LICENSE", "CHANGES.md", "docs", "examples").splitlines()
    return {**{name: octets_of(name) for name in names}, "LICENSES-OF-CRATES": licences()}


def program_files(prefix, programs):
    """The programs and the word `hdl`, each with its octets and mode, under a prefix."""
    found = {prefix + place: (octets_of(programs[crate]), 0o755) for crate, place in PROGRAMS.items()}
    found[prefix + "bin/hdl"] = (octets_of("packaging/hdl"), 0o755)
    return found


def operators_files():
    """The names of packaging/."""
    return [os.path.basename(name) for name in git("ls-files", "packaging").splitlines()]


def archive_files(programs):
    found = program_files("", programs)
    found.update(("packaging/" + name, (octets_of("packaging", name), PLACES.get(name, ("", 0o644))[1])) for name in operators_files())
    found.update((name, (octets, 0o644)) for name, octets in pages().items())
    return found


def package_files(programs):
    found = program_files("usr/", programs)
    for name in operators_files():
        place, mode = PLACES.get(name, ("usr/share/doc/buckramjade/packaging/" + name, 0o644))
        found[place] = (octets_of("packaging", name), mode)
    found["etc/buckramjade/publishers.tenants"] = (TENANTS.encode(), 0o600)
    for name, octets in pages().items():
        found["usr/share/doc/buckramjade/" + re.sub(r"^docs/", "", name)] = (octets, 0o644)
    return found


def archived(contents, folder, moment):
    """A compressed archive of these files in a folder, the same octets each time."""
    made = io.BytesIO()
    with gzip.GzipFile(fileobj=made, mode="wb", mtime=moment) as packed, tarfile.open(fileobj=packed, mode="w") as archive:
        for name, (octets, mode) in sorted(contents.items()):
            entry = tarfile.TarInfo(folder + name)
            entry.size, entry.mode, entry.mtime, entry.uname, entry.gname = len(octets), mode, moment, "root", "root"
            archive.addfile(entry, io.BytesIO(octets))
    return made.getvalue()


def put(name, octets, mode):
    os.makedirs(os.path.dirname(name), exist_ok=True)
    with open(name, "wb") as file:
        file.write(octets)
    os.chmod(name, mode)


def packaged(to, programs, moment):
    """Makes the Debian package, if its tool is there: its name, or None."""
    if not shutil.which("dpkg-deb"):
        return None
    put_there = package_files(programs)
    sums = "".join("%s  %s\n" % (hashlib.md5(octets).hexdigest(), name) for name, (octets, _) in sorted(put_there.items()) if not name.startswith("etc/"))
    own = {"DEBIAN/control": CONTROL.format(product=PRODUCT, version=version()), "DEBIAN/md5sums": sums, "DEBIAN/conffiles": "".join("/%s\n" % name for name in CONFFILES)}
    name = "%s_%s_amd64.deb" % (PRODUCT, version())
    with tempfile.TemporaryDirectory() as folder:
        os.chmod(folder, 0o755)
        for place, (octets, mode) in put_there.items():
            put(os.path.join(folder, place), octets, mode)
        for place, text in own.items():
            put(os.path.join(folder, place), text.encode(), 0o644)
        subprocess.run(["dpkg-deb", "--root-owner-group", "--build", folder, os.path.join(to, name)], check=True, stdout=subprocess.DEVNULL,
                       env=dict(os.environ, SOURCE_DATE_EPOCH=str(moment)))
    return name


def release(to, programs):
    """Writes all into a folder, with these programs, and answers the names."""
    os.makedirs(to, exist_ok=True)
    moment = int(git("log", "-1", "--format=%ct"))
    folder = "%s-%s" % (PRODUCT, version())
    names = [folder + "-linux-x86_64.tar.gz"]
    put(os.path.join(to, names[0]), archived(archive_files(programs), folder + "/", moment), 0o644)
    package = packaged(to, programs, moment)
    names += [package] if package else []
    sums = ""
    for name in names:
        with open(os.path.join(to, name), "rb") as file:
            sums += "%s  %s\n" % (hashlib.sha256(file.read()).hexdigest(), name)
    put(os.path.join(to, "SHA256SUMS"), sums.encode(), 0o644)
    return names


def said(*words, **how):
    return subprocess.run(words, capture_output=True, text=True, check=False, **how)

"""copies.py [SECONDS]: tries `handled copy` over the program crates/handled/out/handled, for so many seconds (5).

Clients change handles without a pause, each by rising numbers, while copies of the table's file are made. Each copy must be whole by sqlite3's own checks, and have of each client the handles
as they were after one of its changes: not before the last one that was answered as the copy began, and not behind the last one that was asked as it ended. Then one case each: a file that no server has open, what is there
already, what isn't there. Last `handled restore`: a copy in the place of the file of a server, which runs as another user where root tries, and what is refused. Its last line is 'N passed, M failed', a case counting one."""

import contextlib
import itertools
import os
import shutil
import socket
import sqlite3
import struct
import subprocess
import sys
import tempfile
import threading
import time

# nothing is left beside the tools
sys.dont_write_bytecode = True
from lib import publisher, servers, wire

SECONDS = 5
# a user who owns nothing here
OTHER = 65534
CLIENTS, HANDLES = 3, 5


def named(client, place):
    return b"10/%d-%d" % (client, place)


def numbered(number):
    """A value that anybody changes, so that each change is one request; of a few hundred octets, so that the log grows."""
    return wire.value(1, b"URL", b"%d " % number + b"x" * 300, 0x0F, 86400)


def tenants(*ports):
    rows = [(named(client, place), value) for client in range(CLIENTS) for place in range(HANDLES) for value in (publisher.ADMINISTRATOR, numbered(0))]
    return publisher.tenants(*ports, more=rows, lanes=CLIENTS + 2)


class Writer(threading.Thread):
    """A client that changes its handles in turn, by rising numbers from 1 on."""

    def __init__(self, client, port):
        super().__init__()
        self.client, self.port = client, port
        self.asked = self.answered = 0
        self.ends, self.fault = False, None

    def run(self):
        try:
            with socket.create_connection(("127.0.0.1", self.port), 30) as stream:
                while not self.ends:
                    self.asked += 1
                    handle = named(self.client, self.asked % HANDLES)
                    message = wire.message(wire.MODIFY, wire.string(handle) + wire.listed([numbered(self.asked)]))
                    stream.sendall(wire.frame(message, 0, self.asked))
                    reply = stream.recv(4096)
                    if struct.unpack(">I", reply[24:28])[0] != wire.SUCCESS:
                        raise ValueError("code of change %d" % self.asked)
                    self.answered = self.asked
        except (OSError, ValueError, struct.error) as fault:
            self.fault = fault


def copy(file, to):
    return subprocess.run([servers.HANDLED, "copy", "--table", file, "--to", to], stdin=subprocess.DEVNULL, stdout=subprocess.PIPE, stderr=subprocess.PIPE)


def numbers_of(file, ports):
    """The number of each handle of each client in a copy, by `handled export`; None where it isn't one."""
    done = subprocess.run([servers.HANDLED, "export", "--table", file], input=tenants(*ports), stdout=subprocess.PIPE, stderr=subprocess.PIPE)
    if done.returncode != 0:
        return None
    found = {}
    for line in done.stdout.decode().splitlines():
        word, *rest = line.split(" ")
        if word == "value" and rest[0].startswith("10/"):
            octets = bytes.fromhex(rest[1])
            if octets[:4] == wire.number(1):
                length = struct.unpack(">I", octets[11:15])[0]
                found[rest[0]] = int(octets[15:15 + length].split(b" ")[0])
    return found


def is_sound(file):
    with contextlib.closing(sqlite3.connect(file)) as database:
        whole = database.execute("PRAGMA integrity_check").fetchall() == [("ok",)]
        return whole and not database.execute("PRAGMA foreign_key_check").fetchall()


def is_between(found, client, least, most):
    """Whether the handles of a client are as they were after one of its changes from `least` to `most`."""
    own = [found.get(named(client, place).decode(), -1) for place in range(HANDLES)]
    last = max(own)
    expected = [max([0] + [number for number in range(max(last - HANDLES, 0), last + 1) if number % HANDLES == place and number > 0]) for place in range(HANDLES)]
    return least <= last <= most and own == expected


def under_changes(folder, seconds):
    file = os.path.join(folder, "table.db")
    process, ports = servers.serve(tenants, 1, options=("--table", file))
    writers = [Writer(client, ports[0]) for client in range(CLIENTS)]
    for writer in writers:
        writer.start()
    made, refused, until = 0, 0, time.monotonic() + seconds
    while time.monotonic() < until:
        to = os.path.join(folder, "copy-%d.db" % made)
        before = [writer.answered for writer in writers]
        done = copy(file, to)
        after = [writer.asked for writer in writers]
        if done.returncode != 0 and b"at each try" in done.stderr:
            refused += 1
            for name in (to, to + "-wal"):
                os.remove(name)
            continue
        found = numbers_of(to, ports) if done.returncode == 0 else None
        holds = found is not None and is_sound(to) and all(is_between(found, writer.client, least, most) for writer, least, most in zip(writers, before, after))
        if not holds:
            print("copy %d: status %d, %s, from %s to %s: %s" % (made, done.returncode, done.stderr.decode().strip(), before, after, found))
            yield "a copy under changes", False
        made += 1
        for name in (to, to + "-wal"):
            with contextlib.suppress(FileNotFoundError):
                os.remove(name)
    for writer in writers:
        writer.ends = True
    for writer in writers:
        writer.join()
    print("copies: %d, refused under changes: %d, changes: %d" % (made, refused, sum(writer.answered for writer in writers)))
    yield "the server goes on", all(writer.fault is None and writer.answered > 0 for writer in writers)
    yield "copies under changes", made > 0
    to = os.path.join(folder, "last.db")
    done = copy(file, to)
    yield "a copy without changes", (done.returncode, done.stdout, done.stderr) == (0, b"", b"") and all(is_between(numbers_of(to, ports) or {}, writer.client, writer.answered, writer.answered) for writer in writers)
    yield "a copy is its user's alone", os.stat(to).st_mode & 0o777 == 0o600
    servers.end(process)
    yield from single(folder, file, to, ports)


def single(folder, file, copied, ports):
    """Of a file that no server has open; onto one that is there; of none."""
    again = os.path.join(folder, "again.db")
    done = copy(file, again)
    yield "a copy of a closed file", done.returncode == 0 and numbers_of(again, ports) == numbers_of(copied, ports)
    with open(copied, "rb") as octets:
        before = octets.read()
    done = copy(file, copied)
    with open(copied, "rb") as octets:
        yield "what is there stays", (done.returncode, done.stderr[:28], octets.read() == before) == (4, b"copy: there is a file at the", True)
    text, new = os.path.join(folder, "publishers.tenants"), os.path.join(folder, "text.db")
    with open(text, "wb") as made:
        made.write(tenants(*ports))
    done = copy(text, new)
    yield "a file that is no database", (done.returncode, done.stderr) == (4, b"copy: the file of --table is no SQLite database: check its path\n") and not any(os.path.exists(path) for path in (new, new + "-wal"))
    done = copy(os.path.join(folder, "none.db"), os.path.join(folder, "new.db"))
    yield "no file", (done.returncode, done.stderr[:36], os.path.exists(os.path.join(folder, "new.db"))) == (4, b"copy: the table's file can't be read", False)
    done = copy(file, os.path.join(folder, "none", "new.db"))
    yield "no folder", (done.returncode, done.stderr) == (4, b"copy: the folder of --to isn't there: make it, or name another path\n")


def restore(copied, file, **user):
    return subprocess.run([servers.HANDLED, "restore", "--from", copied, "--table", file], stdin=subprocess.DEVNULL, stdout=subprocess.PIPE, stderr=subprocess.PIPE, **user)


def changed(port, number):
    """Changes the first handle of the first client."""
    with servers.Client(port) as client:
        return client.modify(named(0, 0), [numbered(number)]) == wire.SUCCESS


def number_in(port):
    with servers.Client(port) as client:
        return int(client.asked(wire.resolution(named(0, 0)))[1].split(b"URL")[1][4:].split(b" ")[0])


def owner_and_mode(path):
    found = os.stat(path)
    return found.st_uid, found.st_gid, found.st_mode & 0o777


def restored(folder):
    """A copy in the place of a table's file, over which a server of another user starts."""
    user = {"user": OTHER, "group": OTHER, "extra_groups": []} if servers.can_be(OTHER) else {}
    own, link = os.path.join(folder, "own"), os.path.join(folder, "link.db")
    os.mkdir(own, 0o700)
    os.chmod(folder, 0o755)
    if user:
        os.chown(own, OTHER, OTHER)
    file, copied = os.path.join(own, "table.db"), os.path.join(folder, "kept.db")
    os.symlink(file, link)
    process, ports = servers.serve(tenants, 1, options=("--table", file, "--sums"), **user)
    yield "a change", changed(ports[0], 1)
    yield "a copy by a link has what is in the log", copy(link, copied).returncode == 0
    yield "a change after the copy", changed(ports[0], 2)
    done = restore(copied, file)
    yield "a restore under a server", (done.returncode, done.stderr[:14], b"handled stop --control" in done.stderr) == (4, b"table: in use:", True) and number_in(ports[0]) == 2
    process.kill()
    process.wait()
    process.stdout.close()
    modes = owner_and_mode(file)
    done = restore(copied, file)
    yield "a restore", (done.returncode, done.stdout, done.stderr) == (0, b"", b"")
    yield "it has the owner and the mode of what it replaces, and no log is left", owner_and_mode(file) == modes and os.listdir(own) == ["table.db"]
    process, ports = servers.serve(tenants, 1, options=("--table", file), **user)
    yield "a server of that user goes on from the copy", number_in(ports[0]) == 1 and changed(ports[0], 3)
    servers.end(process)
    alone = os.path.join(folder, "alone.db")
    shutil.copy(file, alone)
    done = restore(alone, file)
    yield "a table's file without its log is no copy", done.returncode == 4 and done.stderr.startswith(b"restore: the copy isn't taken, and the table stays as it is: the log is gone: ")
    if user:
        os.chown(file, 0, 0)
        yield "a file of root's in another user's folder", restore(copied, file).returncode == 0 and owner_and_mode(file) == modes
        done = restore(copied, os.path.join(folder, "other.db"), **user)
        yield "a copy that another user has", done.returncode == 4 and done.stderr.startswith(b"restore: the copy can't be read: ")
        for one in (copied, copied + "-wal"):
            os.chown(one, OTHER, OTHER)
        done = restore(copied, os.path.join(folder, "other.db"), **user)
        yield "another user's folder", done.returncode == 4 and done.stderr.startswith(b"restore: the copy can't be put in its place: ")
    new = os.path.join(folder, "anew.db")
    yield "a restore where no file is", restore(copied, new).returncode == 0 and owner_and_mode(new) == (os.getuid(), os.getgid(), 0o600)
    yield from unrestored(folder, copied, new)


def unrestored(folder, copied, file):
    """What is no copy of a table is refused; the file stays as it was, and nothing is left in its folder."""
    with open(copied, "rb") as octets, open(file, "rb") as old:
        whole, before = octets.read(), old.read()
    bad = os.path.join(folder, "bad.db")

    def refused(done, said):
        with open(file, "rb") as now:
            return done.returncode == 4 and done.stderr.startswith(said) and now.read() == before

    damaged, foreign = b"it is not a SQLite database, or a page", b"it is a SQLite database, but not one of this program"
    for name, octets, said in (("a copy that was cut", whole[:5000], damaged), ("an empty copy", b"", foreign), ("a changed bit", whole[:9000] + bytes([whole[9000] ^ 1]) + whole[9001:], damaged)):
        with open(bad, "wb") as made:
            made.write(octets)
        yield name, refused(restore(bad, file), b"restore: the copy isn't taken, and the table stays as it is: " + said)
        yield name + " leaves nothing", not any(left.startswith("anew.db.") for left in os.listdir(folder))
    done = restore(file, os.path.join(folder, ".", os.path.basename(file)))
    yield "one file twice", (done.returncode, done.stdout, done.stderr) == (2, b"", b"restore: --from and --table name one file: name the copy, and the table's file\n")
    yield "no copy", refused(restore(os.path.join(folder, "none.db"), file), b"restore: the copy can't be read: ")
    nowhere = os.path.join(folder, "nowhere")
    done = restore(copied, os.path.join(nowhere, "table.db"))
    yield "no folder for the table", (done.returncode, done.stderr.decode()) == (4, "restore: the folder of --table can't be read: it isn't there: make it, or check the path\n")
    yield "a folder as the table", refused(restore(copied, folder), b"table: cannot open: at the path is a folder")
    with open(file + ".restored", "wb") as left:
        left.write(b"kept")
    yield "what another restore left", refused(restore(copied, file), b"restore: a restore that was ended left files")
    with open(file + ".restored", "rb") as left:
        yield "what was left stays", left.read() == b"kept"


def main():
    seconds = float(sys.argv[1]) if len(sys.argv) > 1 else SECONDS
    with tempfile.TemporaryDirectory() as folder, tempfile.TemporaryDirectory() as other:
        return servers.tally(itertools.chain(under_changes(folder, seconds), restored(other)))


sys.exit(main())

"""kills.py [ROUNDS [SEED]]: tries a table that lasts, over the proved program crates/handled/out/handled.

It kills the server at random moments under writes of three clients, ROUNDS times (20), and starts it again over the same file: every change that was
answered must be there, and of each that was in flight the whole or nothing. Then one case each: a text's handles are opened once; a file and its log are their owner's
alone; what is written is the file that was named, and no other; a server with `--read-only` changes nothing; what a script prints over a file is what it prints in memory; a table that sqlite3 made is loaded; and files that are no table, are another
one's, have an unsound row, of which each kind is told, or can't be opened are refused in words, with status 4, and left as they were. sqlite3's own checks look at the files, by Python's module over SQLite
3.37 or later. Its last line is 'N passed, M failed'."""

import contextlib
import glob
import hashlib
import os
import random
import shutil
import sqlite3
import stat
import subprocess
import sys
import tempfile
import threading
import time

# nothing is left beside the tools
sys.dont_write_bytecode = True
from lib import publisher, repository, servers, wire

# What the gate reads of it (tools/build/parts.py).
GATE = {"long": True}
ROUNDS, SEED = 20, 1
CLIENTS = 3
# How many handles a round looks at; the last one looks at all.
LOOKED = 200
# A user who owns nothing here.
OTHER = 65534


# The three tables, as a file has them.
TABLES = """
CREATE TABLE handles (name BLOB NOT NULL PRIMARY KEY, authority BLOB NOT NULL) STRICT;
CREATE TABLE entries (name BLOB NOT NULL REFERENCES handles (name) ON DELETE CASCADE, idx INTEGER NOT NULL, kind BLOB NOT NULL, bytes BLOB NOT NULL, ttl BLOB NOT NULL, perm INTEGER NOT NULL,
    stamp BLOB NOT NULL, refs BLOB NOT NULL, PRIMARY KEY (name, idx)) STRICT;
CREATE TABLE opened (name BLOB NOT NULL PRIMARY KEY) STRICT;"""
PUT_HANDLE = "INSERT INTO handles (name, authority) VALUES (?, ?)"
PUT_VALUE = "INSERT INTO entries (name, idx, kind, bytes, ttl, perm, stamp, refs) VALUES (?, ?, ?, ?, ?, ?, ?, ?)"
# Sound rows: a handle with two values, and one with none.
HANDLES = [(b"10/x", b"10"), (b"10/y", b"10")]
VALUES = [(b"10/x", index, b"URL", data, b"\0" + wire.number(3600), 0x0E, bytes(8), bytes(4)) for index, data in ((7, b"seven"), (2, b"two"))]
# What is said of an unsound row.
CELL, NAME = b"a row of the database has a cell that can't be read", b"a row of the database has a name that is no handle in canonical form"
AUTHORITY, ORDER = b"a row of the database has another authority than its handle", b"the rows of the database are out of order"
# What makes the rows unsound, with what is said then.
UNSOUND = {
    "a name in another case": (NAME, PUT_HANDLE, b"10.ABC/x", b"10.abc"),
    "a name without a slash": (NAME, PUT_HANDLE, b"10.abc", b"10.abc"),
    "another authority": (AUTHORITY, PUT_HANDLE, b"10.abc/z", b"10.abd"),
    "a negative rowid": (ORDER, "INSERT INTO handles (rowid, name, authority) VALUES (-1, ?, ?)", b"10/z", b"10"),
    "an index below 0": (CELL, "UPDATE entries SET idx = -1 WHERE idx = 2"),
    "an index of 33 bits": (CELL, "UPDATE entries SET idx = idx + 4294967296"),
    "a TTL of four octets": (CELL, "UPDATE entries SET ttl = ?", wire.number(3600)),
    "a permission of nine bits": (CELL, "UPDATE entries SET perm = 256 WHERE idx = 7"),
    "a moment of seven octets": (CELL, "UPDATE entries SET stamp = ?", bytes(7)),
    "references that are cut": (CELL, "UPDATE entries SET refs = ? WHERE idx = 2", wire.number(1)),
}


# ---- kills

class Trial:
    """What is known of each handle: the last answered data, and that of a change in flight."""

    def __init__(self, seed):
        self.seed = seed
        self.known, self.doubt, self.lock, self.faults, self.answered = {}, {}, threading.Lock(), [], 0

    def write(self, name, port, chance):
        made = []
        with contextlib.suppress(OSError):
            client = publisher.Client(port)
            while True:
                act = chance.random()
                if act < 0.6 or not made:
                    handle, data, change = b"10/%s-%d" % (name, len(made) + chance.randrange(1 << 40)), b"first" + b"x" * chance.randrange(300), client.create
                elif act < 0.85:
                    handle, data, change = chance.choice(made), b"second" + b"y" * chance.randrange(300), client.modify
                else:
                    handle, data, change = chance.choice(made), None, client.delete
                with self.lock:
                    self.doubt[handle] = data
                code = change(handle) if data is None else change(handle, data)
                with self.lock:
                    del self.doubt[handle]
                    self.known[handle] = data
                    self.answered += 1
                    if code != wire.SUCCESS:
                        self.faults.append("code %d for %s" % (code, handle))
                if change == client.create:
                    made.append(handle)
                elif data is None:
                    made.remove(handle)

    def compare(self, port, count):
        client, doubt = publisher.Client(port), self.doubt
        self.doubt = {}
        handles = list(doubt) + random.sample(list(self.known), min(count, len(self.known)))
        for handle in handles:
            found, allowed = client.data_of(handle), {self.known.get(handle), doubt.get(handle, self.known.get(handle))}
            if found not in allowed:
                self.faults.append("%s has %s and not %s" % (handle, found, allowed))
            self.known[handle] = found

    def round(self, number, file):
        with publisher.served(file) as port:
            self.compare(port, LOOKED)
            writers = [threading.Thread(target=self.write, args=(b"%d-%d" % (number, k), port, random.Random(self.seed * 100000 + number * 10 + k))) for k in range(CLIENTS)]
            for writer in writers:
                writer.start()
            time.sleep(random.uniform(0.02, 0.6))
        for writer in writers:
            writer.join()


def kills(folder, rounds, seed):
    random.seed(seed)
    trial, file = Trial(seed), os.path.join(folder, "kills.db")
    for number in range(rounds):
        trial.round(number, file)
        if number % 5 == 0 and not publisher.is_sound(file):
            trial.faults.append("sqlite3 finds round %d unsound" % number)
    with publisher.served(file) as port:
        trial.compare(port, len(trial.known))
    for fault in trial.faults:
        print("kill: %s" % fault)
    print("kills: %d rounds, %d changes answered, %d handles" % (rounds, trial.answered, len(trial.known)))
    return [not trial.faults and trial.answered > 0]


# ---- single cases

def opened_once(folder):
    """A handle of the text that a client deleted isn't opened again; one that the text has since is; one that was changed stays so."""
    file = os.path.join(folder, "opened.db")
    gone, kept, later = (b"10/%s" % name for name in (b"gone", b"kept", b"later"))

    def text(handles):
        rows = [(handle, value) for handle in handles for value in (publisher.ADMINISTRATOR, publisher.url(b"from the text"))]
        return lambda *ports: publisher.tenants(*ports, more=rows)

    with publisher.served(file, text=text([gone, kept])) as port:
        client = publisher.Client(port)
        first = client.data_of(gone) == b"from the text" and client.delete(gone) == client.modify(kept, b"changed") == wire.SUCCESS
    with publisher.served(file, text=text([gone, kept, later])) as port:
        client = publisher.Client(port)
        found = [client.data_of(handle) for handle in (gone, kept, later)]
    return [first and found == [None, b"changed", b"from the text"]]


def private(folder):
    """The file and its log are their owner's alone, whatever the mask of the process lets others have."""
    file = os.path.join(folder, "private.db")
    with publisher.served(file, preexec_fn=lambda: os.umask(0)) as port:
        changed = publisher.Client(port).create(b"10/private", b"kept") == wire.SUCCESS
        modes = {name: stat.S_IMODE(os.stat(name).st_mode) for name in glob.glob(file + "*")}
    return [changed and modes == {file: 0o600, file + "-wal": 0o600}]


def named(folder):
    """What is written is the file that was named: a server over a copy of it alone finds the change, and neither its folder nor the server's has any other file."""
    own, working, copies = (os.path.join(folder, name) for name in ("named", "working", "copies"))
    for one in (own, working, copies):
        os.mkdir(one)
    file, copy = os.path.join(own, "acme's table"), os.path.join(copies, "copy.db")
    with publisher.served(file, cwd=working) as port:
        changed = publisher.Client(port).create(b"10/named", b"kept") == wire.SUCCESS
        files = [sorted(os.listdir(one)) for one in (own, working)]
    publisher.copied(file, copy)
    shutil.rmtree(own)
    with publisher.served(copy) as port:
        found = publisher.Client(port).data_of(b"10/named")
    return [changed and found == b"kept", files == [["acme's table", "acme's table-wal"], []]]


def contents(file):
    """The rows of the file and its log, as they lie."""
    copy = file + ".read"
    publisher.copied(file, copy)
    with contextlib.closing(sqlite3.connect(copy)) as database:
        return [database.execute("SELECT * FROM %s ORDER BY 1, 2" % name).fetchall() for name in ("handles", "entries")]


def standby(folder):
    """A server that takes no changes answers what is there, and each change at once that it does no such thing, also with the right key; its rows stay."""
    file = os.path.join(folder, "standby.db")
    with publisher.served(file) as port:
        there = publisher.Client(port).create(b"10/there", b"kept") == wire.SUCCESS
    before = contents(file)
    with publisher.served(file, more=["--read-only"]) as port:
        client = publisher.Client(port)
        codes = [client.create(b"10/new", b"never"), client.modify(b"10/there", b"never"), client.delete(b"10/there")]
        session, reply = client.send(wire.message(wire.DELETE, wire.string(b"10/there")))
        found = [client.data_of(handle) for handle in (b"10/there", b"10/new")]
    at_once = reply[4:8] == wire.number(wire.OPERATION_DENIED)
    missing = refused(os.path.join(folder, "missing.db"), b"cannot open: the file isn't there", more=["--read-only"])
    return [there, codes == [wire.OPERATION_DENIED] * 3, at_once, found == [b"kept", None], contents(file) == before, missing]


def run(words, text, **user):
    try:
        ended = subprocess.run([servers.HANDLED, *words], input=text, capture_output=True, timeout=60 * servers.SLOWER, check=False, **user)
    except subprocess.TimeoutExpired:
        return -1, b"", b"it didn't end"
    return ended.returncode, ended.stdout, ended.stderr


def scripts(folder):
    """What `replay` prints, and its status, over a new file and in memory."""
    found = []
    for number, name in enumerate(sorted(glob.glob(repository.path("examples", "*.script")))):
        with open(name, "rb") as script:
            text = script.read()
        found.append(run(["replay"], text) == run(["replay", "--table", os.path.join(folder, "script%d.db" % number)], text))
    return found


def sum_of(file):
    with open(file, "rb") as octets:
        return hashlib.sha256(octets.read()).digest()


def refused(file, line, more=(), **user):
    """Whether a start over this file says so with status 4, prints nothing, and leaves the file as it was."""
    before = sum_of(file) if os.path.isfile(file) else None
    status, said, fault = run(["serve", "--table", file, *more], publisher.tenants(servers.free_ports(1)[0]), **user)
    after = sum_of(file) if os.path.isfile(file) else None
    good = status == 4 and not said and fault.startswith(b"table: " + line) and before == after
    if not good:
        print("refused: %s: %d %r %r" % (file, status, said, fault))
    return good


def table(folder, name, statement="SELECT 1"):
    """A copy of a table as this program makes it, without sums, after a statement of sqlite3, which needs no log."""
    file = os.path.join(folder, name)
    with publisher.served(file + ".served", more=("--no-sums",)):
        pass
    run(["copy", "--table", file + ".served", "--to", file], b"")
    with contextlib.closing(sqlite3.connect(file)) as database:
        database.execute(statement)
        database.commit()
    return file


def made_by_sqlite(folder, name, statement="SELECT 1", *cells):
    """A table with the sound rows that sqlite3 made, after a statement."""
    file = os.path.join(folder, name)
    with contextlib.closing(sqlite3.connect(file)) as database:
        database.executescript(TABLES)
        database.executemany(PUT_HANDLE, HANDLES)
        database.executemany(PUT_VALUE, VALUES)
        database.execute(statement, cells)
        database.commit()
    return file


def loaded(folder):
    """Rows that were there already, by whomever they were put: a handle's values, and the names of handles."""
    values = [wire.value(index, b"URL", data, 0x0E, 3600) for _, index, _, data, *_ in sorted(VALUES)]
    with publisher.served(made_by_sqlite(folder, "sound.db")) as port:
        client = publisher.Client(port)
        found = [client.asked(wire.resolution(b"10/x")), client.asked(wire.message(wire.LIST, wire.string(b"0.NA/10")))]
    return [found[0] == (wire.SUCCESS, wire.string(b"10/x") + wire.listed(values)), found[1] == (wire.SUCCESS, wire.listed(wire.string(name) for name, _ in HANDLES))]


def unsound(folder):
    return [refused(made_by_sqlite(folder, "%s.db" % name, *made), b"unsound row: %s; correct the row, or restore a copy" % said) for name, (said, *made) in UNSOUND.items()]


def faults(folder):
    noise, foreign, cut = (os.path.join(folder, name) for name in ("noise.db", "foreign.db", "cut.db"))
    with open(noise, "wb") as octets:
        octets.write(random.Random(SEED).getrandbits(160_000).to_bytes(20_000, "big"))
    with contextlib.closing(sqlite3.connect(foreign)) as database:
        database.execute("CREATE TABLE books (name TEXT)")
        database.commit()
    with open(table(folder, "whole.db"), "rb") as octets, open(cut, "wb") as shorter:
        shorter.write(octets.read()[:9000])
    used = os.path.join(folder, "used.db")
    with publisher.served(used):
        in_use = refused(used, b"in use")
    return [
        in_use,
        refused(noise, b"damaged"),
        refused(cut, b"damaged"),
        refused(made_by_sqlite(folder, "orphan.db", "UPDATE entries SET name = ? WHERE idx = 2", b"10/z"), b"damaged"),
        refused(foreign, b"another layout"),
        refused(table(folder, "index.db", "CREATE INDEX more ON entries (idx)"), b"another layout"),
        refused(folder, b"cannot open: at the path is a folder"),
        refused(os.path.join(folder, "none", "table.db"), b"cannot open: the file isn't there, nor is its folder"),
        refused(":memory:", b"cannot open: the path names no file"),
        refused(linked(folder), b"cannot open: the file has 2 names"),
        refused(beside_a_link(folder), b"cannot open: the log, at the file's path with -wal at the end, is a link"),
        refused(with_a_journal(folder), b"cannot open: SQLite left a journal"),
        *not_permitted(folder),
    ]


def linked(folder):
    """A file that has a second name."""
    file = table(folder, "names.db")
    os.link(file, file + ".too")
    return file


def beside_a_link(folder):
    """A file whose log is a link."""
    file = table(folder, "link.db")
    with contextlib.suppress(FileNotFoundError):
        os.remove(file + "-wal")
    os.symlink("elsewhere", file + "-wal")
    return file


def with_a_journal(folder):
    """A file with what SQLite leaves of a change that was cut off."""
    file = table(folder, "journal.db")
    with open(file + "-journal", "wb") as octets:
        octets.write(b"\xd9\xd5\x05\xf9\x20\xa1\x63\xd7" + bytes(504))
    return file


def not_permitted(folder):
    """What another user than the file's, or the folder's, hears; only root can try."""
    if not servers.can_be(OTHER):
        return []
    own, others = os.path.join(folder, "own"), os.path.join(folder, "others")
    for one in (own, others):
        os.mkdir(one)
    os.chmod(folder, 0o755)
    os.chown(own, OTHER, OTHER)
    file = table(own, "root.db")
    user = {"user": OTHER, "group": OTHER, "extra_groups": []}
    return [
        refused(file, b"cannot open: the file may not be read and written: it belongs to user 0 with mode 0600, and this program is user %d" % OTHER, **user),
        refused(os.path.join(others, "new.db"), b"cannot open: no file can be made in the folder: it belongs to user 0", **user),
        sorted(os.listdir(others)) == [],
    ]


def words():
    """What is said of a table's file asks for `--table`, and not for opposites."""
    both = run(["serve", "--table", "none/table.db", "--sums", "--no-sums"], b"")[0] == 2
    return [both] + [run(["serve", word], b"")[0] == 2 for word in ("--sums", "--no-sums", "--accept-loss", "--read-only")]


def main():
    rounds, seed = (int(word) for word in (sys.argv[1:] + [ROUNDS, SEED][len(sys.argv) - 1:])[:2])
    with tempfile.TemporaryDirectory() as folder:
        cases = {case.__name__: case(folder) for case in (opened_once, private, named, standby, scripts, loaded, unsound, faults)}
        cases["kills"] = kills(folder, rounds, seed)
    cases["words"] = words()
    for name, found in cases.items():
        if not all(found):
            print("failed: %s %s" % (name, found))
    found = [good for case in cases.values() for good in case]
    print("%d passed, %d failed" % (sum(found), len(found) - sum(found)))
    return 0 if all(found) else 1


if __name__ == "__main__":
    sys.exit(main())

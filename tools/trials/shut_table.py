"""shut_table.py [CASE..]: sees that nobody's change shuts a table in a file for the others, over the program crates/handled/out/handled.

acme changes a handle with its key, bolt one that anybody may write, over one `handled serve --table`. The cases are

- `lists`: acme's administrator stands behind two lists of 2,500 references each, its key last, so that it is found by several calls;
- `hundred`: the same behind a hundred such lists;
- `memory`: behind the sync of acme's first change one request for memory of the thread that serves is refused, by tools/lib/refuse_behind.c: the first, then the second, and so on.

Where there are lists, acme asks until it isn't answered Busy, and behind each time bolt changes a value of its own, or at the same time. acme's change must be done in the end, and each of bolt's.
Where memory is refused, one change of all is answered Busy at most. In each case what clients read, and what a server finds that starts from the file, is what was answered: a change that was answered 1, and
nothing of one that was answered Busy; where there are lists the file has nothing of it as Busy comes, either. Nothing says that the table is shut.

Lists are no longer since a value has at most 32,768 octets of data, and a reference takes twelve or more: 2,730 fit, and a text with a list of 5,000 is refused ("bad line"). So there are more of
them, ten in a handle. A text of 250,000 references has 6 MB of the 16 MiB that it may have. Its last line is 'N passed, M failed', a case or a place of a request for memory counting one."""

import concurrent.futures
import contextlib
import os
import signal
import sqlite3
import sys
import tempfile

# nothing is left beside the tools
sys.dont_write_bytecode = True
from lib import preloaded, publisher, servers, wire

# What the gate reads of it (tools/build/parts.py).
GATE = {"long": True, "leaves_out": "its case of refused memory"}
BUSY = 3
# References of a list, and lists of a handle.
REFERENCES, LISTS = 2_500, 10
KEY, KEY_HANDLE, KEY_INDEX = b"a-secret-of-acme", b"10/keys", 3
ADMIN, KEPT, ANYBODY = 0x0E, 0x0C, 0x0F
# A call goes on by one such list, or looks up so many references that no list is at: who is answered Busy twice as often and ten times more is so for ever.
LOOKED_UP, TIMES, MORE = 2_048, 2, 10
# How many changes each publisher makes where memory is refused, and how many requests for memory are.
ROUNDS, PLACES = 2, 40
START, SHUT = b"start", b"table: shut"
OF_ACME, OF_BOLT = b"10/c", b"20/open"


def note(index, data, permission=ADMIN):
    return wire.value(index, b"X", data, permission)


def listing(handle, index, references):
    return handle, wire.value(index, b"HS_VLIST", wire.listed(wire.reference(*one) for one in references), ADMIN)


def lists(count):
    """The rows of so many lists, which one list leads to, with acme's key last; the others' keys aren't there."""
    places = [(b"10/g%d" % (number // LISTS), number % LISTS + 1) for number in range(count)]
    keys = [(b"10/k", number) for number in range(1, count * REFERENCES)] + [(KEY_HANDLE, KEY_INDEX)]
    return [listing(b"10/h", 1, places)] + [listing(*place, keys[number * REFERENCES:(number + 1) * REFERENCES]) for number, place in enumerate(places)]


def tenants(count=0):
    """The text of a server whose acme has its key behind so many lists, or behind none."""
    administrator = wire.administrator(b"10/h", 1) if count else wire.administrator(KEY_HANDLE, KEY_INDEX)
    rows = [(OF_ACME, wire.value(100, b"HS_ADMIN", administrator, ADMIN)), (KEY_HANDLE, wire.value(KEY_INDEX, b"HS_SECKEY", KEY, KEPT))]
    rows += [row for index in range(1, ROUNDS + 1) for row in ((OF_ACME, note(index, START)), (OF_BOLT, note(index, START, ANYBODY)))]
    lines = [wire.value_line(*row) for row in rows + (lists(count) if count else [])]
    heads = "publisher acme 4 %d\npublisher bolt 4 %d\nprefix 10 acme\nprefix 20 bolt"
    return lambda *ports: wire.text([heads % ports, *lines])


class Served:
    """A server over a file, which is killed with the block; then `said` is what it said on standard error."""

    def __init__(self, file, text, **environment):
        self.errors = tempfile.TemporaryFile()
        how = {"stderr": self.errors, "env": {**os.environ, **environment}}
        self.process, self.ports = servers.serve(text, 2, options=("--table", file), **how)
        self.said = b""

    def __enter__(self):
        return self

    def __exit__(self, *_):
        self.process.send_signal(signal.SIGKILL)
        self.process.wait()
        self.process.stdout.close()
        self.errors.seek(0)
        self.said = self.errors.read()
        self.errors.close()


class Publisher:
    """A client that changes values of one handle, and what each of them may have by the answers."""

    def __init__(self, port, handle, permission):
        self.port, self.handle, self.permission = port, handle, permission
        self.client, self.codes, self.may_have = None, [], {}

    def connected(self):
        self.client = self.client or servers.Client(self.port, KEY_HANDLE, KEY_INDEX, KEY)
        return self.client

    def change(self, index, data):
        """The code of a change; None where the connection ended before, and the next one goes by another."""
        try:
            code = self.connected().modify(self.handle, [note(index, data, self.permission)])
        except OSError:
            code, self.client = None, None
        before = self.may_have.get(index, {START})
        self.may_have[index] = {data} if code == wire.SUCCESS else before | {data} if code is None else before
        self.codes.append(code)
        return code

    def read(self, port, index):
        """The code and the body of a resolution, which is asked twice at most: memory that is refused once may make it Busy or end its connection."""
        code, body = None, b""
        for _ in range(2):
            with contextlib.suppress(OSError), servers.Client(port) as client:
                code, body = client.asked(wire.resolution(self.handle, [index]))
            if code not in (None, BUSY):
                break
        return code, body

    def faults(self, place, port):
        """What a server at this port says otherwise than this client was answered; what it says is what the next one has to say."""
        found = []
        for index, data in self.may_have.items():
            code, body = self.read(port, index)
            there = {one for one in data if wire.string(one) in body}
            if code != wire.SUCCESS or not there:
                found.append("%s of %s isn't what was answered: %s, and there is at index %d: code %s, %r" % (place, self.handle.decode(), self.codes, index, code, body[-60:]))
            else:
                self.may_have[index] = there
        return found


def both(ports):
    return Publisher(ports[0], OF_ACME, ADMIN), Publisher(ports[1], OF_BOLT, ANYBODY)


def in_file(folder, file, handle, index):
    """The data of a value in a file that a server has open, by a copy of it and its log."""
    copy = os.path.join(folder, "copy.db")
    publisher.copied(file, copy)
    try:
        with contextlib.closing(sqlite3.connect(copy)) as database:
            return database.execute("SELECT bytes FROM entries WHERE name = ? AND idx = ?", (handle, index)).fetchone()[0]
    except sqlite3.Error as fault:
        return fault


def by_turns(folder, file, count, is_beside, acme, bolt):
    """acme asks until it isn't answered Busy, and beside or behind each time bolt changes its value. The faults."""
    faults = []
    with concurrent.futures.ThreadPoolExecutor(1) as other:
        for number in range((count + count * REFERENCES // LOOKED_UP) * TIMES + MORE):
            first, then = (bolt.change, acme.change) if is_beside else (acme.change, bolt.change)
            waited = other.submit(first, 1, b"turn %d" % number)
            if not is_beside:
                waited.result()
            then(1, b"turn %d" % number)
            waited.result()
            if acme.codes[-1] != BUSY or bolt.codes[-1] != wire.SUCCESS:
                break
            found = in_file(folder, file, OF_ACME, 1)
            if found != START:
                faults.append("acme was answered Busy, and the file has %r" % found)
                break
    bolt.change(2, b"by bolt")
    if acme.codes[-1] != wire.SUCCESS:
        faults.append("acme was answered %s" % acme.codes)
    if set(bolt.codes) != {wire.SUCCESS}:
        faults.append("bolt was answered %s" % bolt.codes)
    return faults


def shut(said):
    return ["it said %r" % said] if SHUT in said else []


def after_a_restart(file, text, publishers):
    with Served(file, text) as again:
        return [fault for one, port in zip(publishers, again.ports) for fault in one.faults("the file", port)]


def behind(count, is_beside):
    """The one result of a server with so many lists."""
    name = "%d lists, bolt %s acme" % (count, "beside" if is_beside else "behind")
    with tempfile.TemporaryDirectory() as folder:
        file, text = os.path.join(folder, "handles.db"), tenants(count)
        with Served(file, text) as served:
            acme, bolt = publishers = both(served.ports)
            faults = by_turns(folder, file, count, is_beside, acme, bolt)
            faults += [fault for one in publishers for fault in one.faults("the table", one.port)]
        faults += shut(served.said) + after_a_restart(file, text, publishers)
        print("%s: acme was answered Busy %d times, and bolt %d times success" % (name, acme.codes.count(BUSY), bolt.codes.count(wire.SUCCESS)), flush=True)
        return [(name, faults)]


def refused_once(folder, library, environment, begun=lambda: None):
    """Whether a request for memory was refused while both publishers changed their values, what they were answered, and the faults."""
    with tempfile.TemporaryDirectory(dir=folder) as own:
        file, text = os.path.join(own, "handles.db"), tenants()
        with Served(file, text, LD_PRELOAD=library, **environment) as served:
            publishers = both(served.ports)
            for one in publishers:
                one.connected().asked(wire.resolution(one.handle))
            begun()
            for number in range(1, ROUNDS + 1):
                for one in publishers:
                    one.change(number, b"change %d" % number)
            codes = [code for one in publishers for code in one.codes]
            faults = [fault for one in publishers for fault in one.faults("the table", one.port)]
            faults += ["it ended"] if served.process.poll() is not None else []
        if sum(code != wire.SUCCESS for code in codes) > 1 or set(codes) - {wire.SUCCESS, BUSY, None}:
            faults.append("answers: %s" % codes)
        return b"refused\n" in served.said, codes, faults + shut(served.said) + after_a_restart(file, text, publishers)


def memory():
    """A result for each request for memory behind the sync."""
    results = []
    with tempfile.TemporaryDirectory() as folder:
        library = preloaded.library(folder, "refuse_behind.c")
        for place in range(1, PLACES + 1):
            is_met, _, faults = refused_once(folder, library, {"REFUSE": str(place)})
            if not is_met:
                break
            results.append(("request %d behind the sync" % place, faults))
    return results or [("behind the sync", ["no request for memory was refused"])]


CASES = {"lists": lambda: behind(2, False) + behind(2, True), "hundred": lambda: behind(100, True), "memory": memory}


def main():
    results = [result for name in sys.argv[1:] or [case for case in CASES if case != "memory" or not servers.IS_UNPROVED] for result in CASES[name]()]
    for name, faults in results:
        for fault in faults:
            print("%s: %s" % (name, fault))
    failed = sum(bool(faults) for _, faults in results)
    print("%d passed, %d failed" % (len(results) - failed, failed))
    return 1 if failed else 0


if __name__ == "__main__":
    sys.exit(main())

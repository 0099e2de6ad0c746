"""shortages.py: tries a server that is short of something, over the program crates/handled/out/handled: readers of its log, room on its disk, memory, descriptors, its own file, or quick clients of its status page.

Nobody's answer waits for a log that nobody reads, and what is lost is counted and told, as it begins and as it ends. A disk that is full, memory that is short and a file that somebody else changed are told: on standard error, by
/health and by /metrics; deletes and reads go on, and nothing is answered as done that is lost. Its last line is 'N passed, M failed', a case counting one."""

import contextlib
import os
import re
import resource
import shutil
import signal
import socket
import subprocess
import sys
import tempfile
import time
import urllib.error
import urllib.request

# nothing is left beside the tools
sys.dont_write_bytecode = True
from lib import servers, wire

# What the gate reads of it (tools/build/parts.py).
GATE = {"alone": True, "leaves_out": "its case of a limit of memory"}
BUSY = 3
KEY = b"example-secret"
# Seconds within which something that is told a moment later is told, and within which a server ends.
SOON, END = 10, 20
# More changes than a pipe and the queue of a lane hold.
MANY = 2600
# More octets of memory than any process has.
TOO_MUCH = 1 << 50
# How much address space a process has that is to run out of memory, what a value takes, and how many heaps glibc gives its threads: each takes 64 MiB of that space, and who came too late for one has nothing else.
SCARCE, LONG, HEAPS = 450 << 20, 30000, "2"


def tenants(*ports):
    """Two publishers, each with an administrator, its key, a handle that anybody changes, and one that it administers; bolt has an overflow lane."""
    lines = ["publisher acme 3 %d" % ports[0], "publisher bolt 4 %d" % ports[1], "prefix 10 acme", "prefix 20 bolt"]
    for prefix in (b"10", b"20"):
        root = b"0.NA/" + prefix
        lines += [wire.value_line(root, administrator(root)), wire.value_line(root, wire.value(300, b"HS_SECKEY", KEY, 0x0C, 86400)), wire.value_line(prefix + b"/open", note(1, b"x" * 100))]
        lines += [wire.value_line(prefix + b"/own", one) for one in (administrator(root), note(1, b"x"), note(2, b"x"))]
    return wire.text(lines)


def administrator(root):
    return wire.value(100, b"HS_ADMIN", wire.administrator(root, 300), 0x0E, 86400)


def note(index, data):
    return wire.value(index, b"NOTE", data, 0x0F, 86400)


class Publisher(servers.Client):
    """A client of one publisher, whose key answers its challenges."""

    def __init__(self, port, prefix):
        super().__init__(port, b"0.NA/" + prefix)
        self.stream.settimeout(60)

    def make(self, name, data=b"0123456789"):
        return self.create(self.handle[5:] + b"/" + name, [administrator(self.handle), note(1, data)])

    def change(self, data=b"y" * 100):
        return self.modify(self.handle[5:] + b"/open", [note(1, data)])

    def resolved(self, name=b"open"):
        return self.code(wire.resolution(self.handle[5:] + b"/" + name))


class Server:
    """A server with these options, a status page and a socket for the word to end; its standard error goes to a file, unless it is said where."""

    def __init__(self, folder, options=(), **how):
        self.status, = servers.free_ports(1)
        self.control = os.path.join(folder, "control")
        self.errors = os.path.join(folder, "errors-%d" % self.status)
        options = [*options, "--status", "127.0.0.1:%d" % self.status, "--control", self.control]
        with open(self.errors, "ab") as errors:
            self.process, ports = servers.serve(tenants, 2, options=options, **{"stderr": errors, **how})
        self.acme, self.bolt = Publisher(ports[0], b"10"), Publisher(ports[1], b"20")

    def __enter__(self):
        return self

    def __exit__(self, *_):
        for one in (self.acme, self.bolt):
            one.stream.close()
        if self.process.poll() is None:
            self.process.kill()
        self.process.wait()
        self.process.stdout.close()

    def said(self, word):
        """The lines of standard error that begin so."""
        with open(self.errors, encoding="utf-8", errors="replace") as errors:
            return [line for line in errors.read().splitlines() if line.startswith(word)]

    def page(self, path):
        """The status and the body of a page."""
        try:
            with urllib.request.urlopen("http://127.0.0.1:%d%s" % (self.status, path), timeout=SOON) as reply:
                return reply.status, reply.read().decode()
        except urllib.error.HTTPError as fault:
            return fault.code, fault.read().decode()

    def health(self):
        return self.page("/health")[0]

    def count(self, name):
        """What the page says of a count."""
        found = re.search(r"^%s ([0-9]+)$" % re.escape(name), self.page("/metrics")[1], re.M)
        return int(found[1]) if found else None

    def stop(self):
        return subprocess.run([servers.HANDLED, "stop", "--control", self.control], capture_output=True, timeout=END).returncode


def soon(holds):
    until = time.monotonic() + SOON
    while not holds() and time.monotonic() < until:
        time.sleep(0.05)
    return holds()


def unread_log(folder):
    """A FIFO as the log, which nobody reads at first: all changes of both publishers are answered; who reads then gets lines, and what was lost is counted and told."""
    log = os.path.join(folder, "fifo")
    os.mkfifo(log)
    with Server(folder, ["--log", log]) as server:
        yield "a log that nobody reads: all is answered", {server.acme.change(b"%d" % number) for number in range(MANY)} == {wire.SUCCESS}
        yield "and of the other publisher", {server.bolt.change(b"%d" % number) for number in range(20)} == {wire.SUCCESS}
        yield "what is lost is counted", soon(lambda: server.count("handled_log_lines_lost_total"))
        yield "it is told while nobody reads", soon(lambda: server.said("log: lines are lost: "))
        reader = os.open(log, os.O_RDONLY | os.O_NONBLOCK)
        got = b""

        def read():
            nonlocal got
            with contextlib.suppress(BlockingIOError):
                got += os.read(reader, 1 << 20)
            return server.said("log: ")[1:]

        yield "how many is told once somebody reads", soon(read)
        lost = server.count("handled_log_lines_lost_total")
        read()
        yield "each line is there or counted", got.count(b"\n") + lost == MANY + 20 and [line.partition(":")[2][:20] for line in server.said("log: ")] == [" lines are lost: the", (" %d lines were lost: the log's reader" % lost)[:20]]
        yield "none of the other publisher's is lost", got.count(b"Z bolt ") == 20
        yield "each line is whole", all(re.match(rb"\S+Z (acme|bolt) [0-9] 127.0.0.1:\d+ modify (10|20)/open - 1$", line) for line in got.splitlines())
        os.close(reader)


def unread_errors(folder):
    """Standard error is a pipe that nobody reads, and the log goes there."""
    reader, writer = os.pipe()
    with Server(folder, ["--log", "-"], stderr=writer) as server:
        os.close(writer)
        yield "standard error that nobody reads: all is answered", {server.acme.change(b"%d" % number) for number in range(MANY)} == {wire.SUCCESS}
        yield "and of the other publisher", server.bolt.change() == wire.SUCCESS and server.health() == 200
    os.close(reader)


def slow_clients(folder):
    """Clients that ask slowly hide neither the status page nor the word to end."""
    with Server(folder) as server:
        slow = [socket.create_connection(("127.0.0.1", server.status), 10) for _ in range(60)]
        for number, one in enumerate(slow):
            # the page may have left it for one that came later
            with contextlib.suppress(OSError):
                one.sendall(b"GET /metrics HTTP/1.1\r\nX: " if number % 2 else b"G")
        yield "health behind slow clients", [server.health() for _ in range(5)] == [200] * 5
        silent = [socket.socket(socket.AF_UNIX) for _ in range(100)]
        for one in silent:
            one.connect(server.control)
        silent[-1].sendall(b"sto")
        yield "an end behind silent clients", server.stop() == 0 and server.process.wait(END) == 0
        for one in slow + silent:
            one.close()


def bounded_file():
    """No file grows beyond 200,000 octets, and who tries gets an error."""
    signal.signal(signal.SIGXFSZ, signal.SIG_IGN)
    resource.setrlimit(resource.RLIMIT_FSIZE, (200000, resource.RLIM_INFINITY))


def full_disk(folder):
    """A file that can't grow is told, once, until it can."""
    with Server(folder, ["--table", os.path.join(folder, "full.db")], preexec_fn=bounded_file) as server:
        yield "well before", server.health() == 200 and server.count("handled_table_failing") == 0
        codes = [server.acme.change(bytes(20000)) for _ in range(30)]
        busy = codes.count(BUSY)
        yield "busy once it is full", codes[0] == wire.SUCCESS and codes[-1] == BUSY and set(codes) == {wire.SUCCESS, BUSY}
        yield "not well", server.health() == 503
        yield "it is said once", soon(lambda: server.said("table: a change can't be written")) and len(server.said("table: a change can't be written")) == 1
        yield "it is counted", (server.count("handled_table_failing"), server.count("handled_table_failures_total"), server.count("handled_table_shut")) == (1, busy, 0)
        yield "by operation", server.count('handled_replies_total{publisher="acme",operation="modify",code="3"}') == busy
        yield "reads go on", server.acme.resolved() == wire.SUCCESS
        resource.prlimit(server.process.pid, resource.RLIMIT_FSIZE, (resource.RLIM_INFINITY, resource.RLIM_INFINITY))
        yield "with room all goes on", server.acme.change() == wire.SUCCESS and server.health() == 200 and server.count("handled_table_failing") == 0
        yield "an end in order", server.stop() == 0


def short_memory(folder):
    """Less memory than is kept aside: what takes more is Busy, the rest goes on."""
    environment = {**os.environ, "ASAN_OPTIONS": "allocator_may_return_null=1"}
    with Server(folder, ["--reserve", str(TOO_MUCH)], env=environment) as server:
        yield "what takes more is busy", [server.acme.make(b"a"), server.acme.change(b"y" * 101), server.bolt.make(b"a")] == [BUSY] * 3
        yield "not well", server.health() == 503 and server.count("handled_memory_short") == 1
        yield "what takes no more is done", [server.acme.change(b"z" * 100), server.bolt.change(b"z"), server.bolt.change(b"zz")] == [wire.SUCCESS, wire.SUCCESS, BUSY]
        yield "it is counted", server.count("handled_memory_refusals_total") == 4
        yield "it is said once", soon(lambda: server.said("memory: ")) and len(server.said("memory: ")) == 1
        yield "deletes and removes go on", [server.acme.remove(b"10/own", [1]), server.acme.delete(b"10/own")] == [wire.SUCCESS, wire.SUCCESS]
        yield "reads go on", server.bolt.resolved() == wire.SUCCESS
    with Server(folder, ["--reserve", "0"]) as server:
        yield "nothing kept aside", server.acme.make(b"a") == wire.SUCCESS and server.health() == 200


def scarce_memory(folder):
    """Memory that ends by a limit: once changes are Busy, deletes make room, and new handles come again."""
    def scarce():
        resource.setrlimit(resource.RLIMIT_AS, (SCARCE, SCARCE))

    for options in ([], ["--table", os.path.join(folder, "scarce.db")]):
        where = "over a file" if options else "in memory"
        with Server(folder, options, preexec_fn=scarce, env={**os.environ, "MALLOC_ARENA_MAX": HEAPS}) as server:
            yield "well before " + where, server.health() == 200
            codes = []
            while codes.count(BUSY) < 3 and len(codes) < 20000:
                codes.append(server.bolt.make(b"%d" % len(codes), bytes(LONG)))
            made = codes.index(BUSY)
            yield "memory ends " + where, made > 10 and soon(lambda: server.said("memory: "))
            yield "not well " + where, server.health() == 503
            yield "another's change and read go on " + where, (server.acme.change(), server.acme.resolved()) == (wire.SUCCESS, wire.SUCCESS)
            gone = [server.bolt.delete(b"20/%d" % number) for number in range(made)]
            yield "deletes go on " + where, set(gone) == {wire.SUCCESS}
            yield "well again " + where, server.health() == 200
            yield "handles come again " + where, server.bolt.make(b"again") == wire.SUCCESS


def taken_file(folder):
    """The file or its log is deleted, replaced or overwritten under a server: no change is answered as done from then on."""
    def gone(file):
        os.unlink(file)
        os.unlink(file + "-wal")

    def without_log(file):
        os.unlink(file + "-wal")

    def replaced(file):
        os.rename(file + ".old", file)
        os.rename(file + "-wal.old", file + "-wal")

    def overwritten(file):
        shutil.copy(file + ".old", file)
        shutil.copy(file + "-wal.old", file + "-wal")

    for number, (do, word) in enumerate(((gone, "is gone"), (without_log, "is gone"), (replaced, "another file"), (overwritten, "another program wrote"))):
        file = os.path.join(folder, "%d.db" % number)
        with Server(folder, ["--table", file]) as server:
            server.acme.change(b"old")
            for end in ("", "-wal"):
                shutil.copy(file + end, file + end + ".old")
            yield "changes before it is %s" % do.__name__, [server.acme.change(b"new"), server.bolt.change()] == [wire.SUCCESS] * 2 and server.health() == 200
            do(file)
            yield "none behind it (%s)" % do.__name__, {server.acme.change(), server.bolt.change(), server.acme.make(b"a"), server.acme.delete(b"10/own")} == {BUSY}
            yield "it is told (%s)" % do.__name__, soon(lambda: server.said("table: shut for writes")) and [word in line for line in server.said("table: shut for writes")] == [True]
            yield "by the pages too (%s)" % do.__name__, server.health() == 503 and server.count("handled_table_shut") == 1 and server.count("handled_memory_refusals_total") == 0
            yield "reads go on (%s)" % do.__name__, server.acme.resolved() == wire.SUCCESS
            before = {name: open(os.path.join(folder, name), "rb").read() for name in os.listdir(folder) if name.startswith("%d.db" % number)}
            yield "an end that writes nothing there (%s)" % do.__name__, server.stop() == 0 and before == {name: open(os.path.join(folder, name), "rb").read() for name in before}
    file = os.path.join(folder, "moved.db")
    with Server(folder, ["--table", file]) as server:
        server.acme.change()
        for end in ("", "-wal"):
            os.rename(file + end, file + end + ".away")
        yield "none while it is away", server.acme.change() == BUSY and server.health() == 503
        for end in ("", "-wal"):
            os.rename(file + end + ".away", file + end)
        yield "it is told that it is back", soon(lambda: server.said("table: the file and its log are back"))
        yield "all goes on once it is back", server.acme.change() == wire.SUCCESS and server.health() == 200 and server.stop() == 0
    file = os.path.join(folder, "last.db")
    with Server(folder, ["--table", file]) as server:
        server.acme.change()
        for end in ("", "-wal"):
            shutil.copy(file + end, file + end + ".old")
        server.acme.change(b"new")
        overwritten(file)
        yield "overwritten before the end", server.stop() == 0 and [open(file + end, "rb").read() for end in ("", "-wal")] == [open(file + end + ".old", "rb").read() for end in ("", "-wal")]
    file = os.path.join(folder, "idle.db")
    with Server(folder, ["--table", file]) as server:
        server.acme.change()
        gone(file)
        yield "told while nobody changes anything", soon(lambda: server.said("table: shut for writes")) and server.health() == 503


def few_descriptors(folder):
    """A limit of descriptors that is less than lanes and crowds may want is told at the start."""
    with Server(folder, preexec_fn=lambda: resource.setrlimit(resource.RLIMIT_NOFILE, (64, 64))) as server:
        yield "few descriptors", len(server.said("descriptors: the process may have 64, and its lanes and crowds may want 1038")) == 1
    with Server(folder, ["--crowd", "0"]) as server:
        yield "enough descriptors", server.said("descriptors") == []


def main():
    parts = [unread_log, unread_errors, slow_clients, full_disk, short_memory, taken_file, few_descriptors]
    # the checks of an unproved program need more memory than there is then
    parts += [] if servers.IS_UNPROVED else [scarce_memory]
    words = sys.argv[1:]

    def cases():
        for part in parts:
            if not words or part.__name__ in words:
                with tempfile.TemporaryDirectory() as folder:
                    yield from part(folder)

    return servers.tally(cases())


sys.exit(main())

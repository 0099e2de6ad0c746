"""The servers that the benchmarks ask, and the load that asks them: `handled serve`, redis and NSD, each on a port of its own.

Every server holds the same: a number of handles, `10/000000` and on, each with one value of its own text. bench/load.c puts the number of the
handle that it asks for into each request and expects it in the reply, twice where the value's text comes back.
"""

import contextlib
import os
import socket
import sqlite3
import struct
import subprocess
import sys
import time

HERE = os.path.dirname(os.path.abspath(__file__))
from lib import servers, wire

PROGRAM = servers.HANDLED
TICKS = os.sysconf("SC_CLK_TCK")
PERMISSION = wire.ADMIN_WRITE | wire.PUBLIC_READ


def handle(number):
    return b"10/%06d" % number


def text(number):
    return b"http://a/%06d" % number


def value(number):
    return wire.value(1, b"URL", text(number), PERMISSION)


def request(number):
    return wire.frame(wire.resolution(handle(number)), 0, 1)


def reply(number):
    return wire.frame(wire.values_reply(handle(number), value(number)), 0, 1)


def tenants(lanes, port, values):
    lines = ["publisher acme %d %d" % (lanes, port), "prefix 10 acme"]
    return wire.tenants(lines, ((handle(k), value(k)) for k in range(values)))


def needs_program(name, program=PROGRAM):
    """Ends with a word where the proved program isn't there."""
    if not os.path.exists(program):
        sys.exit("bench/%s: build the program first: ./handled < examples/absent.script" % name)


def stat(folder):
    """The fields of a process or a thread behind its name; of one that ended, zeros."""
    try:
        with open(folder + "/stat") as line:
            return line.read().rsplit(")", 1)[1].split()
    except OSError:
        return ["0"] * 50


def descendants(pid):
    """The process and all below it."""
    parents = {int(name): int(stat("/proc/" + name)[1]) for name in os.listdir("/proc") if name.isdigit()}
    found = [pid]
    for one in found:
        found += [child for child, parent in parents.items() if parent == one]
    return found


class Server:
    """A server that listens, what it is asked, and the seconds until it listened."""

    def __init__(self, process, port, request, reply, seconds):
        self.process, self.port, self.request, self.reply, self.seconds = process, port, request, reply, seconds

    def processor_times(self):
        """The processor seconds of the first thread, which serves, and of all others; NSD's are processes of their own."""
        first, others = 0.0, 0.0
        for pid in descendants(self.process.pid):
            for task in os.listdir("/proc/%d/task" % pid):
                fields = stat("/proc/%d/task/%s" % (pid, task))
                used = (int(fields[11]) + int(fields[12])) / TICKS
                if int(task) == self.process.pid:
                    first += used
                else:
                    others += used
        return first, others

    def resident(self):
        """Its resident memory in megabytes."""
        with open("/proc/%d/status" % self.process.pid) as status:
            return [int(line.split()[1]) for line in status if line.startswith("VmRSS")][0] / 1024

    def stop(self):
        self.process.terminate()
        self.process.wait()


def lanes_of(case):
    """A lane for each connection, the overflow lane where the server has one, and that of datagrams."""
    kind, clients, _ = case
    if kind != "tcp":
        return 2
    return clients + 1 if clients < 3 else clients + 2


def start_handled(program, lanes, values, table=None, more=()):
    """`handled serve`, over a table in a file where one is named, which has its handles; a program `PATH@NAME=VALUE` has that in its
    environment, as `LD_PRELOAD`."""
    words = program.split("@")
    environment = dict(os.environ, **dict(word.split("=", 1) for word in words[1:]))
    options, values = (("--table", table, *more), 0) if table else ((), values)
    begin = time.monotonic()
    process, (port,) = servers.serve(lambda port: tenants(lanes, port, values), 1, words[0], options, env=environment, stderr=subprocess.DEVNULL)
    return Server(process, port, request(0), reply(0), time.monotonic() - begin)


def fill(file, rows, ttl, permission):
    """Has SQLite put handles into a file that the program made: each a name, and the type and the data of its one value; all have this TTL and these permissions."""
    with contextlib.closing(sqlite3.connect(file)) as conn, conn:
        for name, kind, data in rows:
            conn.execute("INSERT INTO handles (name, authority) VALUES (?, ?)", (name, b"10"))
            conn.execute("INSERT INTO entries (name, idx, kind, bytes, ttl, perm, stamp, refs) VALUES (?, 1, ?, ?, ?, ?, ?, ?)",
                         (name, kind, data, b"\0" + wire.number(ttl), permission, bytes(8), bytes(4)))


def begin_table(program, file, start):
    """A file without handles that SQLite may write to: a copy, which needs no log, of one that the program made without sums. `start` starts a server over that one and ends it."""
    start(file + ".first", "--no-sums")
    subprocess.run([program.split("@")[0], "copy", "--table", file + ".first", "--to", file], check=True)


def make_table(program, file, values):
    """A table in a file with so many handles."""
    begin_table(program, file, lambda first, *more: start_handled(program, 2, 0, first, more).stop())
    fill(file, ((handle(number), b"URL", text(number)) for number in range(values)), 0, PERMISSION)


def bulk(octets):
    return b"$%d\r\n%s\r\n" % (len(octets), octets)


def start_redis(folder, values):
    (port,) = servers.free_ports(1)
    words = ["redis-server", "--port", str(port), "--bind", "127.0.0.1", "--save", "", "--appendonly", "no", "--dir", folder]
    process = subprocess.Popen(words, stdout=subprocess.DEVNULL, stderr=subprocess.DEVNULL)
    time.sleep(0.5)
    with socket.create_connection(("127.0.0.1", port)) as stream:
        lines = stream.makefile("rb")
        for begin in range(0, values, 100):
            part = range(begin, min(begin + 100, values))
            stream.sendall(b"".join(b"*3\r\n" + bulk(b"SET") + bulk(handle(k)) + bulk(text(k)) for k in part))
            for _ in part:
                lines.readline()
    return Server(process, port, b"*2\r\n" + bulk(b"GET") + bulk(handle(0)), bulk(text(0)), 0.5)


def start_nsd(folder, values):
    (port,) = servers.free_ports(1)
    with open(os.path.join(folder, "zone"), "w") as zone:
        zone.write("$ORIGIN a.\n$TTL 86400\n@ IN SOA n.a. m.a. 1 3600 600 86400 60\n@ IN NS n.a.\nn IN A 127.0.0.1\n")
        zone.writelines("h%06d IN TXT \"%s\"\n" % (k, text(k).decode()) for k in range(values))
    with open(os.path.join(folder, "conf"), "w") as conf:
        conf.write("server:\n  ip-address: 127.0.0.1@%d\n  username: \"\"\n  chroot: \"\"\n  zonesdir: \"%s\"\n  pidfile: \"%s/pid\"\n" % (port, folder, folder))
        conf.write("  xfrdfile: \"%s/xfrd\"\n  zonelistfile: \"%s/list\"\n  xfrdir: \"%s\"\n  server-count: 1\n  rrl-ratelimit: 0\n" % (folder, folder, folder))
        conf.write("remote-control:\n  control-enable: no\nzone:\n  name: \"a\"\n  zonefile: \"zone\"\n")
    process = subprocess.Popen(["nsd", "-d", "-c", os.path.join(folder, "conf")], stdout=subprocess.DEVNULL, stderr=subprocess.DEVNULL)
    time.sleep(1)
    query = struct.pack(">HHHHHH", 7, 0, 1, 0, 0, 0) + b"\x07h000000\x01a\x00" + struct.pack(">HH", 16, 1)
    with socket.socket(socket.AF_INET, socket.SOCK_DGRAM) as one:
        one.settimeout(2)
        one.sendto(query, ("127.0.0.1", port))
        answer = one.recv(512)
    return Server(process, port, query, answer, 1.0)


def start_echo(program, kind):
    """bench/echo.c, which looks nothing up; `datagrams` takes and gives many by one call."""
    (port,) = servers.free_ports(1)
    process = subprocess.Popen([program, kind, str(port), request(0).hex(), reply(0).hex()])
    time.sleep(0.2)
    return Server(process, port, request(0), reply(0), 0.2)


def built(folder, name):
    program = os.path.join(folder, name)
    subprocess.run(["cc", "-O2", "-o", program, os.path.join(HERE, name + ".c")], check=True)
    return program


def built_load(folder):
    return built(folder, "load")


def load_words(load, server, case, seconds, values, choice):
    kind, clients, depth = case
    asked = [server.request.hex(), server.reply.hex()]
    return [load, kind, str(server.port), str(clients), str(depth), str(seconds)] + asked + [str(values), choice]


class Load:
    """What a load measured: replies a second, percentiles in microseconds, and shares of a processor in percent."""

    def __init__(self, load, server, case, seconds, values, choice):
        before = server.processor_times()
        words = load_words(load, server, case, seconds, values, choice)
        done = subprocess.run(words, stdout=subprocess.PIPE, stderr=subprocess.PIPE, check=False)
        after = server.processor_times()
        if done.returncode != 0:
            sys.exit("bench: %s" % done.stderr.decode().strip())
        fields = done.stdout.decode().split()
        self.rate, self.own, self.stalls = float(fields[0]), float(fields[4]), int(fields[5])
        self.half, self.most, self.nearly = (int(field) for field in fields[1:4])
        self.first, self.others = (100 * (b - a) / seconds for a, b in zip(before, after))

    def cost(self):
        """The server's processor microseconds of a reply, on all its threads."""
        return (self.first + self.others) * 1e4 / max(self.rate, 1)

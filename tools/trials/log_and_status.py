"""log_and_status.py: tries what a server tells of itself, over the program crates/handled/out/handled: the log of changes, the status page, and its end in order.

Servers over a file get changes from clients by streams, datagrams and an overflow lane; each line of the log is compared with what was asked and answered, and no secret, data or
nonce is in it. What the status page counts is compared with what was asked. `handled stop` must end a server within five seconds, with its table closed. Its last line is
'N passed, M failed', a case counting one."""

import contextlib
import http.client
import os
import re
import resource
import signal
import socket
import subprocess
import sys
import tempfile
import time
import urllib.error
import urllib.request

# nothing is left beside the tools
sys.dont_write_bytecode = True
from lib import servers, wire

# What the gate reads of it (tools/build/parts.py).
GATE = {"long": True}
KEY, DATA = b"a-secret-of-these-trials", b"https://data.example/"
ADMIN, KEPT, ANYBODY = 0x0E, 0x0C, 0x0F
MOMENT = re.compile(r"^[0-9]{4}-[0-9]{2}-[0-9]{2}T[0-9]{2}:[0-9]{2}:[0-9]{2}(\.[0-9]+)?Z ")
# Seconds in which a server ends that was asked to.
END = 5
# More octets than a log has of one page, which notes whose it is.
NOTED = 3 * 4096
# A user who may have few threads, and what a server says that has too few.
OTHER = 65534
THREADS = b"threads can't be started, and each lane needs one: raise TasksMax of the service, or `ulimit -u`"
REFERENCE = "300:0.NA/10"
# The address of a proxy before the server.
PROXY = "127.0.0.2"


def tenants(*ports):
    """A publisher with a lane for a connection and one for datagrams, and one with an overflow lane; both have 10."""
    lines = ["publisher acme 2 %d" % ports[0], "publisher bolt 4 %d" % ports[1], "prefix 10 acme", "prefix 10 bolt"]
    values = [wire.value(100, b"HS_ADMIN", wire.administrator(b"0.NA/10", 300), ADMIN, 86400), wire.value(300, b"HS_SECKEY", KEY, KEPT, 86400)]
    return wire.text(lines + [wire.value_line(b"0.NA/10", one) for one in values] + [wire.value_line(b"10/open", url(1, ANYBODY))])


def url(index, permission=ADMIN):
    return wire.value(index, b"URL", DATA, permission, 86400)


def create(handle):
    administrator = wire.value(100, b"HS_ADMIN", wire.administrator(b"0.NA/10", 300), ADMIN, 86400)
    return wire.message(wire.CREATE, wire.string(handle) + wire.listed([administrator, url(1)]))


def modify(handle, permission=ADMIN):
    return wire.message(wire.MODIFY, wire.string(handle) + wire.listed([url(1, permission)]))


def delete(handle):
    return wire.message(wire.DELETE, wire.string(handle))


def code_of(reply):
    return int.from_bytes(reply[4:8], "big")


class Stream:
    """A client by a stream."""

    def __init__(self, port):
        self.socket = socket.create_connection(("127.0.0.1", port), 30)
        self.address = "%s:%d" % self.socket.getsockname()
        self.request = 0

    def receive(self, count):
        octets = b""
        while len(octets) < count:
            more = self.socket.recv(count - len(octets))
            if not more:
                raise ConnectionError
            octets += more
        return octets

    def send(self, message, session=0):
        self.request += 1
        self.socket.sendall(wire.frame(message, session, self.request))

    def reply(self):
        head = self.receive(20)
        return int.from_bytes(head[4:8], "big"), self.receive(int.from_bytes(head[16:20], "big"))

    def ask(self, message, key=KEY):
        """The code that a change comes to, by this key where it is challenged."""
        self.send(message)
        session, reply = self.reply()
        if code_of(reply) == wire.AUTHENTICATION_NEEDED:
            self.send(wire.response(message, key, b"0.NA/10", 300, nonce=reply[-20:-4]), session)
            _, reply = self.reply()
        return code_of(reply)


class Datagrams(Stream):
    """A client by datagrams, whose replies are one each."""

    def __init__(self, port):
        self.socket = servers.Datagrams(port).socket
        self.socket.settimeout(30)
        self.address = "%s:%d" % self.socket.getsockname()
        self.request = 0

    def reply(self):
        octets = self.socket.recv(65536)
        return int.from_bytes(octets[4:8], "big"), octets[20:]


def changes(client, name):
    """Asks for changes of these names, and answers how each line of the log goes on behind the publisher and the lane, with the codes that came."""
    handle = b"10/" + name
    asked = [(create(handle), KEY, "create", True), (create(handle), KEY, "create", False), (modify(handle), b"wrong", "modify", True), (modify(b"10/open", ANYBODY), KEY, "modify", False),
             (delete(handle), KEY, "delete", True), (delete(handle), KEY, "delete", False)]
    lines, codes = [], []
    for message, key, word, is_challenged in asked:
        codes.append(client.ask(message, key))
        named = "10/open" if word == "modify" and not is_challenged else handle.decode().replace("%", "%25").replace(" ", "%20")
        lines.append("%s %s %s %s %d" % (client.address, word, named, REFERENCE if is_challenged else "-", codes[-1]))
    return lines, codes == [1, 101, 403, 1, 1, 100]


def in_flight(client):
    """Changes that are asked one behind the other before a reply is read; two of them with one RequestId."""
    frames = [wire.frame(create(b"10/one"), 0, 7), wire.frame(wire.resolution(b"10/open"), 0, 7), wire.frame(delete(b"10/none"), 0, 7), wire.frame(modify(b"10/open", ANYBODY), 0, 8)]
    client.socket.sendall(b"".join(frames))
    codes = [code_of(client.reply()[1]) for _ in frames]
    lines = ["%s delete 10/none - 100" % client.address, "%s modify 10/open - 1" % client.address]
    return lines, codes == [402, 1, 100, 1]


def in_pieces(client):
    """A change in pieces, whose handle isn't certain."""
    message = wire.message(wire.MODIFY, wire.string(b"10/open") + wire.listed([wire.value(1, b"URL", b"x" * 600, ANYBODY, 86400)]))
    for piece in wire.pieces(message, request=99):
        client.socket.sendall(piece)
    _, reply = client.reply()
    return ["%s modify - - 1" % client.address], code_of(reply) == 1


def page(port, path):
    """The status, the kind and the body of a page."""
    try:
        with urllib.request.urlopen("http://127.0.0.1:%d%s" % (port, path), timeout=10) as reply:
            return reply.status, reply.headers["Content-Type"], reply.read().decode()
    except urllib.error.HTTPError as fault:
        return fault.code, fault.headers["Content-Type"], fault.read().decode()


def soon(holds):
    """Whether something comes to hold: lines and counts come a moment behind the replies that they are of."""
    until = time.monotonic() + END
    while not holds() and time.monotonic() < until:
        time.sleep(0.02)
    return holds()


def logged(file, count):
    """The lines of a log without their moments, once there are so many; None where one has none."""
    def lines():
        with open(file) as log:
            return log.read().splitlines()

    soon(lambda: len(lines()) >= count)
    return [MOMENT.sub("", line) for line in lines()] if all(MOMENT.match(line) for line in lines()) else None


def stop(control):
    began = time.monotonic()
    done = subprocess.run([servers.HANDLED, "stop", "--control", control], stdout=subprocess.PIPE, stderr=subprocess.PIPE)
    return done, time.monotonic() - began


def watched(folder):
    """A server that tells all, and ends when it is asked to."""
    file, log, control = (os.path.join(folder, name) for name in ("table.db", "changes.log", "control"))
    status, = servers.free_ports(1)
    options = ("--table", file, "--log", log, "--control", control, "--status", "127.0.0.1:%d" % status)
    process, (acme, bolt) = servers.serve(tenants, 2, options=options, stderr=subprocess.PIPE)
    yield "healthy", page(status, "/health") == (200, "text/plain; charset=utf-8", "ok\n")
    stream, datagrams = Stream(acme), Datagrams(acme)
    others = [Stream(bolt) for _ in range(2)]
    expected = []
    for place, client, work in ((("acme", 0), stream, lambda one: changes(one, b"a stream, 100%")), (("acme", 0), stream, in_flight), (("acme", 0), stream, in_pieces),
                                (("acme", 1), datagrams, lambda one: changes(one, b"datagrams"))):
        lines, holds = work(client)
        expected += ["%s %d %s" % (*place, line) for line in lines]
        yield "codes on lane %d of %s" % (place[1], place[0]), holds
    # both lanes of bolt for one connection are taken once each has answered
    for lane, other in enumerate(others):
        yield "a lane answers", other.ask(delete(b"10/gone")) == wire.ABSENT
    crowded = Stream(bolt)
    lines, holds = changes(crowded, b"crowd")
    yield "codes on the overflow lane", holds
    found = logged(log, len(expected) + len(lines) + len(others))
    own = [line for line in found or [] if line.startswith("acme")]
    yield "the log of two lanes", own == expected
    theirs = [line for line in found or [] if line.startswith("bolt") and "10/gone" not in line]
    yield "the log of the overflow lane", theirs == ["bolt 2 %s" % line for line in lines]
    gone = sorted(line for line in found or [] if "10/gone" in line)
    yield "the log of lanes with one connection", gone in ([sorted("bolt %d %s delete 10/gone - 100" % (lane, other.address) for lane, other in order) for order in (enumerate(others), enumerate(others[::-1]))])
    with open(log, "rb") as octets:
        text = octets.read()
    yield "no secret and no data in the log", not any(word in text for word in (KEY, KEY.hex().encode(), DATA, b"wrong", b"example"))
    yield "the log is its user's alone", os.stat(log).st_mode & 0o777 == 0o600 and os.stat(control).st_mode & 0o177 == 0
    yield from counted(status)
    yield from measured(status, process, file)
    yield from ended(process, control, file, [stream, *others, crowded])


def counted(status):
    """What the status page counts of what was asked."""
    code, kind, body = page(status, "/metrics")
    lines = body.splitlines()
    yield "the kind of the counts", (code, kind) == (200, "text/plain; version=0.0.4; charset=utf-8")
    # of acme: twice the six changes, of which three were challenged, and those in flight and in pieces
    wanted = {("create", 1): 2, ("create", 101): 2, ("create", 402): 3, ("modify", 1): 4, ("modify", 402): 2, ("modify", 403): 2, ("delete", 1): 2, ("delete", 402): 2, ("delete", 100): 3, ("resolve", 1): 1}
    found = {(word, int(number)): int(count) for word, number, count in re.findall(r'^handled_replies_total\{publisher="acme",operation="([a-z]+)",code="([0-9]+)"\} ([0-9]+)$', body, re.M)}
    yield "the counts of replies", found == wanted
    yield "the counts of connections", [line for line in lines if line.startswith("handled_connections{")] == ['handled_connections{publisher="acme"} 1', 'handled_connections{publisher="bolt"} 3']
    yield "the table isn't shut", "handled_table_shut 0" in lines
    seconds = [float(line.split()[1]) for line in lines if line.startswith('handled_last_change_timestamp_seconds{publisher="acme"}')]
    yield "when a change was accepted", len(seconds) == 1 and abs(time.time() - seconds[0]) < 60
    yield "each line is one of the format", all(re.match(r'^(# (HELP|TYPE) (handled|process)_[a-z_]+ .+|(handled|process)_[a-z_]+(\{[a-z]+="[^"]*"(,[a-z]+="[^"]*")*\})? [0-9.]+)$', line) for line in lines)
    yield "no such page", page(status, "/")[0] == 404
    with socket.create_connection(("127.0.0.1", status), 10) as one:
        one.sendall(b"POST /metrics HTTP/1.1\r\nHost: a\r\n\r\n")
        answer = one.makefile("rb").read()
        yield "another method", answer.startswith(b"HTTP/1.1 405 ") and b"\r\nAllow: GET, HEAD\r\n" in answer


def headed(status, path):
    """The status, the length that is told and the body of an answer to HEAD."""
    connection = http.client.HTTPConnection("127.0.0.1", status, timeout=30)
    with contextlib.closing(connection):
        connection.request("HEAD", path)
        answer = connection.getresponse()
        return answer.status, int(answer.headers["Content-Length"]), answer.read()


def measured(status, process, file):
    """What the status page measures: times of replies and of changes, sizes of files, and what the process takes."""
    def lines():
        return dict(line.rsplit(" ", 1) for line in page(status, "/metrics")[2].splitlines() if not line.startswith("#"))

    def buckets(name, label=""):
        """The counts of a histogram's buckets, and all that it counted."""
        found = lines()
        return [int(count) for line, count in found.items() if line.startswith("%s_bucket{%sle=" % (name, label))], int(found["%s_count%s" % (name, "{%s}" % label[:-1] if label else "")])

    for publisher in ("acme", "bolt"):
        counts, count = buckets("handled_reply_seconds", 'publisher="%s",' % publisher)
        yield "times of replies of %s" % publisher, len(counts) == 8 and counts == sorted(counts) and counts[-1] == count > 5
    counts, count = buckets("handled_commit_seconds")
    # those that were accepted: eight of acme, and three of bolt
    yield "times of changes", len(counts) == 8 and counts == sorted(counts) and counts[-1] == count == 11
    yield "their sum", 0 < float(lines()["handled_commit_seconds_sum"]) < 60
    for name, end in (("handled_table_file_bytes", ""), ("handled_table_log_bytes", "-wal")):
        yield name, soon(lambda name=name, end=end: lines().get(name) == str(os.path.getsize(file + end)))
    yield "memory of the process", int(lines()["process_resident_memory_bytes"]) > 1 << 20
    # Linux counts them since 6.2; a client of the page has one
    if os.stat("/proc/self/fd").st_size:
        yield "descriptors of the process", soon(lambda: abs(int(lines().get("process_open_fds", 0)) - len(os.listdir("/proc/%d/fd" % process.pid))) <= 2)
    version = subprocess.run([servers.HANDLED, "--version"], capture_output=True, text=True, check=True).stdout.split(" ", 1)[1].strip()
    yield "the version", lines().get('handled_build_info{version="%s"}' % version) == "1"
    yield "the head of /health", headed(status, "/health") == (200, 3, b"")
    code, length, body = headed(status, "/metrics")
    yield "the head of /metrics", (code, body) == (200, b"") and length > 1000
    yield "the head of no page", headed(status, "/none")[::2] == (404, b"")


def ended(process, control, file, clients):
    """The server ends in order, though its clients stay connected."""
    last = Stream.ask(clients[0], create(b"10/last"))
    done, seconds = stop(control)
    yield "the end was asked for", (last, done.returncode, done.stdout, done.stderr) == (wire.SUCCESS, 0, b"", b"") and seconds < END
    yield "the server ended", process.wait(END) == 0
    said = process.stderr.read().decode().splitlines()
    yield "the end is said", said[-1:] == ["handled: ends: asked by `handled stop`"]
    for client in clients:
        with contextlib.suppress(OSError):
            yield "a client is left", client.socket.recv(1) == b""
    yield "the log was copied into the file", os.path.exists(file) and not os.path.exists(control) and os.path.getsize(file + "-wal") < NOTED
    again, _ = stop(control)
    yield "nobody to stop", (again.returncode, again.stderr.split(b":")[0]) == (1, b"stop")
    process, (port, _) = servers.serve(tenants, 2, options=("--table", file, "--control", control))
    client = Stream(port)
    yield "what was answered is there", client.ask(create(b"10/last")) == 101
    process.kill()
    process.wait()
    process.stdout.close()
    yield "a socket that nobody listens at stays", os.path.exists(control)
    process, _ = servers.serve(tenants, 2, options=("--table", file, "--control", control))
    other = subprocess.run([servers.HANDLED, "serve", "--control", control], input=tenants(*servers.free_ports(2)), stdout=subprocess.PIPE, stderr=subprocess.PIPE)
    yield "a path that another server has", (other.returncode, b"cannot make the socket of --control" in other.stderr, other.stderr.splitlines()[-1:]) == (1, True, [b"device fault"])
    with open(file, "rb") as kept:
        before = kept.read()
    other = subprocess.run([servers.HANDLED, "serve", "--control", file], input=tenants(*servers.free_ports(2)), stdout=subprocess.PIPE, stderr=subprocess.PIPE)
    with open(file, "rb") as kept:
        yield "a file isn't taken for a socket, and stays", (other.returncode, b"the path is that of a file" in other.stderr, kept.read() == before) == (1, True, True)
    done, _ = stop(control)
    yield "it ends too", done.returncode == 0 and process.wait(END) == 0
    process.stdout.close()


def said_to(control, word="reopen"):
    done = subprocess.run([servers.HANDLED, word, "--control", control], capture_output=True, timeout=60 * servers.SLOWER, check=False)
    return done.returncode, done.stdout, done.stderr


def rotated(folder):
    """A log is renamed, and the server asked to open it anew: each line is in one of the two, and a file that can't be opened is told."""
    log, control = os.path.join(folder, "rotated.log"), os.path.join(folder, "rotates")
    process, (acme, _) = servers.serve(tenants, 2, options=("--log", log, "--control", control), stderr=subprocess.PIPE)
    client, asked = Stream(acme), 0

    def ask():
        nonlocal asked
        asked += client.ask(delete(b"10/gone")) == wire.ABSENT

    ask()
    os.rename(log, log + ".1")
    ask()
    yield "lines go on in the file that was renamed", len(logged(log + ".1", 2)) == 2 and not os.path.exists(log)
    yield "the word is taken", said_to(control) == (0, b"", b"")
    yield "the file is made anew, for its user alone", soon(lambda: os.path.exists(log)) and os.stat(log).st_mode & 0o777 == 0o600

    def goes_on():
        ask()
        return os.path.getsize(log)

    yield "lines go on there", soon(goes_on)
    yield "and none is lost", soon(lambda: sum(len(logged(one, 0)) for one in (log, log + ".1")) == asked)
    os.rename(log, log + ".2")
    os.mkdir(log)
    before = os.path.getsize(log + ".2")
    yield "a folder is in its place", said_to(control) == (0, b"", b"")
    said = next((line for line in process.stderr if line.startswith(b"log: ")), b"")
    yield "it is told", said.startswith(b"log: the file can't be opened anew")
    ask()
    yield "lines go on as before", soon(lambda: os.path.getsize(log + ".2") > before)
    servers.end(process)
    process.stderr.close()
    code, _, said = said_to(control)
    yield "nobody is there to open it", code == 1 and said.startswith(b"reopen: no server answers at ")
    control = os.path.join(folder, "logless")
    process, _ = servers.serve(tenants, 2, options=("--control", control))
    code, _, said = said_to(control)
    yield "there is no file of a log", code == 1 and b"writes its log into no file" in said
    yield "it goes on until its end", stop(control)[0].returncode == 0 and process.wait(END * servers.SLOWER) == 0
    process.stdout.close()


def taken(folder):
    """A server that can't listen doesn't say that it begins."""
    with socket.create_server(("127.0.0.1", 0)) as holder:
        port = holder.getsockname()[1]
        for name, ports, options in (("a port of a publisher", (port, *servers.free_ports(1)), ()), ("the port of the status page", servers.free_ports(2), ("--status", "127.0.0.1:%d" % port))):
            for file in ((), ("--table", os.path.join(folder, "taken.db"))):
                done = subprocess.run([servers.HANDLED, "serve", *options, *file], input=tenants(*ports), capture_output=True, timeout=60 * servers.SLOWER, check=False)
                yield name + " is taken: nothing begins", done.returncode == 1 and b"cannot listen on 127.0.0.1:%d: " % port in done.stderr and b"begins" not in done.stderr and not done.stdout
    first, second = ports = servers.free_ports(2)
    told = (
        ("--control", os.path.join(folder, "none", "control"), b"cannot make the socket of --control: its folder is missing"),
        ("--control", folder, b"cannot make the socket of --control: "),
        ("--status", "127.0.0.1:%d" % second, b"cannot listen on 127.0.0.1:%d: " % second),
    )
    for option, word, said in told:
        done = subprocess.run([servers.HANDLED, "serve", option, word, *file], input=tenants(*ports), capture_output=True, timeout=60 * servers.SLOWER, check=False)
        yield "%s that can't be had" % option, done.returncode == 1 and said in done.stderr and done.stderr.endswith(b"\ndevice fault\n") and not done.stdout
    yield "none of them leaves a table", not os.path.exists(file[1])
    other = os.path.join(folder, "other")
    with open(other, "wb") as octets:
        octets.write(tenants(*ports))
    link = os.path.join(folder, "link")
    os.symlink(other, link)
    for option, *more in (("--table", "--table", file[1], "--log", file[1]), ("--text", "--text", other, "--log", link)):
        done = subprocess.run([servers.HANDLED, "serve", *more], input=tenants(*ports), capture_output=True, timeout=60 * servers.SLOWER, check=False)
        said = "error: invalid value '%s' for '--log <FILE>': this is the file of %s: name another one\n" % (more[-1], option)
        yield "a log in the file of %s" % option, done.returncode == 2 and done.stderr.startswith(said.encode()) and not os.path.exists(file[1])
    done = subprocess.run([servers.HANDLED, "serve", "--table", other], input=tenants(*ports), capture_output=True, timeout=60 * servers.SLOWER, check=False)
    with open(other, "rb") as octets:
        yield "a file that is no database gets no log", done.returncode == 4 and octets.read() == tenants(*ports) and not os.path.exists(other + "-wal")
    control = os.path.join(folder, "left")
    with contextlib.closing(socket.socket(socket.AF_UNIX)) as left:
        left.bind(control)
    process, _ = servers.serve(tenants, 2, options=("--control", control, *file))
    yield "what a killed server left at --control is replaced before a table is made", stop(control)[0].returncode == 0 and process.wait(END * servers.SLOWER) == 0 and os.path.exists(file[1])
    process.stdout.close()


def out_of_threads(folder):
    """A server that can't start a thread says so, and what to do."""
    if not servers.can_be(OTHER):
        return
    os.chmod(folder, 0o755)
    for most in (1, 4):
        done = subprocess.run([servers.HANDLED, "serve"], input=tenants(*servers.free_ports(2)), capture_output=True, timeout=60 * servers.SLOWER, check=False,
                              user=OTHER, group=OTHER, extra_groups=[], preexec_fn=lambda: resource.setrlimit(resource.RLIMIT_NPROC, (most, most)))
        said = done.stderr.splitlines()
        yield "no more than %d threads" % most, done.returncode == 1 and said[-2:-1] == [THREADS] and said[-1] == b"device fault"


def busy_end(folder):
    """A server ends while clients ask without a pause: what was asked before is answered."""
    control = os.path.join(folder, "busy")
    process, (acme, _) = servers.serve(tenants, 2, options=("--control", control))
    client = Stream(acme)
    asked = [wire.frame(wire.resolution(b"10/open"), 0, request) for request in range(1, 200)]
    client.socket.sendall(b"".join(asked))
    replies = [code_of(client.reply()[1]) for _ in asked]
    client.socket.sendall(b"".join(asked))
    done, seconds = stop(control)
    got = b""
    with contextlib.suppress(OSError):
        while more := client.socket.recv(65536):
            got += more
    whole = [head for head in wire.heads(got)]
    yield "answers before the end", set(replies) == {1} and done.returncode == 0 and seconds < END
    yield "whole answers up to the end", [request for request, _ in whole] == list(range(1, len(whole) + 1))
    process.wait()
    process.stdout.close()


def failing(folder):
    """A log that can't be written, and a table that is shut."""
    process, (acme, _) = servers.serve(tenants, 2, options=("--log", "/dev/full"), stderr=subprocess.PIPE)
    client = Stream(acme)
    yield "changes without a log", changes(client, b"full")[1]
    time.sleep(1)
    servers.end(process)
    said = [line for line in process.stderr.read().decode().splitlines() if line.startswith("log: ")]
    yield "a full disk is said once", len(said) == 1 and "can't be written" in said[0]
    done = subprocess.run([servers.HANDLED, "serve", "--log", os.path.join(folder, "none", "log")], input=tenants(*servers.free_ports(2)), stdout=subprocess.PIPE, stderr=subprocess.PIPE)
    yield "no folder of a log", (done.returncode, done.stderr[:16]) == (1, b"log: cannot open")
    done = subprocess.run([servers.HANDLED, "serve", "--status", "127.0.0.1"], input=b"", stdout=subprocess.PIPE, stderr=subprocess.PIPE)
    yield "no port of a status page", (done.returncode, b"not an address with a port" in done.stderr) == (2, True)
    process, (acme, _) = servers.serve(tenants, 2, options=("--log", "-"), stderr=subprocess.PIPE)
    Stream(acme).ask(delete(b"10/gone"))
    said = next(line.decode() for line in process.stderr if b"acme" in line)
    yield "a log on standard error", "acme 0 127.0.0.1:" in said and said.endswith(" delete 10/gone - 100\n")
    servers.end(process)
    process.stderr.close()


def limited():
    """No file grows beyond 200,000 octets, and who tries gets an error."""
    signal.signal(signal.SIGXFSZ, signal.SIG_IGN)
    resource.setrlimit(resource.RLIMIT_FSIZE, (200000, 200000))


def full(folder):
    """A table whose file can't grow: what isn't written is counted as busy, and reads go on. A table that is shut is seen by tools/trials/refuse-disk."""
    status, = servers.free_ports(1)
    options = ("--table", os.path.join(folder, "small.db"), "--status", "127.0.0.1:%d" % status)
    process, (acme, _) = servers.serve(tenants, 2, options=options, stderr=subprocess.PIPE, preexec_fn=limited)
    client = Stream(acme)
    codes = [client.ask(create(b"10/%d" % number)) for number in range(200)]
    yield "a file that can't grow", codes[0] == 1 and codes[-1] == 3
    busy = sum(code == 3 for code in codes)
    line = 'handled_replies_total{publisher="acme",operation="create",code="3"} %d' % busy
    yield "busy changes are counted", soon(lambda: line in page(status, "/metrics")[2].splitlines())
    yield "reads go on", client.ask(wire.resolution(b"10/open")) == 1
    servers.end(process)
    process.stderr.close()


def together(folder):
    """Clients by datagrams that ask at the same time, all with the same RequestIds, and between their frames pieces of messages that nobody makes whole."""
    log = os.path.join(folder, "together.log")
    process, (acme, _) = servers.serve(tenants, 2, options=("--log", log))
    clients, strangers = ([Datagrams(acme) for _ in range(8)] for _ in range(2))
    handles = [b"10/together-%d" % number for number in range(len(clients))]
    piece = b"\2\1\x20\0" + wire.number(0) + wire.number(1) + wire.number(0) + wire.number(600) + b"x" * 492
    for client, handle, stranger in zip(clients, handles, strangers):
        stranger.socket.send(piece)
        client.send(create(handle))
    asked = [client.reply() for client in clients]
    yield "each is challenged", all(code_of(reply) == wire.AUTHENTICATION_NEEDED for _, reply in asked) and len({session for session, _ in asked}) == len(clients)
    for client, handle, stranger, (session, reply) in zip(clients, handles, strangers, asked):
        client.send(wire.response(create(handle), KEY, b"0.NA/10", 300, nonce=reply[-20:-4]), session)
        stranger.socket.send(piece)
    yield "each is done", [code_of(client.reply()[1]) for client in clients] == [wire.SUCCESS] * len(clients)
    lines = ["acme 1 %s create %s %s 1" % (client.address, handle.decode(), REFERENCE) for client, handle in zip(clients, handles)]
    yield "the log of datagrams that came together", sorted(logged(log, len(lines)) or []) == sorted(lines)
    servers.end(process)


def header(command, family, rest):
    """A header of the PROXY protocol, version 2."""
    return b"\r\n\r\n\0\r\nQUIT\n" + bytes([0x20 | command, family]) + len(rest).to_bytes(2, "big") + rest


class Proxied(Stream):
    """A client by a connection of the proxy, which begins with these octets."""

    def __init__(self, port, *parts):
        self.socket = socket.create_connection(("127.0.0.1", port), 30, (PROXY, 0))
        self.socket.setsockopt(socket.IPPROTO_TCP, socket.TCP_NODELAY, 1)
        self.address = "%s:%d" % self.socket.getsockname()
        self.request = 0
        for part in parts:
            self.socket.sendall(part)
            time.sleep(0.05)


def closed(client):
    """Whether the server closes a connection without an answer."""
    with contextlib.suppress(ConnectionError):
        client.send(delete(b"10/unheard"))
        return client.socket.recv(1) == b""
    return True


def behind_a_proxy(folder):
    """A proxy says whose its connections are, on a lane for one connection and on the overflow lane; nobody else is believed, and the proxy has to say it."""
    log = os.path.join(folder, "proxied.log")
    process, (acme, bolt) = servers.serve(tenants, 2, options=("--log", log, "--proxied", PROXY))
    ports = (50001).to_bytes(2, "big") + (2641).to_bytes(2, "big")
    v4 = header(1, 0x11, socket.inet_aton("192.0.2.7") + socket.inet_aton("192.0.2.1") + ports)
    v6 = header(1, 0x21, socket.inet_pton(socket.AF_INET6, "2001:db8::7") + bytes(16) + ports + b"\4\0\1\0")
    expected = []
    for name, from_, parts in (("in pieces", "192.0.2.7:50001", (v4[:5], v4[5:20], v4[20:])), ("by IPv6", "[2001:db8::7]:50001", (v6,)), ("for itself", None, (header(0, 0, b""),)),
                               ("by another family", None, (header(1, 0x31, b"x" * 216),))):
        client = Proxied(acme, *parts)
        yield "the proxy speaks %s" % name, client.ask(delete(b"10/gone")) == wire.ABSENT
        expected.append("acme 0 %s delete 10/gone - 100" % (from_ or client.address))
        client.socket.close()
    client = Proxied(acme, v4 + wire.frame(delete(b"10/gone"), 0, 1))
    yield "a request comes with the header", code_of(client.reply()[1]) == wire.ABSENT
    expected.append("acme 0 192.0.2.7:50001 delete 10/gone - 100")
    client.socket.close()
    for name, octets in (("no header", b""), ("version 1", b"PROXY TCP4 192.0.2.7 192.0.2.1 50001 2641\r\n"), ("another command", header(2, 0x11, bytes(12))), ("too long a header", header(1, 0x11, bytes(1009))),
                         ("too short a header", header(1, 0x21, bytes(35)))):
        client = Proxied(acme, octets)
        yield name, closed(client)
        client.socket.close()
    client = Stream(acme)
    yield "another address has no header", client.ask(delete(b"10/gone")) == wire.ABSENT
    expected.append("acme 0 %s delete 10/gone - 100" % client.address)
    others = [Proxied(bolt, header(0, 0, b"")) for _ in range(2)]
    for other in others:
        yield "a lane answers", other.ask(wire.resolution(b"10/open")) == wire.SUCCESS
    for name, parts in (("in pieces", (v4[:13], v4[13:])), ("with a request", (v4,))):
        crowded = Proxied(bolt, *parts)
        yield "the proxy speaks on the overflow lane, %s" % name, crowded.ask(delete(b"10/gone")) == wire.ABSENT
        expected.append("bolt 2 192.0.2.7:50001 delete 10/gone - 100")
    yield "no header on the overflow lane", closed(Proxied(bolt))
    yield "the log names the clients", logged(log, len(expected)) == expected
    servers.end(process)
    done = subprocess.run([servers.HANDLED, "serve", "--proxied", "localhost"], input=b"", stdout=subprocess.PIPE, stderr=subprocess.PIPE)
    yield "no address of a proxy", (done.returncode, b"'--proxied <ADDRESS>'" in done.stderr) == (2, True)


def main():
    with tempfile.TemporaryDirectory() as folder:
        return servers.tally(case for part in (watched, rotated, taken, together, behind_a_proxy, busy_end, failing, full, out_of_threads) for case in part(folder))


sys.exit(main())

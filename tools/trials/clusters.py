"""clusters.py [ROUNDS [SEED]]: tries servers that have one table in etcd, over the program crates/handled/out/handled.

Three members of etcd and three servers run on loopback. In each of ROUNDS rounds (10) clients change and read handles through each server, while members or servers are killed or stopped, or
the wires between them are cut or held. Then
what the clients were told is compared with the list of changes that etcd has, which is read here anew: each entry is behind the one before; a change that was answered stands there once, one that
was refused or answered busy doesn't, and one without an answer at most once; a change that was asked for behind the answer of another stands behind it; a read is what the list gives, and no
server goes back; in the end all servers, and the handles in etcd, have the table of the whole list. Then one case each: a server that is cut off, also while a change is under way, one that starts without a member, lists that
went back or were written by somebody else, a member at a Unix socket, a backup that is restored, and members whose space is spent.

Where etcd isn't installed (Debian: etcd-server) nothing is tried, which is said. Its last line is 'N passed, M failed'."""

import contextlib
import hashlib
import os
import random
import re
import shutil
import signal
import struct
import subprocess
import sys
import tempfile
import threading
import time
import urllib.error
import urllib.request

# nothing is left beside the tools
sys.dont_write_bytecode = True
from lib import cluster, publisher, servers, wire

# What the gate reads of it (tools/build/parts.py).
GATE = {"alone": True}
ROUNDS, SEED = 10, 1
BUSY = 3
# Seconds of a round, and of a fault in it.
ROUND, FAULT = 2.0, (0.2, 1.2)
# Handles that clients of all servers change.
SHARED = [b"10/shared-%d" % number for number in range(4)]
NAME = b"handles"
OPENED = b"0.NA/10"


# ---- members and servers


# ---- clients

class Told:
    """What a client asked for and was told: the code of a change, or the data of a read. None where no answer came."""

    def __init__(self, server, act, handle, data):
        self.server, self.act, self.handle, self.data = server, act, handle, data
        self.since, self.until, self.answer = time.monotonic(), None, None

    def end(self, answer):
        self.answer, self.until = answer, time.monotonic()


class Clients:
    """Clients of all servers, and what they were told."""

    def __init__(self, ports):
        self.ports, self.told, self.lock, self.ended, self.numbers = ports, [], threading.Lock(), threading.Event(), iter(range(1 << 60))

    def begin(self, server, act, handle, data=None):
        told = Told(server, act, handle, data)
        with self.lock:
            self.told.append(told)
        return told

    def number(self):
        with self.lock:
            return next(self.numbers)

    def act(self, client, server, own, chance):
        """One request."""
        handle = chance.choice(SHARED) if chance.random() < 0.4 or not own else chance.choice(own)
        kind = chance.random()
        if kind < 0.25:
            handle = chance.choice(SHARED) if chance.random() < 0.5 else b"10/own-%d" % self.number()
            told = self.begin(server, "create", handle, b"u%d-" % self.number())
            told.end(client.create(handle, told.data))
            if told.answer == wire.SUCCESS and handle not in SHARED:
                own.append(handle)
        elif kind < 0.5:
            told = self.begin(server, "modify", handle, b"u%d-" % self.number())
            told.end(client.modify(handle, told.data))
        elif kind < 0.6:
            told = self.begin(server, "delete", handle)
            told.end(client.delete(handle))
        else:
            told = self.begin(server, "read", handle)
            told.end((client.data_of(handle),))

    def run(self, server, seed):
        chance, own = random.Random(seed), []
        while not self.ended.is_set():
            with contextlib.suppress(OSError, struct.error), publisher.Client(self.ports[server]) as client:
                client.stream.settimeout(20 * servers.SLOWER)
                while not self.ended.is_set():
                    self.act(client, server, own, chance)
            time.sleep(0.02)


# ---- what is compared

def entry_of(octets):
    """An entry: its number, the sum before it, and its messages."""
    number, before, count = struct.unpack(">Q16x32sI", octets[:60])
    messages, at = [], 60
    for _ in range(count):
        length = struct.unpack(">I", octets[at + 8:at + 12])[0]
        messages.append(octets[at + 12:at + 12 + length])
        at += 12 + length
    return number, before, messages if at == len(octets) else None


ACTS = {wire.CREATE: "create", wire.MODIFY: "modify", wire.DELETE: "delete", wire.ADD: "add"}


def change_of(message):
    """What a message changes: the act, the handle, and the data of a URL, if it has one."""
    act, length = ACTS[struct.unpack(">I", message[:4])[0]], struct.unpack(">I", message[24:28])[0]
    handle, data = message[28:28 + length].lower(), None
    parts = message[28 + length:].split(b"\0\0\0\3URL")
    if len(parts) == 2:
        data = parts[1][4:4 + struct.unpack(">I", parts[1][:4])[0]]
    return act, handle, data


class Journal:
    """The list of changes, as it stands in etcd."""

    def __init__(self):
        self.entries, self.faults = {}, []

    def take(self, members):
        for key, octets in members.range(NAME + b"/e/", NAME + b"/e0"):
            number = int(key.rsplit(b"/", 1)[1], 16)
            if self.entries.setdefault(number, octets) != octets:
                self.faults.append("entry %d was changed" % number)

    def follow(self):
        """Goes through the list: the states of each handle, with the number from which on it has each, and where each change stands."""
        self.states, self.places, self.deletes, before = {}, {}, {}, bytes(32)
        self.last = len(self.entries)
        for number in range(1, self.last + 1):
            octets = self.entries.get(number)
            if octets is None:
                self.faults.append("there is no entry %d" % number)
                return
            own, behind, messages = entry_of(octets)
            if own != number or behind != before or not messages:
                self.faults.append("entry %d isn't behind the one before" % number)
            before = hashlib.sha256(octets).digest()
            for message in messages or []:
                self.change(number, *change_of(message))
        self.sum = before

    def change(self, number, act, handle, data):
        states = self.states.setdefault(handle, [(0, None)])
        is_there = states[-1][1] is not None
        if is_there == (act == "create"):
            self.faults.append("entry %d can't %s %s" % (number, act, handle))
        states.append((number, None if act == "delete" else data or b""))
        if act == "delete":
            self.deletes.setdefault(handle, []).append(number)
        elif data:
            if data in self.places:
                self.faults.append("%s was made twice" % data)
            self.places[data] = number

    def first_at(self, handle, data, low):
        """The first number from `low` on at which a handle has this data."""
        states = self.states.get(handle, [(0, None)])
        for (number, found), (end, _) in zip(states, states[1:] + [(1 << 62, None)]):
            if found == data and end > low:
                return max(number, low)
        return None

    def table(self):
        return {handle: states[-1][1] for handle, states in self.states.items() if states[-1][1] is not None}


def compare_changes(journal, told):
    """The faults of what was told of changes that have data of their own."""
    for one in told:
        if one.act not in ("create", "modify"):
            continue
        is_made = one.data in journal.places
        if one.answer == wire.SUCCESS and not is_made:
            yield "the %s of %s was answered and isn't there" % (one.act, one.data)
        if one.answer not in (None, wire.SUCCESS) and is_made:
            yield "the %s of %s was answered %d and is there" % (one.act, one.data, one.answer)


def compare_deletes(journal, told):
    """The faults of what was told of deletes, handle by handle."""
    counts = {}
    for one in told:
        if one.act == "delete":
            made, open_ones = counts.get(one.handle, (0, 0))
            counts[one.handle] = (made + (one.answer == wire.SUCCESS), open_ones + (one.answer is None))
    for handle, (made, open_ones) in counts.items():
        found = len(journal.deletes.get(handle, []))
        if not made <= found <= made + open_ones:
            yield "%s was deleted %d times and not %d to %d times" % (handle, found, made, made + open_ones)


def compare_order(journal, told):
    """The faults of changes that were asked for behind the answer of others."""
    made = [(one, journal.places[one.data]) for one in told if one.answer == wire.SUCCESS and one.data in journal.places]
    answered, high, at = sorted(made, key=lambda it: it[0].until), 0, 0
    for one, number in sorted(made, key=lambda it: it[0].since):
        while at < len(answered) and answered[at][0].until < one.since:
            high, at = max(high, answered[at][1]), at + 1
        if number <= high:
            yield "entry %d was asked for behind the answer of entry %d" % (number, high)


def compare_reads(journal, told, server):
    """The faults of what a server was read: it has what it answered before, and never goes back."""
    own = [one for one in told if one.server == server and one.until]
    events = sorted(own, key=lambda one: one.since)
    answered, high, at, numbers = sorted(own, key=lambda one: one.until), 0, 0, {}
    for one in events:
        while at < len(answered) and answered[at].until < one.since:
            high, at = max(high, numbers.get(id(answered[at]), 0)), at + 1
        if one.act == "read":
            number = journal.first_at(one.handle, one.answer[0], high)
            if number is None:
                yield "server %d had %s of %s, which isn't so from %d on" % (server, one.answer[0], one.handle, high)
            numbers[id(one)] = number or 0
        elif one.answer == wire.SUCCESS and one.data in journal.places:
            numbers[id(one)] = journal.places[one.data]


def compare_keys(journal, members):
    """The faults of the handles in etcd, against the table of the list."""
    handles = {key[len(NAME) + 3:] for key, _ in members.range(NAME + b"/h/", NAME + b"/h0")}
    data = {}
    for _, octets in members.range(NAME + b"/v/", NAME + b"/v0"):
        act, handle, found = change_of(octets[8:])
        if act == "add" and found is not None:
            data[handle] = found
    table = journal.table()
    if handles != set(table):
        yield "the handles in etcd aren't those of the list"
    if data != {handle: found for handle, found in table.items() if found}:
        yield "the values in etcd aren't those of the list"
    head = dict(members.range(NAME + b"/head")).get(NAME + b"/head")
    if head != struct.pack(">Q", journal.last) + journal.sum:
        yield "the head in etcd isn't that of the list"


def compare_sums(running):
    """The faults of the numbers and sums of changes that servers have in the end."""
    sums = set()
    for server in running:
        with urllib.request.urlopen("http://127.0.0.1:%d/metrics" % server.status, timeout=5) as answer:
            sums.update(re.findall(r"^handled_cluster_sum\{.*$", answer.read().decode(), re.M))
    if len(sums) != 1:
        yield "servers have %s" % sorted(sums)


def compare_servers(journal, running):
    """The faults of what servers answer in the end."""
    table = journal.table()
    handles = [handle for handle in journal.states if handle != OPENED.lower()]
    for place, server in enumerate(running):
        with publisher.Client(server.port) as client:
            for handle in handles:
                found = client.data_of(handle)
                if found != table.get(handle):
                    yield "server %d has %s of %s and not %s" % (place, found, handle, table.get(handle))


def export(server, *words):
    """Exports the table that the server's members have."""
    at = server.words.index("--cluster")
    return subprocess.run([servers.HANDLED, "export", *server.words[at:at + 2], *words], input=server.text(), capture_output=True, check=False)


def compare_export(journal, done):
    """The faults of an export, against the table of the list."""
    data = {}
    for line in done.stdout.decode().splitlines():
        word, *rest = line.split(" ")
        if word != "value":
            continue
        handle, octets = rest[0].encode(), bytes.fromhex(rest[1])
        found = change_of(wire.message(wire.ADD, wire.string(handle) + wire.listed([octets])))[2]
        if found is not None:
            data[handle] = found
    table = journal.table()
    if data != {handle: found for handle, found in table.items() if found}:
        yield "what is exported isn't what the list gives"
    if done.returncode:
        yield "status %d: %s" % (done.returncode, done.stderr)


# ---- rounds

def one_fault(members, running, chance):
    """Does something to members, servers or wires for a while."""
    kind, place = chance.randrange(11), chance.randrange(cluster.MEMBERS)
    hit = {0: [place], 1: [members.leader()], 2: [place, (place + 1) % cluster.MEMBERS], 3: list(range(cluster.MEMBERS))}.get(kind, [])
    shot = {4: [place], 5: list(range(cluster.SERVERS))}.get(kind, [])
    for one in hit:
        members.kill(one)
    for one in shot:
        running[one].kill()
    if kind == 6:
        members.send(place, signal.SIGSTOP)
    if kind == 7:
        running[place].send(signal.SIGSTOP)
    struck = {8: running[place].wires[:1], 9: running[place].wires, 10: running[place].wires}.get(kind, [])
    for one in struck:
        (one.hold if kind == 10 else one.cut)()
    time.sleep(chance.uniform(*FAULT))
    if kind == 6:
        members.send(place, signal.SIGCONT)
    if kind == 7:
        running[place].send(signal.SIGCONT)
    for one in struck:
        one.mend()
    members.start_all()
    for one in shot:
        running[one].start()


def no_fault(members, running, chance):
    """Leaves all as they are."""

def round_of(number, members, running, clients, seed, fault=one_fault):
    chance = random.Random(seed * 1000 + number)
    clients.ended.clear()
    threads = [threading.Thread(target=clients.run, args=(place % cluster.SERVERS, seed * 100000 + number * 100 + place)) for place in range(cluster.SERVERS * cluster.CLIENTS)]
    for thread in threads:
        thread.start()
    time.sleep(chance.uniform(0.2, 0.6))
    fault(members, running, chance)
    time.sleep(ROUND)
    clients.ended.set()
    for thread in threads:
        thread.join()


def rounds(folder, count, seed):
    """Whether each round went as it should, with what is compared of all behind them."""
    members = cluster.Members(folder)
    running = [cluster.Server(members, place, folder) for place in range(cluster.SERVERS)]
    clients, journal = Clients([server.port for server in running]), Journal()
    try:
        members.start_all()
        for server in running:
            server.start()
        round_of(count, members, running, clients, seed, no_fault)
        answers = [one.answer for one in clients.told if one.act != "read"]
        yield "hardly a change is answered busy while all run", 50 * answers.count(BUSY) <= len(answers)
        for number in range(count):
            round_of(number, members, running, clients, seed)
            journal.take(members)
            yield "round %d" % number, not journal.faults
        time.sleep(1)
        yield from all_compared(journal, members, running, clients.told)
        yield from cut_off(members, running)
        yield from held(running)
        yield from followed(running)
        yield from written_by_others(members, running)
    finally:
        for server in running:
            server.kill()
        members.end()


def is_clean(what, faults):
    faults = list(faults)
    for fault in faults[:10]:
        print("%s: %s" % (what, fault))
    return what, not faults


def all_compared(journal, members, running, told):
    journal.take(members)
    journal.follow()
    answers = [one.answer for one in told if one.act != "read"]
    print("%d changes made, %d answered as made, %d busy, %d without an answer, %d reads" % (
        journal.last, answers.count(wire.SUCCESS), answers.count(BUSY), answers.count(None), len(told) - len(answers)))
    yield is_clean("one list", journal.faults)
    yield is_clean("what was answered", compare_changes(journal, told))
    yield is_clean("deletes", compare_deletes(journal, told))
    yield is_clean("order", compare_order(journal, told))
    for place in range(cluster.SERVERS):
        yield is_clean("reads of server %d" % place, compare_reads(journal, told, place))
    yield is_clean("keys", compare_keys(journal, members))
    yield is_clean("servers", compare_servers(journal, running))
    yield is_clean("sums", compare_sums(running))
    yield is_clean("export", compare_export(journal, export(running[0])))
    nothing = export(running[0], "--cluster-name", "nothing")
    yield "an export of a name that isn't there is refused", (nothing.returncode, nothing.stdout) == (4, b"") and b"check --cluster and --cluster-name" in nothing.stderr


def until(holds, seconds):
    ends = time.monotonic() + seconds * servers.SLOWER
    while time.monotonic() < ends:
        if holds():
            return True
        time.sleep(0.1)
    return False


def cut_off(members, running):
    """Servers without a quorum of members."""
    server = running[0]
    with publisher.Client(server.port) as client:
        client.create(b"10/cut", b"before")
        members.kill(1)
        members.kill(2)
        yield "a server that is cut off says so", until(lambda: server.health() == 503, 20)
        yield "it answers changes busy", client.modify(b"10/cut", b"while") == BUSY
        yield "it answers what it has", client.data_of(b"10/cut") == b"before"
        members.start_all()
        yield "it goes on", until(lambda: server.health() == 200, 20)
        yield "it takes changes again", until(lambda: client.modify(b"10/cut", b"after") == wire.SUCCESS, 20)
        yield "it has said both", "no member answers for 5 seconds" in server.said() and "members answer again" in server.said()


def held(running):
    """A server whose change is under way while no member answers."""
    server, codes = running[0], []
    with publisher.Client(server.port) as first, publisher.Client(server.port) as second, publisher.Client(server.port) as third:
        for client in (first, second):
            client.stream.settimeout(30 * servers.SLOWER)
        for one in server.wires:
            one.hold()
        waiting = threading.Thread(target=lambda: codes.append(first.modify(b"10/cut", b"held")))
        waiting.start()
        time.sleep(0.5)
        yield "another change is answered busy while one is under way", second.modify(b"10/cut", b"other") == BUSY
        yield "its lane goes on", second.data_of(b"10/cut") == b"after"
        yield "others go on", third.data_of(b"10/cut") == b"after"
        yield "the change under way waits", not codes
        for one in server.wires:
            one.mend()
        waiting.join()
        yield "it is made once a member answers", codes == [wire.SUCCESS] and third.data_of(b"10/cut") == b"held"


def followed(running):
    """How a server follows another one: by a watch, and without it."""
    first, second = running[:2]
    ranges = sum(one.ranges for one in second.wires)
    time.sleep(3)
    yield "an idle server asks about once a second", sum(one.ranges for one in second.wires) - ranges <= 6 * servers.SLOWER
    with publisher.Client(first.port) as client, publisher.Client(second.port) as other:
        for one in second.wires:
            one.is_silent = True
        client.create(b"10/silent", b"made")
        yield "a server whose watch is silent has others' changes", until(lambda: other.data_of(b"10/silent") == b"made", 5)
        for one in second.wires:
            one.is_silent = False
        for one in second.wires:
            one.cut()
            one.mend()
        client.modify(b"10/silent", b"again")
        yield "so has one whose watch was cut", until(lambda: other.data_of(b"10/silent") == b"again", 5)


def ends_with(server, status, words):
    """Whether a server ends with this status and these words."""
    try:
        return server.process.wait(20 * servers.SLOWER) == status and words in server.said()
    except subprocess.TimeoutExpired:
        return False


def written_by_others(members, running):
    """Lists that somebody else wrote, or took back."""
    last = struct.unpack(">Q", dict(members.range(NAME + b"/head"))[NAME + b"/head"][:8])[0]
    entry = NAME + b"/e/%016x" % (last + 1)
    running[2].kill()
    members.put(entry, struct.pack(">Q16x32sI", last + 1, bytes(32), 0))
    yield "an entry of somebody else ends a server", ends_with(running[0], 6, "entry %d isn't behind the one before" % (last + 1))
    members.delete(entry, entry + b"\0")
    running[2].start()
    members.delete(NAME + b"/", NAME + b"0")
    yield "a list that went back ends a server", ends_with(running[2], 6, "the journal went back from %d" % last)


def etcdctl(words, *addresses):
    """Runs etcdctl, over these members."""
    ends = ["--endpoints", ",".join(addresses)] if addresses else []
    subprocess.run(["etcdctl", *ends, *words], env={**os.environ, "ETCDCTL_API": "3"}, check=True, capture_output=True)


def restore(members, backup):
    """Ends all members, and starts them from a backup."""
    members.end()
    for place in range(members.count):
        folder = os.path.join(members.folder, "m%d" % place)
        shutil.rmtree(folder)
        words = dict(zip(*[iter(members.words(place)[1:])] * 2))
        same = ("--name", "--data-dir", "--initial-cluster", "--initial-cluster-token")
        rest = [word for name in same for word in (name, words[name])]
        etcdctl(["snapshot", "restore", backup, "--initial-advertise-peer-urls", members.peer(place), *rest])
    members.start_all()


def backups(folder):
    """A backup of the members is restored under a server, and over a server that starts anew."""
    os.mkdir(folder)
    members = cluster.Members(folder)
    server = cluster.Server(members, 0, folder)
    try:
        members.start_all()
        server.start()
        with publisher.Client(server.port) as client:
            client.create(b"10/kept", b"before")
            backup = os.path.join(folder, "backup")
            etcdctl(["snapshot", "save", backup], members.address(0))
            client.create(b"10/lost", b"behind")
        restore(members, backup)
        yield "a restored backup ends a server", ends_with(server, 6, "cluster: the journal went back")
        server.start()
        with publisher.Client(server.port) as client:
            yield "it starts with what the backup has", client.data_of(b"10/kept") == b"before" and client.data_of(b"10/lost") is None
            yield "it takes changes behind it", client.create(b"10/lost", b"again") == wire.SUCCESS
    finally:
        server.kill()
        members.end()


# Octets that a small member has, and those of a value.
SPACE, LARGE = 4 << 20, 30_000


class SmallMembers(cluster.Members):
    """Members with little space."""

    space = SPACE

    def words(self, place):
        return [*super().words(place), "--quota-backend-bytes", str(self.space)]


def spent(folder):
    """A member whose space is spent, and gets more."""
    os.mkdir(folder)
    members = SmallMembers(folder, 1)
    server = cluster.Server(members, 0, folder)
    try:
        members.start_all()
        server.start()
        with publisher.Client(server.port) as client:
            count = 0
            while client.create(b"10/large-%d" % count, b"x" * LARGE) == wire.SUCCESS and count < SPACE // LARGE:
                count += 1
            yield "a change for which there is no space is answered busy", client.create(b"10/large", b"x" * LARGE) == BUSY
            yield "the server says so", until(lambda: "cluster: etcd's space is spent" in server.said(), 5)
            yield "nothing of it is there", client.data_of(b"10/large") is None
            yield "what was there is answered", client.data_of(b"10/large-0") == b"x" * LARGE
            members.kill(0)
            members.space *= 4
            members.start_all()
            etcdctl(["alarm", "disarm"], members.address(0))
            yield "it takes changes once there is space", until(lambda: client.modify(b"10/large-0", b"less") == wire.SUCCESS, 20)
    finally:
        server.kill()
        members.end()


class ClosedMembers(cluster.Members):
    """A member at a Unix socket."""

    def words(self, place):
        words = super().words(place)
        address = self.address(place)
        at = "unix://localhost:" + address.rsplit(":", 1)[1]
        return [at if word == "http://" + address else word for word in words]

    def start(self, place):
        with open(os.path.join(self.folder, "m%d.log" % place), "ab") as log:
            self.running[place] = subprocess.Popen(self.words(place), cwd=self.folder, stdout=log, stderr=log)

    def path(self, place):
        return os.path.join(self.folder, "localhost:" + self.address(place).rsplit(":", 1)[1])

    def wait(self):
        until(lambda: os.path.exists(self.path(0)), 30)


def closed(folder):
    """A member that other users of the machine don't reach."""
    os.mkdir(folder, 0o700)
    members = ClosedMembers(folder, 1)
    server = cluster.Server(members, 0, folder)
    server.words[server.words.index("--cluster") + 1] = "unix:" + members.path(0)
    try:
        members.start_all()
        server.start()
        with publisher.Client(server.port) as client:
            yield "a member at a Unix socket takes changes", client.create(b"10/closed", b"kept") == wire.SUCCESS
        server.kill()
        server.start()
        with publisher.Client(server.port) as client:
            yield "it keeps them", client.data_of(b"10/closed") == b"kept"
    finally:
        server.kill()
        members.end()


def without_members():
    """A start where no member is."""
    port, nobody = servers.free_ports(2)
    words = [servers.HANDLED, "serve", "--cluster", "127.0.0.1:%d" % nobody]
    done = subprocess.run(words, input=publisher.tenants(port), capture_output=True, check=False)
    said = b"cluster: no member answers at 127.0.0.1:%d: check --cluster" % nobody
    yield "a start without a member is refused, and says where it asked", done.returncode == 7 and said in done.stderr


def main(count=ROUNDS, seed=SEED):
    if not shutil.which("etcd"):
        print("etcd isn't installed (Debian: etcd-server): nothing is tried")
        return servers.tally([])
    cases = list(without_members())
    with tempfile.TemporaryDirectory() as folder:
        cases += rounds(folder, int(count), int(seed))
        cases += closed(os.path.join(folder, "closed"))
        if shutil.which("etcdctl"):
            cases += backups(os.path.join(folder, "backups"))
            cases += spent(os.path.join(folder, "spent"))
        else:
            print("etcdctl isn't installed (Debian: etcd-client): no backup is restored, and no space is spent")
    return servers.tally(cases)


if __name__ == "__main__":
    sys.exit(main(*sys.argv[1:]))

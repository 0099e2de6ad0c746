#!/usr/bin/env python3
"""handle_net.py: a client by the layout that, to our knowledge, the Handle.Net software has.

It is written from knowledge of that software alone, and shares no code and no constant with the product, nor with
tools/lib/wire.py. docs/HANDLE_NET.md says how to ask a server of that software with it.

    handle_net.py resolve HANDLE [--index N].. [--type T].. [--all]
    handle_net.py list PREFIX --key 300:0.NA/10              the key's secret is in the variable HDL_SECRET
    handle_net.py create HANDLE '1 URL https://example.org/' .. --admin 300:0.NA/10 --key 300:0.NA/10
    handle_net.py add|modify HANDLE '2 EMAIL a@example.org' .. --key 300:0.NA/10
    handle_net.py remove HANDLE INDEX.. --key 300:0.NA/10
    handle_net.py delete HANDLE --key 300:0.NA/10
    handle_net.py site                                       asks the server for its site information
    handle_net.py site-data --address 192.0.2.7 [--port N]   makes the data of an HS_SITE value, in digits
    handle_net.py site-text < DIGITS                         says what the data of an HS_SITE value are

The first seven ask the server of --server, by TCP or with --udp by UDP. --trace prints the octets that go and come.
The exit status is 0 for code 1, 1 for another code, and 3 if no readable answer came."""

import argparse
import hashlib
import hmac
import os
import random
import socket
import struct
import sys
import time

# What the gate reads of it (tools/build/parts.py).
GATE = {"by_hand": True}
# Operations.
RESOLUTION, SITE_INFO = 1, 2
CREATE, DELETE, ADD, REMOVE, MODIFY, LIST, RESPONSE = 100, 101, 102, 103, 104, 105, 200
# Codes.
SUCCESS, REFERRAL, PREFIX_REFERRAL, CHALLENGE = 1, 302, 303, 402
CODES = {
    1: "success", 2: "error", 3: "server too busy", 4: "protocol error", 5: "operation not supported",
    6: "recursion count too high", 7: "server read-only", 100: "handle not found", 101: "handle already exists",
    102: "invalid handle", 200: "values not found", 201: "value already exists", 202: "invalid value",
    300: "out of date site info", 301: "server not responsible", 302: "service referral", 303: "prefix referral",
    400: "invalid administrator", 401: "insufficient permissions", 402: "authentication needed",
    403: "authentication failed", 404: "invalid credential", 405: "authentication timed out",
    406: "unable to authenticate",
}
# Flags of a message and of an envelope.
PUBLIC_ONLY, RETURN_DIGEST = 0x01000000, 0x00800000
TRUNCATED = 0x20
# Permissions of a value, in the order in which they are written.
ADMIN_READ, ADMIN_WRITE, PUBLIC_READ, PUBLIC_WRITE = 8, 4, 2, 1
OPEN = ADMIN_READ | ADMIN_WRITE | PUBLIC_READ
# Octets of an envelope, and of a datagram with it.
ENVELOPE, DATAGRAM = 20, 512
PIECE = DATAGRAM - ENVELOPE
# Hash functions by the octet that stands for each.
HASHES = {1: hashlib.md5, 2: hashlib.sha1, 3: hashlib.sha256}
# How a challenge is answered: the octet, and the function. The last two are keyed by HMAC.
PROOFS = {"sha1": (2, hashlib.sha1), "sha256": (3, hashlib.sha256)}
HMACS = {"hmac-sha1": (0x12, hashlib.sha1), "hmac-sha256": (0x13, hashlib.sha256)}
PROTOCOLS = {0: "UDP", 1: "TCP", 2: "HTTP", 3: "HTTPS"}
USES = {0: "nothing", 1: "administration", 2: "queries", 3: "administration and queries"}


class Malformed(Exception):
    """Octets that aren't of the layout, or an answer to something else."""


# What is written.

def four(n):
    return struct.pack(">I", n & 0xFFFFFFFF)


def two(n):
    return struct.pack(">H", n)


def text(octets):
    return four(len(octets)) + octets


def counted(items):
    items = list(items)
    return four(len(items)) + b"".join(items)


class HandleValue:
    """A value: `written` is in seconds since 1970, and `references` are pairs of a handle and an index."""

    def __init__(self, index, kind, data, permissions=OPEN, ttl=(0, 86400), written=0, references=()):
        self.index, self.kind, self.data, self.permissions = index, kind, data, permissions
        self.ttl, self.written, self.references = ttl, written, list(references)

    def octets(self):
        moments = four(self.written) + bytes([self.ttl[0]]) + four(self.ttl[1])
        references = counted(text(handle) + four(index) for handle, index in self.references)
        return four(self.index) + moments + bytes([self.permissions]) + text(self.kind) + text(self.data) + references

    def parts(self):
        """All but the moment at which it was written, which the server sets."""
        return self.index, self.kind, self.data, self.permissions, self.ttl, self.references

    def line(self):
        bits = (ADMIN_READ, ADMIN_WRITE, PUBLIC_READ, PUBLIC_WRITE)
        shown = "".join("1" if self.permissions & bit else "0" for bit in bits)
        moment = time.strftime("%Y-%m-%dT%H:%M:%SZ", time.gmtime(self.written))
        words = [str(self.index), readable(self.kind), str(self.ttl[1]), shown, data_text(self.kind, self.data)]
        return " ".join([*words, "written", moment, *("-> %d:%s" % (n, readable(h)) for h, n in self.references)])


def administrator(handle, index, permissions=0x0FFF, behind=b""):
    """The data of an HS_ADMIN value. Older tools write two octets of 0 at its end."""
    return two(permissions) + text(handle) + four(index) + behind


def header(operation, length, flags):
    """A request's header. It names no serial number of a site, which two octets `ff` say."""
    return four(operation) + four(0) + four(flags) + b"\xff\xff" + bytes(6) + four(length)


class Request:
    """A message: a digest is made of its header and body; an empty credential ends it."""

    def __init__(self, operation, body, flags=0):
        self.signed = header(operation, len(body), flags) + body
        self.message = self.signed + four(0)


def resolution(handle, indexes=(), types=(), flags=PUBLIC_ONLY):
    return Request(RESOLUTION, text(handle) + counted(map(four, indexes)) + counted(map(text, types)), flags)


def with_values(operation, handle, values):
    return Request(operation, text(handle) + counted(value.octets() for value in values))


def of_handle(operation, handle):
    return Request(operation, text(handle))


def removal(handle, indexes):
    return Request(REMOVE, text(handle) + counted(map(four, indexes)))


def proof(how, secret, nonce, digest):
    """How a challenge is answered with the secret of a key."""
    if how in PROOFS:
        octet, function = PROOFS[how]
        return bytes([octet]) + function(secret + nonce + digest + secret).digest()
    octet, function = HMACS[how]
    return bytes([octet]) + hmac.new(secret, nonce + digest, function).digest()


def response(key, answer):
    index, handle = key
    return Request(RESPONSE, text(b"HS_SECKEY") + text(handle) + four(index) + text(answer))


def envelope(version, session, request, piece, length, flags=0):
    return bytes([*version, flags, 0]) + four(session) + four(request) + four(piece) + four(length)


# What is read.

class Reader:
    """Takes one field after the other from the front of octets."""

    def __init__(self, octets):
        self.rest = octets

    def take(self, count):
        if count > len(self.rest):
            raise Malformed("%d octets are wanted, and %d are left" % (count, len(self.rest)))
        taken, self.rest = self.rest[:count], self.rest[count:]
        return taken

    def one(self):
        return self.take(1)[0]

    def two(self):
        return struct.unpack(">H", self.take(2))[0]

    def four(self):
        return struct.unpack(">I", self.take(4))[0]

    def text(self):
        return self.take(self.four())

    def counted(self, item):
        count = self.four()
        if count > len(self.rest):
            raise Malformed("a count of %d" % count)
        return [item() for _ in range(count)]

    def reference(self):
        return self.text(), self.four()

    def value(self):
        index, written, ttl, permissions = self.four(), self.four(), (self.one(), self.four()), self.one()
        kind, data = self.text(), self.text()
        return HandleValue(index, kind, data, permissions, ttl, written, self.counted(self.reference))


class Reply:
    """What the octets of a reply say: its envelope, its header, and the fields that code and operation give it."""

    def __init__(self, octets):
        fields = Reader(octets)
        self.version, self.flags = (fields.one(), fields.one()), fields.two()
        self.session, self.request, self.piece, length = (fields.four() for _ in range(4))
        if length != len(fields.rest):
            raise Malformed("the envelope says %d octets, and %d came" % (length, len(fields.rest)))
        self.operation, self.code, self.op_flags = fields.four(), fields.four(), fields.four()
        self.serial, self.recursion, _, self.expiration = fields.two(), fields.one(), fields.one(), fields.four()
        body = Reader(fields.take(fields.four()))
        self.credential = fields.text() if fields.rest else b""
        self.digest = self.nonce = self.handle = self.site = None
        self.values, self.handles, self.text = [], [], b""
        if self.op_flags & RETURN_DIGEST or self.code == CHALLENGE:
            self.digest = self.digest_in(body)
        self.content_in(body)
        self.left = body.rest + fields.rest

    @staticmethod
    def digest_in(body):
        octet = body.one()
        if octet not in HASHES:
            raise Malformed("hash function %d" % octet)
        return octet, body.take(HASHES[octet]().digest_size)

    def content_in(self, body):
        if self.code == CHALLENGE:
            self.nonce = body.text()
        elif self.code in (REFERRAL, PREFIX_REFERRAL):
            self.handle = body.text()
            self.values = body.counted(body.value) if body.rest else []
        elif self.code != SUCCESS:
            self.text = body.text() if body.rest else b""
        elif self.operation == RESOLUTION:
            self.handle, self.values = body.text(), body.counted(body.value)
        elif self.operation == LIST:
            self.handles = body.counted(body.text)
        elif self.operation == SITE_INFO:
            self.site = body.take(len(body.rest))


# The data of an HS_SITE value.

def site_data(address, port, serial=1, udp=True, server_key=b""):
    """One site with one server. An IPv4 address stands in the last four of 16 octets."""
    if ":" in address:
        packed = socket.inet_pton(socket.AF_INET6, address)
    else:
        packed = bytes(12) + socket.inet_aton(address)
    interfaces = [bytes([3, 1]) + four(port)] + [bytes([2, 0]) + four(port)] * udp
    server = four(1) + packed + text(server_key) + counted(interfaces)
    return two(1) + b"\2\1" + two(serial) + b"\x80\2" + text(b"") + counted([]) + counted([server])


def site_lines(data):
    """What the data of an HS_SITE value say, in lines."""
    fields = Reader(data)
    form, version, serial = fields.two(), (fields.one(), fields.one()), fields.two()
    mask, option, rule = fields.one(), fields.one(), fields.text()
    numbers = (form, *version, serial, mask >> 7, mask >> 6 & 1, option, readable(rule))
    yield "format %d, protocol %d.%d, serial number %d, primary %d, several %d, hash option %d, filter '%s'" % numbers
    for name, value in fields.counted(lambda: (fields.text(), fields.text())):
        yield "attribute %s: %s" % (readable(name), readable(value))
    for number, packed, key, interfaces in fields.counted(lambda: server_in(fields)):
        yield "server %d: %s, key of %d octets" % (number, address_text(packed), len(key))
        for use, protocol, port in interfaces:
            yield "  %s, port %d, for %s" % (PROTOCOLS.get(protocol, protocol), port, USES.get(use, use))
    if fields.rest:
        yield "and %d octets more" % len(fields.rest)


def server_in(fields):
    number, packed, key = fields.four(), fields.take(16), fields.text()
    return number, packed, key, fields.counted(lambda: (fields.one(), fields.one(), fields.four()))


def address_text(packed):
    if not any(packed[:12]):
        return socket.inet_ntoa(packed[12:])
    return socket.inet_ntop(socket.AF_INET6, packed)


def readable(octets):
    """Octets as a text, or as digits if they are none that can be printed."""
    try:
        shown = octets.decode()
    except UnicodeDecodeError:
        return octets.hex()
    return shown if shown.isprintable() else octets.hex()


def data_text(kind, data):
    try:
        fields = Reader(data)
        if kind == b"HS_ADMIN":
            mask, (handle, index) = fields.two(), fields.reference()
            return "%d:%s:%s" % (index, format(mask, "012b")[::-1], readable(handle)) + " and more" * bool(fields.rest)
        if kind == b"HS_VLIST":
            return " ".join("%d:%s" % (index, readable(handle)) for handle, index in fields.counted(fields.reference))
        if kind == b"HS_SITE":
            return "; ".join(site_lines(data))
        if kind == b"HS_SECKEY":
            return "a key of %d octets" % len(data)
    except Malformed:
        return data.hex()
    return readable(data)


# Exchanges.

class Server:
    """A server at HOST:PORT, which is asked by "tcp" or "udp"."""

    def __init__(self, where, way="tcp", version=(2, 1), seconds=10.0, trace=False):
        host, _, port = where.rpartition(":")
        self.address, self.way, self.version = (host.strip("[]"), int(port)), way, version
        self.seconds, self.trace, self.stream = seconds, trace, None

    def __enter__(self):
        return self

    def __exit__(self, *_):
        if self.stream:
            self.stream.close()

    def traced(self, mark, octets):
        if self.trace:
            print(mark, octets.hex(), file=sys.stderr)
        return octets

    def connected(self):
        if self.stream is None and self.way == "tcp":
            self.stream = socket.create_connection(self.address, self.seconds)
        elif self.stream is None:
            family, kind, _, _, address = socket.getaddrinfo(*self.address, type=socket.SOCK_DGRAM)[0]
            self.stream = socket.socket(family, kind)
            self.stream.settimeout(self.seconds)
            self.stream.connect(address)
        return self.stream

    def ask(self, request, session=0):
        """The reply to one request."""
        number = random.randrange(1, 2 ** 31)
        exchange = self.over_tcp if self.way == "tcp" else self.over_udp
        reply = Reply(exchange(request.message, session, number))
        if reply.request != number:
            raise Malformed("a reply to request %d came, not to %d" % (reply.request, number))
        return reply

    def over_tcp(self, message, session, number):
        stream = self.connected()
        stream.sendall(self.traced(">", envelope(self.version, session, number, 0, len(message)) + message))
        head = self.exactly(ENVELOPE)
        return self.traced("<", head + self.exactly(struct.unpack(">I", head[16:])[0]))

    def exactly(self, count):
        octets = b""
        while len(octets) < count:
            more = self.stream.recv(count - len(octets))
            if not more:
                raise Malformed("the connection ended after %d of %d octets" % (len(octets), count))
            octets += more
        return octets

    def over_udp(self, message, session, number):
        """Sends a message of more than 492 octets in pieces, and joins a reply that comes so."""
        stream, pieces = self.connected(), range(0, len(message), PIECE)
        flags = TRUNCATED if len(pieces) > 1 else 0
        for piece, begin in enumerate(pieces):
            head = envelope(self.version, session, number, piece, len(message), flags)
            stream.send(self.traced(">", head + message[begin:begin + PIECE]))
        came = {}
        while True:
            packet = self.traced("<", stream.recv(65536))
            if len(packet) > DATAGRAM or len(packet) < ENVELOPE:
                raise Malformed("a datagram of %d octets" % len(packet))
            about, piece, length = struct.unpack(">III", packet[8:ENVELOPE])
            if about != number:
                continue
            if not packet[2] & TRUNCATED:
                return packet
            came[piece] = packet[ENVELOPE:]
            if len(came) == -(-length // PIECE):
                # the envelope of the whole is that of a piece, without the flag and with the number 0
                head = packet[:2] + bytes(2) + packet[4:12] + bytes(4) + packet[16:ENVELOPE]
                return head + b"".join(came[k] for k in sorted(came))

    def do(self, request, key=None, secret=b"", how="sha1"):
        """Asks, and answers a challenge of just this request."""
        reply = self.ask(request)
        if reply.code != CHALLENGE or key is None:
            return reply
        octet, digest = reply.digest
        if digest != HASHES[octet](request.signed).digest():
            raise Malformed("a challenge of another request came")
        return self.ask(response(key, proof(how, secret, reply.nonce, digest)), reply.session)


# The command line.

def key_of(words):
    index, _, handle = words.partition(":")
    return int(index), handle.encode()


def value_of(line):
    index, kind, data = line.split(" ", 2)
    return HandleValue(int(index), kind.encode(), data.encode())


def request_of(given):
    what, handle = given.what, (given.rest or ["/"])[0].encode()
    if what == "resolve":
        flags = 0 if given.all else PUBLIC_ONLY
        return resolution(handle, given.index, [kind.encode() for kind in given.type], flags)
    if what == "remove":
        return removal(handle, map(int, given.rest[1:]))
    if what == "list":
        return of_handle(LIST, handle if b"/" in handle else b"0.NA/" + handle)
    if what in ("delete", "site"):
        return of_handle(DELETE if what == "delete" else SITE_INFO, handle)
    values = [value_of(line) for line in given.rest[1:]]
    if given.admin:
        index, admin = key_of(given.admin)
        values.append(HandleValue(100, b"HS_ADMIN", administrator(admin, index, behind=bytes(2 * given.behind))))
    return with_values({"create": CREATE, "add": ADD, "modify": MODIFY}[what], handle, values)


def show(reply):
    said = ": " + readable(reply.text) if reply.text else ""
    print("%d %s%s" % (reply.code, CODES.get(reply.code, "unknown"), said))
    until = time.strftime("%Y-%m-%dT%H:%M:%SZ", time.gmtime(reply.expiration)) if reply.expiration else "no moment"
    print("version %d.%d, expires at %s" % (*reply.version, until))
    if reply.handle is not None:
        print(readable(reply.handle))
    for line in [value.line() for value in reply.values] + [readable(handle) for handle in reply.handles]:
        print(line)
    if reply.site is not None:
        print(reply.site.hex(), *site_lines(reply.site), sep="\n")
    return 0 if reply.code == SUCCESS else 1


def words():
    asks = ("resolve", "list", "create", "add", "modify", "remove", "delete", "site")
    found = argparse.ArgumentParser(description=__doc__, formatter_class=argparse.RawDescriptionHelpFormatter)
    found.add_argument("what", choices=(*asks, "site-data", "site-text"))
    found.add_argument("rest", nargs="*")
    found.add_argument("--server", default="127.0.0.1:2641", metavar="HOST:PORT")
    found.add_argument("--udp", action="store_const", const="udp", dest="way", default="tcp")
    found.add_argument("--version", default="2.1", help="of the envelope; 2.1 without it")
    found.add_argument("--index", type=int, action="append", default=[])
    found.add_argument("--type", action="append", default=[])
    found.add_argument("--all", action="store_true", help="asks for values that need a key, too")
    found.add_argument("--key", metavar="INDEX:HANDLE")
    found.add_argument("--admin", metavar="INDEX:HANDLE")
    found.add_argument("--behind", action="store_true", help="two octets at the end of HS_ADMIN data, as old tools")
    found.add_argument("--proof", default="sha1", choices=(*PROOFS, *HMACS))
    found.add_argument("--trace", action="store_true")
    found.add_argument("--address")
    found.add_argument("--port", type=int, default=2641)
    found.add_argument("--serial", type=int, default=1)
    return found.parse_args()


def main():
    given = words()
    if given.what == "site-data":
        print(site_data(given.address, given.port, given.serial).hex())
        return 0
    if given.what == "site-text":
        print(*site_lines(bytes.fromhex(sys.stdin.read())), sep="\n")
        return 0
    key = key_of(given.key) if given.key else None
    version = tuple(map(int, given.version.split(".")))
    try:
        with Server(given.server, given.way, version, trace=given.trace) as server:
            return show(server.do(request_of(given), key, os.environ.get("HDL_SECRET", "").encode(), given.proof))
    except (Malformed, OSError) as fault:
        print("handle_net: %s" % fault, file=sys.stderr)
        return 3


if __name__ == "__main__":
    sys.exit(main())

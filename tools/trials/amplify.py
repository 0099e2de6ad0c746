"""amplify.py: asks the proved program crates/handled/out/handled by UDP for a long handle and a long list, at addresses beyond loopback, where this host has one,
and on loopback with `--amplify`. A stranger gets at most so many times the octets that it sent, or one datagram: in place of a longer reply
the one of code 2, octet by octet as docs/PROTOCOL.md has it. A client that answered a challenge gets all, and so does TCP. On loopback without the option
nothing is kept back.

It takes some three seconds. Its last line is 'N passed, M failed', a case at an address counting one."""

import socket
import struct
import sys

# nothing is left beside the tools
sys.dont_write_bytecode = True
from lib import servers, wire

# As many times the octets that asked without the option, and with it.
BY_DEFAULT, ASKED_FOR = 8, 3
# Seconds: for a reply, and for one that mustn't come.
PATIENCE, SILENCE = 2, 0.1
KEY = b"never-shown"
ADMIN, HASH = b"0.NA/10", b"20/long"
TOO_LONG, AUTHENTICATION_FAILED, RETURN_DIGEST = 2, 403, 0x00800000
DATAGRAM = 512
ADMINISTRATOR = wire.value(100, b"HS_ADMIN", wire.administrator(ADMIN, 300), wire.ADMIN_READ)
LONG = wire.value(1, b"TEXT", b"x" * 30000, wire.PUBLIC_READ)
# A reply that is longer than its question, and yet within what may go.
MIDDLE = wire.value(1, b"TEXT", b"y" * 700, wire.PUBLIC_READ)
MIDDLE_HANDLE = b"10/" + b"m" * 400
SHORT = wire.value(1, b"TEXT", b"z" * 300, wire.PUBLIC_READ)


def tenants(port):
    key = wire.value(300, b"HS_SECKEY", KEY, 0)
    values = ((ADMIN, ADMINISTRATOR), (ADMIN, key), (b"10/long", LONG), (MIDDLE_HANDLE, MIDDLE), (b"10/short", SHORT), (HASH, LONG))
    handles = ((b"10/" + b"h%03d" % number, MIDDLE) for number in range(200))
    lines = ["publisher acme 3 %d" % port, "prefix 10 acme", "prefix 20 acme 3"]
    return wire.tenants(lines, (*values, *handles))


def pieces(length):
    """How many datagrams a message of so many octets has."""
    return max(1, -(-length // wire.PIECE))


class Server:
    """Where a server listens, and how many times the octets that asked a stranger may get: 0 for any number."""

    def __init__(self, address, port, times):
        self.address, self.port, self.times = address, port, times

    def allowance(self, asked):
        return max(DATAGRAM, self.times * sum(map(len, asked))) if self.times else float("inf")


class Client(servers.Datagrams):
    """One port."""

    def __init__(self, server):
        super().__init__(server.port, server.address)

    def replies(self, datagrams, silence=0.001):
        """The datagrams of the reply to these, and one more, if it comes."""
        first = self.asked(*datagrams)
        found = [first] + [self.got() for _ in range(pieces(int.from_bytes(first[16:20], "big")) - 1)]
        more = self.got(silence)
        return found + [more] if more else found

    def proved(self, message, request):
        """What comes for the response to the challenge of this message."""
        challenge = self.replies([wire.frame(message, request=request)])[0]
        session, nonce = int.from_bytes(challenge[4:8], "big"), challenge[-20:-4]
        response = wire.response(message, KEY, ADMIN, 300, nonce=nonce)
        return session, self.replies([wire.frame(response, session, request)])


def too_long(message, function=None):
    """The message of code 2 that answers this one, with a digest if it asks for one."""
    operation = struct.unpack(">I", message[:4])[0]
    digest = bytes([function[0]]) + wire.digest(message, function) if function else b""
    return wire.message(operation, digest + wire.number(0), TOO_LONG, RETURN_DIGEST if function else 0)


ASKED = wire.resolution(b"10/long")
WHOLE = wire.datagrams(wire.values_reply(b"10/long", LONG), 5)


def stranger(server):
    """A long reply isn't sent to a stranger; the one in its place is that of code 2."""
    asked = [wire.frame(ASKED, request=5)]
    found = Client(server).replies(asked, SILENCE)
    wanted = [wire.frame(too_long(ASKED), request=5)] if server.times else WHOLE
    return found == wanted and sum(map(len, found)) <= server.allowance(asked)


def digests(server):
    """The reply in its place has the request's digest where that asks for it, by either hash function."""
    good = True
    for handle, function in ((b"10/long", wire.SHA1), (HASH, wire.SHA256)):
        message = wire.resolution(handle, flags=RETURN_DIGEST)
        found = Client(server).replies([wire.frame(message, request=6)])
        whole = wire.datagrams(wire.message(wire.RESOLVE, bytes([function[0]]) + wire.digest(message, function) + wire.string(handle) + wire.listed([LONG]),
                                 wire.SUCCESS, RETURN_DIGEST), 6)
        good = good and found == ([wire.frame(too_long(message, function), request=6)] if server.times else whole)
    return good


def short_ones(server):
    """One datagram goes in any case, and several that are within what may go."""
    first = Client(server).replies([wire.frame(wire.resolution(b"10/short"), request=1)])
    asked = [wire.frame(wire.resolution(MIDDLE_HANDLE), request=2)]
    second, whole = Client(server).replies(asked), wire.datagrams(wire.values_reply(MIDDLE_HANDLE, MIDDLE), 2)
    return first == [wire.frame(wire.values_reply(b"10/short", SHORT), request=1)] and second == whole and len(whole) > 1


def asked_in_pieces(server):
    """All pieces of a question count, and a reply within so many times their octets goes."""
    types = [b"T%03d" % number + b"t" * 200 for number in range(50)] + [b"TEXT"]
    asked = wire.datagrams(wire.resolution(b"10/long", types=types), 7)
    whole = wire.datagrams(wire.values_reply(b"10/long", LONG), 7)
    return len(asked) > 1 and sum(map(len, whole)) <= server.allowance(asked) and Client(server).replies(asked) == whole


def challenged(server):
    """A client that answered a challenge gets long replies, the one to its response first; another port is a stranger."""
    client, listing = Client(server), wire.message(wire.LIST, wire.string(ADMIN))
    session, found = client.proved(listing, 8)
    good = len(found) > 1 and found[0][24:28] == wire.number(wire.SUCCESS) and all(int.from_bytes(octets[4:8], "big") == session for octets in found)
    return good and client.replies([wire.frame(ASKED, request=5)]) == WHOLE and stranger(server)


def refused(server):
    """A challenge that was answered wrongly proves nothing."""
    client, listing = Client(server), wire.message(wire.LIST, wire.string(ADMIN))
    challenge = client.replies([wire.frame(listing, request=9)])[0]
    session, nonce = int.from_bytes(challenge[4:8], "big"), challenge[-20:-4]
    said = client.replies([wire.frame(wire.response(listing, b"another key", ADMIN, 300, nonce=nonce), session, 9)])
    again = client.replies([wire.frame(ASKED, request=5)])
    wanted = [wire.frame(too_long(ASKED), request=5)] if server.times else WHOLE
    return said[0][24:28] == wire.number(AUTHENTICATION_FAILED) and again == wanted


def over_tcp(server):
    """A connection gets all."""
    wanted = wire.frame(wire.values_reply(b"10/long", LONG), request=5)
    with socket.create_connection((server.address, server.port), PATIENCE) as stream:
        stream.sendall(wire.frame(ASKED, request=5))
        found = b""
        while len(found) < len(wanted) and (octets := stream.recv(1 << 16)):
            found += octets
    return found == wanted


CASES = (stranger, digests, short_ones, asked_in_pieces, challenged, refused, over_tcp)


def runs():
    """Options of a server, and at which addresses it is asked, with how many times the octets that asked."""
    loopback, beyond = servers.loopback(), servers.beyond_loopback()
    yield [], [("127.0.0.1", 0)]
    yield ["--amplify", str(ASKED_FOR), *servers.listening(loopback)], [(address, ASKED_FOR) for address in loopback]
    if beyond:
        yield servers.listening(["127.0.0.1", beyond]), [("127.0.0.1", 0), (beyond, BY_DEFAULT)]
    else:
        print("this host has no address beyond loopback: the bound is tried with --amplify alone")


def main():
    passed = failed = 0
    for options, places in runs():
        count = max(1, options.count("--listen"))
        with servers.serving(tenants, 1, options=options, addresses=count) as ports:
            for address, times in places:
                for case in CASES:
                    good = case(Server(address, ports[0], times))
                    passed, failed = passed + good, failed + (not good)
                    if not good:
                        print("%s at %s, with %s: it isn't so that %s" % (case.__name__, address, options, case.__doc__))
    print("%d passed, %d failed" % (passed, failed))
    return 1 if failed else 0


sys.exit(main())

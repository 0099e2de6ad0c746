"""ports.py: asks the proved program crates/handled/out/handled by UDP from thousands of ports, and compares whole replies: strangers who send what is no
frame, ordinary clients that come with a port of their own each time, and clients of whom the service keeps pieces of a message or a challenge
while others come and go. Nobody gets what is another's, and nobody is left without a reply.

It takes some five seconds. Its last line is 'N passed, M failed', a case counting one."""

import sys

# nothing is left beside the tools
sys.dont_write_bytecode = True
from lib import servers, wire

# What the gate reads of it (tools/build/parts.py).
GATE = {"alone": True}
# More addresses than there are numbers of peers.
CROWD, AT_ONCE = 1100, 20
# Seconds for a reply that mustn't come.
SILENCE = 0.1
KEY = b"never-shown"
VALUE = wire.value(1, b"TEXT", b"of a datagram", wire.PUBLIC_READ)
HIDDEN = 0
ADMINISTRATOR = wire.value(100, b"HS_ADMIN", wire.administrator(b"0.NA/10", 300), HIDDEN)
LONG_HANDLE = b"10/" + b"b" * 900
PARTIALS, CHALLENGES = 4, 8


def tenants(port):
    key = wire.value(300, b"HS_SECKEY", KEY, HIDDEN)
    values = ((b"0.NA/10", ADMINISTRATOR), (b"0.NA/10", key), (b"10/a", VALUE), (LONG_HANDLE, VALUE))
    return wire.tenants(["publisher acme 2 %d" % port, "prefix 10 acme"], values)


class Client(servers.Datagrams):
    """One port."""

    def is_silent(self):
        return self.got(SILENCE) == b""

    def challenged(self, message, request=1):
        """The challenge of this request: its SessionId and its nonce. One that isn't whole, or not as it should be, is none that can be answered."""
        octets = self.asked(wire.frame(message, request=request))
        nonce, session = octets[-20:-4], int.from_bytes(octets[4:8], "big")
        is_whole = octets == wire.frame(wire.challenge(message, nonce=nonce), session, request)
        return (session, nonce) if is_whole else (0, b"")


def create(handle):
    return wire.message(wire.CREATE, wire.string(handle) + wire.listed([VALUE, ADMINISTRATOR]))


def done(request, session):
    return wire.frame(wire.message(wire.CREATE, b"", wire.SUCCESS), session, request)


def response(message, challenge, request=2):
    session, nonce = challenge
    return wire.frame(wire.response(message, KEY, b"0.NA/10", 300, nonce=nonce), session, request)


def malformed(session, request):
    """A frame that says it is a response, and is none."""
    return wire.frame(wire.number(wire.RESPONSE), session, request)


def short(session, request):
    return wire.frame(wire.short_reply(wire.PROTOCOL_ERROR), session, request)


SHORT_ASKED, SHORT_REPLY = (wire.frame(octets, request=1) for octets in (wire.resolution(b"10/a"), wire.values_reply(b"10/a", VALUE)))
LONG = wire.resolution(b"10/" + b"a" * 1200)


def absent(request):
    return wire.frame(wire.message(wire.RESOLVE, wire.number(0), wire.ABSENT), request=request)


def crowd(port, count=AT_ONCE):
    """Whether so many clients, each with a port of its own and some at once, get their replies."""
    good = True
    for _ in range(0, count, AT_ONCE):
        clients = [Client(port) for _ in range(AT_ONCE)]
        for client in clients:
            client.send(SHORT_ASKED)
        good = good and all([client.got() == SHORT_REPLY for client in clients])
    return good


def not_frames(port):
    """What is asked behind them may find the kernel's room taken, so it's asked again."""
    for _ in range(CROWD):
        Client(port).send(b"x")
    return any(crowd(port) for _ in range(3))


def many_clients(port):
    first = Client(port)
    return first.asked(SHORT_ASKED) == SHORT_REPLY and crowd(port, CROWD) and first.asked(SHORT_ASKED) == SHORT_REPLY


def pieces_are_kept(port):
    client, pieces = Client(port), wire.pieces(LONG, request=7)
    client.send(pieces[0])
    return crowd(port, CROWD) and client.asked(*pieces[1:]) == absent(7)


def pieces_of_two(port):
    first, second, pieces = Client(port), Client(port), wire.pieces(LONG, request=7)
    first.send(pieces[0])
    good = crowd(port)
    second.send(*pieces[1:])
    good = good and second.is_silent() and first.is_silent() and first.asked(*pieces[1:]) == absent(7)
    return good and second.asked(pieces[0]) == absent(7)


def pieces_are_displaced(port):
    first, pieces = Client(port), wire.pieces(LONG, request=7)
    first.send(pieces[0])
    others = [Client(port) for _ in range(PARTIALS)]
    for other in others:
        other.send(pieces[0])
    good = crowd(port) and all(other.asked(*pieces[1:]) == absent(7) for other in others)
    first.send(*pieces[1:])
    return good and first.is_silent() and first.asked(pieces[0]) == absent(7)


def piece_of_another_length(port):
    client, pieces = Client(port), wire.pieces(LONG, request=7)
    client.send(pieces[0], wire.pieces(LONG + b"x", request=7)[1])
    return crowd(port) and client.is_silent() and client.asked(*pieces[1:]) == absent(7)


def one_piece(port):
    return Client(port).asked(*wire.pieces(wire.resolution(b"10/b"), request=9)) == absent(9)


def challenge_is_kept(port):
    client, message = Client(port), create(b"10/kept")
    challenge = client.challenged(message)
    return crowd(port, CROWD) and client.asked(response(message, challenge)) == done(2, challenge[0])


def challenge_is_nobody_elses(port):
    client, message = Client(port), create(b"10/mine")
    challenge = client.challenged(message)
    good = all(Client(port).asked(response(message, challenge))[24:28] == wire.number(4) for _ in range(20))
    return good and crowd(port) and client.asked(response(message, challenge)) == done(2, challenge[0])


def challenge_is_spent(port):
    client, message = Client(port), create(b"10/once")
    challenge = client.challenged(message)
    good = client.asked(response(message, challenge)) == done(2, challenge[0])
    return good and crowd(port) and client.asked(response(message, challenge, 3))[24:28] == wire.number(4)


def malformed_response(port):
    client, message = Client(port), create(b"10/malformed")
    challenge = client.challenged(message)
    good = client.asked(malformed(challenge[0], 2)) == short(challenge[0], 2)
    return good and crowd(port) and client.asked(response(message, challenge, 3)) == done(3, challenge[0])


def challenges_are_displaced(port):
    first, message = Client(port), create(b"10/displaced")
    old = first.challenged(message)
    others = [Client(port) for _ in range(CHALLENGES)]
    news = [other.challenged(create(b"10/news%d" % k)) for k, other in enumerate(others)]
    good = crowd(port) and first.asked(response(message, old))[24:28] == wire.number(4)
    return good and all(others[k].asked(response(create(b"10/news%d" % k), news[k])) == done(2, news[k][0]) for k in range(CHALLENGES))


def spent_ones_make_room(port):
    """Behind twenty challenges that were spent, an older one is still there."""
    first, message = Client(port), create(b"10/older")
    old, good = first.challenged(message), True
    for k in range(20):
        other, theirs = Client(port), create(b"10/spent%d" % k)
        challenge = other.challenged(theirs)
        good = good and other.asked(response(theirs, challenge)) == done(2, challenge[0])
    return good and first.asked(response(message, old)) == done(2, old[0])


def response_in_pieces(port):
    client, message = Client(port), create(b"10/pieces")
    session, nonce = client.challenged(message)
    octets = wire.response(message, KEY, b"0.NA/10" + b"x" * 1000, 300, nonce=nonce)
    pieces = wire.pieces(octets, session, 2)
    client.send(pieces[0])
    good = crowd(port) and client.asked(*pieces[1:])[24:28] != wire.number(4)
    return good and client.asked(response(message, (session, nonce), 3))[24:28] == wire.number(4)


def many_sessions(port):
    """One client has as many challenges as there may be, and spends them in any order."""
    client, messages = Client(port), [create(b"10/many%d" % k) for k in range(CHALLENGES)]
    challenges = [client.challenged(message) for message in messages]
    order = [3, 0, 7, 1, 6, 2, 5, 4]
    return crowd(port) and all(client.asked(response(messages[k], challenges[k])) == done(2, challenges[k][0]) for k in order)


def long_replies(port):
    """A reply of several datagrams comes whole to the one who asked, while others ask."""
    client, wanted = Client(port), wire.pieces(wire.values_reply(LONG_HANDLE, VALUE), request=5)
    client.send(wire.frame(wire.resolution(LONG_HANDLE), request=5))
    return crowd(port) and [client.got() for _ in wanted] == wanted


CASES = (not_frames, many_clients, pieces_are_kept, pieces_of_two, pieces_are_displaced, piece_of_another_length, one_piece, challenge_is_kept,
         challenge_is_nobody_elses, challenge_is_spent, malformed_response, challenges_are_displaced, spent_ones_make_room, response_in_pieces,
         many_sessions, long_replies)


def main():
    with servers.serving(tenants, 1) as ports:
        return servers.tally(((case.__name__, case(ports[0])) for case in CASES), "another reply than should be, or none")


sys.exit(main())

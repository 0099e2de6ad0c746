"""Who attacks a publisher of `handled serve` in bench/soak. Each function is one attacker's turn; what it met is counted, and another reply than it should be is noted."""

import contextlib
import socket
import struct
import time

from lib import servers, wire

# How many references the lists hold to which an administrator leads, and how many of them fit into one.
REFERENCES, A_LIST = 20_000, 1_500
LARGE = wire.value(1, b"TEXT", b"x" * 32000, wire.PUBLIC_READ)
ASK_LARGE = wire.frame(wire.resolution(b"10/large"), 0, 1)
DELETE_LED = wire.message(wire.DELETE, wire.string(b"10/led"))
# How many times what it sent a stranger gets by UDP at most, and the most octets of the one datagram that it gets in any case.
AMPLIFY, ONE_DATAGRAM = 8, 512


def rows():
    """What the attackers ask for: a long value, and a handle whose administrator leads to long lists."""
    keys = [wire.reference(b"10/k%06d" % number, 300) for number in range(REFERENCES)]
    lists = [keys[begin:begin + A_LIST] for begin in range(0, REFERENCES, A_LIST)]
    leads = [wire.reference(b"10/lists", place + 2) for place in range(len(lists))]
    yield b"10/large", LARGE
    yield b"10/led", wire.value(100, b"HS_ADMIN", wire.administrator(b"10/lists", 1), wire.PUBLIC_READ)
    for index, references in enumerate([leads, *lists], 1):
        yield b"10/lists", wire.value(index, b"HS_VLIST", wire.listed(references), wire.PUBLIC_READ)


def connect(port, patience=30):
    stream = socket.create_connection(("127.0.0.1", port), timeout=patience)
    stream.setsockopt(socket.IPPROTO_TCP, socket.TCP_NODELAY, 1)
    return stream


def ports(port, counts):
    """A datagram of one octet from a port of its own."""
    with socket.socket(socket.AF_INET, socket.SOCK_DGRAM) as one:
        one.sendto(b"x", ("127.0.0.1", port))
    counts.add("datagrams of one octet, each from a port of its own")
    time.sleep(0.001)


def slow(port, counts):
    """A frame that comes octet by octet."""
    with connect(port) as stream, contextlib.suppress(OSError):
        for octet in ASK_LARGE:
            stream.sendall(bytes([octet]))
            time.sleep(1)
    counts.add("slow clients that were closed or gave up")


def greedy(port, counts):
    """Asks for much and reads nothing, until it is closed."""
    with connect(port, 60) as stream:
        with contextlib.suppress(OSError):
            while True:
                stream.sendall(ASK_LARGE * 100)
    counts.add("clients that read nothing, closed")


def amplified(port, counts):
    """Asks for much by UDP: what comes has few times the octets, or is one datagram."""
    got = []
    with socket.socket(socket.AF_INET, socket.SOCK_DGRAM) as one:
        one.settimeout(0.2)
        one.sendto(ASK_LARGE, ("127.0.0.1", port))
        with contextlib.suppress(socket.timeout):
            while True:
                got.append(one.recv(65536))
    counts.add("long answers asked for by UDP")
    if sum(map(len, got)) > max(AMPLIFY * len(ASK_LARGE), ONE_DATAGRAM):
        counts.differs("a long answer by UDP", b"".join(got))


def frame_of(stream):
    head = servers.received(stream, 20)
    return head + servers.received(stream, struct.unpack(">I", head[16:20])[0]) if len(head) == 20 else b""


def made_up(port, counts):
    """Twenty requests, each proved by a key that nobody has."""
    with connect(port) as stream:
        for number in range(20):
            stream.sendall(wire.frame(DELETE_LED, 0, 1))
            challenged = frame_of(stream)
            answer = wire.response(DELETE_LED, b"made up", b"30/stranger", 1 + number, nonce=challenged[-20:-4])
            stream.sendall(wire.frame(answer, struct.unpack(">I", challenged[4:8])[0], 2))
            frame_of(stream)
            counts.add("made-up keys")


def crowd(port, counts, count, question, answer, end):
    """So many connections at once, of which each asks in turn, and gets its answer."""
    streams = [connect(port) for _ in range(count)]
    counts.add("connections at once", count)
    while time.monotonic() < end:
        for stream in streams:
            stream.sendall(question)
            got = servers.received(stream, len(answer))
            if got == answer:
                counts.add("answers to the crowd")
            else:
                counts.differs("of a crowd", got)
            if time.monotonic() >= end:
                break
    for stream in streams:
        stream.close()

"""wire.py: the octets of docs/PROTOCOL.md, for the programs of tools/ and bench/: values, messages, frames, digests, and lines of scripts.

It is written from that page alone and uses nothing of the product, so what the product sends is compared with values from outside."""

import hashlib
import struct

# Operations, codes and flags, by the names of the page.
RESOLVE, CREATE, DELETE, ADD, REMOVE, MODIFY, LIST, RESPONSE = 1, 100, 101, 102, 103, 104, 105, 200
SUCCESS, PROTOCOL_ERROR, OPERATION_DENIED, ABSENT, AUTHENTICATION_NEEDED = 1, 4, 5, 100, 402
PUBLIC_ONLY = 0x01000000
# What begins a digest, and the function that makes it.
SHA1, SHA256 = (2, hashlib.sha1), (3, hashlib.sha256)
PUBLIC_READ, ADMIN_WRITE, ADMIN_READ = 0x02, 0x04, 0x08
ALL_PERMISSIONS = b"\xff\xff"
NONCE = bytes(range(16))
# How many octets of a message a piece has.
PIECE = 492


def number(n):
    return struct.pack(">I", n)


def string(octets):
    return number(len(octets)) + octets


def listed(items):
    """A count, and that many items."""
    items = list(items)
    return number(len(items)) + b"".join(items)


def reference(handle, index):
    return string(handle) + number(index)


def administrator(handle, index, mask=ALL_PERMISSIONS):
    """The data of an HS_ADMIN value."""
    return mask + reference(handle, index)


def value(index, kind, data, permission, ttl=0):
    """A value with a relative TTL, the timestamp 0 and no references."""
    return number(index) + string(kind) + string(data) + b"\0" + number(ttl) + bytes([permission]) + bytes(8) + number(0)


def net_value(index, kind, data, permission, ttl=0, second=0):
    """The same with a timestamp in seconds, as the Handle.Net software lays it out."""
    return number(index) + number(second) + b"\0" + number(ttl) + bytes([permission]) + string(kind) + string(data) + number(0)


def message(operation, body, code=0, flags=0):
    """A message without a credential. A digest is made of all but its last four octets."""
    return number(operation) + number(code) + number(flags) + bytes(8) + string(body) + number(0)


def frame(octets, session=0, request=0):
    """The frame of a message, without TC."""
    return b"\2\1\0\0" + number(session) + number(request) + number(0) + number(len(octets)) + octets


def pieces(octets, session=0, request=0):
    """The pieces of a message, each of which has 492 octets of it but the last."""
    head = b"\2\1\x20\0" + number(session) + number(request)
    return [head + number(at // PIECE) + number(len(octets)) + octets[at:at + PIECE] for at in range(0, len(octets), PIECE)]


def datagrams(octets, request=0, session=0):
    """The datagrams of a message: its frame, or its pieces where it is longer than one."""
    return pieces(octets, session, request) if len(octets) > PIECE else [frame(octets, session, request)]


def resolution(handle, indexes=(), types=(), flags=0):
    return message(RESOLVE, string(handle) + listed(map(number, indexes)) + listed(map(string, types)), flags=flags)


def values_reply(handle, *values):
    """The reply to a resolution that has these values."""
    return message(RESOLVE, string(handle) + listed(values), SUCCESS)


def short_reply(code):
    """The reply to octets that are no request."""
    return message(0, number(0), code)


def digest(asked, function=SHA1):
    return function[1](asked[:-4]).digest()


def challenge(asked, function=SHA1, nonce=bytes(16)):
    """The message that challenges a request."""
    operation = struct.unpack(">I", asked[:4])[0]
    return message(operation, bytes([function[0]]) + digest(asked, function) + string(nonce), AUTHENTICATION_NEEDED)


def response(asked, key, handle, index, function=SHA1, nonce=bytes(16)):
    """The message that answers the challenge of a request by the key at a reference."""
    proof = function[1](key + nonce + digest(asked, function) + key).digest()
    return message(RESPONSE, string(b"HS_SECKEY") + string(handle) + number(index) + string(bytes([function[0]]) + proof))


def heads(octets):
    """The RequestId and the operation of each frame, where these are whole frames."""
    found = []
    while octets:
        request, length = struct.unpack(">8xI4xI", octets[:20])
        found.append((request, struct.unpack(">I", octets[20:24])[0]))
        octets = octets[20 + length:]
    return found


def value_line(handle, octets):
    """A line of a tenants text."""
    return "value %s %s" % (handle.decode(), octets.hex())


def tenants(lines, rows):
    """A tenants text: lines of publishers and prefixes, and the values of handles, each a handle and its octets."""
    return text([*lines, *(value_line(*row) for row in rows)])


def frame_line(octets, lane=0, peer=0, moment=1000, nonce=NONCE):
    """A line of a script."""
    return "frame %d %d %d %s %s" % (lane, peer, moment, nonce.hex(), octets.hex())


def text(lines):
    return ("\n".join(lines) + "\n").encode()

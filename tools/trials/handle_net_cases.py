"""handle_net_cases.py: asks crates/handled/out/handled through tools/trials/handle_net.py, which shares nothing with it.

The layout is the one that, to our knowledge, the Handle.Net software has. Asked are resolutions, referrals and errors
by TCP and UDP, changes by key, site information, what old tools write, moments of expiration, and one prefix at two
ports, one of each layout. The octets of the profile's port are compared with octets laid out here by hand.

Prints what isn't as it should be. Its last line is 'N passed, M failed', a case counting one."""

import hashlib
import socket
import struct
import sys
import time

# nothing is left beside the tools
sys.dont_write_bytecode = True
import handle_net
from lib import servers, wire

KEY, SECRET = (300, b"0.NA/10"), b"example-secret"
OTHER_KEY, OTHER_SECRET = (300, b"0.NA/20"), b"another-secret"
# A moment in milliseconds, its second, and the seconds after which a reply expires.
MOMENT, SECOND, LIFE = 1_700_000_000_123, 1_700_000_000, 12 * 3600
# Site information, and octets of it that take three datagrams.
SITE = handle_net.site_data("192.0.2.7", 2641)
LONG_SITE = handle_net.site_data("192.0.2.8", 2641, server_key=bytes(1000))
MANY = range(1, 40)


# The tenants text: values by the layout of docs/PROTOCOL.md.

def kept(index, kind, data, permission=0x0E, ttl=(0, 86400), moment=0, references=()):
    front = wire.number(index) + wire.string(kind) + wire.string(data) + bytes([ttl[0]]) + wire.number(ttl[1])
    behind = wire.listed(wire.reference(*reference) for reference in references)
    return front + bytes([permission]) + struct.pack(">Q", moment) + behind


def line_of_many(index):
    """A value of the handle that takes several datagrams: every third has a reference."""
    if index == 1:
        return kept(1, b"URL", b"https://example.org/many", moment=MOMENT)
    data = b"line %d of a record that takes several datagrams" % index
    references = [] if index % 3 else [(b"10/a", index)]
    return kept(index, b"DESC", data, moment=MOMENT + 876 + index, references=references)


def tenants(acme, own, bolt, bare):
    """acme, bolt and bare have the other layout. own has the profile's, and the prefix of acme."""
    values = [
        (b"0.NA/10", kept(100, b"HS_ADMIN", wire.administrator(b"0.NA/10", 300, b"\x0f\xff"))),
        (b"0.NA/10", kept(300, b"HS_SECKEY", SECRET, 0x0C)),
        (b"0.NA/20", kept(100, b"HS_ADMIN", wire.administrator(b"0.NA/20", 300, b"\x0f\xff"))),
        (b"0.NA/20", kept(300, b"HS_SECKEY", OTHER_SECRET, 0x0C)),
        (b"10/report-7", kept(1, b"URL", b"https://example.org/report-7", moment=MOMENT)),
        (b"20/archive", kept(1, b"URL", b"https://example.org/archive")),
        *((b"10/many", line_of_many(index)) for index in MANY),
        (b"10/far", kept(1, b"URL", b"https://example.org/far", ttl=(1, 0x70000000), moment=0x3E800000005)),
        (b"10/kept", kept(1, b"URL", b"https://example.org/kept", 0x0C)),
        (b"10/kept", kept(100, b"HS_ADMIN", wire.administrator(b"0.NA/10", 300, b"\x0f\xff"), 0x0C)),
    ]
    lines = [
        "publisher acme 8 %d handle-net" % acme, "publisher own 4 %d" % own, "publisher bolt 4 %d handle-net" % bolt,
        "publisher bare 4 %d handle-net" % bare, "prefix 10 acme", "prefix 10 own", "prefix 20 bolt 3",
        "site bolt " + LONG_SITE.hex(), "site acme " + SITE.hex(),
    ]
    return wire.tenants(lines, values)


# What the cases share.

def server_at(port, way, version=(2, 1)):
    return handle_net.Server("127.0.0.1:%d" % port, way, version, 10 * servers.SLOWER)


def asked(port, request, way="tcp", version=(2, 1)):
    """The reply to a request without a key."""
    with server_at(port, way, version) as server:
        return server.ask(request)


def done(port, request, key=KEY, secret=SECRET, how="sha1", way="tcp"):
    """The reply to a request whose challenge is answered."""
    with server_at(port, way) as server:
        return server.do(request, key, secret, how)


def values_at(port, handle):
    return [value.parts() for value in asked(port, handle_net.resolution(handle)).values]


def administrator(behind=b""):
    return handle_net.HandleValue(100, b"HS_ADMIN", handle_net.administrator(b"0.NA/10", 300, behind=behind))


def creation(handle, *values):
    return handle_net.with_values(handle_net.CREATE, handle, values)


# Each group yields cases: a name, what came, and what should have come.

def resolutions(port, way):
    reply = asked(port, handle_net.resolution(b"10/report-7"), way)
    wanted = (1, b"URL", b"https://example.org/report-7", 14, (0, 86400), [])
    yield "code", reply.code, 1
    yield "value", [(value.parts(), value.written) for value in reply.values], [(wanted, SECOND)]
    yield "envelope", (reply.version, reply.flags, reply.left, reply.credential), ((2, 1), 0, b"", b"")
    reply = asked(port, handle_net.resolution(b"10/many"), way)
    yield "many values", [value.index for value in reply.values], list(MANY)
    yield "seconds", [value.written for value in reply.values[:3]], [SECOND, SECOND + 1, SECOND + 1]
    yield "references", reply.values[2].references, [(b"10/a", 3)]
    yield "by type", [v.index for v in asked(port, handle_net.resolution(b"10/many", types=[b"URL"]), way).values], [1]
    yield "by index", [v.index for v in asked(port, handle_net.resolution(b"10/many", [7, 9]), way).values], [7, 9]
    yield "no such handle", asked(port, handle_net.resolution(b"10/none"), way).code, 100
    yield "no name", asked(port, handle_net.resolution(b"10"), way).code, 102
    reply = asked(port, handle_net.resolution(b"30/x"), way)
    yield "a prefix of others", (reply.code, reply.handle, reply.values), (302, b"0.NA/30", [])
    yield "nothing public", asked(port, handle_net.resolution(b"10/kept"), way).code, 200
    reply = asked(port, handle_net.resolution(b"10/report-7"), way, (2, 11))
    yield "a newer version", (reply.version, reply.code), ((2, 1), 1)


def readings(port):
    value = asked(port, handle_net.resolution(b"10/far")).values[0]
    yield "a moment that four octets don't hold", value.written, 0xFFFFFFFF
    yield "a TTL that is a moment", value.ttl, (1, 0x70000000)
    request = handle_net.resolution(b"10/report-7", flags=handle_net.PUBLIC_ONLY | handle_net.RETURN_DIGEST)
    yield "a digest", asked(port, request).digest, (2, hashlib.sha1(request.signed).digest())
    yield "a letter in the other case", asked(port, handle_net.resolution(b"10/REPORT-7")).code, 100
    unasked = handle_net.resolution(b"10/kept", flags=0)
    yield "a kept value without a key", asked(port, unasked).code, 402
    yield "a kept value by key", [value.index for value in done(port, unasked).values], [1, 100]


def expirations(port, own):
    """Replies of this layout expire twelve hours after their moment; those of the profile say 0."""
    create = creation(b"10/never", administrator())
    requests = {
        "values": handle_net.resolution(b"10/report-7"), "no handle": handle_net.resolution(b"10/none"),
        "a referral": handle_net.resolution(b"30/x"), "a challenge": create,
        "site information": handle_net.of_handle(handle_net.SITE_INFO, b"/"),
    }
    for name, request in requests.items():
        for way in ("tcp", "udp"):
            begun = int(time.time())
            reply = asked(port, request, way)
            yield "expiration of %s by %s" % (name, way), begun <= reply.expiration - LIFE <= time.time(), True
    begun = int(time.time())
    reply = done(port, handle_net.of_handle(handle_net.LIST, b"0.NA/10"))
    yield "expiration of a list by key", begun <= reply.expiration - LIFE <= time.time(), True
    for name, request in requests.items():
        if name != "values":
            yield "no expiration of %s at the profile's port" % name, asked(own, request).expiration, 0


def sites(acme, own, bolt, bare):
    """A port answers the octets of its publisher's line, whatever the question names."""
    question = handle_net.of_handle(handle_net.SITE_INFO, b"/")
    for name, port, octets in (("acme", acme, SITE), ("bolt", bolt, LONG_SITE)):
        for way in ("tcp", "udp"):
            reply = asked(port, question, way)
            yield "of %s by %s" % (name, way), (reply.code, reply.site, reply.left), (1, octets, b"")
    other = handle_net.of_handle(handle_net.SITE_INFO, b"20/archive")
    yield "asked with another publisher's handle", asked(acme, other).site, SITE
    yield "asked with octets that are no string", asked(acme, handle_net.Request(handle_net.SITE_INFO, b"x")).site, SITE
    marked = handle_net.Request(handle_net.SITE_INFO, handle_net.text(b"/"), handle_net.RETURN_DIGEST)
    reply = asked(acme, marked)
    yield "behind a digest", (reply.digest, reply.site), ((2, hashlib.sha1(marked.signed).digest()), SITE)
    for name, port in (("without a line of the text", bare), ("at the profile's port", own)):
        reply = asked(port, question)
        yield name, (reply.code, reply.site, reply.left), (5, None, b"")


def changes(port):
    """Creates, adds, modifies and removes by key: the digest of a challenge is that of the octets that went."""
    name = b"10/cases-%d" % time.time_ns()
    values = [
        handle_net.HandleValue(1, b"URL", b"https://example.org/new", references=[(b"10/a", 2)], written=7),
        handle_net.HandleValue(5, b"X", bytes(range(256)), 0x0F, (1, 0xFFFFFFFF)),
        administrator(),
    ]
    create, begun = creation(name, *values), int(time.time())
    yield "create without a key", asked(port, create).code, 402
    yield "create", done(port, create).code, 1
    yield "created", values_at(port, name), [value.parts() for value in values]
    written = [value.written for value in asked(port, handle_net.resolution(name)).values]
    yield "its moment is the server's", all(begun <= moment <= time.time() for moment in written), True
    yield "create again", done(port, create).code, 101
    extra = handle_net.with_values(handle_net.ADD, name, [handle_net.HandleValue(9, b"Y", b"y")])
    yield "a wrong key", done(port, extra, secret=b"other").code, 403
    yield "a key that is no administrator", done(port, extra, OTHER_KEY, OTHER_SECRET).code, 400
    yield "SHA-256 at a prefix of SHA-1", done(port, extra, how="sha256").code, 404
    yield "HMAC by SHA-1", done(port, extra, how="hmac-sha1").code, 404
    yield "add", done(port, extra).code, 1
    yield "add again", done(port, extra).code, 201
    changed = handle_net.with_values(handle_net.MODIFY, name, [handle_net.HandleValue(9, b"Z", b"z")])
    yield "modify", done(port, changed).code, 1
    yield "remove", done(port, handle_net.removal(name, [1, 5])).code, 1
    yield "what is left", [(part[0], part[1]) for part in values_at(port, name)], [(9, b"Z"), (100, b"HS_ADMIN")]
    reply = done(port, handle_net.of_handle(handle_net.LIST, b"0.NA/10"))
    yield "list", (name in reply.handles, reply.handles == sorted(reply.handles)), (True, True)
    yield "delete", done(port, handle_net.of_handle(handle_net.DELETE, name)).code, 1
    yield "deleted", asked(port, handle_net.resolution(name)).code, 100


def refusals(port):
    plain = handle_net.HandleValue(1, b"URL", b"u")
    yield "create without an administrator", done(port, creation(b"10/no", plain)).code, 202
    profile = handle_net.Request(handle_net.CREATE, wire.string(b"10/no") + wire.listed([kept(1, b"URL", b"u")]))
    yield "values of the profile's layout", asked(port, profile).code, 4
    cut = handle_net.Request(handle_net.CREATE, wire.string(b"10/no") + wire.listed([plain.octets()[:-1]]))
    yield "a value that is cut short", asked(port, cut).code, 4


def old_tools(acme, own):
    """Two octets of 0 at the end of HS_ADMIN data, as old tools write them."""
    name = b"10/old-%d" % time.time_ns()
    yield "two octets of 0", done(acme, creation(name, administrator(bytes(2)))).code, 1
    yield "which aren't stored", values_at(acme, name), [administrator().parts()]
    extra = handle_net.with_values(handle_net.ADD, name, [handle_net.HandleValue(9, b"Y", b"y")])
    yield "their administrator may add", done(acme, extra).code, 1
    yield "and delete", done(acme, handle_net.of_handle(handle_net.DELETE, name)).code, 1
    for what, octets in (("one octet of 0", bytes(1)), ("three octets of 0", bytes(3)), ("two other octets", b"\0\1")):
        yield what, done(acme, creation(name, administrator(octets))).code, 202
    with servers.Client(own) as client:
        data = wire.administrator(b"0.NA/10", 300) + bytes(2)
        yield "two octets of 0 at the profile's port", client.create(name, [kept(100, b"HS_ADMIN", data)]), 202


def in_pieces(port):
    name = b"10/long-%d" % time.time_ns()
    create = creation(name, *(handle_net.HandleValue(k, b"X", b"x" * 90) for k in range(1, 20)), administrator())
    pieces = -(-len(create.message) // handle_net.PIECE)
    yield "create in five datagrams", (pieces, done(port, create, way="udp").code), (5, 1)
    yield "as many values", len(asked(port, handle_net.resolution(name), "udp").values), 20
    yield "delete by UDP", done(port, handle_net.of_handle(handle_net.DELETE, name), way="udp").code, 1


def by_sha256(port):
    """The prefix of bolt has SHA-256."""
    listing = handle_net.of_handle(handle_net.LIST, b"0.NA/20")
    reply = done(port, listing, OTHER_KEY, OTHER_SECRET, "sha256")
    yield "SHA-256", (reply.code, b"20/archive" in reply.handles), (1, True)
    yield "a wrong key by SHA-256", done(port, listing, OTHER_KEY, SECRET, "sha256").code, 403
    yield "SHA-1 at a prefix of SHA-256", done(port, listing, OTHER_KEY, OTHER_SECRET).code, 404
    yield "the other publisher's handles", asked(port, handle_net.resolution(b"10/report-7")).code, 302


def one_prefix(acme, own):
    """acme and own have the same handles, at a port for each layout: a change at one is seen at the other."""
    name = b"10/both-%d" % time.time_ns()
    first = kept(1, b"URL", b"https://example.org/first")
    second = handle_net.HandleValue(1, b"URL", b"https://example.org/second")
    with servers.Client(own) as client:
        made = client.create(name, [first, kept(100, b"HS_ADMIN", wire.administrator(b"0.NA/10", 300))])
        yield "create at the profile's port", made, 1
        yield "seen at the other", values_at(acme, name)[0][:3], (1, b"URL", b"https://example.org/first")
        yield "modify at the other", done(acme, handle_net.with_values(handle_net.MODIFY, name, [second])).code, 1
        body = client.asked(wire.resolution(name, [1]))[1]
        begun = len(wire.string(name)) + 4
        as_written = kept(1, b"URL", b"https://example.org/second")
        # its octets but for the moment and the count of references
        yield "seen at the profile's port", body[begun:begun + len(as_written) - 12], as_written[:-12]
        moment, = struct.unpack(">Q", body[begun + len(as_written) - 12:begun + len(as_written) - 4])
        value = asked(acme, handle_net.resolution(name, [1])).values[0]
        yield "one moment, by its second", value.written, moment // 1000
        yield "delete at the profile's port", client.delete(name), 1
    yield "deleted at the other", asked(acme, handle_net.resolution(name)).code, 100


# Frames laid out by hand, each as envelope and header, and body with credential. A reply of the other layout has a
# moment of expiration, for which zeros stand here: it is compared by itself.
REPORT = "0000000b 31302f7265706f72742d37"
NAMED = "00000003 55524c 0000001c 68747470733a2f2f6578616d706c652e6f72672f7265706f72742d37"
ASK_REPORT = (
    "02010000 00000000 00000007 00000000 00000033" "00000001 00000000 01000000 0000 00 00 00000000 00000017",
    REPORT, "00000000 00000000 00000000")
ASK_NONE = (
    "02010000 00000000 00000008 00000000 0000002f" "00000001 00000000 00000000 0000 00 00 00000000 00000013",
    "00000007 31302f6e6f6e65 00000000 00000000 00000000")
ASK_OTHERS = (
    "02010000 00000000 00000009 00000000 0000002c" "00000001 00000000 00000000 0000 00 00 00000000 00000010",
    "00000004 33302f78 00000000 00000000 00000000")
ASK_UNKNOWN = (
    "020b0000 00000000 0000000a 00000000 00000021" "0000006a 00000000 01000000 ffff 00 00 00000000 00000005",
    "00000001 2f 00000000")
ASK_NOTHING = ("02010000 00000000 0000000b 00000000 00000004" "00000000",)
NONE = (
    "02010000 00000000 00000008 00000000 00000020" "00000001 00000064 00000000 0000 00 00 00000000 00000004",
    "00000000 00000000")
OTHERS = (
    "02010000 00000000 00000009 00000000 0000002b" "00000001 0000012e 00000000 0000 00 00 00000000 0000000f",
    "00000007 302e4e412f3330 00000000 00000000")
UNKNOWN = (
    "02010000 00000000 0000000a 00000000 00000020" "0000006a 00000005 00000000 ffff 00 00 00000000 00000004",
    "00000000 00000000")
NOTHING = (
    "02010000 00000000 0000000b 00000000 00000020" "00000000 00000004 00000000 0000 00 00 00000000 00000004",
    "00000000 00000000")
REPORT_OF_PROFILE = (
    "02010000 00000000 00000007 00000000 0000006c" "00000001 00000001 00000000 0000 00 00 00000000 00000050",
    REPORT, "00000001" "00000001", NAMED, "00 00015180 0e 0000018bcfe5687b 00000000" "00000000")
REPORT_OF_HANDLE_NET = (
    "02010000 00000000 00000007 00000000 00000068" "00000001 00000001 00000000 0000 00 00 00000000 0000004c",
    REPORT, "00000001" "00000001 6553f100 00 00015180 0e", NAMED, "00000000" "00000000")
ASK_SITE = (
    "02010000 00000000 0000000c 00000000 00000021" "00000002 00000000 00000000 ffff 00 00 00000000 00000005",
    "00000001 2f 00000000")
SITE_TOLD = (
    "02010000 00000000 0000000c 00000000 00000058" "00000002 00000001 00000000 ffff 00 00 00000000 0000003c",
    "0001 02 01 0001 80 02 00000000 00000000 00000001 00000001 00000000 00000000 00000000 c0000207 00000000",
    "00000002 03 01 00000a51 02 00 00000a51 00000000")
NO_SITE = (
    "02010000 00000000 0000000c 00000000 00000020" "00000002 00000005 00000000 ffff 00 00 00000000 00000004",
    "00000000 00000000")
SAME = (
    ("no handle", ASK_NONE, NONE),
    ("a referral", ASK_OTHERS, OTHERS),
    ("an unknown operation", ASK_UNKNOWN, UNKNOWN),
    ("no message", ASK_NOTHING, NOTHING),
)
OF_PROFILE = (("values", ASK_REPORT, REPORT_OF_PROFILE), ("no site information", ASK_SITE, NO_SITE), *SAME)
OF_HANDLE_NET = (("values", ASK_REPORT, REPORT_OF_HANDLE_NET), ("site information", ASK_SITE, SITE_TOLD), *SAME)


def exchanged(port, way, octets):
    """The octets that answer a frame, which are one frame."""
    kind = socket.SOCK_STREAM if way == "tcp" else socket.SOCK_DGRAM
    with socket.socket(socket.AF_INET, kind) as one:
        one.settimeout(10 * servers.SLOWER)
        one.connect(("127.0.0.1", port))
        one.sendall(octets)
        if way == "udp":
            return one.recv(65536)
        head = servers.received(one, 20)
        return head + servers.received(one, struct.unpack(">16xI", head)[0])


def octets_of(port, frames, has_moment):
    for name, sent, wanted in frames:
        for way in ("tcp", "udp"):
            came = exchanged(port, way, bytes.fromhex("".join(sent)))
            if has_moment:
                came = came[:36] + bytes(4) + came[40:]
            yield "octets of %s by %s" % (name, way), came.hex(), bytes.fromhex("".join(wanted)).hex()


def strangers(acme, own, bolt):
    """A long reply by UDP to an address that has proved no key: code 2 in its place, which expires as any other."""
    request, begun = handle_net.resolution(b"10/many"), int(time.time())
    reply = asked(acme, request, "udp")
    yield "code 2", (reply.code, reply.text, reply.left), (2, b"", b"")
    yield "its expiration", begun <= reply.expiration - LIFE <= time.time(), True
    reply = asked(own, request, "udp")
    yield "code 2 at the profile's port", (reply.code, reply.expiration), (2, 0)
    yield "all of it by TCP", [value.index for value in asked(acme, request).values], list(MANY)
    reply = asked(bolt, handle_net.of_handle(handle_net.SITE_INFO, b"/"), "udp")
    yield "code 2 for long site information", (reply.code, reply.site), (2, None)


def groups(acme, own, bolt, bare):
    for way in ("tcp", "udp"):
        yield way, resolutions(acme, way)
    yield "readings", readings(acme)
    yield "expirations", expirations(acme, own)
    yield "site information", sites(acme, own, bolt, bare)
    yield "changes", changes(acme)
    yield "refusals", refusals(acme)
    yield "old tools", old_tools(acme, own)
    yield "pieces", in_pieces(acme)
    yield "SHA-256", by_sha256(bolt)
    yield "one prefix", one_prefix(acme, own)
    yield "this layout", octets_of(acme, OF_HANDLE_NET, True)
    yield "the profile", octets_of(own, OF_PROFILE, False)


def tried():
    """Each case of a server, and of one whose replies by UDP are short."""
    with servers.serving(tenants, 4) as ports:
        for group, cases in groups(*ports):
            yield from ((group, *case) for case in cases)
    with servers.serving(tenants, 4, options=("--amplify", "1")) as (acme, own, bolt, _):
        yield from (("strangers", *case) for case in strangers(acme, own, bolt))


def main():
    passed = failed = 0
    for group, name, came, wanted in tried():
        passed, failed = passed + (came == wanted), failed + (came != wanted)
        if came != wanted:
            print("%s: %s: %r; it should be %r" % (group, name, came, wanted))
    print("%d passed, %d failed" % (passed, failed))
    return 1 if failed else 0


if __name__ == "__main__":
    sys.exit(main())

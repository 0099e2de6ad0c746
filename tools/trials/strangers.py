"""strangers.py: connects to the proved program crates/handled/out/handled as strangers do who hold a lane: one that says nothing, one that gives its frame
slower than a frame may come, and one that asks for much and reads nothing. Each must be closed, at its time and not before, and the
client that waits behind it must get its whole answer. On a lane that many share the slow one and the greedy one are closed too, and the others there
get their answers meanwhile. And one names keys that nobody has, behind lists that are dear to search: each of its requests may look up some of them alone.
One more asks for a list of ten thousand handles, without a key: the challenge may cost the server few times what a plain answer does.

The first four run side by side and take some 12 seconds, of which most is waiting. Its last line is 'N passed, M failed', a case counting one."""

import contextlib
import os
import select
import socket
import sys
import threading
import time

# nothing is left beside the tools
sys.dont_write_bytecode = True
from lib import servers, wire

# What the gate reads of it (tools/build/parts.py).
GATE = {"alone": True}
# Seconds: of silence, for a frame or to take some of an answer, and how much later it may be seen on a machine that others use too.
IDLE, LIMIT, LATE = 2, 10, 8
OFTEN = 800
LARGE = wire.value(1, b"TEXT", b"x" * 32000, wire.PUBLIC_READ)
# How many lists have the same references, which these lists are the first of, and how many requests looking all of them up takes: 65,536 octets each, and a list has some 12,000.
LISTS, REFERENCES, REQUESTS = 100, 1_000, range(10, 40)
BUSY, NOT_AUTHORIZED = 3, 400
# Of how many handles strangers ask, and how often; how many times a plain question theirs may cost, and in what steps processor seconds are counted. An unproved program takes minutes
# to open so many handles.
HANDLES, ASKED = (1_000, 200) if servers.IS_UNPROVED else (10_000, 2_000)
TIMES, TICK = 5, 2 / os.sysconf("SC_CLK_TCK")


def tenants(*ports):
    """A publisher with two lanes for connections, four with one, and one with an overflow lane beside two, who share a prefix."""
    names = ("silent", "slow", "greedy", "crowded", "dear", "many")
    lines = ["publisher %s %d %d" % row for row in zip(names, (3, 2, 2, 4, 2, 2), ports)]
    rows = [wire.value_line(*row) for row in [(b"10/large", LARGE)] + lists() + many_rows()]
    return wire.text(lines + ["prefix 10 %s" % name for name in names] + rows)


def lists():
    """The rows of these lists, and of a handle whose administrator is the first."""
    places = [(b"10/lists", index + 1) for index in range(LISTS)] + [(b"10/absent", index + 1) for index in range(REFERENCES - LISTS)]
    data = wire.listed([wire.reference(*place) for place in places])
    rows = [(handle, wire.value(index, b"HS_VLIST", data, wire.PUBLIC_READ)) for handle, index in places[:LISTS]]
    return rows + [(b"10/kept", wire.value(100, b"HS_ADMIN", wire.administrator(*places[0]), wire.PUBLIC_READ))]


def many_rows():
    """The rows of many handles, and of the administrator of their prefix."""
    note = wire.value(1, b"NOTE", b"x", wire.PUBLIC_READ)
    rows = [(b"10/%d" % number, note) for number in range(HANDLES)]
    return rows + [(b"0.NA/10", wire.value(100, b"HS_ADMIN", wire.administrator(b"0.NA/10", 300), wire.PUBLIC_READ))]


def asked(request, handle=b"10/a"):
    return wire.frame(wire.resolution(handle), request=request)


def absent(request):
    return wire.frame(wire.message(wire.RESOLVE, wire.number(0), wire.ABSENT), request=request)


def client(port):
    stream = socket.create_connection(("127.0.0.1", port))
    stream.settimeout(LIMIT + LATE)
    return stream


def is_answered(stream, request=1):
    stream.sendall(asked(request))
    return servers.received(stream, len(absent(request))) == absent(request)


def count_to_end(stream):
    """How many octets come up to the end, by whichever of the two ways it comes."""
    count = 0
    with contextlib.suppress(ConnectionError):
        while octets := stream.recv(1 << 20):
            count += len(octets)
    return count


def is_closed(stream):
    """Whether the other side closes the connection, of which nothing is read meanwhile."""
    watch = select.poll()
    watch.register(stream, select.POLLRDHUP)
    return bool(watch.poll((LIMIT + LATE) * 1000))


def silent(port):
    """Of two silent clients none is closed while nobody waits; behind a third the one is that is silent longer, and the other goes on."""
    first, second = client(port), client(port)
    good = is_answered(first) and is_answered(second)
    time.sleep(IDLE + 1.5)
    good = good and is_answered(first, 2)
    time.sleep(IDLE + 1.5)
    good = good and is_answered(client(port))
    return good and count_to_end(second) == 0 and is_answered(first, 3)


def slow(port):
    """An octet comes each half second; the connection is closed ten seconds behind the first, unanswered, and the next client is served."""
    stream, began = client(port), time.monotonic()
    for octet in asked(1)[:LIMIT * 2 - 2]:
        stream.sendall(bytes([octet]))
        time.sleep(0.5)
    went_on = time.monotonic() - began < LIMIT - 0.5
    stream.sendall(b"\0")
    good = went_on and count_to_end(stream) == 0 and LIMIT <= time.monotonic() - began < LIMIT + LATE
    return good and is_answered(client(port))


def send_ahead(stream, octets):
    """Sends octets as far as they go within a second."""
    began = time.monotonic()
    stream.setblocking(False)
    while octets and time.monotonic() - began < 1:
        with contextlib.suppress(BlockingIOError):
            octets = octets[stream.send(octets):]
    stream.settimeout(LIMIT + LATE)


def greedy(port):
    """Answers of 32,000 octets are asked for and none is read; the next client is served ten seconds later, and no more comes than was on the way."""
    stream, began = client(port), time.monotonic()
    send_ahead(stream, b"".join(asked(request, b"10/large") for request in range(1, OFTEN + 1)))
    good = is_answered(client(port)) and LIMIT <= time.monotonic() - began < LIMIT + LATE
    return good and count_to_end(stream) < OFTEN * len(LARGE)


def crowded(port):
    """Of a crowd one gives an octet each half second and one reads nothing of 32,000 octets an answer; both are closed ten seconds later, and nobody else is."""
    others = [client(port) for _ in range(6)]
    good = all(is_answered(other) for other in others)
    slow_one, greedy_one, began = client(port), client(port), time.monotonic()
    send_ahead(greedy_one, b"".join(asked(request, b"10/large") for request in range(1, OFTEN + 1)))
    for octet in asked(1)[:LIMIT * 2 - 5]:
        slow_one.sendall(bytes([octet]))
        good = good and is_answered(others[octet % 6], 2)
        time.sleep(0.5)
    went_on = time.monotonic() - began < LIMIT
    good = good and went_on and count_to_end(slow_one) == 0 and LIMIT <= time.monotonic() - began < LIMIT + LATE
    good = is_closed(greedy_one) and LIMIT <= time.monotonic() - began < LIMIT + LATE and good
    return good and count_to_end(greedy_one) < OFTEN * len(LARGE) and all(is_answered(other, 3) for other in others)


def answered_at_last(port, index):
    """How many requests by a key that nobody has are answered Busy, and the code of the one behind."""
    with servers.Client(port, b"10/nobody", index, b"made up") as one:
        for count in range(REQUESTS.stop + 1):
            code = one.delete(b"10/kept")
            if code != BUSY:
                break
        return count, code


def dear(port):
    """A key that nobody has, for a handle with a hundred lists of the same references: one request looks up some of them, and the next such key is answered at once."""
    count, code = answered_at_last(port, 1)
    return count in REQUESTS and code == NOT_AUTHORIZED and answered_at_last(port, 2) == (0, NOT_AUTHORIZED)


def used(process):
    """The processor seconds that a process has used."""
    with open("/proc/%d/stat" % process.pid, encoding="utf-8") as fields:
        found = fields.read().rsplit(")", 1)[1].split()
    return (int(found[11]) + int(found[12])) / os.sysconf("SC_CLK_TCK")


def cost(port, process, question, code):
    """The processor seconds that a server uses for so many of a question, each of which is answered by this code; without an end where one isn't."""
    with servers.Client(port) as one:
        before = used(process)
        codes = {one.send(question)[1][4:8] for _ in range(ASKED)}
        return used(process) - before if codes == {wire.number(code)} else float("inf")


def many(port, process):
    """A list of ten thousand handles, asked for by a stranger: its challenge costs the server few times what the answer about an absent handle does."""
    plain = cost(port, process, wire.resolution(b"10/a"), wire.ABSENT)
    return cost(port, process, wire.message(wire.LIST, wire.string(b"0.NA/10")), wire.AUTHENTICATION_NEEDED) < TIMES * plain + TICK


def tried(case, port, passed):
    if case(port):
        passed.append(case)


def main():
    timed, passed = (silent, slow, greedy, crowded), []
    cases = (*timed, dear, many)
    process, ports = servers.serve(tenants, len(cases), options=("--idle", str(IDLE)))
    try:
        threads = [threading.Thread(target=tried, args=(case, port, passed), daemon=True) for case, port in zip(timed, ports)]
        for thread in threads:
            thread.start()
        for thread in threads:
            thread.join(60)
        # what these cost the server would be in the others' times
        tried(dear, ports[-2], passed)
        passed += [many] if many(ports[-1], process) else []
    finally:
        servers.end(process)
    return servers.tally([("%s, %s" % (case.__name__, case.__doc__), case in passed) for case in cases], "it isn't so")


sys.exit(main())

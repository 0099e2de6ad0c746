"""crowd.py: connects to the proved program crates/handled/out/handled by TCP as a crowd does: a thousand clients of one publisher at once, each of whom asks again and
again while others do, in whole requests and in pieces, one at a time and several in flight, and every reply is compared whole. Then: who has a lane of its
own and who doesn't; whose a challenge is, and that it is nobody's once its client has gone; a faulty envelope; a crowd that is full, and a server that
has no descriptor left; and what a thousand silent clients cost. The cases with limits of ten seconds stand in tools/trials/strangers.py.

The cases run side by side, in some six seconds. Its last line is 'N passed, M failed', a case counting one.

    tools/trials/crowd.py                 all cases
    tools/trials/crowd.py COUNT           what so many silent clients cost, and how soon one more is answered among them"""

import contextlib
import os
import resource
import socket
import sys
import threading
import time

# nothing is left beside the tools
sys.dont_write_bytecode = True
from lib import servers, wire

# What the gate reads of it (tools/build/parts.py).
GATE = {"alone": True}
MANY, LANES, OWN = 1000, 4, 2
CHALLENGES, IDLE, PATIENCE = 8, 1, 20
KEY, HIDDEN = b"never-shown", 0
ADMINISTRATOR = wire.value(100, b"HS_ADMIN", wire.administrator(b"0.NA/10", 300), HIDDEN)
SMALL = wire.value(1, b"TEXT", b"of a crowd", wire.PUBLIC_READ)
LARGE = wire.value(1, b"TEXT", b"x" * 32000, wire.PUBLIC_READ)
# How many descriptors a server has that shall run out of them, how many clients come to it, and how many connections a small crowd has.
FEW, TOO_MANY, FULL = 60, 60, 3


def tenants(*ports):
    """As many publishers, each with two lanes for a connection, the overflow lane, and that of datagrams."""
    names = ["p%d" % k for k in range(len(ports))]
    values = ((b"0.NA/10", ADMINISTRATOR), (b"0.NA/10", wire.value(300, b"HS_SECKEY", KEY, HIDDEN)), (b"10/small", SMALL), (b"10/large", LARGE))
    lines = ["publisher %s %d %d" % (name, LANES, port) for name, port in zip(names, ports)]
    return wire.tenants(lines + ["prefix 10 %s" % name for name in names], values)


def client(port):
    stream = socket.create_connection(("127.0.0.1", port))
    stream.setsockopt(socket.IPPROTO_TCP, socket.TCP_NODELAY, 1)
    stream.settimeout(PATIENCE)
    return stream


def clients(port, count):
    return [client(port) for _ in range(count)]


def question(request, large=False):
    return wire.frame(wire.resolution(b"10/large" if large else b"10/small"), request=request)


def answer(request, large=False):
    handle, value = (b"10/large", LARGE) if large else (b"10/small", SMALL)
    return wire.frame(wire.values_reply(handle, value), request=request)


def received(stream, count):
    """So many octets, or those up to the end; none where the stream fails."""
    with contextlib.suppress(OSError):
        return servers.received(stream, count)
    return b""


def asked(stream, octets, count):
    stream.sendall(octets)
    return received(stream, count)


def is_answered(stream, request=1, large=False):
    wanted = answer(request, large)
    return asked(stream, question(request, large), len(wanted)) == wanted


def has_ended(stream):
    return received(stream, 1) == b""


def create(handle):
    return wire.message(wire.CREATE, wire.string(handle) + wire.listed([SMALL, ADMINISTRATOR]))


def challenged(stream, message, request=1):
    """The SessionId and the nonce of the challenge of this request; of another reply none that can be answered."""
    wanted = wire.frame(wire.challenge(message), 0, request)
    octets = asked(stream, wire.frame(message, request=request), len(wanted))
    session, nonce = int.from_bytes(octets[4:8], "big"), octets[-20:-4]
    return (session, nonce) if octets == wire.frame(wire.challenge(message, nonce=nonce), session, request) else (0, b"")


def code_of_response(stream, message, challenge):
    """The code that the response to a challenge gets."""
    session, nonce = challenge
    stream.sendall(wire.frame(wire.response(message, KEY, b"0.NA/10", 300, nonce=nonce), session, 2))
    head = received(stream, 20)
    return int.from_bytes(received(stream, int.from_bytes(head[16:20], "big"))[4:8], "big")


def waits(stream, seconds=0.3):
    """Whether what was asked isn't answered for a while."""
    stream.settimeout(seconds)
    try:
        stream.recv(1, socket.MSG_PEEK)
        return False
    except socket.timeout:
        return True
    finally:
        stream.settimeout(PATIENCE)


def many(port):
    """a thousand clients at once get whole replies, the same as one alone"""
    crowd = clients(port, MANY)
    good = True
    for turn in range(1, 4):
        for k, stream in enumerate(crowd):
            octets = question(turn * MANY + k, k % 50 == turn)
            # some come in pieces, of which the rest follows once all others have asked
            stream.sendall(octets[:11] if k % 7 == turn else octets)
        for k, stream in enumerate(crowd):
            if k % 7 == turn:
                stream.sendall(question(turn * MANY + k, k % 50 == turn)[11:])
        for k, stream in enumerate(crowd):
            wanted = answer(turn * MANY + k, k % 50 == turn)
            good = received(stream, len(wanted)) == wanted and good
    return good


def in_flight(port):
    """several requests in flight on each of many connections are answered in order"""
    crowd = clients(port, 40)
    for k, stream in enumerate(crowd):
        stream.sendall(b"".join(question(request, request == 5 and k % 4 == 0) for request in range(1, 21)))
    good = True
    for k, stream in enumerate(crowd):
        wanted = b"".join(answer(request, request == 5 and k % 4 == 0) for request in range(1, 21))
        good = received(stream, len(wanted)) == wanted and good
    return good


def own_lanes(port):
    """clients that come first have a lane each, whose challenges the crowd's don't displace; in the crowd a ninth displaces the oldest"""
    first = clients(port, OWN)
    good = all(is_answered(stream) for stream in first)
    messages = [create(b"10/own%d" % k) for k in range(OWN)]
    kept = [challenged(stream, message) for stream, message in zip(first, messages)]
    crowd = clients(port, CHALLENGES + 1)
    theirs = [create(b"10/crowd%d" % k) for k in range(CHALLENGES + 1)]
    sent = [challenged(stream, message) for stream, message in zip(crowd, theirs)]
    codes = [code_of_response(*row) for row in zip(crowd, theirs, sent)]
    good = good and codes == [wire.PROTOCOL_ERROR] + [wire.SUCCESS] * CHALLENGES
    return good and [code_of_response(*row) for row in zip(first, messages, kept)] == [wire.SUCCESS] * OWN


def nobody_elses(port):
    """a challenge is its connection's alone, while others come and go, and nobody's once that has gone"""
    others = clients(port, OWN)
    mine, gone, message, lost = client(port), client(port), create(b"10/mine"), create(b"10/lost")
    kept, left = challenged(mine, message), challenged(gone, lost)
    good = all(code_of_response(client(port), message, kept) == wire.PROTOCOL_ERROR for _ in range(20))
    gone.close()
    for _ in range(10):
        crowd = clients(port, 30)
        good = all(is_answered(stream, 3) for stream in crowd) and good
        good = code_of_response(crowd[0], lost, left) == wire.PROTOCOL_ERROR and good
        for stream in crowd:
            stream.close()
    return good and len(others) == OWN and code_of_response(mine, message, kept) == wire.SUCCESS


def faulty(port):
    """a faulty envelope is refused behind what was asked before it, its connection ends, and no other does"""
    others = clients(port, OWN + 3)
    good = all(is_answered(stream) for stream in others)
    stream = client(port)
    refused = wire.frame(wire.short_reply(wire.PROTOCOL_ERROR), 0, 8)
    octets = asked(stream, question(7) + b"\3" + question(8)[1:], len(answer(7)) + len(refused))
    good = good and octets == answer(7) + refused and has_ended(stream)
    return good and all(is_answered(other, 2) for other in others)


def half_closed(port):
    """a client that asks and closes its half gets its answers, and then the end"""
    others = clients(port, OWN)
    stream = client(port)
    stream.sendall(question(1, True) + question(2))
    stream.shutdown(socket.SHUT_WR)
    wanted = answer(1, True) + answer(2)
    return len(others) == OWN and received(stream, len(wanted)) == wanted and has_ended(stream)


def full(port):
    """where the crowd is full nobody is disconnected while nobody waits; then the one that is silent longest makes room, and no other"""
    everybody = clients(port, OWN + FULL)
    good = all(is_answered(stream) for stream in everybody)
    time.sleep(IDLE + 0.5)
    longest = everybody.pop(OWN)
    good = good and is_answered(longest, 2)
    # silence is counted in milliseconds, and of two that are silent as long either may go
    time.sleep(0.05)
    for stream in everybody:
        good = is_answered(stream, 2) and good
    late = client(port)
    late.sendall(question(3))
    good = waits(late) and good
    good = received(late, len(answer(3))) == answer(3) and has_ended(longest) and good
    return good and all(is_answered(stream, 4) for stream in everybody)


def without_descriptors(port):
    """a server without descriptors answers whom it has, and whoever waits once there are some again"""
    crowd = clients(port, TOO_MANY)
    for stream in crowd:
        stream.sendall(question(1))
    time.sleep(0.5)
    inside = [stream for stream in crowd if not waits(stream, 0.01)]
    outside = [stream for stream in crowd if stream not in inside]
    good = OWN < len(inside) < TOO_MANY and all(received(stream, len(answer(1))) == answer(1) for stream in inside)
    good = good and all(is_answered(stream, 2) for stream in inside)
    # those with a lane of their own go too: their workers came through
    for stream in inside:
        stream.close()
    return good and all(received(stream, len(answer(1))) == answer(1) and stream.close() is None for stream in outside)


def spent(process):
    """The processor seconds of a process, and its resident megabytes."""
    with open("/proc/%d/stat" % process.pid) as line:
        fields = line.read().rsplit(")", 1)[1].split()
    return (int(fields[11]) + int(fields[12])) / os.sysconf("SC_CLK_TCK"), int(fields[21]) * os.sysconf("SC_PAGE_SIZE") / 1e6


def cost_of(process, port, count, seconds):
    """Megabytes and a share of a processor that so many silent clients cost, and the seconds that one more waits, the longest of some."""
    own = clients(port, OWN + 1)
    good = all(is_answered(stream, k) and is_answered(stream, k, True) for k, stream in enumerate(own))
    _, before = spent(process)
    crowd = clients(port, count)
    good = all(is_answered(stream, k + 1) for k, stream in enumerate(crowd)) and good
    used, _ = spent(process)
    time.sleep(seconds)
    more, after = spent(process)
    longest = 0.0
    for k in range(20):
        began = time.monotonic()
        stream = client(port)
        good = is_answered(stream, k + 1) and good
        longest = max(longest, time.monotonic() - began)
        stream.close()
    good = all(is_answered(stream, k + 2) for k, stream in enumerate(crowd)) and good
    return good, after - before, (more - used) / seconds, longest


def silent(process, port):
    """a thousand silent clients cost under ten megabytes and no processor"""
    good, megabytes, share, _ = cost_of(process, port, MANY, 1)
    return good and megabytes < 10 and share < 0.05


def plain(case):
    return lambda process, port: case(port)


def served(cases, passed, options, **how):
    """Tries these cases side by side, each with a publisher of its own."""
    process, ports = servers.serve(tenants, len(cases), options=options, **how)

    def tried(name, case, port):
        began = time.monotonic()
        if case(process, port):
            passed.append(name)
        if os.environ.get("TIMES"):
            print(name.__name__, round(time.monotonic() - began, 2))

    threads = [threading.Thread(target=tried, args=(name, case, port), daemon=True) for (name, case), port in zip(cases, ports)]
    for thread in threads:
        thread.start()
    for thread in threads:
        thread.join(60)
    servers.end(process)


def allow_descriptors():
    _, hard = resource.getrlimit(resource.RLIMIT_NOFILE)
    resource.setrlimit(resource.RLIMIT_NOFILE, (hard, hard))


def few_descriptors():
    resource.setrlimit(resource.RLIMIT_NOFILE, (FEW, FEW))


def measured(count):
    process, (port,) = servers.serve(tenants, 1, options=("--crowd", str(count + 100)))
    good, megabytes, share, longest = cost_of(process, port, count, 5)
    servers.end(process)
    print("%d clients: %s, %.1f MB, %.2f %% of a processor, one more answered in %.0f us at most" % (
        count, "each answered" if good else "another reply than should be, or none", megabytes, share * 100, longest * 1e6))
    return 0 if good else 1


def main():
    allow_descriptors()
    if len(sys.argv) > 1:
        return measured(int(sys.argv[1]))
    passed = []
    alike = (many, in_flight, own_lanes, nobody_elses, faulty, half_closed)
    served([(case, plain(case)) for case in alike], passed, ("--idle", str(IDLE), "--crowd", str(MANY + 100)))
    groups = [
        ([(silent, silent)], {"options": ("--crowd", str(MANY + 100))}),
        ([(full, plain(full))], {"options": ("--idle", str(IDLE), "--crowd", str(FULL))}),
        ([(without_descriptors, plain(without_descriptors))], {"options": (), "preexec_fn": few_descriptors}),
    ]
    threads = [threading.Thread(target=served, args=(cases, passed), kwargs=how, daemon=True) for cases, how in groups]
    for thread in threads:
        thread.start()
    for thread in threads:
        thread.join(60)
    cases = alike + (silent, full, without_descriptors)
    return servers.tally([("%s, %s" % (case.__name__, case.__doc__), case in passed) for case in cases], "it isn't so")


sys.exit(main())

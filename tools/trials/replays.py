"""replays.py: hands the proved program crates/handled/out/handled what no script of crates/hdl_scripts can have, and compares all that `handled replay` prints, its fault line and
its status: scripts that are made by a loop, over a table in memory and over one in a file; inputs at their limit; and devices that fail.

The scripts have the longest reply and one that is an octet longer, a handle with as many values as it may have, the longest message in pieces, the last first, a key that
stands behind two lists, a publisher whose answers are the same alone and behind another one that does what it can, and five hundred writes in no order, behind each of which the
handle is read, and names and lists that SQL might take for something else. Their replies are made as docs/PROTOCOL.md says (tools/lib/wire.py). Its last line is 'N passed, M failed', a run counting one."""

import contextlib
import itertools
import os
import resource
import signal
import socket
import struct
import subprocess
import sys
import tempfile
import time

# nothing is left beside the tools
sys.dont_write_bytecode = True
from lib import servers, wire

# Prefixes that begin another, or are a pattern of it.
ALIKE = [b"10.a", b"10.a%", b"10.a_", b"10.ab", b"10.ab\0"]
TENANTS = ["publisher acme 2 2641", "publisher bolt 2 2642", "prefix 20 bolt"]
TENANTS += ["prefix %s acme" % prefix.decode() for prefix in (b"10", b"10.abc", b"10.abcd", b"10.long", *ALIKE)]
# The code of a reply that is too long, and that of a handle which would have too many values.
TOO_LONG, INVALID_VALUE = 2, 202
HIDDEN, ADMIN, EVERYBODY = 0, 0x0E, 0x0F
# acme's lane and bolt's, and what bolt does beside acme.
ACME, BOLT = 0, 2
CREATES, CHALLENGES, PARTS = 1000, 8, 4
# Names with octets that mean something in SQL, in a pattern or in C, rising by octets; that of which the others might be a pattern is deleted.
AWKWARD = [b"10.abc/" + end for end in (b"\0", b'"', b"%", b"'", b"'; DROP TABLE handles; --", b";", b"?1", b"\\", b"_", b"\xc3\xa9")]
PATTERN = AWKWARD[2]
# Two names as long as names may be, which differ in the last octet.
LONG = [b"10.long/" + b"n" * 2039 + end for end in (b"a", b"b")]
# How many writes come in no order, behind how many the handles are listed, and the handles.
WRITES, LISTED = 500, 10
NAMES = [b"10.abc/b", b"10.abc/a", b"10.abcd/a", b"10.abc/ab"]
INPUT_LIMIT, MESSAGE_LIMIT, VALUES_LIMIT = 16777216, 65536, 1024
KEY = b"k1"
# Octets that a file has room for, and seconds after which a run that hangs is ended.
ROOM, PATIENCE = 4, 600
RESOLUTION = wire.resolution(b"10/a")


def text_value(index, letters):
    return wire.value(index, b"X", b"a" * letters, wire.PUBLIC_READ)


def key(index):
    return wire.value(index, b"HS_SECKEY", KEY, HIDDEN)


def two_values(letters, reply):
    """A handle with two values, of which the second has so many letters, and the reply to its resolution."""
    values = [text_value(1, 32768), text_value(2, letters)]
    asked = wire.frame(RESOLUTION, request=1)
    return [(b"10/a", one) for one in values], {ACME: [(asked, wire.frame(reply(values), request=1))]}


def longest_reply():
    """the longest reply"""
    rows, talks = two_values(32666, lambda values: wire.values_reply(b"10/a", *values))
    assert len(talks[ACME][0][1]) == 20 + MESSAGE_LIMIT
    return rows, talks


def too_long_a_reply():
    """a reply that is an octet too long"""
    return two_values(32667, lambda values: wire.message(wire.RESOLVE, wire.number(0), TOO_LONG))


def challenged(asked, request, session=1):
    """A request, and the challenge of this number on its lane."""
    return wire.frame(asked, request=request), wire.frame(wire.challenge(asked, nonce=wire.NONCE), session, request)


def by_key(asked, secret, request, reply, session=1):
    """A request, its challenge, the response by this key, and the reply."""
    proof = wire.response(asked, KEY, *secret, nonce=wire.NONCE)
    return [challenged(asked, request, session), (wire.frame(proof, session, request + 1), wire.frame(reply, session, request + 1))]


def one_more(count, reply):
    """A handle with so many values, and one that is added."""
    administrator = wire.value(5000, b"HS_ADMIN", wire.administrator(b"10/k", 1, b"\x0f\xff"), EVERYBODY)
    rows = [(b"10/h", administrator), (b"10/k", key(1))] + [(b"10/h", text_value(index, 0)) for index in range(1, count)]
    asked = wire.message(wire.ADD, wire.string(b"10/h") + wire.listed([text_value(2000, 0)]))
    return rows, {ACME: by_key(asked, (b"10/k", 1), 10, reply)}


def last_value():
    """the last value that a handle may have"""
    return one_more(VALUES_LIMIT - 1, wire.message(wire.ADD, b"", wire.SUCCESS))


def too_many_values():
    """a value more than a handle may have"""
    return one_more(VALUES_LIMIT, wire.message(wire.ADD, wire.number(0), INVALID_VALUE))


def longest_message():
    """the longest message, in pieces of which the last comes first"""
    zeros = MESSAGE_LIMIT - len(RESOLUTION)
    pieces = wire.pieces(RESOLUTION[:-4] + wire.number(zeros) + bytes(zeros), request=1)
    assert len(pieces) == 134
    reply = wire.frame(wire.message(wire.RESOLVE, wire.number(0), wire.ABSENT), request=1)
    return [], {ACME: [(piece, b"") for piece in pieces[:0:-1]] + [(pieces[0], reply)]}


def behind_two_lists():
    """a delete by a key that stands behind two lists"""
    rows = [
        (b"10/c", wire.value(100, b"HS_ADMIN", wire.administrator(b"10/g", 1, b"\x0f\xff"), HIDDEN)),
        (b"10/g", wire.value(1, b"HS_VLIST", wire.listed([wire.reference(b"10/g", 2)]), HIDDEN)),
        (b"10/g", wire.value(2, b"HS_VLIST", wire.listed([wire.reference(b"20/keys", 3)]), HIDDEN)),
        (b"20/keys", key(3)),
    ]
    asked = wire.message(wire.DELETE, wire.string(b"10/c"))
    return rows, {ACME: by_key(asked, (b"20/keys", 3), 8, wire.message(wire.DELETE, b"", wire.SUCCESS))}


def of_acme():
    """What acme's client asks: a handle that has a kept value too, one that is absent, and one value; and what it hears."""
    shown = wire.value(1, b"X", b"p", wire.PUBLIC_READ)
    one = wire.resolution(b"10/v", (1,))
    return [
        challenged(wire.resolution(b"10/v"), 1),
        (wire.frame(RESOLUTION, request=2), wire.frame(wire.message(wire.RESOLVE, wire.number(0), wire.ABSENT), request=2)),
        (wire.frame(one, request=3), wire.frame(wire.values_reply(b"10/v", shown), request=3)),
    ]


def of_bolt():
    """What bolt's client does: it creates handles by its key, is challenged and doesn't answer, and sends a first piece of messages alone."""
    values = wire.listed([wire.value(1, b"HS_ADMIN", wire.administrator(b"20/k", 1, b"\x0f\xff"), wire.PUBLIC_READ)])
    created = wire.message(wire.CREATE, b"", wire.SUCCESS)
    for session in range(1, CREATES + 1):
        yield from by_key(wire.message(wire.CREATE, wire.string(b"20/h%04d" % session) + values), (b"20/k", 1), 7, created, session)
    for session in range(CREATES + 1, CREATES + CHALLENGES + 1):
        yield challenged(wire.message(wire.LIST, wire.string(b"0.NA/20")), 100 + session, session)
    for number in range(PARTS):
        yield wire.pieces(wire.resolution(b"20/" + b"a" * 942), request=200 + number)[0], b""


# What both tables begin with: acme's handle with a value that anybody may read and one that its administrators may, and bolt's key, which may create handles.
TWO = [
    (b"10/v", wire.value(1, b"X", b"p", wire.PUBLIC_READ)),
    (b"10/v", wire.value(2, b"X", b"k", wire.ADMIN_READ)),
    (b"0.na/20", wire.value(1, b"HS_ADMIN", wire.administrator(b"20/k", 1, b"\x00\x01"), HIDDEN)),
    (b"20/k", key(1)),
]


def alone():
    """a publisher alone"""
    return TWO, {ACME: of_acme()}


def busy_neighbour():
    """the same beside a busy neighbour"""
    return TWO, {BOLT: list(of_bolt()), ACME: of_acme()}


OWNER = wire.value(100, b"HS_ADMIN", wire.administrator(b"10/k", 1, b"\x0f\xff"), ADMIN)


def write(table, handle, index, number):
    """The operation and the body of the write that the table allows there, chosen by the number. The table has it then."""
    values, value = table.get(handle), wire.value(index, b"X", wire.number(number), ADMIN)
    if values is None:
        table[handle] = {100: OWNER, index: value}
        return wire.CREATE, wire.string(handle) + wire.listed([OWNER, value])
    if index in values and number % 10 == 5:
        del table[handle]
        return wire.DELETE, wire.string(handle)
    if index in values and number % 2:
        del values[index]
        return wire.REMOVE, wire.string(handle) + wire.listed([wire.number(index)])
    operation = wire.MODIFY if index in values else wire.ADD
    values[index] = value
    return operation, wire.string(handle) + wire.listed([value])


def read(table, handle):
    """A request for all values of a handle, and the reply. They have the moment of their events."""
    asked, reply = wire.resolution(handle), wire.message(wire.RESOLVE, wire.number(0), wire.ABSENT)
    if handle in table:
        values = [value for _, value in sorted(table[handle].items())]
        reply = wire.values_reply(handle, *(value[:-12] + struct.pack(">Q", 1000) + value[-4:] for value in values))
    return wire.frame(asked, request=1), wire.frame(reply, request=1)


def in_no_order():
    """five hundred writes in no order"""
    table, exchanges, sessions, state = {}, [], itertools.count(1), 1
    for turn in range(1, WRITES + 1):
        state = (state * 1664525 + 1013904223) % 2**32
        number = state >> 16
        handle = NAMES[number % 4]
        operation, body = write(table, handle, number // 4 % 5 + 1, number // 20)
        exchanges += by_key(wire.message(operation, body), (b"10/k", 1), 2, wire.message(operation, b"", wire.SUCCESS), next(sessions))
        exchanges.append(read(table, handle))
        if turn % LISTED == 0:
            exchanges += listed(b"10.abc", sorted(name for name in table if name.startswith(b"10.abc/")), sessions)
    return [(b"10/k", key(1)), (b"0.na/10.abc", OWNER), (b"0.na/10.abcd", OWNER)], {ACME: exchanges}


def created(handle, sessions):
    """The create of a handle with one value, whose data is the handle's name."""
    values = wire.listed([OWNER, wire.value(7, b"X", handle, ADMIN)])
    return by_key(wire.message(wire.CREATE, wire.string(handle) + values), (b"10/k", 1), 2, wire.message(wire.CREATE, b"", wire.SUCCESS), next(sessions))


def listed(prefix, names, sessions):
    reply = wire.message(wire.LIST, wire.listed(map(wire.string, names)), wire.SUCCESS)
    return by_key(wire.message(wire.LIST, wire.string(b"0.NA/" + prefix)), (b"10/k", 1), 4, reply, next(sessions))


def awkward():
    """awkward names"""
    names = AWKWARD + LONG + [prefix + b"/x" for prefix in ALIKE]
    table = {name: {100: OWNER, 7: wire.value(7, b"X", name, ADMIN)} for name in names}
    sessions, exchanges = itertools.count(1), []
    for name in reversed(names):
        exchanges += [read({}, name), *created(name, sessions)]
    exchanges += [read(table, name) for name in names]
    for prefix, own in ((b"10.abc", AWKWARD), (b"10.long", LONG), *((prefix, [prefix + b"/x"]) for prefix in ALIKE)):
        exchanges += listed(prefix, own, sessions)
    exchanges += by_key(wire.message(wire.DELETE, wire.string(PATTERN)), (b"10/k", 1), 2, wire.message(wire.DELETE, b"", wire.SUCCESS), next(sessions))
    del table[PATTERN]
    exchanges += [read(table, name) for name in names]
    return [(b"10/k", key(1)), *((b"0.na/" + prefix, OWNER) for prefix in (b"10.abc", b"10.long", *ALIKE))], {ACME: exchanges}


def many_values():
    """a handle of 1,024 values, the last first"""
    values = [wire.value(index, b"X", wire.number(index), ADMIN) for index in range(1, VALUES_LIMIT + 1)]
    asked, reply = wire.resolution(b"10/a"), wire.values_reply(b"10/a", *values)
    return [(b"10/a", value) for value in reversed(values)], {ACME: [(wire.frame(asked, request=1), wire.frame(reply, request=1))]}


def script_of(rows, talks):
    """A script over these values: each lane is opened and asked these requests, one lane behind the other."""
    events = [["open %d" % lane, *(wire.frame_line(asked, lane) for asked, _ in exchanges)] for lane, exchanges in talks.items()]
    return wire.text(TENANTS + [wire.value_line(*row) for row in rows] + ["run", *itertools.chain(*events)])


def lines_of(talks):
    """What is printed: a line for each event, the first of which opens a lane."""
    heard = [(lane, reply) for lane, exchanges in talks.items() for reply in (b"", *(reply for _, reply in exchanges))]
    return wire.text("%d reply %s" % (lane, reply.hex()) if reply else "%d silent" % lane for lane, reply in heard)


def replayed(given, options=(), **how):
    """The status of a run, what it printed, and its fault line. What is given is octets, or a descriptor."""
    how = {"stdout": subprocess.PIPE, "stderr": subprocess.PIPE, "timeout": PATIENCE, "check": False, **how}
    source = {"input": given} if isinstance(given, bytes) else {"stdin": given}
    done = subprocess.run([servers.HANDLED, "replay", *options], **source, **how)
    return done.returncode, done.stdout, done.stderr


def scripts(folder):
    for made in (longest_reply, too_long_a_reply, last_value, too_many_values, longest_message, behind_two_lists, alone, busy_neighbour, in_no_order, awkward, many_values):
        rows, talks = made()
        given, wanted = script_of(rows, talks), (0, lines_of(talks), b"")
        yield "%s, in memory" % made.__doc__, replayed(given) == wanted
        yield "%s, over a file" % made.__doc__, replayed(given, ("--table", os.path.join(folder, made.__name__))) == wanted


def inputs():
    """Inputs at their limit. The length is tested before UTF-8."""
    too_long = (1, b"", b"input too long\n")
    yield "the longest input", replayed(b"#" * INPUT_LIMIT) == (0, b"", b"")
    yield "an input that is an octet too long", replayed(b"#" * (INPUT_LIMIT + 1)) == too_long
    yield "an input that is too long and not UTF-8", replayed(b"\xff" + b"#" * (INPUT_LIMIT + 1048575)) == too_long
    yield "an input that is not UTF-8", replayed(b"\xff") == (1, b"", b"input not UTF-8\n")


def interrupted():
    """What comes of a read that is interrupted: that of a socket with a time limit is, where its process is stopped and goes on."""
    ours, theirs = socket.socketpair()
    with ours, theirs:
        theirs.setsockopt(socket.SOL_SOCKET, socket.SO_RCVTIMEO, struct.pack("ll", PATIENCE, 0))
        process = subprocess.Popen([servers.HANDLED, "replay"], stdin=theirs, stdout=subprocess.PIPE, stderr=subprocess.PIPE)
        until = time.monotonic() + PATIENCE
        while process.poll() is None and time.monotonic() < until:
            for word in (signal.SIGSTOP, signal.SIGCONT):
                process.send_signal(word)
                time.sleep(0.01)
        process.kill()
        printed, told = process.communicate()
        return process.returncode, printed, told


def small():
    """No file grows beyond a few octets, and who tries gets an error."""
    signal.signal(signal.SIGXFSZ, signal.SIG_IGN)
    resource.setrlimit(resource.RLIMIT_FSIZE, (ROOM, ROOM))


def devices(folder):
    """Devices that fail."""
    fault = b"device fault\n"
    given = script_of([], {ACME: []})
    with contextlib.ExitStack() as files:
        opened = os.open(folder, os.O_RDONLY)
        files.callback(os.close, opened)
        yield "a folder as input", replayed(opened) == (1, b"", fault)
        yield "a read that is interrupted", interrupted() == (1, b"", fault)
        full = files.enter_context(open("/dev/full", "wb"))
        yield "a full device as output", replayed(given, stdout=full) == (1, None, fault)
        short = files.enter_context(open(os.path.join(folder, "short"), "w+b"))
        yield "an output with room for four octets", replayed(given, stdout=short, preexec_fn=small) == (1, None, fault)
        yield "the four octets", short.seek(0) == 0 and short.read() == lines_of({ACME: []})[:ROOM]
        yield "a full device for the fault line", replayed(b"\xff", stderr=full) == (1, b"", None)


def main():
    with tempfile.TemporaryDirectory() as folder:
        return servers.tally([*scripts(folder), *inputs(), *devices(folder)])


sys.exit(main())

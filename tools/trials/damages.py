"""damages.py [COUNT [SEED]]: damages a table's file and its log, COUNT times in each way (50), and sees that nothing is lost in silence.

A server is killed under changes, so that most stands in the log; then a bit of the file or of the log is turned, either is cut, the log is taken away, or one of another time or of another table lies there. `handled export` opens the
two as a start does. What comes is the table as it was, or a line that says what is wrong, with status 4; an older table only behind the line on where the log ends. Then `--accept-loss` starts over what is whole; what a kill leaves
at any point is no damage, while a log is moved into the file, too, and where the log was begun anew before; and a file of an earlier version, which notes nothing, is opened. What is done to the file under a server is tried by
shortages.py. Its last line is 'N passed, M failed'."""

import concurrent.futures
import contextlib
import os
import random
import shutil
import signal
import sqlite3
import subprocess
import sys
import tempfile

# nothing is left beside the tools
sys.dont_write_bytecode = True
from lib import publisher, servers, wire

COUNT, SEED = 8 if servers.IS_UNPROVED else 50, 5
HANDLES, CHANGES = 40, 60
# at how many moments a server is killed that moves its log
KILLS = 20
AT_ONCE = max(1, len(os.sched_getaffinity(0)) - 1)
# the front of a log, and what a frame has before its page
HEADER, FRAME = 32, 24
# an octet of the first page of a log
TURNED = HEADER + FRAME + 100
# the octets that a disk writes at once
SECTOR = 512
# octets of the last frames, which are that of the last change
LAST = 2 * 4200
# changes of which the log gets more than the pages with which it is begun anew
MANY = 700
# how the lines begin that tell what a kill may leave, and the status of a refusal
TOLD, REFUSED = (b"table: the log ends after ", b"table: the log has no front"), 4


def named(place):
    return b"10/%d" % place


def first(place):
    return wire.value(1, b"URL", b"first %d " % place + b"v" * (place * 13 % 400), 0x0F, 86400)


def tenants(*ports):
    rows = [(named(place), value) for place in range(HANDLES) for value in (publisher.ADMINISTRATOR, first(place))]
    return publisher.tenants(*ports, more=rows, lanes=3)


TEXT = tenants(2641)


def change(client, number, mark):
    """A change that anybody makes, and its reply's code."""
    value = wire.value(1, b"URL", b"%s %d " % (mark, number) + b"w" * (number * 37 % 700), 0x0F, 86400)
    return client.asked(wire.message(wire.MODIFY, wire.string(named(number % HANDLES)) + wire.listed([value])))[0]


def octets_of(path):
    if not os.path.exists(path):
        return None
    with open(path, "rb") as file:
        return file.read()


def killed(file, mark, count=CHANGES):
    """Serves the file under changes, each answered, kills the server, and answers what lies there then."""
    process, ports = servers.serve(tenants, 1, options=("--table", file), stderr=subprocess.DEVNULL)
    with servers.Client(ports[0]) as client:
        codes = {change(client, number, mark) for number in range(count)}
    process.send_signal(signal.SIGKILL)
    process.wait()
    process.stdout.close()
    if codes != {wire.SUCCESS}:
        sys.exit("damages: codes %s" % codes)
    return octets_of(file), octets_of(file + "-wal")


def exported(folder, file, log, words=("export",)):
    """What lies there then, opened: status, output and faults."""
    path = os.path.join(folder, "table.db")
    for octets, to in ((file, path), (log, path + "-wal")):
        if octets is not None:
            with open(to, "wb") as made:
                made.write(octets)
    done = subprocess.run([servers.HANDLED, *words, "--table", path], input=TEXT, capture_output=True, timeout=60 * servers.SLOWER, check=False)
    return done.returncode, done.stdout, done.stderr


def turned(octets, chance):
    place = chance.randrange(len(octets))
    return octets[:place] + bytes([octets[place] ^ 1 << chance.randrange(8)]) + octets[place + 1:]


def used(octets):
    """How many octets of a log are more than room for changes to come."""
    return len(octets.rstrip(b"\0"))


def sector(octets, chance, put):
    """The octets with something else in a sector, before the last change: where that has one frame, nothing of it is known without its sector."""
    place = chance.randrange((used(octets) - LAST) // SECTOR) * SECTOR
    return octets[:place] + put(SECTOR) + octets[place + SECTOR:]


def behind_changes(log):
    """How many octets a log has behind each change that is followed by two frames."""
    step = FRAME + int.from_bytes(log[8:12], "big")
    places = range(HEADER + step, used(log) - 2 * step, step)
    return [place for place in places if any(log[place - step + 4:place - step + 8])]


def spliced(log, chance):
    """The log without octets right behind a change, and of those that follow enough for the front of a frame."""
    place, step = chance.choice(behind_changes(log)), FRAME + int.from_bytes(log[8:12], "big")
    return log[:place] + log[place + chance.randrange(1, step):]


def judged(right, pair):
    """Whether what lies there is opened as it was, told, or lost in silence; and whether a file that is refused stays as it was."""
    with tempfile.TemporaryDirectory() as folder:
        status, said, fault = exported(folder, *pair)
        if status == REFUSED:
            return ("told" if fault.startswith(b"table: ") and not said and octets_of(os.path.join(folder, "table.db")) == (pair[0] or octets_of(os.path.join(folder, "table.db"))) else "wrong"), fault
        if status == 0 and said == right:
            return "right", fault
        return ("told older" if status == 0 and fault.startswith(TOLD) else "silent"), fault


def damages(count, chance, late, early, other):
    """Ways of damage, each with what lies there then, and whether all of them have to be told."""
    (file, log), whole = late["killed"], late["ended"]
    ends = used(log)
    yield "a bit of the file", [(turned(whole[0], chance), whole[1]) for _ in range(count)], False
    yield "a bit of the log", [(file, turned(log, chance)) for _ in range(count)], False
    yield "a sector of noise in the log", [(file, sector(log, chance, chance.randbytes)) for _ in range(count)], False
    yield "a sector of zeros in the log", [(file, sector(log, chance, bytes)) for _ in range(count)], False
    yield "the log cut", [(file, log[:ends * place // count]) for place in range(count)], True
    yield "the log cut behind a change", [(file, log[:place]) for place in behind_changes(log)[:count]], True
    yield "octets cut out of the log behind a change", [(file, spliced(log, chance)) for _ in range(count)], True
    yield "the log cut behind a change, and noise there", [(file, log[:chance.choice(behind_changes(log))] + chance.randbytes(300)) for _ in range(count)], True
    yield "the file cut", [(whole[0][:len(whole[0]) * place // count], whole[1]) for place in range(count)], True
    yield "the log taken away", [(file, None), (file, b""), (whole[0], None)], True
    yield "the file taken away", [(None, log), (b"", log), (b"", whole[1])], True
    yield "the log of an earlier time", [(file, early["killed"][1]), (whole[0], early["killed"][1])], True
    yield "the file of an earlier time", [(early["killed"][0], log)], True
    yield "the log of another table", [(whole[0], other["killed"][1])], True
    yield "a log of noise", [(file, log[:24] + chance.randbytes(ends - 24)), (file, bytes(len(log))), (file, chance.randbytes(ends))], True


def lost(folder, count, chance):
    path = os.path.join(folder, "table.db")
    early = {"killed": killed(path, b"early")}
    late = {"killed": killed(path, b"late")}
    late["ended"] = closed(folder, late["killed"])
    strange = os.path.join(folder, "strange.db")
    other = {"killed": killed(strange, b"other")}
    right = text_of(folder, late["killed"])
    yield "what a kill leaves is the table, without a word", exported_in(folder, late["killed"]) == (0, right, b"") and all((b"late %d " % number).hex().encode() in right for number in range(CHANGES - HANDLES, CHANGES))
    yield "what an ordered end leaves is so too", exported_in(folder, late["ended"]) == (0, right, b"")
    for name, pairs, is_told in damages(count, chance, late, early, other):
        with concurrent.futures.ThreadPoolExecutor(AT_ONCE) as pool:
            found = list(pool.map(lambda pair: judged(right, pair), pairs))
        counts = {kind: sum(one == kind for one, _ in found) for kind in ("right", "told", "told older", "silent", "wrong")}
        print("%s: %s" % (name, ", ".join("%d %s" % (number, kind) for kind, number in counts.items() if number)))
        for kind, fault in found:
            if kind in ("silent", "wrong"):
                print("%s: %s: %r" % (name, kind, fault))
        yield name, not counts["silent"] and not counts["wrong"] and (not is_told or not counts["right"])


def exported_in(folder, pair):
    with tempfile.TemporaryDirectory(dir=folder) as place:
        return exported(place, *pair)


def text_of(folder, pair):
    return exported_in(folder, pair)[1]


def closed(folder, pair):
    """What an ordered end leaves of a server that started over these."""
    with tempfile.TemporaryDirectory(dir=folder) as place:
        path = os.path.join(place, "table.db")
        for octets, to in zip(pair, (path, path + "-wal")):
            with open(to, "wb") as made:
                made.write(octets)
        served(path, ())
        return octets_of(path), octets_of(path + "-wal")


def served(path, words):
    """Starts a server over the file that ends in order at once, and answers its status and faults."""
    for _ in range(servers.TRIES):
        done = subprocess.run([servers.HANDLED, "serve", "--table", path, "--turns", "1", *words], input=tenants(*servers.free_ports(1)), capture_output=True, timeout=60 * servers.SLOWER, check=False)
        if b"cannot listen" not in done.stderr:
            break
    return done.returncode, done.stderr


def main():
    words = [int(word) for word in sys.argv[1:]]
    count, seed = (words + [COUNT, SEED][len(words):])[:2]
    folder = tempfile.mkdtemp()
    try:
        return servers.tally(cases(folder, count, random.Random(seed)), "lost in silence, or not as it should be")
    finally:
        shutil.rmtree(folder)


def cases(folder, count, chance):
    yield from lost(folder, count, chance)
    yield from given_up(folder)
    yield from moved(folder, "a start", CHANGES, ())
    yield from moved(folder, "a start over a log that was begun anew", MANY, ())
    yield from moved(folder, "an ordered end", CHANGES, ("--turns", "1"))
    yield from moved(folder, "an ordered end over a log that was begun anew", MANY, ("--turns", "1"))
    yield from unnoted(folder)


def put(path, pair):
    for octets, to in zip(pair, (path, path + "-wal")):
        if octets is None:
            if os.path.exists(to):
                os.remove(to)
        else:
            with open(to, "wb") as made:
                made.write(octets)


def given_up(folder):
    """`--accept-loss` starts over what is whole, says so, and the next start needs it no more. A log that was lost is refused if it is put back then."""
    path = os.path.join(folder, "given.db")
    file, log = killed(path, b"given")
    for name, pair, said in (
        ("the log gone", (file, None), b"the log is gone"),
        ("the log damaged", (file, log[:TURNED] + bytes([log[TURNED] ^ 1]) + log[TURNED + 1:]), b"the log is damaged"),
        ("the log's front damaged", (file, bytes([log[0] ^ 1]) + log[1:]), b"the log is damaged"),
        ("another log", (file, other_log(log)), b"another log"),
        ("the file gone", (None, log), b"the file is gone"),
    ):
        put(path, pair)
        for left in (path + "-wal.lost",):
            if os.path.exists(left):
                os.remove(left)
        status, fault = served(path, ())
        yield "%s: a start is refused" % name, status == REFUSED and fault.startswith(b"table: " + said) and b"--accept-loss" in fault
        status, fault = served(path, ("--accept-loss",))
        yield "%s: --accept-loss starts, and says so" % name, status == 0 and b"table: " + said in fault and b"given up" in fault
        status, fault = served(path, ())
        yield "%s: the next start needs no word" % name, status == 0 and b"table: " not in fault.replace(b"table in", b"")
        put(path, (octets_of(path), log))
        status, fault = served(path, ())
        yield "%s: the log that was lost is refused" % name, status == REFUSED and fault.startswith(b"table: another log")


def other_log(log):
    """The log with other notes of the file, all of its sums right: as one of an earlier time."""
    page = int.from_bytes(log[8:12], "big")
    octets, sums = bytearray(log), (int.from_bytes(log[24:28], "big"), int.from_bytes(log[28:32], "big"))
    for place in range(HEADER, len(octets) - FRAME - page + 1, FRAME + page):
        if octets[place:place + 4] == wire.number(1):
            start = place + FRAME + 60
            octets[start:start + 4] = wire.number(int.from_bytes(octets[start:start + 4], "big") + 7)
        sums = summed(summed(sums, octets[place:place + 8]), octets[place + FRAME:place + FRAME + page])
        octets[place + 16:place + 24] = b"".join(map(wire.number, sums))
    return bytes(octets)


def summed(sums, octets):
    """SQLite's two sums behind these octets, of a log whose numbers have their lowest octet first."""
    one, two = sums
    for place in range(0, len(octets), 8):
        one = (one + int.from_bytes(octets[place:place + 4], "little") + two) % (1 << 32)
        two = (two + int.from_bytes(octets[place + 4:place + 8], "little") + one) % (1 << 32)
    return one, two


def killed_at(path, words, seconds):
    """Starts a server over the file, and kills it after so long."""
    with subprocess.Popen([servers.HANDLED, "serve", "--table", path, *words], stdin=subprocess.PIPE, stdout=subprocess.DEVNULL, stderr=subprocess.DEVNULL) as process:
        process.stdin.write(tenants(*servers.free_ports(1)))
        process.stdin.close()
        try:
            process.wait(timeout=seconds)
        except subprocess.TimeoutExpired:
            process.kill()


def moved(folder, name, count, words):
    """What kills leave while the log is moved into the file, at a start or at an ordered end, is the whole table, without a word of damage."""
    path = os.path.join(folder, "moved.db")
    put(path, (None, None))
    pair = killed(path, b"moved", count)
    right = text_of(folder, pair)
    for place in range(KILLS):
        put(path, pair)
        # twice: what a kill left is moved again, and that is killed too
        for moment in (place, KILLS - place):
            killed_at(path, words, 0.005 * moment * servers.SLOWER)
        status, said, fault = exported_in(folder, (octets_of(path), octets_of(path + "-wal")))
        if (status, said) != (0, right) or fault and not fault.startswith(TOLD):
            yield "a kill at %s, %d: %d %r" % (name, place, status, fault), False
            return
    yield "a kill at %s leaves the table" % name, True


def unnoted(folder):
    """A file without a note, as earlier versions left it, is opened with a line, and the next start needs none."""
    path, copy = os.path.join(folder, "old.db"), os.path.join(folder, "older.db")
    served(path, ("--no-sums",))
    subprocess.run([servers.HANDLED, "copy", "--table", path, "--to", copy], check=False)
    with contextlib.closing(sqlite3.connect(copy)) as database:
        database.execute("PRAGMA user_version = 0")
        database.commit()
    status, fault = served(copy, ())
    yield "a file without a note is opened, and says so", status == 0 and b"table: the file has no note" in fault
    status, fault = served(copy, ())
    yield "it has one from then on", status == 0 and b"no note" not in fault
    os.remove(copy + "-wal")
    yield "and its log is missed", served(copy, ())[0] == REFUSED


if __name__ == "__main__":
    sys.exit(main())

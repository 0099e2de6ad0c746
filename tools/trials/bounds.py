"""bounds.py: tries the bounds of publishers, over the proved program crates/handled/out/handled, in memory and over a file.

Up to its bound a publisher creates, adds and modifies; what would take more is answered Busy (code 3) and changes nothing; what is removed or deleted makes room again; the other publisher is
served as if nothing were. Standard error says once that the bound is reached. Over a file the count is that of the file after a restart. The status page says how many handles, values and octets a bounded publisher holds, and the greatest bound limits
nothing. Words that are no bound, and a text that opens with more, are refused. Where the system gives the process no more memory, changes are answered Busy and resolutions go on; this case is left out where UNPROVED is set.

It takes some five seconds. Its last line is 'N passed, M failed', a case counting one."""

import contextlib
import os
import resource
import subprocess
import sys
import tempfile
import time
import urllib.request

# nothing is left beside the tools
sys.dont_write_bytecode = True
from lib import publisher, servers, wire

# What the gate reads of it (tools/build/parts.py).
GATE = {"leaves_out": "its case of refused memory"}
BUSY = 3
KEY = wire.value(300, b"HS_SECKEY", publisher.KEY, 0x0C, 86400)
# What stands beside names and data in a count, as docs/PROTOCOL.md has it.
ROW, REFERENCE = 64, 16
USAGE = "\n\nFor more information, try '--help'.\n"


def tenants(first, second):
    """Two publishers, each with an administrator and its key; both keys are the same octets."""
    lines = ["publisher acme 3 %d" % first, "publisher bolt 3 %d" % second, "prefix 10 acme", "prefix 11 bolt"]
    for prefix in (b"10", b"11"):
        root = b"0.NA/" + prefix
        lines += [wire.value_line(root, administrator(root)), wire.value_line(root, KEY)]
    return wire.text(lines)


def administrator(root):
    return wire.value(100, b"HS_ADMIN", wire.administrator(root, 300), 0x0E, 86400)


def octets(handle, *rows):
    """What a handle counts with values of these types and data."""
    return ROW + len(handle) + sum(ROW + len(kind) + len(data) for kind, data in rows)


# What the text opens with for a prefix, and what a handle of one letter under it counts with an administrator and a URL of ten octets.
OPENED = octets(b"0.na/10", (b"HS_ADMIN", wire.administrator(b"0.NA/10", 300)), (b"HS_SECKEY", publisher.KEY))
ONE = octets(b"10/a", (b"HS_ADMIN", wire.administrator(b"0.NA/10", 300)), (b"URL", b"0123456789"))


class Publisher(servers.Client):
    """A client of one publisher, whose key answers its challenges."""

    def __init__(self, port, prefix):
        super().__init__(port, b"0.NA/" + prefix)

    def write(self, operation, handle, *values):
        return self.code(wire.message(operation, wire.string(handle) + wire.listed(values)))

    def create(self, handle, data=b"0123456789"):
        return super().create(handle, [administrator(self.handle), publisher.url(data)])

    def remove(self, handle, index):
        return super().remove(handle, [index])

    def resolved(self, handle):
        return self.asked(wire.resolution(handle))


def note(index, data):
    return wire.value(index, b"NOTE", data, 0x0E, 86400)


def bound(name, values, count):
    return ["--bound", "%s=%d,%d" % (name, values, count)]


@contextlib.contextmanager
def served(options, said=None, **how):
    """The two ports of a server with these options; what it says on standard error is put into a list as it ends."""
    with tempfile.TemporaryFile() as errors:
        process, ports = servers.serve(tenants, 2, options=options, stderr=errors, **how)
        try:
            yield ports
        finally:
            # lines are said a moment behind what they are of
            time.sleep(0.5 if said is not None else 0)
            servers.end(process)
            errors.seek(0)
            if said is not None:
                said += [line for line in errors.read().decode().splitlines() if line.startswith("bound: ")]


def told(values, count):
    return "bound: acme has reached %d values and %d octets: changes that add more are answered busy. Remove values or handles, or restart with a larger --bound" % (values, count)


def alike(found, wanted):
    if found != wanted:
        print("found %r\nwanted %r" % (found, wanted))
    return found == wanted


def by_values(file):
    """Values: two handles of two beside the two that the text opens with, and no more; the other publisher has no bound."""
    said = []
    with served([*bound("acme", 6, 1 << 40), *file], said) as ports:
        acme, bolt = Publisher(ports[0], b"10"), Publisher(ports[1], b"11")
        found = [acme.create(b"10/a"), acme.create(b"10/b"), acme.create(b"10/c"), acme.write(wire.ADD, b"10/a", note(2, b"x"))]
        wanted = [wire.SUCCESS, wire.SUCCESS, BUSY, BUSY]
        # nothing of what was refused is there, and what makes nothing larger goes through
        found += [acme.resolved(b"10/c")[0], acme.write(wire.MODIFY, b"10/a", publisher.url(b"other")), bolt.create(b"11/a"), bolt.create(b"11/b")]
        wanted += [wire.ABSENT, wire.SUCCESS, wire.SUCCESS, wire.SUCCESS]
        found += [acme.remove(b"10/a", 1), acme.write(wire.ADD, b"10/b", note(2, b"x")), acme.create(b"10/c"), acme.delete(b"10/a"), acme.create(b"10/c")]
        wanted += [wire.SUCCESS, wire.SUCCESS, BUSY, wire.SUCCESS, BUSY]
        found += [acme.remove(b"10/b", 2), acme.create(b"10/c")]
        wanted += [wire.SUCCESS, wire.SUCCESS]
    return alike(found, wanted) and alike(said, [told(6, 1 << 40)])


def by_octets(file):
    """Octets, to the last one: a create, an add and a modify that just fit, and those that are one octet too long."""
    most, said = OPENED + 2 * ONE + ROW + len(b"NOTE") + 1, []
    with served([*bound("acme", 1 << 40, most), *file], said) as ports:
        acme, bolt = Publisher(ports[0], b"10"), Publisher(ports[1], b"11")
        found = [acme.create(b"10/a"), acme.create(b"10/b"), acme.write(wire.ADD, b"10/a", note(2, b"xy")), acme.write(wire.ADD, b"10/a", note(2, b"x"))]
        wanted = [wire.SUCCESS, wire.SUCCESS, BUSY, wire.SUCCESS]
        found += [acme.write(wire.MODIFY, b"10/b", publisher.url(b"0123456789a")), acme.write(wire.MODIFY, b"10/b", publisher.url(b"9876543210"))]
        wanted += [BUSY, wire.SUCCESS]
        found += [acme.write(wire.MODIFY, b"10/b", publisher.url(b"987654321")), acme.write(wire.MODIFY, b"10/a", note(2, b"xy"))]
        wanted += [wire.SUCCESS, wire.SUCCESS]
        found += [acme.delete(b"10/b"), acme.create(b"10/bc", b"012345678"), bolt.create(b"11/a", bytes(4000)), acme.delete(b"10/bc"), acme.create(b"10/b", b"012345678")]
        wanted += [wire.SUCCESS, BUSY, wire.SUCCESS, wire.ABSENT, wire.SUCCESS]
    return alike(found, wanted) and alike(said, [told(1 << 40, most)])


def after_a_restart():
    """Over a file the count is that of the file; a bound that is less than what is there refuses what grows alone."""
    with tempfile.TemporaryDirectory() as folder:
        file = ["--table", os.path.join(folder, "handles.db")]
        with served(file) as ports:
            acme = Publisher(ports[0], b"10")
            found = [acme.create(b"10/a"), acme.create(b"10/b"), acme.create(b"10/c")]
        with served([*bound("acme", 8, 1 << 40), *file]) as ports:
            acme = Publisher(ports[0], b"10")
            found += [acme.create(b"10/d"), acme.delete(b"10/c"), acme.create(b"10/d")]
        with served([*bound("acme", 3, 1 << 40), *file]) as ports:
            acme = Publisher(ports[0], b"10")
            found += [acme.write(wire.ADD, b"10/a", note(2, b"x")), acme.write(wire.MODIFY, b"10/a", publisher.url(b"other")), acme.delete(b"10/a"), acme.write(wire.ADD, b"10/b", note(2, b"x"))]
    return alike(found, [1, 1, 1, BUSY, 1, 1, BUSY, 1, 1, BUSY])


def administrative_handles_count():
    """The values of the prefix's administrative handle are the publisher's too."""
    with served(bound("acme", 3, 1 << 40)) as ports:
        acme = Publisher(ports[0], b"10")
        found = [acme.write(wire.ADD, b"0.NA/10", note(2, b"x")), acme.write(wire.ADD, b"0.NA/10", note(3, b"x")), acme.remove(b"0.NA/10", 2), acme.write(wire.ADD, b"0.NA/10", note(3, b"x"))]
    return alike(found, [1, BUSY, 1, 1])


def status(at):
    return ["--status", "127.0.0.1:%d" % at]


def gauges(at):
    """What the status page at this port says of bounds."""
    with urllib.request.urlopen("http://127.0.0.1:%d/metrics" % at, timeout=10 * servers.SLOWER) as page:
        lines = page.read().decode().splitlines()
    return [line for line in lines if line.startswith(("handled_held_", "handled_bound_"))]


def gauges_of(most, handles, values, count):
    """What it should say of a publisher that may hold these values and octets, and holds so much."""
    numbers = (("held_handles", handles), ("held_values", values), ("bound_values", most[0]), ("held_octets", count), ("bound_octets", most[1]))
    return ['handled_%s{publisher="acme"} %d' % number for number in numbers]


def counted(file):
    """The status page counts what the bounded publisher holds, at the start, after changes and after a restart, and says what it may hold; nothing of the other one."""
    most, (first, second) = (7, 1 << 40), servers.free_ports(2)
    options = [*bound("acme", *most), *file]
    with served([*options, *status(first)]) as ports:
        acme, bolt = Publisher(ports[0], b"10"), Publisher(ports[1], b"11")
        found = [gauges(first)]
        for write in (lambda: acme.create(b"10/a"), lambda: bolt.create(b"11/a"), lambda: acme.create(b"10/b"), lambda: acme.remove(b"10/b", 1), lambda: acme.delete(b"10/a")):
            write()
            found.append(gauges(first))
    with served([*options, *status(second)]):
        found.append(gauges(second))
    two = OPENED + 2 * ONE
    removed = two - ROW - len(b"URL") - len(b"0123456789")
    opened, left = (1, 2, OPENED), (2, 3, removed - ONE)
    held = [opened, (2, 4, OPENED + ONE), (2, 4, OPENED + ONE), (3, 6, two), (3, 5, removed), left, left if file else opened]
    return alike(found, [gauges_of(most, *numbers) for numbers in held])


def unlimited():
    """The greatest bound is accepted and refuses nothing, and its publisher is counted."""
    most, (at,), said = ((1 << 64) - 1, (1 << 64) - 1), servers.free_ports(1), []
    with served([*bound("acme", *most), *status(at)], said) as ports:
        acme = Publisher(ports[0], b"10")
        found = [acme.create(b"10/a"), acme.create(b"10/b"), acme.write(wire.ADD, b"10/a", note(2, b"x")), gauges(at)]
    noted = ROW + len(b"NOTE") + 1
    return alike(found, [1, 1, 1, gauges_of(most, 3, 7, OPENED + 2 * ONE + noted)]) and alike(said, [])


def refused(options):
    done = subprocess.run([servers.HANDLED, "serve", "--turns", "1", *options], input=tenants(*servers.free_ports(2)), stdout=subprocess.PIPE, stderr=subprocess.PIPE, timeout=60 * servers.SLOWER, check=False)
    return done.returncode, done.stdout, done.stderr.decode()


def bad_words():
    """Words that are no bound, a publisher twice, and one that the text doesn't have."""
    plain = "write a publisher's name and two numbers, such as acme=10000,5000000"
    cases = [(["acme"], "acme", plain), (["acme=1"], "acme=1", plain), (["acme=1,"], "acme=1,", plain), (["acme=+1,2"], "acme=+1,2", plain), (["acme=1,99999999999999999999"], "acme=1,99999999999999999999", plain)]
    cases += [(["acme=9,9999", "acme=8,9999"], "acme=8,9999", "this publisher has a --bound already; give one per publisher"), (["nobody=1,1"], "nobody", "the tenants text has no publisher of this name: it has acme, bolt")]
    good = True
    for words, value, reason in cases:
        options = [option for word in words for option in ("--bound", word)]
        wanted = "error: invalid value '%s' for '--bound <NAME=VALUES,OCTETS>': %s%s" % (value, reason, USAGE)
        good = alike(refused(options), (2, b"", wanted)) and good
    return good


def too_much_to_open():
    """A text that opens with more than the bound, over memory and over a file, which isn't made."""
    with tempfile.TemporaryDirectory() as folder:
        good = True
        for most in ((1, 1 << 40), (1 << 40, OPENED - 1)):
            for file in ([], ["--table", os.path.join(folder, "handles.db")]):
                said = "tenants: acme opens with 2 values and %d octets, and its bound is %d values and %d octets: raise --bound, or remove values from the text\n" % (OPENED, *most)
                good = alike(refused([*bound("acme", *most), *file]), (3, b"", said)) and good
        return good and os.listdir(folder) == []


def memory_refused():
    """A process that gets no more memory stays up: a change is answered Busy in the end, and what is there is resolved, by both publishers."""
    def scarce():
        resource.setrlimit(resource.RLIMIT_AS, (MEMORY, MEMORY))

    with served(["--row-cache", "0"], preexec_fn=scarce) as ports:
        acme, bolt = Publisher(ports[0], b"10"), Publisher(ports[1], b"11")
        found, codes = {bolt.create(b"11/a")}, []
        while codes.count(BUSY) < 3 and len(codes) < WRITES:
            codes.append(acme.create(b"10/%d" % len(codes), bytes(LONG)))
        found |= {bolt.resolved(b"11/a")[0], acme.resolved(b"10/0")[0], codes[0]}
        return alike((found, set(codes)), ({wire.SUCCESS}, {wire.SUCCESS, BUSY}))


# The address space that the process may have, octets of a value, and more of them than that holds.
MEMORY, LONG, WRITES = 256 << 20, 30000, 10000


def main():
    with tempfile.TemporaryDirectory() as folder:
        def file(name):
            return ["--table", os.path.join(folder, name)]

        cases = [
            ("values in memory", lambda: by_values([])),
            ("values in a file", lambda: by_values(file("values.db"))),
            ("octets in memory", lambda: by_octets([])),
            ("octets in a file", lambda: by_octets(file("octets.db"))),
            ("a restart", after_a_restart),
            ("administrative handles", administrative_handles_count),
            ("counted in memory", lambda: counted([])),
            ("counted in a file", lambda: counted(file("counted.db"))),
            ("no limit", unlimited),
            ("bad words", bad_words),
            ("too much to open", too_much_to_open),
        ]
        # the checks of an unproved program take terabytes of address space
        cases += [] if servers.IS_UNPROVED else [("memory refused", memory_refused)]
        passed = 0
        for name, case in cases:
            good = case()
            passed += good
            if not good:
                print("%s: FAILED" % name)
        print("%d passed, %d failed" % (passed, len(cases) - passed))
        sys.exit(0 if passed == len(cases) else 1)


if __name__ == "__main__":
    main()

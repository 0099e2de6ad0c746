"""exports.py: tries `handled export` over the program crates/handled/out/handled.

A server over a file gets changes from a client; then the file is written as a tenants text. Its lines are compared with those that are made here of what was written, in the order of handles and
indexes; a server that opens with the text answers every resolution with the same octets; what is written of that one is the same text, octet for octet; and a text that has one publisher's lines alone
gives its rows alone, with which it answers the same. Then `--publisher`: of three publishers, of whom the first leaves a handle to a list of the second, which leads to a list of the third and back, the first one's export has its rows
and what these lists lead to, and a server that opens with it answers it as the old one does, changes by each administrator too. Then what no text says, and what is refused, in words; and a text of more octets than standard input
takes, which is checked, served, exported and read again from files; last a new file for its owner alone, of a copy while the server runs. Its last line is 'N passed, M failed', a case counting one."""

import contextlib
import itertools
import os
import resource
import struct
import subprocess
import sys
import tempfile

# nothing is left beside the tools
sys.dont_write_bytecode = True
from lib import servers, wire

# What the gate reads of it (tools/build/parts.py).
GATE = {"long": True, "leaves_out": "its text of more octets than standard input takes, which takes minutes"}
KEY = b"example-secret"
# The octets that standard input takes, and a number of handles whose text has more.
LIMIT, MANY, LONG = 16_777_216, 100_000, 40
# The octets of which a file may have more than any log that an export leaves, and less than such a text.
ROOM = 1_000_000
ADMIN, KEPT = 0x0E, 0x0C
NO_ADMINISTRATOR = 400


def administrator(key):
    return wire.value(100, b"HS_ADMIN", wire.administrator(key, 300), ADMIN, 86400)


def owner(handle):
    """The rows of an administrative handle, with its key."""
    return [(handle, administrator(handle)), (handle, wire.value(300, b"HS_SECKEY", KEY, KEPT, 86400))]


def url(index, data, permission=ADMIN):
    return wire.value(index, b"URL", data, permission, 86400)


HEADS = {
    "acme": ["# acme, which has two prefixes", "publisher acme 4 %d", "prefix 10 acme", "prefix 10.5 acme 3"],
    "bolt": ["publisher bolt 2 %d", "prefix 20 bolt"],
    "cork": ["publisher cork 3 %d", "prefix 30 cork 3"],
}
OPENING = owner(b"0.NA/10") + owner(b"0.NA/20") + [(b"10.5/b", url(1, b"https://b/"))]
CREATED = [(b"10/a", [url(2, b"https://a/2"), url(1, b"https://a/1"), administrator(b"0.NA/10")]), (b"10/A", [url(1, b"https://A/"), administrator(b"0.NA/10")]),
           (b"20/x", [url(7, b"kept", KEPT), administrator(b"0.NA/20")])]
# what a text can't say
UNSAYABLE = [(handle, [url(1, b"https://space/"), administrator(b"0.NA/10")]) for handle in (b"10/with a space", b"10/with\na line")]


def key(handle):
    return handle, wire.value(300, b"HS_SECKEY", KEY, KEPT, 86400)


def listing(handle, *references):
    """The row of a list."""
    return handle, wire.value(1, b"HS_VLIST", wire.listed(wire.reference(*one) for one in references), ADMIN, 86400)


# acme leaves a handle to a list of bolt's, which leads to bolt's key and to a list of cork's; that leads to cork's key, and back
LEFT_TO = [(b"10/c", url(2, b"https://c/2", KEPT)), (b"10/c", wire.value(100, b"HS_ADMIN", wire.administrator(b"20/l", 1), ADMIN, 86400))]
COVER = [listing(b"20/l", (b"20/k", 300), (b"30/l", 1), (b"20/none", 1)), key(b"20/k"), listing(b"30/l", (b"30/k", 300), (b"20/l", 1)), key(b"30/k")]
# what acme's answers don't rest on
BESIDE = owner(b"0.NA/30") + [key(b"20/other"), (b"20/l", url(2, b"https://beside/")), (b"30/x", url(1, b"https://x/"))]
THREE = ("acme", "bolt", "cork")


def heads(names, ports):
    return [line % ports[name] if "%d" in line else line for name in names for line in HEADS[name]]


def text(names, ports, rows):
    return wire.tenants(heads(names, ports), rows)


def write(ports, written):
    """Creates these handles, each by its publisher's administrator; whether all were."""
    codes = []
    for handle, values in written:
        prefix = handle.split(b"/")[0]
        with servers.Client(ports["bolt" if prefix == b"20" else "acme"], b"0.NA/" + prefix) as client:
            codes.append(client.create(handle, values))
    return set(codes) == {wire.SUCCESS}


def asked_for():
    """Messages whose answers are compared: what is there, what isn't, and what nobody may read."""
    handles = [row[0] for row in OPENING] + [handle for handle, _ in CREATED] + [b"10/none", b"10.5/none", b"20/none", b"30/a", b"0.na/10.5"]
    return [wire.resolution(handle) for handle in handles] + [wire.resolution(b"20/x", (7,)), wire.resolution(b"10/a", (2, 9))]


def told(reply):
    """What a message says: of a challenge its code alone, since its nonce is random."""
    return reply[:8] if reply[4:8] == wire.number(wire.AUTHENTICATION_NEEDED) else reply


def answers(ports, names):
    """What the reply to each says, of each of these publishers."""
    found = []
    for name in names:
        with servers.Client(ports[name]) as client:
            for message in asked_for():
                _, reply = client.send(message)
                found.append((name, told(reply)))
    return found


def stamped(line):
    """A line of a value without its timestamp, which the server sets: eight octets before the references, of which there are none here."""
    return line[:-24] + "0" * 16 + line[-8:] if line.startswith("value ") else line


def export(given, *options):
    return subprocess.run([servers.HANDLED, "export", *options], input=given, stdout=subprocess.PIPE, stderr=subprocess.PIPE)


def opened(given, folder):
    """What is exported of a new table that the text opens: an empty file becomes one."""
    file = os.path.join(folder, "new.db")
    open(file, "wb").close()
    done = export(given, "--table", file)
    for name in (file, file + "-wal"):
        with contextlib.suppress(FileNotFoundError):
            os.remove(name)
    return done


def canonical(row):
    return row[0].lower() if row[0].upper().startswith(b"0.NA/") else row[0]


def expected(rows):
    """The lines of these rows by rising handle and index, each handle in canonical form."""
    placed = sorted((canonical(row), struct.unpack(">I", row[1][:4])[0], row[1]) for row in rows)
    return [wire.value_line(handle, octets) for handle, _, octets in placed]


@contextlib.contextmanager
def serving(names, given, *options):
    """The ports of a server for these publishers, by name."""
    made = lambda *ports: given(dict(zip(names, ports)))
    process, ports = servers.serve(made, len(names), options=options)
    try:
        yield dict(zip(names, ports))
    finally:
        servers.end(process)


def exported(folder):
    """What is exported of a table that was served."""
    both = ("acme", "bolt")
    file = os.path.join(folder, "table.db")
    with serving(both, lambda ports: text(both, ports, OPENING), "--table", file) as ports:
        yield "handles are created", write(ports, CREATED)
        before = answers(ports, both)
        busy = export(text(both, ports, OPENING), "--table", file)
        yield "a file in use", (busy.returncode, busy.stdout, busy.stderr.split(b":")[:2]) == (4, b"", [b"table", b" in use"]) and b"(handled copy)" in busy.stderr
    done = export(text(both, ports, OPENING), "--table", file)
    lines = done.stdout.decode().splitlines()
    rows = OPENING + [(handle, value) for handle, values in CREATED for value in values]
    yield "the lines of a table", (done.returncode, done.stderr, [stamped(line) for line in lines]) == (0, b"", heads(both, ports) + expected(rows))
    again = opened(done.stdout, folder)
    yield "the text of a text", (again.returncode, again.stdout, again.stderr) == (0, done.stdout, b"")
    # the lines of the heads are made anew, for other ports
    values = "".join(line + "\n" for line in lines if line.startswith("value ")).encode()
    with serving(both, lambda ports: wire.text(heads(both, ports)) + values) as moved:
        yield "the same answers of what is opened", answers(moved, both) == before
    alone = export(wire.text(heads(["acme"], ports)), "--table", file)
    own = [row for row in rows if b"20" not in row[0]]
    yield "the lines of one publisher", [stamped(line) for line in alone.stdout.decode().splitlines()] == heads(["acme"], ports) + expected(own)
    values = "".join(line + "\n" for line in alone.stdout.decode().splitlines() if line.startswith("value ")).encode()
    with serving(("acme",), lambda ports: wire.text(heads(["acme"], ports)) + values) as moved:
        yield "the same answers of one publisher", answers(moved, ["acme"]) == [answer for answer in before if answer[0] == "acme"]
    yield from left_out(folder, file, done.stdout)


def conversation(port):
    """What is answered to each request of acme's: who may read and change a handle that is left to others' lists, and what became of it."""
    found = []
    with servers.Client(port) as client:
        found += [told(client.send(wire.resolution(handle))[1]) for handle in (b"10/a", b"10/c", b"10.5/b", b"0.NA/10", b"10/none", b"20/l", b"30/x")]
    for handle in (b"0.NA/10", b"20/k", b"30/k", b"20/other"):
        with servers.Client(port, handle) as client:
            found.append(client.asked(wire.resolution(b"10/c", (2,))))
    for handle in (b"20/other", b"30/k"):
        with servers.Client(port, handle) as client:
            found += [client.modify(b"10/c", [url(2, b"https://changed/" + handle, KEPT)]), client.create(b"10/" + handle[:2], [url(1, b"new")])]
    with servers.Client(port) as client:
        found += [client.create(b"10/new", [url(1, b"https://new/"), administrator(b"0.NA/10")]), client.delete(b"10/c"), client.delete(b"10/a")]
        found.append(client.asked(wire.message(wire.LIST, wire.string(b"0.NA/10"))))
    with servers.Client(port, b"20/k") as client:
        found += [client.delete(b"10/c"), told(client.send(wire.resolution(b"10/c"))[1])]
    return found


@contextlib.contextmanager
def started(given, *options):
    """A server with this text as it stands, whose ports are free again."""
    process = servers.start([servers.HANDLED, "serve", *options], given, len(THREE))
    if process is None:
        sys.exit("exports: the ports of a server that ended are taken")
    try:
        yield
    finally:
        servers.end(process)


def moved(folder):
    """One publisher's part of a table: its lines, and that a server answers with it as the one that has the whole table."""
    file = os.path.join(folder, "three.db")
    rows = OPENING + LEFT_TO + COVER + BESIDE
    with serving(THREE, lambda ports: text(THREE, ports, rows), "--table", file) as ports:
        yield "what is to be moved is created", write(ports, CREATED[:2])
    given = text(THREE, ports, [])
    done = export(given, "--table", file, "--publisher", "acme")
    lines = [stamped(line) for line in done.stdout.decode().splitlines()]
    own = [row for row in OPENING + LEFT_TO if b"20" not in row[0]] + [(handle, value) for handle, values in CREATED[:2] for value in values]
    front = heads(THREE, ports) + expected(own)
    yield "the lines of a publisher", (done.returncode, done.stderr, lines[:len(front)]) == (0, b"", front)
    yield "the lines of what it rests on", sorted(lines[len(front):]) == sorted(expected(COVER))
    with started(given, "--table", file):
        old = conversation(ports["acme"])
    yield "administrators are found over two lists", [one[0] for one in old[7:11]] == [NO_ADMINISTRATOR, wire.SUCCESS, wire.SUCCESS, NO_ADMINISTRATOR]
    yield "a change by one goes through", (old[11], old[13]) == (NO_ADMINISTRATOR, wire.SUCCESS)
    with started(done.stdout):
        yield "the same answers of a publisher that moved", conversation(ports["acme"]) == old
    other = export(given, "--table", file, "--publisher", "bolt")
    yield "a publisher that rests on others", (other.returncode, sorted(stamped(line) for line in other.stdout.decode().splitlines() if line.startswith("value 30"))) == (0, expected(COVER[2:]))
    none = export(given, "--table", file, "--publisher", "none")
    yield "no such publisher", (none.returncode, none.stdout, none.stderr.split(b"\n")[0]) == (2, b"", b"error: invalid value 'none' for '--publisher <NAME>': the tenants text has no publisher of this name: it has acme, bolt, cork")
    yield from unhosted(file, ports, {canonical(row) for row in rows} | {handle for handle, _ in CREATED[:2]})
    yield from unsaid(given, file, ports)


def unhosted(file, ports, handles):
    """Of prefixes that the text lacks it is told how many handles are left out."""
    done = export(text(["acme"], ports, []), "--table", file)
    counts = [(prefix, sum(handle.startswith((prefix + b"/", b"0.na/" + prefix)) for handle in handles)) for prefix in (b"20", b"30")]
    said = b"".join(b'export: the text has no line for the prefix "%s": %d handles are left out\n' % one for one in counts)
    yield "prefixes that the text lacks", (done.returncode, done.stderr) == (0, said)


def unsaid(given, file, ports):
    """A publisher that rests on a handle which no line names is refused; others go on."""
    with started(given, "--table", file):
        yield "a list at a handle that no text says", write(ports, [(b"20/a list", [listing(b"20/a list", (b"20/k", 300))[1], administrator(b"0.NA/20")])])
        yield "a handle that is left to it", write(ports, [(b"10/d", [wire.value(100, b"HS_ADMIN", wire.administrator(b"20/a list", 1), ADMIN, 86400), wire.value(101, b"HS_ADMIN", wire.administrator(b"0.NA/10", 300), ADMIN, 86400)])])
    done = export(given, "--table", file, "--publisher", "acme")
    said = b"no text says this publisher: its values refer to a list or key whose handle has a space or line feed in its name\n"
    yield "a publisher that no text says", (done.returncode, done.stdout, done.stderr) == (4, b"", said)
    done = export(given, "--table", file, "--publisher", "bolt")
    yield "what is left out of a publisher", (done.returncode, done.stderr[:17]) == (5, b"export: left out,")
    done = export(given, "--table", file, "--publisher", "cork")
    yield "another publisher has nothing left out", (done.returncode, done.stderr) == (0, b"")


def left_out(folder, file, sayable):
    """What no text says is told by its number, and the rest is written."""
    both = ("acme", "bolt")
    with serving(both, lambda ports: text(both, ports, OPENING), "--table", file) as ports:
        yield "handles that no text says", write(ports, UNSAYABLE + [(b"10/empty", [url(1, b"gone"), administrator(b"0.NA/10")])])
        with servers.Client(ports["acme"]) as client:
            yield "a handle loses its values", client.remove(b"10/empty", (1, 100)) == wire.SUCCESS
    done = export(text(both, ports, OPENING), "--table", file)
    same = [line for line in done.stdout.splitlines() if line.startswith(b"value ")] == [line for line in sayable.splitlines() if line.startswith(b"value ")]
    said = b"export: left out, since a tenants text can't express them: 1 handles without a value, 2 with a space or line feed in the name, the first of them:\n"
    said += b'export: "10/empty"\nexport: "10/with\\na line"\nexport: "10/with a space"\n'
    yield "what is left out is told", (done.returncode, same, done.stderr) == (5, True, said)


def refused(folder):
    """What is no table, and what is no text."""
    good = text(["acme"], {"acme": 2641}, [])
    missing = os.path.join(folder, "none.db")
    done = export(good, "--table", missing)
    yield "no file", (done.returncode, done.stdout, done.stderr[:18], os.path.exists(missing)) == (4, b"", b"table: cannot open", False)
    done = opened(b"publisher acme\n", folder)
    yield "a faulty text", (done.returncode, done.stdout, done.stderr) == (3, b"", b"the tenants text is refused: `handled check < TEXT` says what is wrong in each line, and what to do\ntenants: line 1: bad line\n")
    done = opened(b"", folder)
    yield "an empty text", (done.returncode, done.stdout, done.stderr) == (3, b"", b"tenants: the text is empty: end the command with < TEXT, or name the file of the text by --text\n")
    # a comment that ends with CR keeps it, and a last line without an end gets one
    done = opened(b"# a\r\r\n\npublisher acme 2 1\r\nprefix 10 acme", folder)
    yield "lines as they stand", (done.returncode, done.stdout) == (0, b"# a\r\r\n\npublisher acme 2 1\nprefix 10 acme\n")


def large(folder):
    """A text of more octets than standard input takes, from a file: checked, served over a file, exported, and read again."""
    rows = [(b"0.NA/10", value) for _, value in owner(b"0.NA/10")] + [(b"10/%06d" % number, url(1, b"https://%06d/" % number + b"x" * LONG)) for number in range(MANY)]
    given = text(["acme"], {"acme": servers.free_ports(1)[0]}, rows)
    source, file, to = (os.path.join(folder, name) for name in ("large.tenants", "large.db", "again.tenants"))
    with open(source, "wb") as made:
        made.write(given)
    done = handled("check", given)
    yield "standard input takes no more", len(given) > LIMIT and (done.returncode, done.stderr) == (1, b"input too long\n")
    done = handled("check", b"\xff\n")
    yield "a text that isn't UTF-8", (done.returncode, done.stderr) == (1, b"the tenants text isn't UTF-8: save it as UTF-8, without a byte order mark\ninput not UTF-8\n")
    done = handled("check", b"", source)
    yield "a file as a word", done.returncode == 2 and done.stderr.endswith(b"\nThe command reads its text from standard input: end it with ` < FILE`.\n")
    done = handled("check", b"", "--text", source)
    yield "a long text is checked", done.returncode == 0 and b"%d values\n" % len(rows) in done.stdout
    done = handled("serve", b"", "--text", source, "--table", file, "--turns", "1")
    yield "a long text is served", done.returncode == 0
    done = handled("export", b"", "--table", file, "--text", source, "--to", to, restore_signals=False, preexec_fn=lambda: resource.setrlimit(resource.RLIMIT_FSIZE, (ROOM, ROOM)))
    yield "a text that isn't written whole is none", done.returncode == 4 and b"export: the text can't be written: " in done.stderr and not os.path.exists(to)
    done = export(b"", "--table", file, "--text", source, "--to", to)
    with open(to, "rb") as made:
        again = made.read()
    yield "a long text of a long text", (done.returncode, done.stdout) == (0, b"") and sorted(value_lines(again)) == sorted(value_lines(given))
    yield "how long it is is said", done.stderr.splitlines(True)[-1:] == [b"export: the text has %d octets, and standard input takes %d at most: hand it to handled by --text FILE\n" % (len(again), LIMIT)]
    done = handled("serve", b"", "--text", to, "--table", file + ".again", "--turns", "1")
    yield "it is served again", done.returncode == 0
    done = export(b"", "--table", file + ".again", "--text", to, "--to", to + ".again")
    with open(to + ".again", "rb") as made:
        yield "and exported as it was", done.returncode == 0 and made.read() == again
    done = handled("check", b"", "--text", to)
    yield "it is read again", done.returncode == 0 and b"%d values\n" % len(rows) in done.stdout
    done = handled("check", b"", "--text", os.path.join(folder, "none"))
    yield "no text", (done.returncode, done.stdout, done.stderr.splitlines()[1:]) == (1, b"", [b"device fault"]) and done.stderr.startswith(b"text: cannot read ")


def written(folder):
    """A new file for its owner alone; what no text says is said before anything is written; a copy is exported while the server runs."""
    one, file, copied, to = ("acme",), *(os.path.join(folder, name) for name in ("table.db", "copy.db", "whole.tenants"))
    with serving(one, lambda ports: text(one, ports, owner(b"0.NA/10")), "--table", file) as ports:
        given = text(one, ports, owner(b"0.NA/10"))
        yield "a handle that no text says", write(ports, UNSAYABLE[:1])
        yield "a table that is served", export(given, "--table", file).returncode == 4
        yield "a copy while the server runs", handled("copy", b"", "--table", file, "--to", copied).returncode == 0
        printed = export(given, "--table", copied)
        said = b"export: left out, since a tenants text can't express them: 0 handles without a value, 1 with a space or line feed in the name, the first of them:\nexport: \"10/with a space\"\n"
        yield "what is left out is said", (printed.returncode, printed.stderr) == (5, said) and printed.stdout.startswith(b"#")
        done = handled("export", given, "--table", copied, "--to", to, preexec_fn=lambda: os.umask(0))
        with open(to, "rb") as octets:
            yield "a file for its owner alone", (done.returncode, done.stdout, done.stderr, octets.read(), os.stat(to).st_mode & 0o777) == (5, b"", said, printed.stdout, 0o600)
        done = export(given, "--table", copied, "--to", to)
        with open(to, "rb") as octets:
            yield "a file that is there stays", (done.returncode, done.stderr, octets.read()) == (4, b"export: there is a file at the path of --to: move it away, or name another path\n", printed.stdout)
        with open("/dev/full", "wb") as full:
            done = subprocess.run([servers.HANDLED, "export", "--table", copied], input=given, stdout=full, stderr=subprocess.PIPE, timeout=120 * servers.SLOWER, check=False)
        full = b"export: standard output can't be written, and what it has of the text isn't whole: make room where it goes, or name a new file by --to\n"
        yield "what is left out is said before a line is written", (done.returncode, done.stderr) == (4, said + full)


def value_lines(octets):
    """The lines of values, with authorities as the server writes them."""
    return [line.replace(b"0.NA/", b"0.na/") for line in octets.splitlines() if line.startswith(b"value ")]


def handled(word, given, *options, **how):
    return subprocess.run([servers.HANDLED, word, *options], input=given, capture_output=True, timeout=120 * servers.SLOWER, check=False, **how)


def main():
    with tempfile.TemporaryDirectory() as folder, tempfile.TemporaryDirectory() as other:
        return servers.tally(itertools.chain(exported(folder), moved(folder), refused(folder), [] if servers.IS_UNPROVED else large(other), written(other)))


sys.exit(main())

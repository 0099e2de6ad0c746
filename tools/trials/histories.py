"""histories.py: tries `hdl history` and `hdl undo` of the program crates/hdl/out/hdl, and `handled serve --history`.

First histories are typed by hand, line by line as docs/FILE.md has them: what is printed of them, whole, cut at each octet of the last line, and with each field damaged. Then changes of a server, whose
lines are typed with the moments that its replies tell: each operation is undone, dry and for good, and what stands is compared with what stood before; each refusal is told and changes nothing. Last a
server with --history writes the lines, in memory and with a table: they are compared with what was changed, the file is for its owner alone, no key's data is in it, all lines are there after `handled
stop`, `handled reopen` begins it anew, what a crash or a full disk leaves of a line is no change, and `hdl undo` undoes each change by them. Its last line is 'N passed, M failed', a case counting one."""

import contextlib
import datetime
import itertools
import os
import re
import resource
import signal
import struct
import subprocess
import sys
import tempfile
import time

# nothing is left beside the tools
sys.dont_write_bytecode = True
from lib import repository, servers, wire

PROGRAM = os.environ.get("HDL", repository.program("hdl"))
SECRET, DATA = b"never-shown", b"data-of-a-key"
KEY = "300:0.NA/10"
OPEN, KEPT = 0x0E, 0x0C
# The octets after which a history finds no room: within the line of a change.
FULL = 3400
# Seconds within which a change has its line, beside other programs.
SOON = 10 * servers.SLOWER


def administrator(handle=b"0.NA/10"):
    # twelve digits, as a line has them
    return wire.value(100, b"HS_ADMIN", wire.administrator(handle, 300, b"\x0f\xff"), OPEN, 86400)


ADMINISTRATOR = "100 HS_ADMIN 86400 1110 ADMIN 300:111111111111:0.NA/10"


def url(index, data):
    return wire.value(index, b"URL", data.encode(), OPEN, 86400)


def url_line(index, data):
    return "%d URL 86400 1110 UTF8 %s" % (index, data)


def tenants(*ports):
    """A publisher of the profile, and one with the other layout of values."""
    rows = [(handle, value) for handle in (b"0.NA/10", b"0.NA/20") for value in (administrator(handle), wire.value(300, b"HS_SECKEY", SECRET, KEPT, 86400))]
    return wire.tenants(["publisher acme 8 %d" % ports[0], "publisher bolt 4 %d handle-net" % ports[1], "prefix 10 acme", "prefix 20 bolt"], rows)


def hdl(command, handle, *words, secret=SECRET):
    """The exit status and both outputs of a command, with FILE and SERVER in the place of the file and the server."""
    environment = {**os.environ, "HDL_SECRET": secret.decode()}
    done = subprocess.run([PROGRAM, command, handle, *words], stdin=subprocess.DEVNULL, env=environment, capture_output=True, check=False, timeout=60 * servers.SLOWER)
    assert SECRET not in done.stdout + done.stderr and DATA not in done.stdout + done.stderr
    said = done.stderr.decode()
    for option, name in (("--file", "FILE"), ("--server", "SERVER")):
        if option in words:
            said = said.replace(words[words.index(option) + 1], name)
    return done.returncode, done.stdout.decode(), said


def line(moment, operation, handle, key, indexes, *values):
    return "\t".join([str(moment), operation, handle, key, indexes, *values]) + "\n"


@contextlib.contextmanager
def file_of(text):
    with tempfile.NamedTemporaryFile(suffix=".history") as file:
        file.write(text.encode())
        file.flush()
        yield file.name


def history(text, handle, *words):
    with file_of(text) as name:
        return hdl("history", handle, "--file", name, *words)


# ---- lines that are typed by hand

TYPED = (
    "1700000000000\tcreate\t10/a\t300:0.NA/10\t1,100\n"
    "1700000001500\tmodify\t10/a\t300:0.NA/10\t1\t1 URL 86400 1110 UTF8 https://a/\n"
    "1700000002000\tdelete\t10/%C3%BC%20x%25\t*\t-\t1 TITLE 0 1110 UTF8 \u00fc: \u00df\t300 HS_SECKEY HIDDEN 6 octets\n"
    "1700000003000\tadd\t10/a\t-\t7,8\n"
    "1700000003001\tadd\t10/A\t-\t7\n"
    "1700000004007\tremove\t10/a\t*\t7\t7 TITLE 0 1110 UTF8 a b\n"
    "1700000005000\tmodify\t10/a\t1:10.x/%7F%0A\t1,2\t!40\n"
    "1700000006000\tcreate\t10.ab/Q\t-\t-\n"
)
SHOWN = [
    "2023-11-14T22:13:25Z modify 1,2 by 1:10.x/\\u{7f}\\u{a}\n    40 values, left out since they are too long\n",
    "2023-11-14T22:13:24.007Z remove 7 by another server\n    7 TITLE 0 1110 UTF8 a b\n",
    "2023-11-14T22:13:23Z add 7,8 by anyone\n",
    "2023-11-14T22:13:21.5Z modify 1 by 300:0.NA/10\n    1 URL 86400 1110 UTF8 https://a/\n",
    "2023-11-14T22:13:20Z create 1,100 by 300:0.NA/10\n",
]
UNREAD = "hdl: FILE: lines of this handle in the history that can't be read: %d\n"
NONE = "hdl: FILE: the history has no change of this handle\n"
GOOD = ["1700000000000", "modify", "10/a", KEY, "1", url_line(1, "https://a/")]
# A field by its place, and what can't be read in it.
DAMAGED = [
    *((0, word) for word in ("", "x", "01", "+1", "-1", " 1", "18446744073709551616", "1700000000000 ")),
    *((1, word) for word in ("", "Modify", "change", "modify ")),
    *((3, word) for word in ("", "+", "300", ":0.NA/10", "0300:0.NA/10", "4294967296:0.NA/10", "300:a b", "300:%c3%bc", "300:%41", "300:%")),
    *((4, word) for word in ("", "x", "1,", ",1", "1,,2", "1, 2", "01", "4294967296", "-,1")),
    *((5, word) for word in ("!", "!x", "!01", "!18446744073709551616")),
]
# Handles whose field isn't what is written of them: lines of no handle.
STRANGE = ["10/%61", "10/%c3%BC", "10/a%", "10/a b", "10/\u00fc"]


def typed():
    yield "all changes", history(TYPED, "10/a") == (0, "".join(SHOWN), "")
    yield "the last", history(TYPED, "10/a", "--last", "1") == (0, SHOWN[0], "")
    yield "the last two", history(TYPED, "10/a", "--last", "2") == (0, "".join(SHOWN[:2]), "")
    yield "more than there are", history(TYPED, "10/a", "--last", "4294967295") == (0, "".join(SHOWN), "")
    yield "an escaped handle", history(TYPED, "10/\u00fc x%") == (0, "2023-11-14T22:13:22Z delete by another server\n    1 TITLE 0 1110 UTF8 \u00fc: \u00df\n    300 HS_SECKEY HIDDEN 6 octets\n", "")
    yield "other letters", history(TYPED, "10/A") == (0, "2023-11-14T22:13:23.001Z add 7 by anyone\n", "")
    yield "a prefix in other letters", history(TYPED, "10.AB/Q") == (0, "2023-11-14T22:13:26Z create by anyone\n", "")
    yield "the end of the calendar", history(line(2**64 - 1, "create", "10/a", "-", "1"), "10/a") == (0, "- create 1 by anyone\n", "")
    yield "no change", history(TYPED, "10/c") == (1, "", NONE)
    yield "an empty file", history("", "10/a") == (1, "", NONE)
    yield "a line end alone", history("\n", "10/a") == (1, "", NONE)
    yield "no terminal is driven", history(line(0, "modify", "10/a", "-", "1", "1 URL 0 1110 UTF8 \x1b[1m"), "10/a") == (0, "1970-01-01T00:00:00Z modify 1 by anyone\n    1 URL 0 1110 UTF8 \\u{1b}[1m\n", "")
    last = line(1700000007000, "delete", "10/a", KEY, "-", url_line(1, "https://a/"))
    yield "a last line that was cut", all(history(TYPED + last[:cut], "10/a", "--last", "1") == (0, SHOWN[0], "") for cut in range(0, len(last), 7))
    yield "a last line that has its end", history(TYPED + last, "10/a", "--last", "1")[1].startswith("2023-11-14T22:13:27Z delete by 300:0.NA/10\n")
    for place, word in DAMAGED:
        fields = [*GOOD[:place], word, *GOOD[place + 1:]]
        yield "damaged: %s" % fields, history(TYPED + "\t".join(fields) + "\n", "10/a", "--last", "2") == (1, SHOWN[0], UNREAD % 1)
    for handle in STRANGE:
        yield "a field %s" % handle, history(line(0, "create", handle, "-", "1"), handle) == (1, "", NONE)
    yield "few fields", history("1\tcreate\t10/a\t-\n1\tcreate\t10/a\n1\tcreate\n\n", "10/a") == (1, "", UNREAD % 1)


def words():
    with file_of(TYPED) as name:
        yield "no handle", hdl("history", "a", "--file", name)[0] == 2
        yield "no number", hdl("history", "10/a", "--file", name, "--last", "0") == (2, "", "hdl: --last isn't a number from 1 to 4294967295\n")
        yield "no file", hdl("history", "10/a", "--file", name + ".none") == (2, "", "hdl: FILE: the history can't be read: No such file or directory (os error 2): check --file\n")
        yield "no key", hdl("undo", "10/a", "--file", name, "--key", "x") == (2, "", "hdl: the key isn't INDEX:HANDLE, such as 300:0.NA/10\n")
        yield "no secret", hdl("undo", "10/a", "--file", name, "--key", KEY, secret=b"") == (2, "", "hdl: the secret is missing: set HDL_SECRET, or write it on the first line of standard input\n")
        (nobody,) = servers.free_ports(1)
        yield "no server", hdl("undo", "10/a", "--file", name, "--key", KEY, "--server", "127.0.0.1:%d" % nobody) == (3, "", "hdl: SERVER: nothing listens there: nothing was changed\n")


# ---- changes of a server, whose lines are typed with its moments

def fields_of(octets, at):
    """Index, moment and octets of the value of the profile that stands there, and where it ends."""
    index, end = struct.unpack_from(">I", octets, at)[0], at + 4
    for _ in range(2):
        end += 4 + struct.unpack_from(">I", octets, end)[0]
    moment = struct.unpack_from(">Q", octets, end + 6)[0]
    return index, moment, octets[at:end + 6], end + 18


def net_fields_of(octets, at):
    """The same in the other layout."""
    index, second, end = *struct.unpack_from(">II", octets, at), at + 14
    for _ in range(2):
        end += 4 + struct.unpack_from(">I", octets, end)[0]
    return index, second * 1000, octets[at:at + 4] + octets[at + 8:end], end + 4


class Server(servers.Client):
    """A server's client, and what stands there."""

    def __init__(self, port, prefix=b"10", secret=SECRET):
        super().__init__(port, b"0.NA/" + prefix, secret=secret)
        self.port, self.fields_of = port, fields_of if prefix == b"10" else net_fields_of

    def stands(self, handle):
        """By index the moment and the octets of each value that the key may read; None where the handle isn't there."""
        code, body = self.asked(wire.resolution(handle.encode()))
        if code != wire.SUCCESS:
            return {} if code == 200 else None
        at, found = 8 + len(handle.encode()), {}
        for _ in range(struct.unpack_from(">I", body, at - 4)[0]):
            index, moment, octets, at = self.fields_of(body, at)
            found[index] = moment, octets
        return found

    def values(self, handle):
        found = self.stands(handle)
        return None if found is None else {index: octets for index, (_, octets) in found.items()}

    def moment(self, handle, index=1):
        return self.stands(handle)[index][0]

    def add(self, handle, values):
        return self.code(wire.message(wire.ADD, wire.string(handle.encode()) + wire.listed(values)))

    def change(self, name, handle, what=()):
        """Makes a change, which must be accepted."""
        code = self.delete(handle.encode()) if name == "delete" else self.add(handle, what) if name == "add" else getattr(self, name)(handle.encode(), what)
        assert code == wire.SUCCESS, (name, handle, code)

    def undo(self, text, handle, *more, key=KEY, secret=SECRET):
        with file_of(text) as name:
            return self.undo_by(name, handle, *more, key=key, secret=secret)

    def undo_by(self, name, handle, *more, key=KEY, secret=SECRET):
        return hdl("undo", handle, "--file", name, "--key", key, "--server", "127.0.0.1:%d" % self.port, *more, secret=secret)


def told(moment):
    """A moment as RFC 3339 has it, without zeros at its end."""
    text = datetime.datetime.fromtimestamp(moment // 1000, datetime.UTC).strftime("%Y-%m-%dT%H:%M:%S")
    return text + (".%03d" % (moment % 1000)).rstrip("0").rstrip(".") + "Z"


def lines(sign, *values):
    return "".join("%s %s\n" % (sign, value) for value in values)


# What is said behind an undo if the history has more than the change that is undone.
OLDER = "older changes of this handle stand: hdl history shows them\n"

# How each operation is undone: what is made, what is changed of it, the indexes and the values before, and what is said.
CASES = {
    "create": ("delete", None, [url(1, "new"), administrator()], "1,100", [], lines("-", url_line(1, "new"), ADMINISTRATOR)),
    "add": ("remove", [administrator(), url(1, "one")], [url(2, "new"), url(3, "more")], "2,3", [], lines("-", url_line(2, "new"), url_line(3, "more"))),
    "modify": ("modify", [administrator(), url(1, "old"), url(2, "kept")], [url(1, "new")], "1", [url_line(1, "old")], lines("-", url_line(1, "new")) + lines("+", url_line(1, "old"))),
    "remove": ("add", [administrator(), url(1, "old"), url(2, "kept")], [1], "1", [url_line(1, "old")], lines("+", url_line(1, "old"))),
    "delete": ("create", [administrator(), url(1, "old")], (), "-", [url_line(1, "old"), ADMINISTRATOR], lines("+", url_line(1, "old"), ADMINISTRATOR)),
}


def undone(server):
    """Each operation, undone."""
    for operation, (undoing, made, what, indexes, before, said) in CASES.items():
        handle = "10/undone-%s" % operation
        if made:
            server.change("create", handle, made)
        stood = server.values(handle)
        server.change(operation, handle, what)
        changed = server.stands(handle)
        moment = 1700000000000 if operation in ("remove", "delete") else changed[int(indexes.split(",")[0])][0]
        text = line(1, "create", handle, "-", "1") + line(moment, operation, handle, KEY, indexes, *before)
        plan = "%s %s%s by %s\nundone by %s\n%s" % (told(moment), operation, "" if indexes == "-" else " " + indexes, KEY, undoing, said)
        yield "dry: %s" % operation, server.undo(text, handle, "--dry-run") == (0, plan + "nothing was changed (--dry-run)\n", "") and server.stands(handle) == changed
        other = (1, "", "hdl: FILE: the last change of this handle isn't of the moment in --at; hdl history shows it: nothing was changed\n")
        yield "of another moment: %s" % operation, [server.undo(text, handle, "--at", at) for at in ("1", told(1), str(moment + 1), "x")] == [other] * 4 and server.stands(handle) == changed
        at = str(moment) if operation == "modify" else told(moment)
        yield "undone: %s" % operation, server.undo(text, handle, "--at", at) == (0, plan + "done\n" + OLDER, "") and server.values(handle) == stood
        yield "twice: %s" % operation, server.undo(text, handle)[0] == 1 and server.values(handle) == stood


REFUSED = "hdl: %s: nothing was changed\n"
CHANGED = REFUSED % "value %d was changed or removed since, or the key may not read it"


def refusal(server, name, handle, text, said, **how):
    """Whether an undo is refused in these words, and changes nothing."""
    stood = server.stands(handle)
    found = server.undo(text, handle, **how)
    if found != (1, "", said):
        print(found)
    return name, found == (1, "", said) and server.stands(handle) == stood


def refused(server):
    def refuses(name, text, said, **how):
        return refusal(server, name, handle, text, said, **how)
    handle = "10/refused"
    server.change("create", handle, [administrator(), url(1, "one"), url(2, "two")])
    moment = server.moment(handle)
    created, added = line(moment, "create", handle, KEY, "1,2,100"), line(moment, "add", handle, KEY, "1,2")
    modified = line(moment, "modify", handle, KEY, "1,2", url_line(1, "a"), url_line(2, "b"))
    yield refuses("another history", line(1, "create", "10/other", "-", "1"), NONE)
    yield refuses("a damaged line", created + "x\tmodify\t%s\t-\t1\n" % handle, UNREAD % 1)
    yield refuses("values that were left out", line(moment, "modify", handle, KEY, "1,2", "!2"), REFUSED % "the history hasn't the 2 values before this change, since they were too long")
    yield refuses("a key", line(moment, "modify", handle, KEY, "1,2", url_line(1, "a"), "2 HS_SECKEY HIDDEN 6 octets"), REFUSED % "value 2 was a key, and the history has no data of keys: set the key anew")
    yield refuses("no value", line(moment, "modify", handle, KEY, "1", "1 URL 86400 1110 TEXT a"), REFUSED % "a value before this change can't be read in the history: the format isn't UTF8, ADMIN, LIST or HEX")
    other = REFUSED % "the values before this change aren't those of its indexes: the line of the history is damaged"
    yield refuses("a value too few", line(moment, "modify", handle, KEY, "1,2", url_line(1, "a")), other)
    yield refuses("a value too many", line(moment, "remove", handle, KEY, "7", url_line(7, "a"), url_line(8, "b")), other)
    yield refuses("a handle that is there again", line(moment, "delete", handle, KEY, "-", url_line(1, "a")), REFUSED % "the handle is there again")
    yield refuses("a value that is there again", line(moment, "remove", handle, KEY, "7,2", url_line(7, "a"), url_line(2, "b")), REFUSED % "value 2 is there again")
    for name, text in (("create", created), ("add", added), ("modify", modified)):
        yield refuses("another moment: %s" % name, text.replace(str(moment), str(moment + 1)), CHANGED % 1)
    server.change("add", handle, [url(3, "three")])
    yield refuses("a value that was added", created, REFUSED % "value 3 was added since")
    server.change("modify", handle, [url(2, "changed")])
    for name, text in (("create", created), ("add", added), ("modify", modified)):
        yield refuses("a value that was changed: %s" % name, text, CHANGED % 2)
    server.change("remove", handle, [1])
    for name, text in (("create", created), ("add", added), ("modify", modified)):
        yield refuses("a value that was removed: %s" % name, text, CHANGED % 1)
    server.change("delete", handle)
    gone = REFUSED % "the handle isn't there"
    for name, text in (("create", created), ("add", added), ("modify", modified), ("remove", line(1, "remove", handle, KEY, "1", url_line(1, "a")))):
        yield refuses("a handle that was deleted: %s" % name, text, gone)
    many = line(1, "delete", handle, KEY, "-", *(url_line(index, "a") for index in range(1, 258)))
    yield refuses("more values than a request has", many, REFUSED % "the handle had 257 values, and a request creates at most 256: create it with some, and add the others")
    again = line(1, "delete", handle, KEY, "-", url_line(1, "a"), ADMINISTRATOR)
    yield "a wrong secret", wrong_secret(server, handle, again)


def wrong_secret(server, handle, text):
    status, _, said = server.undo(text, handle, secret=b"other")
    return status == 1 and bool(re.fullmatch(r"hdl: SERVER: \d+ the secret isn't that of the key: nothing was changed\n", said)) and server.values(handle) is None


def seconds(server):
    """A port whose replies tell seconds."""
    handle, key = "20/net", "300:0.NA/20"
    server.change("create", handle, [wire.net_value(1, b"URL", b"a", OPEN, 86400), wire.net_value(100, b"HS_ADMIN", wire.administrator(b"0.NA/20", 300), OPEN, 86400)])
    second = server.moment(handle)
    for moment, said in ((second - 1, CHANGED % 1), (second + 1000, CHANGED % 1)):
        yield "another second", server.undo(line(moment, "create", handle, key, "1,100"), handle, "--handle-net", key=key) == (1, "", said)
    yield "the same second", server.undo(line(second + 999, "create", handle, key, "1,100"), handle, "--handle-net", key=key)[0] == 0 and server.values(handle) is None


def by_hand():
    with servers.serving(tenants, 2) as (acme, bolt), Server(acme) as server, Server(bolt, b"20") as net:
        yield from undone(server)
        yield from refused(server)
        yield from seconds(net)


# ---- lines that a server writes

def lines_of(path):
    with open(path, "rb") as file:
        octets = file.read()
    assert SECRET not in octets and DATA not in octets
    return octets.decode().splitlines(keepends=True)


def soon(path, count):
    """The lines of a history once it has so many, which must be soon."""
    until = time.monotonic() + SOON
    while time.monotonic() < until and not (os.path.exists(path) and len(lines_of(path)) >= count):
        time.sleep(0.02)
    return lines_of(path)


def appears(path):
    """Waits until the server has opened a file anew, and the thread that writes has it."""
    until = time.monotonic() + SOON
    while time.monotonic() < until and not os.path.exists(path):
        time.sleep(0.02)
    time.sleep(1 * servers.SLOWER)


def written(server, path):
    """What is written of each change, and that it is undone by that."""
    count = 0
    for operation, (_, made, what, indexes, before, _) in CASES.items():
        handle = "10/written-%s" % operation
        if made:
            server.change("create", handle, made)
            count += 1
        stood = server.values(handle)
        server.change(operation, handle, what)
        count += 1
        found = soon(path, count)[count - 1:]
        fields = found[0].rstrip("\n").split("\t") if found else []
        is_right = len(found) == 1 and fields[1:4] == [operation, handle, KEY] and fields[5:] == before and (operation == "delete" or fields[4] == indexes)
        if operation in ("create", "add", "modify"):
            is_right = is_right and fields[0] == str(server.moment(handle, int(indexes.split(",")[0])))
        yield "the line of a change: %s" % operation, is_right and abs(time.time() * 1000 - int(fields[0])) < 60_000 * servers.SLOWER
        yield "undone by its line: %s" % operation, server.undo_by(path, handle)[0] == 0 and server.values(handle) == stood
        count += 1
        yield "the line of the undo: %s" % operation, len(soon(path, count)) == count
        yield "undone once more: %s" % operation, server.undo_by(path, handle)[0] == 0 and server.values(handle) != stood
        count += 1
    soon(path, count)


def keys(server, path):
    """The data of a key is in no line, and no undo brings it back."""
    handle, key = "10/key", wire.value(5, b"HS_SECKEY", DATA, KEPT, 86400)
    count = len(lines_of(path))
    server.change("create", handle, [administrator(), key])
    server.change("remove", handle, [5])
    found = soon(path, count + 2)[count:]
    yield "a key in a history", [one.split("\t")[5:] for one in found] == [[], ["5 HS_SECKEY HIDDEN %d octets\n" % len(DATA)]]
    yield "a key isn't brought back", server.undo_by(path, handle) == (1, "", REFUSED % "value 5 was a key, and the history has no data of keys: set the key anew")


def anyone(server, path):
    """A handle that anyone may change, and a refused change, which has no line."""
    count = len(lines_of(path))
    server.change("create", "10/open", [administrator(), wire.value(1, b"URL", b"a", 0x0F, 0)])
    with Server(server.port, secret=b"other") as other:
        refused_code = other.modify(b"10/open", [url(100, "x")])
    server.change("modify", "10/open", [wire.value(1, b"URL", b"b", 0x0F, 0)])
    found = [one.split("\t") for one in soon(path, count + 2)[count:]]
    yield "a refused change has no line", refused_code != wire.SUCCESS and len(found) == 2
    yield "a change that anyone may make", len(found) == 2 and found[1][3] == "-" and found[1][5:] == ["1 URL 0 1111 UTF8 a\n"]


def served(folder, options):
    path, control = os.path.join(folder, "changes.history"), os.path.join(folder, "control")
    process, (acme, _) = servers.serve(tenants, 2, options=["--history", path, "--control", control, *options])
    with Server(acme) as server:
        yield "the file is for its owner alone", os.stat(path).st_mode & 0o777 == 0o600
        yield from written(server, path)
        yield from keys(server, path)
        yield from anyone(server, path)
        moved = path + ".1"
        os.rename(path, moved)
        count = len(lines_of(moved))
        status = subprocess.run([servers.HANDLED, "reopen", "--control", control], capture_output=True, check=False, timeout=60 * servers.SLOWER).returncode
        appears(path)
        server.change("create", "10/reopened", [administrator()])
        yield "reopened", status == 0 and len(soon(path, 1)) == 1 and len(lines_of(moved)) == count and os.stat(path).st_mode & 0o777 == 0o600
        for number in range(50):
            server.change("create", "10/last%d" % number, [administrator()])
    subprocess.run([servers.HANDLED, "stop", "--control", control], capture_output=True, check=False, timeout=60 * servers.SLOWER)
    process.wait(60 * servers.SLOWER)
    process.stdout.close()
    yield "all lines after a stop", [one.split("\t")[2] for one in lines_of(path)[1:]] == ["10/last%d" % number for number in range(50)]
    whole = lines_of(path)
    with open(path, "a", encoding="utf-8") as file:
        file.write("1764540000000\tmodify\t10/last0\t%s\t1\t1 URL 864" % KEY)
    process, _ = servers.serve(tenants, 2, options=["--history", path, *options])
    servers.end(process)
    yield "a start takes off what a crash left of a line", lines_of(path) == whole and len(whole) == 51


def bounded():
    """Lets no file of a server grow beyond this, as a full disk does."""
    signal.signal(signal.SIGXFSZ, signal.SIG_IGN)
    resource.setrlimit(resource.RLIMIT_FSIZE, (FULL, resource.RLIM_INFINITY))


def full(folder):
    """What a full disk leaves of a line is no change, and lines go on once there is room."""
    path = os.path.join(folder, "changes.history")
    process, (acme, _) = servers.serve(tenants, 2, options=["--history", path], preexec_fn=bounded, stderr=subprocess.DEVNULL)
    texts = ["https://example.org/%d/%s" % (number, "x" * 700) for number in range(8)]
    with Server(acme) as server:
        for number, text in enumerate(texts):
            server.change("create", "10/full%d" % number, [administrator(), url(1, text)])
        for number in range(len(texts)):
            server.change("modify", "10/full%d" % number, [url(1, "https://example.org/new")])
        time.sleep(1 * servers.SLOWER)
        is_full = os.path.getsize(path) == FULL
        resource.prlimit(process.pid, resource.RLIMIT_FSIZE, (resource.RLIM_INFINITY, resource.RLIM_INFINITY))
        server.change("create", "10/room", [administrator()])
        until = time.monotonic() + SOON
        while time.monotonic() < until and "10/room" not in (lines_of(path) or [""])[-1]:
            time.sleep(0.02)
    servers.end(process)
    fields = [line.rstrip("\n").split("\t") for line in lines_of(path)]
    changed = [(one[2], one[5:]) for one in fields if one[1] == "modify"]
    are_whole = all(any(handle == "10/full%d" % number and before[0].endswith(" " + text) for number, text in enumerate(texts)) for handle, before in changed)
    yield "a full disk leaves whole lines", is_full and 0 < len(changed) < len(texts) and are_whole and fields[-1][2] == "10/room"


def of_servers():
    if b"--history" not in subprocess.run([servers.HANDLED, "serve", "--help"], capture_output=True, check=False).stdout:
        yield "handled serve --history", False
        return
    with tempfile.TemporaryDirectory() as folder:
        yield from full(folder)
    for options in ((), ("--table", "handles.db")):
        with tempfile.TemporaryDirectory() as folder:
            for name, holds in served(folder, [os.path.join(folder, word) if word.endswith(".db") else word for word in options]):
                yield "%s %s" % (name, " ".join(options)), holds


if __name__ == "__main__":
    sys.exit(servers.tally(itertools.chain(typed(), words(), by_hand(), of_servers())))

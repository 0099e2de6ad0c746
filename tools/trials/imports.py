"""imports.py: imports CSV files by the proved program crates/hdl/out/hdl (`hdl import`, `hdl replace`, `hdl export`) into the program crates/handled/out/handled, and compares what it says, its exit status, and the octets of
what is resolved afterwards: whole files, each fault of a row told with its line while the others go on, files that are imported again or whose import was killed on the way, updates with what they
change and leave, warnings of addresses that lead nowhere, URLs that are replaced and brought back, values that are exported and read back, keys that are refused, and a server that goes away. A dry update is asked of a server that counts by their codes the requests that it gets. Its last line is 'N passed, M failed', a case counting one."""

import contextlib
import itertools
import json
import os
import re
import socket
import subprocess
import sys
import tempfile
import threading
import time

# nothing is left beside the tools
sys.dont_write_bytecode = True
from lib import repository, servers, wire

# What the gate reads of it (tools/build/parts.py).
GATE = {"leaves_out": "its case of 11,000 handles, which takes minutes"}
PROGRAM = os.environ.get("HDL", repository.program("hdl"))
SECRET = "never-shown"
KEY = "300:0.NA/10"
OPEN, KEPT = 0x0E, 0x0C
# How many handles the large file has: several parts of a thousand.
MANY = 11_000


def administrator(index=100, mask=b"\x0f\xff"):
    return wire.value(index, b"HS_ADMIN", wire.administrator(b"0.NA/10", 300, mask), OPEN, 86400)


def url(index, data, ttl=86400, permission=OPEN):
    return wire.value(index, b"URL", data, permission, ttl)


def tenants(port):
    rows = [(b"0.NA/10", administrator()), (b"0.NA/10", wire.value(300, b"HS_SECKEY", SECRET.encode(), KEPT, 86400))]
    return wire.tenants(["publisher acme 8 %d" % port, "prefix 10 acme"], rows)


def run(port, octets, key=KEY, secret=SECRET, more=()):
    """The exit status and both outputs of an import of these octets."""
    with tempfile.NamedTemporaryFile(suffix=".csv") as file:
        file.write(octets)
        file.flush()
        words = [PROGRAM, "import", "--csv", file.name, "--key", key, "--server", "127.0.0.1:%d" % port, *more]
        done = subprocess.run(words, stdin=subprocess.DEVNULL, env={**os.environ, "HDL_SECRET": secret}, capture_output=True, check=False, timeout=60 * servers.SLOWER)
    assert SECRET.encode() not in done.stdout + done.stderr
    return done.returncode, done.stdout.decode(), done.stderr.decode()


def values_of(client, handle):
    """The values of a handle as a list of octets, without their moments; None where it is absent."""
    code, body = client.asked(wire.resolution(handle))
    if code != wire.SUCCESS:
        return None
    count, at, found = int.from_bytes(body[4 + len(handle):8 + len(handle)], "big"), 8 + len(handle), []
    for _ in range(count):
        end = at + 4
        for _ in range(2):
            end += 4 + int.from_bytes(body[end:end + 4], "big")
        found.append(body[at:end + 6] + bytes(12))
        at = end + 18
    return found


def client_of(port):
    return servers.Client(port, secret=SECRET.encode())


def are_there(port, wanted):
    """Whether each of these handles has just these values."""
    with client_of(port) as client:
        for handle, values in wanted.items():
            found = values_of(client, handle)
            if found != values:
                print("%s has %s and not %s" % (handle, found, values))
                return False
    return True


# Columns in another order and one more, a byte order mark, lines that end with CR LF, an empty line, fields in quotes, and a last line without an end.
WHOLE = (
    "\ufefftype,handle,note,ttl,data\r\n"
    "URL,10/a,,86400,https://example.org/a\r\n"
    "EMAIL,10/a,,600,archive@example.org\r\n"
    "\r\n"
    'TITLE,10/b,"x, y",0,"Of ""quotes"", and commas"\r\n'
    "URL,10/\u00fc,,86400,https://example.org/\u00fc\r\n"
    "HS_ADMIN,10/own,,86400,300:110000000000:0.NA/10\r\n"
    "HS_VLIST,10/own,,86400,300:0.NA/10 301:0.NA/10"
).encode()
WHOLE_VALUES = {
    b"10/a": [url(1, b"https://example.org/a"), wire.value(2, b"EMAIL", b"archive@example.org", OPEN, 600), administrator()],
    b"10/b": [wire.value(1, b"TITLE", b'Of "quotes", and commas', OPEN, 0), administrator()],
    "10/\u00fc".encode(): [url(1, "https://example.org/\u00fc".encode()), administrator()],
    b"10/own": [administrator(1, b"\x00\x03"), wire.value(2, b"HS_VLIST", wire.listed([wire.reference(b"0.NA/10", 300), wire.reference(b"0.NA/10", 301)]), OPEN, 86400)],
}

# Indexes and permissions by their columns: an administrator is added at the first index from 100 on that is free.
PLACED = b"""handle,index,type,data,ttl,permissions
10/placed,100,URL,https://example.org/,86400,1110
10/placed,101,NOTE,kept,4294967295,1100
10/placed,7,URL,https://example.org/7,0,1111
"""
PLACED_VALUES = {b"10/placed": [url(7, b"https://example.org/7", 0, 0x0F), url(100, b"https://example.org/"), wire.value(101, b"NOTE", b"kept", KEPT, 4294967295), administrator(102)]}


def whole(port):
    """What files say is there, and nothing else is said."""
    yield "a file", run(port, WHOLE) == (0, "4 created, 0 there already, 0 failed\n", "") and are_there(port, WHOLE_VALUES)
    yield "indexes and permissions", run(port, PLACED) == (0, "1 created, 0 there already, 0 failed\n", "") and are_there(port, PLACED_VALUES)
    yield "no TTL", run(port, b"handle,type,data\n10/day,URL,https://example.org/\n") == (0, "1 created, 0 there already, 0 failed\n", "") and are_there(port, {b"10/day": [url(1, b"https://example.org/"), administrator()]})
    # as spreadsheets write it where a comma is the decimal mark: semicolons, words of the header in any letters, and rows of nothing
    excel = b"\xef\xbb\xbfHandle;Type;DATA;ttl\r\n10/excel;URL;https://example.org/a,b;60\r\n;;;\r\n10/excel;TITLE;\"a; b\";\r\n;;;\r\n"
    values = [url(1, b"https://example.org/a,b", 60), wire.value(2, b"TITLE", b"a; b", OPEN, 3600), administrator()]
    yield "a spreadsheet's file", run(port, excel, more=["--ttl", "3600"]) == (0, "1 created, 0 there already, 0 failed\n", "") and are_there(port, {b"10/excel": values})
    yield "a TTL for all", run(port, b"handle,type,data\n10/ttl,NOTE,a\n", more=["--ttl", "0"]) == (0, "1 created, 0 there already, 0 failed\n", "") and are_there(port, {b"10/ttl": [wire.value(1, b"NOTE", b"a", OPEN, 0), administrator()]})
    near = "warning: line 2: 10/near: the type is URL in letters of another case, so no browser is led there: write URL\n1 created, 0 there already, 0 failed; warnings: 1\n"
    yield "a type that is nearly URL", run(port, b"handle,type,data\n10/near,Url,https://example.org/\n") == (0, near, "")
    yield "the header alone", run(port, b"handle,type,data,ttl\n") == (0, "0 created, 0 there already, 0 failed\n", "")


def again(port):
    """What is there with its values counts as done, and what is there with others doesn't."""
    yield "the same file", run(port, WHOLE) == (0, "0 created, 4 there already, 0 failed\n", "") and are_there(port, WHOLE_VALUES)
    yield "values that aren't for everybody", run(port, PLACED) == (0, "0 created, 1 there already, 0 failed\n", "")
    changed = WHOLE.replace(b"archive@", b"other@").replace(b'"x, y",0', b'"x, y",1') + b"\r\nURL,10/later,,86400,https://example.org/later\r\n"
    said = ("line 2: 10/a: 101 handle already exists, with other values: --update --dry-run shows them\n"
            "line 5: 10/b: 101 handle already exists, with other values: --update --dry-run shows them\n1 created, 2 there already, 2 failed\n")
    later = {b"10/later": [url(1, b"https://example.org/later"), administrator()]}
    yield "a file that was changed", run(port, changed) == (1, said, "") and are_there(port, {**WHOLE_VALUES, **later})


HEAD = "handle,index,type,data,ttl,permissions"
GOOD = "10/good%d,1,URL,https://example.org/,86400,1110"
QUOTE = "a quote isn't closed: put a field with a quote into quotes, and double its own quotes"
FIELDS = "the line has more or fewer fields than the header: put a field with a comma or semicolon into quotes"
RETURN = "the line contains a CR: end lines with LF or CR LF"
TEXT = "the data isn't text on one line"
EMPTY = "the data is empty: fill in the field `data`, or create such a value with `hdl batch`"
SPACE = "the data begins or ends with a space: take it out"
MANY_VALUES = "the handle has more than 256 values: create it with some, and add the others with `hdl batch`"
# Of a faulty handle: its rows, and which of them is told with which words.
FAULTS = (
    (["10/f1,1,URL,https://example.org/,99999999999,1110"], 0, "the TTL isn't a whole number from 0 to 4294967295"),
    (["10/f2,0,URL,https://example.org/,1,1110"], 0, "the value's index is 0"),
    (["10/f3,one,URL,https://example.org/,1,1110"], 0, "the index isn't a number"),
    (["10/f4,1,two words,https://example.org/,1,1110"], 0, "the type is empty, or has a space or other than graphic ASCII characters"),
    (["10/f5,1,,https://example.org/,1,1110"], 0, "the type is empty, or has a space or other than graphic ASCII characters"),
    (["10/f6,1,URL,https://example.org/,1,111"], 0, "the permissions aren't four digits 0 or 1"),
    (["10/f7,1,URL,,1,1110"], 0, EMPTY),
    (["10/f8,1,URL, https://example.org/,1,1110"], 0, SPACE),
    (["10/f24,1,URL,https://example.org/ ,1,1110"], 0, SPACE),
    (["10/f9,1,URL,a\x1b[2J,1,1110"], 0, TEXT),
    (["10/f10,1,URL," + "x" * 32769 + ",1,1110"], 0, "the value's data is too long"),
    (["10/f11,1,URL,https://example.org/a,b,1,1110"], 0, FIELDS),
    (["10/f12,1,URL"], 0, FIELDS),
    (['10/f13,1,URL,"https://example.org/,1,1110'], 0, QUOTE),
    (["10/f17,1,URL,https://example.org/,1,1110\r10/f18,1,URL,https://example.org/,1,1110"], 0, RETURN),
    (["10/f14,1,HS_ADMIN,300:0.NA/10,1,1110"], 0, "the data isn't INDEX:MASK:HANDLE, the mask of twelve digits 0 or 1"),
    (["10/f15,1,HS_VLIST,300,1,1110"], 0, "the data isn't INDEX:HANDLE and more of them"),
    (["10/f16,1,HS_SECKEY,a secret,1,1100"], 0, "an HS_SECKEY value is refused in a CSV file: create it with `hdl batch`"),
    (["10,1,URL,https://example.org/,1,1110"], 0, "the name has no slash"),
    ([",1,URL,https://example.org/,1,1110"], 0, "the row has no handle"),
    (["10/\x1b[2J,1,URL,https://example.org/,x,1110"], 0, "the TTL isn't a whole number from 0 to 4294967295"),
    # the rows of one handle: none of them is imported
    (["10/f20,1,URL,https://example.org/,1,1110", "10/f20,2,URL,https://example.org/,x,1110"], 1, "the TTL isn't a whole number from 0 to 4294967295"),
    (["10/f21,1,URL,https://example.org/,1,1110", "10/f21,1,URL,https://example.org/,1,1110"], 0, "two rows of the handle have the same index"),
    (["10/f22,%d,NOTE,a,1,1110" % index for index in range(1, 257)], 0, MANY_VALUES),
    (["10/f23,%d,NOTE,%s,1,1110" % (index, "x" * 30000) for index in (1, 2, 3)], 0, "the request has more than 65536 octets"),
    # what the service says
    (["20/f,1,URL,https://example.org/,1,1110"], 0, "302 service referral: this port doesn't serve the prefix: name its publisher's port by --server"),
    (["0.NA/10.5,1,URL,https://example.org/,1,1110"], 0,
     "5 operation denied: a server with --read-only takes no changes: name the one that does by --server. No server creates or deletes a handle under 0.NA"),
)


def handle_of(row):
    return row.split(",")[0].replace("\x1b", "\\u{1b}")


def faults(port):
    """Each fault is told with its line and its handle, nothing of that handle is there, and all other handles are."""
    lines, said, good = [HEAD], [], {}
    for number, (rows, at, words) in enumerate(FAULTS):
        said.append("line %d: %s: %s" % (len(lines) + 1 + at, handle_of(rows[at]), words))
        lines += rows + [GOOD % number]
        good[b"10/good%d" % number] = [url(1, b"https://example.org/"), administrator()]
    status, out, err = run(port, "\n".join(lines).encode() + b"\n")
    told, err = out.splitlines(), re.sub(r"hdl: \d+ of \d+ rows\n", "", err)
    yield "faults", (status, err, sorted(told[:-1]), told[-1]) == (1, "", sorted(said), "%d created, 0 there already, %d failed" % (len(good), len(FAULTS)))
    for missing in sorted(set(said) - set(told)):
        print("not said: %s" % missing)
    for other in sorted(set(told[:-1]) - set(said)):
        print("said: %s" % other)
    yield "what is good beside faults", are_there(port, good)
    with client_of(port) as client:
        yield "nothing of what is faulty", all(values_of(client, rows[0].split(",")[0].encode()) is None for rows, _, _ in FAULTS)
    octets = b"handle,type,data,ttl\n10/\xff,NOTE,a,1\n10/latin,TITLE,\xfc,1\n"
    yield "octets that are no UTF-8", run(port, octets) == (1, "line 2: 31302fff: the name is not UTF-8\nline 3: 10/latin: the data isn't UTF-8: save the file as CSV UTF-8\n0 created, 0 there already, 2 failed\n", "")


COLUMN = "hdl: line 1: the header lacks the column %s: it needs handle, type and data, and may have ttl, index and permissions, with commas or semicolons between\n"
SPACES = "hdl: line 1: spaces stand around the name of the column %s: take them out\n"


def unsent(port):
    """Nothing is sent where the file or the key can't be read: nobody listens here."""
    yield "an empty file", run(port, b"") == (2, "", COLUMN % "handle")
    yield "a header without a column", run(port, b"handle,type,ttl\n10/a,URL,1\n") == (2, "", COLUMN % "data")
    yield "semicolons and commas", run(port, b"handle;type;data;a note, or none\n") == (2, "", COLUMN % "handle")
    yield "tabs", run(port, b"handle\ttype\tdata\tttl\r\n") == (2, "", "hdl: line 1: the columns are separated by tabs: save the file as CSV with commas\n")
    yield "UTF-16", run(port, "\ufeffhandle,type,data\r\n".encode("utf-16-le")) == (2, "", "hdl: line 1: the file is UTF-16: save it as CSV UTF-8\n")
    for head, name in ((b"handle , type,data", "handle"), (b"handle, type,data,ttl", "type"), (b"handle;type;data;ttl; Index", "index")):
        yield "a column's name that is nearly right", run(port, head + b"\n") == (2, "", SPACES % name)
    yield "lines that end with CR", run(port, b"handle,type,data,ttl\r10/a,URL,a,1\r") == (2, "", "hdl: line 1: %s\n" % RETURN)
    yield "a column twice", run(port, b"handle,type,data,ttl,Data\n") == (2, "", "hdl: line 1: the header names the column data twice\n")
    for ttl in ("", "a day", "+1", "4294967296"):
        yield "a TTL that is none", run(port, WHOLE, more=["--ttl", ttl]) == (2, "", "hdl: --ttl isn't a number of seconds below 4294967296\n")
    yield "a key that is none", run(port, WHOLE, key="10/a") == (2, "", "hdl: a key isn't INDEX:HANDLE, such as 300:0.NA/10\n")
    yield "no secret", run(port, WHOLE, secret="") == (2, "", "hdl: the secret is missing: set HDL_SECRET, or write it on the first line of standard input, or, in a batch, on the line after AUTHENTICATE\n")
    done = subprocess.run([PROGRAM, "import", "--csv", "/none/file.csv", "--key", KEY], capture_output=True, check=False, text=True, env={**os.environ, "HDL_SECRET": SECRET})
    yield "no file", (done.returncode, done.stdout, done.stderr) == (2, "", "hdl: /none/file.csv: the file can't be read: No such file or directory (os error 2): check --csv\n")
    status, out, err = run(port, WHOLE)
    yield "no server", (status, out) == (3, "0 created, 0 there already, 0 failed\n") and bool(re.fullmatch(r"hdl: 127\.0\.0\.1:\d+: nothing listens there: .*; start again with the same file: .*\n", err))
    yield "a dry run", run(port, WHOLE, more=["--dry-run"], secret="") == (0, "4 could be created, 0 failed; %s\n" % UNASKED, "")
    faulty = b"handle,type,data,ttl\n10/a,NOTE,a,x\n10/b,NOTE,b,1\n"
    yield "a dry run of faults", run(port, faulty, more=["--dry-run"]) == (1, "line 2: 10/a: the TTL isn't a whole number from 0 to 4294967295\n1 could be created, 1 failed; %s\n" % UNASKED, "")
    yield "a dry run of a faulty header", run(port, b"handle\n", more=["--dry-run"]) == (2, "", COLUMN % "type")


UNASKED = "nothing was sent, so it isn't known which exist: --update --dry-run asks"
REFUSED = "hdl: the server refuses the key: check --key and its secret; later rows were not tried\n"
RIGHTS = "400 not authorized: the key of --key is no administrator of 0.NA/10 who may do this: `hdl resolve 0.NA/10 --type HS_ADMIN` names them; if none is there, see docs/FILE.md, \"If a key is lost\""


def keys(port):
    """A key that the service doesn't take ends the import behind its first handle."""
    lines = ["handle,type,data,ttl"] + ["10/key%d,NOTE,a,1" % number for number in range(1500)]
    for name, words, code in (
        ("a wrong secret", {"secret": "wrong"}, "403 authentication failed: the secret isn't that of the key: check HDL_SECRET"),
        ("no such key", {"key": "7:0.NA/10"}, RIGHTS),
    ):
        status, out, err = run(port, "\n".join(lines).encode(), **words)
        told = out.splitlines()
        count = 1 if code.startswith("403") else 1500
        good = told[0] == "line 2: 10/key0: " + code and told[-1] == "0 created, 0 there already, %d failed" % count and len(told) == count + 1
        # a slow program says how far it is
        yield name, good and (status, re.sub(r"hdl: \d+ of 1500 rows\n", "", err)) == (1, REFUSED if count == 1 else "")


READ_ONLY = "hdl: the server takes no changes (--read-only): name the one that does by --server; later %s were not tried\n"
DENIED = "5 operation denied: %sname the one that does by --server%s\n"


def read_only(port):
    """A server that takes no changes ends an import, an update and a replacement behind the first change."""
    rows = b"handle,type,data,ttl\n" + b"".join(b"10/denied%d,NOTE,a,1\n" % number for number in range(1500))
    denied = DENIED % ("a server with --read-only takes no changes: ", ". No server creates or deletes a handle under 0.NA")
    yield "an import", run(port, rows) == (1, "line 2: 10/denied0: " + denied + "0 created, 0 there already, 1 failed\n", READ_ONLY % "rows")
    denied = DENIED % ("this server takes no changes (--read-only): ", "")
    rows = b"handle,type,data,ttl\n10/same,URL,%s1,1\n10/one,URL,https://b/,1\n10/two,URL,https://b/,1\n" % OLD.encode()
    yield "an update", update(port, rows) == (1, "line 3: 10/one: " + denied + "0 created, 0 changed, 1 there already, 1 failed\n", READ_ONLY % "rows")
    status, out, err = hdl(port, "replace", "10", OLD, NEW)
    yield "a replacement", (status, out, err) == (1, "10/one: %s0 changed, 0 have no such URL, 1 failed\n" % denied, READ_ONLY % "handles")


def standby():
    """The cases of a server that takes no changes, over a table with three handles."""
    def text(port):
        rows = [(name, value) for name in (b"10/one", b"10/same", b"10/two") for value in (url(1, OLD.encode() + b"1", 1), administrator())]
        return tenants(port) + wire.text(wire.value_line(*row) for row in rows)
    with tempfile.TemporaryDirectory() as folder:
        table = os.path.join(folder, "table.db")
        with servers.serving(text, 1, options=("--table", table)):
            pass
        with servers.serving(text, 1, options=("--table", table, "--read-only")) as (port,):
            yield from read_only(port)


def spaces(port):
    """A name with a space is imported, and it is said that no text says it."""
    said = "warning: line 2: 10/two words: the name has a space or line feed, and no export takes the handle along: choose a name without one, such as 10/two-words\n"
    rows = b"handle,type,data,ttl\n10/two words,NOTE,a,1\n"
    yield "a dry run of a space", run(port, rows, more=["--dry-run"]) == (0, said + "1 could be created, 0 failed; %s; warnings: 1\n" % UNASKED, "")
    yield "a space", run(port, rows) == (0, said + "1 created, 0 there already, 0 failed; warnings: 1\n", "")


NO_SCHEME = "warning: line %d: %s: the address begins with neither https:// nor http://, so no browser is led there: write it whole, such as https://example.org/\n"


def addresses(port):
    """A URL to which no browser is led is imported, and it is said which row has it; the other schemes that are followed are good, in any letters."""
    rows = b"handle,type,data\n10/n1,URL,https://example.org/1\n10/n1,URL,www.example.org/n1\n10/n2,URL,HTTP://example.org/\n10/n3,URL,mailto:a@example.org\n10/n4,URL,ftp://example.org/\n10/n5,URL,doi:10.5/a\n10/n6,URL,javascript:1\n10/n7,NOTE,www.example.org\n"
    said = NO_SCHEME % (3, "10/n1") + NO_SCHEME % (8, "10/n6")
    yield "a dry run of addresses", run(port, rows, more=["--dry-run"]) == (0, said + "7 could be created, 0 failed; %s; warnings: 2\n" % UNASKED, "")
    status, out, err = update(port, rows, "--dry-run")
    yield "a dry update of addresses", (status, err) == (0, "") and "".join(line for line in out.splitlines(True) if line.startswith("warning: ")) == said and out.endswith("\n7 would be created, 0 changed, 0 there already, 0 failed; only questions were sent; warnings: 2\n")
    yield "addresses without a scheme", run(port, rows) == (0, said + "7 created, 0 there already, 0 failed; warnings: 2\n", "") and are_there(port, {
        b"10/n1": [url(1, b"https://example.org/1"), url(2, b"www.example.org/n1"), administrator()]})
    semicolons = b"handle;type;data\n10/n8;URL;www.example.org/n8\n"
    yield "the same with semicolons", run(port, semicolons) == (0, NO_SCHEME % (2, "10/n8") + "1 created, 0 there already, 0 failed; warnings: 1\n", "")
    line = "7 URL 60 1110 UTF8 www.example.org/n2"
    said = NO_SCHEME[:-1].replace("line %d: %s", "value with index 7") + "\n"
    for command in ("add", "modify"):
        status, out, err = hdl(port, command, "10/n2", line)
        yield "hdl " + command, (status, err) == (0, said) and out.endswith("1 success\n")
    status, _, err = hdl(port, "create", "10/n two", "100 HS_ADMIN 60 1110 ADMIN 300:111111111111:0.NA/10", line, "8 url 60 1110 UTF8 https://example.org/", "9 URL 60 1110 UTF8 https://example.org/")
    named = "warning: the name has a space or line feed, and no export takes the handle along: choose a name without one, such as 10/two-words\n"
    yield "hdl create", (status, err) == (0, named + said + "warning: value with index 8: the type is URL in letters of another case, so no browser is led there: write URL\n")
    yield "a refusal without warnings", hdl(port, "add", "10/n2", line)[2] == "hdl: 201 value already exists: a value with an index that exists is changed by `hdl modify`\n"


def apart(port):
    """Rows of one handle that stand apart are told with both lines, and nothing is sent: nobody listens there."""
    rows = b"handle,type,data\n10/p,NOTE,1\n\n10/p,NOTE,2\n10/q,NOTE,3\n10/r,NOTE,4\n10/q,NOTE,5\n10/p,NOTE,6\n10/p,NOTE,7\n"
    said = "line %d: 10/%s: the rows of the handle begin at line %d, and other handles stand between\n"
    end = "hdl: nothing was sent: put the rows of each handle together, as by sorting the file by the column handle\n"
    for more in ([], ["--dry-run"], ["--update"], ["--update", "--dry-run"]):
        yield " ".join(["a handle twice", *more]), run(port, rows, more=more, secret="") == (2, said % (7, "q", 5) + said % (8, "p", 2), end)


LONG_LIST = ("hdl: 2 error: more handles than fit into one reply (65,536 octets). The server's operator can list all: `handled copy --table FILE --to COPY`, then "
             "`handled export --table COPY < TENANTS`\n")


def large_file():
    rows = ["10/m%06d,URL,https://example.org/%d,86400" % (number, number) for number in range(MANY)]
    return "\n".join(["handle,type,data,ttl", *rows]).encode() + b"\n"


def wait_for(port, handle, process):
    """Waits until the handle is there or the process has ended."""
    with client_of(port) as client:
        while process.poll() is None and client.asked(wire.resolution(handle))[0] != wire.SUCCESS:
            time.sleep(0.01)


def killed(port):
    """An import that is killed on the way goes on where it stopped, once it is started again."""
    with tempfile.NamedTemporaryFile(suffix=".csv") as file:
        file.write(large_file())
        file.flush()
        words = [PROGRAM, "import", "--csv", file.name, "--key", KEY, "--server", "127.0.0.1:%d" % port]
        with subprocess.Popen(words, stdin=subprocess.DEVNULL, stdout=subprocess.DEVNULL, stderr=subprocess.DEVNULL, env={**os.environ, "HDL_SECRET": SECRET}) as process:
            wait_for(port, b"10/m000000", process)
            process.kill()
    status, out, err = run(port, large_file())
    found = re.fullmatch(r"(\d+) created, (\d+) there already, 0 failed\n", out)
    yield "an import that was killed", bool(found) and status == 0 and int(found[1]) + int(found[2]) == MANY and int(found[1]) > 0 and int(found[2]) > 0
    yield "no more than progress beside it", bool(re.fullmatch(r"(hdl: \d+ of %d rows\n)*" % MANY, err))
    listed = subprocess.run([PROGRAM, "list", "10", "--key", KEY, "--server", "127.0.0.1:%d" % port], capture_output=True, check=False, text=True, env={**os.environ, "HDL_SECRET": SECRET})
    yield "more handles than a list says", (listed.returncode, listed.stdout, listed.stderr) == (1, ";; reply to list 2, session 1: 2 error\n", LONG_LIST)
    looked = range(0, MANY, 97)
    yield "all are there", are_there(port, {b"10/m%06d" % number: [url(1, b"https://example.org/%d" % number), administrator()] for number in looked})


# A handle that is there, rows that are wanted of it and of others, and what is there afterwards: the value with index 2 isn't named, and stays.
KNOWN = [url(1, b"https://example.org/old", 600), wire.value(2, b"EMAIL", b"archive@example.org", OPEN, 600), wire.value(3, b"NOTE", b"kept", KEPT, 60), administrator()]
WANTED = b"""handle,index,type,data,ttl,permissions
10/known,1,URL,https://example.org/new,600,1110
10/known,3,NOTE,kept,60,1100
10/known,7,TITLE,A title,60,1110
10/same,1,URL,https://example.org/same,60,1110
10/unknown,5,URL,https://example.org/unknown,60,1110
"""
STEPS = ("line 2: 10/known: %s\n- 1 URL 600 1110 UTF8 https://example.org/old\n+ 1 URL 600 1110 UTF8 https://example.org/new\n"
         "line 2: 10/known: %s\n+ 7 TITLE 60 1110 UTF8 A title\n")
SENT = "would be created, 1 changed, 1 there already, 0 failed; only questions were sent\n"


def create(port, handle, values):
    with client_of(port) as client:
        assert client.asked(wire.message(wire.CREATE, wire.string(handle) + wire.listed(values)))[0] == wire.SUCCESS


def update(port, octets, *more):
    return run(port, octets, more=["--update", *more])


def updates(port):
    """What differs is changed, what lacks is added, what isn't named stays, and each is said."""
    create(port, b"10/known", KNOWN)
    create(port, b"10/same", [url(1, b"https://example.org/same", 60), administrator()])
    before = {b"10/known": KNOWN, b"10/unknown": None}
    told = STEPS % ("would be changed", "would be added")
    yield "a dry update", update(port, WANTED, "--dry-run") == (0, told + "line 6: 10/unknown: would be created\n1 " + SENT, "") and are_there(port, before)
    after = {b"10/known": [url(1, b"https://example.org/new", 600), *KNOWN[1:3], wire.value(7, b"TITLE", b"A title", OPEN, 60), KNOWN[3]],
             b"10/same": [url(1, b"https://example.org/same", 60), administrator()], b"10/unknown": [url(5, b"https://example.org/unknown", 60), administrator()]}
    yield "an update", update(port, WANTED) == (0, STEPS % ("changed", "added") + "1 created, 1 changed, 1 there already, 0 failed\n", "") and are_there(port, after)
    yield "the same update again", update(port, WANTED) == (0, "0 created, 0 changed, 3 there already, 0 failed\n", "") and are_there(port, after)
    # a file without ttl and permissions says nothing of them
    place = b"handle,index,type,data\n10/known,1,URL,https://example.org/newer\n10/known,3,NOTE,secret no more\n"
    newer = {b"10/known": [url(1, b"https://example.org/newer", 600), KNOWN[1], wire.value(3, b"NOTE", b"secret no more", KEPT, 60), *after[b"10/known"][3:]]}
    said = ("line 2: 10/known: changed\n- 1 URL 600 1110 UTF8 https://example.org/new\n+ 1 URL 600 1110 UTF8 https://example.org/newer\n"
            "- 3 NOTE 60 1100 UTF8 kept\n+ 3 NOTE 60 1100 UTF8 secret no more\n0 created, 1 changed, 0 there already, 0 failed\n")
    yield "what no column says stays", update(port, place) == (0, said, "") and are_there(port, newer)
    for words in ([], ["--ttl", "600"]):
        status, out, err = update(port, b"handle,index,type,data\n10/known,7,TITLE,A title\n", *words)
        yield "a TTL that is given is wanted", (status, out.splitlines()[-1], err) == (0, "0 created, %d changed, %d there already, 0 failed" % ((1, 0) if words else (0, 1)), "")


def refusals(port):
    """What an update doesn't change."""
    create(port, b"10/typed", [wire.value(1, b"TITLE", b"A title", OPEN, 60), wire.value(2, b"HS_SECKEY", SECRET.encode(), KEPT, 60), administrator()])
    create(port, b"10/hidden", [url(1, b"https://example.org/", 60, 0x00), administrator()])
    create(port, b"10/other", [url(1, b"https://example.org/", 60), administrator(100, b"\x00\x01")])
    before = {b"10/typed": None, b"10/other": [url(1, b"https://example.org/", 60), administrator(100, b"\x00\x01")]}
    with client_of(port) as client:
        before[b"10/typed"] = values_of(client, b"10/typed")
    yield "another type", update(port, b"handle,type,data\n10/typed,URL,https://a/\n") == (
        1, "line 2: 10/typed: the value with index 1 has another type: name the indexes in a column index\n0 created, 0 changed, 0 there already, 1 failed\n", "")
    yield "a key", update(port, b"handle,index,type,data\n10/typed,2,URL,https://a/\n") == (
        1, "line 2: 10/typed: the value with index 2 is a key: change it with `hdl batch`\n0 created, 0 changed, 0 there already, 1 failed\n", "")
    yield "a value that no one reads", update(port, b"handle,index,type,data\n10/hidden,1,URL,https://a/\n") == (1, "line 2: 10/hidden: 201 value already exists: a value with an index that exists is changed by `hdl modify`\n0 created, 0 changed, 0 there already, 1 failed\n", "")
    rows = b"handle,index,type,data,ttl\n10/other,1,URL,https://a/,60\n10/latest,1,URL,https://a/,60\n10/bad,1,URL,,60\n"
    said = "line 2: 10/other: 401 access denied\nline 4: 10/bad: %s\n1 created, 0 changed, 0 there already, 2 failed\n" % EMPTY
    yield "a key that may not", update(port, rows) == (1, said, "") and are_there(port, {**before, b"10/latest": [url(1, b"https://a/", 60), administrator()]})
    yield "a wrong secret", run(port, b"handle,index,type,data\n10/known,3,NOTE,x\n", secret="wrong", more=["--update"])[0] == 1


def questions():
    """A dry update sends nothing but questions, and answers to their challenges: a server counts what it gets, and says that nothing is there."""
    got = []
    with socket.create_server(("127.0.0.1", 0)) as listener:
        def serve():
            with listener.accept()[0] as stream, stream.makefile("rb") as octets:
                while envelope := octets.read(20):
                    message = octets.read(int.from_bytes(envelope[16:20], "big"))
                    got.append(int.from_bytes(message[:4], "big"))
                    stream.sendall(wire.frame(wire.message(got[-1], wire.number(0), wire.ABSENT), request=int.from_bytes(envelope[8:12], "big")))
        thread = threading.Thread(target=serve, daemon=True)
        thread.start()
        status, out, _ = update(listener.getsockname()[1], WANTED, "--dry-run")
        thread.join(10)
    yield "a dry update asks and no more", (status, got) == (0, [wire.RESOLVE] * 3) and out.endswith("\n3 would be created, 0 changed, 0 there already, 0 failed; only questions were sent\n")


def hdl(port, *words, key=KEY, secret=SECRET, given=b""):
    """The exit status and both outputs of another command, with a key and a server if it takes them."""
    asked = ["--key", key, "--server", "127.0.0.1:%d" % port] if port else []
    done = subprocess.run([PROGRAM, *words, *asked], input=given, env={**os.environ, "HDL_SECRET": secret}, capture_output=True, check=False, timeout=60 * servers.SLOWER)
    assert "--keys" in words or SECRET.encode() not in done.stdout + done.stderr
    return done.returncode, done.stdout.decode(), done.stderr.decode()


OLD, NEW = "https://old.example/", "https://new.example/x/"
# URLs that begin so, one that only has it further on, one of another type, and one with a comma and quotes.
MOVED = {
    b"10/move-1": [url(1, OLD.encode() + b"1", 600), url(2, b"https://example.org/?" + OLD.encode(), 60), wire.value(3, b"NOTE", OLD.encode(), OPEN, 60), administrator()],
    b"10/move-2": [url(4, OLD.encode() + b'a,"b";c', 60, KEPT), url(7, OLD.encode(), 0), administrator()],
    b"10/move-3": [url(1, b"https://example.org/", 60), administrator()],
    b"10/move-4": [wire.value(1, b"EMAIL", b"a@example.org", OPEN, 60), administrator()],
}


def moved(handle):
    """The same values afterwards, by their octets."""
    return [value if value[8:12] == b"NOTE" or OLD.encode() != value[15:15 + len(OLD)] else
            url(int.from_bytes(value[:4], "big"), NEW.encode() + value[15 + len(OLD):-18], int.from_bytes(value[-17:-13], "big"), value[-13]) for value in MOVED[handle]]


def replaces(port):
    """URLs that begin with the first text begin with the second, all else stays, and the file for undoing brings it back."""
    for handle, values in MOVED.items():
        create(port, handle, values)
    after = {handle: moved(handle) for handle in MOVED}
    assert sum(after[handle] != MOVED[handle] for handle in MOVED) == 2
    lines = ["10/move-1: %%s\n- 1 URL 600 1110 UTF8 %s1\n+ 1 URL 600 1110 UTF8 %s1\n" % (OLD, NEW),
             '10/move-2: %%s\n- 4 URL 60 1100 UTF8 %sa,"b";c\n+ 4 URL 60 1100 UTF8 %sa,"b";c\n- 7 URL 0 1110 UTF8 %s\n+ 7 URL 0 1110 UTF8 %s\n' % (OLD, NEW, OLD, NEW)]
    with tempfile.TemporaryDirectory() as room:
        undo, names = os.path.join(room, "undo.csv"), os.path.join(room, "names")
        with open(names, "wb") as file:
            file.write(b"10/move-1\r\n10/move-2\n\n10/move-3\n10/move-4\n")
        status, out, err = hdl(port, "replace", "10", OLD, NEW, "--dry-run", "--handles", names, "--undo", undo)
        end = "2 would be changed, 2 have no such URL, 0 failed; only questions were sent\n"
        yield "a dry replacement", (status, out, err, os.path.exists(undo)) == (0, "".join(line % "would be changed" for line in lines) + end, "", False) and are_there(port, MOVED)
        status, out, err = hdl(port, "replace", "0.NA/10", OLD, NEW, "--undo", undo)
        found = re.fullmatch(re.escape("".join(line % "changed" for line in lines)) + r"2 changed, (\d+) have no such URL, 0 failed\n", out)
        yield "a replacement of all that is listed", (status, err) == (0, "") and bool(found) and int(found[1]) > 2 and are_there(port, after)
        with open(undo, "rb") as file:
            kept = file.read()
        row = "handle,index,type,data,ttl,permissions\n10/move-1,1,URL,%s1,600,1110\n10/move-2,4,URL,\"%sa,\"\"b\"\";c\",60,1100\n10/move-2,7,URL,%s,0,1110\n"
        yield "the old values", kept == (row % (OLD, OLD, OLD)).encode()
        yield "a file that is there", hdl(port, "replace", "10", OLD, NEW, "--undo", undo)[::2] == (
            2, "hdl: the file for --undo can't be made: File exists (os error 17): name a file that isn't there\n")
        yield "the same again", hdl(port, "replace", "10", OLD, NEW, "--handles", names) == (0, "0 changed, 4 have no such URL, 0 failed\n", "") and are_there(port, after)
        yield "undone", update(port, kept)[::2] == (0, "") and are_there(port, MOVED)
        with open(names, "wb") as file:
            file.write(b"10/none\n20/a\nno handle\n")
        said = "10/none: 100 handle not found\n20/a: not a handle of this prefix\nno handle: not a handle of this prefix\n0 changed, 0 have no such URL, 3 failed\n"
        yield "handles that aren't there", hdl(port, "replace", "10", OLD, NEW, "--handles", names) == (1, said, "")
        yield "no file of handles", hdl(port, "replace", "10", OLD, NEW, "--handles", undo + ".none")[::2] == (2, "hdl: %s.none: the file of handles can't be read: No such file or directory (os error 2): check --handles\n" % undo)
        unused = undo + ".unused"
        status, out, err = hdl(port, "replace", "10", OLD, NEW, "--undo", unused, secret="wrong")
        yield "a wrong secret for a replacement", (status, out) == (1, "") and err.startswith("hdl: no list: 403 authentication failed: the secret isn't that of the key: check HDL_SECRET. A key may list if an HS_ADMIN value")
        yield "nothing to undo, and no file for it", not os.path.exists(unused)
        yield "nor after a replacement of nothing", hdl(port, "replace", "10", NEW + "none", NEW, "--handles", names, "--undo", unused)[0] == 1 and not os.path.exists(unused)
    slash = "warning: OLD ends with a slash and NEW doesn't, so addresses will be such as https://new.examplereport: write https://new.example/ if that isn't meant\n"
    for more, end in (["--dry-run"], "0 would be changed, 0 have no such URL, 1 failed; only questions were sent; warnings: 1\n"), ([], "0 changed, 0 have no such URL, 1 failed; warnings: 1\n"):
        with tempfile.NamedTemporaryFile() as names:
            names.write(b"10/none\n")
            names.flush()
            yield "a slash that is missing", hdl(port, "replace", "10", OLD, NEW[:19], "--handles", names.name, *more) == (1, slash + "10/none: 100 handle not found\n" + end, "")
    yield "nothing to replace", hdl(port, "replace", "10", "", NEW) == (2, "", "hdl: what is replaced is empty: say how the URLs begin\n")
    yield "no prefix", hdl(port, "replace", "10/a", OLD, NEW) == (2, "", "hdl: the prefix isn't one: write it as 10 or 0.NA/10\n")


# Beginnings by which an address that is followed becomes one that isn't, and some by which none does.
LOST = (("https://x.example/", "x.example/"), ("HTTP://x.example/", "www.x.example/"), ("https://x.example/?to=", ""), ("http", "https"), ("https:", "http"), ("https://", "http:/"),
        ("mailto:", "someone@"), ("h", "x"))
KEPT_SCHEMES = (("https://x.example/", "http://y.example/"), ("http:", "https:"), ("https", "http"), ("https://doi.org/", "doi:"), ("x.example/", "www.x.example/"), ("x.example/", "https://x.example/"),
                ("http://", "HTTPS://"), ("ht", "HT"))
LOSS = ("hdl: with NEW in the place of OLD some addresses would lose their http:// or https://, and no browser would be led there: "
        "write OLD and NEW with it, such as https://old.example/ and https://new.example/\n")


def beginnings(port):
    """A replacement after which a browser is led nowhere is refused before a secret is read or anything sent: nobody listens there."""
    for old, new in LOST:
        yield "from %s to %s" % (old, new), hdl(port, "replace", "10", old, new, secret="") == (2, "", LOSS)
    for old, new in KEPT_SCHEMES:
        status, out, err = hdl(port, "replace", "10", old, new)
        yield "from %s to %s" % (old, new), (status, out) == (3, "") and ": nothing listens there: " in err


# A text with values that rows say, one of octets that are no text, and a key.
EXPORTED = {
    b"10/e-1": [url(1, b"https://example.org/?a=1,2;3", 600), wire.value(2, b"TITLE", 'Of "quotes" \u0416'.encode(), KEPT, 0), administrator()],
    b"10/e,2": [wire.value(1, b"HS_VLIST", wire.listed([wire.reference(b"0.NA/10", 300)]), OPEN, 60), administrator()],
}
UNSAID = wire.value(9, b"PICTURE", b"\x00\xff", OPEN, 60)


def exports(port):
    """What is exported is read back as the same values, and no key is among it unless keys are asked for."""
    text = tenants(port) + wire.text(wire.value_line(handle, value) for handle, values in EXPORTED.items() for value in values)
    status, rows, err = hdl(None, "export", "--csv", given=text)
    yield "an export", (status, err) == (0, "hdl: 6 values written, 1 keys left out, 0 that a CSV row can't express\n") and len(rows.splitlines()) == 7
    yield "an export that is read back", run(port, rows.encode(), more=["--update"])[::2] == (0, "") and are_there(port, EXPORTED)
    yield "keys, if they are asked for", SECRET in hdl(None, "export", "--keys", given=text)[1]
    text += wire.text([wire.value_line(b"10/e-3", UNSAID)])
    status, rows, err = hdl(None, "export", given=text)
    yield "a value that no row can express", (status, err.splitlines()[0]) == (1, "hdl: 10/e-3: no row of a CSV file says the value with index 9: --json does") and len(rows.splitlines()) == 7
    status, objects, err = hdl(None, "export", "--json", given=text)
    found = [json.loads(line) for line in objects.splitlines()]
    wanted = [{"handle": "10/e-1", "index": 2, "type": "TITLE", "format": "UTF8", "data": 'Of "quotes" \u0416', "ttl": 0, "permissions": "1100"},
              {"handle": "10/e-3", "index": 9, "type": "PICTURE", "format": "HEX", "data": "00ff", "ttl": 60, "permissions": "1110"}]
    yield "an export as JSON", (status, len(found)) == (0, 7) and all(one in found for one in wanted)


def busy():
    """A server that answers each request busy: after ten of them no more is sent."""
    got = []
    with socket.create_server(("127.0.0.1", 0)) as listener:
        def serve():
            with listener.accept()[0] as stream, stream.makefile("rb") as octets:
                while envelope := octets.read(20):
                    message = octets.read(int.from_bytes(envelope[16:20], "big"))
                    got.append(int.from_bytes(message[:4], "big"))
                    stream.sendall(wire.frame(wire.short_reply(3), request=int.from_bytes(envelope[8:12], "big")))
        thread = threading.Thread(target=serve, daemon=True)
        thread.start()
        rows = b"handle,type,data,ttl\n" + b"".join(b"10/busy%d,NOTE,a,1\n" % number for number in range(1500))
        status, out, err = run(listener.getsockname()[1], rows)
        thread.join(10)
    said = "hdl: the server takes no changes now: its disk or memory may be full, or what this prefix may hold there: ask its operator; later rows were not tried; start again with the same file: handles that exist with these values count as done\n"
    yield "a server that stays busy", (status, got, err) == (1, [wire.CREATE] * 10, said) and out.endswith("\n0 created, 0 there already, 10 failed\n")


def slow():
    """A server that takes five seconds for two of twelve handles: after ten seconds it is said how many rows are done."""
    with socket.create_server(("127.0.0.1", 0)) as listener:
        def serve():
            with listener.accept()[0] as stream, stream.makefile("rb") as octets:
                for pause in (0, 0, 5.2, 5.2, *[0] * 8):
                    envelope = octets.read(20)
                    operation = int.from_bytes(octets.read(int.from_bytes(envelope[16:20], "big"))[:4], "big")
                    time.sleep(pause)
                    stream.sendall(wire.frame(wire.message(operation, b"", wire.SUCCESS), request=int.from_bytes(envelope[8:12], "big")))
        thread = threading.Thread(target=serve, daemon=True)
        thread.start()
        rows = b"handle,type,data,ttl\n" + b"".join(b"10/slow%d,NOTE,a,1\n10/slow%d,NOTE,b,1\n" % (number, number) for number in range(12))
        status, out, err = run(listener.getsockname()[1], rows)
        thread.join(10)
    yield "a slow server", (status, out) == (0, "12 created, 0 there already, 0 failed\n") and bool(re.fullmatch(r"(hdl: \d+ of 24 rows\n)+", err))


def closed():
    """A server that closes on the way."""
    with socket.create_server(("127.0.0.1", 0)) as listener:
        def serve():
            with listener.accept()[0] as stream:
                stream.recv(20)
        thread = threading.Thread(target=serve, daemon=True)
        thread.start()
        status, out, err = run(listener.getsockname()[1], WHOLE)
        thread.join(10)
    end = "; start again with the same file: handles that exist with these values count as done\n"
    yield "a server that goes away", (status, out) == (3, "0 created, 0 there already, 0 failed\n") and bool(re.match(r"hdl: 127\.0\.0\.1:\d+: the connection ", err)) and err.endswith(end)


def main():
    with contextlib.ExitStack() as stack:
        (port,) = stack.enter_context(servers.serving(tenants, 1))
        (nobody,) = servers.free_ports(1)
        # an unproved program takes minutes for so many handles
        large = [] if servers.IS_UNPROVED else killed(port)
        return servers.tally(itertools.chain(whole(port), again(port), faults(port), updates(port), refusals(port), replaces(port), exports(port), questions(), unsent(nobody), apart(nobody), beginnings(nobody),
                                              keys(port), spaces(port), addresses(port), standby(), large, slow(), busy(), closed()))


if __name__ == "__main__":
    sys.exit(main())

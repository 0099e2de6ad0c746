"""proxy_writes.py: changes handles through the proved program crates/hdl_web/out/hdl_web (`hdl proxy --writes`) as clients of Handle.Net's REST interface do, and compares whole
answers: of a real server behind it (the proved program crates/handled/out/handled), and of servers in this program that close or refuse in the middle of a change.

It takes some 12 seconds, of which most is waiting for a body that doesn't come. Its last line is 'N passed, M failed', a case counting one."""

import base64
import contextlib
import http.client
import json
import os
import re
import socket
import struct
import subprocess
import sys
import tempfile
import threading
import urllib.parse

# nothing is left beside the tools
sys.dont_write_bytecode = True
import openapi
from lib import repository, servers, wire

# What the gate reads of it (tools/build/parts.py).
GATE = {"alone": True}
PROGRAM = os.environ.get("PROXY", repository.program("hdl_web"))
SECRET = "never:shown/%25 \u00fc"
ADMIN = "300:0.NA/10"

READABLE = wire.ADMIN_READ | wire.ADMIN_WRITE | wire.PUBLIC_READ
KEPT = wire.ADMIN_READ | wire.ADMIN_WRITE
MAY_DO_ALL, MAY_ADD_HANDLES = b"\x0f\xff", b"\x00\x01"


def administered(handle):
    """Two administrators of a handle: one who may do everything, and one who may create handles alone."""
    for index, key, mask in ((100, 300, MAY_DO_ALL), (101, 301, MAY_ADD_HANDLES)):
        yield handle, wire.value(index, b"HS_ADMIN", wire.administrator(b"0.NA/10", key, mask), READABLE, 86400)


OPENING = (
    *administered(b"0.NA/10"),
    (b"0.NA/10", wire.value(300, b"HS_SECKEY", SECRET.encode(), KEPT, 86400)),
    (b"0.NA/10", wire.value(301, b"HS_SECKEY", b"weak", KEPT, 86400)),
    *administered(b"10/kept"),
    (b"10/kept", wire.value(1, b"URL", b"https://example.org/", READABLE, 86400)),
    (b"10/kept", wire.value(2, b"NOTE", b"kept", KEPT, 600)),
    # more handles than one reply says
    *administered(b"0.NA/30"),
    *((b"30/%d-%s" % (number, b"x" * 100), wire.value(1, b"NOTE", b"x", READABLE, 600)) for number in range(700)),
)


def tenants(port):
    return wire.tenants(["publisher acme 8 %d" % port, "prefix 10 acme", "prefix 30 acme"], OPENING)


def basic(user=ADMIN, secret=SECRET):
    """The field that such clients send: both parts percent-encoded, a colon between, in base64."""
    both = urllib.parse.quote(user) + ":" + urllib.parse.quote(secret)
    return "Basic " + base64.b64encode(both.encode()).decode()


KEY = basic()
# Each request and the status of its answer.
ANSWERED = set()


def ask(port, method, path, body=None, key=KEY):
    """The status, the fields and the body of an answer, as JSON where it is some."""
    fields = {"Content-Type": "application/json"}
    if key:
        fields["Authorization"] = key
    client = http.client.HTTPConnection("127.0.0.1", port, timeout=30)
    with contextlib.closing(client):
        client.request(method, path, body if body is None or isinstance(body, (bytes, str)) else json.dumps(body), fields)
        answer = client.getresponse()
        whole = answer.read()
    assert SECRET.encode() not in whole and urllib.parse.quote(SECRET).encode() not in whole
    told = dict((name.lower(), value) for name, value in answer.getheaders())
    ANSWERED.add((method, path, answer.status))
    return answer.status, told, json.loads(whole) if whole[:1] == b"{" else whole.decode()


def entry(index, kind, data, **more):
    return dict({"index": index, "type": kind, "data": data}, **more)


def text(shown):
    return {"format": "string", "value": shown}


ADMINISTRATOR = entry(100, "HS_ADMIN", {"format": "admin", "value": {"handle": "0.NA/10", "index": "300", "permissions": "111111111111"}})
SHOWN_ADMIN = {"format": "admin", "value": {"handle": "0.NA/10", "index": 300, "permissions": "111111111111"}}
URL = entry(1, "URL", "https://example.org/")


def done(handle):
    return {"handle": handle, "responseCode": 1}


def refused(handle, why, code, **more):
    return dict({"handle": handle, "message": why, "responseCode": code}, **more)


def shown(answer):
    """The values of an answer without their timestamps."""
    status, _, found = answer
    return status, [tuple(value.get(name) for name in ("index", "type", "data", "ttl", "permissions")) for value in found.get("values", ())]


NO_KEY = "A key is needed: send the field Authorization with Basic and INDEX:HANDLE as the user."
ABSENT = "This handle isn't there."
THERE = "This handle is there already."
NO_JSON = "the body isn't JSON, or it is nested too deep: `python3 -m json.tool` finds the place"
NO_ADMIN = "The key is no administrator of this handle, or, for a new one, of the prefix's 0.NA/PREFIX."
LACKS = "The key lacks a permission for this."
WRONG = "The secret isn't that of the key."
NO_VALUES = "The server refuses the values: a record has an HS_ADMIN value, and at most 1024 values."
SILENT = "The server sent no answer. The change may or may not have been made."
UNREACHED = "The server for changes can't be reached. Nothing was done."
ELSEWHERE = "None of the servers that were asked hosts this prefix."
WORDS = "The query has an unknown parameter. Nothing was done. A PUT takes overwrite, index and mintNewSuffix, a DELETE index."
ONCE = "overwrite, mintNewSuffix and auth are true or false, each given once."
MINTS = "mintNewSuffix creates a new handle, so index and overwrite=true are refused."
NONE_NEW = "All eight suffixes that were drawn exist already. Nothing was done."
STRANGE = "a value has a member other than index, type, data, ttl, permissions and timestamp, or its data has one that its format hasn't"
LONG_LIST = "The prefix has more handles than fit into one reply. The proxy's operator can give it a copy of the table: `handled copy`, then `--lists COPY`."
COPIED = "The prefix has more handles than fit into one reply: these are from a copy of the table."
RECORD = "The record can't be read: %s."

# Requests one after the other: method, path, body, key, and the status and body of the answer.
CHANGES = (
    ("PUT", "10/a", {"values": [ADMINISTRATOR, URL]}, None, 401, refused("10/a", NO_KEY, 402)),
    ("PUT", "10/a", {"values": [ADMINISTRATOR, URL]}, "Bearer x", 401, refused("10/a", "The field Authorization isn't Basic.", 404)),
    ("PUT", "10/a", [URL], "Basic !", 401, refused("10/a", "The field Authorization isn't base64 of a user, a colon and a secret.", 404)),
    ("PUT", "10/a", [URL], basic("10"), 401, refused("10/a", "The user of the field Authorization isn't INDEX:HANDLE with its colon written %3A, such as 300%3A0.NA/10.", 404)),
    ("PUT", "10/a", [URL], basic(secret=""), 401, refused("10/a", "The secret of the field Authorization is empty.", 404)),
    ("PUT", "10/a", {"values": [ADMINISTRATOR, URL]}, basic(secret="wrong"), 401, refused("10/a", WRONG, 403)),
    ("PUT", "10/a", {"values": [ADMINISTRATOR, URL]}, basic("302:0.NA/10"), 401, refused("10/a", NO_ADMIN, 400)),
    ("PUT", "10/a?overwrite=false", {"values": [ADMINISTRATOR, URL]}, KEY, 201, done("10/a")),
    ("PUT", "10/a?overwrite=false", {"values": [ADMINISTRATOR, URL]}, KEY, 409, refused("10/a", THERE, 101)),
    ("PUT", "10/a", {"values": [ADMINISTRATOR, entry("2", "EMAIL", text("a@example.org"), ttl="600")]}, KEY, 200, done("10/a")),
    ("PUT", "10/a?index=various", {"values": [entry(3, "HEX", {"format": "hex", "value": "00fF"}), entry(2, "EMAIL", "b@example.org")]}, KEY, 200, done("10/a")),
    ("PUT", "10/a?index=2&index=4&overwrite=true", [entry(4, "LIST", {"format": "base64", "value": "AP8="}, permissions="1100")], KEY, 200, done("10/a")),
    ("PUT", "10/a?index=5", entry(6, "NOTE", "x"), KEY, 400, refused("10/a", RECORD % "value 1: its index isn't among those that the address names", 202)),
    ("PUT", "10/a?index=4&overwrite=false", entry(4, "NOTE", "x"), KEY, 409, refused("10/a", "A value with this index exists already.", 201)),
    ("PUT", "10/a?index=5&overwrite=false", entry(5, "NOTE", "x"), KEY, 200, done("10/a")),
    ("DELETE", "10/a?index=5&index=3", None, KEY, 200, done("10/a")),
    ("DELETE", "10/a?index=5", None, KEY, 404, refused("10/a", "A value is missing, or the key may not read it.", 200)),
    ("PUT", "10/b", {"values": [URL]}, KEY, 400, refused("10/b", NO_VALUES, 202)),
    ("PUT", "10/none?index=various", {"values": [URL]}, KEY, 404, refused("10/none", ABSENT, 100)),
    ("PUT", "10/kept?index=1", {"values": [URL]}, basic("301:0.NA/10", "weak"), 403, refused("10/kept", LACKS, 401)),
    ("DELETE", "10/kept", None, basic("301:0.NA/10", "weak"), 403, refused("10/kept", LACKS, 401)),
    ("PUT", "20/a", {"values": [ADMINISTRATOR]}, KEY, 404, refused("20/a", ELSEWHERE, 100)),
    ("PUT", "ten", {"values": [ADMINISTRATOR]}, KEY, 400, refused("ten", "This is no handle: the name has no slash.", 102)),
    ("PUT", "10/a?overwrite=perhaps", [URL], KEY, 400, refused("10/a", ONCE, 102)),
    ("PUT", "10/a?overwrite=false&overwrite=true", [URL], KEY, 400, refused("10/a", ONCE, 102)),
    ("PUT", "10/a?mintnewsuffix=true", [URL], KEY, 400, refused("10/a", WORDS, 102)),
    ("PUT", "10/a?overwrite=true&pretty", [URL], KEY, 400, refused("10/a", WORDS, 102)),
    ("PUT", "10/a?auth=true", [URL], KEY, 400, refused("10/a", WORDS, 102)),
    ("DELETE", "10/a?overwrite=true", None, KEY, 400, refused("10/a", WORDS, 102)),
    ("DELETE", "10/a?type=EMAIL", None, KEY, 400, refused("10/a", WORDS, 102)),
    ("PUT", "10/a?mintNewSuffix=yes", [URL], KEY, 400, refused("10/a", ONCE, 102)),
    ("PUT", "10/a?mintNewSuffix=true&overwrite=true", [URL], KEY, 400, refused("10/a", MINTS, 102)),
    ("PUT", "10/a?mintNewSuffix=true&index=various", [URL], KEY, 400, refused("10/a", MINTS, 102)),
    ("DELETE", "10/a?index=x", None, KEY, 400, refused("10/a", "An index is a number below 4294967296.", 102)),
    ("POST", "10/a", [URL], KEY, 405, refused("/api/handles/10/a", "Use GET or HEAD to read a handle, PUT or DELETE to change it.", 5)),
)
# What 10/a has behind them, read with the key and without.
LEFT = [(2, "EMAIL", text("b@example.org"), 86400, None), (4, "LIST", {"format": "base64", "value": "AP8="}, 86400, "1100"), (100, "HS_ADMIN", SHOWN_ADMIN, 86400, None)]

# Bodies that are refused before anything is sent, and why.
BODIES = (
    ("{", NO_JSON),
    ("[" * 200, NO_JSON),
    (b'"\xff"', NO_JSON),
    ("7", "the body is neither a value, nor a list of values, nor an object with such a list as its values"),
    ({"values": 7}, "the body is neither a value, nor a list of values, nor an object with such a list as its values"),
    ({"values": []}, "the body has no value"),
    ([URL] * 257, "the body has more than 256 values"),
    ([URL, 7], "value 2: the index isn't a number below 4294967296"),
    ([entry(-1, "URL", "x")], "value 1: the index isn't a number below 4294967296"),
    ([entry("01", "URL", "x")], "value 1: the index isn't a number below 4294967296"),
    ([entry(4294967296, "URL", "x")], "value 1: the index isn't a number below 4294967296"),
    ([entry(0, "URL", "x")], "value 1: the value's index is 0"),
    ([entry(1, 7, "x")], "value 1: the type isn't text"),
    ([entry(1, "t" * 256, "x")], "value 1: the value's type is too long"),
    ([{"index": 1, "type": "URL"}], "value 1: the data is neither text nor a format and a value"),
    ([entry(1, "URL", {"format": "site", "value": "x"})], "value 1: the data's format isn't string, base64, hex, admin, vlist or key"),
    ([entry(1, "URL", {"format": "string", "value": 7})], "value 1: the data isn't text"),
    ([entry(1, "URL", {"format": "base64", "value": "A"})], "value 1: the data isn't base64"),
    ([entry(1, "URL", {"format": "hex", "value": "0"})], "value 1: the data isn't hexadecimal digits"),
    ([entry(1, "HS_ADMIN", {"format": "admin", "value": {"handle": "ten", "index": 1, "permissions": "0" * 12}})],
     "value 1: the data isn't an administrator: a handle, an index and twelve permissions"),
    ([entry(1, "HS_VLIST", {"format": "vlist", "value": [{"handle": "10/a"}]})], "value 1: the data isn't a list of a handle and an index each"),
    ([entry(1, "HS_ADMIN", "text")], "value 1: the value's data is no administrator"),
    ([entry(1, "URL", "x" * 32769)], "value 1: the value's data is too long"),
    ([entry(1, "URL", "x", ttl="soon")], "value 1: the TTL isn't a number of seconds below 4294967296"),
    ([entry(1, "URL", "x", permissions="111")], "value 1: the permissions aren't four digits 0 or 1"),
    ([URL, ADMINISTRATOR, entry(1, "TEXT", "x")], "value 1: its index is given twice"),
    ('[{"index": 1, "index": 2, "type": "URL", "data": "x"}]', "an object of it has a key twice"),
    ('{"values": [], "values": [{"index": 1, "type": "URL", "data": "x"}]}', "an object of it has a key twice"),
    ('[{"index": 1, "type": "URL", "data": {"format": "string", "value": "x", "\\u0076alue": "y"}}]', "an object of it has a key twice"),
    ({"values": [URL], "overwrite": True}, "the body has a member other than values, handle and responseCode"),
    ([ADMINISTRATOR, entry(1, "URL", "x", references=[])], STRANGE),
    ([entry(1, "URL", {"format": "string", "value": "x", "charset": "latin1"})], STRANGE),
    ([entry(1, "HS_ADMIN", {"format": "admin", "value": {"handle": "0.NA/10", "index": 1, "permissions": "0" * 12, "until": 1}})], STRANGE),
    ([entry(1, "HS_VLIST", {"format": "vlist", "value": [{"handle": "10/a", "index": 1}, {"handle": "10/a", "index": 2, "weight": 1}]})], STRANGE),
    (dict(URL, comment="x"), STRANGE),
)


@contextlib.contextmanager
def proxy(behind, *options):
    """A proxy before the server at this port: its own port."""
    (port,) = servers.free_ports(1)
    with servers.running([PROGRAM, "--listen", "127.0.0.1:%d" % port, "--server", "127.0.0.1:%d" % behind, *options], 1):
        yield port


def at(path):
    return "/api/handles/" + path


def without_the_word(port):
    for method, wanted in (("PUT", 405), ("DELETE", 405), ("OPTIONS", 204)):
        status, fields, _ = ask(port, method, at("10/kept"), {"values": [URL]} if method == "PUT" else None)
        yield "%s without --writes" % method, (status, fields["allow"]) == (wanted, "GET, HEAD, OPTIONS")
    yield "auth=true without --writes", [value[0] for value in shown(ask(port, "GET", at("10/kept?auth=true")))[1]] == [1, 100, 101]


def changes(port):
    for method, path, body, key, status, wanted in CHANGES:
        found, fields, told = ask(port, method, at(path), body, key)
        good = (found, told) == (status, wanted) and fields["access-control-allow-origin"] == "*"
        yield "%s %s: %s" % (method, path, status), good and (status == 401) == (fields.get("www-authenticate") == 'Basic realm="handles"')
    yield "what is left, with the key", shown(ask(port, "GET", at("10/a?auth=true"))) == (200, LEFT)
    yield "what is left, for anybody", shown(ask(port, "GET", at("10/a"), key=None)) == (200, [LEFT[0], LEFT[2]])
    yield "a part, with the key", shown(ask(port, "GET", at("10/a?auth=true&type=LIST&index=2"))) == (200, LEFT[:2])
    yield "reading without a key", ask(port, "GET", at("10/a?auth=true"), key=None)[::2] == (401, refused("10/a", NO_KEY, 402))
    yield "reading with a wrong secret", ask(port, "GET", at("10/a?auth=true"), key=basic(secret="x"))[::2] == (401, refused("10/a", WRONG, 403))
    whole = ask(port, "GET", at("10/a?auth=true"))[2]
    yield "what was written is read again", ask(port, "PUT", at("10/a"), whole)[::2] == (200, done("10/a")) and shown(ask(port, "GET", at("10/a?auth=true"))) == (200, LEFT)
    for body, why in BODIES:
        found = ask(port, "PUT", at("10/a"), body)
        yield why, found[::2] == (400, refused("10/a", RECORD % why, 202))
    yield "what was there stays", shown(ask(port, "GET", at("10/a?auth=true"))) == (200, LEFT)


MINTED = re.compile("10/mint-[0-9a-hjkmnp-tv-z]{16}")


def minted(port):
    """Each request with mintNewSuffix creates another handle, and overwrites none."""
    record, path = {"values": [ADMINISTRATOR, URL]}, at("10/mint-?mintNewSuffix=true")
    found = [ask(port, "PUT", path + more, record)[::2] for more in ("", "&overwrite=false", "")]
    names = [told.get("handle", "") for _, told in found]
    yield "a suffix is drawn", [(status, told.get("responseCode")) for status, told in found] == [(201, 1)] * 3 and all(map(MINTED.fullmatch, names)) and len(set(names)) == 3
    yield "the handles are there", [[value[0] for value in shown(ask(port, "GET", at(name)))[1]] for name in names] == [[1, 100]] * 3
    yield "the name itself isn't", ask(port, "GET", at("10/mint-"))[::2] == (404, refused("10/mint-", ABSENT, 100))
    yield "a body that is none", ask(port, "PUT", path, "{")[::2] == (400, refused("10/mint-", RECORD % NO_JSON, 202))
    yield "no key", ask(port, "PUT", path, record, None)[::2] == (401, refused("10/mint-", NO_KEY, 402))
    long = "10/" + "x" * 2040
    yield "a name that gets too long", ask(port, "PUT", at(long + "?mintNewSuffix=true"), record)[::2] == (400, refused(long, "This is no handle: the name is too long.", 102))
    status, _, told = ask(port, "PUT", at("10/?mintNewSuffix=true"), record)
    yield "a suffix alone", status == 201 and re.fullmatch("10/[0-9a-z]{16}", told["handle"])
    names.append(told["handle"])
    yield "false is the same as none", ask(port, "PUT", at("10/mint-?mintNewSuffix=false"), record)[::2] == (201, done("10/mint-"))
    yield "each is deleted", [ask(port, "DELETE", at(name))[0] for name in (*names, "10/mint-")] == [200] * 5


def large(port):
    long = {"values": [ADMINISTRATOR, entry(1, "A", "x" * 32768), entry(2, "B", "x" * 32768)]}
    found = ask(port, "PUT", at("10/a"), long)
    yield "more than a request holds", found[::2] == (413, refused("10/a", "The change needs a request of more than 65536 octets. Nothing was done.", 2))
    found = ask(port, "PUT", at("10/a"), " " * 1048577)
    yield "more than a body holds", found[::2] == (413, refused("10/a", "The body is larger than 1048576 octets. Nothing was done.", 2))
    found = ask(port, "PUT", at("10/a"), json.dumps([ADMINISTRATOR]) + " " * 1000000)
    yield "as much as a body holds", found[::2] == (200, done("10/a"))
    many = {"values": [ADMINISTRATOR] + [entry(number, "NOTE", "x") for number in range(200, 400)]}
    yield "many values", ask(port, "PUT", at("10/a"), many)[::2] == (200, done("10/a")) and len(shown(ask(port, "GET", at("10/a")))[1]) == 201
    yield "and one in their place", ask(port, "PUT", at("10/a"), [ADMINISTRATOR])[::2] == (200, done("10/a")) and len(shown(ask(port, "GET", at("10/a")))[1]) == 1


def listed(port):
    def page(handles, **more):
        return 200, dict({"handles": handles, "prefix": "10", "responseCode": 1, "totalCount": 2}, **more)
    yield "a list", ask(port, "GET", "/api/handles?prefix=10")[::2] == page(["10/a", "10/kept"], page=0, pageSize=2)
    yield "a page", ask(port, "GET", "/api/handles?prefix=10&page=1&pageSize=1")[::2] == page(["10/kept"], page=1, pageSize=1)
    yield "a page behind the last", ask(port, "GET", "/api/handles?prefix=10&page=4294967295&pageSize=4294967295")[::2] == page([], page=4294967295, pageSize=4294967295)
    yield "the count", ask(port, "GET", "/api/handles?prefix=10&page=0&pageSize=0")[::2] == page([], page=0, pageSize=0)
    yield "a list without a key", ask(port, "GET", "/api/handles?prefix=10", key=None)[::2] == (401, refused("0.NA/10", NO_KEY, 402))
    yield "a list without a permission", ask(port, "GET", "/api/handles?prefix=10", key=basic("301:0.NA/10", "weak"))[::2] == (403, refused("0.NA/10", LACKS, 401))
    yield "a list of no prefix", ask(port, "GET", "/api/handles")[0] == 400
    yield "a list that is too long", ask(port, "GET", "/api/handles?prefix=30&page=0&pageSize=10")[::2] == (502, refused("0.NA/30", LONG_LIST, 2))
    yield "a page that is no number", ask(port, "GET", "/api/handles?prefix=10&page=x")[0] == 400
    yield "a list of no prefix", ask(port, "GET", "/api/handles")[::2] == (400, refused("0.NA/", "Name the prefix to list, as in /api/handles?prefix=10.", 102))


def lists(cases):
    """A list beyond one reply is that of a copy, whole or in pages, for who may list it at the server; any other list stays the server's."""
    names = sorted(handle.decode() for handle, _ in OPENING if handle.startswith(b"30/"))

    def page(handles, number, size):
        return 200, {"handles": handles, "message": COPIED, "page": number, "pageSize": size, "prefix": "30", "responseCode": 1, "totalCount": 700}

    with tempfile.TemporaryDirectory() as folder:
        table, copy = os.path.join(folder, "handles.db"), os.path.join(folder, "copy.db")
        with servers.serving(tenants, 1, options=["--table", table]) as (behind,):
            subprocess.run([servers.HANDLED, "copy", "--table", table, "--to", copy], check=True, capture_output=True, timeout=60 * servers.SLOWER)
            with proxy(behind, "--writes", "--lists", copy) as port:
                asked = "/api/handles?prefix=30"
                cases += [
                    ("a list of a copy", ask(port, "GET", asked)[::2] == page(names, 0, 700)),
                    ("its pages", [ask(port, "GET", asked + "&page=%d&pageSize=300" % number)[::2] for number in range(4)]
                     == [page(names[300 * number:300 * number + 300], number, 300) for number in range(4)]),
                    ("its count", ask(port, "GET", asked + "&pageSize=0")[::2] == page([], 0, 0)),
                    ("a list of a copy without a key", ask(port, "GET", asked, key=None)[::2] == (401, refused("0.NA/30", NO_KEY, 402))),
                    ("a list of a copy with a wrong secret", ask(port, "GET", asked, key=basic(secret="x"))[::2] == (401, refused("0.NA/30", WRONG, 403))),
                    ("a list of a copy without a permission", ask(port, "GET", asked, key=basic("301:0.NA/10", "weak"))[::2] == (403, refused("0.NA/30", LACKS, 401))),
                    ("a list of the server", ask(port, "GET", "/api/handles?prefix=10")[2].get("handles") == ["10/kept"]),
                ]
        with open(os.path.join(folder, "text"), "w", encoding="ascii") as text_file:
            text_file.write("no database\n" * 100)
        for words, status, said in ((["--writes", "--lists", os.path.join(folder, "none")], 1, "hdl: --lists "), (["--lists", copy], 2, "error: "),
                                    (["--writes", "--lists", os.path.join(folder, "text")], 1, "hdl: --lists ")):
            ended = subprocess.run([PROGRAM, "--listen", "127.0.0.1:0", "--server", "h:1", *words], stdin=subprocess.DEVNULL, capture_output=True, text=True, timeout=20 * servers.SLOWER, check=False)
            cases.append((" ".join(words[:2]) + " is refused in words", (ended.returncode, ended.stdout) == (status, "") and ended.stderr.startswith(said)))
        cases.append(("nothing is made", not os.path.exists(os.path.join(folder, "none"))))


def browsers(port):
    status, fields, body = ask(port, "OPTIONS", at("10/a"), key=None)
    methods = "GET, HEAD, PUT, DELETE, OPTIONS"
    told = [fields.get("access-control-" + name) for name in ("allow-origin", "allow-methods", "allow-headers", "max-age")]
    yield "OPTIONS", (status, body, told) == (204, "", ["*", methods, "*, Authorization", "86400"])
    status, fields, body = ask(port, "HEAD", at("10/a?auth=true"))
    yield "HEAD", (status, body, fields["content-type"]) == (200, "", "application/json")
    yield "addresses of browsers stay", ask(port, "GET", "/10/kept", key=None)[1].get("location") == "https://example.org/"
    yield "other methods of theirs too", ask(port, "PUT", "/10/kept", {"values": [URL]})[0] == 405


def slow(port, ended):
    """A body that doesn't come."""
    with socket.create_connection(("127.0.0.1", port)) as stream:
        stream.settimeout(30)
        stream.sendall(("PUT /api/handles/10/a HTTP/1.1\r\nhost: h\r\nauthorization: %s\r\ncontent-length: 9\r\n\r\n{" % KEY).encode())
        octets = b""
        with contextlib.suppress(OSError):
            while piece := stream.recv(65536):
                octets += piece
    ended.append(octets)


def at_once(port):
    """Two clients that change one handle, each some values of its own."""
    def client(front):
        for number in range(20):
            found = ask(port, "PUT", at("10/shared?index=various"), {"values": [entry(front + number, "NOTE", "x")]})
            statuses.append(found[0])
    statuses = [ask(port, "PUT", at("10/shared?overwrite=false"), {"values": [ADMINISTRATOR]})[0]]
    clients = [threading.Thread(target=client, args=(front,)) for front in (200, 300)]
    for one in clients:
        one.start()
    for one in clients:
        one.join()
    found = shown(ask(port, "GET", at("10/shared")))[1]
    yield "two clients", statuses == [201] + [200] * 40 and len(found) == 41
    yield "a handle is deleted", ask(port, "DELETE", at("10/shared"))[::2] == (200, done("10/shared"))
    yield "and isn't there", ask(port, "DELETE", at("10/shared"))[::2] == (404, refused("10/shared", ABSENT, 100))


def real(cases):
    with servers.serving(tenants, 1) as (behind,):
        with proxy(behind) as port:
            cases += without_the_word(port)
        with proxy(behind, "--writes") as port:
            ended = []
            waiting = threading.Thread(target=slow, args=(port, ended))
            waiting.start()
            for part in (changes, minted, large, at_once, listed, browsers):
                cases += part(port)
            waiting.join()
            cases.append(("a body that doesn't come", ended[0].startswith(b"HTTP/1.1 408 ") and b"The body didn't arrive within 10 seconds. Nothing was done." in ended[0]))


def whole(stream, count):
    octets = b""
    while len(octets) < count:
        piece = stream.recv(count - len(octets))
        if not piece:
            raise ConnectionError
        octets += piece
    return octets


def serve_script(listener, script, came):
    """On one connection after the other answers each request by the next of these replies: a function of its message, or None to close."""
    replies = iter(script)
    with contextlib.suppress(OSError, StopIteration):
        while True:
            stream = listener.accept()[0]
            with stream, contextlib.suppress(ConnectionError):
                while True:
                    head = whole(stream, 20)
                    asked = whole(stream, struct.unpack(">I", head[16:])[0])
                    came.append(struct.unpack(">I", asked[:4])[0])
                    reply = next(replies)
                    if reply is None:
                        break
                    stream.sendall(wire.frame(reply(asked), 7, struct.unpack(">I", head[8:12])[0]))


def code(number):
    return lambda asked: wire.message(struct.unpack(">I", asked[:4])[0], b"" if number == 1 else wire.number(0), number)


def there(asked):
    return wire.values_reply(b"10/a", wire.value(1, b"URL", b"x", 14), wire.value(5, b"URL", b"x", 14))


BROKEN = (
    ("it closes between challenge and response", (wire.challenge, None), [wire.CREATE, wire.RESPONSE], 502, refused("10/a", SILENT, 2)),
    ("it closes at once", (None,), [wire.CREATE], 502, refused("10/a", SILENT, 2)),
    ("it challenges another request", (lambda asked: wire.challenge(wire.resolution(b"10/b")),), [wire.CREATE], 502, refused("10/a", SILENT, 2)),
    ("it is busy", (code(3),), [wire.CREATE], 503, refused("10/a", "The server is busy, or the space of this prefix there is full. Try again; if it stays so, ask its operator.", 3)),
    ("it refuses the second request of a change", (code(101), there, code(1), code(401)), [wire.CREATE, wire.RESOLVE, wire.MODIFY, wire.ADD], 403,
     refused("10/a", LACKS, 401, done=["modify"])),
    ("it closes in the third", (code(101), there, code(1), code(1), None), [wire.CREATE, wire.RESOLVE, wire.MODIFY, wire.ADD, wire.REMOVE], 502,
     refused("10/a", SILENT, 2, done=["modify", "add"])),
    ("it reads another handle", (code(101), lambda asked: wire.values_reply(b"10/b")), [wire.CREATE, wire.RESOLVE], 502, refused("10/a", SILENT, 2)),
)


def broken(cases):
    for name, script, operations, status, wanted in BROKEN:
        came = []
        with socket.create_server(("127.0.0.1", 0)) as listener:
            threading.Thread(target=serve_script, args=(listener, script, came), daemon=True).start()
            with proxy(listener.getsockname()[1], "--writes") as port:
                found = ask(port, "PUT", at("10/a"), {"values": [ADMINISTRATOR, URL]})
                cases.append((name, found[::2] == (status, wanted)))
        cases.append((name + ": what is asked", came == operations))


def drawn_again(cases):
    """A suffix is drawn until the handle is new, and eight times at most."""
    for name, script, status, wanted in (("a suffix that is new", (code(101), code(101), code(1)), 201, None), ("none is new", (code(101),) * 8, 409, refused("10/x", NONE_NEW, 101)),
                                         ("no answer to it", (code(101), None), 502, None)):
        came = []
        with socket.create_server(("127.0.0.1", 0)) as listener:
            threading.Thread(target=serve_script, args=(listener, script, came), daemon=True).start()
            with proxy(listener.getsockname()[1], "--writes") as port:
                found, _, told = ask(port, "PUT", at("10/x?mintNewSuffix=true"), {"values": [ADMINISTRATOR]})
        cases.append((name, found == status and (told == wanted if wanted else re.fullmatch("10/x[0-9a-z]{16}", told["handle"]))))
        cases.append((name + ": what is asked", came == [wire.CREATE] * len(script)))


def unreached(cases):
    """A change to a server that isn't reached says that nothing was done, and how soon to come again."""
    (closed,) = servers.free_ports(1)
    with proxy(closed, "--writes") as port:
        for method, path in (("PUT", "10/a"), ("PUT", "10/a?index=1"), ("DELETE", "10/a"), ("DELETE", "10/a?index=1"), ("PUT", "10/a?index=various&overwrite=false")):
            status, fields, told = ask(port, method, at(path), [URL] if method == "PUT" else None)
            cases.append(("%s %s where nobody listens" % (method, path), (status, fields["retry-after"], told) == (502, "3", refused("10/a", UNREACHED, 2))))


def main():
    cases = []
    real(cases)
    broken(cases)
    drawn_again(cases)
    unreached(cases)
    lists(cases)
    cases += (("docs/openapi.json describes %d to %s %s" % (status, method, path), openapi.described(method, path, status)) for method, path, status in sorted(ANSWERED))
    return servers.tally(cases, "another answer than the one that should be")


if __name__ == "__main__":
    sys.exit(main())

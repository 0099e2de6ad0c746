"""commands.py: asks with the proved program crates/hdl/out/hdl, and compares the octets that it sends, what it says and its exit status: of whole
exchanges, challenges and requests in flight among them, of answers with a key or with control characters, and where no good answer comes.

Servers stand in this program: they send the octets of a case, written here from docs/PROTOCOL.md, and close. Words that are no request
are asked of nobody. Its last line is 'N passed, M failed', a case counting one."""

import contextlib
import os
import re
import socket
import subprocess
import sys
import tempfile
import threading
import time

# nothing is left beside the tools
sys.dont_write_bytecode = True
from lib import repository, servers, wire

PROGRAM = os.environ.get("HDL", repository.program("hdl"))
SECRET = "never-shown"


def reply(operation, code=wire.SUCCESS, body=b""):
    return wire.message(operation, body, code)


DELETE = wire.message(wire.DELETE, wire.string(b"10/c"))
OWN = wire.frame(wire.challenge(DELETE), 1, 1)
OWN_256 = wire.frame(wire.challenge(DELETE, wire.SHA256), 1, 1)
DONE = wire.frame(reply(wire.DELETE), 0, 1)
DONE_SECOND = wire.frame(reply(wire.DELETE), 1, 2)
LONG = wire.frame(reply(wire.DELETE) + b"\0", 0, 1)


def answer(asked, secret, request=2, handle=b"0.NA/10", index=300, function=wire.SHA1):
    """The frame of the response to a request's challenge."""
    return wire.frame(wire.response(asked, secret.encode(), handle, index, function), 1, request)


ASKED = wire.frame(DELETE, 0, 1)
ANSWER = answer(DELETE, SECRET)
ANSWER_256 = answer(DELETE, SECRET, function=wire.SHA256)

# A batch with two keys, each of which answers for what stands below it.
SECRETS = ("first-never-shown", "second-never-shown")
KEYS = "AUTHENTICATE SECKEY:300:0.NA/10\n%s\nDELETE 10/c\n\nAUTHENTICATE SECKEY:301:0.NA/20\n%s\nDELETE 20/c\n" % SECRETS
DELETE_20 = wire.message(wire.DELETE, wire.string(b"20/c"))
KEYS_SENT = [OWN, DONE_SECOND, wire.frame(wire.challenge(DELETE_20), 1, 3), wire.frame(reply(wire.DELETE), 1, 4)]
KEYS_ASKED = [ASKED, answer(DELETE, SECRETS[0]), wire.frame(DELETE_20, 0, 3), answer(DELETE_20, SECRETS[1], 4, b"0.NA/20", 301)]
KEYS_SAID = ["line 3: DELETE 10/c: 1 success", "line 7: DELETE 20/c: 1 success", "2 succeeded, 0 failed"]

# A batch with a delete among creates, and which requests (RequestId and operation) come before an answer is given.
VALUE = "1 URL 86400 1110 UTF8 https://a/"
ALONE = "CREATE 10/a\n%s\n\nCREATE 10/d\n%s\n\nDELETE 10/b\n\nCREATE 10/c\n%s\n" % (VALUE, VALUE, VALUE)
ALONE_ASKED = [[(1, wire.CREATE), (2, wire.CREATE)], [(3, wire.DELETE)], [(4, wire.CREATE)]]

# What a whole exchange sends: a server's octets, and the client's.
WHOLE = (
    ("a delete", [DONE], [ASKED]),
    ("a challenge with SHA-1", [OWN, DONE_SECOND], [ASKED, ANSWER]),
    ("a challenge with SHA-256", [OWN_256, DONE_SECOND], [ASKED, ANSWER_256]),
)


def resolution(request, handle):
    return wire.frame(wire.resolution(handle), 0, request)


def absent(request):
    return wire.frame(reply(wire.RESOLVE, wire.ABSENT, wire.number(0)), 0, request)


# A batch of two resolutions, which are in flight together and answered in the other order, and a third of the first handle behind them.
FLIGHT = "RESOLVE 10/a\n\nRESOLVE 10/b\n\nRESOLVE 10/a\n"
FLIGHT_ASKED = [resolution(1, b"10/a") + resolution(2, b"10/b") + resolution(3, b"10/a")]
FLIGHT_SAID = ["line 3: RESOLVE 10/b: 100 handle not found", "line 1: RESOLVE 10/a: 100 handle not found",
               "line 5: RESOLVE 10/a: 100 handle not found", "0 succeeded, 3 failed", "failed: line 3", "failed: line 1", "failed: line 5"]


KEY = wire.value(300, b"HS_SECKEY", SECRET.encode(), wire.ADMIN_READ | wire.ADMIN_WRITE, 86400)
KEY_LINE = "300 HS_SECKEY 86400 1100 UTF8 %s" % SECRET
KEY_ANSWER = wire.frame(wire.values_reply(b"10/k", KEY), 0, 1)
LISTED = wire.listed([wire.string(b"10/a\n10/b"), wire.string(b"10/\x1b[2J\xc2\x9b")])
LIST_ANSWER = wire.frame(reply(wire.LIST, body=LISTED), 0, 1)

# Of an answer: its name, its octets, what is asked, and what is printed on both outputs.
ANSWERS = (
    ("a key", KEY_ANSWER, ["resolve", "10/k"], ";; reply to resolve 1, session 0: 1 success\n10/k\n300 HS_SECKEY HIDDEN 11 octets\n"),
    ("a key, short", KEY_ANSWER, ["resolve", "10/k", "--short"], "HIDDEN 11 octets\n"),
    ("a key that is asked for", KEY_ANSWER, ["resolve", "10/k", "--keys"], ";; reply to resolve 1, session 0: 1 success\n10/k\n%s\n" % KEY_LINE),
    ("a key that is asked for, short", KEY_ANSWER, ["resolve", "10/k", "--keys", "--short"], SECRET + "\n"),
    ("a list in other letters", wire.frame(reply(wire.LIST, body=wire.listed([wire.string(b"0.na/10.abc"), wire.string(b"10.abc/a")])), 0, 1), ["list", "10.ABC", "--short"],
     "0.na/10.abc\n10.abc/a\n"),
    ("control characters in handles", LIST_ANSWER, ["list", "10", "--short"], "10/a\\u{a}10/b\n10/\\u{1b}[2J\\u{9b}\n"),
)

# The same by the layout of the Handle.Net software: what is asked, and what comes; what is sent, and standard input behind it.
NET_URL = wire.net_value(1, b"URL", b"http://a/", 0x0E, 86400, 0x65000000)
NET_SAID = ";; reply to resolve 1, session 0: 1 success\n10/a\n;; written 2023-09-12T06:06:56Z\n1 URL 86400 1110 UTF8 http://a/\n"
NET_CREATE = wire.message(wire.CREATE, wire.string(b"10/a") + wire.listed([wire.net_value(1, b"URL", b"a", 0x0E, 86400)]))
NET_WRITES = (
    (["create", "10/a", "1 URL 86400 1110 UTF8 a", "--handle-net"], ""),
    (["batch", "--handle-net"], "CREATE 10/a\n1 URL 86400 1110 UTF8 a\n"),
)
# The data of an HS_SITE value, laid out by hand: of which words it is made, and what they say.
SITE = bytes.fromhex(
    "0001" "0201" "0001" "80" "02" "00000000" "00000000" "00000001"  # form, protocol, serial number, primary, hash by all, no filter, no attributes, one server
    "00000001" "000000000000000000000000c0000207" "00000000" "00000002"  # its number, 192.0.2.7, no key, two interfaces
    "03" "01" "00000a51" "02" "00" "00000a51")  # TCP for both, UDP for queries, port 2641
SITE_6 = bytes.fromhex(
    "0001" "0201" "0102" "80" "02" "00000000" "00000000" "00000001"
    "00000001" "20010db8000000000000000000000007" "00000000" "00000001"
    "03" "01" "00003039")
SITE_SAID = """\
site of form 1, protocol 2.1, serial number 1
the primary site
hash option 2: a handle's server is found by all of it
server 1 at 192.0.2.7, public key of 0 octets
TCP port 2641: queries and administration
UDP port 2641: queries
"""
# One as other software may make it: a mirror with an attribute, and a server with a key, HTTP, and an address ::ffff:192.0.2.7.
SITE_OTHER = bytes.fromhex("0001" "020a" "0007" "00" "00" "00000000" "00000001" "00000004" "64657363" "00000002" "411b" "00000001"
                           "00000002" "00000000000000000000ffffc0000207" "00000003" "0a0b0c" "00000001" "02" "02" "00001f40")
SITE_OTHER_SAID = """\
site of form 1, protocol 2.10, serial number 7
a mirror: changes are made elsewhere
hash option 0: a handle's server is found by its prefix
attribute desc: A\\u{1b}
server 2 at 192.0.2.7, public key of 3 octets
HTTP port 8000: queries
"""
SITES = (
    (["--address", "192.0.2.7", "--udp"], SITE.hex() + "\n"),
    (["--address", "2001:db8::7", "--port", "12345", "--serial", "258"], SITE_6.hex() + "\n"),
    (["--address", "192.0.2.7", "--udp", "--publisher", "acme"], "site acme %s\n" % SITE.hex()),
    (["--read", SITE.hex()], SITE_SAID),
    (["--read", SITE_OTHER.hex()], SITE_OTHER_SAID),
)

# What is said where no answer comes that can be read, with SERVER in the place of the server's address.
SO = ": check --server: no handle server answers so"
OTHER_HANDLE, OTHER_REQUEST = "hdl: SERVER: the server replied about another handle%s\n" % SO, "hdl: SERVER: the server replied to another request%s\n" % SO
NO_REPLY = "hdl: SERVER: the server sent no reply: check --server; a port whose line ends with handle-net needs --handle-net"
CLOSED = "hdl: SERVER: the connection was closed before an answer came: check --server; a server with --proxied answers only through its proxy"
LATE = "hdl: SERVER: no answer in time: check --server; a handle server lets a client wait while others have all its connections"
# Behind that, if a change was asked for.
MAYBE = "; the change may have been made: resolve the handle"

# What a server answers to a question for its site information: code and octets; and what is shown.
SITE_ASKED = bytes.fromhex("02010000" "00000000" "00000001" "00000000" "00000021"
                           "00000002" "00000000" "00000000" "ffff" "00" "00" "00000000" "00000005" "00000001" "2f" "00000000")
NO_SITE = ("hdl: 5 operation denied: this port tells no site information. In the tenants text its publisher's line must end with handle-net, "
           "and a line `site NAME HEX` gives the octets\n")
SITE_ANSWERS = (
    ("site information", reply(2, 1, SITE), (0, SITE_SAID, "")),
    ("other site information", reply(2, 1, SITE_OTHER), (0, SITE_OTHER_SAID, "")),
    ("site information that is no site", reply(2, 1, SITE[:-1]), (1, "", "hdl: the site information is no data of an HS_SITE value: %s\n" % SITE[:-1].hex())),
    ("no site information", reply(2, 5, wire.number(0)), (1, "", NO_SITE)),
    ("a reply to a deletion", reply(wire.DELETE), (3, "", OTHER_REQUEST)),
    ("no reply", b"\0" * 28, (3, "", NO_REPLY + "\n")),
)

# Of a reply about something else: its name, its octets, what is asked, and what is said on standard error. Nothing of it is shown.
PLAIN = wire.value(1, b"URL", b"https://other.example/", 0x0E, 86400)
CREATE = ["create", "10/a", "1 URL 86400 1110 UTF8 a"]
OTHERS = (
    ("another handle's values", wire.values_reply(b"9/other", PLAIN), ["resolve", "10/a"], OTHER_HANDLE),
    ("another handle's values, short", wire.values_reply(b"9/other", PLAIN), ["resolve", "10/a", "--short"], OTHER_HANDLE),
    ("the handle in other letters", wire.values_reply(b"10/A", PLAIN), ["resolve", "10/a"], OTHER_HANDLE),
    ("a list with a handle of another prefix", reply(wire.LIST, body=wire.listed([wire.string(b"10/a"), wire.string(b"9/other")])), ["list", "10"], OTHER_HANDLE),
    ("a list with octets that are no handle", reply(wire.LIST, body=wire.listed([wire.string(b"10/\xff")])), ["list", "10"], OTHER_HANDLE),
    ("a referral to the service of another prefix", reply(wire.RESOLVE, 302, wire.reference(b"0.NA/9", 0)), ["resolve", "10/a"], OTHER_HANDLE),
    ("values in the place of a list", wire.values_reply(b"0.NA/10", PLAIN), ["list", "10"], OTHER_REQUEST),
    ("a list in the place of values", reply(wire.LIST, body=wire.listed([wire.string(b"10/a")])), ["resolve", "10/a"], OTHER_REQUEST),
    ("another write that was done", reply(wire.DELETE), CREATE, OTHER_REQUEST[:-1] + MAYBE + "\n"),
    ("no operation that was done", reply(999, body=wire.number(0)), CREATE, OTHER_REQUEST[:-1] + MAYBE + "\n"),
)
# The same behind a challenge, and in a batch.
RESOLVE = wire.resolution(b"10/a")
OTHER_BEHIND = [wire.frame(wire.challenge(RESOLVE), 1, 1), wire.frame(wire.values_reply(b"9/other", PLAIN), 1, 2)]

# Of what one reply doesn't say: what is asked, the operation, and what is said on standard error.
MANY_HANDLES = ("hdl: 2 error: more handles than fit into one reply (65,536 octets). The server's operator can list all: `handled copy --table FILE --to COPY`, then "
                "`handled export --table COPY < TENANTS`\n")
TOO_LONG = (
    (["list", "10"], wire.LIST, MANY_HANDLES),
    (["resolve", "10/a"], wire.RESOLVE, "hdl: 2 error: more values than fit into one reply (65,536 octets): select some with --index or --type\n"),
    (["delete", "10/a"], wire.DELETE, "hdl: 2 error\n"),
)

# Of a refusal: what is asked, the operation, the code, and what is said.
RIGHTS = "hdl: 400 not authorized: the key of --key is no administrator of %s who may do this: `hdl resolve %s --type HS_ADMIN` names them; if none is there, see docs/FILE.md, \"If a key is lost\"\n"
OTHER_LAYOUT = ": the port may have the other layout of values: add --handle-net if its line ends with handle-net, or else leave it out"
REFUSALS = (
    (["list", "10/"], wire.LIST, 102, "hdl: 102 invalid handle: write the prefix alone, such as 10\n"),
    (["resolve", "10"], wire.RESOLVE, 102, "hdl: 102 invalid handle: write PREFIX/NAME, such as 10/a\n"),
    (["modify", "10/a", "1 URL 86400 1110 UTF8 a"], wire.MODIFY, 200, "hdl: 200 value not found: resolve the handle; a value with a new index is added by `hdl add`\n"),
    (["add", "10/a", "1 URL 86400 1110 UTF8 a"], wire.ADD, 201, "hdl: 201 value already exists: a value with an index that exists is changed by `hdl modify`\n"),
    (["modify", "10/a", "1 URL 86400 1110 UTF8 a"], wire.MODIFY, 400, RIGHTS % ("10/a", "10/a")),
    (CREATE, wire.CREATE, 400, RIGHTS % ("0.NA/10", "0.NA/10")),
    (["list", "10"], wire.LIST, 400, RIGHTS % ("0.NA/10", "0.NA/10")),
    (CREATE, wire.CREATE, 101, "hdl: 101 handle already exists: change it by `hdl modify` or `hdl add`\n"),
    (["resolve", "10/a", "--type", "Url"], wire.RESOLVE, 200, "hdl: 200 value not found: the handle is there; leave out --type and --index to see all (URL isn't Url)\n"),
    (["create", "20.5/a", "1 URL 86400 1110 UTF8 a"], wire.CREATE, 202, "hdl: 202 value invalid: a new handle needs an HS_ADMIN value, such as '100 HS_ADMIN 86400 1110 ADMIN 300:111111111111:0.NA/20.5'\n"),
    (CREATE, wire.CREATE, 4, "hdl: 4 protocol error%s\n" % OTHER_LAYOUT),
    (CREATE, wire.CREATE, 202, "hdl: 202 value invalid: a new handle needs an HS_ADMIN value, such as '100 HS_ADMIN 86400 1110 ADMIN 300:111111111111:0.NA/10'\n"),
)

# Of a request of a batch: its text, the operation, the code, and what is said behind it.
BATCH_LINES = (
    ("MODIFY 10/none\n%s\n" % VALUE, wire.MODIFY, 100, "handle not found: check its name; a new handle is made by `hdl create`"),
    ("CREATE 20.5/a\n%s\n" % VALUE, wire.CREATE, 101, "handle already exists: change it by `hdl modify` or `hdl add`"),
    ("CREATE 20.5/a\n%s\n" % VALUE, wire.CREATE, 202, "value invalid: a new handle needs an HS_ADMIN value, such as '100 HS_ADMIN 86400 1110 ADMIN 300:111111111111:0.NA/20.5'"),
    ("MODIFY 0.NA/10\n%s\n" % VALUE, wire.MODIFY, 400, (RIGHTS % ("0.NA/10", "0.NA/10"))[len("hdl: 400 "):-1].replace("--key", "AUTHENTICATE")),
    ("CREATE 20/a\n%s\n" % VALUE, wire.CREATE, 400, (RIGHTS % ("0.NA/20", "0.NA/20"))[len("hdl: 400 "):-1].replace("--key", "AUTHENTICATE")),
    ("REMOVE 1:10/a\n", wire.REMOVE, 403, "authentication failed: the secret isn't that of the key: check the line after AUTHENTICATE"),
    ("DELETE 10/a\n", wire.DELETE, 406, "unable to authenticate: the handle of AUTHENTICATE has no such key: check its index and its handle"),
    ("DELETE 10/a b\n", wire.DELETE, wire.SUCCESS, "success"),
    ("CREATE 10/a b\n%s\n" % VALUE, wire.CREATE, wire.SUCCESS, "success"),
)
# What a batch is warned of: a name that no export takes along, and values to which no browser is led. What is refused gets no warning.
WARNED = "CREATE 10/a b\n%s\n2 URL 86400 1110 UTF8 www.example.org/a\n3 url 86400 1110 UTF8 https://a/\n" % VALUE
WARNED_SAID = """\
line 1: CREATE 10/a b: 1 success
warning: line 1: the name has a space or line feed, and no export takes the handle along: choose a name without one, such as 10/two-words
warning: line 1: value with index 2: the address begins with neither https:// nor http://, so no browser is led there: write it whole, such as https://example.org/
warning: line 1: value with index 3: the type is URL in letters of another case, so no browser is led there: write URL
1 succeeded, 0 failed; warnings: 3
"""
WARNED_REFUSED = "line 1: CREATE 10/a b: 101 handle already exists: change it by `hdl modify` or `hdl add`\n0 succeeded, 1 failed\nfailed: line 1\n"

# A batch that writes a key, and one whose handle would drive a terminal.
KEY_BATCH = "CREATE 10/k\n%s\n" % KEY_LINE
KEY_ASKED = wire.frame(wire.message(wire.CREATE, wire.string(b"10/k") + wire.listed([KEY])), 0, 1)
KEY_DONE = wire.frame(reply(wire.CREATE), 0, 1)
CONTROL_BATCH = "RESOLVE 10/\x1b[2J\n"
CONTROL_SAID = ["line 1: RESOLVE 10/\\u{1b}[2J: 100 handle not found", "0 succeeded, 1 failed", "failed: line 1"]

# Of a server: its name, what it sends to each frame that comes, and what `hdl delete 10/c --key 300:0.NA/10` answers.
SERVERS = (
    ("it is done", [DONE], 0, ""),
    ("another code", [wire.frame(reply(wire.DELETE, 302, wire.reference(b"0.NA/10", 0)), 0, 1)], 1, "hdl: 302 service referral: this port doesn't serve the prefix: name its publisher's port by --server"),
    ("busy", [wire.frame(wire.short_reply(3), 0, 1)], 1, "hdl: 3 server busy: nothing was done: try again; if it stays so, the server's disk or memory may be full, or what this prefix may hold there: ask its operator"),
    ("it closes at once", [], 3, CLOSED + MAYBE),
    ("it closes in the middle of an envelope", [DONE[:11]], 3, CLOSED + MAYBE),
    ("it closes in the middle of a message", [DONE[:-1]], 3, CLOSED + MAYBE),
    ("no frame", [b"\2\1\x80\0" + DONE[4:]], 3, "hdl: SERVER: the server sent no frame: compressed, encrypted, or a piece past the message's end" + SO + MAYBE),
    ("no changes are taken", [wire.frame(reply(wire.DELETE, 5, wire.number(0)), 0, 1)], 1,
     "hdl: 5 operation denied: a server with --read-only takes no changes: name the one that does by --server. No server creates or deletes a handle under 0.NA"),
    ("an answer to another request", [wire.frame(reply(wire.DELETE), 0, 2)], 3, OTHER_REQUEST[:-1] + MAYBE),
    ("octets behind a reply", [LONG], 3, NO_REPLY + MAYBE),
    ("a piece", [b"\2\1\x20\0" + DONE[4:]], 3, NO_REPLY + MAYBE),
    ("a challenge of another request", [wire.frame(wire.challenge(DELETE_20), 1, 1)], 3, "hdl: SERVER: the server challenged another request" + SO + MAYBE),
    ("a wrong key", [OWN, wire.frame(reply(wire.DELETE, 403, wire.number(0)), 1, 2)], 1, "hdl: 403 authentication failed: the secret isn't that of the key: check HDL_SECRET"),
    ("no such key", [OWN, wire.frame(reply(wire.DELETE, 406, wire.number(0)), 1, 2)], 1, "hdl: 406 unable to authenticate: the handle of --key has no such key: check its index and its handle"),
    ("it closes behind its challenge", [OWN], 3, CLOSED + MAYBE),
    ("its challenge again", [OWN, wire.frame(OWN[20:], 1, 2)], 1, "hdl: 402 authentication needed: give --key INDEX:HANDLE, and its secret in HDL_SECRET"),
)

KEY_REFUSED = "hdl: value %d: an HS_SECKEY value is refused on the command line, which others on this machine can read: use `hdl batch`"

# Behind what is wrong with a value on the command line.
FORM = ": write INDEX TYPE TTL PERMISSIONS FORMAT DATA, such as '1 URL 86400 1110 UTF8 https://example.org/'"
# The same of an administrator, and what is wrong with a tab.
ADMIN_FORM = FORM.replace("1 URL 86400 1110 UTF8 https://example.org/", "100 HS_ADMIN 86400 1110 ADMIN 300:111111111111:0.NA/10")
TAB = "a tab: fields are separated by one space"
NO_ADMIN = "the value's data is no administrator: the format is ADMIN"

# Of a server that can't be reached: its words, and what is said behind them. A broadcast address has no way for a connection.
NOBODY = "nothing listens there: is a server running? Name another one by --server HOST:PORT, ask `systemctl status handled`, or start an example by `handled serve < examples/serve.tenants`"
NO_PORT = "not of the form HOST:PORT: write a host, a colon and a port, as in 127.0.0.1:2641"
UNREACHED = (
    ("127.0.0.1:1", NOBODY),
    ("127.0.0.1", NO_PORT),
    ("127.0.0.1:99999", NO_PORT),
    ("nowhere.invalid:2641", "this name has no address: check the name in --server"),
    ("255.255.255.255:2641", "the network is unreachable: check --server, and the network between"),
)

# Words that are no request: arguments, standard input, and what is said.
WORDS = (
    (["resolve", "10/a", "--index", "0"], "", "hdl: '0': an index isn't a number from 1 to 4294967295"),
    (["remove", "10/a", "1", "1,2"], "", "hdl: '1,2': an index isn't a number from 1 to 4294967295"),
    (["create", "10/a", "1 URL 86400 111 UTF8 a"], "", "hdl: '1 URL 86400 111 UTF8 a': the permissions aren't four digits 0 or 1" + FORM),
    (["create", "10/a", "0 URL 86400 1110 UTF8 a"], "", "hdl: '0 URL 86400 1110 UTF8 a': the value's index is 0" + FORM),
    (["add", "10/a", "1 URL 86400 1110 UTF8 a", "URL \x1b[2J"], "", "hdl: 'URL \\u{1b}[2J': the index isn't a number" + FORM),
    (["create", "10/a", "1", "URL", "86400", "1110", "UTF8", "https://example.org/"], "",
     "hdl: value 1: a value is one argument: put it into quotes, such as '1 URL 86400 1110 UTF8 https://example.org/'"),
    (["create", "10/a", "5 HS_ADMIN 86400 1110 ADMIN 300:rwx:0.NA/10"], "",
     "hdl: '5 HS_ADMIN 86400 1110 ADMIN 300:rwx:0.NA/10': the data isn't INDEX:MASK:HANDLE, the mask of twelve digits 0 or 1" + ADMIN_FORM),
    (["modify", "10/a", "6 HS_ADMIN 86400 1110 UTF8 300"], "", "hdl: '6 HS_ADMIN 86400 1110 UTF8 300': %s%s" % (NO_ADMIN, ADMIN_FORM)),
    (["create", "10/a", "1\tURL 86400 1110 UTF8 a"], "", "hdl: '1\\u{9}URL 86400 1110 UTF8 a': " + TAB),
    (["create", "10/k", KEY_LINE], "", KEY_REFUSED % 1),
    (["add", "10/k", "1 URL 86400 1110 UTF8 a", KEY_LINE], "", KEY_REFUSED % 2),
    (["modify", "10/k", "OCTETS " + KEY.hex()], "", KEY_REFUSED % 1),
    (["create", "10/k", "300 hs_seckey 86400 111 UTF8 " + SECRET], "", "hdl: value 1: the permissions aren't four digits 0 or 1" + FORM),
    (["modify", "10/k", "octets " + KEY.hex()], "", "hdl: value 1: the index isn't a number" + FORM),
    (["create", "10/k", "300 HS_SECKEY HIDDEN 11 octets"], "", "hdl: value 1: the data is HIDDEN: write the data itself" + FORM),
    (["delete", "10/c", "--key", "10/c"], "", "hdl: a key isn't INDEX:HANDLE, such as 300:0.NA/10"),
    (["batch"], "CREATE\n", "hdl: line 1: unknown operation: write RESOLVE, CREATE, ADD, MODIFY, REMOVE, DELETE, LIST or AUTHENTICATE"),
    (["batch"], "MOVE 10/a\n", "hdl: line 1: unknown operation: write RESOLVE, CREATE, ADD, MODIFY, REMOVE, DELETE, LIST or AUTHENTICATE"),
    (["batch"], "DELETE\t10/a\n", "hdl: line 1: " + TAB),
    (["batch"], "ADD 10/a\n1\tURL\t86400\t1110\tUTF8\ta\n", "hdl: line 2: " + TAB),
    (["batch"], "ADD 10/a\n6 HS_ADMIN 86400 1110 UTF8 300\n", "hdl: line 2: " + NO_ADMIN),
    (["batch"], "DELETE 10\n", "hdl: line 1: the name has no slash"),
    (["batch"], "DELETE 10/a\n1 URL 86400 1110 UTF8 a\n", "hdl: line 2: no CREATE, ADD or MODIFY stands before this value"),
    (["batch"], ";; no value\nADD 10/a\n\n", "hdl: line 2: the operation needs values or indexes"),
    (["batch"], "ADD 10/a\n1 URL x 1110 UTF8 a\n", "hdl: line 2: the TTL isn't a whole number from 0 to 4294967295"),
    (["batch"], "REMOVE 1,x:10/a\n", "hdl: line 1: an index isn't a number from 1 to 4294967295"),
    (["batch"], "AUTHENTICATE SECKEY:0.NA/10\n%s\n" % SECRET, "hdl: line 2: a key isn't INDEX:HANDLE, such as 300:0.NA/10"),
    (["batch"], "AUTHENTICATE SECKEY:300:0.NA/10\n", "hdl: line 1: the secret is missing: set HDL_SECRET, or write it on the first line of standard input, or, in a batch, on the line after AUTHENTICATE"),
    (["tenants"], "value 10/a 1 URL 86400 1110 HIDDEN 3 octets\nprefix 10 acme\nvalue 10/a 2 URL x 1110 UTF8 a\n",
     "hdl: line 1: the data is HIDDEN: write the data itself\nhdl: line 3: the TTL isn't a whole number from 0 to 4294967295\nhdl: nothing was printed: correct the lines, and start no server with the empty text"),
    (["tenants"], "\ufeffpublisher acme 4 2641\n",
     "hdl: line 1: the text begins with a byte order mark: save it as UTF-8 without one\nhdl: nothing was printed: correct the lines, and start no server with the empty text"),
    (["batch"], "\ufeffDELETE 10/a\n", "hdl: line 1: the text begins with a byte order mark: save it as UTF-8 without one"),
    (["init", "10", "20,30"], "", "hdl: the prefix at place 2 has a space or a comma: write each prefix as a word of its own"),
    (["init", "10 20"], "", "hdl: the prefix at place 1 has a space or a comma: write each prefix as a word of its own"),
    (["init", "10", "10"], "", "hdl: the prefix at place 2 is given twice: name each prefix once; capital and small letters are the same"),
    (["init", "10/a"], "", "hdl: the prefix at place 1 isn't a naming authority: write one such as 10 or 10.5072, without a slash, and not 0.NA"),
    (["init", *map(str, range(33))], "", "hdl: more than 32 prefixes: a server has 64 lanes, and each publisher needs two; make a text for each of several servers"),
    (["site", "--address", "192.0.2"], "", "hdl: --address isn't an IPv4 or IPv6 address: write one such as 192.0.2.7 or 2001:db8::7"),
    (["site", "--address", "192.0.2.7", "--port", "0"], "", "hdl: --port isn't a number from 1 to 65535"),
    (["site", "--address", "192.0.2.7", "--serial", "65536"], "", "hdl: --serial isn't a number from 0 to 65535"),
    (["site", "--read", SITE.hex() + "00"], "", "hdl: no data of an HS_SITE value: write its hexadecimal digits, or the path of a file with its octets"),
    (["site", "--read", SITE.hex()[:-2]], "", "hdl: no data of an HS_SITE value: write its hexadecimal digits, or the path of a file with its octets"),
    (["script"], "publisher acme 2 2641\n", "hdl: the line `run` is missing"),
    (["script"], "publisher acme 1 2641\n\nrun\n", "hdl: tenants: line 1: bad line"),
)


def end(stream):
    """Says that nothing more comes, and reads until the client has gone, so that it meets an end and no reset. It may have gone before."""
    with contextlib.suppress(OSError):
        stream.shutdown(socket.SHUT_WR)
        while stream.recv(65536):
            pass


def served(listener, sent, came):
    """Serves one connection: behind each frame that comes the next octets, and then the end. Keeps what came."""
    with listener.accept()[0] as stream:
        stream.settimeout(30)
        for octets in sent or [b""]:
            came.append(stream.recv(65536))
            stream.sendall(octets)
        end(stream)


def served_together(listener, came):
    """Reads two frames, answers the second and then the first; then the third."""
    with listener.accept()[0] as stream:
        stream.settimeout(30)
        both = b""
        while len(both) < len(resolution(1, b"10/a")) * 2:
            both += stream.recv(65536)
        stream.sendall(absent(2) + absent(1))
        came.append(both + stream.recv(65536))
        stream.sendall(absent(3))
        end(stream)


def served_in_turn(listener, came):
    """Takes what comes until nothing more does for a while, and answers that all of it is done, again and again."""
    with listener.accept()[0] as stream:
        stream.settimeout(0.5)
        waiting = b""
        while True:
            try:
                octets = stream.recv(65536)
                if not octets:
                    break
                waiting += octets
            except TimeoutError:
                requests = wire.heads(waiting)
                if not requests:
                    continue
                came.append(requests)
                stream.sendall(b"".join(wire.frame(reply(operation), 0, request) for request, operation in requests))
                waiting = b""
        end(stream)


def served_slowly(listener, octets):
    """Answers an octet each second, so that no read waits long and the whole answer does."""
    with listener.accept()[0] as stream:
        stream.recv(65536)
        with contextlib.suppress(OSError):
            for octet in octets:
                stream.sendall(bytes([octet]))
                time.sleep(1)


def run(words, text="", **more):
    environment = {**os.environ, "HDL_SECRET": SECRET, **more}
    return subprocess.run([PROGRAM, *words], input=text, env=environment, capture_output=True, text=True, check=False, timeout=60 * servers.SLOWER)


def asked(serve, words, text="", option="--server"):
    """What the program says to a server that serves so, which is named behind this option."""
    with socket.create_server(("127.0.0.1", 0)) as listener:
        thread = threading.Thread(target=serve, args=(listener,), daemon=True)
        thread.start()
        done = run([*words, option, "127.0.0.1:%d" % listener.getsockname()[1]], text)
        thread.join(10)
    return done


def deleted(sent, came):
    return asked(lambda listener: served(listener, sent, came), ["delete", "10/c", "--key", "300:0.NA/10"])


def versions():
    """Each program's --version, and whether it is that of hdl_programs."""
    version = re.search(r'VERSION: &str = "([^"]*)"', repository.text_of("crates", "hdl_programs", "src", "lib.rt"))[1]
    for name, program in (("hdl", PROGRAM), ("handled", servers.HANDLED)):
        said = subprocess.run([program, "--version"], capture_output=True, text=True, check=False, timeout=60 * servers.SLOWER)
        yield "%s --version" % name, (said.returncode, said.stdout) == (0, "%s %s\n" % (name, version))


def fresh():
    """A fresh secret, and a text for new publishers: what is served by it is changed by its secrets, each on its own port."""
    secrets = [run(["key"]).stdout for _ in range(2)]
    yield "hdl key", secrets[0] != secrets[1] and all(re.fullmatch("[0-9a-f]{64}\n", secret) for secret in secrets)
    words = run(["init", "10", "20.ABC"])
    keys = re.findall("HS_SECKEY 86400 1100 UTF8 ([0-9a-f]{64})$", words.stdout, re.MULTILINE)
    text = run(["tenants"], words.stdout).stdout
    yield "a text's first line, which holds of words and digits", text.startswith("# A tenants text. hdl tenants < WORDS > publishers.tenants writes values in words as digits; then:")
    with servers.serving(lambda *ports: text.replace(" 2641\n", " %d\n" % ports[0]).replace(" 2642\n", " %d\n" % ports[1]).encode(), 2) as ports:
        for prefix, secret, port in zip(("10", "20.abc"), keys, ports):
            create = ["create", prefix + "/a", "100 HS_ADMIN 86400 1110 ADMIN 300:111111111111:0.NA/" + prefix, "--key", "300:0.NA/" + prefix]
            done = [run([*create, "--server", "127.0.0.1:%d" % port], HDL_SECRET=given) for given in (SECRET, secret)]
            yield "hdl init " + prefix, [one.returncode for one in done] == [1, 0] and secret not in words.stderr + done[1].stdout + done[1].stderr


TEXT_FAULTS = """\
# Each of these lines but the second, the eighth and those of net's port and first site information is faulty; the last three lack only faulty lines.
publisher acme 8 2641
publisher acme 4 2642
publisher Bolt 4 2642
publisher bolt 1 2642
publisher bolt 4 99999
publisher huge 60 2643
prefix 10 acme
prefix 10 acme
prefix 10.ABC acme
prefix 30 nobody
prefix 10 acme 9
value 10/a 1 URL 86400 1110 UTF8 http://a.example
value 10/a 2 URL 86400 1110 UTF8 http://a.example
value 10/a of no kind
value 40/a 00
value 10a 00
value 10/a 0
value 10/a 00
prefixes 10 acme
publisher bolt 4 2642 handlenet
publisher net 2 2643 handle-net
site net 00
site net 01
site acme 00
site net 0g
site net
prefix 20 bolt
value 20/a 00
site bolt 00
"""
TEXT_SAID = """\
tenants: line 3: publisher given twice: give each publisher a name of its own
tenants: line 4: a publisher's name is 1 to 32 of a-z, 0-9 and -
tenants: line 5: LANES is a number from 2 to 64; the last lane is that of datagrams
tenants: line 6: PORT is a number from 1 to 65535
tenants: line 7: more than 64 lanes together: give this publisher fewer lanes, or a server of its own
tenants: line 9: prefix given twice: this publisher has it already
tenants: line 10: a prefix is a naming authority in lower case, such as 10 or 10.5072, without a slash, and not 0.na
tenants: line 11: this publisher has no line yet: write its line `publisher ..` before its prefixes
tenants: line 12: the word after the publisher is 2 for SHA-1 or 3 for SHA-256
tenants: line 13: the value is in words, and perhaps others below: `hdl tenants < WORDS > TEXT` makes the text of them
tenants: line 15: write: value HANDLE HEX, with single spaces; hdl tenants makes such lines of values in words
tenants: line 16: the handle's prefix has no line yet: write its line `prefix ..` before its values
tenants: line 17: the name has no slash
tenants: line 18: HEX is an even number of hexadecimal digits; hdl tenants makes them of a value in words
tenants: line 19: the value is cut short
tenants: line 20: a line begins with `publisher`, `prefix`, `site` or `value` and a space, or with `#`, or is empty
tenants: line 21: the word after the port is handle-net: the layout of values that, to our knowledge, Handle.Net software has
tenants: line 24: site information given twice: this publisher has it already
tenants: line 25: no line above gives this publisher `handle-net`: write its line `publisher .. handle-net` before this one
tenants: line 26: HEX is an even number of hexadecimal digits; hdl site makes them of an address
tenants: line 27: write: site NAME HEX, with single spaces; hdl site makes such a line of an address
"""
TEXT_HAS = """\
acme: port 2641, 7 lanes for connections; prefixes 10
bolt: port 2642, 3 lanes for connections; prefixes 20
12 of 64 lanes, 8 values
"""
SITE_TEXT = "publisher net 2 %d handle-net\nsite net 0001\n"
SITE_HAS = "net: port %d (handle-net), 1 lanes for connections, 2 octets of site information; prefixes\n2 of 64 lanes, 0 values\n"


# Of a text without values.
ALONE_HAS = (
    "acme: port %d, 3 lanes for connections; prefixes 10\n4 of 64 lanes, 0 values\n"
    "prefix 10: no HS_ADMIN value of 0.NA/10 names a key of this text, so no client can create handles, unless the table has such values\n"
)


def net():
    """Values by the layout of the Handle.Net software: what is read and sent, and a service for a text of `hdl init --handle-net`."""
    came = wire.frame(wire.values_reply(b"10/a", NET_URL), 0, 1)
    for words, wanted in ((["--handle-net"], (0, NET_SAID, "")), ([], (3, "", NO_REPLY + "\n"))):
        done = asked(lambda listener: served(listener, [came], []), ["resolve", "10/a", *words])
        yield " ".join(["a value of Handle.Net", *words]), (done.returncode, done.stdout, done.stderr) == (*wanted[:2], by(done, wanted[2]))
    for words, text in NET_WRITES:
        sent = []
        done = asked(lambda listener: served(listener, [wire.frame(reply(wire.CREATE), 0, 1)], sent), words, text)
        yield " ".join(words), done.returncode == 0 and sent == [wire.frame(NET_CREATE, 0, 1)]
    made = run(["init", "--handle-net", "10"])
    secret = re.search("HS_SECKEY 86400 1100 UTF8 ([0-9a-f]{64})$", made.stdout, re.MULTILINE)[1]
    text = run(["tenants"], made.stdout).stdout
    with servers.serving(lambda *ports: text.replace(" 2641 handle-net\n", " %d handle-net\n" % ports[0]).encode(), 1) as (port,):
        create = ["create", "10/a", "100 HS_ADMIN 86400 1110 ADMIN 300:111111111111:0.NA/10", "--key", "300:0.NA/10", "--server", "127.0.0.1:%d" % port]
        done = [run([*create, *more], HDL_SECRET=secret) for more in ([], ["--handle-net"])]
        shown = run(["resolve", "10/a", "--short", "--handle-net", "--server", "127.0.0.1:%d" % port])
        yield "hdl init --handle-net", [one.returncode for one in done] == [1, 0] and shown.stdout == "300:111111111111:0.NA/10\n"
        with tempfile.NamedTemporaryFile("w", suffix=".csv") as rows:
            rows.write("handle,type,data\n10/b,URL,https://example.org/b\n")
            rows.flush()
            import_ = ["import", "--csv", rows.name, "--key", "300:0.NA/10", "--handle-net", "--server", "127.0.0.1:%d" % port]
            done = [run(import_, HDL_SECRET=secret) for _ in range(2)]
            yield "hdl import --handle-net", [one.stdout for one in done] == ["1 created, 0 there already, 0 failed\n", "0 created, 1 there already, 0 failed\n"]


def sites():
    """The data of HS_SITE values, made and shown; and the same by files."""
    for words, said in SITES:
        done = run(["site", *words])
        yield " ".join(["hdl site", *words])[:60], (done.returncode, done.stdout) == (0, said)
    with tempfile.TemporaryDirectory() as folder:
        key, out = os.path.join(folder, "key"), os.path.join(folder, "siteinfo.bin")
        with open(key, "wb") as file:
            file.write(b"\0\1\2")
        done = run(["site", "--address", "192.0.2.7", "--udp", "--public-key", key, "--out", out])
        with open(out, "rb") as file:
            written = file.read()
        yield "hdl site --out", (done.returncode, done.stdout) == (0, "") and written == SITE[:40] + b"\0\0\0\3\0\1\2" + SITE[44:]
        done = run(["site", "--read", out])
        yield "hdl site --read FILE", (done.returncode, done.stdout) == (0, SITE_SAID.replace("key of 0", "key of 3"))
    for name, message, wanted in SITE_ANSWERS:
        for more in ([], ["--handle-net"]):
            came = []
            done = asked(lambda listener: served(listener, [wire.frame(message, 0, 1)], came), ["site", *more], option="--of")
            yield "hdl site --of: " + name, (done.returncode, done.stdout, done.stderr) == (*wanted[:2], by(done, wanted[2])) and came == [SITE_ASKED]
    for digits, said in ((SITE.hex(), SITE_SAID), ("0g", ";; no hexadecimal digits\n"), ("00", ";; no data of an HS_SITE value\n")):
        yield "hdl explain of a line of site information", run(["explain"], "site acme %s\n" % digits).stdout == "site acme\n" + said


def checks():
    """`handled check` of a text with faults of each kind, of one without, and of one with an index twice."""
    good, has = repository.text_of("examples", "serve.tenants"), TEXT_HAS
    # a port that is taken would be said
    for port, free in zip(("2641", "2642"), servers.free_ports(2)):
        good, has = good.replace(" %s\n" % port, " %d\n" % free), has.replace(port, str(free))
    line = next(line for line in good.splitlines() if line.startswith("value 10/report-7"))
    twice = "tenants: line %d: the handle has a value with this index already: give each value an index of its own\n" % (len(good.splitlines()) + 1)
    port, = servers.free_ports(1)
    alone = "publisher acme 4 %d\nprefix 10 acme\n" % port
    texts = (
        ("a prefix without an administrator", alone, (0, ALONE_HAS % port, "")),
        ("faults", TEXT_FAULTS, (3, "", TEXT_SAID)), ("none", good, (0, has, "")), ("twice", good + line + "\n", (3, "", twice)),
        ("site information", SITE_TEXT % port, (0, SITE_HAS % port, "")),
    )
    for name, text, wanted in texts:
        done = subprocess.run([servers.HANDLED, "check"], input=text, capture_output=True, text=True, check=False, timeout=60 * servers.SLOWER)
        yield "handled check: " + name, (done.returncode, done.stdout, done.stderr) == wanted


def by(done, said):
    """What is said, with the server that the last argument names in the place of SERVER."""
    return said.replace("SERVER", done.args[-1])


def exchanges():
    """Each whole exchange: its name, and whether just these octets were sent and all went well."""
    for name, sent, wanted in WHOLE:
        came = []
        done = deleted(sent, came)
        yield name, done.returncode == 0 and came == wanted
    for name, sent, words, said in ANSWERS:
        done = asked(lambda listener: served(listener, [sent], []), words)
        yield name, (done.returncode, done.stdout + done.stderr) == (0, said)
    for name, message, words, said in OTHERS:
        done = asked(lambda listener: served(listener, [wire.frame(message, 0, 1)], []), words)
        yield name, (done.returncode, done.stdout, done.stderr) == (3, "", by(done, said))
    done = asked(lambda listener: served(listener, OTHER_BEHIND, []), ["resolve", "10/a", "--key", "300:0.NA/10"])
    yield "another handle's values behind a challenge", (done.returncode, done.stdout, done.stderr) == (3, "", by(done, OTHER_HANDLE))
    done = asked(lambda listener: served(listener, [wire.frame(wire.values_reply(b"9/other", PLAIN), 0, 1)], []), ["batch"], "RESOLVE 10/a\n")
    yield "another handle's values in a batch", (done.returncode, done.stdout, done.stderr) == (3, "0 succeeded, 0 failed\n", by(done, OTHER_HANDLE[:-1] + "; 1 without an outcome\n"))
    came = []
    done = asked(lambda listener: served(listener, [KEY_DONE], came), ["batch"], KEY_BATCH)
    yield "a key by a batch", done.returncode == 0 and came == [KEY_ASKED] and SECRET not in done.stdout + done.stderr
    for words, operation, said in TOO_LONG:
        sent = wire.frame(reply(operation, 2, wire.number(0)), 0, 1)
        done = asked(lambda listener: served(listener, [sent], []), words)
        yield "%s that is too long" % words[0], (done.returncode, done.stderr) == (1, said)
    for words, operation, code, said in REFUSALS:
        sent = wire.frame(reply(operation, code, wire.number(0)), 0, 1)
        done = asked(lambda listener: served(listener, [sent], []), words)
        yield "%s that is refused" % words[0], (done.returncode, done.stderr) == (1, said)
    for prefix in (b"0.NA/hdl:10", b"0.NA/10"):
        sent = wire.frame(reply(wire.RESOLVE, 302, wire.reference(prefix, 0)), 0, 1)
        done = asked(lambda listener: served(listener, [sent], []), ["resolve", "%s/a" % prefix[5:].decode()])
        said = "write the handle alone, such as 10/a" if b"hdl" in prefix else "this port doesn't serve the prefix: name its publisher's port by --server"
        yield "another port's handle", (done.returncode, done.stderr) == (1, "hdl: 302 service referral: %s\n" % said)
    done = asked(lambda listener: served(listener, [OWN], []), ["batch"], "DELETE 10/c\n")
    said = "line 1: DELETE 10/c: 402 authentication needed: write AUTHENTICATE SECKEY:INDEX:HANDLE, such as SECKEY:300:0.NA/10, before the operation, and its secret on the next line\n"
    yield "a batch without a key", (done.returncode, done.stdout, done.stderr) == (1, said + "0 succeeded, 1 failed\nfailed: line 1\n", "")
    for text, operation, code, said in BATCH_LINES:
        sent = wire.frame(reply(operation, code, b"" if code == wire.SUCCESS else wire.number(0)), 0, 1)
        done = asked(lambda listener: served(listener, [sent], []), ["batch"], text)
        yield "a line of a batch: " + said, done.stdout.splitlines()[0] == "line 1: %s: %d %s" % (text.splitlines()[0], code, said)
    for code, body, said in (wire.SUCCESS, b"", WARNED_SAID), (101, wire.number(0), WARNED_REFUSED):
        done = asked(lambda listener: served(listener, [wire.frame(reply(wire.CREATE, code, body), 0, 1)], []), ["batch"], WARNED)
        yield "warnings of a batch", (done.returncode, done.stdout, done.stderr) == (int(code != wire.SUCCESS), said, "")
    done = asked(lambda listener: served(listener, [wire.frame(wire.short_reply(3), 0, 1)], []), CREATE)
    yield "a reply without an operation", done.stdout == ";; reply to create 1, session 0: 3 server busy\n"
    done = asked(lambda listener: served(listener, [absent(1)], []), ["batch"], CONTROL_BATCH)
    yield "control characters in a batch", done.returncode == 1 and done.stdout.splitlines() == CONTROL_SAID
    came = []
    done = asked(lambda listener: served_together(listener, came), ["batch"], FLIGHT)
    yield "requests in flight", done.returncode == 1 and came == FLIGHT_ASKED and done.stdout.splitlines() == FLIGHT_SAID
    came = []
    done = asked(lambda listener: served(listener, KEYS_SENT, came), ["batch"], KEYS)
    yield "two keys", done.returncode == 0 and came == KEYS_ASKED and done.stdout.splitlines() == KEYS_SAID
    came = []
    done = asked(lambda listener: served_in_turn(listener, came), ["batch"], ALONE)
    yield "a delete among creates", done.returncode == 0 and came == ALONE_ASKED


def cases():
    """What is asked, what came, and the status and the words that should."""
    for name, sent, status, said in SERVERS:
        done = deleted(sent, [])
        yield name, done, status, by(done, said)
    done = deleted([b"HTTP/1.1 400 Bad Request\r\n\r\n"], [])
    yield "another service", done, 3, by(done, "hdl: SERVER: what answers there is no handle server, but perhaps the port of `hdl proxy`, or another program: check --server" + MAYBE)
    done = asked(lambda listener: served_slowly(listener, DONE), ["delete", "10/c", "--key", "300:0.NA/10"])
    yield "an octet a second", done, 3, by(done, LATE + MAYBE)
    for server, said in UNREACHED:
        yield "no connection to " + server, run(["resolve", "10/a", "--server", server]), 3, "hdl: %s: %s" % (server, said)
    yield "no connection for a batch", run(["batch", "--server", "127.0.0.1:1"], "DELETE 10/a\n"), 3, "hdl: 127.0.0.1:1: %s; 1 without an outcome" % NOBODY
    for words, text, said in WORDS:
        yield " ".join(words), run(words, text), 2, said


def inputs():
    """Input that no command takes: a file as a word, octets that are no text, and a text without values."""
    done = run(["tenants", "words"])
    yield "a file as a word", done.returncode == 2 and done.stderr.endswith("\nThe command reads standard input: write `hdl tenants < FILE`, and ` > NEW` to keep what it prints.\n")
    done = run(["resolve", "10/a", "10/b"])
    yield "a word too many of another command", done.returncode == 2 and "standard input" not in done.stderr
    done = subprocess.run([PROGRAM, "tenants"], input=b"\xff\n", capture_output=True, check=False, timeout=60 * servers.SLOWER)
    yield "no UTF-8", done.returncode == 1 and done.stderr.startswith(b"hdl: ") and done.stderr.endswith(b": save the text on standard input as UTF-8\n")
    ours, theirs = os.openpty()
    os.write(ours, b"\4")
    done = subprocess.run([PROGRAM, "tenants"], stdin=theirs, capture_output=True, check=False, timeout=60 * servers.SLOWER)
    yield "a terminal", (done.returncode, done.stderr) == (0, b"hdl: standard input is read: type lines, and Ctrl-D at the end, or end the command with < FILE\n")
    os.write(ours, SECRET.encode() + b"\n")
    words = [PROGRAM, "delete", "10/c", "--key", "300:0.NA/10", "--server", "127.0.0.1:1"]
    done = subprocess.run(words, stdin=theirs, env={name: value for name, value in os.environ.items() if name != "HDL_SECRET"}, capture_output=True, check=False, timeout=60 * servers.SLOWER)
    yield "a secret from a terminal", done.returncode == 3 and done.stderr.startswith(b"hdl: HDL_SECRET isn't set: type the secret of the key, and Enter (it will be visible; HDL_SECRET or a file avoids that)\nhdl: 127.0.0.1:1: ")
    os.close(ours)
    os.close(theirs)
    done = run(["export"], "publisher acme 4 2641\nprefix 10 acme\n")
    said = ("hdl: 0 values written, 0 keys left out, 0 that a CSV row can't express\n"
            "hdl: the text has no value in digits: `handled export` makes such a text of a table, and `hdl tenants` of words\n")
    yield "an export of no values", (done.returncode, done.stderr) == (0, said)


def main():
    passed = failed = 0
    for name, good in [*exchanges(), *net(), *sites(), *fresh(), *checks(), *inputs(), *versions()]:
        passed, failed = passed + good, failed + (not good)
        if not good:
            print("%s: other octets than those that should be" % name)
    for name, done, status, said in cases():
        good = (done.returncode, done.stderr.strip()) == (status, said) and SECRET not in done.stdout + done.stderr
        passed, failed = passed + good, failed + (not good)
        if not good:
            print("%s: status %d, %r; it should be %d, %r" % (name, done.returncode, done.stderr.strip(), status, said))
    print("%d passed, %d failed" % (passed, failed))
    return 1 if failed else 0


sys.exit(main())

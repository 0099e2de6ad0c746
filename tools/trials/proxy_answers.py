"""proxy_answers.py: asks the proved program crates/hdl_web/out/hdl_web (`hdl proxy`) over HTTP, and compares whole answers: of real servers behind it (the proved
program crates/handled/out/handled), of servers in this program that answer badly, and of none; heads that are too long, clients that are
slow, and a thousand that are idle.

It takes some 25 seconds, of which most is waiting. Its last line is 'N passed, M failed', a case counting one."""

import contextlib
import os
import re
import resource
import socket
import struct
import subprocess
import sys
import threading
import time

# nothing is left beside the tools
sys.dont_write_bytecode = True
import openapi
from lib import answers, repository, servers, wire
from lib.proxy_cases import ARCHIVE_WAY, A_ONE, A_PAGE, A_THREE, A_TWO, A_WAY, CHAIN, DAY, JSONS, KEPT, MANY, NEVER, NO_URL, OPTIONS, PAGES, PRETTY, SCRIPT_PAGE, TENANTS, WILD_PAGE
from lib.proxy_german import english_in, in_german
from lib.proxy_pages import (
    ABSENT, CONTACT, CROWDED, ELSEWHERE, FOLLOW, FORM, FRONT, HIDDEN, ICON, LATER, LOOK, READING, ROBOTS, SITE, SITE_TEXT, UNANSWERED, answered_nowhere, empty, json_refusal, json_text, json_values,
    led_to, meant, nameless, refusal, text, value, values, way, written_on)

PROGRAM = os.environ.get("PROXY", repository.program("hdl_web"))
WORDS = os.environ.get("HDL", repository.program("hdl"))
IDLE = 1000
# Each request and the status of its answer.
ANSWERED = set()
# The most seconds in which something that takes ten should have come, on a machine that others use too.
PATIENCE = 20
SECRET = b"never-shown"


def shown(*values):
    return wire.values_reply(b"10/a", *values)


def url(index, data):
    return wire.value(index, b"URL", data, READABLE, 86400)


def until(index, data):
    """A URL value that may be kept until a moment."""
    return (wire.number(index) + wire.string(b"URL") + wire.string(data) + b"\1" + wire.number(4294967295) + bytes([READABLE]) + bytes(8) + wire.number(0))


READABLE = wire.ADMIN_READ | wire.ADMIN_WRITE | wire.PUBLIC_READ
ASKED = wire.resolution(b"10/a", flags=wire.PUBLIC_ONLY)
# 2026-11-25T18:20:41.07Z, in milliseconds; what is told has whole seconds
WRITTEN = 1795630841070
HIDDEN_VALUES = (wire.value(1, b"NOTE", SECRET, wire.ADMIN_READ | wire.ADMIN_WRITE, 5), wire.value(2, b"HS_SECKEY", SECRET, READABLE, 5))
HIDDEN_ALONE = shown(*HIDDEN_VALUES)
LEAKING = shown(*HIDDEN_VALUES, wire.value(3, b"TEXT", b"open", READABLE, 60))
UNTIL = shown(until(1, b"https://example.org/until"), wire.value(2, b"TEXT", b"open", READABLE, 86400))
LONG = shown(wire.value(1, b"URL", b"https://example.org/long", READABLE, 4294967295))
GOOD = shown(url(2, b"https://example.org/second"), url(1, b"HTTPS://example.org/first"))


def stamped(index, data, ttl, is_moment=False):
    """A TEXT value with a timestamp, and a TTL in seconds or until a moment."""
    return (wire.number(index) + wire.string(b"TEXT") + wire.string(data) + bytes([is_moment]) + wire.number(ttl) + bytes([READABLE]) + struct.pack(">Q", WRITTEN)
            + wire.number(0))


def short(code):
    """The frame of a reply with nothing but its code."""
    return lambda request: wire.frame(wire.message(wire.RESOLVE, wire.number(0), code), 0, request)


def silence(_):
    time.sleep(2)
    return b""


# What a server in this program answers to the first question of a connection, and how the proxy answers then.
REPLIES = (
    ("values in any order", lambda n: wire.frame(GOOD, 0, n), 302, KEPT % 86400, way("10/a", "HTTPS://example.org/first")),
    ("hidden values and a key", lambda n: wire.frame(LEAKING, 0, n), 200, KEPT % 60, values("10/a", value("TEXT", 3, text("open")), wrong=NO_URL)),
    ("values that nobody may read", lambda n: wire.frame(HIDDEN_ALONE, 0, n), 200, NEVER, empty("10/a", NO_URL)),
    ("a moment as a TTL, and one beyond a day", lambda n: wire.frame(UNTIL, 0, n), 302, KEPT % 0, way("10/a", "https://example.org/until")),
    ("a TTL beyond a day", lambda n: wire.frame(LONG, 0, n), 302, KEPT % 86400, way("10/a", "https://example.org/long")),
    ("when it was written", lambda n: wire.frame(shown(stamped(1, b"open", 45)), 0, n), 200, KEPT % 45,
     values("10/a", value("TEXT", 1, text("open"), written_on("2026-11-25T18:20:41Z")), wrong=NO_URL)),
    ("until a moment", lambda n: wire.frame(shown(stamped(1, b"open", 4294967295, True)), 0, n), 200, KEPT % 0,
     values("10/a", value("TEXT", 1, text("open"), written_on("2026-11-25T18:20:41Z")), wrong=NO_URL)),
    ("it is busy", short(3), 503, NEVER, refusal("10/a", CROWDED, LATER, "No answer")),
    ("it says that this is no handle", short(102), 400, NEVER, refusal("10/a", "The server says that this is no handle.", FORM, "No handle")),
    ("it is silent", silence, 502, NEVER, refusal("10/a", UNANSWERED, LATER, "No answer")),
    ("another code", short(2), 502, NEVER, refusal("10/a", "The server couldn&#39;t answer.", LATER, "No answer")),
    ("another handle", lambda n: wire.frame(wire.values_reply(b"10/b"), 0, n), 502, NEVER, refusal("10/a", UNANSWERED, LATER, "No answer")),
    ("another request", lambda n: wire.frame(GOOD, 0, n + 7), 502, NEVER, refusal("10/a", UNANSWERED, LATER, "No answer")),
    ("no frame", lambda n: b"HTTP/1.1 400 Bad Request\r\n\r\n", 502, NEVER, refusal("10/a", UNANSWERED, LATER, "No answer")),
    ("it closes at once", lambda n: b"", 502, NEVER, refusal("10/a", UNANSWERED, LATER, "No answer")),
)
# A value that was written at a moment, as JSON.
STAMPED = '{"data":%s,"index":1,"timestamp":"2026-11-25T18:20:41Z","ttl":45,"type":"TEXT"}' % json_text("open")
LOCATIONS = {"values in any order": "HTTPS://example.org/first", "a moment as a TTL, and one beyond a day": "https://example.org/until",
             "a TTL beyond a day": "https://example.org/long"}


def more_files():
    limit = resource.getrlimit(resource.RLIMIT_NOFILE)[1]
    resource.setrlimit(resource.RLIMIT_NOFILE, (limit, limit))


@contextlib.contextmanager
def proxy(behind, *options, site=("--site", SITE, "--contact", CONTACT), prefixes=None, host="127.0.0.1", browsers=DAY):
    """A proxy before the servers at these ports, each with its prefix where there are some: its own port."""
    (port,) = servers.free_ports(1)
    words = [PROGRAM, "--listen", "%s:%d" % (host, port), *site, *options]
    if browsers is not None:
        words += ["--browser-cache", str(browsers)]
    for place, server in enumerate(behind):
        words += ["--server", "127.0.0.1:%d%s" % (server, "=" + prefixes[place] if prefixes else "")]
    with servers.running(words, 1):
        yield port


def heard(stream, patience=30):
    """All that comes until the end."""
    stream.settimeout(patience)
    octets = b""
    with contextlib.suppress(ConnectionResetError):
        while piece := stream.recv(65536):
            octets += piece
    return octets


def said(port, octets, host="127.0.0.1"):
    with socket.create_connection((host, port)) as stream:
        stream.sendall(octets)
        return heard(stream)


def request(line, close=True, more=""):
    return ("%s HTTP/1.1\r\nhost: h\r\n%s%s\r\n" % (line, more, "connection: close\r\n" if close else "")).encode()


def answered(port, line, more="", host="127.0.0.1"):
    """The whole answer to a request, without its moment."""
    answer = answers.undated(said(port, request(line, more=more), host))
    if re.match(rb"HTTP/1.1 \d{3} ", answer):
        ANSWERED.add((*line.split(" ", 1), int(answer[9:12])))
    return answer


def wanted(status, kept, location, body, **how):
    """The whole answer that a page or a redirect is."""
    if location:
        return answers.way(kept, location, body[1], **how)
    return answers.page(status, kept, *body, **how)


def asked(line, path):
    """A line with its path under /api/handles, in which `..` stands for /api."""
    method, rest = line.split(" ", 1)
    return "%s %s" % (method, (path + rest).replace("/handles/..", ""))


def pages(port):
    for line, *answer in PAGES:
        yield line, answered(port, line) == wanted(*answer)
    for line, status, kept, body in JSONS:
        yield line, answered(port, asked(line, "/api/handles")) == answers.json(status, kept, body)
    yield "the front page", answered(port, "GET /") == answers.page(200, KEPT % 0, *FRONT)
    both = said(port, request("GET /10/none", False) + request("GET /20/archive"))
    none = wanted(404, NEVER, None, refusal("10/none", ABSENT, LOOK), ends=False)
    yield "two requests on a connection", answers.undated(both) == none + wanted(*ARCHIVE_WAY)
    yield "HEAD", answered(port, "HEAD /10/a") == wanted(*A_WAY, has_body=False)
    yield "no host", answers.undated(said(port, b"GET /10/a HTTP/1.1\r\n\r\n")) == answers.unread(400)


def files(port):
    yield "robots.txt", answered(port, "GET /robots.txt") == answers.file(answers.TEXT, KEPT % DAY, ROBOTS)
    yield "the icon", answered(port, "GET /favicon.ico") == answers.file(answers.ICON, KEPT % DAY, ICON)
    yield "OPTIONS", answered(port, "OPTIONS /api/handles/10/a") == answers.whole(204, OPTIONS, "")


# Answers that may be kept, each with its body.
TAGGED = (
    ("GET /10/a?noredirect", answers.page(200, KEPT % 3600, *A_PAGE)),
    ("GET /10/script", answers.page(200, KEPT % 86400, *SCRIPT_PAGE)),
    ("GET /api/handles/10/a", answers.json(200, KEPT % 3600, json_values("10/a", A_ONE, A_TWO, A_THREE))),
    ("GET /api/handles/10/a?index=3&pretty", answers.json(200, KEPT % 86400, PRETTY)),
    ("GET /", answers.page(200, KEPT % 0, *FRONT)),
    ("GET /robots.txt", answers.file(answers.TEXT, KEPT % DAY, ROBOTS)),
)
UNTAGGED = (
    ("GET /10/a", wanted(*A_WAY)),
    ("GET /10/none", answers.page(404, NEVER, *refusal("10/none", ABSENT, LOOK))),
    ("GET /api/handles/10/none", answers.json(404, NEVER, json_refusal("10/none", "This handle isn't there.", 100))),
)


def again(port):
    """Each answer that may be kept is asked for once more, by a client that has it, and by one that has another one."""
    for line, whole in TAGGED:
        own = answers.tag(whole.partition(b"\r\n\r\n")[2].decode())
        for known, answer in ((own, answers.unchanged(whole)), ('"x", W/' + own, answers.unchanged(whole)), ("*", answers.unchanged(whole)), (own[:-1] + '0"', whole)):
            yield "%s with %s" % (line, known), answered(port, line, "if-none-match: %s\r\n" % known) == answer
    for line, whole in UNTAGGED:
        yield line + " has no tag", answered(port, line, "if-none-match: *\r\n") == whole


def spread(port):
    """Which of two locations is led to, 400 times, over one connection: one weighs three times what the other does."""
    with socket.create_connection(("127.0.0.1", port)) as stream:
        stream.sendall(b"".join(request("GET /10/spread", False) for _ in range(399)) + request("GET /10/spread"))
        came = answers.undated(heard(stream))
    each = [b"HTTP/1.1 " + one for one in came.split(b"HTTP/1.1 ")[1:]]
    ways = [[wanted(302, KEPT % 0, to, way("10/spread", to), ends=ends) for to in ("https://a.example.org/", "https://b.example.org/")] for ends in (False, True)]
    yield "each is one of two locations", len(each) == 400 and set(each[:-1]) == set(ways[0]) and each[-1] in ways[1]
    yield "locations by weight", 50 <= each.count(ways[0][0]) + each.count(ways[1][0]) <= 150


def too_long(port):
    line = "GET /10/%s" % ("a" * 9000)
    yield "a first line of 9,000 octets", answered(port, line) == answers.unread(414)
    head = b"GET /10/a HTTP/1.1\r\nhost: h\r\n" + b"x: %s\r\n" % (b"a" * 9000) + b"\r\n"
    yield "a field of 9,000 octets", said(port, head) == answers.unread(431)
    for count, answer in ((64, answers.file(answers.ICON, KEPT % DAY, ICON)), (65, answers.unread(431)), (200, answers.unread(431))):
        head = b"GET /favicon.ico HTTP/1.1\r\nhost: h\r\nconnection: close\r\n" + b"x: y\r\n" * (count - 2) + b"\r\n"
        yield "%d fields" % count, answers.undated(said(port, head)) == answer


def slow(port, ended):
    """A client that sends an octet a second: keeps after how many seconds it was dropped."""
    began = time.monotonic()
    with socket.create_connection(("127.0.0.1", port)) as stream:
        stream.settimeout(1)
        for octet in request("GET /10/a"):
            with contextlib.suppress(socket.timeout):
                try:
                    stream.sendall(bytes([octet]))
                    if not stream.recv(65536):
                        break
                except (ConnectionResetError, BrokenPipeError):
                    break
    ended.append(time.monotonic() - began)


def is_ended(stream):
    try:
        return not stream.recv(65536)
    except ConnectionResetError:
        return True
    except BlockingIOError:
        return False


def idle(port):
    ended = []
    client = threading.Thread(target=slow, args=(port, ended), daemon=True)
    client.start()
    with contextlib.ExitStack() as stack:
        streams = [stack.enter_context(socket.create_connection(("127.0.0.1", port))) for _ in range(IDLE)]
        began = time.monotonic()
        answer = answered(port, "GET /20/archive")
        yield "%d idle clients, and one that is answered" % IDLE, answer == wanted(*ARCHIVE_WAY) and time.monotonic() - began < 5 * servers.SLOWER
        for stream in streams:
            stream.setblocking(False)
        yield "idle clients are left alone", not any(is_ended(stream) for stream in streams)
        while streams and time.monotonic() - began < PATIENCE:
            time.sleep(0.2)
            streams = [stream for stream in streams if not is_ended(stream)]
        yield "idle clients are dropped behind 10 seconds", not streams and time.monotonic() - began > 9
    client.join(PATIENCE)
    yield "a slow client is dropped behind 10 seconds", len(ended) == 1 and 9 < ended[0] < PATIENCE
    yield "others are answered behind them", answered(port, "GET /20/archive") == wanted(*ARCHIVE_WAY)


# For how long browsers keep redirects whose values may be kept for a day, for a minute, and not without asking again: by the word of the command line, if there is one.
BROWSERS = (
    (None, (("GET /20/archive", 300), ("GET /20/host", 60), ("GET /20/archive?auth", 0), ("GET /20/archive", 300))),
    (60, (("GET /20/archive", 60), ("GET /10/a", 60))),
    (0, (("GET /20/archive", None), ("GET /10/a", None))),
)


def browsers(behind):
    """Redirects are kept by browsers for the shorter time, also where their answers are kept here; pages and JSON as long as their values."""
    whole = dict((line, answer) for line, *answer in PAGES)
    for most, cases in BROWSERS:
        for options in ((), ("--cache", "600")):
            with proxy(behind, *options, browsers=most) as port:
                for line, seconds in cases * 2:
                    _, _, to, body = whole[line.replace("?auth", "")]
                    kept = NEVER if seconds is None else KEPT % seconds
                    yield "%s, --browser-cache %s %s" % (line, most, options), answered(port, line) == wanted(302, kept, to, body)
                yield "a page, --browser-cache %s" % most, answered(port, "GET /10/script") == answers.page(200, KEPT % 86400, *SCRIPT_PAGE)
                yield "JSON, --browser-cache %s" % most, answered(port, "GET /api/handles/10/a") == answers.json(200, KEPT % 3600, json_values("10/a", A_ONE, A_TWO, A_THREE))


def in_language(lang, status, kept, location, body, varies=True):
    """The whole answer in this language: a redirect has none."""
    if location:
        return wanted(status, kept, location, body)
    page = in_german(body) if lang == "de" else body
    return answers.page(status, kept, *page, lang=lang, varies=varies)


# Which language a field `Accept-Language` prefers.
PREFERRED = (
    (b"de", "de"), (b"DE", "de"), (b"de-AT", "de"), (b"de-AT,de;q=0.9,en;q=0.5", "de"), (b"en;q=0.3, de;q=0.4", "de"), (b"fr, de;q=0.1", "de"), (b"de;q=0.001", "de"), (b"de ; q=0.7 , en ; q=0.6", "de"),
    (b"de;q=0.25,en;q=0.249", "de"), (b"de;q=1.000,en;q=0.999", "de"), (b"en;q=0,de;q=0.1", "de"),
    (b"en", "en"), (b"en-US,en;q=0.9", "en"), (b"en,de;q=0.9", "en"), (b"de,en", "en"), (b"en,de", "en"), (b"*", "en"), (b"de;q=0", "en"), (b"de;q=0.5,*;q=0.8", "en"), (b"de;q=0.5,*", "en"), (b"fr", "en"), (b"den", "en"),
    (b"d", "en"), (b"", "en"), (b"de;q=x", "en"), (b"nl;q=de", "en"), (b"\xff,de", "en"),
)


def german(behind):
    """Pages are in the language that the request prefers, or in that of the command line; all else stays as it is."""
    german_field, english_field = "accept-language: de-DE,de;q=0.9,en;q=0.8\r\n", "accept-language: en\r\n"
    front = (200, KEPT % 0, None, FRONT)
    with proxy(behind) as port:
        for line, *answer in (*PAGES, ("GET /", *front)):
            came = answered(port, line, german_field)
            yield line + " in German", came == in_language("de", *answer) and (answer[2] or not english_in(came.decode()))
        for line, status, kept, body in JSONS:
            yield line + " as JSON, for who prefers German", answered(port, asked(line, "/api/handles"), german_field) == answers.json(status, kept, body)
        for field, lang in PREFERRED:
            came = said(port, b"GET /10/script HTTP/1.1\r\nhost: h\r\naccept-language: %s\r\nconnection: close\r\n\r\n" % field)
            yield "accept-language: %r" % field, answers.undated(came) == in_language(lang, 200, KEPT % 86400, None, SCRIPT_PAGE)
        german_page, english_page = (in_language(lang, 200, KEPT % 86400, None, SCRIPT_PAGE) for lang in ("de", "en"))
        tags = [answers.tag(page.partition(b"\r\n\r\n")[2].decode()) for page in (german_page, english_page)]
        yield "the tag of the other language's page isn't its own", tags[0] != tags[1] and answered(port, "GET /10/script", german_field + "if-none-match: %s\r\n" % tags[1]) == german_page
        yield "the tag of a German page", answered(port, "GET /10/script", german_field + "if-none-match: %s\r\n" % tags[0]) == answers.unchanged(german_page)
    for lang, field in (("de", english_field), ("en", german_field), ("de", ""), ("en", "")):
        with proxy(behind, "--lang", lang, "--cache", "600") as port:
            for line, *answer in (*PAGES, ("GET /", *front)):
                yield "%s, --lang %s %s" % (line, lang, field.strip()), answered(port, line, field) == in_language(lang, *answer, varies=False)
    with proxy(behind, "--cache", "600") as port:
        for lang, field in (("en", english_field), ("de", german_field)) * 2:
            for line, *answer in PAGES:
                yield "%s in %s, from the cache" % (line, lang), answered(port, line, field) == in_language(lang, *answer)


ADDRESS = "https://handles.example.org/"
# What is pasted at a site of this address, and the path to which it leads.
OWN = (
    ("https%3A%2F%2Fhandles.example.org%2F10%2Fa%2520b", "10/a b", "/10/a%20b"),
    ("+HTTPS%3A%2F%2FHandles.Example.org%2Fhdl%3A10%2Fa", "hdl:10/a", "/hdl%3A10/a"),
    ("https%3A%2F%2Fhdl.handle.net%2F10%2Fa", "10/a", "/10/a"),
)
ELSEWHERE_SENT, ELSEWHERE_NAME = "https%3A%2F%2Fhandles.example.org.evil.example%2F10%2Fa", "https://handles.example.org.evil.example/10/a"


def at_own_address(behind):
    """Pages of handles say where they are cited, and what is pasted is understood."""
    with proxy(behind, "--address", ADDRESS) as port:
        for sent, name, to in OWN:
            yield "%s is pasted" % sent, answered(port, "GET /?handle=" + sent) == wanted(302, NEVER, to, way(name, to))
        path = "/https%3A//handles.example.org.evil.example/10/a"
        yield "another address is a name as it is", answered(port, "GET /?handle=" + ELSEWHERE_SENT) == wanted(302, NEVER, path, way(ELSEWHERE_NAME, path))
        for line, status, kept, page, handle in (("GET /10/a?noredirect", 200, KEPT % 3600, A_PAGE, "10/a"), ("GET /20/wild?noredirect", 200, KEPT % 86400, WILD_PAGE, "20/wild"),
                                                 ("GET /10/shown", 200, KEPT % 3600, led_to("10/shown", SCRIPT_PAGE), "10/script")):
            yield line + " at its address", answered(port, line) == answers.page(status, kept, *page, cited=(ADDRESS + handle, SITE_TEXT))
        for line, *answer in (("GET /10/none", 404, NEVER, None, refusal("10/none", ABSENT, LOOK)), ("GET /20/archive", *ARCHIVE_WAY)):
            yield line + " has no address", answered(port, line) == wanted(*answer)
    for word in ("handles.example.org", "https://handles.example.org", "ftp://handles.example.org/", "https://h.example/ /"):
        done = subprocess.run([PROGRAM, "--server", "127.0.0.1:1", "--address", word], capture_output=True, text=True, check=False, timeout=60 * servers.SLOWER)
        yield "--address " + word, (done.returncode, done.stdout) == (2, "") and done.stderr.startswith("error: --address %s: write http" % word)


def faulty_addresses():
    """A server or an address without a port, a contact that is none, and an address at which no one can listen here, are said before anything is served."""
    port = "write HOST:PORT, such as 127.0.0.1:2641 or [::1]:2641\n"
    for words, status, said in (
        (["--server", "127.0.0.1"], 2, "error: --server 127.0.0.1: " + port),
        (["--server", "::1:2641"], 2, "error: --server ::1:2641: " + port),
        (["--server", ":2641=10"], 2, "error: --server :2641=10: " + port),
        (["--server", "h:1", "--standby", "h:handle=10"], 2, "error: --standby h:handle=10: " + port),
        (["--server", "h:1", "--listen", "8080"], 2, "error: --listen 8080: write an IP address with a port, such as 127.0.0.1:8080 or [::1]:8080\n"),
        (["--server", "h:1", "--lang", "fr"], 2, "error: --lang fr: write en or de, or leave it out\n"),
        (["--server", "h:1", "--site", " "], 2, "error: --site is empty: write the site's name, such as 'Handles of the library', or leave it out\n"),
        (["--server", "h:1", "--contact", "Tom Harbour"], 2,
         "error: --contact Tom Harbour: write a mail address or a URL, such as handles@example.org or https://example.org/contact\n"),
        (["--server", "h:1", "--log", "/none/visits.log"], 1, "hdl: --log /none/visits.log: No such file or directory (os error 2): name a file that the proxy's user may write, in a folder that is there\n"),
        (["--server", "h:1", "--listen", "203.0.113.1:8080"], 1, "hdl: --listen 203.0.113.1:8080: Cannot assign requested address (os error 99): name an address of this machine, see `ip addr`\n"),
    ):
        done = subprocess.run([PROGRAM, *words], capture_output=True, text=True, check=False, timeout=60 * servers.SLOWER)
        yield " ".join(words), (done.returncode, done.stdout, done.stderr) == (status, "", said)


def absent_questions():
    """What is asked of a handle that isn't there: of a page two others that may be meant, of JSON none."""
    for path, names in (("/10/Ab.", ("10/Ab.", "10/Ab", "10/ab")), ("/10/ab", ("10/ab", "10/AB")), ("/10/1", ("10/1",)), ("/10/!", ("10/!",)), ("/api/handles/10/Ab.", ("10/Ab.",))):
        came = []
        with socket.create_server(("127.0.0.1", 0)) as listener:
            threading.Thread(target=serve_badly, args=(listener, short(100), came), daemon=True).start()
            with proxy([listener.getsockname()[1]], "--timeout", "1") as port:
                status = answered(port, "GET " + path).split(b" ")[1]
        asked = [wire.resolution(name.encode(), flags=wire.PUBLIC_ONLY) for name in names]
        yield path + " isn't there", status == b"404" and [octets[20:] for octets in came] == asked


def serve_badly(listener, reply, came):
    """Answers the first question of each connection so, and closes it; keeps what came."""
    with contextlib.suppress(OSError):
        while True:
            stream = listener.accept()[0]
            with stream, contextlib.suppress(OSError):
                stream.settimeout(10)
                asked = stream.recv(65536)
                came.append(asked)
                stream.sendall(reply(struct.unpack(">I", asked[8:12])[0]))


def replies():
    """Servers in this program. Behind the first questions each is asked over connections that it has closed."""
    for name, reply, status, kept, body in REPLIES:
        came = []
        with socket.create_server(("127.0.0.1", 0)) as listener:
            threading.Thread(target=serve_badly, args=(listener, reply, came), daemon=True).start()
            with proxy([listener.getsockname()[1]], "--timeout", "1") as port:
                for _ in range(1 if reply is silence else 4):
                    yield name, answered(port, "GET /10/a") == wanted(status, kept, LOCATIONS.get(name), body)
                if name == "when it was written":
                    yield name + ": JSON", answered(port, "GET /api/handles/10/a") == answers.json(200, kept, json_values("10/a", STAMPED))
            yield name + ": what is asked", {asked[20:] for asked in came} == {ASKED}


def otherwise(behind):
    """All answers are the same before servers that are named with their prefixes, and where answers are kept, asked for once and again."""
    for options, prefixes in (((), ("10", "20")), (("--cache", "600", "--threads", "2"), None)):
        with proxy(behind, *options, prefixes=prefixes) as port:
            for _ in range(2):
                yield from (("%s %s" % (name, " ".join(options) or prefixes), holds) for name, holds in pages(port))


def without_servers():
    """What is kept is answered as it was once the servers are gone: of refusals that a handle isn't there alone."""
    process, behind = servers.serve(tenants, 2)
    with proxy(behind, "--cache", "600") as port:
        for line, *_ in PAGES:
            answered(port, line)
        servers.end(process)
        for line, status, kept, to, body in PAGES:
            if ELSEWHERE in body[1] or HIDDEN in body[1]:
                status, body = 502, answered_nowhere(body)
            if meant("10/secret") in body[1]:
                body = refusal("10/secret.", ABSENT, LOOK)
            yield line + " without servers", answered(port, line) == wanted(status, kept, to, body)


# Whom readers ask, and how that stands at the foot of a page.
CONTACTS = (
    (("--contact", 'https://example.org/?a=1&b="<x>"'),
     '<footer>Questions? <a href="https://example.org/?a=1&amp;b=%22%3Cx%3E%22"><bdi>https://example.org/?a=1&amp;b=&quot;&lt;x&gt;&quot;</bdi></a></footer>\n'),
    (("--contact", "Tom <t@example.org>"), '<footer>Questions? <a href="mailto:Tom%20%3Ct@example.org%3E"><bdi>Tom &lt;t@example.org&gt;</bdi></a></footer>\n'),
    ((), ""),
)
# What is counted before anything was asked, of a server.
METRICS = """# HELP hdl_proxy_info The program's version.
# TYPE hdl_proxy_info gauge
hdl_proxy_info{version="%s"} 1
# HELP hdl_proxy_answers_total Answers, by kind and status.
# TYPE hdl_proxy_answers_total counter
# HELP hdl_proxy_answers_kept_total Answers from the cache.
# TYPE hdl_proxy_answers_kept_total counter
hdl_proxy_answers_kept_total 0
# HELP hdl_proxy_log_lines_lost_total Lines of the log that were lost.
# TYPE hdl_proxy_log_lines_lost_total counter
hdl_proxy_log_lines_lost_total 0
# HELP hdl_proxy_standby_answers_total Answers of standbys.
# TYPE hdl_proxy_standby_answers_total counter
hdl_proxy_standby_answers_total 0
# HELP hdl_proxy_server_asked_total Questions asked, by server.
# TYPE hdl_proxy_server_asked_total counter
hdl_proxy_server_asked_total{server="127.0.0.1:%d"} 0
# HELP hdl_proxy_server_failed_total Questions that failed, by server.
# TYPE hdl_proxy_server_failed_total counter
hdl_proxy_server_failed_total{server="127.0.0.1:%d"} 0
# HELP hdl_proxy_server_left_out 1 while a server is left out after a failure.
# TYPE hdl_proxy_server_left_out gauge
hdl_proxy_server_left_out{server="127.0.0.1:%d"} 0
# HELP hdl_proxy_server_waiting Waiting questions, by server.
# TYPE hdl_proxy_server_waiting gauge
hdl_proxy_server_waiting{server="127.0.0.1:%d"} 0
"""
VERSION = re.search(r'VERSION: &str = "(.*)"', repository.text_of("crates", "hdl_programs", "src", "lib.rt"))[1]


def contacts():
    page = refusal("10/none", UNANSWERED, LATER, "No answer")
    for site, foot in CONTACTS:
        with proxy(servers.free_ports(1), site=site) as port:
            yield " ".join(site) or "no contact", answered(port, "GET /10/none") == answers.page(502, NEVER, *nameless(page, foot))


def of_itself(behind):
    """What the proxy tells of itself, and an answer, by IPv6."""
    with proxy(behind[:1], host="[::1]") as port:
        method = wanted(405, NEVER, None, refusal("/health", READING, FOLLOW, "Not done"))
        for line, answer in (("GET /metrics", answers.counts(METRICS % (VERSION, *behind[:1] * 4))), ("HEAD /metrics", answers.counts(METRICS % (VERSION, *behind[:1] * 4), has_body=False)), ("GET /health", answers.words(200, "ok\n")),
                             ("HEAD /health", answers.words(200, "ok\n", has_body=False)), ("POST /health", method), ("GET /10/a", wanted(*A_WAY))):
            yield line + " by IPv6", answered(port, line, host="::1") == answer


def alone(port):
    """A proxy whose servers aren't there."""
    yield "nobody listens", answered(port, "GET /10/a") == answers.page(502, NEVER, *refusal("10/a", UNANSWERED, LATER, "No answer"))
    yield "nobody listens: JSON", answered(port, "GET /api/handles/10/a") == answers.json(502, NEVER, json_refusal("10/a", UNANSWERED, 2))
    yield "it isn't well", answered(port, "GET /health") == answers.words(503, "every server is left out after a failure\n")


def tenants(*ports):
    return subprocess.run([WORDS, "tenants"], input=(TENANTS % (*ports, CHAIN, MANY)).encode(), capture_output=True, check=True, timeout=60 * servers.SLOWER).stdout


def main():
    more_files()
    cases = []
    with servers.serving(tenants, 2) as behind, proxy(behind) as port:
        for part in (pages, files, again, spread, too_long, idle):
            cases += part(port)
        cases += otherwise(behind)
        cases += browsers(behind)
        cases += german(behind)
        cases += at_own_address(behind)
        cases += of_itself(behind)
    for part in (without_servers, replies, contacts, faulty_addresses, absent_questions):
        cases += part()
    with proxy(servers.free_ports(2)) as port:
        cases += alone(port)
    cases += (("docs/openapi.json describes %d to %s %s" % (status, method, path), status in openapi.UNREAD or openapi.described(method, path, status)) for method, path, status in sorted(ANSWERED))
    return servers.tally(cases, "another answer than the one that should be")


if __name__ == "__main__":
    sys.exit(main())

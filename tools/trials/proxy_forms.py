"""proxy_forms.py: changes handles by the forms of the proved program crates/hdl_web/out/hdl_web (`hdl proxy --writes`) as a browser without scripts does: it reads each page, fills in
its fields and sends them. Behind it is a real server (the proved program crates/handled/out/handled).

Seen as well: the way from the front page to the form of a handle; how long browsers keep that a handle is gone; what another client changed meanwhile isn't overwritten, forms of other sites and forms without their token are refused, faults stand beside their fields, all text is escaped, and no page and no log has the secret. It takes
some 3 seconds. Its last line is 'N passed, M failed', a case counting one."""

import base64
import contextlib
import html
import html.parser
import http.client
import json
import os
import subprocess
import sys
import tempfile
import time
import urllib.parse

# nothing is left beside the tools
sys.dont_write_bytecode = True
from lib import repository, servers, wire
from lib.proxy_german import english_in

PROGRAM = os.environ.get("PROXY", repository.program("hdl_web"))
SECRET = "never:shown/%25+&\u00fc"
ADMIN = "300:0.NA/10"
OWN = {"Sec-Fetch-Site": "same-origin", "Origin": "null"}
GERMAN = {"Accept-Language": "de"}
SPACED = "This handle has a space in it. Is that meant?"
MARKED = "This handle ends in a mark such as a full stop, a bracket or a slash, which readers may leave out. Is that meant?"
CIRCLE = "This is the address of the handle itself, so it would lead in a circle. Type the address to which it shall lead."
MARKUP = "<b>\"'&\u202e"
WRONG_SECRET = "The secret isn't that of the key. Is there a space at its end?"
TOO_OLD = "This form is too old, so nothing was done: it can be sent for an hour, and until the server starts again. Please look at it and send it again."
OLD, NEW = "https://example.org/old", "https://example.org/new?a=1&b=%22"
READABLE = wire.ADMIN_READ | wire.ADMIN_WRITE | wire.PUBLIC_READ
KEPT = wire.ADMIN_READ | wire.ADMIN_WRITE


def administered(handle):
    return handle, wire.value(100, b"HS_ADMIN", wire.administrator(b"0.NA/10", 300, b"\x0f\xff"), READABLE, 86400)


OPENING = (
    administered(b"0.NA/10"),
    (b"0.NA/10", wire.value(300, b"HS_SECKEY", SECRET.encode(), KEPT, 86400)),
    (b"0.NA/10", wire.value(301, b"HS_SECKEY", b"other", KEPT, 86400)),
    administered(b"10/<a>"),
    (b"10/<a>", wire.value(2, b"TITLE", MARKUP.encode(), READABLE, 600)),
    (b"10/<a>", wire.value(3, b"NOTE", b"hidden", KEPT, 600)),
    (b"10/<a>", wire.value(4, b"NOTE", b"two\nlines", READABLE, 600)),
    (b"10/<a>", wire.value(5, b"URL", OLD.encode(), READABLE, 3600)),
    (b"10/gone", wire.value(1, b"HS_GONE", b"withdrawn", READABLE, 600)),
)
PATH = "/10/%3Ca%3E"
OWN_ADDRESS = "https://handles.example.org/"
NO_NAME = "A handle is a prefix, a slash and a local name, such as 10/a."


def tenants(port):
    return wire.tenants(["publisher acme 8 %d" % port, "prefix 10 acme"], OPENING)


class Page(html.parser.HTMLParser):
    """The forms of a page, each its address and its fields, and the buttons; the texts that are marked as faults; the title, and the words; and the field that a browser focuses, whose fault is an alert."""

    def __init__(self, text):
        super().__init__()
        self.forms, self.faults, self.words, self.inside, self.links, self.labels, self.ids = [], {}, [], None, [], set(), set()
        self.title, self.focus, self.alerts, self.tabs, self.described = "", None, set(), set(), set()
        self.in_title = False
        self.feed(text)
        assert all(name in self.ids for name in self.described), "a field is described by what isn't there"
        assert self.focus is None or self.focus + "-fault" in self.alerts, "a faulty field has no alert"

    def handle_starttag(self, tag, attrs):
        told = dict(attrs)
        if "id" in told:
            assert told["id"] not in self.ids, "an id stands twice"
            self.ids.add(told["id"])
        if "aria-describedby" in told:
            self.described.add(told["aria-describedby"])
        if tag == "title":
            self.in_title = True
        if tag == "form":
            assert told.get("method") != "post" or "autocomplete" not in told, "a browser keeps nothing of a form"
            self.forms.append((told.get("action"), told.get("method"), {}, []))
        elif tag == "input":
            self.forms[-1][2][told["name"]] = told.get("value", "")
            if told.get("type") != "hidden":
                assert told["id"] in self.labels, "a field has no label"
                is_secret = told["name"] in ("key", "secret")
                assert self.forms[-1][1] != "post" or (told.get("autocomplete") == "off") == is_secret, "a browser keeps what it shouldn't, or not what it should"
            if "autofocus" in told:
                assert self.focus is None and told.get("aria-invalid") == "true", "two fields are focused, or a right one"
                self.focus = told["id"]
        elif tag == "button" and self.forms:
            self.forms[-1][3].append((told.get("name"), told.get("value")))
        elif tag == "a":
            self.links.append(told.get("href"))
            if told.get("target") == "_blank":
                assert told["rel"] == "noopener" and told["aria-describedby"]
                self.tabs.add(told["href"])
        elif tag == "label":
            self.labels.add(told["for"])
        if tag == "p" and told.get("class") == "fault":
            self.inside = told.get("id") or told.get("role")
            if told.get("role") == "alert":
                self.alerts.add(self.inside)
        else:
            self.inside = None

    def handle_endtag(self, tag):
        if tag == "p":
            self.inside = None
        if tag == "title":
            self.in_title = False

    def handle_data(self, data):
        if self.in_title:
            self.title += data
        elif self.inside:
            self.faults[self.inside] = self.faults.get(self.inside, "") + data
        elif data.strip():
            self.words.append(data.strip())


class Browser:
    """One that reads pages and sends forms, and keeps all that came."""

    def __init__(self, port):
        self.port, self.came, self.status, self.fields, self.page, self.at = port, [], None, {}, None, None

    def request(self, method, path, body=None, fields=()):
        client = http.client.HTTPConnection("127.0.0.1", self.port, timeout=30)
        with contextlib.closing(client):
            client.request(method, path, body, dict(fields))
            answer = client.getresponse()
            text = answer.read().decode()
        self.came.append(text + repr(answer.getheaders()))
        self.status, self.fields, self.at = answer.status, {name.lower(): value for name, value in answer.getheaders()}, path
        self.page = Page(text) if self.fields.get("content-type", "").startswith("text/html") else None
        return text

    def get(self, path):
        return self.request("GET", path)

    def send(self, place=0, button=0, sender=OWN, **filled):
        """Fills in a form of the page and presses one of its buttons."""
        action, method, fields, buttons = self.page.forms[place]
        assert method == "post"
        name, value = buttons[button]
        pairs = dict(fields, **filled)
        if name:
            pairs[name] = value
        path = urllib.parse.urljoin(self.at, action) if action[0] != "?" else self.at.split("?")[0] + action
        body = urllib.parse.urlencode({key: said for key, said in pairs.items() if said is not None})
        return self.request("POST", path, body, {"Content-Type": "application/x-www-form-urlencoded", **sender})

    def confirm(self, key=ADMIN, secret=SECRET, **more):
        return self.send(key=key, secret=secret, **more)

    def values(self, path=PATH):
        told = json.loads(self.get("/api/handles" + path))
        return {value["index"]: (value["type"], value["data"]["value"], value["ttl"], value.get("permissions")) for value in told.get("values", ()) if value["type"] != "HS_ADMIN"}


def is_form_page(one):
    """No one keeps it, it loads nothing, it leads to this host alone, and says nothing of its address."""
    policy = one.fields.get("content-security-policy", "")
    return (one.fields["cache-control"], one.fields["referrer-policy"]) == ("no-store", "no-referrer") and "default-src 'none'" in policy and "form-action 'self'" in policy


def changed(one):
    one.get(PATH + "?noredirect")
    yield "a page of values leads to the form", "?edit" in one.page.links and "edit" not in one.get("/10/absent")
    before = one.values()
    one.get(PATH + "?edit")
    forms = [fields.get("index") for _, _, fields, _ in one.page.forms]
    yield "URLs first, then other texts on one line; a free index", one.status == 200 and is_form_page(one) and forms == ["5", "2", "1", "1"]
    yield "one value at a time", "Change one value at a time: each button sends only its own field." in one.page.words and one.page.focus is None
    one.send(text=NEW)
    yield "old and new before the change", one.status == 200 and is_form_page(one) and OLD in one.page.words and NEW in one.page.words and one.values() == before
    one.get(PATH + "?edit")
    one.send(text=NEW)
    one.confirm(secret="wrong")
    yield "a wrong secret", (one.status, one.page.faults) == (403, {"secret-fault": WRONG_SECRET}) and is_form_page(one) and "www-authenticate" not in one.fields and one.page.focus == "secret" and one.page.title.startswith("Not done: Change this value?")
    one.confirm(secret="")
    yield "no secret", (one.status, one.page.faults) == (400, {"secret-fault": "Please type the secret."})
    one.confirm(key="300")
    yield "no key", (one.status, one.page.faults) == (400, {"key-fault": "A key is a number, a colon and a handle, such as 300:0.NA/10."})
    one.confirm(key="301:0.NA/10", secret="other")
    yield "another key", (one.status, one.page.faults) == (403, {"key-fault": "The key is no administrator of this handle, or, for a new one, of the prefix's 0.NA/PREFIX."})
    one.confirm(key=" 0.NA/10:300\t")
    yield "changed", one.status == 200 and "The value is changed" in one.page.words
    yield "it leads to the values as they are now, to where it leads now, to the form, and to another handle", [PATH + "?noredirect&auth", PATH + "?auth", PATH + "?edit", "/?new"] == [link for link in one.page.links if "?" in link]
    yield "it says how long browsers keep the old address", any("may go to the old address for up to 300 seconds more" in word for word in one.page.words)
    one.get(PATH + "?auth")
    yield "which the link asks anew", (one.status, one.fields.get("location"), one.fields["cache-control"]) == (302, NEW, "max-age=0")
    one.get(PATH + "?noredirect&auth")
    yield "which no browser keeps", one.fields["cache-control"] == "max-age=0" and NEW in one.page.words
    one.get(PATH + "?noredirect")
    yield "nor a page of values", one.fields["cache-control"] == "max-age=0" and NEW in one.page.words
    wanted = dict(before)
    wanted[5] = ("URL", NEW, before[5][2], before[5][3])
    yield "that value alone, with its TTL and permissions", one.values() == wanted
    one.get(PATH)
    yield "it leads to the new address", (one.status, one.fields.get("location")) == (302, NEW)
    one.get(PATH + "?edit")
    one.send(text="javascript:alert(1)")
    yield "no address", (one.status, one.page.faults) == (400, {"text-5-fault": "An address begins with https://, http://, ftp://, mailto: or doi:."}) and one.page.forms[0][2]["text"] == "javascript:alert(1)"
    yield "where typing goes on, and the way back", one.page.focus == "text-5" and one.page.title.startswith("Not done: change 10/<a>") and "?edit" in one.page.links
    one.send(text="a\nb")
    yield "two lines", one.status == 400 and one.page.faults == {"text-5-fault": "Please type a text on one line, of at most 32768 bytes."}
    for own in (OWN_ADDRESS + PATH[1:], "http://HANDLES.example.org/10/<a>?noredirect"):
        one.send(text=own)
        yield "the handle's own address: " + own, (one.status, one.page.faults) == (400, {"text-5-fault": CIRCLE}) and one.page.forms[0][2]["text"] == own
    one.send(text="\u00a0 " + OLD + " \n")
    yield "spaces around an address are dropped", OLD in one.page.words and one.page.forms[0][2]["text"] == OLD
    one.confirm()
    yield "right after faults", one.values() == before
    one.get(PATH + "?edit")
    one.send(1, text="a\"><script>'&")
    yield "text is escaped", "a\"><script>'&" in one.page.words and one.page.forms[0][2]["text"] == "a\"><script>'&" and one.page.forms[0][2]["old"].startswith("<b>\"'&")


def added(one):
    one.get(PATH + "?edit")
    one.send(2, type="HS_ADMIN", index="7", text="x")
    yield "a type of the service's own", one.status == 400 and list(one.page.faults) == ["type-fault"] and one.page.focus == "type"
    for name, kind in (("two words", "MAIL ADDRESS"), ("letters of no ASCII", "ADRESSE\u00c4"), ("no type", " ")):
        one.send(type=kind, index="7", text="x")
        yield "a type of " + name, (one.status, one.page.faults) == (400, {"type-fault": "The type is empty, or has a space or other than graphic ASCII characters."}) and one.page.forms[0][2]["type"] == kind
    one.send(type="x" * 256, index="7", text="x")
    yield "a type that is too long", (one.status, one.page.faults) == (400, {"type-fault": "The type is longer than 255 bytes."})
    for name, alias in (("no slash", "10"), ("no prefix", "/a"), ("an address", "HTTPS://example.org/a"), ("its scheme", "hdl:10/b")):
        one.send(type="HS_ALIAS", index="7", text=alias)
        wanted = "An alias names another handle: a prefix, a slash and a local name, such as 10/b, without an address or hdl: before it."
        yield "an alias with " + name, (one.status, one.page.faults) == (400, {"text-fault": wanted})
        one.get(PATH + "?edit")
        one.send(2, type="HS_ALIAS", index="7", text="10")
    for kind, meant in (("Url", "URL"), ("email", "EMAIL"), ("hs_Alias", "HS_ALIAS"), ("10320/LOC", "10320/loc")):
        one.send(type=kind, index="7", text="https://example.org/")
        words = "The type differs from %s in small and capital letters, so it is another type. Is that meant?" % meant
        yield "a type in other letters: " + kind, one.status == 200 and words in one.page.words
        one.get(PATH + "?edit")
        one.send(2, type="EMAIL", index="0", text="x")
    one.send(type="EMAIL", index="7", text="a@example.org")
    yield "no warning of a type that is known", one.status == 200 and "differs from" not in one.came[-1]
    one.get(PATH + "?edit")
    one.send(2, type="HS_ADMIN", index="7", text="x")
    one.send(type="EMAIL", index="0", text="x")
    yield "no index", (one.status, one.page.faults) == (400, {"index-fault": "An index is a number from 1 to 4294967295."}) and one.page.focus == "index"
    one.send(type=" EMAIL ", index=" 3 ", text="archive@example.org")
    one.confirm()
    yield "an index that a hidden value has", (one.status, one.page.faults) == (409, {"alert": "A value with this index exists already."}) and PATH + "?noredirect&auth" in one.page.links
    one.get(PATH + "?edit")
    one.send(2, type="EMAIL", text="archive@example.org")
    one.confirm()
    yield "added", one.status == 200 and one.values()[1] == ("EMAIL", "archive@example.org", 86400, None)
    one.get(PATH + "?edit")
    place = [fields.get("index") for _, _, fields, _ in one.page.forms].index("1")
    one.send(place, button=1)
    yield "asked before it is removed", one.status == 200 and "Remove this value?" in one.page.words
    one.confirm()
    yield "removed", one.status == 200 and 1 not in one.values()


def gone(one):
    one.get(PATH + "?edit")
    yield "no date is typed", any("the day on which you say so: you need type no date" in word for word in one.page.words)
    why = "Withdrawn by its author <i>"
    one.send(3, text=why)
    other, at = one.page, one.at
    yield "asked before it is gone", "Say that this handle is gone?" in one.page.words
    one.confirm()
    yield "it is said", "Readers are told that it is gone" in one.page.words
    one.page, one.at = other, at
    one.confirm()
    yield "someone else said so", (one.status, one.page.faults) == (409, {"alert": "Someone already said so, or a value that isn't public has this index."}) and PATH + "?noredirect&auth" in one.page.links
    one.get(PATH + "?noredirect")
    yield "gone is a value", one.status == 200 and one.values()[1][:2] == ("HS_GONE", why)
    one.get(PATH)
    yield "410, with when and why, which no browser keeps", (one.status, one.fields["cache-control"]) == (410, "max-age=0") and why in one.page.words and "What this handle named is gone." in one.page.words and "<time datetime=\"20" in one.came[-1] and "?edit" in one.page.links
    page = one.request("GET", PATH, fields=GERMAN)
    yield "410 in German", one.status == 410 and all(word in page for word in ('<html lang="de">', "<title>Nicht mehr da: ", "Was dieses Handle benannte, gibt es nicht mehr.", ">Geschrieben am <time")) and not english_in(page)
    one.get(PATH + "?noredirect")
    yield "its values are still shown", one.status == 200 and why in one.page.words
    one.get(PATH + "?edit")
    yield "it can't be gone twice", len(one.page.forms) == 4 and "Say that it is gone" not in one.page.words
    one.send([fields.get("type") for _, _, fields, _ in one.page.forms].index("HS_GONE"), button=1)
    one.confirm()
    one.get(PATH)
    yield "and is there again", (one.status, one.fields.get("location")) == (302, OLD)


def german(one):
    page = one.request("GET", PATH + "?noredirect", fields=GERMAN)
    yield "a German page leads to the form", '<html lang="de">' in page and "?edit" in one.page.links and "Dieses Handle \u00e4ndern" in one.page.words and one.fields["vary"] == "Accept-Language" and not english_in(page)
    page = one.request("GET", PATH + "?edit", fields=GERMAN)
    yield "the form is in English", '<html lang="en">' in page and "vary" not in one.fields and "Change this handle" in one.page.words


def created(one):
    one.get("/")
    yield "the front page leads to the form", "/?new" in one.page.links
    one.get("/?new")
    one.send(handle="10", text=NEW)
    yield "no handle", one.status == 400 and list(one.page.faults) == ["handle-fault"] and one.page.forms[0][2]["text"] == NEW and one.page.focus == "handle"
    yield "its title, and the way back", one.page.title.startswith("Not done: create a handle") and "/?new" in one.page.links
    for pasted in ("https://hdl.handle.net/10/b", "HTTP://127.0.0.1/10/b", "hdl:10/b", " doi:10/b"):
        one.send(handle=pasted, text=NEW)
        yield "a handle as it is pasted: " + pasted, (one.status, one.page.faults) == (400, {"handle-fault": "Type only the handle, such as 10/a, without an address or hdl: before it."}) and one.page.forms[0][2]["handle"] == pasted
    one.send(handle="10/n\u00fc <new>", text="new")
    yield "no address for a new one", one.status == 400 and list(one.page.faults) == ["text-fault"]
    one.send(handle="10/", text=NEW)
    yield "a warning of an empty local name", one.status == 200 and "Nothing follows the slash of this handle. Is that meant?" in one.page.words and SPACED not in one.page.words
    for mark in ".,;:!?)]}>\"'/":
        one.get("/?new")
        one.send(handle="10/report-7" + mark, text=NEW)
        yield "a warning of a name that ends in " + mark, one.status == 200 and MARKED in one.page.words and SPACED not in one.page.words
    one.get("/?new")
    one.send(handle="10/report.7-", text=NEW)
    yield "and of no other", one.status == 200 and MARKED not in one.page.words
    one.get("/?new")
    one.send(handle="10/n\u00fc <new> ", text=" " + NEW)
    yield "shown before it is created", one.status == 200 and "10/n\u00fc <new>" in one.page.words and SPACED in one.page.words
    page, at = one.page, one.at
    one.confirm()
    path = "/" + urllib.parse.quote("10/n\u00fc <new>")
    yield "no browser has another address of it", not any("seconds more" in word for word in one.page.words)
    yield "created", one.status == 201 and [path + "?noredirect&auth", path + "?auth", path + "?edit", "/?new"] == [link for link in one.page.links if "?" in link] and one.values(path) == {1: ("URL", NEW, 86400, None)}
    one.page, one.at = page, at
    one.confirm()
    yield "a reload after it was created", (one.status, one.page.faults) == (409, {"alert": "This handle is there already. Perhaps the form was sent twice."}) and path + "?noredirect&auth" in one.page.links
    one.get(path)
    yield "it leads on", (one.status, one.fields.get("location")) == (302, NEW)
    one.get(path + "?edit")
    one.send(text=OLD)
    one.confirm()
    yield "its key may change it", one.status == 200 and one.values(path)[1][1] == OLD
    one.get("/?new")
    one.send(handle="10/n\u00fc <new>", text=NEW)
    one.confirm()
    yield "it isn't created twice", (one.status, list(one.page.faults)) == (409, ["alert"]) and one.values(path)[1][1] == OLD


def typed(text):
    """The address to which the page of an existing handle's form sends a text."""
    return "/?" + urllib.parse.urlencode({"edit": text})


def opened(one):
    """From the front page to the form of a handle, as people paste it."""
    one.get("/")
    yield "the front page leads to the forms, first to that of any handle", [link for link in one.page.links if link.startswith("/?")] == ["/?edit", "/?new"] and "Change a handle" in one.page.words
    page = one.request("GET", "/", fields=GERMAN)
    yield "a German one too", "/?edit" in one.page.links and "Ein Handle \u00e4ndern" in one.page.words and not english_in(page)
    for path in ("/?edit", "/?edit=", "/?edit=%20+%0A", "/?edit=10/%3Ca%3E&edit="):
        one.get(path)
        yield "a page with one field: " + path, one.status == 200 and is_form_page(one) and one.page.faults == {} and one.page.forms == [("/", "get", {"edit": ""}, [(None, None)])]
    page = one.request("GET", "/?edit", fields=GERMAN)
    yield "in English, without a link to itself", '<html lang="en">' in page and "vary" not in one.fields and one.page.title.startswith("Change a handle") and "/?edit" not in one.page.links
    for text in ("10/<a>", " 10/<a>\n", "\u00a010/<a> ", "hdl:10/<a>", "DOI: 10/<a>", "https://hdl.handle.net/10/%3Ca%3E", "http://dx.doi.org/10/<a> ", OWN_ADDRESS + "10/%3ca%3e", OWN_ADDRESS.upper() + "10/<a>",
                 OWN_ADDRESS + "10/%3Ca%3E?noredirect", "http://handles.example.org/10/<a>?auth&a=?b#c ", OWN_ADDRESS + "10/%3Ca%3E%20#top?"):
        one.get(typed(text))
        yield "the way to its form from " + text, (one.status, one.fields.get("location"), one.fields["cache-control"]) == (302, PATH + "?edit", "no-store") and "vary" not in one.fields
    for name in ("10/n\u00fc <new>?a&b#c%41\"", "10/a?edit", "10/\u202e", "https://evil.example/10/a", "https://handles.example.org.evil.example/10/a", "http://127.0.0.1:%d/10/a" % one.port, "https://handles.example.orgs/10/a"):
        one.get(typed(name))
        yield "escaped: " + name, (one.status, one.fields.get("location")) == (302, "/" + urllib.parse.quote(name) + "?edit")
    for text, why in (("10", NO_NAME), ("hdl:", NO_NAME), ("//evil.example/10/a", NO_NAME), (OWN_ADDRESS, NO_NAME), ("\"><script>'& ", NO_NAME), ("10/" + "x" * 2046, "The name is too long.")):
        one.get(typed(text))
        yield "no handle: " + text[:40], (one.status, one.page.faults) == (400, {"edit-fault": why}) and is_form_page(one) and one.page.forms == [("/", "get", {"edit": text}, [(None, None)])]
        yield "typing goes on in the field: " + text[:40], one.page.focus == "edit" and one.page.title.startswith("Not done: Change a handle") and "<script" not in one.came[-1]
    for path, status, to in (("/?edit", 200, None), (typed("10"), 400, None), (typed("10/<a>"), 302, PATH + "?edit")):
        body = one.request("HEAD", path)
        yield "HEAD " + path, (one.status, one.fields.get("location"), body) == (status, to, "")
        for method in ("POST", "PUT", "DELETE"):
            one.request(method, path, "", OWN)
            yield "%s %s" % (method, path), one.status == 405
    before = one.values()
    one.get(typed("10/<a>") + "&task=remove&index=5&token=1&" + urllib.parse.urlencode({"key": ADMIN, "secret": SECRET}))
    yield "a link of another site does nothing more", (one.status, one.fields.get("location")) == (302, PATH + "?edit") and one.values() == before
    one.get("/?edit=10&key=1&secret=2&handle=10/a")
    yield "nor does its page", one.page.forms == [("/", "get", {"edit": "10"}, [(None, None)])]
    for path, status, to in (("/?handle=10/%3Ca%3E", 302, PATH), (PATH + "?edit=10/b", 200, None), ("/?new&edit=10/b", 200, None), ("/?edited=10/b", 200, None)):
        one.get(path)
        yield "not " + path, (one.status, one.fields.get("location")) == (status, to)
    one.get(typed("hdl:10/<a>"))
    one.get(one.fields["location"])
    one.send(text=NEW)
    one.confirm()
    yield "changed from the front page", one.status == 200 and one.values()[5][1] == NEW
    by_another(one, index=5, type="URL", data=OLD, ttl=3600)


def at_host(one):
    """A site without an address of its own is at the host that a request names; and browsers keep its redirects for a minute."""
    own = "127.0.0.1:%d" % one.port
    for text in ("http://%s/10/%%3Ca%%3E" % own, "HTTPS://%s/10/<a>#top" % own, " http://%s/10/%%3ca%%3e?noredirect&a=b" % own):
        one.get(typed(text))
        yield "its address opens the form: " + text, (one.status, one.fields.get("location")) == (302, PATH + "?edit")
    for text in ("http://%s1/10/<a>" % own, "http://127.0.0.1/10/<a>", "https://%s.evil.example/10/<a>" % own, "ftp://%s/10/<a>" % own, OWN_ADDRESS + "10/<a>"):
        one.get(typed(text))
        yield "another host isn't ours: " + text, (one.status, one.fields.get("location")) == (302, "/" + urllib.parse.quote(text) + "?edit")
    one.get(PATH + "?edit")
    for url in ("http://%s/10/%%3Ca%%3E" % own, "HTTPS://%s/10/<a>?a#b" % own):
        one.send(text=url)
        yield "a circle: " + url, (one.status, one.page.faults) == (400, {"text-5-fault": CIRCLE}) and one.page.focus == "text-5"
    for url in ("http://%s/10/<A>" % own, "http://%s/10/b" % own, "http://%s1/10/<a>" % own, "ftp://%s/10/<a>" % own, OWN_ADDRESS + "10/<a>"):
        one.get(PATH + "?edit")
        one.send(text=url)
        yield "no circle: " + url, one.status == 200 and url in one.page.words
    before = Browser(one.port).values()
    one.confirm(text="http://%s/10/<a>" % own)
    yield "a circle in the form that has the key", one.status == 400 and CIRCLE in one.page.faults.values() and Browser(one.port).values() == before
    one.get("/?new")
    one.send(handle="10.Abc/New", text="http://%s/10.aBC/New" % own)
    yield "a new handle that leads to itself", (one.status, one.page.faults) == (400, {"text-fault": CIRCLE})
    one.send(text="http://%s/10.abc/new" % own)
    yield "and one that doesn't", one.status == 200 and "Create this handle?" in one.page.words
    one.get(PATH + "?edit")
    one.send(1, text="http://%s/10/<a>" % own)
    yield "a title may be its address", one.status == 200
    one.get(PATH + "?edit")
    one.send(text=NEW)
    one.confirm()
    yield "how long browsers keep the old address by --browser-cache", any("for up to 60 seconds more" in word for word in one.page.words)
    by_another(one, index=5, type="URL", data=OLD, ttl=3600)


def outdated(one):
    """A form that is too old, or whose token isn't this process's: what was typed is shown again, and can be sent."""
    before = one.values()
    one.get(PATH + "?edit")
    one.send(text=NEW, token="1-" + "0" * 64)
    yield "a form that is too old", (one.status, one.page.faults) == (403, {"alert": TOO_OLD}) and is_form_page(one) and one.page.forms[0][2]["text"] == NEW and one.page.title.startswith("Not done: ")
    one.send()
    yield "can be sent again", one.status == 200 and NEW in one.page.words
    one.confirm(token="1-" + "0" * 64)
    yield "the page with the key, too", (one.status, one.page.faults) == (403, {"alert": TOO_OLD}) and NEW in one.page.words and (one.page.forms[0][2]["key"], one.page.forms[0][2]["secret"]) == ("", "") and Browser(one.port).values() == before
    one.confirm()
    yield "and then it is done", one.status == 200 and one.values()[5][1] == NEW
    one.get(PATH + "?edit")
    one.send(text=OLD)
    one.confirm()
    one.get(PATH + "?edit")
    one.send(2, type="EMAIL", index="9", text="a@example.org", token="")
    yield "a new value", one.status == 403 and [one.page.forms[0][2][name] for name in ("type", "index", "text")] == ["EMAIL", "9", "a@example.org"]
    one.send()
    yield "that is sent again", one.status == 200 and "Add this value?" in one.page.words
    one.get("/?new")
    one.send(handle="10/later", text=NEW, token="x")
    yield "a new handle", (one.status, one.page.faults) == (403, {"alert": TOO_OLD}) and (one.page.forms[0][2]["handle"], one.page.forms[0][2]["text"]) == ("10/later", NEW)
    one.send()
    yield "that is sent again too", one.status == 200 and "Create this handle?" in one.page.words
    yield "nothing else was done", one.values() == before


def by_another(one, **value):
    """Another client puts a value of the handle, or removes it: whether that was done."""
    other = Browser(one.port)
    words = ":".join(urllib.parse.quote(part, safe="") for part in (ADMIN, SECRET))
    fields = {"Authorization": "Basic " + base64.b64encode(words.encode()).decode()}
    path = "/api/handles%s?index=%d" % (PATH, value["index"])
    if "data" in value:
        other.request("PUT", path, json.dumps(value), fields)
    else:
        other.request("DELETE", path, fields=fields)
    return other.status == 200


def meanwhile(one):
    third = "https://example.org/third"
    url = {"index": 5, "type": "URL", "ttl": 3600}

    def there():
        return Browser(one.port).values()

    def shown():
        one.get(PATH + "?edit")
        one.send(text=NEW)

    def texts():
        return [one.page.words[one.page.words.index(word) + 1] for word in ("Your form showed", "Now", "Your change")]

    shown()
    yield "another client changes the value", by_another(one, data=third, **url)
    before = there()
    one.confirm()
    yield "what changed isn't overwritten", one.status == 409 and is_form_page(one) and there() == before
    shown()
    by_another(one, data=OLD, **url)
    one.confirm()
    yield "the page has all three texts", one.status == 409 and texts() == [third, OLD, NEW] and one.page.forms[0][2]["old"] == OLD
    by_another(one, data=third, **url)
    one.confirm()
    yield "it changed once more", one.status == 409 and texts() == [OLD, third, NEW]
    one.confirm(secret="wrong")
    yield "going on needs the secret", (one.status, one.page.faults) == (403, {"secret-fault": WRONG_SECRET})
    one.confirm()
    yield "one may go on", one.status == 200 and there()[5] == ("URL", NEW, 3600, None)
    shown()
    by_another(one, data=NEW, index=5, type="URL", ttl=60)
    one.confirm(text=OLD)
    yield "another TTL counts too", one.status == 409 and texts() == [NEW, NEW, OLD]
    one.confirm()
    yield "and stays", one.status == 200 and there()[5] == ("URL", OLD, 60, None)
    shown()
    by_another(one, data=third, index=5, type="URL", ttl=3600, permissions="1100")
    one.confirm()
    yield "a value that was hidden isn't shown", one.status == 409 and third not in " ".join(one.page.words) and not one.page.forms and "?edit" in one.page.links
    by_another(one, data=OLD, **url)
    shown()
    by_another(one, data=OLD, index=5, type="NOTE", ttl=3600)
    one.confirm()
    yield "a value of another type", one.status == 409 and not one.page.forms and there()[5][0] == "NOTE"
    by_another(one, data=OLD, **url)
    one.get(PATH + "?edit")
    one.send(button=1)
    by_another(one, index=5)
    one.confirm()
    yield "what isn't there can't be removed", one.status == 409 and not one.page.forms and "The value is so already" in one.page.words
    by_another(one, data=OLD, **url)
    shown()
    page, at = one.page, one.at
    one.confirm()
    done, one.page, one.at = one.status, page, at
    one.confirm()
    yield "a form that is sent twice", (done, one.status) == (200, 409) and is_form_page(one) and "The value is so already" in one.page.words and not one.page.forms
    by_another(one, data=OLD, **url)
    shown()
    by_another(one, index=5)
    one.confirm()
    yield "what was removed", one.status == 409 and texts() == [OLD, "(nothing)", NEW] and 5 not in there()
    one.confirm()
    yield "is added", one.status == 200 and there()[5] == ("URL", NEW, 3600, None)
    by_another(one, data=OLD, **url)
    one.get(PATH + "?edit")
    one.send(button=1)
    by_another(one, data=third, **url)
    one.confirm()
    yield "a change isn't removed", one.status == 409 and texts() == [OLD, third, "(nothing)"]
    by_another(one, data=OLD, **url)


def refused(one):
    before = one.values()
    for name, sender in (("another site", {"Sec-Fetch-Site": "cross-site"}), ("another host of the site", {"Sec-Fetch-Site": "same-site", "Origin": "http://127.0.0.1:%d" % one.port}),
                         ("another origin", {"Origin": "https://evil.example"}), ("an origin behind the host", {"Origin": "http://127.0.0.1:%d.evil.example" % one.port}), ("no field", {}), ("null alone", {"Origin": "null"})):
        one.get(PATH + "?edit")
        one.send(text=NEW, sender=sender)
        yield "a form of " + name, (one.status, one.page.words[-2][:12]) == (403, "Nothing was ") and is_form_page(one)
    one.get(PATH + "?edit")
    one.send(text=NEW, sender={"Origin": "http://127.0.0.1:%d" % one.port})
    yield "an origin of this host", one.status == 200
    for name, token in (("no token", None), ("an empty token", ""), ("another moment", "1"), ("another digest", "0-" + "0" * 64)):
        one.get(PATH + "?edit")
        one.send(text=NEW, token=token)
        yield name, (one.status, one.page.faults) == (403, {"alert": TOO_OLD})
    one.get("/?new")
    token = one.page.forms[0][2]["token"]
    one.get(PATH + "?edit")
    one.send(text=NEW, token=token)
    yield "the token of another form", one.status == 403
    one.get(PATH + "?edit")
    one.send(task=None, button=0, ttl="x", text=NEW)
    yield "a form that isn't whole", one.status == 400 and "This form isn't whole" in one.page.words
    one.get(PATH + "?edit")
    one.send(type="HS_SECKEY", text=NEW)
    yield "a value of another type than its form's", one.status == 400 and "This form isn't whole" in one.page.words
    one.get(PATH + "?edit")
    one.send(text="x" * 1048576)
    yield "a form that is too large", one.status == 413 and "This form didn't arrive whole" in one.page.words
    one.get("/10/absent?edit")
    yield "the form of an absent handle", one.status == 404
    one.get("/20/a?edit")
    yield "the form of another prefix", one.status == 404
    one.request("PUT", PATH + "?edit", "", OWN)
    yield "another method", one.status == 405
    yield "nothing was changed", one.values() == before


def remembered(one):
    """The form after `changed`, of a proxy that reads the server's history."""
    for _ in range(100):
        one.get(PATH + "?edit")
        if "Its last changes" in one.page.words:
            break
        time.sleep(0.1 * servers.SLOWER)
    last = one.came[-1].partition("Its last changes")[2].partition("</ol>")[0].split("<li>")[1:]
    yield "the last changes by the history, each with its kind and its key", one.status == 200 and 1 <= len(last) <= 5 and all(ADMIN in change for change in last) and "changed" in last[-1]
    yield "in UTC", all("</time> (UTC): " in change for change in last)
    yield "and the public value before the first one", all(html.escape(text) in last[-1] for text in ("URL", "1", OLD))


def unreadable(behind):
    """A history that isn't there is refused at the start."""
    (port,) = servers.free_ports(1)
    done = subprocess.run([PROGRAM, "--listen", "127.0.0.1:%d" % port, "--server", "127.0.0.1:%d" % behind, "--writes", "--history", "/none/history"], capture_output=True, text=True, check=False, timeout=60 * servers.SLOWER)
    yield "a history that isn't there", done.returncode == 1 and done.stderr.startswith("hdl: --history /none/history: ")


def without_the_word(port):
    one = Browser(port)
    for path in ("/", "/?edit", typed("10/<a>")):
        one.get(path)
        yield "the front page without --writes: " + path, one.status == 200 and "Find a handle" in one.page.words and not any("edit" in link for link in one.page.links)
    one.get(PATH + "?noredirect")
    yield "no link without --writes", "?edit" not in one.page.links
    one.get(PATH + "?edit")
    yield "no form without --writes", one.status == 302
    one.request("POST", PATH + "?edit", "token=1", OWN)
    yield "no change without --writes", one.status == 405


def kept(behind):
    """That a handle is gone is kept by browsers no longer than a redirect is, nor than its values."""
    for most, wanted in ((None, "max-age=300"), (60, "max-age=60"), (86400, "max-age=600"), (0, "no-store")):
        for cached in ((), ("--cache", "600")):
            with proxy(behind, *cached, *(() if most is None else ("--browser-cache", str(most)))) as port:
                one = Browser(port)
                for _ in range(2):
                    one.get("/10/gone")
                    yield "gone, --browser-cache %s %s" % (most, cached), (one.status, one.fields["cache-control"]) == (410, wanted)
                one.get("/10/gone?noredirect")
                yield "its values, --browser-cache %s %s" % (most, cached), (one.status, one.fields["cache-control"]) == (200, "max-age=600")


@contextlib.contextmanager
def proxy(behind, *options):
    """A proxy before the server at this port: its own port."""
    (port,) = servers.free_ports(1)
    with servers.running([PROGRAM, "--listen", "127.0.0.1:%d" % port, "--server", "127.0.0.1:%d" % behind, *options], 1):
        yield port


def main():
    cases = []
    with tempfile.TemporaryDirectory() as folder, servers.serving(tenants, 1, options=["--history", os.path.join(folder, "history")]) as (behind,):
        log, history = (os.path.join(folder, name) for name in ("visits.log", "history"))
        cases += unreadable(behind)
        with proxy(behind) as port:
            cases += without_the_word(port)
        cases += kept(behind)
        with proxy(behind, "--writes", "--log", log, "--history", history, "--address", OWN_ADDRESS) as port:
            one = Browser(port)
            for part in (changed, remembered, added, gone, german, created, meanwhile, outdated, refused, opened):
                cases += part(one)
            with proxy(behind, "--writes", "--browser-cache", "60") as other:
                second = Browser(other)
                cases += at_host(second)
                one.came += second.came
            with open(log, encoding="utf-8") as lines:
                one.came.append(lines.read())
        for form in (SECRET, urllib.parse.quote(SECRET), urllib.parse.quote_plus(SECRET), urllib.parse.quote(SECRET, safe=""), "never:shown"):
            cases.append(("no page and no log has the secret", not any(form in text for text in one.came)))
    with proxy(behind, "--writes") as port:
        one = Browser(port)
        one.get(PATH + "?edit")
        cases.append(("the form without a server", one.status == 502))
    return servers.tally(cases)


if __name__ == "__main__":
    sys.exit(main())

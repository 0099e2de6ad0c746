"""proxy_lists.py: reads lists of handles in the proved program crates/hdl_web/out/hdl_web (`hdl proxy --writes --lists`) as a browser without scripts does, page by page, and compares each with the rows of a table
that is made here. Seen as well: that handles are shown only for a key that may list them, that no other value is, that faults stand beside their fields, that forms of other sites and without their token are refused, that all text is escaped,
and that no page and no log has the key or its secret.
It takes some 4 seconds. Its last line is 'N passed, M failed', a case counting one."""

import contextlib
import os
import re
import subprocess
import sys
import tempfile
import urllib.parse

# nothing is left beside the tools
sys.dont_write_bytecode = True
from lib import servers, wire
from proxy_forms import ADMIN, KEPT, READABLE, SECRET, TOO_OLD, WRONG_SECRET, Browser, is_form_page, proxy

PAGE = 500
FURTHER = "so the next page may have some"
ALL, NO_LIST = b"\x0f\xff", b"\x07\xff"
NO_ADMINISTRATOR = "The key is no administrator of this handle, or, for a new one, of the prefix's 0.NA/PREFIX."


def leg(n):
    """A handle of a list that is longer than a reply of the server, and where it leads."""
    return "10/leg-%03d-%s" % (n, "x" * 90), "https://example.org/%s/%d" % (("Odd", "even")[n % 2 == 0], n)


# Handles, each with the values that it has, and where it leads for anybody.
ROWS = {
    b"10/<b>&\"'+": ([(1, b"URL", b"https://example.org/?a=<b>&c=\"'", READABLE)], "https://example.org/?a=<b>&c=\"'"),
    b"10/second": ([(1, b"URL", b"https://hidden.example.org/", KEPT), (2, b"URL", b"https://example.org/second", READABLE), (3, b"URL", b"https://example.org/third", READABLE)],
                   "https://example.org/second"),
    b"10/nowhere": ([(1, b"TITLE", b"It leads nowhere", READABLE)], ""),
    b"10/hidden": ([(1, b"URL", b"https://hidden.example.org/", KEPT)], ""),
    b"10/gone": ([(1, b"URL", b"https://example.org/gone", READABLE), (2, b"HS_GONE", b"withdrawn", READABLE)], "https://example.org/gone"),
    b"10/only-gone": ([(1, b"HS_GONE", b"withdrawn", READABLE)], ""),
    b"10/hidden-gone": ([(1, b"HS_GONE", b"never-shown", KEPT), (2, b"URL", b"https://example.org/there", READABLE)], "https://example.org/there"),
    b"10/key": ([(1, b"HS_SECKEY", b"never-shown", READABLE)], ""),
    **{name.encode(): ([(1, b"URL", url.encode(), READABLE)], url) for name, url in map(leg, range(700))},
    b"20/a": ([(1, b"URL", b"https://example.org/20", READABLE)], "https://example.org/20"),
}
GONE = {"10/gone", "10/only-gone"}
LISTED = {handle.decode(): url for handle, (_, url) in ROWS.items()}


def administered(index, reference, mask):
    return index, b"HS_ADMIN", wire.administrator(b"0.NA/10", reference, mask), READABLE


def tenants(port):
    own = [administered(100, 300, ALL), administered(101, 302, NO_LIST), (300, b"HS_SECKEY", SECRET.encode(), KEPT), (301, b"HS_SECKEY", b"other", KEPT), (302, b"HS_SECKEY", b"third", KEPT)]
    rows = [(b"0.NA/10", own), *((handle, values) for handle, (values, _) in ROWS.items()), (b"0.NA/20", [(1, b"TITLE", b"no administrator", READABLE)])]
    lines = [wire.value_line(handle, wire.value(index, kind, data, permissions, 86400)) for handle, values in rows for index, kind, data, permissions in values]
    return wire.text(["publisher acme 8 %d" % port, "prefix 10 acme", "prefix 20 acme", *lines])


def rows_of(one):
    """What a page shows: each handle with where it leads. A handle's link leads to its own page of values, in a new tab, which is said; and it is marked if it is gone."""
    items = re.findall(r'<li><a href="([^"]*)\?noredirect" target="_blank" rel="noopener" aria-describedby="opens"><bdi>([^<]*)</bdi></a>([^<]*)<br><small><bdi>([^<]*)</bdi></small></li>', one.came[-1])
    plain = [tuple(map(unescaped, item)) for item in items]
    assert all(urllib.parse.unquote(path) == "/" + name for path, name, _, _ in plain)
    assert all(mark == (" is gone" if name in GONE else "") for _, name, mark, _ in plain)
    assert not plain or "Each opens in a new tab." in one.page.words
    return [(name, url) for _, name, _, url in plain]


def unescaped(text):
    for entity, octet in (("&lt;", "<"), ("&gt;", ">"), ("&quot;", '"'), ("&#39;", "'"), ("&amp;", "&")):
        text = text.replace(entity, octet)
    return text


def find(one, prefix="10", key=ADMIN, secret=SECRET, **more):
    """Opens the form and presses its first button."""
    one.get("/?list")
    one.send(list=prefix, key=key, secret=secret, **more)


def pages(one, **words):
    """The pages of a list, one after the other; key and secret are typed for each."""
    find(one, **words)
    yield rows_of(one)
    while len(one.page.forms[0][3]) > 1:
        one.send(button=1, key=ADMIN, secret=SECRET)
        yield rows_of(one)


def wanted(prefix="10", name="", url=""):
    return [(handle, to) for handle, to in sorted(LISTED.items(), key=lambda row: row[0].encode())
            if handle.startswith(prefix + "/") and all(word in handle.lower() for word in name.lower().split()) and all(word in to.lower() for word in url.lower().split())]


def shown(one):
    whole = list(pages(one))
    yield "a whole list that is longer than a reply", sum(whole, []) == wanted()
    yield "that it is of a copy stands before it", "Lists are of a copy of the table: what was changed after that copy was made isn't in them." in one.page.words
    find(one)
    yield "more may be on a next page", FURTHER in " ".join(one.page.words) and len(one.page.forms[0][3]) == 2
    find(one, q="second")
    yield "if there is one", rows_of(one) != [] and FURTHER not in " ".join(one.page.words) and len(one.page.forms[0][3]) == 1
    find(one, q="no such")
    yield "and none", FURTHER not in " ".join(one.page.words) and "isn't in them" in " ".join(one.page.words)
    list(pages(one))
    yield "500 a page", [len(page) for page in whole] == [PAGE, len(wanted()) - PAGE] and one.status == 200 and is_form_page(one)
    for name, url in (("LEG", ""), ("leg 07", ""), ("", "odd"), ("", "example.org/EVEN/ 1"), ("1", "odd"), ("second", "third"), ("  2  leg ", ""), ("<b>", ""), ("", "hidden"), ("no such", "")):
        yield "those with '%s' that lead to '%s'" % (name, url), sum(pages(one, q=name, to=url), []) == wanted("10", name, url)
    find(one, q="\"><b>", to="'&")
    kept = {name: value for name, value in one.page.forms[0][2].items() if name != "token"}
    yield "fields keep what was typed, but not the key and its secret", kept == {"list": "10", "q": "\"><b>", "to": "'&", "key": "", "secret": ""} and any(word.startswith("No handle was found.") for word in one.page.words)
    for place, rows in (("4294967295", []), ("x", whole[0]), ("700", whole[1][200:])):
        find(one, **{"from": place})
        yield "from the place " + place, rows_of(one) == rows
    one.get("/?list=10&q=leg")
    yield "an address fills in the form", one.status == 200 and is_form_page(one) and rows_of(one) == [] and one.page.forms[0][2]["list"] == "10" and one.page.forms[0][2]["q"] == "leg"
    one.get("/")
    yield "the front page leads there", [link for link in one.page.links if link.startswith("/?")] == ["/?edit", "/?new", "/?list"]
    page = one.request("GET", "/", fields={"Accept-Language": "de"})
    yield "a German front page too", '<html lang="de">' in page and {"/?edit", "/?list", "/?new"} <= set(one.page.links) and {"Ein Handle \u00e4ndern", "Ein Handle anlegen", "Handles auflisten"} <= set(one.page.words)
    page = one.request("GET", "/?list", fields={"Accept-Language": "de"})
    yield "a list is in English", '<html lang="en">' in page and "vary" not in one.fields and "A list of handles" in one.page.words


def first(one):
    """What was looked for and how many handles were found stand above them, and the form below."""
    def above(prefix, count, name="any", url="any"):
        start = one.page.words.index("Handles of the prefix")
        page = one.came[-1]
        return one.page.words[start:start + 7] == ["Handles of the prefix", prefix, "Shown here: %d. Words in the handle:" % count, name, ". Words in the URL:", url, "."] \
            and (not count or page.index("<h2>") < page.index("<ol>") < page.index("<form")) and page.index("<h2>") < page.index("<form") and one.page.title.startswith("Handles of the prefix " + prefix)

    find(one)
    yield "the first page of a list above its form", above("10", PAGE)
    one.send(button=1, key=ADMIN, secret=SECRET)
    yield "and the last one", above("10", len(wanted()) - PAGE)
    find(one, q="leg 07", to="odd")
    yield "with the words that are looked for", above("10", len(wanted("10", "leg 07", "odd")), "leg 07", "odd")
    find(one, q="<no> &such")
    yield "if none was found", above("10", 0, "<no> &such")
    one.get("/?list=10&q=leg")
    yield "nothing was looked for yet", "Handles of the prefix" not in one.page.words and one.page.title.startswith("A list of handles")


def refused(one):
    for name, typed, status, fault in (
            ("too many words", {"to": "x" * 257}, 400, {"alert": "The words in the handle, and those in the URL, may have up to 256 bytes each."}),
            ("no prefix", {"prefix": ""}, 400, {"list-fault": "A prefix is what stands before the slash of a handle, such as 10."}),
            ("no key", {"key": "300"}, 400, {"key-fault": "A key is a number, a colon and a handle, such as 300:0.NA/10."}),
            ("no secret", {"secret": ""}, 400, {"secret-fault": "Please type the secret."}),
            ("a wrong secret", {"secret": "wrong"}, 403, {"secret-fault": WRONG_SECRET}),
            ("a key that is no administrator", {"key": "301:0.NA/10", "secret": "other"}, 403, {"key-fault": NO_ADMINISTRATOR}),
            ("a key that may do all but list", {"key": "302:0.NA/10", "secret": "third"}, 403, {"key-fault": "The key lacks a permission for this."}),
            ("a key of another prefix", {"prefix": "20"}, 403, {"key-fault": NO_ADMINISTRATOR})):
        find(one, **typed)
        yield name, (one.status, one.page.faults) == (status, fault) and is_form_page(one) and rows_of(one) == [] and "www-authenticate" not in one.fields
    for prefix in ("30", "10/a"):
        find(one, prefix)
        yield "no prefix of the server: " + prefix, one.status in (400, 403, 404) and len(one.page.faults) == 1 and rows_of(one) == []
    one.get("/?list")
    one.send(list="10", key=ADMIN, secret=SECRET, sender={"Sec-Fetch-Site": "cross-site"})
    yield "a form of another site", one.status == 403 and is_form_page(one) and "/?list" in one.page.links and rows_of(one) == []
    one.get("/?new")
    other = one.page.forms[0][2]["token"]
    for name, token in (("no token", None), ("an empty token", ""), ("another digest", "0-" + "0" * 64), ("the token of another form", other)):
        find(one, token=token, q="leg", to="odd")
        yield name, (one.status, one.page.faults) == (403, {"alert": TOO_OLD}) and is_form_page(one) and rows_of(one) == [] and one.page.title.startswith("Not done: ")
        kept = {field: value for field, value in one.page.forms[0][2].items() if field != "token"}
        yield "what was typed stays, but not the key and its secret: " + name, kept == {"list": "10", "q": "leg", "to": "odd", "key": "", "secret": ""}
        one.send(key=ADMIN, secret=SECRET)
        yield "and can be sent again: " + name, one.status == 200 and rows_of(one) == wanted("10", "leg", "odd")
    one.get("/?list")
    token = one.page.forms[0][2]["token"]
    one.get("/10/second?edit")
    one.send(text="https://example.org/", token=token)
    yield "its token serves no other form", (one.status, one.page.faults) == (403, {"alert": TOO_OLD})
    find(one, q="x" * 1048576)
    yield "a form that is too large", one.status == 413 and "This form didn't arrive whole" in one.page.words
    one.get("/?" + urllib.parse.urlencode({"list": "10", "key": ADMIN, "secret": SECRET}))
    yield "an address asks no server", one.status == 200 and rows_of(one) == [] and one.page.forms[0][2]["secret"] == ""
    one.request("PUT", "/?list=10", "")
    yield "another method", one.status == 405
    one.get("/10/second?list=10")
    yield "another path", one.status == 302


def absent(behind):
    with proxy(behind, "--writes") as port:
        one = Browser(port)
        one.get("/?list=10")
        yield "without a copy it is the front page", one.status == 200 and "Find a handle" in one.page.words and "/?list" not in one.page.links
        one.request("POST", "/?list", urllib.parse.urlencode({"list": "10", "key": ADMIN, "secret": SECRET}), {"Sec-Fetch-Site": "same-origin"})
        yield "and no list is taken", one.status == 405


def main():
    cases = []
    with tempfile.TemporaryDirectory() as folder, contextlib.ExitStack() as stack:
        table, copy, log = (os.path.join(folder, name) for name in ("handles.db", "copy.db", "visits.log"))
        with contextlib.ExitStack() as serving:
            (behind,) = serving.enter_context(servers.serving(tenants, 1, options=["--table", table]))
            subprocess.run([servers.HANDLED, "copy", "--table", table, "--to", copy], check=True, capture_output=True, timeout=60 * servers.SLOWER)
            one = Browser(stack.enter_context(proxy(behind, "--writes", "--lists", copy, "--log", log)))
            cases += [*shown(one), *first(one), *refused(one)]
            with open(log, encoding="utf-8") as lines:
                one.came.append(lines.read())
            for form in (SECRET, urllib.parse.quote(SECRET), urllib.parse.quote_plus(SECRET), "never:shown"):
                cases.append(("no page and no log has the secret", not any(form in text for text in one.came)))
            cases.append(("nor the key", not any("302:" in text for text in one.came)))
            cases.append(("no key is shown, nor a URL that nobody may read", not any(word in text for text in one.came for word in ("never-shown", "hidden.example.org"))))
            cases += absent(behind)
        find(one)
        cases.append(("no list without the server, and what to do", one.status == 502 and list(one.page.faults) == ["alert"] and rows_of(one) == []))
    return servers.tally(cases)


if __name__ == "__main__":
    sys.exit(main())

"""proxy_cases.py: what tools/trials/proxy_answers.py asks of `hdl proxy`, and the whole answers as they should come: a tenants text, the lines that are asked, and for each
the status, how long others may keep the answer, the Location if there is one, and the body from its heading on."""

import html

from lib import answers
from lib.proxy_pages import (
    ABSENT, BEYOND, CALLBACK, CIRCLE, ELSEWHERE, FOLLOW, FORM, HIDDEN, INDEX, LOOK, OTHERS, READING, SLASH, grouped, hop, json_refusal, json_text, json_value, json_values, led_to, link, meant,
    nowhere, octets, refusal, text, value, values, way)

TENANTS = """publisher acme 8 %d
publisher bolt 8 %d
prefix 10 acme
prefix 20 bolt
value 10/a 3 URL 86400 1110 UTF8 https://example.org/three
value 10/a 1 URL 86400 1110 UTF8 https://example.org/one?q=1&r="\u00fc"
value 10/a 2 TEXT 3600 1110 UTF8 <b>Tom & "Jerry"</b>
value 10/a 4 NOTE 86400 1100 UTF8 never-shown
value 10/secret 1 NOTE 86400 1100 UTF8 never-shown
value 10/script 1 URL 86400 1110 UTF8 javascript:alert(1)
value 10/script 2 URL 86400 1110 UTF8 https://example.org/
value 10/admin 100 HS_ADMIN 86400 1110 ADMIN 300:111111111111:0.NA/10
value 10/admin 101 HS_VLIST 86400 1110 LIST 200:10/x 201:10/y
value 10/some 100 HS_ADMIN 86400 1110 ADMIN 300:000010000001:0.NA/10
value 10/some 101 HS_PUBKEY 86400 1110 UTF8 key
value 10/admin 102 OCTETS 86400 1110 HEX 00ff41
value 10/admin 103 HS_SITE 86400 1110 UTF8 site
value 10/admin 300 HS_SECKEY 86400 1100 UTF8 never-shown
value 10/alias 7 HS_ALIAS 60 1110 UTF8 10/none
value 10/alias 5 HS_ALIAS 600 1110 UTF8 20/archive
value 10/alias 1 URL 86400 1110 UTF8 https://example.org/own
value 10/kept 1 HS_ALIAS 86400 1100 UTF8 20/archive
value 10/kept 2 URL 86400 1110 UTF8 https://example.org/own
value 10/odd 1 HS_ALIAS 86400 1110 UTF8 archive
value 10/odd 2 URL 86400 1110 UTF8 https://example.org/own
value 10/gone 1 HS_ALIAS 86400 1110 UTF8 20/none
value 10/off 1 HS_ALIAS 86400 1110 UTF8 30/a
value 10/shown 1 HS_ALIAS 3600 1110 UTF8 10/script
value 10/places 1 URL 86400 1110 UTF8 https://example.org/own
value 10/places 2 10320/loc 3600 1110 UTF8 <locations chooseby="locatt,weighted"> <!-- two places --> <location id="1" href="https://one.example.org/a?b=1&amp;c" weight="1"/> <location id='2' href="https://two.example.org/" weight="0"></location> <location id="3" href="javascript:alert(1)" weight="0"/> </locations>
value 10/nothing 1 10320/loc 3600 1110 UTF8 <locations><location href="https://one.example.org/" weight="0"/></locations>
value 10/nothing 2 URL 86400 1110 UTF8 https://example.org/own
value 10/unread 1 10320/loc 3600 1110 UTF8 <locations><location href="https://one.example.org/" weight="heavy"/></locations>
value 10/unread 2 URL 86400 1110 UTF8 https://example.org/own
value 10/signed 1 10320/loc 3600 1110 UTF8 <locations><location href="https://one.example.org/" weight="+5"/></locations>
value 10/longer 1 10320/loc 3600 1110 UTF8 <locationsx="1"><location href="https://one.example.org/"/></locations>
value 10/behind 1 10320/loc 3600 1110 UTF8 <locations/><location href="https://one.example.org/"/>
value 10/strict 1 10320/loc 3600 1110 UTF8 <locations><!-- a - b --><!----><location  href = "https://one.example.org/?a=&apos;&lt;&gt;&quot;" weight="007" xml:lang="en" > </location></locations>
value 10/spread 1 10320/loc 0 1110 UTF8 <locations><location href="https://a.example.org/"/><location href="https://b.example.org/" weight="3"/></locations>
value 10/circle 1 HS_ALIAS 86400 1110 UTF8 20/circle
value 10/self 1 HS_ALIAS 86400 1110 UTF8 10/self
value 20/circle 1 HS_ALIAS 86400 1110 UTF8 10/circle
value 10/\u00fc?q=a&"<b>%% 1 HS_ALIAS 86400 1110 UTF8 20/wild
value 20/wild 1 HS_ALIAS 86400 1110 UTF8 10/\u00fc?q=a&"<b>%%
%svalue 10/11 1 URL 86400 1110 UTF8 https://example.org/eleven
%svalue 20/archive 1 URL 86400 1110 UTF8 https://example.org/archive
value 20/host 1 URL 60 1110 UTF8 https://example.org
"""
# ten aliases lead from 10/1 to 10/11, and eleven from 10/0
CHAIN = "".join("value 10/%d 1 HS_ALIAS 86400 1110 UTF8 10/%d\n" % (number, number + 1) for number in range(11))
MANY = "".join("value 10/many %d NOTE 86400 1110 UTF8 note %d\n" % (index, index) for index in range(1, 51)) + (
    "value 10/many 51 TITLE 86400 1110 UTF8 report\u202efdp.exe\nvalue 10/many 60 URL 86400 1110 UTF8 urn:x\nvalue 10/many 70 TITLE 86400 1110 UTF8 \u2066a\u061c\n")
# a name with what has a meaning in a path, in a page or in an attribute
WILD = '10/\u00fc?q=a&"<b>%'

# What browsers are told that ask whether another page may send such a request.
OPTIONS = answers.JSON + [("allow", "GET, HEAD, OPTIONS"), ("access-control-allow-methods", "GET, HEAD, OPTIONS"), ("access-control-allow-headers", "*, Authorization"),
                          ("access-control-max-age", "86400"), ("cache-control", answers.NEVER)]
KEPT, NEVER, DAY = answers.KEPT, answers.NEVER, 86400
ONE = "https://example.org/one?q=1&amp;r=%22%C3%BC%22"
A_PAGE = values("10/a", value("URL", 1, link(ONE, "https://example.org/one?q=1&amp;r=&quot;\u00fc&quot;")),
                value("URL", 3, link("https://example.org/three", "https://example.org/three")),
                value("TEXT", 2, text("&lt;b&gt;Tom &amp; &quot;Jerry&quot;&lt;/b&gt;")))
WILD_PAGE = values("20/wild", value("HS_ALIAS", 1, octets(hop(WILD))))
HERE = "Here is what is known about"
NO_URL = '<p class="note">This handle has no web address to go to. %s it.</p>\n' % HERE
URL_UNFOLLOWED = '<p class="note">The web address of this handle, or what this link adds to it, isn\'t one that is followed here. %s the handle.</p>\n' % HERE
SCRIPT_PAGE = values("10/script", value("URL", 1, text("javascript:alert(1)")), value("URL", 2, link("https://example.org/", "https://example.org/")), wrong=URL_UNFOLLOWED)
PLACES = html.escape('<locations chooseby="locatt,weighted"> <!-- two places --> <location id="1" href="https://one.example.org/a?b=1&amp;c" weight="1"/> '
                     "<location id='2' href=\"https://two.example.org/\" weight=\"0\"></location> <location id=\"3\" href=\"javascript:alert(1)\" weight=\"0\"/> </locations>")
PLACES_VALUES = (value("URL", 1, link("https://example.org/own", "https://example.org/own")),
                 value("10320/loc", 2, text(PLACES.replace("&#x27;", "&#39;"))))
UNREAD = ('<p class="note">The list of places that this handle leads to (10320/loc) has a mistake, so it leads nowhere. Please tell the person who gave it to you. '
          "%s it.</p>\n" % HERE)
UNFOLLOWED = ('<p class="note">The place that this link asks for, or that was chosen, isn\'t one that is followed here. Please tell the person who gave the handle to you. '
              "%s it.</p>\n" % HERE)


def unread(handle, written, *urls):
    return ("GET /" + handle, 200, KEPT % 3600, None, values(handle, *urls, value("10320/loc", 1, text(html.escape(written))), wrong=UNREAD))


ADMINISTRATOR = ('<details><summary>Who may change this handle</summary>\n<p>The holder of the key <span class="data">300:<bdi>0.NA/10</bdi></span> may</p>\n'
                 '<ul class="may">%s</ul>\n</details>\n')
ALL = "".join("<li>%s</li>" % may for may in ("create handles", "delete them", "list them", "read what isn't public", "add values", "change values", "remove values",
                                             "add administrators", "change administrators", "remove administrators"))
SOME_PAGE = values("10/some", value("HS_ADMIN", 100, ADMINISTRATOR % "<li>list them</li><li>change values</li>"), value("HS_PUBKEY", 101, text("key")), wrong=NO_URL)
MANY_PAGE = grouped("10/many", ("URL", value("URL", 60, text("urn:x"))), ("NOTE", *(value("NOTE", index, text("note %d" % index)) for index in range(1, 51))),
                    ("TITLE", value("TITLE", 51, text("report[U+202E]fdp.exe")), value("TITLE", 70, text("[U+2066]a[U+061C]"))), wrong=URL_UNFOLLOWED)
ADMIN_PAGE = values("10/admin", value("HS_ADMIN", 100, ADMINISTRATOR % ALL),
                    value("HS_VLIST", 101, octets("200:<bdi>10/x</bdi>") + octets("201:<bdi>10/y</bdi>")),
                    value("OCTETS", 102, "<p>Not text. Length in bytes: 3</p>\n" + octets("00ff41")), value("HS_SITE", 103, text("site")), wrong=NO_URL)
A_ONE = json_value(1, "URL", json_text('https://example.org/one?q=1&r=\\"\u00fc\\"'))
A_TWO = json_value(2, "TEXT", json_text('<b>Tom & \\"Jerry\\"</b>'), 3600)
A_THREE = json_value(3, "URL", json_text("https://example.org/three"))
ADMIN = json_values("10/admin", json_value(100, "HS_ADMIN", '{"format":"admin","value":{"handle":"0.NA/10","index":300,"permissions":"111111111111"}}'),
                    json_value(101, "HS_VLIST", '{"format":"vlist","value":[{"handle":"10/x","index":200},{"handle":"10/y","index":201}]}'),
                    json_value(102, "OCTETS", '{"format":"base64","value":"AP9B"}'),
                    json_value(103, "HS_SITE", '{"format":"base64","value":"c2l0ZQ=="}'))
# What real servers' values are answered by: what is asked, the status, how long others may keep it, the Location if there is one, and the body from its
# heading on.
A_WAY = (302, KEPT % 3600, ONE.replace("&amp;", "&"), way("10/a", ONE))
ARCHIVE_WAY = (302, KEPT % 86400, "https://example.org/archive", way("20/archive", "https://example.org/archive"))
PAGES = (
    ("GET /10/a", *A_WAY),
    ("GET /20/archive", *ARCHIVE_WAY),
    ("GET /20/archive?urlappend=", *ARCHIVE_WAY),
    ("GET /20/archive?urlappend=x&urlappend=/1%3Fa=%C3%BC", 302, KEPT % 86400, "https://example.org/archive/1?a=%C3%BC",
     way("20/archive", "https://example.org/archive/1?a=%C3%BC")),
    ("GET /20/archive?urlappend=%0d%0ax:y", 200, KEPT % 86400, None, values("20/archive", value("URL", 1, link("https://example.org/archive", "https://example.org/archive")), wrong=URL_UNFOLLOWED)),
    ("GET /20/host", 302, KEPT % 60, "https://example.org", way("20/host", "https://example.org")),
    ("GET /20/host?urlappend=.evil.example/", 200, KEPT % 60, None, values("20/host", value("URL", 1, link("https://example.org", "https://example.org")), wrong=URL_UNFOLLOWED)),
    ("GET /hdl:10/a", *A_WAY),
    ("GET /DOI:20/archive", *ARCHIVE_WAY),
    ("GET /https://hdl.handle.net/20/archive", *ARCHIVE_WAY),
    ("GET /HTTP://dx.doi.org/20/archive", *ARCHIVE_WAY),
    ("GET /10/a%20", *A_WAY),
    ("GET /%2010/a", *A_WAY),
    ("GET /%20%C2%A010/a%09%20?noredirect", 200, KEPT % 3600, None, A_PAGE),
    ("GET /DOI:%2020/archive%20", *ARCHIVE_WAY),
    ("GET /10/a%20b%20", 404, NEVER, None, refusal("10/a b", ABSENT, LOOK)),
    ("GET /hdl%3A10/a", 404, NEVER, None, refusal("hdl:10/a", ELSEWHERE, LOOK)),
    ("GET /hdl:hdl:10/a", 404, NEVER, None, refusal("hdl:10/a", ELSEWHERE, LOOK)),
    ("GET /?handle=+10%2Fa%20b%3F+", 302, NEVER, "/10/a%20b%3F", way("10/a b?", "/10/a%20b%3F")),
    ("GET /?handle=10/%0d%0ax:y", 302, NEVER, "/10/%0D%0Ax%3Ay", way("10/\r\nx:y", "/10/%0D%0Ax%3Ay")),
    ("GET /?handle=hdl:10/a", 302, NEVER, "/10/a", way("10/a", "/10/a")),
    ("GET /?handle=+doi%3A10/a", 302, NEVER, "/10/a", way("10/a", "/10/a")),
    ("GET /?handle=https%3A%2F%2Fhdl.handle.net%2F10%2Fa%2520b", 302, NEVER, "/10/a%20b", way("10/a b", "/10/a%20b")),
    ("GET /?handle=http%3A%2F%2Fdoi.org%2F10%2Fa", 302, NEVER, "/10/a", way("10/a", "/10/a")),
    ("GET /?handle=DOI%3A+10%2Fa", 302, NEVER, "/10/a", way("10/a", "/10/a")),
    ("GET /?handle=https%3A%2F%2Fhdl.handle.net%2F%252010%2Fa%2520", 302, NEVER, "/10/a", way("10/a", "/10/a")),
    ("GET /?handle=hdl:hdl:10/a", 302, NEVER, "/hdl%3A10/a", way("hdl:10/a", "/hdl%3A10/a")),
    ("GET /10/%61?noredirect", 200, KEPT % 3600, None, A_PAGE),
    ("GET /10/script", 200, KEPT % 86400, None, SCRIPT_PAGE),
    ("GET /10/admin", 200, KEPT % 86400, None, ADMIN_PAGE),
    ("GET /10/some", 200, KEPT % 86400, None, SOME_PAGE),
    ("GET /10/many", 200, KEPT % 86400, None, MANY_PAGE),
    ("GET /10/a?index=4", 200, NEVER, None, refusal("10/a", HIDDEN, OTHERS, "Not public")),
    ("GET /https://doi.org/20/archive", *ARCHIVE_WAY),
    ("GET /%3Cb%3E%22", 400, NEVER, None, refusal("&lt;b&gt;&quot;", "This is no handle: the name has no slash.", FORM, "No handle")),
    ("POST /%3Cb%3E%22", 405, NEVER, None, refusal("/%3Cb%3E%22", READING, FOLLOW, "Not done")),
    ("GET /10/%2561", 404, NEVER, None, refusal("10/%61", ABSENT, LOOK)),
    ("GET /10/a/", 404, NEVER, None, refusal("10/a/", ABSENT, SLASH, other=meant("10/a"))),
    ("GET /10/a%22%29.", 404, NEVER, None, refusal("10/a&quot;).", ABSENT, LOOK, other=meant("10/a"))),
    ("GET /10/A", 404, NEVER, None, refusal("10/A", ABSENT, LOOK, other=meant("10/a"))),
    ("GET /10/A,?noredirect", 404, NEVER, None, refusal("10/A,", ABSENT, LOOK, other=meant("10/a"))),
    ("GET /10/kept.?type=NONE", 404, NEVER, None, refusal("10/kept.", ABSENT, LOOK, other=meant("10/kept"))),
    ("GET /10/secret.", 404, NEVER, None, refusal("10/secret.", ABSENT, LOOK, other=meant("10/secret"))),
    ("GET /10/...", 404, NEVER, None, refusal("10/...", ABSENT, LOOK)),
    ("GET /10/%3Cscript%3E", 404, NEVER, None, refusal("10/&lt;script&gt;", ABSENT, LOOK)),
    ("GET /30/a", 404, NEVER, None, refusal("30/a", ELSEWHERE, LOOK)),
    ("GET /%61pi/handles/10/a", 404, NEVER, None, refusal("api/handles/10/a", ELSEWHERE, LOOK)),
    ("GET /10/alias", 302, KEPT % 60, "https://example.org/archive", way("20/archive", "https://example.org/archive")),
    ("GET /10/alias?urlappend=/1", 302, KEPT % 60, "https://example.org/archive/1", way("20/archive", "https://example.org/archive/1")),
    ("GET /10/alias?ignore_aliases", 302, KEPT % 60, "https://example.org/own", way("10/alias", "https://example.org/own")),
    ("GET /10/alias?type=URL", 302, KEPT % 86400, "https://example.org/own", way("10/alias", "https://example.org/own")),
    ("GET /10/alias?index=5", 302, KEPT % 600, "https://example.org/archive", way("20/archive", "https://example.org/archive")),
    ("GET /10/alias?noredirect", 200, KEPT % 60, None,
     values("10/alias", value("URL", 1, link("https://example.org/own", "https://example.org/own")), value("HS_ALIAS", 5, octets(hop("20/archive"))),
            value("HS_ALIAS", 7, octets(hop("10/none"))))),
    ("GET /20/wild?noredirect", 200, KEPT % 86400, None, WILD_PAGE),
    ("GET /10/places", 302, KEPT % 3600, "https://one.example.org/a?b=1&c", way("10/places", "https://one.example.org/a?b=1&amp;c")),
    ("GET /10/places?urlappend=d", 302, KEPT % 3600, "https://one.example.org/a?b=1&cd", way("10/places", "https://one.example.org/a?b=1&amp;cd")),
    ("GET /10/places?locatt=id:2", 302, KEPT % 3600, "https://two.example.org/", way("10/places", "https://two.example.org/")),
    ("GET /10/places?locatt=id:4", 302, KEPT % 3600, "https://one.example.org/a?b=1&c", way("10/places", "https://one.example.org/a?b=1&amp;c")),
    ("GET /10/places?locatt=id:3", 200, KEPT % 3600, None, values("10/places", *PLACES_VALUES, wrong=UNFOLLOWED)),
    ("GET /10/places?noredirect", 200, KEPT % 3600, None, values("10/places", *PLACES_VALUES)),
    ("GET /10/nothing", 302, KEPT % 3600, "https://example.org/own", way("10/nothing", "https://example.org/own")),
    unread("10/unread", '<locations><location href="https://one.example.org/" weight="heavy"/></locations>',
           value("URL", 2, link("https://example.org/own", "https://example.org/own"))),
    unread("10/signed", '<locations><location href="https://one.example.org/" weight="+5"/></locations>'),
    unread("10/longer", '<locationsx="1"><location href="https://one.example.org/"/></locations>'),
    unread("10/behind", '<locations/><location href="https://one.example.org/"/>'),
    ("GET /10/strict?locatt=xml:lang:en", 302, KEPT % 3600, "https://one.example.org/?a='%3C%3E%22", way("10/strict", "https://one.example.org/?a=&#39;%3C%3E%22")),
    ("GET /10/kept", 302, KEPT % 86400, "https://example.org/own", way("10/kept", "https://example.org/own")),
    ("GET /10/odd", 302, KEPT % 86400, "https://example.org/own", way("10/odd", "https://example.org/own")),
    ("GET /10/odd?noredirect", 200, KEPT % 86400, None,
     values("10/odd", value("URL", 2, link("https://example.org/own", "https://example.org/own")), value("HS_ALIAS", 1, text("archive")))),
    ("GET /10/gone", 404, NEVER, None, led_to("10/gone", refusal("20/none", ABSENT, LOOK))),
    ("GET /10/off", 404, NEVER, None, led_to("10/off", refusal("30/a", ELSEWHERE, LOOK))),
    ("GET /10/shown", 200, KEPT % 3600, None, led_to("10/shown", SCRIPT_PAGE)),
    ("GET /10/circle", 404, NEVER, None, nowhere(CIRCLE, "10/circle", "20/circle", "10/circle")),
    ("GET /10/self", 404, NEVER, None, nowhere(CIRCLE, "10/self", "10/self")),
    ("GET /10/%C3%BC%3Fq%3Da%26%22%3Cb%3E%25", 404, NEVER, None, nowhere(CIRCLE, WILD, "20/wild", WILD)),
    ("GET /10/1", 302, KEPT % 86400, "https://example.org/eleven", way("10/11", "https://example.org/eleven")),
    ("GET /10/0", 404, NEVER, None, nowhere(BEYOND, *("10/%d" % number for number in range(12)))),
    ("GET /favicon", 400, NEVER, None, refusal("favicon", "This is no handle: the name has no slash.", FORM, "No handle")),
    ("GET /10/%FF", 400, NEVER, None, refusal("10/%FF", "This is no handle: the name is not UTF-8.", FORM, "No handle")),
    ("GET /?handle=//evil.example", 400, NEVER, None, refusal("//evil.example", "This is no handle: the name has a bad segment.", FORM, "No handle")),
    ("GET /10/a?index=x", 400, NEVER, None, refusal("10/a", INDEX, FORM, "No handle")),
    ("POST /10/a", 405, NEVER, None, refusal("/10/a", READING, FOLLOW, "Not done")),
    ("OPTIONS /10/a", 405, NEVER, None, refusal("/10/a", READING, FOLLOW, "Not done")),
)
PRETTY = """{
  "handle": "10/a",
  "responseCode": 1,
  "values": [
    {
      "data": {
        "format": "string",
        "value": "https://example.org/three"
      },
      "index": 3,
      "ttl": 86400,
      "type": "URL"
    }
  ]
}"""
JSONS = (
    ("GET /10/a", 200, KEPT % 3600, json_values("10/a", A_ONE, A_TWO, A_THREE)),
    ("GET /10/a?type=TEXT&type=NONE", 200, KEPT % 3600, json_values("10/a", A_TWO)),
    ("GET /10/a?index=3&index=9", 200, KEPT % 86400, json_values("10/a", A_THREE)),
    ("GET /10/a?index=3&pretty", 200, KEPT % 86400, PRETTY),
    ("GET /10/a?index=4", 200, NEVER, json_refusal("10/a", HIDDEN, 200)),
    ("GET /10/admin?type=HS_SECKEY", 200, NEVER, json_refusal("10/admin", HIDDEN, 200)),
    ("GET /10/admin", 200, KEPT % 86400, ADMIN),
    ("GET /10/some", 200, KEPT % 86400, json_values(
        "10/some", json_value(100, "HS_ADMIN", '{"format":"admin","value":{"handle":"0.NA/10","index":300,"permissions":"000010000001"}}'),
        json_value(101, "HS_PUBKEY", '{"format":"base64","value":"a2V5"}'))),
    ("GET /10/circle", 200, KEPT % 86400, json_values("10/circle", json_value(1, "HS_ALIAS", json_text("20/circle")))),
    ("GET /10/none", 404, NEVER, json_refusal("10/none", "This handle isn't there.", 100)),
    ("GET /10/a.", 404, NEVER, json_refusal("10/a.", "This handle isn't there.", 100)),
    ("GET /10/a%20", 404, NEVER, json_refusal("10/a ", "This handle isn't there.", 100)),
    ("GET /hdl:10/a", 404, NEVER, json_refusal("hdl:10/a", ELSEWHERE, 100)),
    ("GET /30/a", 404, NEVER, json_refusal("30/a", ELSEWHERE, 100)),
    ("GET /10/a?index=x", 400, NEVER, json_refusal("10/a", INDEX, 102)),
    ("GET /10/a?callback=f", 400, NEVER, json_refusal("10/a", CALLBACK.replace("&#39;", "'"), 102)),
    ("GET /ten", 400, NEVER, json_refusal("ten", "This is no handle: the name has no slash.", 102)),
    ("GET ?prefix=10", 403, NEVER, json_refusal("/api/handles", "This proxy lists no handles, since it accepts no keys.", 5)),
    ("GET ", 403, NEVER, json_refusal("/api/handles", "This proxy lists no handles, since it accepts no keys.", 5)),
    ("GET /", 400, NEVER, json_refusal("", "This is no handle: the name has no slash.", 102)),
    ("GET /../sites", 404, NEVER, json_refusal("/api/sites", "There is nothing at this address. A handle is at /api/handles/HANDLE.", 5)),
    ("POST /10/a", 405, NEVER, json_refusal("/api/handles/10/a", READING, 5)),
    ("DELETE ", 405, NEVER, json_refusal("/api/handles", READING, 5)),
)

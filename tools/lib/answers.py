"""answers.py: whole answers of `hdl proxy` over HTTP, as they should come: the status line, each field in its place, and the body. Only the moment
in the field `date` isn't compared, but its form is."""

import hashlib
import re

from lib import repository

# RFC 9110, section 15
REASONS = {200: "OK", 204: "No Content", 302: "Found", 304: "Not Modified", 400: "Bad Request", 403: "Forbidden", 404: "Not Found", 405: "Method Not Allowed",
           414: "URI Too Long", 431: "Request Header Fields Too Large", 502: "Bad Gateway", 503: "Service Unavailable"}
DATE = re.compile(rb"\r\ndate: (?:Mon|Tue|Wed|Thu|Fri|Sat|Sun), \d\d (?:Jan|Feb|Mar|Apr|May|Jun|Jul|Aug|Sep|Oct|Nov|Dec) \d{4} \d\d:\d\d:\d\d GMT\r\n")
DATED = "now"
# How long others may keep an answer, where they may: the least TTL of the values, a day at most.
KEPT = "max-age=%d"
NEVER = "no-store"
# What a page may load.
POLICY = "default-src 'none'; style-src 'unsafe-inline'; img-src 'self'; base-uri 'none'; frame-ancestors 'none'"
SNIFFED = [("x-content-type-options", "nosniff")]
WAY = SNIFFED + [("content-type", "text/html; charset=utf-8"), ("content-security-policy", POLICY)]
VARIES = [("vary", "Accept-Language")]
PAGE = WAY + [("referrer-policy", "no-referrer")]
JSON = SNIFFED + [("content-type", "application/json"), ("access-control-allow-origin", "*")]
TEXT = SNIFFED + [("content-type", "text/plain; charset=utf-8")]
ICON = SNIFFED + [("content-type", "image/svg+xml")]
# tools/lib/page_head.html: all of a page up to its header, with its style; `{title}` stands for its title.
HEAD = repository.text_of("tools", "lib", "page_head.html")


def undated(octets):
    """Answers as they came, with a word in place of each moment."""
    return DATE.sub(("\r\ndate: %s\r\n" % DATED).encode(), octets)


def tag(body):
    """The entity tag of a body."""
    return '"%s"' % hashlib.sha256(body.encode()).hexdigest()


def whole(status, fields, body, ends=True, has_body=True):
    """An answer with these fields in their order; `ends` says whether the connection ends with it, `has_body` whether the body comes, as it doesn't for HEAD."""
    length = [] if status in (204, 304) else [("content-length", len(body.encode()))]
    ending = [("connection", "close")] if ends else []
    lines = ["HTTP/1.1 %d %s" % (status, REASONS[status]), *("%s: %s" % field for field in (*fields, ("date", DATED), *length, *ending))]
    return "\r\n".join([*lines, "", body if has_body else ""]).encode()


def unread(status):
    """The answer to a head that can't be read or is too long."""
    return ("HTTP/1.1 %d %s\r\nconnection: close\r\ncontent-length: 0\r\n\r\n" % (status, REASONS[status])).encode()


def fields_of(media, status, kept, body, location=None, methods="GET, HEAD", cited=None):
    """The fields of an answer in their order: what its body is, what its status asks for, how long it may be kept, and where it leads."""
    fields = list(media)
    if status == 405:
        fields.append(("allow", methods))
    if status in (502, 503):
        fields.append(("retry-after", "3"))
    fields.append(("cache-control", kept))
    if status == 200 and kept != NEVER:
        fields.append(("etag", tag(body)))
    if cited:
        fields.append(("link", '<%s>; rel="cite-as"' % cited))
    if location:
        fields.append(("location", location))
    return fields


def page(status, kept, title, main, cited=None, lang="en", varies=True, **how):
    """A page: what it is called, and all of it from its header on; `cited` is its own address and what its site is called, where it has one; `varies` says whether requests choose its language."""
    head, address = HEAD.replace('<html lang="en">', '<html lang="%s">' % lang), None
    if cited:
        address, site = cited
        named = (("url", address), ("title", title[:-len(" - " + site)]), ("site_name", site))
        links = '<link rel="canonical" href="%s">\n' % address + "".join('<meta property="og:%s" content="%s">\n' % pair for pair in named)
        head = head.replace("</title>\n", "</title>\n" + links)
    body = head.replace("{title}", title) + main
    media = VARIES * varies + PAGE
    return whole(status, fields_of(media, status, kept, body, cited=address), body, **how)


def way(kept, location, body, **how):
    """A redirect, whose body stands alone."""
    return whole(302, fields_of(WAY, 302, kept, body, location), body, **how)


def json(status, kept, body, **how):
    return whole(status, fields_of(JSON, status, kept, body, methods="GET, HEAD, OPTIONS"), body, **how)


def words(status, text, **how):
    """What the proxy tells of itself."""
    return whole(status, [("content-type", "text/plain; charset=utf-8"), ("cache-control", NEVER)], text, **how)


def counts(text, **how):
    """What the proxy counts, in the text format of Prometheus."""
    return whole(200, [("content-type", "text/plain; version=0.0.4; charset=utf-8"), ("cache-control", NEVER)], text, **how)


def file(media, kept, body, **how):
    return whole(200, fields_of(media, 200, kept, body), body, **how)


def unchanged(answer):
    """That a client has this answer already: the same fields without a length, and no body."""
    head = answer.partition(b"\r\n\r\n")[0].split(b"\r\n")
    kept = [line for line in head[1:] if not line.startswith(b"content-length: ")]
    return b"\r\n".join([b"HTTP/1.1 304 Not Modified", *kept, b"", b""])

"""proxy_pages.py: the pages and the JSON of `hdl proxy`, as they should come: a page as what it is called and all of it from its header on."""

import html
import urllib.parse

SITE, CONTACT = "Tom & Jerry's <handles>", "help@example.org"
SITE_TEXT = "Tom &amp; Jerry&#39;s &lt;handles&gt;"
HEADER = '<header><a href="/"><bdi>%s</bdi></a></header>\n<main>\n' % SITE_TEXT
FOOTER = '<footer>Questions? <a href="mailto:help@example.org"><bdi>help@example.org</bdi></a></footer>\n</body>\n</html>\n'
ANOTHER = '<p><a href="/">Find another handle</a></p>\n'
END = "</main>\n" + FOOTER
COLUMNS = ('<table aria-label="What is known about this handle">\n<thead><tr><th scope="col">Type, index</th><th scope="col">Value</th></tr></thead>\n'
           "<tbody>\n%s</tbody>\n</table>\n")

ABSENT = "This handle isn&#39;t there."
ELSEWHERE = "No server here has handles with this beginning."
UNANSWERED = "No server answered."
CROWDED = "The server is busy."
HIDDEN = "This handle exists, but it has no such public value."
READING = "Use GET or HEAD to read a handle."
INDEX = "An index is a number below 4294967296."
CALLBACK = "callback is refused: pages of any site may read this JSON without it."
LOOK = "Please look for a mistake in the name. If there is none, ask who gave it to you."
ELSEWHERE_PLEASE = "Please tell the person who gave it to you: one of these handles must be changed."
CIRCLE = "Its aliases lead in a circle:"
BEYOND = "Its aliases lead on beyond ten handles:"
SLASH = "Please look for a mistake in the name, such as the slash at its end. If there is none, ask who gave it to you."
FORM = "A handle is a prefix, a slash and a local name, such as 10/a."
FOLLOW = "Follow a link to a handle, or type its address."
LATER = "Please come back in a few minutes."
OTHERS = "Its values aren&#39;t public, or the part of its address after the question mark selects others."
FRONT = "Find a handle - " + SITE_TEXT, HEADER + """<h1>Find a handle</h1>
<form action="/" method="get">
<p><label for="handle">A handle, as you found it:</label></p>
<p class="find"><input id="handle" name="handle" placeholder="10/a" autocapitalize="off" autocomplete="off" spellcheck="false" required> <button>Go to it</button></p>
</form>
<p>A handle such as <code>10/a</code> is a lasting name of a text, a picture or data, which may move. Its address here leads to where that is now.</p>
<p><small>An address that ends in <code>?noredirect</code>, such as <code>/10/a?noredirect</code>, shows the values of its handle. <code>/api/handles/10/a</code> gives them as JSON.</small></p>
</main>
""" + FOOTER
ROBOTS = "User-agent: *\nDisallow: /api/\n"
ICON = ('<svg xmlns="http://www.w3.org/2000/svg" viewBox="0 0 16 16"><rect width="16" height="16" rx="3" fill="#1d6b57"/>'
        '<path d="M5 3.5v9M11 3.5v9M5 8h6" stroke="#fff" stroke-width="2"/></svg>\n')


def name(asked):
    return '<p class="name" dir="auto">%s</p>\n' % asked


def meant(handle):
    """That another handle may be meant, as a link to where its address leads."""
    return '<p class="note">Did you mean <a href="/%s"><bdi>%s</bdi></a>?</p>\n' % (urllib.parse.quote(handle, safe="/"), html.escape(handle))


def refusal(asked, why, advice, word="Not found", other=""):
    return "%s: %s - %s" % (word, asked, SITE_TEXT), "%s<h1>%s</h1>\n%s%s<p>%s</p>\n%s%s" % (HEADER, why, name(asked), other, advice, ANOTHER, END)


def answered_nowhere(page):
    """The page of a refusal as it is where no server answers."""
    words = (("Not found: ", "No answer: "), ("Not public: ", "No answer: "), (ELSEWHERE, UNANSWERED), (HIDDEN, UNANSWERED), (LOOK, LATER), (OTHERS, LATER))
    for said, instead in words:
        page = [part.replace(said, instead) for part in page]
    return page


def nameless(page, foot=""):
    """The same page where the site has no name of its own, and this foot."""
    return [part.replace(SITE_TEXT, "Handles").replace(FOOTER, foot + "</body>\n</html>\n") for part in page]


def about(handle, why, shown):
    """A page about a handle: why it is shown, and what."""
    json = '<p><small><a href="/api/handles/%s">For programs: these values as JSON</a></small></p>\n' % urllib.parse.quote(html.unescape(handle), safe="/")
    return "%s - %s" % (handle, SITE_TEXT), '%s<h1 dir="auto">%s</h1>\n%s%s%s%s%s' % (HEADER, handle, why, shown, ANOTHER, json, END)


def values(handle, *parts, wrong=""):
    return about(handle, wrong, COLUMNS % "".join(parts))


def grouped(handle, *groups, wrong=""):
    """A page of many values: each type once, with its values below it."""
    head = '<tbody>\n<tr class="type"><th colspan="2" scope="rowgroup"><bdi>%s</bdi></th></tr>\n%s</tbody>\n'
    rows = "".join(head % (kind, "".join(parts)) for kind, *parts in groups)
    return about(handle, wrong, COLUMNS.replace("<table", '<table class="types"').replace("<tbody>\n%s</tbody>\n", "%s") % rows)


def hop(handle):
    """A handle's name, as a link to the page of its own values."""
    return '<a href="/%s?noredirect"><bdi>%s</bdi></a>' % (urllib.parse.quote(handle, safe="/"), html.escape(handle))


def led_to(asked, page):
    """A page to which an alias led: it says which handle was asked for."""
    title, main = page
    note = '<p class="note">%s is an alias, which leads to another handle:</p>\n' % hop(asked)
    return "%s, an alias: %s" % (html.escape(asked), title), HEADER + note + main[len(HEADER):]


def nowhere(why, *names):
    """That the aliases of handles lead nowhere, by a link to each."""
    asked, hops = html.escape(names[0]), "".join("<li>%s</li>\n" % hop(one) for one in names)
    return ("Leads nowhere: %s - %s" % (asked, SITE_TEXT),
            "%s<h1>This handle leads nowhere.</h1>\n%s<p>%s</p>\n<ol>\n%s</ol>\n<p>%s</p>\n%s%s" % (HEADER, name(asked), why, hops, ELSEWHERE_PLEASE, ANOTHER, END))


def empty(handle, wrong=""):
    return about(handle, wrong, "<p>This handle exists, but nothing about it is public.</p>\n")


def value(kind, index, data, written=""):
    return '<tr><th scope="row"><bdi>%s</bdi> <small>%d</small></th>\n<td>%s%s</td></tr>\n' % (kind, index, data, written)


def written_on(moment):
    return '<p class="written">Written <time datetime="%s">%s</time></p>\n' % (moment, moment[:10])


def text(shown):
    return '<p class="text" dir="auto">%s</p>\n' % shown


def octets(shown):
    return '<p class="data">%s</p>\n' % shown


def link(to, shown):
    return '<p class="data" dir="auto"><a rel="noreferrer" href="%s">%s</a></p>\n' % (to, shown)


def way(title, to):
    return title, '<!DOCTYPE html>\n<meta charset="utf-8">\n<title>%s</title>\n<a href="%s">%s</a>\n' % (title, to, to)


def json_value(index, kind, data, ttl=86400):
    return '{"data":%s,"index":%d,"ttl":%d,"type":"%s"}' % (data, index, ttl, kind)


def json_text(shown):
    return '{"format":"string","value":"%s"}' % shown


def json_values(handle, *parts):
    return '{"handle":"%s","responseCode":1,"values":[%s]}' % (handle, ",".join(parts))


def json_refusal(handle, why, code):
    return '{"handle":"%s","message":"%s","responseCode":%d}' % (handle, why, code)

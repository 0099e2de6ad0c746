"""operating.py: does what docs/OPERATING.md says under "A day, from an empty folder", block by block, with the proved programs.

The blocks are taken from the page, so that page and trial can't part; ports are replaced by free ones. Behind a block that starts servers it waits until they listen. What each block prints, and what the servers hold then, is
compared with what the page leads one to expect: the secrets of three departments create, change and list, the copy that was restored has what was there, the fourth department serves, the moved one answers as before, and
the text of the whole table has every handle. After the move a fifth department is added, and all serve. Before the day a port that is given twice, or taken, is told. Its last line is 'N passed, M failed', a case counting one."""

import itertools
import os
import re
import shutil
import subprocess
import sys
import tempfile

# nothing is left beside the tools
sys.dont_write_bytecode = True
from lib import repository, servers

# What the gate reads of it (tools/build/parts.py).
GATE = {"alone": True}
HDL = os.environ.get("HDL", repository.program("hdl"))
SECTION = "## A day, from an empty folder\n"
# the ports of the page: those of publishers, the one of the status page, and those that a text gets when a publisher moves
PORTS = (2641, 2642, 2643, 2644, 12641)
MOVED = (3641, 3642, 3643, 3644)
# the port of a department that the page doesn't have
FIFTH = 2645
# What is done after the move: a fifth department, first with a port that the moved one has.
ADDED = """\
cp publishers.words fifth.words
hdl init 50 | grep --invert-match '^#' >> fifth.words
hdl tenants < fifth.words > fifth.tenants
echo "-- check"
handled check < fifth.tenants 2>&1 || echo "status $?"
sed -i 's/^\\(publisher 50 .*\\) %(first)d$/\\1 %(fifth)d/' fifth.words
hdl tenants < fifth.words > publishers.tenants
handled stop --control control
handled serve --table handles.db --log changes.log --control control --text publishers.tenants < /dev/null &
listens %(second)d %(fifth)d
asked resolve 0.NA/50 --type URL --server 127.0.0.1:%(fifth)d
asked resolve 10/report-8 --type URL --server 127.0.0.1:%(first)d
"""

# the words that the page uses: what `hdl init` writes has the ports of the trial, and a request without a server goes to the first one's
WORDS = {
    "handled": """\
#!/bin/sh
exec "$HANDLED" "$@"
""",
    "hdl": """\
#!/bin/sh
case "$1" in
  init) "$HDL" "$@" | sed %s ;;
  import | modify | resolve | list) exec "$HDL" "$@" --server 127.0.0.1:%d ;;
  *) exec "$HDL" "$@" ;;
esac
""",
}
# what stands before the blocks
FRONT = """\
set -e
listens() { for port in "$@"; do for try in $(seq 300); do (: < "/dev/tcp/127.0.0.1/$port") 2> /dev/null && break; sleep 0.1; done; (: < "/dev/tcp/127.0.0.1/$port"); done; }
# what is asked of a server between blocks: the codes and data that it gives
asked() { echo "-- $*"; "$HDL" "$@" --short 2>&1 || true; }
trap 'kill $(jobs -p) 2> /dev/null || true' EXIT
"""


def blocks():
    """The blocks of the section, each with the words in bold that begin its paragraph."""
    page = repository.text_of("docs", "OPERATING.md")
    section = page[page.index(SECTION) + len(SECTION):]
    section = section[: section.index("\n## ")]
    found = re.findall(r"^\*\*([^*\n]+)\*\*(?:[^\n]+\n)+\n((?:    [^\n]*\n)+)", section, re.MULTILINE)
    return [(name.rstrip("."), re.sub("^    ", "", lines, flags=re.MULTILINE)) for name, lines in found]


def replaced(text, ports):
    """The text with other ports."""
    return re.sub(r"\b(?:%s)\b" % "|".join(map(str, ports)), lambda found: str(ports[int(found[0])]), text)


def script(ports):
    """The whole day, a line '== NAME' before the words of each block."""
    words = [FRONT]
    first, second, third, fourth = (ports[port] for port in PORTS[:4])
    asks = {
        "Start": "listens %d %d %d" % (first, second, third),
        "First handles": "asked list 10 --key 300:0.NA/10 --server 127.0.0.1:%d\nsleep 0.5" % first,
        # as a person would: the log's thread writes a line a moment behind its answer, and lines of several lanes that came since it wrote last lane by lane
        "Change": "sleep 0.5",
        "Restore": "listens %d\nasked resolve 10/report-7 --type URL --server 127.0.0.1:%d\nasked list 10 --key 300:0.NA/10 --server 127.0.0.1:%d" % (third, first, first),
        "A fourth department": "listens %d\nasked resolve 0.NA/40 --type URL --server 127.0.0.1:%d\nasked resolve 10/report-8 --type URL --server 127.0.0.1:%d" % (fourth, fourth, first),
        "A department moves": "listens %d %d\nasked resolve 10/report-7 --type URL --server 127.0.0.1:%d\nasked list 10 --key 300:0.NA/10 --server 127.0.0.1:%d\nasked resolve 20/none --server 127.0.0.1:%d\n%s"
        % (first, second, first, first, second, ADDED % {"first": first, "second": second, "fifth": ports[FIFTH]}),
    }
    for name, lines in blocks():
        words += ["echo '== %s'" % name, moved_ports(replaced(lines, ports), ports), asks.get(name, "")]
    return "\n".join(words) + "\n"


def moved_ports(lines, ports):
    """The lines that give the publishers of a text that moved, or a publisher that went, other ports: by name of the port, as the free ones have no pattern."""
    if "moved.tenants" not in lines:
        return lines
    changed = []
    for line in lines.splitlines():
        found = re.match(r"sed -i .* (\S+\.(?:tenants|words))$", line)
        if found:
            kept = "10" if found[1] == "moved.tenants" else None
            pairs = [pair for pair in zip(PORTS, MOVED) if (pair[0] != PORTS[0]) == (kept is not None)]
            line = "sed -i %s %s" % (" ".join("-e 's/ %d$/ %d/'" % (ports[old], ports[new]) for old, new in pairs), found[1])
        changed.append(line)
    return "\n".join(changed)


def said(output):
    """What each block printed, by its name."""
    parts = re.split(r"^== (.+)\n", output, flags=re.MULTILINE)
    return dict(zip(parts[1::2], parts[2::2]))


def day(folder):
    ports = dict(zip((*PORTS, *MOVED, FIFTH), servers.free_ports(len(PORTS) + len(MOVED) + 1)))
    with open(os.path.join(folder, "day"), "w", encoding="utf-8") as file:
        file.write(script(ports))
    work, words = os.path.join(folder, "work"), os.path.join(folder, "words")
    os.mkdir(work)
    os.mkdir(words)
    for name, text in WORDS.items():
        with open(os.path.join(words, name), "w", encoding="utf-8") as file:
            file.write(text % (" ".join("-e 's/ %d$/ %d/'" % pair for pair in ports.items()), ports[PORTS[0]]) if "%s" in text else text)
            os.fchmod(file.fileno(), 0o755)
    log = os.path.join(folder, "output")
    # a file, since servers that go on would hold a pipe open
    with open(log, "w", encoding="utf-8") as output:
        done = subprocess.run(["bash", os.path.join(folder, "day")], cwd=work, stdout=output, stderr=subprocess.STDOUT, env=dict(os.environ, HANDLED=servers.HANDLED, HDL=HDL, PATH=words + os.pathsep + os.environ["PATH"]), check=False, timeout=600)
    with open(log, encoding="utf-8") as output:
        whole = output.read()
    yield "the day ends with status 0", done.returncode == 0
    parts = said(whole)
    yield "every block was reached", list(parts) == [name for name, _ in blocks()]
    yield from compared(parts, ports, work)
    if done.returncode:
        print(whole)


def has(parts, name, *texts):
    return all(text in parts.get(name, "") for text in texts)


def compared(parts, ports, work):
    """What was printed, with what the page leads one to expect."""
    lines = ["%d 127.0.0.1:%d\n" % (10 * (place + 1), ports[PORTS[place]]) for place in range(3)]
    yield "the text is checked", has(parts, "Set up", *("%d: port %d" % (10 * (place + 1), ports[PORTS[place]]) for place in range(3)))
    yield "the servers' lines", has(parts, "Start", *lines, "begins: publishers 3")
    yield "handles of a spreadsheet", has(parts, "First handles", "2 created, 0 there already, 0 failed\n", "10/report-7\n10/report-8\n")
    yield "a change", has(parts, "Change", "1 success", "https://example.org/moved\n")
    yield "what is watched", has(parts, "Watch", "ok\n", 'handled_replies_total{publisher="10",operation="modify",code="1"} 1', " modify 10/report-7 300:0.NA/10 1\n")
    yield "the copy restored", has(parts, "Restore", "https://example.org/moved\n", "10/report-7\n10/report-8\n")
    yield "a fourth department", has(parts, "A fourth department", "40 127.0.0.1:%d\n" % ports[PORTS[3]], "https://example.org/report-8\n", "begins: publishers 4")
    yield "a department moved", has(parts, "A department moves", "10 127.0.0.1:%d\n" % ports[PORTS[0]], "https://example.org/moved\n", "10/report-7\n10/report-8\n", "100")
    taken = "check: 127.0.0.1:%d of 50 is taken now, by a server that runs or by another program: a start needs it free\n" % ports[PORTS[0]]
    yield "a fifth department can't have the port of the one that moved", has(parts, "A department moves", taken) and "have one port" not in parts["A department moves"]
    yield "a fifth department", has(parts, "A department moves", "50 127.0.0.1:%d\n" % ports[FIFTH], "begins: publishers 5", "https://example.org/report-8\n")
    yield "servers end in order", has(parts, "End", "handled: ends: ")
    yield "a damaged file", has(parts, "A file that is damaged", "table: damaged", "status 4\n")
    with open(os.path.join(work, "whole.tenants"), encoding="utf-8") as text:
        handles = {line.split()[1] for line in text if line.startswith("value ")}
    yield "the whole table as a text", handles == {"0.na/10", "0.na/20", "0.na/30", "0.na/40", "0.na/50", "10/report-7", "10/report-8"}
    with open(os.path.join(work, "moved.tenants"), encoding="utf-8") as text:
        handles = {line.split()[1] for line in text if line.startswith("value ")}
    yield "the text of the department that moved", handles == {"0.na/10", "10/report-7", "10/report-8"}
    secret = re.search("0.NA/10 300 HS_SECKEY .* (\\S+)\n", open(os.path.join(work, "publishers.words"), encoding="utf-8").read())
    yield "no secret is printed or logged", secret and not any(secret[1] in told for told in [*parts.values(), open(os.path.join(work, "changes.log"), encoding="utf-8").read()])
    modes = {name: os.stat(os.path.join(work, name)).st_mode & 0o777 for name in ("handles.db", "changes.log", "publishers.words", "backup.db")}
    yield "what holds secrets is its owner's alone", set(modes.values()) == {0o600}


def ran(words, text=""):
    done = subprocess.run([servers.HANDLED, *words], input=text, capture_output=True, text=True, timeout=60 * servers.SLOWER, check=False)
    return done.returncode, done.stdout, done.stderr


def texts(*departments):
    return "".join("publisher %s 2 %d\nprefix %s %s\n" % (name, port, name, name) for name, port in departments)


def departments():
    """A port that is given twice or taken is told before a start."""
    first, second, third = servers.free_ports(3)
    status, printed, fault = ran(["check"], texts(("10", first), ("20", second), ("50", third)))
    yield "ports that can be had", (status, fault) == (0, "") and "50: port %d" % third in printed
    twice = texts(("10", first), ("20", second), ("50", first))
    said = "tenants: 10 and 50 have one port, %d: give one of them another\n" % first
    status, _, fault = ran(["check"], twice)
    yield "check tells a port that is given twice", (status, fault) == (3, said)
    yield "a server doesn't start with one", ran(["serve", "--turns", "1"], twice) == (3, "", said)
    for word in ("check", "serve"):
        status, _, fault = ran([word], "# nothing yet\n")
        yield "%s refuses a text without a publisher" % word, status == 3 and fault.startswith("tenants: the text has no publisher: give each a line `publisher NAME LANES PORT`") and fault.count("\n") == 1
    with servers.serving(lambda *ports: texts(("10", ports[0])).encode(), 1) as ports:
        status, printed, fault = ran(["check"], texts(("10", ports[0]), ("20", second)))
        yield "check tells a port that is taken", status == 0 and "20: port" in printed and fault.startswith("check: 127.0.0.1:%d of 10 is taken now" % ports[0]) and fault.count("\n") == 1
        status, _, fault = ran(["check", "--listen", "127.0.0.2"], texts(("10", ports[0])))
        yield "another address has the port free", (status, fault) == (0, "")
        status, printed, fault = ran(["check", "--listen", "203.0.113.77", "--listen", "127.0.0.2"], texts(("10", ports[0]), ("20", second)))
        yield "check tells once that an address isn't this machine's", status == 1 and "20: port" in printed and fault.startswith("check: cannot listen on 203.0.113.77:%d: " % ports[0]) and fault.count("\n") == 1
        status, printed, fault = ran(["serve", "--turns", "1"], texts(("20", second), ("10", ports[0])))
        yield "one port that can't be had, and no publisher is served", status == 1 and "127.0.0.1:%d" % ports[0] in fault and not printed


def main():
    folder = tempfile.mkdtemp()
    try:
        return servers.tally(itertools.chain(departments(), day(folder)))
    finally:
        shutil.rmtree(folder)


sys.exit(main())

"""packaging.py: tries the operators' files of packaging/.

What needs no other program: each option that a file names is in the help of its command (tools/trials/help), each metric and label of the rules and of the board is one that crates/ prints, each status is one of the pages, files that name one
port, path or job name the same, and copy-table keeps and removes the right copies. With Debian's systemd, prometheus, logrotate, haproxy and nginx each file is checked by the program that reads it; the last three
run too, before small servers. What isn't installed is left out, and said so. Where `handled` and `hdl proxy` are built, the units' command lines are run. Its last line is 'N passed, M failed', a case counting one."""

import contextlib
import glob
import http.client
import json
import os
import re
import shlex
import sqlite3
import subprocess
import sys
import tempfile
import time

# nothing is left beside the tools
sys.dont_write_bytecode = True
from lib import front_cases, front_servers, releases, repository, servers

UNITS = ("handled.service", "hdl-proxy.service", "handled-copy.service", "handled-copy.timer")
# What Prometheus adds itself.
OWN_METRICS, OWN_LABELS = {"up"}, {"job", "instance"}
# Words of PromQL that are no metrics.
WORDS = {"by", "without", "and", "or", "unless", "on", "ignoring", "bool", "offset"}
COMMAND = re.compile(r"(?:^|/usr/bin/|exec |`)(handled|hdl) ([a-z]\w*)([^`\n]*)", re.MULTILINE)
OPTION = re.compile(r"(?<![\w-])--[a-z][a-z-]*")
# Each alert, and the series by which it fires and doesn't; each one has that value, or so much more, at each of 30 minutes, or is written as promtool has it.
ALERTS = (
    ("HandleServerDown", 'up{job="handled"}', "0", "1"),
    ("HandleProxyDown", 'up{job="hdl_proxy"}', "0", "1"),
    ("HandleTableShut", "handled_table_shut", "1", "0"),
    ("HandleTableShrank", "handled_table_file_bytes", "1000x10 100x20", "1000x10 900x20"),
    ("HandleCopyOld", "handled_copy_timestamp_seconds", "-200000", "0"),
    ("HandleCopyFailed", "handled_copy_exit_status", "4", "0"),
    ("HandleClusterDown", "handled_cluster_up", "0", "1"),
    ("HandleTableFailing", "handled_table_failing", "1", "0"),
    ("HandleMemoryShort", "handled_memory_short", "1", "0"),
    ("HandleLogLost", "handled_log_lines_lost_total", "+1", "+0"),
    ("HandleHistoryLost", "handled_history_lines_lost_total", "+1", "+0"),
    ("HandleChangesSlow", "handled_commit_seconds_sum", "+20", "+1"),
    ("HandleChangesBusy", 'handled_replies_total{publisher="a",operation="other",code="3"}', "+5", "+1"),
    ("HandleBoundNear", 'handled_held_values{publisher="a"}', "950", "800"),
    ("HandleKeysWrong", 'handled_replies_total{publisher="a",operation="other",code="403"}', "+9", "+1"),
    ("HandleConnectionsMany", 'handled_connections{publisher="a"}', "950", "800"),
    ("HandleProxyServerFails", 'hdl_proxy_server_failed_total{server="s"}', "+20", "+2"),
    ("HandleProxyQueueLong", 'hdl_proxy_server_waiting{server="s"}', "200", "20"),
    ("HandleProxyAnswersFail", 'hdl_proxy_answers_total{kind="page",code="502"}', "+20", "+2"),
    ("HandleProxyLogLost", "hdl_proxy_log_lines_lost_total", "+1", "+0"),
)
# What no server but one of a cluster tells.
OF_CLUSTERS = {"handled_cluster_up"}
# What node_exporter tells of copies, and where copy-table writes it.
TOLD = re.compile(r"^# TYPE (\w+) gauge$", re.MULTILINE)
NODE_EXPORTER = "127.0.0.1:9100"
# What stands beside each of them.
ALWAYS = (("handled_commit_seconds_count", "+10"), ('handled_bound_values{publisher="a"}', "1000"), ('hdl_proxy_server_asked_total{server="s"}', "+100"), ('hdl_proxy_answers_total{kind="redirect",code="302"}', "+100"))


def text_of(name):
    """A file of packaging/, with lines that go on as one."""
    return re.sub(r"\\\n[#\s]*", " ", repository.text_of("packaging", name))


def octets_of(path):
    with open(path, "rb") as file:
        return file.read()


def names():
    return sorted(os.listdir(repository.path("packaging")))


def left_out(program, what):
    print("left out, since %s isn't here: %s" % (program, what))


def said(words, **how):
    """Whether a program ends well, and what it says, which is printed where it doesn't."""
    done = subprocess.run(words, stdin=subprocess.DEVNULL, stdout=subprocess.PIPE, stderr=subprocess.STDOUT, text=True, errors="replace", check=False, timeout=60, **how)
    if done.returncode != 0:
        print(done.stdout, end="")
    return done.returncode == 0, done.stdout


# Options


def commands(name):
    """The commands in a file: program, command, and the rest of the line. The words of a container are those of the server behind its entry."""
    text = text_of(name)
    if name == "Containerfile":
        text += "handled serve " + " ".join(json.loads(re.search(r"^CMD (.*)$", text, re.MULTILINE)[1])) + "\n"
    return [it for it in COMMAND.findall(text) if (it[0], it[1]) != ("handled", "at")]


def has_options(program, command, rest):
    """Whether the help of a command has all options that follow it."""
    place = ("hdl_web", "--help") if (program, command) == ("hdl", "proxy") else (program, command)
    path = repository.path("tools", "trials", "help", *place)
    if not os.path.exists(path):
        print("%s has no command %s" % (program, command))
        return False
    unknown = set(OPTION.findall(rest)) - set(OPTION.findall(repository.text_of(path)))
    for option in sorted(unknown):
        print("%s %s has no option %s" % (program, command, option))
    return not unknown


def options():
    found = [(name, it) for name in names() for it in commands(name)]
    for name, it in found:
        yield "packaging/%s: %s %s" % (name, it[0], it[1]), has_options(*it)
    yield "commands were found in each file that has some", {"handled.service", "hdl-proxy.service", "copy-table", "Containerfile"} <= {name for name, _ in found}


# Metrics


def metrics():
    """Each metric that the programs and copy-table print, and all labels that they give any."""
    known, labels = OWN_METRICS | set(TOLD.findall(text_of("copy-table"))), set(OWN_LABELS)
    for path in glob.glob(repository.path("crates", "*", "src", "*.rt")):
        text = repository.text_of(path)
        for name, rest in re.findall(r"# TYPE (\w+)(\{name\})?", text):
            known |= {name + end for end in re.findall(r'\("(\w+)", *"(?:counter|gauge)"|"(\w+)",\s*"(?:counter|gauge)"', text) for end in end if end} if rest else {name}
        # a histogram's lines, and gauges that stand in a list
        known |= {name + end for name in re.findall(r"# TYPE (\w+) histogram", text) for end in ("_bucket", "_sum", "_count")}
        known |= set(re.findall(r'"((?:handled|process)_\w+_(?:bytes|fds|values|octets))"', text))
        if "# TYPE " in text or "_total{{" in text or "_bucket{{" in text:
            labels |= set(re.findall(r'[{},](\w+)=\\"', text))
    return known, labels


def unknown_in(expression, known, labels):
    """What an expression names and no program prints."""
    bare = re.sub(r'"[^"]*"', "", expression)
    named = {name for inside in re.findall(r"\{([^}]*)\}", bare) for name in re.findall(r"\w+", inside)}
    named |= {name for inside in re.findall(r"\b(?:by|without) \(([^)]*)\)", bare) for name in re.findall(r"\w+", inside)}
    bare = re.sub(r"\{[^}]*\}|\[[^\]]*\]|\b(?:by|without) \([^)]*\)", "", bare)
    found = set(re.findall(r"\b[a-z_]\w*\b(?! *\()", bare)) - WORDS
    # an aggregation may have its labels first
    found -= {"sum", "max", "min", "avg", "count"}
    return sorted(found - known) + sorted(named - labels)


def shown(panel):
    """What a panel's legends and the summaries of rules name."""
    return [label for target in panel["targets"] for label in re.findall(r"\{\{(\w+)\}\}", target["legendFormat"])]


def rules():
    """Each alert with its expression and its summary."""
    text = repository.text_of("packaging", "rules.yml")
    return re.findall(r"- alert: (\w+)\n +expr: (.*)\n(?: +for: .*\n)? +labels: \{severity: (?:page|look)\}\n +annotations:\n +summary: (.*)\n", text), text.count("- alert:")


def has_metrics():
    known, labels = metrics()
    found, count = rules()
    yield "each rule has one expression and one summary", len(found) == count > 0
    for alert, expression, summary in found:
        unknown = unknown_in(expression, known, labels) + sorted(set(re.findall(r"\$labels\.(\w+)", summary)) - labels)
        yield "packaging/rules.yml: %s: %s" % (alert, unknown), not unknown
    panels = json.loads(repository.text_of("packaging", "board.json"))["panels"]
    for panel in panels:
        unknown = [one for target in panel["targets"] for one in unknown_in(target["expr"], known, labels)] + sorted(set(shown(panel)) - labels)
        yield "packaging/board.json: %s: %s" % (panel["title"], unknown), not unknown
    yield "the panels have numbers of their own", sorted(panel["id"] for panel in panels) == list(range(1, len(panels) + 1))
    places = [(x, y) for panel in panels for at in [panel["gridPos"]] for x in range(at["x"], at["x"] + at["w"]) for y in range(at["y"], at["y"] + at["h"])]
    yield "no panel covers another", len(places) == len(set(places)) and max(x for x, _ in places) < 24


# Statuses


def exit_statuses():
    """Of each exit status of docs/OPERATING.md, "Exit statuses", the commands that its rows are about: `serve` where they name none."""
    page = repository.text_of("docs", "OPERATING.md")
    section = page[page.index("## Exit statuses"):].split("\n## ")[0]
    found = {}
    for status, rest in re.findall(r"^\| (\d+) \|(.*)$", section, re.MULTILINE):
        found.setdefault(int(status), set()).add((re.search(r"`handled (export|copy|stop)`", rest) or [0, "serve"])[1])
    return found


def numbers(name, key):
    return [int(it) for line in re.findall(r"^%s=(.*)$" % key, text_of(name), re.MULTILINE) for it in line.split()]


def statuses():
    found = exit_statuses()
    lasting = [status for status, of in sorted(found.items()) if status > 1 and "serve" in of]
    yield "handled.service isn't started again behind what lasts", numbers("handled.service", "RestartPreventExitStatus") == lasting
    sentence = re.search(r"The exit status is (\d) for a bad command line, and (\d) if", repository.text_of("docs", "PROXY.md"))
    yield "hdl-proxy.service neither", bool(sentence) and numbers("hdl-proxy.service", "RestartPreventExitStatus") == [int(sentence[1])]
    taken = [int(it) for it in re.search(r"case \$status in (.*?)\) ;;", text_of("copy-table"))[1].split(" | ")]
    yield "copy-table takes an export that left handles out", taken == [0] + [status for status, of in found.items() if of == {"export"}]
    page = repository.text_of("docs", "OPERATING.md")
    health = re.search(r"`/health` is (\d+) while .*?, and (\d+) once", page)
    yield "haproxy.cfg lets in at each status of /health", bool(health) and "expect status %s,%s\n" % (health[1], health[2]) in text_of("haproxy.cfg")
    codes = re.findall(r"\| (\d+) \| [a-z]", repository.text_of("docs", "PROTOCOL.md"))
    asked = re.findall(r'handled_replies_total\{[^}]*code!?=\\?"(\d+)', text_of("rules.yml") + text_of("board.json"))
    yield "the codes of replies are those of docs/PROTOCOL.md", len(asked) > 2 and set(asked) <= set(codes)


# What the files share


def exec_of(name, key):
    """The words of a unit's command line; none where it has no such line."""
    return [word for line in re.findall(r"^%s=-?(.*)$" % key, text_of(name), re.MULTILINE) for word in shlex.split(line)]


def value_of(words, option):
    return dict(zip(words, words[1:])).get(option, "")


def agrees():
    serve, proxy, copying = exec_of("handled.service", "ExecStart"), exec_of("hdl-proxy.service", "ExecStart"), exec_of("handled-copy.service", "ExecStart")
    status, listen, server = value_of(serve, "--status"), value_of(proxy, "--listen"), value_of(proxy, "--server")
    yield "the server is stopped where it listens", value_of(serve, "--control") == value_of(exec_of("handled.service", "ExecStop"), "--control")
    yield "what is copied is the server's table", copying[1:2] == [value_of(serve, "--table")]
    rotated = [line.removesuffix(" {").split() for line in text_of("logrotate").splitlines() if line.endswith("{")]
    log, visits = (value_of(words, "--log") for words in (serve, proxy))
    yield "what is rotated are the logs, and the history beside the server's", rotated == [[log, log.replace(".log", ".history")], [visits]]
    yield "the server that opens its log anew is the one that runs", re.findall(r"handled reopen --control (\S+)", text_of("logrotate")) == [value_of(serve, "--control")]
    yield "what is scraped are the status pages, and what tells of copies", re.findall(r"targets: \['(.*?)'\]", text_of("prometheus.yml")) == [status, listen, NODE_EXPORTER]
    jobs = re.findall(r"job_name: (\w+)", text_of("prometheus.yml"))
    asked = {job for text in (text_of("rules.yml"), text_of("board.json")) for found in re.findall(r'job=~?\\?"([\w|]+)', text) for job in found.split("|")}
    yield "the jobs are those of rules and board", asked | {"node"} == set(jobs)
    told = os.path.dirname(copying[4])
    yield "the service of copies may write what is told of them", re.findall(r"^ReadWritePaths=-(.*)$", text_of("handled-copy.service"), re.MULTILINE) == [told]
    yield "nginx is before the proxy", "server %s;" % listen in text_of("nginx.conf")
    yield "HAProxy is before the server", "server handled %s maxconn 1000 check port %s " % (server, status.partition(":")[2]) in text_of("haproxy.cfg")
    for name, folders in (("handled.service", {"State": "lib", "Logs": "log"}), ("hdl-proxy.service", {"Logs": "log"}), ("handled-copy.service", {"State": "lib"})):
        for kind, under in folders.items():
            place = "/var/%s/%s" % (under, re.search(r"^%sDirectory=(.*)$" % kind, text_of(name), re.MULTILINE)[1])
            yield "%s writes in %s" % (name, place), any(word == place or word.startswith(place + "/") for word in exec_of(name, "ExecStart"))
    installed = {"/" + place for place, _ in releases.PLACES.values()} | {"/usr/" + place for place in releases.PROGRAMS.values()}
    started = {exec_of(name, key)[0] for name in UNITS for key in re.findall(r"^(Exec\w+)=", text_of(name), re.MULTILINE)}
    yield "what the units start is installed", started <= installed
    listed = re.findall(r"`([\w.-]+)`", "".join(re.findall(r"^\|(.*?)\|", repository.text_of("packaging", "README.md"), re.MULTILINE)))
    yield "packaging/README.md lists the files", sorted([*listed, "README.md"]) == names() and set(releases.PLACES) <= set(names())


# copy-table

TABLE = "a table that is as large as its copies were"
STUB = """#!/bin/sh
# copies, and reads by the status that it is given
case $1 in
  copy) cp "$3" "$5" && : > "$5-wal" ;;
  export) exit "$STATUS" ;;
esac
"""


def copied(folder, kept, text=b"", status=0, told=()):
    """Runs copy-table over a folder of copies, with the `handled` of a folder, and answers its exit status and what is there then."""
    words = [repository.path("packaging", "copy-table"), os.path.join(folder, "handles.db"), kept, "14", *told]
    environment = dict(os.environ, PATH=folder + ":" + os.environ["PATH"], STATUS=str(status))
    done = subprocess.run(words, input=text, env=environment, check=False, timeout=60 * servers.SLOWER)
    return done.returncode, sorted(os.listdir(kept))


def keeps_copies():
    with tempfile.TemporaryDirectory() as folder:
        os.chmod(front_servers.put(folder, "handled", STUB), 0o755)
        front_servers.put(folder, "handles.db", TABLE)
        kept = os.path.join(folder, "copies")
        os.mkdir(kept)
        for name, days in (("handles-2026-01-01T023000Z.db", 20), ("handles-2026-01-02T023000Z.db", 10), ("other.db", 20), ("unchecked.db", 1)):
            os.utime(front_servers.put(kept, name, name), (time.time() - days * 86400,) * 2)
        status, there = copied(folder, kept, status=4)
        yield "a copy that can't be read has no name, and no copy is removed", status == 4 and len(there) == 5 and {"unchecked.db", "unchecked.db-wal"} <= set(there)
        status, there = copied(folder, kept)
        yield "an old copy is removed, and nothing else", status == 0 and there[0] == "handles-2026-01-02T023000Z.db" and there[2:] == ["other.db"]
        yield "a copy is named by its moment", bool(re.fullmatch(r"handles-20\d\d-\d\d-\d\dT\d{6}Z\.db", there[1]))
        made = os.path.join(kept, there[1])
        yield "it has the table's octets, for its owner alone", os.stat(made).st_mode & 0o777 == 0o600 and octets_of(made) == TABLE.encode()
        os.remove(made)
        status, there = copied(folder, kept, status=5)
        yield "an export without some handles is a copy too", status == 0 and len(there) == 3
        os.utime(os.path.join(kept, "handles-2026-01-02T023000Z.db"), (0, 0))
        front_servers.put(folder, "handles.db", "lost")
        time.sleep(1.1)
        status, there = copied(folder, kept)
        yield "a copy that is far smaller than the last one removes none", status == 6 and len(there) == 4


def tells():
    """What node_exporter reads of copies."""
    with tempfile.TemporaryDirectory() as folder:
        os.chmod(front_servers.put(folder, "handled", STUB), 0o755)
        front_servers.put(folder, "handles.db", TABLE)
        kept, room = os.path.join(folder, "copies"), os.path.join(folder, "room")
        os.mkdir(kept)
        told = os.path.join(room, "handled-copy.prom")
        status, there = copied(folder, kept, told=(told,))
        yield "without node_exporter's folder nothing is told", status == 0 and len(there) == 1 and not os.path.exists(room)
        os.mkdir(room)

        def values():
            return [line.split() for line in repository.text_of(told).splitlines() if not line.startswith("#")]

        first = os.path.join(kept, there[0])
        os.utime(first, (1_000_000_000, 1_000_000_000))
        status, _ = copied(folder, kept, status=4, told=(told,))
        yield "a failed copy is told, and when the newest good one was made", status == 4 and values() == [["handled_copy_exit_status", "4"], ["handled_copy_timestamp_seconds", "1000000000"]]
        os.remove(first)
        status, _ = copied(folder, kept, status=4, told=(told,))
        yield "that there is no copy is told", status == 4 and values()[1][1] == "0"
        before = time.time()
        status, _ = copied(folder, kept, told=(told,))
        yield "a good copy is told", status == 0 and values()[0][1] == "0" and before - 2 <= int(values()[1][1]) <= time.time()
        yield "each user may read it, and nothing else is left", os.stat(told).st_mode & 0o777 == 0o644 and os.listdir(room) == ["handled-copy.prom"]
        yield "it tells what the rules ask for", {name for name, _ in values()} == set(TOLD.findall(text_of("copy-table")))
        program = front_servers.found("promtool")
        if program:
            with open(told, "rb") as metrics:
                yield "promtool check metrics", subprocess.run([program, "check", "metrics"], stdin=metrics, capture_output=True, check=False, timeout=60).returncode == 0


# The command lines of the units


def in_folder(words, folder, status):
    """A command line with its files in a folder, its status page at this port, and the program that is built."""
    words = [re.sub(r"/(?:var/lib|var/log|run)/[\w-]+", folder, word) for word in words]
    return [{"/usr/bin/handled": servers.HANDLED, "127.0.0.1:12641": "127.0.0.1:%d" % status}.get(word, word) for word in words]


def page_of(port, path):
    """A page's lines, of a server that listens on loopback."""
    connection = http.client.HTTPConnection("127.0.0.1", port, timeout=10 * servers.SLOWER)
    connection.request("GET", path)
    return connection.getresponse().read().decode().splitlines()


def printed(lines):
    """The metrics that a page has, and the lines of its histograms."""
    kinds = [line.split()[2:] for line in lines if line.startswith("# TYPE ")]
    return {name for name, _ in kinds} | {name + end for name, kind in kinds if kind == "histogram" for end in ("_bucket", "_sum", "_count")}


def asked_of(beginning):
    """The metrics of a program that a rule or the board names."""
    return set(re.findall(r"\b%s\w+" % beginning, repository.text_of("packaging", "rules.yml") + repository.text_of("packaging", "board.json")))


def status_of(words, text):
    return subprocess.run(words, input=text, capture_output=True, check=False, timeout=60 * servers.SLOWER).returncode


def serves():
    """handled.service, and a copy while it runs."""
    if not os.access(servers.HANDLED, os.X_OK):
        return left_out("`handled`", "the command lines of handled.service")
    with tempfile.TemporaryDirectory() as folder:
        status, = servers.free_ports(1)
        words = in_folder(exec_of("handled.service", "ExecStart"), folder, status)
        # some metrics are of bounds alone, or of a history
        process, ports = servers.serve(servers.example, 2, options=[*words[2:], "--bound", "acme=1000,1000000", "--history", folder + "/history"])
        text = servers.example(*ports)
        yield "handled.service serves", words[:2] == [servers.HANDLED, "serve"]
        yield "its status page", page_of(status, "/health") == ["ok"]
        yield "it has the metrics that are asked of it", asked_of("handled_") - OF_CLUSTERS - set(TOLD.findall(text_of("copy-table"))) <= printed(page_of(status, "/metrics"))
        yield "its log", os.path.exists(folder + "/changes.log")
        kept = os.path.join(folder, "copies")
        os.mkdir(kept)
        os.symlink(servers.HANDLED, os.path.join(folder, "handled"))
        done, there = copied(folder, kept, text)
        yield "a copy while it runs", done == 0 and len(there) == 1
        with contextlib.closing(sqlite3.connect(os.path.join(kept, there[0]))) as table:
            yield "which is whole", table.execute("PRAGMA integrity_check").fetchall() == [("ok",)] and table.execute("SELECT count(*) FROM handles").fetchone()[0] > 0
        yield "its end", (status_of(in_folder(exec_of("handled.service", "ExecStop"), folder, status), b""), process.wait(60)) == (0, 0)
        process.stdout.close()
        yield "a bad option ends by 2", status_of([*words, "--none"], text) == 2
        yield "a bad text ends by 3", status_of(words, b"none\n") == 3
        front_servers.put(folder, "handles.db", "no table" * 100)
        yield "a bad table ends by 4", status_of(words, text) == 4


def leads():
    """hdl-proxy.service, before no server."""
    program = os.environ.get("PROXY", repository.program("hdl_web"))
    if not os.access(program, os.X_OK):
        return left_out("`hdl proxy`", "the command line of hdl-proxy.service")
    with tempfile.TemporaryDirectory() as folder:
        port, = servers.free_ports(1)
        words = [word.replace("127.0.0.1:8080", "127.0.0.1:%d" % port) for word in in_folder(exec_of("hdl-proxy.service", "ExecStart"), folder, 0)]
        with servers.running([program, *words[2:]], 1):
            yield "hdl-proxy.service has its page", page_of(port, "/health") == ["ok"]
            yield "it has the metrics that are asked of it", asked_of("hdl_proxy_") <= printed(page_of(port, "/metrics"))
            yield "its log", os.path.exists(folder + "/visits.log")
        yield "a bad option ends by 2", status_of([program, *words[2:], "--none"], b"") == 2


# The programs of Debian


def systemd():
    if not front_servers.found("systemd-analyze"):
        return left_out("systemd-analyze", "the units")
    with tempfile.TemporaryDirectory() as folder:
        # what they start isn't installed here
        files = [front_servers.put(folder, name, re.sub(r"/usr/(bin|lib/buckramjade)/[\w-]+", "/bin/true", text_of(name))) for name in UNITS]
        done, words = said([front_servers.found("systemd-analyze"), "verify", "--man=no", *files])
        for name in UNITS:
            lines = [line for line in words.splitlines() if name in line]
            print("".join(line + "\n" for line in lines), end="")
            yield "systemd-analyze verify %s" % name, done and not lines


def series(changes):
    return [{"series": name, "values": value if "x" in value else ("0%sx30" if value.startswith("+") else "%s+0x30") % value} for name, value in changes]


def fires(alert, changes):
    """Prometheus' own case: at these series the alert fires after half an hour, or none does."""
    return {"interval": "1m", "input_series": series(changes), "promql_expr_test": [
        {"expr": 'count(ALERTS{alertname="%s",alertstate="firing"}) or vector(0)' % alert[0], "eval_time": "30m", "exp_samples": [{"labels": "{}", "value": alert[1]}]}]}


def prometheus():
    program = front_servers.found("promtool")
    if not program:
        return left_out("promtool", "rules.yml and prometheus.yml")
    folder = repository.path("packaging")
    yield "promtool check rules", said([program, "check", "rules", os.path.join(folder, "rules.yml")])[0]
    yield "promtool check config", said([program, "check", "config", os.path.join(folder, "prometheus.yml")])[0]
    yield "each alert has its case", [it[0] for it in ALERTS] == [it[0] for it in rules()[0]]
    cases = [fires((alert, count), [(name, value), *ALWAYS]) for alert, name, bad, good in ALERTS for value, count in ((bad, 1), (good, 0))]
    with tempfile.TemporaryDirectory() as room:
        file = front_servers.put(room, "cases.yml", json.dumps({"rule_files": [os.path.join(folder, "rules.yml")], "evaluation_interval": "1m", "tests": cases}))
        yield "promtool test rules", said([program, "test", "rules", file])[0]


def logrotate():
    program = front_servers.found("logrotate")
    if not program:
        return left_out("logrotate", "logrotate")
    with tempfile.TemporaryDirectory() as folder:
        changes, visits = (os.path.join(folder, name) for name in ("changes.log", "visits.log"))
        asked = os.path.join(folder, "asked")
        os.chmod(front_servers.put(folder, "handled", "#!/bin/sh\necho \"$@\" > %s\n: > %s\n" % (asked, changes)), 0o755)
        # root's logrotate takes no file that another one may write
        file = front_servers.put(folder, "logrotate", re.sub(r"/var/log/[\w-]+|/usr/bin(?=/handled reopen)", folder, text_of("logrotate")))
        os.chmod(file, 0o644)
        done, words = said([program, "-d", "-s", folder + "/state", file])
        # a line that it can't read is no failure to it
        lines = [line for line in words.splitlines() if line.startswith("error:")]
        print("".join(line + "\n" for line in lines), end="")
        yield "logrotate -d", done and not lines
        with open(changes, "a", encoding="utf-8") as one, open(visits, "a", encoding="utf-8") as other:
            for word in ("before\n", "after\n"):
                for lines in (one, other):
                    lines.write(word)
                    lines.flush()
                if word == "before\n":
                    yield "logrotate -f", said([program, "-f", "-s", folder + "/state", file])[0]
        yield "the server is asked to open its log anew", os.path.exists(asked) and octets_of(asked) == b"reopen --control /run/buckramjade/control\n"
        yield "until then it goes on in the renamed file", octets_of(changes + ".1") == b"before\nafter\n" and octets_of(changes) == b""
        yield "the proxy goes on at the front", octets_of(visits) == b"after\n"
        yield "what it wrote before is kept", said(["gzip", "-dc", visits + ".1.gz"])[1] == "before\n"


def in_front():
    if not front_servers.found("haproxy"):
        left_out("haproxy", "haproxy.cfg")
    else:
        good, _ = said([front_servers.found("haproxy"), "-c", "-f", repository.path("packaging", "haproxy.cfg")])
        yield "haproxy -c", good
        yield from front_cases.haproxy() if good else ()
    if not front_servers.found("nginx"):
        left_out("nginx", "nginx.conf")
    elif not front_servers.found("openssl"):
        left_out("openssl", "nginx.conf, which needs a certificate")
    else:
        yield from front_cases.nginx()


def main():
    parts = (options, has_metrics, statuses, agrees, keeps_copies, tells, serves, leads, systemd, prometheus, logrotate, in_front)
    return servers.tally(case for part in parts for case in part())


if __name__ == "__main__":
    sys.exit(main())

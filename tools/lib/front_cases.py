"""front_cases.py: HAProxy and nginx by the files of packaging/, before small servers of their own; tools/trials/packaging.py runs them where the two are installed."""

import base64
import contextlib
import http.client
import http.server
import os
import re
import socket
import socketserver
import ssl
import subprocess
import tempfile
import threading
import time

from lib import front_servers, servers

SECRET = "a-secret-of-these-trials"
# What one client may ask for at once, by packaging/nginx.conf.
BURST = 100
# More octets than sockets hold.
LONG = 8_000_000


class Threads(socketserver.ThreadingMixIn):
    daemon_threads = True
    allow_reuse_address = True

    def handle_error(self, request, client_address):
        """A client that has read enough goes away."""


class TcpServer(Threads, socketserver.TCPServer):
    """Answers each connection by the address that it came from, as changes.log would have it."""


class Pages(Threads, http.server.HTTPServer):
    """Answers a request by its path as it came and by this status, and each path but one by 404 where it has only that one."""

    status, only = 200, ""


class Caller(socketserver.BaseRequestHandler):
    """A client of the one."""

    def handle(self):
        if self.request.recv(100):
            self.request.sendall(b"%s:%d" % (self.client_address[0].encode(), self.client_address[1]))


class Page(http.server.BaseHTTPRequestHandler):
    """A client of the other."""

    protocol_version = "HTTP/1.1"
    # head and body in one piece, so that no client waits
    wbufsize = -1

    def do_GET(self):
        length = int(self.headers.get("Content-Length", 0))
        body = self.path.encode() + self.rfile.read(length) + b"x" * (LONG if self.path == "/10/long" else 0)
        self.send_response(404 if self.server.only not in ("", self.path) else self.server.status)
        self.send_header("Content-Length", str(len(body)))
        self.end_headers()
        self.wfile.write(body)

    do_PUT = do_GET

    def log_message(self, *_):
        pass


@contextlib.contextmanager
def running(server):
    """A server on a thread, and its port."""
    threading.Thread(target=server.serve_forever, kwargs={"poll_interval": 0.02}, daemon=True).start()
    try:
        yield server.server_address[1]
    finally:
        server.shutdown()
        server.server_close()


@contextlib.contextmanager
def started(process):
    try:
        yield process
    finally:
        process.terminate()
        process.wait()


def called(port):
    """From where a server behind this port is asked, and from where it was asked of; nothing where the connection is refused."""
    with contextlib.suppress(OSError), socket.create_connection(("127.0.0.1", port), 5) as stream:
        stream.sendall(b"who")
        return stream.recv(100).decode(), "%s:%d" % stream.getsockname()
    return "", ""


def soon(holds):
    """Whether it holds within some seconds."""
    for _ in range(100):
        if holds():
            return True
        time.sleep(0.05)
    return False


def haproxy():
    with tempfile.TemporaryDirectory() as folder, socket.socket(socket.AF_INET, socket.SOCK_DGRAM) as log, running(TcpServer(("127.0.0.1", 0), Caller)) as behind:
        log.bind(("127.0.0.1", 0))
        log.settimeout(20)
        status = Pages(("127.0.0.1", 0), Page)
        status.only = "/health"
        port, = servers.free_ports(1)
        with started(front_servers.haproxy(folder, port, behind, status.server_address[1], "127.0.0.1:%d" % log.getsockname()[1])):
            with running(status):
                front_servers.waits_for(port)
                yield "a server that answers /health is asked", soon(lambda: called(port)[0])
                seen, own = called(port)
                lines = b""
                while own.encode() not in lines:
                    lines += log.recv(4096)
                yield "HAProxy's line leads from the address that the server saw to the client's", bool(re.search(r"%s %s handled " % (own, seen), lines.decode()))
                status.status = 503
                time.sleep(0.5)
                yield "one that takes no changes is still asked", bool(called(port)[0])
                status.status = 404
                yield "one with another page is not", soon(lambda: not called(port)[0])
                status.status = 200
                yield "it is asked again", soon(lambda: called(port)[0])
            yield "one without a page is not", soon(lambda: not called(port)[0])


def fetched(connection, method, path, headers=None, body=None):
    connection.request(method, path, body, headers or {})
    answer = connection.getresponse()
    return answer.status, answer.getheader("Location"), answer.read()


def through_port_80(port):
    plain = http.client.HTTPConnection("127.0.0.1", port, timeout=10)
    yield "port 80 leads to TLS", fetched(plain, "GET", "/10/a%2Fb?urlappend=/x")[:2] == (301, "https://handles.example.org/10/a%2Fb?urlappend=/x")
    yield "HEAD too", fetched(plain, "HEAD", "/10/a", {"Host": "evil.example.org"})[:2] == (301, "https://handles.example.org/10/a")
    yield "a change without TLS isn't led on", fetched(plain, "PUT", "/api/handles/10/a", body=b"{}")[:2] == (403, None)


def through_tls(tls):
    for path in ("/10/a", "/10/a%2Fb", "/10//a", "/10/a%20%C3%A4?noredirect", "/10/a/../b", "/%61pi/a", "/"):
        yield "%s comes as it is" % path, fetched(tls, "GET", path)[::2] == (200, path.encode())
    for path in ("/metrics", "/metrics?a", "/%6detrics", "//metrics", "/10/../metrics"):
        yield "%s is shut" % path, fetched(tls, "GET", path)[0] == 403
    key = {"Authorization": "Basic " + base64.b64encode(b"300%3A0.NA/10:" + SECRET.encode()).decode(), "Referer": "https://referring.example.org/"}
    body = b"x" * 900_000 + SECRET.encode()
    yield "a large change comes whole and by no file", fetched(tls, "PUT", "/api/handles/10/a?overwrite=false", key, body)[2].endswith(body)
    yield "one that is too large doesn't come", fetched(http_of(tls.port), "PUT", "/api/handles/10/a", key, b"x" * 1_100_000)[0] == 413


def slowly(port):
    """A client who waits before it reads."""
    slow = http_of(port)
    slow.request("GET", "/10/long")
    time.sleep(0.3)
    try:
        length = len(slow.getresponse().read())
    except http.client.IncompleteRead:
        length = 0
    yield "a long answer comes whole and by no file to a client who waits", length == len("/10/long") + LONG


def within_limits(port):
    reader, script = http_of(port), http_of(port)
    yield "a reader who asks much", all(fetched(reader, "GET", "/10/a")[0] == 200 for _ in range(BURST // 2))
    yield "a reader who asks too much", any(fetched(reader, "GET", "/10/a")[0] == 429 for _ in range(20 * BURST))
    yield "a script is slowed down", all(fetched(script, "GET", "/api/handles/10/a")[0] == 200 for _ in range(2 * BURST))


def logged(folder):
    lines = open(folder + "/handles.log", encoding="utf-8").read()
    yield "the log has path and status", bool(re.search(r"^127\.0\.0\.1 \[\S+\] GET /10/a%2Fb 200 \d+ \S+ 200$", lines, re.MULTILINE)) and " PUT /api/handles/10/a 413 " in lines
    kept = lines + open(folder + "/handles.error.log", encoding="utf-8").read() + open(folder + "/log", encoding="utf-8").read()
    unsaid = ("?", "noredirect", "overwrite", "urlappend", SECRET, "Basic", "300", "referring", base64.b64encode(SECRET.encode())[4:-4].decode())
    yield "no log has a query, a key or a header", not any(word in re.sub(r" 300 | 300\b", "", kept) for word in unsaid)


def http_of(port):
    return http.client.HTTPSConnection("127.0.0.1", port, timeout=20, context=ssl._create_unverified_context())


def nginx():
    with tempfile.TemporaryDirectory() as folder, running(Pages(("127.0.0.1", 0), Page)) as behind:
        plain, port = servers.free_ports(2)
        file = front_servers.nginx_file(folder, plain, port, behind)
        done = subprocess.run([*front_servers.nginx_words(folder, file), "-t"], capture_output=True, text=True, check=False)
        yield "nginx -t: %s" % done.stderr.strip(), done.returncode == 0
        if done.returncode != 0:
            return
        with started(subprocess.Popen(front_servers.nginx_words(folder, file), stdout=subprocess.DEVNULL, stderr=subprocess.DEVNULL)):
            front_servers.waits_for(port)
            # so a body or an answer that nginx would write into a file fails
            for one in ("client_body", "proxy"):
                os.rmdir(os.path.join(folder, one))
            yield from through_port_80(plain)
            yield from through_tls(http_of(port))
            yield from slowly(port)
            yield from within_limits(port)
            yield from logged(folder)

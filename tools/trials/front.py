#!/usr/bin/env python3
"""Tries the files of packaging/ for those who stand in front: HAProxy before `handled serve`, nginx before `hdl proxy`.

    tools/trials/front.py        by hand; needs Debian's packages haproxy, nginx and openssl, and both programs proved and built

The files are used as they are, but for addresses, ports and the certificate's place. Its last line is 'N passed, M failed'."""

import socket
import ssl
import sys
import tempfile
import time
import urllib.error
import urllib.request

# nothing is left beside the tools
sys.dont_write_bytecode = True
from lib import front_servers, repository, servers, wire

# What the gate reads of it (tools/build/parts.py).
GATE = {"by_hand": True}
REQUEST = wire.frame(wire.resolution(b"10/report-7"), 0, 1)
# How many connections of one address packaging/haproxy.cfg takes.
CONNECTIONS = 16


class Stays(urllib.request.HTTPRedirectHandler):
    """Follows nothing."""

    def redirect_request(self, *_):
        return None


def asked(port):
    """What a resolution is answered at this port; nothing where the connection is refused."""
    try:
        with socket.create_connection(("127.0.0.1", port), 5) as stream:
            stream.sendall(REQUEST)
            return stream.recv(65536)
    except OSError:
        return b""


def fetched(port, path):
    """The status and the Location of a page."""
    trusting = ssl._create_unverified_context()
    opener = urllib.request.build_opener(Stays, urllib.request.HTTPSHandler(context=trusting))
    try:
        with opener.open("https://127.0.0.1:%d%s" % (port, path), timeout=20) as page:
            return page.status, page.headers.get("Location")
    except urllib.error.HTTPError as page:
        return page.code, page.headers.get("Location")


def through_haproxy(front, behind):
    yield "a reply through HAProxy is the server's", len(asked(front)) > 24 and asked(front) == asked(behind)
    held = [socket.create_connection(("127.0.0.1", front), 5) for _ in range(CONNECTIONS)]
    time.sleep(0.3)
    yield "one connection more of an address is refused", asked(front) == b""
    for stream in held:
        stream.close()
    time.sleep(0.3)
    yield "behind those it is served again", asked(front) == asked(behind)


def through_nginx(front):
    yield "a redirect by HTTPS", fetched(front, "/10/report-7") == (302, "https://example.org/report-7")
    yield "a page by HTTPS", fetched(front, "/10/report-7?noredirect")[0] == 200
    statuses = [fetched(front, "/10/none")[0] for _ in range(3)]
    yield "a handle that isn't there", statuses == [404] * 3
    yield "the proxy's numbers stay inside", fetched(front, "/metrics")[0] == 403


def trials(folder):
    front, site, plain, proxy, status = servers.free_ports(5)
    with servers.serving(servers.example, 2, options=("--status", "127.0.0.1:%d" % status)) as (acme, bolt):
        words = [repository.program("hdl_web"), "--server", "127.0.0.1:%d" % acme, "--server", "127.0.0.1:%d" % bolt, "--listen", "127.0.0.1:%d" % proxy]
        with servers.running(words, 1):
            before = [front_servers.haproxy(folder, front, acme, status), front_servers.nginx(folder, plain, site, proxy)]
            try:
                front_servers.waits_for(front)
                front_servers.waits_for(site)
                time.sleep(0.3)
                yield from through_haproxy(front, acme)
                yield from through_nginx(site)
            finally:
                for one in before:
                    one.terminate()
                    one.wait()


def main():
    with tempfile.TemporaryDirectory() as folder:
        return servers.tally(trials(folder))


if __name__ == "__main__":
    sys.exit(main())

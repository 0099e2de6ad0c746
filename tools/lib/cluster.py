"""cluster.py: members of etcd on loopback, servers over them, and the wires between the two."""

import base64
import contextlib
import json
import os
import signal
import socket
import subprocess
import sys
import threading
import time
import urllib.error
import urllib.request

from lib import publisher, servers

MEMBERS, SERVERS, CLIENTS = 3, 3, 2


class Members:
    """Members of etcd on loopback, each with a folder of its own."""

    def __init__(self, folder, count=MEMBERS):
        self.folder, self.ports, self.running = folder, servers.free_ports(2 * count), [None] * count
        self.count = count

    def address(self, place):
        return "127.0.0.1:%d" % self.ports[2 * place]

    def peer(self, place):
        return "http://127.0.0.1:%d" % self.ports[2 * place + 1]

    def words(self, place):
        client, peer = "http://" + self.address(place), self.peer(place)
        all_of_them = ",".join("m%d=%s" % (one, self.peer(one)) for one in range(self.count))
        return [
            "etcd", "--name", "m%d" % place, "--data-dir", os.path.join(self.folder, "m%d" % place), "--max-txn-ops", "2048",
            "--listen-client-urls", client, "--advertise-client-urls", client, "--listen-peer-urls", peer, "--initial-advertise-peer-urls", peer,
            "--initial-cluster", all_of_them, "--initial-cluster-token", "handles", "--initial-cluster-state", "new",
            "--logger", "zap", "--log-level", "error",
        ]

    def start(self, place):
        with open(os.path.join(self.folder, "m%d.log" % place), "ab") as log:
            self.running[place] = subprocess.Popen(self.words(place), stdout=log, stderr=log)

    def start_all(self):
        for place in range(self.count):
            if self.running[place] is None:
                self.start(place)
        self.wait()

    def wait(self):
        """Waits until they answer, as one."""
        until = time.monotonic() + 30
        while time.monotonic() < until:
            with contextlib.suppress(OSError):
                self.range(b"a")
                return
            time.sleep(0.1)
        sys.exit("etcd doesn't answer")

    def kill(self, place):
        if self.running[place]:
            self.running[place].send_signal(signal.SIGCONT)
            self.running[place].kill()
            self.running[place].wait()
            self.running[place] = None

    def send(self, place, number):
        if self.running[place]:
            self.running[place].send_signal(number)

    def end(self):
        for place in range(self.count):
            self.kill(place)

    def ask(self, path, asked, place):
        request = urllib.request.Request("http://%s%s" % (self.address(place), path), json.dumps(asked).encode())
        with urllib.request.urlopen(request, timeout=5) as answer:
            return json.load(answer)

    def asked(self, path, asked):
        """What the first member answers that does."""
        fault = OSError()
        for place in range(self.count):
            try:
                return self.ask(path, asked, place)
            except OSError as error:
                fault = error
        raise fault

    def range(self, first, last=b""):
        """The keys from one on up to another, with what stands there."""
        found = self.asked("/v3/kv/range", {"key": spelt(first), "range_end": spelt(last)})
        return [(base64.b64decode(one["key"]), base64.b64decode(one.get("value", ""))) for one in found.get("kvs", [])]

    def put(self, key, octets):
        self.asked("/v3/kv/put", {"key": spelt(key), "value": spelt(octets)})

    def delete(self, first, last):
        self.asked("/v3/kv/deleterange", {"key": spelt(first), "range_end": spelt(last)})

    def leader(self):
        for place in range(self.count):
            with contextlib.suppress(OSError, KeyError):
                told = self.ask("/v3/maintenance/status", {}, place)
                if told["leader"] == told["header"]["member_id"]:
                    return place
        return 0


def spelt(octets):
    return base64.b64encode(octets).decode()


class Wire:
    """A port at which a member answers, until the wire is cut, or held: then it takes what is sent and nothing goes on. Watches alone can be silenced."""

    def __init__(self, address):
        self.address, self.streams, self.lock = address, [], threading.Lock()
        self.goes, self.is_cut, self.is_silent, self.ranges = threading.Event(), False, False, 0
        self.goes.set()
        self.listener = socket.create_server(("127.0.0.1", 0))
        self.port = self.listener.getsockname()[1]
        threading.Thread(target=self.run, daemon=True).start()

    def run(self):
        host, port = self.address.rsplit(":", 1)
        while True:
            near, _ = self.listener.accept()
            try:
                if self.is_cut:
                    raise OSError
                far = socket.create_connection((host, int(port)), timeout=5)
                far.settimeout(None)
            except OSError:
                near.close()
                continue
            with self.lock:
                self.streams = [one for one in self.streams if one.fileno() >= 0] + [near, far]
            watch = threading.Event()
            for source, sink in ((near, far), (far, near)):
                threading.Thread(target=self.pass_on, args=(source, sink, watch), daemon=True).start()

    def pass_on(self, source, sink, watch):
        with contextlib.suppress(OSError):
            while octets := source.recv(65536):
                self.goes.wait()
                self.ranges += octets.startswith(b"POST /v3/kv/range")
                if octets.startswith(b"POST /v3/watch"):
                    watch.set()
                if not (self.is_silent and watch.is_set()):
                    sink.sendall(octets)
        for one in (source, sink):
            with contextlib.suppress(OSError):
                one.shutdown(socket.SHUT_RDWR)
            one.close()

    def cut(self):
        self.is_cut = True
        with self.lock:
            for one in self.streams:
                with contextlib.suppress(OSError):
                    one.shutdown(socket.SHUT_RDWR)

    def hold(self):
        self.goes.clear()

    def mend(self):
        self.is_cut = False
        self.goes.set()


class Server:
    """A server at a port that stays, over wires to the members from one of them on."""

    def __init__(self, members, place, folder):
        self.port, self.status = servers.free_ports(2)
        self.wires = [Wire(members.address((place + step) % members.count)) for step in range(members.count)]
        order = ["127.0.0.1:%d" % one.port for one in self.wires]
        self.words = [servers.HANDLED, "serve", "--cluster", ",".join(order), "--status", "127.0.0.1:%d" % self.status]
        self.errors, self.process = os.path.join(folder, "s%d.log" % place), None

    def text(self):
        return publisher.tenants(self.port)

    def start(self):
        with open(self.errors, "ab") as errors:
            self.process = servers.start(self.words, self.text(), 1, stderr=errors)
        if self.process is None:
            sys.exit("a server ended at its start; its last lines: %s" % self.said()[-500:])

    def kill(self):
        if self.process:
            self.process.send_signal(signal.SIGCONT)
            self.process.kill()
            self.process.wait()
            self.process.stdout.close()
            self.process = None

    def send(self, number):
        if self.process:
            self.process.send_signal(number)

    def health(self):
        with contextlib.suppress(OSError):
            try:
                with urllib.request.urlopen("http://127.0.0.1:%d/health" % self.status, timeout=5) as answer:
                    return answer.status
            except urllib.error.HTTPError as error:
                return error.code
        return None

    def said(self):
        with open(self.errors, encoding="utf-8", errors="replace") as errors:
            return errors.read()

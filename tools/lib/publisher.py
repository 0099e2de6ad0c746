"""publisher.py: the publisher acme, which most trials serve: its key, the text that opens it, a client whose handles have an administrator and one URL, and a server that has its table in a file."""

import contextlib
import os
import shutil
import signal
import sqlite3
import struct

from lib import servers, wire

KEY, KEY_HANDLE, KEY_INDEX = b"example-secret", b"0.NA/10", 300
ADMINISTRATOR = wire.value(100, b"HS_ADMIN", wire.administrator(KEY_HANDLE, KEY_INDEX), 0x0E, 86400)


def url(data):
    return wire.value(1, b"URL", data, 0x0E, 86400)


def tenants(*ports, more=(), lanes=8):
    lines = ["publisher acme %d %d" % (lanes, ports[0]), "prefix 10 acme"]
    key = wire.value(KEY_INDEX, b"HS_SECKEY", KEY, 0x0C, 86400)
    rows = [(KEY_HANDLE, ADMINISTRATOR), (KEY_HANDLE, key), *more]
    return wire.tenants(lines, rows)


class Client(servers.Client):
    """A client whose handles have an administrator and one URL."""

    def create(self, handle, data):
        return super().create(handle, [ADMINISTRATOR, url(data)])

    def modify(self, handle, data):
        return super().modify(handle, [url(data)])

    def data_of(self, handle):
        """The URL's data of a handle that has just these two values, None where it is absent; else what came."""
        code, body = self.asked(wire.resolution(handle))
        if code == wire.ABSENT:
            return None
        start = wire.string(handle) + wire.number(2)
        parts = body[len(start):].split(b"\0\0\0\3URL")
        if code != wire.SUCCESS or not body.startswith(start) or len(parts) != 2:
            return "code %d" % code
        length = struct.unpack(">I", parts[1][:4])[0]
        return parts[1][4:4 + length]


def serve(file, **how):
    process, ports = servers.serve(how.pop("text", tenants), 1, options=("--table", file, *how.pop("more", ())), **how)
    return process, ports[0]


@contextlib.contextmanager
def served(file, **how):
    process, port = serve(file, **how)
    try:
        yield port
    finally:
        process.send_signal(signal.SIGKILL)
        process.wait()
        process.stdout.close()


def copied(file, to):
    """Copies a file and its log, as they lie."""
    for end in ("", "-wal"):
        if os.path.exists(file + end):
            shutil.copyfile(file + end, to + end)


def is_sound(file):
    """What sqlite3 says of the file and its log, as they lie. It looks at copies, since it moves the log into the file and takes it away."""
    copy = file + ".looked"
    copied(file, copy)
    with contextlib.closing(sqlite3.connect(copy)) as database:
        whole = database.execute("PRAGMA integrity_check").fetchall() == [("ok",)]
        return whole and not database.execute("PRAGMA foreign_key_check").fetchall()

"""change.py PROXY HANDLE: creates a handle through `hdl proxy --writes`, reads it, changes it and deletes it, with Python's standard library alone.

HDL_KEY names the key as INDEX:HANDLE, and HDL_SECRET is its secret; neither is printed. Beyond loopback PROXY must begin with https:// since each request carries the secret:

    HDL_KEY=300:0.NA/10 HDL_SECRET=.. python3 examples/change.py http://127.0.0.1:8080 10/example
"""

import base64
import json
import os
import sys
import urllib.error
import urllib.parse
import urllib.request


class Refused(Exception):
    """The proxy's refusal: the status, and its message."""


class Handles:
    """Handles behind a proxy, which a key changes."""

    def __init__(self, proxy, key, secret):
        both = urllib.parse.quote(key) + ":" + urllib.parse.quote(secret)
        self.address = proxy.rstrip("/") + "/api/handles/"
        self.fields = {"Authorization": "Basic " + base64.b64encode(both.encode()).decode(), "Content-Type": "application/json"}

    def ask(self, method, handle, query="", body=None):
        """Asks, and answers what came as JSON."""
        octets = None if body is None else json.dumps(body).encode()
        request = urllib.request.Request(self.address + urllib.parse.quote(handle) + query, octets, self.fields, method=method)
        try:
            with urllib.request.urlopen(request, timeout=30) as answer:
                return json.load(answer)
        except urllib.error.HTTPError as fault:
            raise Refused("%d: %s" % (fault.code, json.load(fault)["message"])) from None

    def create(self, handle, values):
        """Creates a handle; one that is there stays as it is, and that is refused."""
        return self.ask("PUT", handle, "?overwrite=false", {"values": values})

    def change(self, handle, values):
        """Changes these values, and adds those that are absent."""
        return self.ask("PUT", handle, "?index=various", {"values": values})

    def read(self, handle):
        """All values that the key may read, by their index."""
        return {value["index"]: value for value in self.ask("GET", handle, "?auth=true")["values"]}

    def delete(self, handle):
        return self.ask("DELETE", handle)


def administrator(key):
    """The value that lets a key do everything with its handle."""
    index, handle = key.split(":", 1)
    return {"index": 100, "type": "HS_ADMIN", "data": {"format": "admin", "value": {"handle": handle, "index": int(index), "permissions": "1" * 12}}}


def url(address):
    return {"index": 1, "type": "URL", "data": address}


def main(proxy, handle):
    key, secret = os.environ["HDL_KEY"], os.environ["HDL_SECRET"]
    handles = Handles(proxy, key, secret)
    print("created", handles.create(handle, [administrator(key), url("https://example.org/example")])["handle"])
    print("read", handles.read(handle)[1]["data"]["value"])
    handles.change(handle, [url("https://example.org/moved")])
    print("changed", handles.read(handle)[1]["data"]["value"])
    print("deleted", handles.delete(handle)["handle"])
    try:
        Handles(proxy, key, "not the secret").create(handle, [administrator(key)])
    except Refused as why:
        print("refused", why)


if __name__ == "__main__":
    main(*sys.argv[1:])

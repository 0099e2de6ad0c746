"""servers.py: starts `handled serve` and other programs for those of tools/ and bench/, at ports that are free, and ends them; and a client of such a server."""

import contextlib
import itertools
import os
import random
import shutil
import socket
import struct
import subprocess
import sys

from lib import repository, wire

# The program that is served, by the variable HANDLED or the proved one of this repository.
HANDLED = os.environ.get("HANDLED", repository.program("handled"))
HANDLED = os.path.abspath(shutil.which(HANDLED) or HANDLED)
# Whether the programs were compiled without proofs and with checks, as tools/build/try_tests.py has them, and how many times longer they may take then.
IS_UNPROVED = "UNPROVED" in os.environ
SLOWER = 10 if IS_UNPROVED else 1
# How often a server is started anew, since another process may take a port that was free.
TRIES = 5


def tally(cases, words="not as it should be"):
    """Says of each case that doesn't hold what it is, and then how many do; answers the exit status. A case is a name and whether it holds."""
    passed = failed = 0
    for name, holds in cases:
        passed, failed = passed + bool(holds), failed + (not holds)
        if not holds:
            print("%s: %s" % (name, words))
    print("%d passed, %d failed" % (passed, failed))
    return 1 if failed else 0


def can_be(user):
    """Whether the program can be run as another user here: only root can do so, and only where that user reaches the program."""
    try:
        return os.geteuid() == 0 and subprocess.run([HANDLED, "--version"], user=user, group=user, extra_groups=[], capture_output=True, check=False).returncode == 0
    except OSError:
        return False


# Ports that the system gives to no client, from a place of this process's own: programs that run side by side rarely try the same.
BELOW_CLIENTS = range(10_000, 32_000)
places = itertools.count(random.randrange(len(BELOW_CLIENTS)))


def free_ports(count):
    """Ports that are free, as far as is known."""
    found = []
    while len(found) < count:
        port = BELOW_CLIENTS[next(places) % len(BELOW_CLIENTS)]
        with contextlib.suppress(OSError), socket.create_server(("127.0.0.1", port)):
            found.append(port)
    return found


def loopback():
    """The addresses of loopback that this host has."""
    with contextlib.suppress(OSError), socket.create_server(("::1", 0), family=socket.AF_INET6):
        return ["127.0.0.1", "::1"]
    return ["127.0.0.1"]


def beyond_loopback():
    """An address of this host beyond loopback: that by which it would reach one that is kept for documents; nothing is sent. None where there is no way."""
    for family, address in ((socket.AF_INET, "192.0.2.1"), (socket.AF_INET6, "2001:db8::1")):
        with contextlib.suppress(OSError), socket.socket(family, socket.SOCK_DGRAM) as one:
            one.connect((address, 9))
            found = one.getsockname()[0]
            if not found.startswith("127.") and found != "::1":
                return found
    return None


def listening(addresses):
    """The options by which a server listens at these."""
    return [word for address in addresses for word in ("--listen", address)]


def start(words, given, lines, **how):
    """A program with its standard input, once it has said so many lines; None where it ends before."""
    process = subprocess.Popen(words, stdin=subprocess.PIPE, stdout=subprocess.PIPE, **how)
    # it may end before it reads
    with contextlib.suppress(BrokenPipeError):
        process.stdin.write(given)
        process.stdin.close()
    if all([process.stdout.readline() for _ in range(lines)]):
        return process
    process.wait()
    return None


def end(process):
    process.terminate()
    process.wait()
    process.stdout.close()


def serve(tenants, publishers, program=HANDLED, options=(), addresses=1, **how):
    """`handled serve` with these options and the text that `tenants` makes of so many ports, once it listens at so many addresses: the process and
    the ports."""
    for _ in range(TRIES):
        ports = free_ports(publishers)
        process = start([program, "serve", *options], tenants(*ports), publishers * addresses, **how)
        if process:
            return process, ports
    sys.exit("%s ended: see what it said above" % program)


@contextlib.contextmanager
def serving(tenants, publishers, program=HANDLED, options=(), addresses=1):
    """The ports of such a server, which ends with the block."""
    process, ports = serve(tenants, publishers, program, options, addresses)
    try:
        yield ports
    finally:
        end(process)


@contextlib.contextmanager
def running(words, lines):
    """A program that is given nothing, once it has said so many lines."""
    process = start(words, b"", lines)
    if process is None:
        sys.exit("%s ended" % " ".join(words))
    try:
        yield process
    finally:
        end(process)


def example(first, second):
    """The text of examples/serve.tenants with these ports in place of its own."""
    text = repository.text_of("examples", "serve.tenants")
    return text.replace(" 2641\n", " %d\n" % first).replace(" 2642\n", " %d\n" % second).encode()


def received(stream, count):
    """So many octets, or those up to the end."""
    octets = b""
    while len(octets) < count:
        more = stream.recv(count - len(octets))
        if not more:
            break
        octets += more
    return octets


class Datagrams:
    """A client by UDP, at a port of its own."""

    def __init__(self, port, address="127.0.0.1"):
        self.socket = socket.socket(socket.AF_INET6 if ":" in address else socket.AF_INET, socket.SOCK_DGRAM)
        self.socket.connect((address, port))

    def send(self, *datagrams):
        for octets in datagrams:
            self.socket.send(octets)

    def got(self, patience=2):
        """The next datagram, or nothing after so many seconds."""
        self.socket.settimeout(patience)
        with contextlib.suppress(TimeoutError):
            return self.socket.recv(65536)
        return b""

    def asked(self, *datagrams):
        self.send(*datagrams)
        return self.got()


class Client:
    """A client whose challenges are answered by a key."""

    def __init__(self, port, handle=b"0.NA/10", index=300, secret=b"example-secret"):
        self.stream = socket.create_connection(("127.0.0.1", port), 60)
        self.handle, self.index, self.secret, self.request = handle, index, secret, 0

    def __enter__(self):
        return self

    def __exit__(self, *_):
        self.stream.close()

    def receive(self, count):
        octets = received(self.stream, count)
        if len(octets) < count:
            raise ConnectionError
        return octets

    def send(self, message, session=0):
        """The SessionId and the message of the reply to one request."""
        self.request += 1
        self.stream.sendall(wire.frame(message, session, self.request))
        session, length = struct.unpack(">4xI8xI", self.receive(20))
        return session, self.receive(length)

    def asked(self, message):
        """The code of a request that a key is asked for, and the body of its reply."""
        session, reply = self.send(message)
        if reply[4:8] == wire.number(wire.AUTHENTICATION_NEEDED):
            proof = wire.response(message, self.secret, self.handle, self.index, nonce=reply[-20:-4])
            _, reply = self.send(proof, session)
        return struct.unpack(">I", reply[4:8])[0], reply[24:-4]

    def code(self, message):
        return self.asked(message)[0]

    def create(self, handle, values):
        return self.code(wire.message(wire.CREATE, wire.string(handle) + wire.listed(values)))

    def modify(self, handle, values):
        return self.code(wire.message(wire.MODIFY, wire.string(handle) + wire.listed(values)))

    def remove(self, handle, indexes):
        return self.code(wire.message(wire.REMOVE, wire.string(handle) + wire.listed(map(wire.number, indexes))))

    def delete(self, handle):
        return self.code(wire.message(wire.DELETE, wire.string(handle)))

"""addresses.py: starts the proved program crates/handled/out/handled at several addresses, and where it can't listen, and compares what it prints, its status, and
what standard error has as it begins and as it ends. Clients at each address are served side by side, and none hides another.

It takes some five seconds. Its last line is 'N passed, M failed', a case counting one."""

import contextlib
import os
import re
import socket
import subprocess
import sys
import tempfile
import threading
import time

# nothing is left beside the tools
sys.dont_write_bytecode = True
from lib import servers, wire

PATIENCE = 5
# How often a client asks while another one floods, and how many datagrams the flood sends meanwhile.
OFTEN, FLOOD = 20, 50
BEGINS = rb"handled [\d.]+ \(Buckramjade; [^)]*\): begins: publishers 2, lanes 5, table in memory, row cache 41943040 octets, idle 60 seconds, crowd 1000, amplify 8 beyond loopback, reserve 67108864 octets, turns (\d+)"
ENDS = rb"handled: ends: its --turns are spent"
# The turns of a server that nobody asks, and of one whose clients ask until it ends.
FEW, SERVED = 50, 2000
ASKED = wire.frame(wire.resolution(b"10/a"), request=1)
ABSENT, ABSENT_TOO = (wire.frame(wire.message(wire.RESOLVE, wire.number(0), wire.ABSENT), request=number) for number in (1, 2))
# A message of 985 octets under RequestId 1, and a frame under RequestId 2.
PIECES = wire.pieces(wire.resolution(b"10/" + b"a" * 942), request=1)
ASKED_TOO = wire.frame(wire.resolution(b"10/a"), request=2)


def tenants(first, second):
    return wire.text(["publisher acme 3 %d" % first, "publisher bolt 2 %d" % second, "prefix 10 acme", "prefix 10 bolt"])


def run(options, ports):
    done = subprocess.run([servers.HANDLED, "serve", *options], input=tenants(*ports), stdout=subprocess.PIPE, stderr=subprocess.PIPE, timeout=60 * servers.SLOWER, check=False)
    return done.returncode, done.stdout, done.stderr.splitlines()


def bracketed(address):
    return "[%s]" % address if ":" in address else address


def family(address):
    return socket.AF_INET6 if ":" in address else socket.AF_INET


def over_tcp(address, port):
    with socket.create_connection((address, port), PATIENCE) as stream:
        stream.sendall(ASKED)
        found = b""
        while len(found) < len(ABSENT) and (octets := stream.recv(1024)):
            found += octets
    return found == ABSENT


@contextlib.contextmanager
def packets(address, port):
    with socket.socket(family(address), socket.SOCK_DGRAM) as one:
        one.settimeout(PATIENCE)
        one.connect((address, port))
        yield one


def over_udp(address, port):
    with packets(address, port) as one:
        one.send(ASKED)
        return one.recv(1024) == ABSENT


def addresses():
    beyond = servers.beyond_loopback()
    return servers.loopback() + ([beyond] if beyond else [])


def lines_and_end():
    """Each publisher and address has a line, in order; standard error says what begins and that it ends."""
    found, ports = addresses(), servers.free_ports(2)
    status, printed, said = run(["--turns", str(FEW), *servers.listening(found)], ports)
    lines = ["%s %s:%d\n" % (name, bracketed(address), port) for name, port in zip(("acme", "bolt"), ports) for address in found]
    return status == 0 and printed == "".join(lines).encode() and are_said(said, FEW)


def are_said(lines, turns):
    """Whether these lines say that a server begins with so many turns, and that it ends of them, and nothing else."""
    begins = re.fullmatch(BEGINS, lines[0]) if lines else None
    return len(lines) == 2 and begins and int(begins[1]) == turns and re.fullmatch(ENDS, lines[1])


def ask_streams(port, answers):
    """Asks over connection after connection, in two parts, until an answer is cut short or a call fails."""
    with contextlib.suppress(OSError):
        while not answers or len(answers[-1]) == len(ABSENT):
            with socket.create_connection(("127.0.0.1", port), PATIENCE) as stream:
                stream.sendall(ASKED[:7])
                stream.sendall(ASKED[7:])
                answers.append(servers.received(stream, len(ABSENT)))


def turns_are_served():
    """Clients are served while the turns of a server last: over TCP each whole answer is the reply, and over UDP of two clients, of whom one asks in pieces, each gets its own."""
    process, ports = servers.serve(tenants, 2, options=("--turns", str(SERVED)), stderr=subprocess.PIPE)
    answers, (first, second) = [], (socket.socket(socket.AF_INET, socket.SOCK_DGRAM) for _ in range(2))
    streams = threading.Thread(target=ask_streams, args=(ports[0], answers))
    streams.start()
    with first, second, process.stdout, process.stderr:
        while process.poll() is None:
            # a socket that isn't connected hears nothing of a port that nobody has
            for piece in PIECES:
                first.sendto(piece, ("127.0.0.1", ports[0]))
            second.sendto(ASKED_TOO, ("127.0.0.1", ports[0]))
            time.sleep(0.001)
        streams.join()
        for one in (first, second):
            one.settimeout(PATIENCE)
        whole = [answer for answer in answers if len(answer) == len(ABSENT)]
        good = bool(whole) and set(whole) == {ABSENT} and (first.recv(1024), second.recv(1024)) == (ABSENT, ABSENT_TOO)
        return good and process.returncode == 0 and process.stdout.read() == b"" and are_said(process.stderr.read().splitlines(), SERVED)


def loopback_alone():
    """Without the option it listens on 127.0.0.1 and nowhere else."""
    others = [address for address in addresses() if address != "127.0.0.1"]
    with servers.serving(tenants, 2) as ports:
        good = over_tcp("127.0.0.1", ports[0]) and over_udp("127.0.0.1", ports[1])
        for address in others:
            with contextlib.suppress(ConnectionRefusedError):
                over_tcp(address, ports[0])
                good = False
    return good


def all_are_served():
    """At each address both publishers answer by TCP and by UDP, also while a client holds a lane and another floods an address."""
    found, good = addresses(), True
    with servers.serving(tenants, 2, options=servers.listening(found), addresses=len(found)) as ports:
        with socket.create_connection((found[0], ports[0]), PATIENCE), packets(found[0], ports[0]) as flood:
            for _ in range(OFTEN):
                for _ in range(FLOOD):
                    flood.send(ASKED)
                for address in found:
                    good = good and over_udp(address, ports[0]) and over_tcp(address, ports[0])
        for address in found:
            good = good and over_udp(address, ports[1]) and over_tcp(address, ports[1])
    return good


def idle_costs_little():
    """A server at several addresses that nobody asks uses next to no processor time."""
    found = addresses()
    process, _ = servers.serve(tenants, 2, options=servers.listening(found), addresses=len(found), stderr=subprocess.DEVNULL)
    try:
        before = used(process.pid)
        time.sleep(1)
        return used(process.pid) - before < 0.1
    finally:
        servers.end(process)


def used(pid):
    """The processor seconds of a process."""
    with open("/proc/%d/stat" % pid, encoding="utf-8") as numbers:
        words = numbers.read().rsplit(")", 1)[1].split()
    return (int(words[11]) + int(words[12])) / 100


def fault_of(options, ports, address, port):
    """Whether a start prints nothing, ends with status 1, and says where it can't listen before the fault line."""
    status, printed, said = run(options, ports)
    where = "cannot listen on %s:%d: " % (bracketed(address), port)
    return status == 1 and not printed and said[-1] == b"device fault" and said[-2].startswith(where.encode()) and len(said[-2]) > len(where) and said[-2]


def port_is_taken():
    """A port that another program has, at one of the addresses, is told, and no file is made for the table."""
    first, second = servers.free_ports(2)
    with socket.create_server(("127.0.0.1", second)), tempfile.TemporaryDirectory() as folder:
        said = [fault_of(options, (first, second), "127.0.0.1", second) for options in ([], ["--table", os.path.join(folder, "new.db")])]
        return all(one and b"another port" in one for one in said) and not os.listdir(folder)


def not_ours():
    """An address that isn't this machine's is told, also behind one that is."""
    ports = servers.free_ports(2)
    said = fault_of(servers.listening(["127.0.0.1", "203.0.113.77"]), ports, "203.0.113.77", ports[0])
    return said and b"doesn't have the address" in said


def no_address():
    """A word that is no address is refused with status 2, and so is one given twice or of a link alone, and --amplify without a number."""
    good = True
    twice = servers.listening(["::1", "127.0.0.1", "0:0::1"])
    for options in (["--listen", "localhost"], ["--listen", "127.0.0.1:80"], ["--listen", ""], twice, ["--listen", "fe80::1"], ["--amplify", "0"], ["--amplify", "many"]):
        status, printed, said = run(options, servers.free_ports(2))
        good = good and status == 2 and not printed and said[0].startswith(b"error: ")
    return good


CASES = (lines_and_end, turns_are_served, loopback_alone, all_are_served, idle_costs_little, port_is_taken, not_ours, no_address)


def main():
    return servers.tally((("%s: it isn't so that %s" % (case.__name__, case.__doc__), case()) for case in CASES), "failed")


sys.exit(main())

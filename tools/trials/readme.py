"""readme.py: does what README shows, and compares what is printed.

It serves examples/serve.tenants, at ports that are free, with the proved program crates/handled/out/handled, and runs each line of README.md
that begins with '$ ./hdl', in order, with the proved program crates/hdl/out/hdl and the server's address; the lines behind it, to the next
'$' or the end of the block, are what it must print on both outputs. A line '$ export NAME=VALUE' counts for those behind it. Moments
stand for any moment.
Its last line is 'N passed, M failed', a command counting one."""

import os
import re
import shlex
import subprocess
import sys

# nothing is left beside the tools
sys.dont_write_bytecode = True
from lib import repository, servers

PROGRAM = os.environ.get("HDL", repository.program("hdl"))
MOMENT = re.compile(r"\d{4}-\d\d-\d\dT\d\d:\d\d:\d\d(\.\d+)?Z")


def shown():
    """The commands of README.md, and the lines that each shows."""
    found = []
    for line in repository.text_of("README.md").splitlines():
        if line.startswith("    $ "):
            found.append((line[6:], []))
        elif not line.startswith("    "):
            found.append(("", []))
        elif found:
            found[-1][1].append(line[4:])
    return [(command, lines) for command, lines in found if command]


def run(command, environment, port):
    words = [PROGRAM, *shlex.split(command)[1:], "--server", "127.0.0.1:%d" % port]
    done = subprocess.run(words, cwd=repository.ROOT, env=environment, stdin=subprocess.DEVNULL, stdout=subprocess.PIPE, stderr=subprocess.STDOUT,
                          text=True, check=False, timeout=120 * servers.SLOWER)
    return done.stdout.splitlines()


def same(lines, others):
    return [MOMENT.sub("MOMENT", it) for it in lines] == [MOMENT.sub("MOMENT", it) for it in others]


def failures(server, port):
    environment = dict(os.environ)
    for command, lines in shown():
        if command.startswith("export "):
            name, value = command[7:].split("=", 1)
            environment[name] = value
        elif command.startswith("./hdl"):
            said = run(command, environment, port) if server.poll() is None else ["the server ended"]
            if not same(said, lines):
                print("README.md: $ %s\n  it shows  %s\n  it prints %s" % (command, lines, said))
            yield not same(said, lines)


def main():
    server, ports = servers.serve(servers.example, 2)
    try:
        failed = list(failures(server, ports[0]))
    finally:
        servers.end(server)
    print("%d passed, %d failed" % (len(failed) - sum(failed), sum(failed)))
    return 1 if any(failed) or not failed else 0


sys.exit(main())

"""side_by_side.py: runs `rt ci` with as many proofs side by side as there are processors, and pauses the youngest ones while memory is short. Its status is that of `rt ci`.

By itself `rt ci` reckons with about twice the memory that most proofs take, and so leaves processors idle. RT_JOBS has it begin as many at a time, whatever they take: most take 2 GB, the
greatest more than 7. What is paused goes on once others have ended."""

import os
import signal
import subprocess
import sys
import time

# nothing is left beside the tools
sys.dont_write_bytecode = True
import lanes
import spent

# A proof is paused while less than LEAST octets of memory are free, and goes on once there are ENOUGH.
LEAST, ENOUGH, EVERY = 1_500_000_000, 4_000_000_000, 1.0


def proofs(root):
    """The checks below a process, those that spent the most processor time first."""
    found = {number: (parent, seconds) for number, parent, seconds in spent.processes()}

    def is_below(number):
        while number in found and number != root:
            number = found[number][0]
        return number == root

    checks = [number for number in found if is_below(number) and os.path.basename(spent.read(f"/proc/{number}/cmdline").split("\0")[0]) == "rattle"]
    return sorted(checks, key=lambda number: -found[number][1])


def send(number, what):
    try:
        os.kill(number, what)
    except ProcessLookupError:
        pass


def balance(running, paused, free):
    """What is paused from now on, of the proofs that are there: one more, one less, or as it was. One of them always runs."""
    paused = [number for number in paused if number in running]
    going = [number for number in running if number not in paused]
    if paused and (free >= ENOUGH or not going):
        send(paused[0], signal.SIGCONT)
        return paused[1:]
    if free < LEAST and len(going) > 1:
        send(going[-1], signal.SIGSTOP)
        return [*paused, going[-1]]
    return paused


def main():
    environment = {"RT_JOBS": str(len(os.sched_getaffinity(0))), **os.environ}
    paused = []
    with subprocess.Popen(["rt", "ci"], env=environment) as whole:
        try:
            while whole.poll() is None:
                paused = balance(proofs(whole.pid), paused, lanes.free())
                time.sleep(EVERY)
        except KeyboardInterrupt:
            # `rt ci` hears it too, and ends what it began
            pass
        finally:
            for number in paused:
                send(number, signal.SIGCONT)
    return whole.returncode


if __name__ == "__main__":
    sys.exit(main())

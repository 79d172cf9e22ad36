"""Named checks: each prints its result, has a time limit, and leaves no process if it fails."""

import contextlib
import os
import signal
import subprocess
import sys
import traceback


# How many seconds what is left of a check has, once its time is over, before it is cut off again.
AGAIN = 10


class OutOfTime(Exception):
    """A check took too long. It is no OSError, which checks may pass over."""


class Checks:
    """Counts checks. `script` stands before each check's name in what is printed."""

    def __init__(self, script):
        self.script = script
        self.passed = 0
        self.failed = 0
        signal.signal(signal.SIGALRM, out_of_time)
        # Whoever ends the script lets it clean up.
        signal.signal(signal.SIGTERM, lambda *_: sys.exit(143))

    def run(self, name, check, *words, seconds=120):
        """Runs a check, which raises an exception if it fails. After its time it is cut off, and
        then every few seconds, whatever it waits for as it ends."""
        before = children()
        signal.setitimer(signal.ITIMER_REAL, seconds, AGAIN)
        try:
            check(*words)
        except Exception as fault:
            signal.setitimer(signal.ITIMER_REAL, 0)
            self.fail(name, traceback.format_exc(), ran_out(fault))
            end_processes(children() - before)
        else:
            signal.setitimer(signal.ITIMER_REAL, 0)
            self.passed += 1
            self.tell(name + ": ok")

    def fail(self, name, why, is_late=False):
        """Reports a failed check. `./test` repeats a script whose checks only ran out of time."""
        self.failed += 1
        self.tell(name + (": OUT OF TIME" if is_late else ": FAILED"))
        print(why, flush=True)

    def tell(self, line):
        print(self.script + ": " + line, flush=True)

    def finish(self):
        """Prints the last line, and ends the script."""
        print(f"{self.passed} passed, {self.failed} failed", flush=True)
        sys.exit(0 if self.failed == 0 else 1)


def out_of_time(_signal, _frame):
    raise OutOfTime("the check took too long")


def ran_out(fault):
    """Is a timeout this exception, or what it was raised for?"""
    while fault and not isinstance(fault, (OutOfTime, TimeoutError, subprocess.TimeoutExpired)):
        fault = fault.__cause__ or fault.__context__
    return fault is not None


def children():
    """The numbers of the processes that this one began and that have not ended."""
    found = set()
    for task in os.listdir("/proc/self/task"):
        with contextlib.suppress(OSError), open(f"/proc/self/task/{task}/children") as file:
            found.update(map(int, file.read().split()))
    return found


def end_processes(numbers):
    for number in numbers:
        with contextlib.suppress(OSError):
            os.kill(number, signal.SIGKILL)


def same(got, wanted):
    """Raises where the two differ."""
    if got != wanted:
        raise AssertionError(f"wanted {short(wanted)}, got {short(got)}")


def short(value):
    text = repr(value)
    if len(text) <= 300:
        return text
    return text[:300] + f".. ({len(text)} characters)"

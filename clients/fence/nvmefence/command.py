"""The command: reads the options, and executes the action within its time limit.

Each action imports only what it needs: a loaded node is slow, and Pacemaker gives `metadata` 10 seconds.
"""
from __future__ import annotations

import os
import select
import signal
import sys
import time
from typing import Callable, Sequence, TextIO

from .failures import FAILED, SUCCEEDED, TIMED_OUT, Failure
from .options import NAME, VERSION, Asked, given_words, parser_of, truth_of
from .progress import Progress

PR_SET_PDEATHSIG = 1


def complain(fault: Failure) -> int:
    """Prints the reason on standard error. Returns the exit status."""
    print(f"{NAME}: {fault}", file=sys.stderr)
    return fault.status


def in_child(parent: int, work: Callable[[Progress], int], progress: Progress) -> int:
    """The work's exit status, whatever happens. A child whose agent was killed must not fence a node later."""
    import ctypes
    ctypes.CDLL(None).prctl(PR_SET_PDEATHSIG, signal.SIGKILL)
    try:
        status = work(progress) if os.getppid() == parent else FAILED
        sys.stdout.flush()
        return status
    except Failure as fault:
        return complain(fault)
    except Exception:
        sys.excepthook(*sys.exc_info())
        return FAILED


def within(seconds: float, work: Callable[[Progress], int], is_verbose: bool) -> int:
    """Does the work in a child process, since one that waits for a disk can't be interrupted, not even by a signal."""
    reading, writing = os.pipe()
    parent, child = os.getpid(), os.fork()
    if child == 0:
        status = FAILED
        try:
            status = in_child(parent, work, Progress(writing, is_verbose))
        finally:
            os._exit(status)
    os.close(writing)
    limit, told = time.monotonic() + seconds, "nothing has answered"
    while select.select([reading], [], [], max(0.0, limit - time.monotonic()))[0]:
        came = os.read(reading, 65536).decode()
        if not came:
            status = os.waitstatus_to_exitcode(os.waitpid(child, 0)[1])
            return status if status >= 0 else complain(Failure(f"it was ended by signal {-status}"))
        told = came.splitlines()[-1]
    os.kill(child, signal.SIGKILL)
    return complain(Failure(f"{told}; the time limit is {seconds:g} seconds (power_timeout)", TIMED_OUT))


def run(words: Sequence[str], stream: TextIO) -> int:
    """Runs the agent on a command line and standard input. Returns the exit status."""
    given = given_words(words, stream)
    if truth_of(given, "help"):
        parser_of().print_help()
        return SUCCEEDED
    if truth_of(given, "version"):
        print(f"{NAME} {VERSION}")
        return SUCCEEDED
    asked = Asked.of(given)
    if asked.action == "metadata":
        from .metadata import metadata
        print(metadata())
        return SUCCEEDED
    if asked.action == "validate-all":
        return SUCCEEDED
    if asked.action == "off":
        time.sleep(asked.delay)
    from .actions import carry_out
    from .device import LinuxDevice
    return within(asked.seconds, lambda progress: carry_out(asked, LinuxDevice, progress), asked.is_verbose)


def main() -> int:
    """Runs the agent."""
    try:
        return run(sys.argv[1:], sys.stdin)
    except Failure as fault:
        return complain(fault)

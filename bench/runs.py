"""One run of a program: how it ended, how long it took, and the most memory that it had."""
import os, resource, subprocess, threading, time
from dataclasses import dataclass


@dataclass
class Ended:
    """`status` is None where it was stopped at the limit, and below 0 where a signal ended it."""

    status: int | None
    seconds: float
    kibibytes: int


def run(words, out, err=subprocess.DEVNULL, limit=600.0, mebibytes=None):
    """Runs the words with their output to the file `out`, with so much memory at most, and stops them at the limit. The
    memory that is told is at least that of this process."""
    start = time.perf_counter()
    child = subprocess.Popen(words, stdin=subprocess.DEVNULL, stdout=out, stderr=err)
    if mebibytes:
        bound(child.pid, mebibytes << 20)
    stopped = []
    timer = threading.Timer(limit, lambda: (stopped.append(True), child.kill()))
    timer.start()
    _, status, used = os.wait4(child.pid, 0)
    seconds = time.perf_counter() - start
    timer.cancel()
    child.returncode = os.waitstatus_to_exitcode(status)
    return Ended(None if stopped else child.returncode, seconds, used.ru_maxrss)


def bound(pid, size):
    """Bounds the memory of a process, if it is still there."""
    try:
        resource.prlimit(pid, resource.RLIMIT_AS, (size, size))
    except ProcessLookupError:
        pass


def peak(words, limit=600.0):
    """The most memory that the words had, in KiB, as /usr/bin/time tells it."""
    timed = ["/usr/bin/time", "-f", "%M", "timeout", str(limit), *words]
    ran = subprocess.run(timed, stdin=subprocess.DEVNULL, stdout=subprocess.DEVNULL, stderr=subprocess.PIPE, text=True)
    return int(ran.stderr.split()[-1])


def in_a_child(work):
    """Does the work in a child, so that this process stays small; whether it was done."""
    child = os.fork()
    if child == 0:
        try:
            work()
        except BaseException:
            os._exit(1)
        os._exit(0)
    return os.waitpid(child, 0)[1] == 0

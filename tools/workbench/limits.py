"""What a process may use, and that it ends with the process that started it."""
import ctypes
import os
import resource
import signal

SECONDS, MEMORY = 60, 2 << 30  # of processor time; bytes
DIES_WITH_PARENT = 1  # PR_SET_PDEATHSIG of Linux


def limit(seconds):
    """Limits this process, and those that it starts, to so many seconds of processor time. None writes a core."""
    hard = resource.getrlimit(resource.RLIMIT_CPU)[1]
    resource.setrlimit(resource.RLIMIT_CPU, (seconds if hard == resource.RLIM_INFINITY else min(seconds, hard), hard))
    resource.setrlimit(resource.RLIMIT_CORE, (0, 0))


def limit_memory(most):
    """Limits the addresses of this process, and so its memory."""
    resource.setrlimit(resource.RLIMIT_AS, (most, resource.getrlimit(resource.RLIMIT_AS)[1]))


def unlimit_memory():
    """Takes that limit away. A program that checks itself needs many more addresses than memory, so it is watched instead."""
    hard = resource.getrlimit(resource.RLIMIT_AS)[1]
    resource.setrlimit(resource.RLIMIT_AS, (hard, hard))


def memory_of(process):
    """The bytes of memory that a process has now, or 0 where that isn't known."""
    try:
        with open(f'/proc/{process}/statm', encoding='ascii') as opened:
            return int(opened.read().split()[1]) * resource.getpagesize()
    except (IndexError, OSError):
        return 0


def end_with(parent):
    """Lets this process be killed when its parent is gone, where the system is Linux; and at once if it is gone already."""
    try:
        ctypes.CDLL(None).prctl(DIES_WITH_PARENT, signal.SIGKILL)
    except (AttributeError, OSError):
        return
    if os.getppid() != parent:
        os._exit(1)

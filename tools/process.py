"""What a process of the planner needs of the system: standard streams, an orderly end, and children that end with it."""
from __future__ import annotations

import ctypes
import io
import os
import signal
import sys
import threading
from typing import Callable, Optional

PR_SET_PDEATHSIG = 1


def settle() -> bool:
    """Makes the standard streams and the end by a signal fit for any verb; returns whether standard output is open."""
    is_open = open_streams()
    for stream in (sys.stdout, sys.stderr):
        if isinstance(stream, io.TextIOWrapper):
            coding = stream.encoding if stream.isatty() else "utf-8"
            stream.reconfigure(encoding=coding, errors="backslashreplace")
    end_orderly()
    return is_open


def open_streams() -> bool:
    """Opens standard streams that are closed, on nothing: a file that is opened later would take their place."""
    was_open = is_descriptor(1)
    for number, mode in ((0, os.O_RDONLY), (1, os.O_WRONLY), (2, os.O_WRONLY)):
        if not is_descriptor(number):
            os.set_inheritable(os.open(os.devnull, mode), True)
    sys.stdin = sys.stdin or open(0, encoding="utf-8", closefd=False)
    sys.stdout = sys.stdout or open(1, "w", encoding="utf-8", closefd=False)
    sys.stderr = sys.stderr or open(2, "w", encoding="utf-8", closefd=False)
    return was_open


def is_descriptor(number: int) -> bool:
    """Returns whether a descriptor is open."""
    try:
        os.fstat(number)
        return True
    except OSError:
        return False


def end_orderly() -> None:
    """Lets SIGTERM and SIGHUP end the process as an exception does, so that nothing is left behind."""
    if threading.current_thread() is not threading.main_thread():
        return
    for it in (signal.SIGTERM, signal.SIGHUP):
        if signal.getsignal(it) is signal.SIG_DFL:
            signal.signal(it, end)


def end(number: int, _: object) -> None:
    """Ends the process."""
    sys.exit(128 + number)


def close_output() -> None:
    """Lets what standard output still holds go nowhere, once it can't be written."""
    nowhere = os.open(os.devnull, os.O_WRONLY)
    try:
        os.dup2(nowhere, sys.stdout.fileno())
    except (OSError, ValueError):  # (in a test: no file)
        pass
    finally:
        os.close(nowhere)


def tied() -> Callable[[], None]:
    """Returns what a child is to do before it runs a program, so that it ends with this process, however that ends."""
    parent, prctl = os.getpid(), prctl_of_system()

    def tie() -> None:
        if prctl:
            prctl(PR_SET_PDEATHSIG, int(signal.SIGKILL), 0, 0, 0)
        if os.getppid() != parent:
            os._exit(1)

    return tie


def prctl_of_system() -> Optional[Callable[..., int]]:
    """Returns the call `prctl` of the C library, if it has one."""
    try:
        return ctypes.CDLL(None).prctl
    except (OSError, AttributeError):
        return None

"""One writer of a log: a lock on the file, and on its folder while the file is made. It ends with those who hold it."""
from __future__ import annotations

import errno
import fcntl
import os
import re
import time
from typing import List, Optional

from tools.errors import NotReady

PASSING = 2.0  # seconds, for which another may hold a folder that only passes by
PAUSE = 0.02
HAS_NO_LOCKS = (errno.ENOLCK, errno.ENOTSUP, errno.EINVAL, errno.ENOSYS)


class Lock:
    """The descriptors that lock a log; a child that inherits them holds the lock too."""

    def __init__(self, path: str, seconds: float = 0.0) -> None:
        """Locks a log, and waits for another writer at most as long as is said."""
        self.path, self.held = path, []  # type: str, List[int]
        self.until = time.monotonic() + seconds
        try:
            while not self.take(os.path.realpath(path)):
                self.close()
        except BaseException:
            self.close()
            raise

    def __enter__(self) -> Lock:
        return self

    def __exit__(self, *_: object) -> None:
        self.close()

    def close(self) -> None:
        """Gives the lock back, unless a child still holds it."""
        while self.held:
            os.close(self.held.pop())

    def take(self, real: str) -> bool:
        """Locks the folder, then the file, and returns whether the path still leads to it."""
        folder = os.path.dirname(real)
        self.lock(folder, max(self.until, time.monotonic() + PASSING))
        if not os.path.exists(real):
            return True
        file = self.lock(real, self.until)
        seen = os.fstat(file)
        if not os.path.exists(real) or os.stat(real).st_ino != seen.st_ino:
            return False
        if seen.st_size and os.pread(file, 1, seen.st_size - 1) == b"\n":
            os.close(self.held.pop(0))  # (the file stays as it is: its folder may be used by others)
        return True

    def lock(self, path: str, until: float) -> int:
        """Opens and locks a file or a folder, and returns the descriptor."""
        try:
            opened = os.open(path, os.O_RDONLY | os.O_NONBLOCK)
        except OSError as why:
            raise NotReady(f"{self.path} can't be locked: {path}: {why.strerror}") from why
        self.held.append(opened)
        while not self.is_taken(opened):
            if time.monotonic() >= until:
                raise NotReady(self.busy(opened))
            time.sleep(PAUSE)
        return opened

    def is_taken(self, opened: int) -> bool:
        """Tries to lock a descriptor."""
        try:
            fcntl.flock(opened, fcntl.LOCK_EX | fcntl.LOCK_NB)
            return True
        except OSError as why:
            if why.errno in HAS_NO_LOCKS:
                raise NotReady(f"{self.path}: this file system has no locks; --no-lock goes on without one") from why
            return False

    def busy(self, opened: int) -> str:
        """Says who holds the lock, and what to do."""
        holder = holder_of(os.fstat(opened).st_ino)
        who = f"process {holder}" if holder else "another process"
        return f"{self.path}: {who} writes it now, and one at a time may; wait for its end, here by --wait SECONDS"


def holder_of(inode: int) -> Optional[int]:
    """Returns the process that locked a file, if the system tells."""
    try:
        with open("/proc/locks", encoding="ascii") as lines:
            found = [it.split() for it in lines if re.search(rf"FLOCK .*:{inode} ", it)]
    except OSError:
        return None
    pids = [int(it[4]) for it in found if it[1] == "FLOCK" and it[4].isdigit()]
    return pids[0] if pids and pids[0] > 0 else None

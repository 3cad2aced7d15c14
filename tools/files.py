"""Files that are whole or absent, folders that are needed for a while, and files that aren't to be written over."""
from __future__ import annotations

import fcntl
import json
import os
import secrets
import shutil
import stat
import tempfile
import time
from contextlib import contextmanager
from typing import Any, BinaryIO, Dict, Iterable, Iterator, Optional

from tools.errors import Refused

MOST_HEADER = 16384
SCRATCH, HELD = "tcm-scratch-", "held"
OLD = 60.0  # seconds, after which a folder for a while that nobody holds is left over


# ---- Writing


def write_whole(path: str, data: bytes) -> None:
    """Writes a file at once: a reader finds the old bytes or the new ones, also after a crash.

    A device or a pipe is written as it is.
    """
    try:
        if is_stream(path):
            with open(path, "wb") as it:
                it.write(data)
        else:
            replace(os.path.realpath(path), data)
    except OSError as why:
        raise Refused(f"{path}: {why.strerror}") from why


def is_stream(path: str) -> bool:
    """Returns whether a path leads to something else than a file, a folder or nothing."""
    try:
        mode = os.stat(path).st_mode
    except OSError:
        return False
    return not stat.S_ISREG(mode) and not stat.S_ISDIR(mode)


def replace(path: str, data: bytes) -> None:
    """Writes a file beside the path, syncs it, and renames it."""
    folder = os.path.dirname(path)
    partial = os.path.join(folder, f".cluster-{secrets.token_hex(6)}.new")
    made = os.open(partial, os.O_WRONLY | os.O_CREAT | os.O_EXCL, 0o666)
    try:
        with open(made, "wb") as it:
            keep_mode(path, it)
            it.write(data)
            it.flush()
            os.fsync(it.fileno())
        os.replace(partial, path)
    except BaseException:
        os.unlink(partial)
        raise
    sync_folder(folder)


def keep_mode(path: str, it: BinaryIO) -> None:
    """Gives an open file the permissions of the file that it is to replace, if there is one."""
    try:
        os.fchmod(it.fileno(), stat.S_IMODE(os.stat(path).st_mode))
    except FileNotFoundError:
        pass


def sync_folder(folder: str) -> None:
    """Waits until the names in a folder are on the disk, where the file system can wait for them."""
    opened = os.open(folder, os.O_RDONLY | os.O_DIRECTORY)
    try:
        os.fsync(opened)
    except OSError:
        pass
    finally:
        os.close(opened)


# ---- Folders for a while


@contextmanager
def scratch() -> Iterator[str]:
    """Gives a folder that is removed afterwards; if the process is killed, a later one removes it."""
    sweep()
    folder = tempfile.mkdtemp(prefix=SCRATCH)
    held = hold(folder)
    try:
        yield folder
    finally:
        shutil.rmtree(folder, ignore_errors=True)
        if held is not None:
            os.close(held)


def hold(folder: str) -> Optional[int]:
    """Locks a folder as long as this process lives, and returns the descriptor; None if another holds it.

    The lock is on a file in it: that on the folder is for writers of logs there.
    """
    held = os.open(os.path.join(folder, HELD), os.O_RDWR | os.O_CREAT, 0o600)
    try:
        fcntl.flock(held, fcntl.LOCK_EX | fcntl.LOCK_NB)
        return held
    except OSError:
        os.close(held)
        return None


def sweep() -> None:
    """Removes folders that killed processes of this user left."""
    with os.scandir(tempfile.gettempdir()) as entries:
        for it in entries:
            if it.name.startswith(SCRATCH):
                remove_if_left(it.path)


def remove_if_left(folder: str) -> None:
    """Removes a folder for a while if it is old and nobody holds it."""
    try:
        seen = os.lstat(folder)
        if not stat.S_ISDIR(seen.st_mode) or seen.st_uid != os.getuid() or time.time() - seen.st_mtime < OLD:
            return
        held = hold(folder)
    except OSError:  # (it was removed meanwhile)
        return
    if held is not None:
        shutil.rmtree(folder, ignore_errors=True)
        os.close(held)


# ---- Files that aren't to be written over


def check_output(path: str, inputs: Iterable[str], force: bool) -> None:
    """Checks that a file to write is none of the inputs and no log, and isn't there unless this is forced."""
    if is_stream(path) or not os.path.exists(path):
        return
    same = next((it for it in inputs if is_same(it, path)), None)
    if same is not None:
        raise Refused(f"{path}: this is {same}, which is read here: choose another name")
    if has_header(path):
        raise Refused(f"{path}: this is a log file, which isn't written over: choose another name")
    if not force:
        raise Refused(f"{path} is there already: choose another name, or write over it by --force")


def is_same(one: str, other: str) -> bool:
    """Returns whether two paths lead to one file."""
    try:
        return os.path.samefile(one, other)
    except OSError:
        return False


def has_header(path: str) -> bool:
    """Returns whether a file begins with the header or an entry of a log, or with a state."""
    try:
        with open(path, "rb") as it:
            found = object_in(it.readline(MOST_HEADER + 1))
    except OSError:
        return False
    return bool({"cluster", "entry", "snapshot"} & set(found))


def object_in(line: bytes) -> Dict[str, Any]:
    """Returns the JSON object in a whole line, an empty one if there is none."""
    try:
        value = json.loads(line) if line.endswith(b"\n") else None
    except (ValueError, RecursionError):
        return {}
    return value if isinstance(value, dict) else {}

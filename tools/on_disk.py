"""The word DISK:LOG: a log that is kept on a disk of `tcm on DISK`."""
from __future__ import annotations

import io
import os
from typing import BinaryIO, List, NamedTuple, Optional, Sequence

from tools.disk import file_on, files, is_disk, put, read_disk
from tools.errors import Refused


class Place(NamedTuple):
    """A disk, and the name of a file on it."""

    disk: str
    name: str

    def data(self) -> Optional[bytes]:
        """Returns the bytes of the file, None if the disk or the file is absent."""
        if not os.path.exists(self.disk) or os.fsencode(self.name) not in files(read_disk(self.disk)):
            return None
        return file_on(self.disk, self.name)


def place_of(word: str) -> Optional[Place]:
    """Returns where a log is that a word names as DISK:LOG; None for a file, which a word with a colon may name too."""
    disk, _, name = word.rpartition(":")
    if not disk or not name or "/" in name or os.path.exists(word):
        return None
    return Place(disk, name)


def is_there(log: str) -> bool:
    """Returns whether a log is there, in a file or on a disk."""
    place = place_of(log)
    return os.path.exists(log) if place is None else place.data() is not None


def open_log(log: str) -> BinaryIO:
    """Opens a log to be read, in a file or on a disk."""
    place = place_of(log)
    return open(log, "rb") if place is None else io.BytesIO(file_on(*place))


def write_log(log: str, data: bytes) -> bool:
    """Puts a new log onto its disk; returns whether it belongs on one."""
    place = place_of(log)
    if place is not None:
        put(place.disk, os.fsencode(place.name), data)
    return place is not None


def commit_words(words: Sequence[str]) -> List[str]:
    """Returns the words of `tcm` that commit to a log: none, or the log and the name of its cluster."""
    place = place_of(words[0]) if words else None
    return ["commit", *words] if place is None else ["on", place.disk, "commit", place.name, *words[1:]]


def check_no_disk(log: str) -> None:
    """Checks that a file isn't a disk in the place of a log."""
    with open(log, "rb") as it:
        head = it.read(1)
    if head and is_disk(head):
        held = ", ".join(f"{log}:{it.decode(errors='replace')}" for it in sorted(files(read_disk(log))))
        raise Refused(f"{log}: this is a disk: name a log on it, {held or 'which has none'}")

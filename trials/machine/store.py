"""Files by name, and a disk that has files."""
from __future__ import annotations

from typing import Dict, Optional

OPEN, CLOSED, HEAD = 1, 0, 18
ADDS, REPLACES = 0, 1


class Files:
    """Files, by their names."""

    def __init__(self, files: Dict[bytes, bytes]):
        self.files = dict(files)

    def load(self, name: bytes) -> Optional[bytes]:
        """Returns the bytes of a file, if it is there."""
        return self.files.get(name)

    def append(self, name: bytes, data: bytes) -> None:
        """Adds bytes to a file."""
        self.files[name] = self.files.get(name, b"") + data

    def replace(self, name: bytes, data: bytes) -> None:
        """Gives a file other bytes."""
        self.files[name] = data


class Disk:
    """The files on a disk: a list of records and a closed gate."""

    def __init__(self, image: Optional[bytes]):
        self.image = bytearray(image or b"")
        self.files: Dict[bytes, bytes] = {}
        self.end = 0
        while self.take_record():
            pass
        if self.image[self.end : self.end + 1] in (b"", bytes([OPEN])):
            self.write(self.end, bytes([CLOSED]))

    def take_record(self) -> bool:
        """Takes the next record, if it is whole."""
        head = self.image[self.end : self.end + HEAD]
        if len(head) < HEAD or head[0] != OPEN or head[1] > REPLACES:
            return False
        name_size, size = int.from_bytes(head[2:10], "big"), int.from_bytes(head[10:18], "big")
        at = self.end + HEAD
        if len(self.image) - at < name_size + size:
            return False
        name = bytes(self.image[at : at + name_size])
        data = bytes(self.image[at + name_size : at + name_size + size])
        self.files[name] = (self.files.get(name, b"") if head[1] == ADDS else b"") + data
        self.end = at + name_size + size
        return True

    def load(self, name: bytes) -> Optional[bytes]:
        """Returns the bytes of a file, if it is on the disk."""
        return self.files.get(name)

    def write(self, at: int, data: bytes) -> None:
        """Writes bytes at a place."""
        self.image[at : at + len(data)] = data

    def add_record(self, kind: int, name: bytes, data: bytes) -> None:
        """Adds a record, and a closed gate after it."""
        sizes = len(name).to_bytes(8, "big") + len(data).to_bytes(8, "big")
        self.write(self.end, bytes([OPEN, kind]) + sizes + name + data + bytes([CLOSED]))
        self.take_record()

    def append(self, name: bytes, data: bytes) -> None:
        """Adds bytes to a file."""
        self.add_record(ADDS, name, data)

    def replace(self, name: bytes, data: bytes) -> None:
        """Gives a file other bytes."""
        self.add_record(REPLACES, name, data)

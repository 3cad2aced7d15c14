"""Disks of `tcm on DISK`: the files on a disk, one file more, and the command line of `bin/disk`."""
from __future__ import annotations

import argparse
import fcntl
import os
import sys
import time
from typing import BinaryIO, Dict, List, Tuple

from tools.errors import Refused

OPEN = 1
HEADER = 18
PASSING = 5  # seconds to wait for a process that only begins in the folder

ABOUT = "Looks into a disk of `tcm on DISK`, takes files off it and puts files on it."
EPILOG = """examples:
  bin/disk list cluster.disk
  bin/disk get cluster.disk cluster.log > cluster.log
  bin/disk put cluster.disk cluster.log < cluster.log

list and get change nothing, and may run at any time. put is refused while another process writes the disk.
statuses: 0 done, 1 refused, 2 wrong words. docs/operators.md, "On a disk", has more."""


def records(image: bytes) -> Tuple[List[Tuple[int, bytes, bytes]], int]:
    """Returns the whole records that follow each other from the front, and the place where they end."""
    found, at = [], 0
    while len(image) - at >= HEADER and image[at] == OPEN and image[at + 1] <= 1:
        name_size = int.from_bytes(image[at + 2 : at + 10], "big")
        size = int.from_bytes(image[at + 10 : at + 18], "big")
        end = at + HEADER + name_size + size
        if end > len(image):
            break
        name = image[at + HEADER : at + HEADER + name_size]
        found.append((image[at + 1], name, image[end - size : end]))
        at = end
    return found, at


def files(image: bytes) -> Dict[bytes, List[bytes]]:
    """Returns the parts of each file, one for each record that still counts."""
    parts: Dict[bytes, List[bytes]] = {}
    for kind, name, data in records(image)[0]:
        parts[name] = [data] if kind == 1 else parts.get(name, []) + [data]
    return parts


def is_disk(image: bytes) -> bool:
    """Returns whether bytes may be a disk: none, or a gate first."""
    return image[:1] in (b"", b"\0", b"\1")


def read_disk(path: str) -> bytes:
    """Returns the bytes of a disk."""
    try:
        with open(path, "rb") as disk:
            image = disk.read()
    except OSError as why:
        raise Refused(f"{path}: {why.strerror}") from why
    if not is_disk(image):
        raise Refused(f"{path}: this is no disk: its first byte is no record's")
    return image


def file_on(path: str, name: str) -> bytes:
    """Returns the bytes of a file on a disk."""
    parts = files(read_disk(path))
    if os.fsencode(name) not in parts:
        held = ", ".join(it.decode(errors="replace") for it in sorted(parts)) or "no file"
        raise Refused(f"{path}: {name} isn't on the disk, which has {held}")
    return b"".join(parts[os.fsencode(name)])


def lock(descriptor: int, path: str, seconds: float) -> None:
    """Takes the lock of a file or a folder, as bin/tcm does."""
    ended = time.monotonic() + seconds
    while True:
        try:
            return fcntl.flock(descriptor, fcntl.LOCK_EX | fcntl.LOCK_NB)
        except BlockingIOError as why:
            if time.monotonic() > ended:
                raise Refused(f"{path}: another process writes it; wait until it has ended") from why
            time.sleep(0.05)


def open_to_write(path: str) -> int:
    """Opens a disk that no other process writes, and makes it if it is absent."""
    folder = os.open(os.path.dirname(os.path.realpath(path)), os.O_RDONLY)
    try:
        lock(folder, path, PASSING)
        descriptor = os.open(path, os.O_RDWR | os.O_CREAT, 0o644)
        lock(descriptor, path, 0)
        return descriptor
    finally:
        os.close(folder)


def write(disk: BinaryIO, at: int, data: bytes) -> None:
    """Writes bytes at a place, and waits until they are on the medium."""
    disk.seek(at)
    disk.write(data)
    disk.flush()
    os.fsync(disk.fileno())


def put(path: str, name: bytes, data: bytes) -> None:
    """Adds a record; its gate is opened last."""
    with os.fdopen(open_to_write(path), "r+b") as disk:
        image = disk.read()
        if not is_disk(image):
            raise Refused(f"{path}: this is no disk, and `put` would overwrite it. Take another name")
        at = records(image)[1]
        if at == len(image) or image[at] == OPEN:
            write(disk, at, b"\0")
        sizes = len(name).to_bytes(8, "big") + len(data).to_bytes(8, "big")
        write(disk, at + 1, b"\1" + sizes + name + data + b"\0")
        write(disk, at, bytes([OPEN]))


def run_list(options: argparse.Namespace) -> None:
    """Prints each file on a disk: its name, its bytes and its records."""
    for name, parts in sorted(files(read_disk(options.disk)).items()):
        print(name.decode(errors="replace"), sum(map(len, parts)), len(parts))


def run_get(options: argparse.Namespace) -> None:
    """Writes the bytes of a file to standard output."""
    sys.stdout.buffer.write(file_on(options.disk, options.name))
    sys.stdout.buffer.flush()


def run_put(options: argparse.Namespace) -> None:
    """Makes what standard input holds a file of the disk."""
    put(options.disk, os.fsencode(options.name), sys.stdin.buffer.read())


def parser_of() -> argparse.ArgumentParser:
    """Returns what reads the words of `bin/disk`."""
    shape = argparse.RawDescriptionHelpFormatter
    parser = argparse.ArgumentParser(
        prog="disk", description=ABOUT, epilog=EPILOG, formatter_class=shape, allow_abbrev=False
    )
    verbs = parser.add_subparsers(dest="verb", metavar="VERB", required=True)
    for verb, run, about in (
        ("list", run_list, "print each file on the disk: its name, its bytes and its records"),
        ("get", run_get, "write the bytes of the file NAME to standard output"),
        ("put", run_put, "make what standard input holds the file NAME; the disk is made if it is absent"),
    ):
        words = verbs.add_parser(verb, help=about, description=about[0].upper() + about[1:] + ".")
        words.add_argument("disk", metavar="DISK", help="the file that is the disk")
        if verb != "list":
            words.add_argument("name", metavar="NAME", help="the name of a file on the disk")
        words.set_defaults(run=run)
    return parser


def main(words: List[str]) -> int:
    """Does what the words say, and returns the status."""
    options = parser_of().parse_args(words)
    try:
        options.run(options)
    except BrokenPipeError:
        os.dup2(os.open(os.devnull, os.O_WRONLY), sys.stdout.fileno())
        return 141
    except (Refused, OSError) as why:
        print(f"disk: {why}", file=sys.stderr)
        return 1
    return 0

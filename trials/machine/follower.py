"""Followers, and the replies by which they catch up."""
from __future__ import annotations

from dataclasses import dataclass, field
from typing import Dict, List, Optional, Sequence, Tuple

from trials.machine.commands import Command
from trials.machine.history import commit_refusal, next_image
from trials.machine.image import Image
from trials.machine.terms import MOST_WAITING

EVERY = 256  # epochs between the images of replies

Entry = Tuple[int, Command]  # the id of a commit, and its command


class Refused(Exception):
    """A command that is refused: its epoch, and the refusal."""

    def __init__(self, epoch: int, text: str):
        super().__init__(f"COMMAND {epoch} {text}")


class Fork(Exception):
    """An entry that isn't the one that waits."""

    def __init__(self, epoch: int, waiting: Entry):
        super().__init__(f"FORK {epoch}")
        self.waiting = waiting


@dataclass
class Follower:
    """An image, and the entries that wait, by their epochs."""

    image: Image = Image()
    waiting: Dict[int, Entry] = field(default_factory=dict)

    def advance(self) -> None:
        """Applies entries, as long as that of the next epoch waits."""
        while self.image.epoch + 1 in self.waiting:
            epoch = self.image.epoch + 1
            _, command = self.waiting.pop(epoch)
            refusal = commit_refusal(self.image, command)
            if refusal is not None:
                raise Refused(epoch, refusal)
            self.image = next_image(self.image, command)

    def hand_entry(self, epoch: int, entry: Entry) -> str:
        """Takes an entry, and returns the word of the answer."""
        if epoch <= self.image.epoch:
            return "OLD"
        if epoch in self.waiting:
            if self.waiting[epoch] != entry:
                raise Fork(epoch, self.waiting[epoch])
            return "HELD"
        if epoch > self.image.epoch + 1 and len(self.waiting) >= MOST_WAITING:
            return "FULL"
        self.waiting[epoch] = entry
        self.advance()
        return "AT"

    def hand_image(self, image: Image) -> str:
        """Takes a state, and returns the word of the answer."""
        if image.epoch <= self.image.epoch:
            return "OLD"
        self.image = image
        self.waiting = {epoch: it for epoch, it in self.waiting.items() if epoch > image.epoch}
        self.advance()
        return "AT"


@dataclass(frozen=True)
class Reply:
    """What `ask` keeps: a state or none, and the entries after it."""

    image: Optional[Image]
    since: int
    entries: Tuple[Entry, ...]

    def text(self, number: int) -> str:
        """Returns the answer to `ask`."""
        word = "since" if self.image is None else "image"
        return f"REPLY {number} {word} {self.since} entries {len(self.entries)}"


def reply_to(since: int, most: int, entries: Sequence[Entry], images: List[Image]) -> Reply:
    """Returns the reply to a follower at an epoch, of at most so many entries."""
    last = len(entries)
    base = last // EVERY * EVERY
    if last - since > most and base > since:
        return Reply(images[base], base, tuple(entries[base : base + most]))
    return Reply(None, since, tuple(entries[since : since + most]))

"""The session: what each line of a script is answered."""
from __future__ import annotations

from typing import Dict, List, Optional, Tuple, Union

from trials.machine.answers import local_text, nodes_text, place_text, quorum_text
from trials.machine.commands import Command, command_of
from trials.machine.follower import Entry, Follower, Reply, reply_to
from trials.machine.history import commit_refusal, next_image
from trials.machine.image import Image
from trials.machine.terms import IDS, MOST_ASKED, MOST_FOLLOWERS, MOST_LINE, MOST_REPLIES
from trials.machine.terms import is_name, number_of, token_of

Value = Union[int, str]
Values = List[Value]

# the words behind the first one of a line
FORMS = {
    "place": ("target", "name"),
    "nodes": ("target",),
    "quorum": ("target", "name", "token"),
    "local": ("target", "name", "dc", "token"),
    "follower": ("name",),
    "deliver": ("name", "number"),
    "snapshot": ("name", "number"),
    "ask": ("name", "most"),
    "give": ("name", "number"),
}
BAD_LINE = ["NO BAD-LINE"]


def value_of(kind: str, word: str) -> Optional[Value]:
    """Returns what a word stands for. A target is an epoch, or the name of a follower."""
    if kind == "target" and word.startswith("@"):
        return number_of(word[1:], IDS)
    if kind == "number":
        return number_of(word, IDS)
    if kind == "most":
        return number_of(word, MOST_ASKED + 1, 1)
    if kind == "token":
        return token_of(word)
    return word if is_name(word) else None


def lines_of(script: bytes) -> List[bytes]:
    """Returns the lines of a script. The last may lack its line feed, if it isn't empty."""
    lines = script.split(b"\n")
    return lines if lines[-1] else lines[:-1]


class Session:
    """A log, its state at each epoch, its followers and replies."""

    def __init__(self) -> None:
        self.entries: List[Entry] = []
        self.images: List[Image] = [Image()]
        self.epochs: Dict[int, int] = {}  # of each id
        self.followers: Dict[str, Follower] = {}
        self.replies: List[Reply] = []

    @property
    def image(self) -> Image:
        """The state at the last epoch."""
        return self.images[-1]

    def push(self, number: int, command: Command) -> None:
        """Adds an accepted command."""
        self.images.append(next_image(self.image, command))
        self.entries.append((number, command))
        self.epochs[number] = self.image.epoch

    def answer(self, line: bytes) -> List[str]:
        """Returns the lines of the answer to a line."""
        if len(line) > MOST_LINE:
            return BAD_LINE
        words = line.decode("latin-1").split(" ")
        if words[0] == "commit":
            number = number_of(words[1], IDS) if len(words) > 1 else None
            command = command_of(words[2:])
            return BAD_LINE if number is None or command is None else [self.commit(number, command)]
        form = FORMS.get(words[0], ())
        values = [it for it in map(value_of, form, words[1:]) if it is not None]
        if not form or not len(form) == len(words) - 1 == len(values):
            return BAD_LINE
        if form[0] == "target":
            return self.query(words[0], values)
        return [self.on_follower(words[0], values)]

    def commit(self, number: int, command: Command) -> str:
        """Returns the answer to a commit. The id is looked up before all else."""
        epoch = self.epochs.get(number)
        if epoch is not None:
            return f"OK {epoch}" if self.entries[epoch - 1][1] == command else f"NO ID-REUSED {epoch}"
        refusal = commit_refusal(self.image, command)
        if refusal is not None:
            return f"NO {refusal}"
        self.push(number, command)
        return f"OK {self.image.epoch}"

    def target(self, value: Value) -> Tuple[Optional[Image], str]:
        """Returns the state that a query is about, or why there is none."""
        if isinstance(value, int):
            return (self.images[value], "") if value < len(self.images) else (None, f"NO EPOCH {self.image.epoch}")
        follower = self.followers.get(value)
        return (None, "NO FOLLOWER") if follower is None else (follower.image, "")

    def query(self, word: str, values: Values) -> List[str]:
        """Returns the answer to a query."""
        image, why = self.target(values[0])
        if image is None:
            return [why]
        if word == "nodes":
            return nodes_text(image)
        name = str(values[1])
        if word == "place":
            return place_text(image, name)
        if word == "quorum":
            return quorum_text(image, name, int(values[2]))
        return local_text(image, name, str(values[2]), int(values[3]))

    def on_follower(self, word: str, values: Values) -> str:
        """Returns the answer to a line that makes a follower, or hands it something."""
        name = str(values[0])
        if word == "follower":
            return self.make_follower(name)
        follower = self.followers.get(name)
        if follower is None:
            return "NO FOLLOWER"
        number = int(values[1])
        if word == "ask":
            return self.ask(follower, number)
        if word == "give":
            return self.give(follower, number)
        if number >= len(self.images) or (number == 0 and word == "deliver"):
            return f"NO EPOCH {self.image.epoch}"
        if word == "deliver":
            said = follower.hand_entry(number, self.entries[number - 1])
        else:
            said = follower.hand_image(self.images[number])
        return f"{said} {follower.image.epoch}"

    def make_follower(self, name: str) -> str:
        """Returns the answer to `follower`."""
        if name in self.followers:
            return "NO FOLLOWER-TAKEN"
        if len(self.followers) >= MOST_FOLLOWERS:
            return "NO FOLLOWERS-FULL"
        self.followers[name] = Follower()
        return "AT 0"

    def ask(self, follower: Follower, most: int) -> str:
        """Returns the answer to `ask`."""
        if len(self.replies) >= MOST_REPLIES:
            return "NO REPLIES-FULL"
        self.replies.append(reply_to(follower.image.epoch, most, self.entries, self.images))
        return self.replies[-1].text(len(self.replies))

    def give(self, follower: Follower, number: int) -> str:
        """Returns the answer to `give`: the state is handed over first, then each entry."""
        if not 1 <= number <= len(self.replies):
            return f"NO REPLY {len(self.replies)}"
        reply = self.replies[number - 1]
        if reply.image is not None:
            follower.hand_image(reply.image)
        for at, entry in enumerate(reply.entries):
            follower.hand_entry(reply.since + 1 + at, entry)
        return f"AT {follower.image.epoch}"

"""Commands: their words in lines, and their objects in files."""
from __future__ import annotations

from dataclasses import dataclass
from typing import Dict, List, Optional, Sequence, Tuple

from trials.machine.image import KINDS
from trials.machine.terms import NODES, Replication, is_name, number_of, replication_of, token_of, tokens_of

# what stands behind the word of a command, and, but for `kind`, the keys of its object
FORMS: Dict[str, Tuple[str, ...]] = {
    "register": ("name", "dc", "rack"),
    "unregister": ("node",),
    "unsafe-join": ("node", "tokens"),
    "keyspace": ("name", "replication"),
    "drop-keyspace": ("name",),
    "prepare-join": ("node", "tokens"),
    "prepare-move": ("node", "token"),
    "prepare-leave": ("node",),
    "prepare-replace": ("node", "gone"),
    **{f"{step}-{kind}": ("node",) for step in ("start", "mid", "finish") for kind in KINDS},
    "cancel": ("node",),
}
LISTS = ("tokens", "replication")


@dataclass(frozen=True)
class Command:
    """A command. What its word doesn't use is left as it is here."""

    word: str
    name: str = ""
    dc: str = ""
    rack: str = ""
    node: int = 0
    gone: int = 0
    tokens: Tuple[int, ...] = ()
    replication: Optional[Replication] = None

    def object(self) -> Dict[str, object]:
        """Returns the command as an object of a file."""
        fields = {it: getattr(self, it) for it in FORMS[self.word] if it != "token"}
        if "token" in FORMS[self.word]:
            fields["token"] = self.tokens[0]
        if self.replication is not None:
            fields["replication"] = self.replication.text()
        if "tokens" in fields:
            fields["tokens"] = list(self.tokens)
        return {"kind": self.word, **fields}


def field_of(name: str, words: Sequence[str]) -> Optional[Dict[str, object]]:
    """Returns the field of a command that words stand for."""
    value: object = None
    if name == "replication":
        value = replication_of(words)
    elif name == "tokens":
        value = tokens_of(words)
    elif name == "token":
        token = token_of(words[0])
        return None if token is None else {"tokens": (token,)}
    elif name in ("node", "gone"):
        value = number_of(words[0], NODES)
    elif is_name(words[0]):
        value = words[0]
    return None if value is None else {name: value}


def command_of(words: Sequence[str]) -> Optional[Command]:
    """Returns the command that words stand for."""
    if not words or words[0] not in FORMS:
        return None
    form = FORMS[words[0]]
    has_list = form[-1] in LISTS
    if len(words) - 1 < len(form) or (not has_list and len(words) - 1 > len(form)):
        return None
    parts: List[Sequence[str]] = [[it] for it in words[1 : len(form) + 1]]
    if has_list:
        parts[-1] = words[len(form) :]
    fields: Dict[str, object] = {}
    for name, part in zip(form, parts):
        field = field_of(name, part)
        if field is None:
            return None
        fields.update(field)
    return Command(words[0], **fields)  # type: ignore[arg-type]

"""Names of Cassandra and names of scripts: a file beside the log keeps which is which.

Each line of the file is `KIND HERE THERE`, parted by tabs: KIND is node, datacenter, rack or keyspace, HERE the name in
the log, THERE the name in Cassandra. All names that were ever seen have a line, also where both are the same, so that no
two names of one kind ever get the same name. A line `# log CLUSTER CHECKSUM` tells of which log the names are.
"""
from __future__ import annotations

import hashlib
import ipaddress
import os
import re
from typing import Dict, Iterator, List, Optional, Tuple

from tools.errors import Refused
from tools.files import object_in
from tools.log import cluster_of
from tools.on_disk import is_there, open_log, place_of
from tools.terms import MOST_NAME, NAME
from tools.text import write_text

KINDS = ("node", "datacenter", "rack", "keyspace")
HEAD = "# kind\tname in the log\tname in Cassandra\n"
BELONGS = "# log"
ENDING = ".names"
DIGITS = (4, 8, 16, 24)  # of the SHA-256 of a name, at the end of the name in the log: more where fewer are taken
UNFIT = re.compile(r"[\x00-\x1f\x7f-\x9f\u2028\u2029\ud800-\udfff\ufffe\uffff]")
MOST_BYTES = 2**29


def address_of(name: str) -> Optional[str]:
    """Returns an address in its shortest form, None for any other name."""
    try:
        return str(ipaddress.ip_address(name.lstrip("/")))
    except ValueError:
        return None


def canonical(name: str) -> str:
    """Returns an address in its shortest form, and any other name as it is."""
    return address_of(name) or name


def mapped(name: str) -> str:
    """Returns a name of a script for any name: other characters become `-`."""
    return re.sub(r"[^A-Za-z0-9_.-]", "-", name)


def candidates(kind: str, there: str) -> Iterator[str]:
    """Gives the names that a name of Cassandra may have in a log, the best first."""
    if NAME.fullmatch(there) or (kind == "node" and address_of(there)):
        yield mapped(there)
    digits = hashlib.sha256(there.encode("utf-8", "surrogateescape")).hexdigest()
    for count in DIGITS:
        yield f"{mapped(there)[: MOST_NAME - 1 - count]}-{digits[:count]}"


class Names:
    """Which name of a script stands for which name of Cassandra, by kind."""

    def __init__(self) -> None:
        self.theirs: Dict[Tuple[str, str], str] = {}
        self.ours: Dict[Tuple[str, str], str] = {}

    def add(self, kind: str, here: str, there: str) -> None:
        """Adds a pair of names."""
        if self.theirs.get((kind, here), there) != there or self.ours.get((kind, there), here) != here:
            raise Refused(f"the {kind} {there} can't be {here}: another name is")
        self.theirs[kind, here], self.ours[kind, there] = there, here

    def add_seen(self, kind: str, here: str) -> None:
        """Adds a name that the log has, whose name in Cassandra isn't known to differ."""
        if (kind, here) not in self.theirs:
            self.theirs[kind, here] = here
            self.ours.setdefault((kind, here), here)

    def take(self, kind: str, name: str) -> str:
        """Returns the name in the log for a name of Cassandra, and chooses it if it has none yet."""
        there = canonical(name) if kind == "node" else name
        if (kind, there) in self.ours:
            return self.ours[kind, there]
        if UNFIT.search(there):
            raise Refused(f"the {kind} {there!r:.80} has a character that no name may have")
        for here in candidates(kind, there):
            if NAME.fullmatch(here) and not self.meanings(kind, here):
                self.add(kind, here, there)
                return here
        raise Refused(f"the {kind} {there} has no free name in the log")

    def meanings(self, kind: str, word: str) -> List[str]:
        """Returns the names in the log for which a word may stand, as a name of Cassandra or as one of the log."""
        there = canonical(word) if kind == "node" else word
        found = [self.ours[kind, there]] if (kind, there) in self.ours else []
        return found + [word] if (kind, word) in self.theirs and word not in found else found

    def known(self, kind: str, word: str) -> Optional[str]:
        """Returns the name in the log for a word, None where no name is so called; a word for two is refused."""
        found = self.meanings(kind, word)
        if len(found) > 1:
            both = " or ".join(f"{self.there(kind, it)} (in the log {it})" for it in found)
            raise Refused(f"the {kind} {word} may be {both}: say it by a name that only one has")
        return found[0] if found else None

    def choose(self, kind: str, said: str) -> str:
        """Returns the name in the log for a name of Cassandra or of the log, and chooses it if it has none yet."""
        here = self.known(kind, said)
        if here is None:
            return self.take(kind, said)
        there = self.there(kind, here)
        if said == here != there and here not in candidates(kind, there):
            raise Refused(f"the {kind} {said} may be {there}, whose name in the log it is, or a new one: rename one")
        return here

    def here(self, kind: str, name: str) -> str:
        """Returns the name in the log for a name of Cassandra, or a name of the log as it is."""
        return self.known(kind, name) or (canonical(name) if kind == "node" else name)

    def there(self, kind: str, name: str) -> str:
        """Returns the name of Cassandra for a name in the log."""
        return self.theirs.get((kind, name), name)

    def word(self, kind: str, name: str) -> str:
        """Returns the name of Cassandra for a name in the log, if scripts can have it as one word; else that name."""
        there = self.there(kind, name)
        is_word = len(there.split()) == 1 and "#" not in there and self.meanings(kind, there) == [name]
        return there if is_word else name

    def differing(self) -> List[Tuple[str, str, str]]:
        """Returns kind, name in the log and name in Cassandra where both differ."""
        return [it for it in self.pairs() if it[1] != it[2]]

    def pairs(self) -> List[Tuple[str, str, str]]:
        """Returns all pairs, by kind and name in the log."""
        found = [(kind, here, there) for (kind, there), here in self.ours.items()]
        return sorted(found, key=lambda it: (KINDS.index(it[0]), it[1]))

    def save(self, path: str, log: Optional[str] = None) -> None:
        """Writes the file, if it isn't as it is to be; the log is the one beside it, if none is given."""
        marks = marks_of(log or path[: -len(ENDING)])
        head = f"{BELONGS}\t{marks[0]}\t{marks[-1]}\n" if marks else ""
        said = HEAD + head + "".join("\t".join(it) + "\n" for it in self.pairs())
        if self.ours and said != read_if_there(path):
            write_text(path, said)


def path_of(log: str) -> str:
    """Returns where the names of a log file, or of a script, are kept."""
    return f"{log}{ENDING}"


def names_of(log: str) -> Names:
    """Returns the names of a log: those that are kept beside it, and those that it has itself."""
    names, path = Names(), path_of(log)
    said = read_if_there(path)
    for number, line in enumerate((said or "").split("\n"), 1):
        words = line.rstrip("\r").split("\t")
        if words[0] == BELONGS:
            check_log(log, words[1:], f"{path}:{number}")
        elif line.strip() and not line.startswith("#"):
            add_line(names, words, f"{path}:{number}")
    for kind, name in names_in(log):
        names.add_seen(kind, name)
    return names


def read_if_there(path: str) -> Optional[str]:
    """Returns the text of a file of names, None where there is none."""
    try:
        with open(path, encoding="utf-8", newline="\n") as it:
            return it.read()
    except FileNotFoundError:
        return None
    except OSError as why:
        raise Refused(f"{path} can't be read: {why.strerror}") from why
    except UnicodeDecodeError as why:
        raise Refused(f"{path} can't be read: it is no text in UTF-8") from why


def add_line(names: Names, words: List[str], where: str) -> None:
    """Adds the names in a line."""
    if len(words) != 3 or words[0] not in KINDS or not NAME.fullmatch(words[1]) or not words[2]:
        raise Refused(f"{where}: this is to be KIND, name in the log and name in Cassandra, parted by tabs")
    try:
        names.add(*words)
    except Refused as why:
        raise Refused(f"{where}: {why}") from why


# ---- The log of the names


def marks_of(log: str) -> List[str]:
    """Returns the cluster of a log and checksums of its first line, and of its first two; nothing without a header."""
    cluster = cluster_of(log) if has_lines(log) else None
    if cluster is None:
        return []
    with open_log(log) as it:
        first, second = it.readline(), it.readline()
    beginnings = [first, first + second] if second.endswith(b"\n") else [first]
    return [cluster, *(hashlib.sha256(it).hexdigest()[:16] for it in beginnings)]


def has_lines(log: str) -> bool:
    """Returns whether a log is there, and no device and no file that is too large."""
    return place_of(log) is not None and is_there(log) or os.path.isfile(log) and os.path.getsize(log) <= MOST_BYTES


def check_log(log: str, said: List[str], where: str) -> None:
    """Checks that names are those of a log, by the cluster and the checksum that their file says."""
    marks = marks_of(log)
    if len(said) == 2 and marks and said[0] == marks[0] and said[1] in marks[1:]:
        return
    cluster = said[0] if said else "another cluster"
    whose = f"{log} isn't that log" if marks else f"{log} isn't there, or has no header"
    raise Refused(
        f"{where}: these are the names of a log of {cluster}, and {whose}: move the names away, or take this line out "
        "if they are its names all the same"
    )


def names_in(log: str) -> Iterator[Tuple[str, str]]:
    """Gives the names that the entries of a log have, each with its kind."""
    if not has_lines(log):
        return
    try:
        with open_log(log) as lines:
            for line in lines:
                if b"register" in line or b"keyspace" in line or b"\\" in line:
                    yield from names_in_entry(object_in(line).get("command"))
    except OSError as why:
        raise Refused(f"{log}: {why.strerror}") from why


def names_in_entry(command: object) -> Iterator[Tuple[str, str]]:
    """Gives the names that a command has."""
    if not isinstance(command, dict):
        return
    if command.get("kind") == "register":
        found = [("node", command.get("name")), ("datacenter", command.get("dc")), ("rack", command.get("rack"))]
    elif command.get("kind") == "keyspace":
        factors = str(command.get("replication")).split(" ")[1:]
        found = [("keyspace", command.get("name")), *(("datacenter", it.rpartition(":")[0]) for it in factors)]
    else:
        return
    yield from ((kind, name) for kind, name in found if isinstance(name, str) and NAME.fullmatch(name))

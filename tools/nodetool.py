"""Reads what `nodetool ring` and `nodetool describering` print, of Cassandra 4 and 5."""
from __future__ import annotations

import re
from dataclasses import dataclass, field
from typing import Dict, List, Match, Tuple

from tools.endpoints import endpoint
from tools.errors import Refused
from tools.terms import TOKEN, is_token
from tools.text import fault

# (lines are matched with single spaces between words; a rack of 12 characters or more has no space behind it)
HEADING = re.compile(r"Address\S* Rack Status State Load Owns.*Token")
PASSED_OVER = re.compile(r"(=+|(Note|Warning):.*|To view status .*)?")
RING_ROW = re.compile(
    r"(?P<address>\S+) (?P<rack>\S+(?: \S+)*?) ?(?P<status>Up|Down|\?) (?P<state>Normal|Leaving|Joining|Moving|Shutdown|\?)"
    r" (?P<load>\?|[0-9.,]+ \S+) (?P<owns>\?|[0-9.,]+ ?%) (?P<token>\S.*)"
)
DETAILS = "EndpointDetails("


@dataclass
class RingNode:
    """A node of `nodetool ring`, with its tokens in the order of the lines; `line` is its first."""

    address: str
    dc: str
    rack: str
    status: str
    state: str
    line: int
    tokens: List[int] = field(default_factory=list)


@dataclass
class TokenRange:
    """A range of `nodetool describering`, open at the left, and its replicas with their datacenters and racks."""

    start: int
    end: int
    endpoints: Tuple[str, ...]
    places: Dict[str, Tuple[str, str]]
    line: int


# ---- nodetool ring


class RingReader:
    """Reads the lines of `nodetool ring` one after another."""

    def __init__(self, path: str) -> None:
        self.path = path
        self.nodes: Dict[str, RingNode] = {}
        self.owners: Dict[int, str] = {}
        self.said: Dict[str, str] = {}  # the node of each address, as the lines say it
        self.greatest: Dict[str, Tuple[int, int]] = {}  # of each datacenter: the token of its first line, and the line
        self.last: Dict[str, int] = {}  # of each datacenter: the token of its last line
        self.dc = ""

    def read(self, number: int, line: str) -> None:
        """Reads a line."""
        words = line.split()
        said = " ".join(words)
        row = RING_ROW.fullmatch(said)
        if words and words[0].startswith("Datacenter:") and line.strip() != "Datacenter:":
            self.begin(number, line.strip()[len("Datacenter:") :].strip())
        elif said.startswith("Status=Up/Down"):
            raise fault(self.path, number, "nodetool status printed this, and what nodetool ring prints is to be here")
        elif HEADING.fullmatch(said) or PASSED_OVER.fullmatch(said):
            pass
        elif not self.dc:
            raise fault(self.path, number, f"`Datacenter: NAME` is to come first, not `{words[0][:40]}`")
        elif len(words) == 1 and self.dc not in self.greatest:
            self.greatest[self.dc] = (self.token(number, said), number)
        elif row:
            self.add(number, row)
        else:
            raise fault(
                self.path,
                number,
                f"no line of nodetool ring: `{words[0][:40]} ..`; a node has Address, Rack, Status, State, Load, Owns and "
                "Token",
            )

    def begin(self, number: int, dc: str) -> None:
        """Begins the part of a datacenter."""
        if any(it.dc == dc for it in self.nodes.values()):
            raise fault(
                self.path, number, f"the datacenter {dc} comes a second time: are these the rings of two clusters?"
            )
        self.dc = dc

    def token(self, number: int, word: str) -> int:
        """Returns the token that a word is."""
        if not TOKEN.fullmatch(word):
            raise fault(
                self.path,
                number,
                f"`{word[:40]}` is no token of Murmur3Partitioner: other partitioners have no place here",
            )
        if not is_token(word):
            raise fault(
                self.path,
                number,
                f"the token {word[:40]} is out of range, -2^63 to 2^63 - 1: is the partitioner RandomPartitioner?",
            )
        return int(word)

    def add(self, number: int, row: Match[str]) -> None:
        """Adds the token of a row to its node."""
        token, address = self.token(number, row["token"]), endpoint(row["address"])
        if self.said.setdefault(address, row["address"]) != row["address"]:
            raise fault(
                self.path,
                number,
                f"{row['address']} and {self.said[address]} have one address, and nodes are told apart by addresses alone",
            )
        node = self.nodes.setdefault(
            address, RingNode(address, self.dc, row["rack"], row["status"], row["state"], number)
        )
        if (node.dc, node.rack) != (self.dc, row["rack"]):
            raise fault(
                self.path,
                number,
                f"{address} is in {self.dc} {row['rack']} here, and in {node.dc} {node.rack} in line {node.line}: two "
                "clusters?",
            )
        if token in self.owners:
            raise fault(self.path, number, f"the token {token} is {self.owners[token]}'s already: two clusters?")
        self.owners[token] = address
        self.last[self.dc] = token
        node.tokens.append(token)

    def check(self) -> None:
        """Checks that no rows are missing at the end of a datacenter: its greatest token stands above its rows."""
        if not self.nodes:
            raise Refused(f"{self.path}: no node of nodetool ring is there")
        for dc, (greatest, line) in self.greatest.items():
            if self.last.get(dc) != greatest:
                raise fault(
                    self.path, line, f"the last row of {dc} is to have this token, {greatest}: rows are missing"
                )


def read_ring(lines: List[str], path: str) -> List[RingNode]:
    """Returns the nodes of `nodetool ring`, by datacenter and address."""
    reader = RingReader(path)
    for number, line in enumerate(lines, 1):
        reader.read(number, line)
    reader.check()
    return sorted(reader.nodes.values(), key=lambda it: (it.dc, order_of(it.address)))


def order_of(address: str) -> Tuple[List[Tuple[int, str]], str]:
    """Returns a key by which addresses ascend as people count: 10.0.0.9 before 10.0.0.10."""
    return [(int(it), "") if it.isdigit() else (-1, it) for it in re.split(r"(\d+)", address)], address


# ---- nodetool describering


def read_describering(lines: List[str], path: str) -> List[TokenRange]:
    """Returns the ranges of `nodetool describering`."""
    ranges = []
    for number, line in enumerate(lines, 1):
        said = line.strip()
        if said.startswith("TokenRange("):
            ranges.append(read_range(number, said, path))
        elif said and not re.match(r"(Schema Version:|TokenRange:|Keyspace:)", said):
            raise fault(path, number, f"no line of nodetool describering: `{said.split()[0][:60]} ..`")
    if not ranges:
        raise Refused(f"{path}: no TokenRange of nodetool describering is there")
    return ranges


def read_range(number: int, said: str, path: str) -> TokenRange:
    """Returns the range in a line."""
    start, end = (re.search(rf"\b{it}_token:\s*([^,\s]+)", said) for it in ("start", "end"))
    endpoints = re.search(r"[(\s,]endpoints:\s*\[", said)
    closing = said.find("]", endpoints.end()) if endpoints else -1
    if not (start and end and endpoints and closing > 0 and said.endswith(")")):
        raise fault(
            path,
            number,
            "this is to be TokenRange(start_token:.., end_token:.., endpoints:[..], ..), and is cut or changed",
        )
    for word in (start[1], end[1]):
        if not is_token(word):
            raise fault(path, number, f"`{word[:40]}` is no token of Murmur3Partitioner")
    names = tuple(endpoint(it.strip()) for it in said[endpoints.end() : closing].split(",") if it.strip())
    return TokenRange(int(start[1]), int(end[1]), names, places_of(said), number)


def places_of(said: str) -> Dict[str, Tuple[str, str]]:
    """Returns the datacenters and racks in the details of endpoints, none if there are none or they can't be read."""
    places: Dict[str, Tuple[str, str]] = {}
    pieces = said.split(DETAILS)[1:]
    for i, piece in enumerate(pieces, 1):
        host, _, rest = piece.partition(",")
        rack = re.search(r",\s*rack:", rest)
        end = rest.rstrip(", ") if i < len(pieces) else re.sub(r"\s*\]\s*\)\Z", "", rest.rstrip())
        dc = rest[: rack.start()].strip() if rack else ""
        if not (rack and host.startswith("host:") and dc.startswith("datacenter:") and end.endswith(")")):
            return {}
        places[endpoint(host[len("host:") :].strip())] = (dc[len("datacenter:") :].strip(), end[rack.end() : -1].strip())
    return places

"""Lines of scripts, drawn so that each command and each refusal comes up."""
from __future__ import annotations

from typing import Callable, Dict, Iterable, Iterator, List, Sequence

from trials.kind import Case
from trials.machine.image import KINDS, STEPS, Image
from trials.machine.session import Session
from trials.machine.terms import GREATEST, LEAST

NEEDED = {
    "unregister": ("REGISTERED", "LEFT"),
    "unsafe-join": ("REGISTERED",),
    "prepare-join": ("REGISTERED",),
    "prepare-move": ("JOINED",),
    "prepare-leave": ("JOINED",),
    "prepare-replace": ("REGISTERED",),
}
NUMBERS = ("08", "+1", "-0", "1.0", "1e3", str(2**63), str(-(2**63) - 1), str(2**64), str(2**32), "", "x", "9" * 40)


class Drawn:
    """The lines of a case: its world is drawn first, and then line after line."""

    def __init__(self, case: Case, prefix: str = "n"):
        self.random, self.case, self.prefix = case.random, case, prefix
        draw = self.random
        self.dcs = ["dc1", "dc2", "dc3"][: draw.choice((1, 1, 2, 2, 3))]
        self.racks = ["r1", "r2", "r3", "r4"][: draw.choice((1, 2, 2, 3, 4))]
        self.most_nodes = draw.randint(3, 9)
        self.most_tokens = draw.choice((1, 1, 2, 3))
        self.grid = self.tokens_drawn()
        self.names = ["ks", "kt", "ku"][: draw.randint(1, 3)]
        self.most_rf = draw.choice((1, 2, 3, 3, 4))
        self.next_id, self.named = 1, 0
        self.sent: List[str] = []

    def tokens_drawn(self) -> List[int]:
        """Returns the tokens of the world."""
        draw = self.random
        if draw.random() < 0.5:
            tokens = [10 * it for it in range(-12, 13)]
        else:
            tokens = [draw.randint(LEAST, GREATEST) for _ in range(30)]
        return tokens + ([LEAST, GREATEST] if draw.random() < 0.3 else [])

    def lines(self, count: int) -> Callable[[Session], Iterable[bytes]]:
        """Returns so many lines, each drawn once the session has answered those before it."""

        def draws(session: Session) -> Iterator[bytes]:
            for _ in range(count):
                yield self.line(session)

        return draws

    def line(self, session: Session) -> bytes:
        """Draws a line."""
        draw = self.random.random()
        if draw < 0.68:
            line = self.commit(session)
        elif draw < 0.86:
            line = self.query(session)
        else:
            line = self.follower_line(session)
        if self.random.random() < 0.03:
            return self.broken(line)
        return line.encode()

    def commit(self, session: Session) -> str:
        """Draws a commit. Some have an id that was used, or are sent again."""
        draw = self.random.random()
        if self.sent and draw < 0.02:
            return self.respelled(self.random.choice(self.sent))
        number = self.next_id
        if draw < 0.04:
            number = self.random.randint(0, self.next_id)
        elif draw < 0.05:
            number = self.random.choice((2**64 - 1, self.random.getrandbits(64), 0))
        self.next_id += 1
        line = f"commit {number} {self.command(session.image)}"
        self.sent.append(line)
        return line

    def respelled(self, line: str) -> str:
        """Returns a line with its last words in another order: the same command, where they are a list."""
        words = line.split(" ")
        if len(words) > 5 and self.random.random() < 0.7:
            first = 4 if words[2] != "keyspace" else 5
            words[first:] = self.random.sample(words[first:], len(words) - first)
        return " ".join(words)

    def weights(self, image: Image) -> Dict[str, float]:
        """Returns how often each command is drawn in an image."""
        having = {node for _, node in image.tokens}
        idle, young = not image.movements, len(having) < min(4, self.most_nodes)
        return {
            "register": 6.0 if len(image.nodes) < self.most_nodes else 0.3,
            "unregister": 1.0,
            "unsafe-join": 8.0 if young and idle else 0.7,
            "keyspace": 3.0 if not image.keyspaces else 1.2,
            "drop-keyspace": 0.3,
            "prepare-join": 0.5 if young else 3.0,
            "prepare-move": 0.5 if young else 2.0,
            "prepare-leave": 0.5 if young else 2.5,
            "prepare-replace": 0.5 if young else 2.5,
            "step": 0.7 if idle else 9.0,
            "cancel": 0.3 if idle else 1.2,
        }

    def command(self, image: Image) -> str:
        """Draws a command."""
        weights = self.weights(image)
        word = self.random.choices(list(weights), list(weights.values()))[0]
        if word == "register":
            return self.register(image)
        if word == "keyspace":
            return f"keyspace {self.random.choice(self.names)} {self.replication()}"
        if word == "drop-keyspace":
            return f"drop-keyspace {self.random.choice(self.names)}"
        if word in ("step", "cancel"):
            return self.step(image, word)
        return self.on_node(image, word)

    def register(self, image: Image) -> str:
        """Draws a `register`."""
        self.named += 1
        name = f"{self.prefix}{self.named}"
        if image.nodes and self.random.random() < 0.08:
            name = self.random.choice(image.nodes).name
        return f"register {name} {self.random.choice(self.dcs)} {self.random.choice(self.racks)}"

    def replication(self) -> str:
        """Draws a replication."""
        if self.random.random() < 0.45:
            return f"simple {self.factor()}"
        dcs = self.random.sample([*self.dcs, "dc9"], self.random.randint(1, len(self.dcs)))
        return "topology " + " ".join(f"{it}:{self.factor()}" for it in dcs)

    def factor(self) -> int:
        """Draws a factor."""
        return self.random.randint(1, self.most_rf) if self.random.random() < 0.97 else 16

    def node(self, image: Image, states: Sequence[str]) -> int:
        """Draws a node, mostly one in these states."""
        fit = [it.id for it in image.nodes if image.state_of(it) in states]
        if fit and self.random.random() < 0.85:
            return self.random.choice(fit)
        return self.random.randint(0, image.next + 1)

    def tokens(self, image: Image, most: int) -> str:
        """Draws tokens, most of them new."""
        there = set(image.cuts)
        new = [it for it in self.grid if it not in there]
        if not new or self.random.random() < 0.07:
            new = self.grid
        chosen = self.random.sample(new, min(len(new), self.random.randint(1, most)))
        return " ".join(map(str, chosen))

    def on_node(self, image: Image, word: str) -> str:
        """Draws a command on a node that isn't a step."""
        node = self.node(image, NEEDED[word])
        if word == "prepare-replace":
            here = image.by_id.get(node)
            same = [it.id for it in image.nodes if here and (it.dc, it.rack) == (here.dc, here.rack)]
            gone = [it for it in same if image.tokens_of(it)]
            if gone and self.random.random() < 0.7:
                return f"{word} {node} {self.random.choice(gone)}"
            return f"{word} {node} {self.node(image, ('JOINED', 'JOINED', 'LEFT', 'REGISTERED'))}"
        if word in ("unsafe-join", "prepare-join"):
            return f"{word} {node} {self.tokens(image, self.most_tokens)}"
        return f"{word} {node} {self.tokens(image, 1)}" if word == "prepare-move" else f"{word} {node}"

    def step(self, image: Image, word: str) -> str:
        """Draws a step or a cancel, mostly of a movement and the step that comes next."""
        movement = self.random.choice(image.movements) if image.movements else None
        if movement is None or self.random.random() < 0.15:
            node = self.random.randint(0, image.next)
            step = f"{self.random.choice(list(STEPS))}-{self.random.choice(KINDS)}"
            return f"cancel {node}" if word == "cancel" else f"{step} {node}"
        if word == "cancel":
            self.case.cover(f"cancel of {movement.kind} at {movement.phase}")
            return f"cancel {movement.node}"
        fits = next(it for it, (phase, _) in STEPS.items() if phase == movement.phase)
        step = fits if self.random.random() < 0.9 else self.random.choice(list(STEPS))
        return f"{step}-{movement.kind} {movement.node}"

    def target(self, session: Session) -> str:
        """Draws what a query is about."""
        draw, last = self.random.random(), session.image.epoch
        if draw < 0.6:
            return f"@{last}"
        if draw < 0.85:
            return f"@{self.random.randint(0, last + 1)}"
        return self.follower(session)

    def keyspace_name(self) -> str:
        """Draws the name of a keyspace."""
        return self.random.choice(self.names) if self.random.random() < 0.95 else "none"

    def query(self, session: Session) -> str:
        """Draws a query."""
        target, draw = self.target(session), self.random.random()
        token = self.random.choice(self.grid) + self.random.choice((0, 0, 1, -1))
        token = min(GREATEST, max(LEAST, token))
        if draw < 0.35:
            return f"place {target} {self.keyspace_name()}"
        if draw < 0.5:
            return f"nodes {target}"
        if draw < 0.75:
            return f"quorum {target} {self.keyspace_name()} {token}"
        return f"local {target} {self.keyspace_name()} {self.random.choice([*self.dcs, 'dc9'])} {token}"

    def follower(self, session: Session) -> str:
        """Draws the name of a follower, mostly of one that is there."""
        if session.followers and self.random.random() < 0.9:
            return self.random.choice(list(session.followers))
        return self.random.choice(("f", "g", "h"))

    def follower_line(self, session: Session) -> str:
        """Draws a line on followers."""
        if not session.followers or self.random.random() < 0.08:
            return f"follower {self.random.choice(('f', 'g', 'h'))}"
        name, last = self.follower(session), session.image.epoch
        there = session.followers.get(name)
        at = there.image.epoch if there else 0
        word = self.random.choices(("deliver", "snapshot", "ask", "give"), (8, 1, 1.5, 2))[0]
        if word == "ask":
            return f"ask {name} {self.random.choice((1, 2, 5, 100, 1024))}"
        if word == "give":
            least = 0 if self.random.random() < 0.1 else 1
            return f"give {name} {self.random.randint(least, len(session.replies) + 1)}"
        near = at + self.random.choice((1, 1, 1, 2, 3, 0))
        far = self.random.randint(0, last + 1)
        return f"{word} {name} {near if word == 'deliver' and self.random.random() < 0.6 else far}"

    def broken(self, line: str) -> bytes:
        """Returns a line that is in no form, or nearly."""
        words = line.split(" ")
        at = self.random.randrange(len(words))
        way = self.random.randrange(8)
        if way == 0:
            del words[at]
        elif way == 1:
            words.insert(at, self.random.choice(words))
        elif way == 2:
            words[at] = self.random.choice(NUMBERS)
        elif way == 3:
            words[at] = "a" * self.random.choice((32, 33))
        elif way == 4:
            words[at] = words[at].swapcase()
        elif way == 5:
            return line.encode() + self.random.choice((b"\r", b" ", b"\t", b"\0", b"\xff", "é".encode()))
        elif way == 6:
            return b" ".join([*line.encode().split(b" "), b"1" * self.random.choice((16000, 17000))])
        else:
            return b""
        return " ".join(words).encode()

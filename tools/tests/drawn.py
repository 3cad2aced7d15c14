"""What tests share: logs that are drawn at random, with movements in flight."""
from tools.program import Session

KINDS = ("join", "join", "leave", "move", "replace")


def tokens(draw, count):
    """Returns some tokens, near one another or anywhere."""
    wide = draw.choice([60, 1000, 2**63])
    return sorted({draw.randrange(-wide, wide) for _ in range(count)})


def keyspaces(draw, datacenters):
    """Returns some replications."""
    factors = (" ".join(f"{dc}:{draw.randint(1, 3)}" for dc in datacenters) for _ in range(2))
    return [f"simple {draw.randint(1, 4)}", *(f"topology {it}" for it in factors)][: draw.randint(1, 3)]


def drawn_log(path, draw, steps=("start", "mid")):
    """Makes a log of a small cluster with some movements in flight, and returns how many there are."""
    datacenters = [f"dc{i}" for i in range(1, draw.randint(2, 4))]
    count, per = draw.randint(3, 8), draw.choice([1, 1, 2, 4])
    with Session([path, "drawn"]) as session:
        numbers = iter(range(1, 1000))

        def accepts(command):
            return not session.ask(f"commit {next(numbers)} {command}")[0].startswith("NO ")

        for i in range(1, count + 4):
            accepts(f"register n{i} {draw.choice(datacenters)} r{draw.randint(1, 3)}")
        for i in range(1, count + 1):
            accepts(f"unsafe-join {i} {' '.join(map(str, tokens(draw, per)))}")
        for i, it in enumerate(keyspaces(draw, datacenters)):
            accepts(f"keyspace k{i} {it}")
        moving = []
        for i in range(5):
            kind, node, new = draw.choice(KINDS), draw.randint(1, count), draw.randint(count + 1, count + 3)
            some = " ".join(map(str, tokens(draw, per)))
            words = {"join": f"{new} {some}", "leave": f"{node}", "move": f"{node} {some.split()[0]}", "replace": f"{new} {node}"}
            if accepts(f"prepare-{kind} {words[kind]}"):
                moving.append((kind, words[kind].split()[0]))
        for kind, node in moving:
            for step in steps[: draw.randint(0, len(steps))]:
                accepts(f"{step}-{kind} {node}")
    return len(moving)

"""Migrations of the kinds that operators have, by a seeded generator of its own: limits of disks, and moves between them."""

LIMITS = {
    "1": lambda draw, v: 1,
    "3": lambda draw, v: 3,
    "1 to 4": lambda draw, v: 1 + draw(4),
    "5 and 7": lambda draw, v: (5, 7)[v % 2],
    "1 and 8": lambda draw, v: (1, 8)[draw(2)],
    "2 to 9": lambda draw, v: 2 + draw(8),
    "1, 2, 4 and 16": lambda draw, v: (1, 2, 4, 16)[draw(4)],
}


def generator(seed):
    """A function that draws a number below n, the same ones for the same seed."""
    state = seed

    def draw(n):
        nonlocal state
        state = (state * 6364136223846793005 + 1442695040888963407) % 2**64
        return (state >> 33) % n

    return draw


def adding(draw, disks, moves):
    """New disks take over items of the old ones."""
    new = 1 + draw(max(1, disks // 3))
    old = disks - new
    return [(draw(old), old + draw(new)) for _ in range(moves)]


def removing(draw, disks, moves):
    """Some disks are emptied onto the others."""
    gone = 1 + draw(max(1, disks // 3))
    return [(draw(gone), gone + draw(disks - gone)) for _ in range(moves)]


def resizing(draw, disks, moves):
    """Disks get another share of the items: those that lose give to those that gain, by how much."""
    shares = [(1 + draw(9), 1 + draw(9)) for _ in range(disks)]
    loses = [v for v, (a, b) in enumerate(shares) for _ in range(a - b)] or [0]
    gains = [v for v, (a, b) in enumerate(shares) for _ in range(b - a) if v not in loses] or [disks - 1]
    return [(loses[draw(len(loses))], gains[draw(len(gains))]) for _ in range(moves)]


def ring(draw, disks, moves):
    """Each disk passes items on to the next one."""
    return [(v, (v + 1) % disks) for v in (draw(disks) for _ in range(moves))]


def swaps(draw, disks, moves):
    """Pairs of disks exchange items."""
    pairs = [(v, (v + 1 + draw(disks - 1)) % disks) for v in range(disks)]
    return [pair[:: (1, -1)[draw(2)]] for pair in (pairs[draw(disks)] for _ in range(moves))]


def skew(draw, disks, moves):
    """Few disks have most of the moves."""
    return [(draw(1 + draw(disks)), draw(1 + draw(1 + draw(disks)))) for _ in range(moves)]


def shuffle(draw, disks, moves):
    """Items go anywhere."""
    return [(draw(disks), draw(disks)) for _ in range(moves)]


KINDS = [adding, removing, resizing, ring, swaps, skew, shuffle]


def cases(count, seed=1):
    """So many cases: the kind, the limits' name, the disks' limits and the moves, none of which stays on its disk."""
    draw = generator(seed)
    sizes = [(3, 12, 300), (4, 40, 2000), (5, 120, 8000), (6, 300, 30000), (16, 1024, 65536)]
    names = list(LIMITS)
    for case in range(count):
        kind, name = KINDS[case % len(KINDS)], names[case // len(KINDS) % len(names)]
        least, most, moves = sizes[min(draw(8), draw(8), len(sizes) - 1)]
        disks = least + draw(most - least + 1)
        limits = [LIMITS[name](draw, v) for v in range(disks)]
        wanted = moves // 10 + draw(moves - moves // 10)
        yield kind.__name__, name, limits, [(a, b) for a, b in kind(draw, disks, wanted) if a != b]

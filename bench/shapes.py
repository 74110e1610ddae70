"""Migrations of shapes that are hard to plan in as few rounds as the bound says: each is a kind, a name, the limits of the disks, and
the moves, from disk to disk; and where it is known besides, how many rounds do.

A two-sided case has odd limits, and each move goes from one side to the other, either way. A tight case is made of as many
rounds as its bound says, in each of which each disk takes part as often as its limit allows: so that many rounds do. A multiple
of Petersen's graph has each of its fifteen edges so many times, with limit 1: an even multiple needs as many rounds as a disk has
moves, and an odd one needs one more, which no bound that is searched shows. A case of hubs has odd cliques, as dense as may be, each
of whose disks gives all or nearly all of the places that it has left to hubs of great limits: it is made round by round, and needs as
many. A case of parts is several cases beside one
another, which share no disk.
"""
import random


def two_sided(draw, disks, moves):
    limits = [draw.choice([1, 3, 5, 7]) for _ in range(disks)]
    left = disks // 2
    pairs = [(draw.randrange(left), draw.randrange(left, disks)) for _ in range(moves)]
    return limits, [pair if draw.random() < 0.5 else pair[::-1] for pair in pairs]


def full_round(draw, limits):
    """The moves of a round in which each disk takes part as often as its limit allows, but for one place at most."""
    while True:
        places = [disk for disk, limit in enumerate(limits) for _ in range(limit)]
        draw.shuffle(places)
        pairs = list(zip(places[::2], places[1::2]))
        if all(one != other for one, other in pairs):
            return pairs


def tight(draw, disks, rounds):
    limits = [draw.choice([1, 1, 2, 3]) for _ in range(disks)]
    moves = [pair for _ in range(rounds) for pair in full_round(draw, limits)]
    draw.shuffle(moves)
    return limits, moves


def petersen(draw, times):
    outer = [(v, (v + 1) % 5) for v in range(5)]
    spokes = [(v, v + 5) for v in range(5)]
    inner = [(v + 5, (v + 2) % 5 + 5) for v in range(5)]
    moves = (outer + spokes + inner) * times
    draw.shuffle(moves)
    return [1] * 10, moves


def clique(draw, first, size, limit, rounds, hubs, part):
    """The moves of an odd clique of the disks from `first` on, and between it and the hubs, which are the first disks: in each round
    one place of the clique is left, which goes to a hub, in so many parts of the rounds."""
    moves = []
    for _ in range(rounds):
        pairs = full_round(draw, [limit] * size)
        left = next(disk for disk in range(size) if sum(pair.count(disk) for pair in pairs) < limit)
        moves += [(first + one, first + other) for one, other in pairs]
        if draw.random() < part:
            moves.append((first + left, draw.randrange(hubs))[:: draw.choice([1, -1])])
    return moves


def beside_hubs(draw):
    hubs = [draw.choice([4, 8, 16, 32]) for _ in range(draw.randrange(1, 4))]
    part = draw.choice([1, 0.995, 0.98])
    kinds = [(draw.choice([3, 5, 7]), draw.choice([1, 3])) for _ in range(draw.randrange(1, 5))]
    most = 65536 // sum(size * limit // 2 + 1 for size, limit in kinds)
    rounds = round(30 * (most / 30) ** draw.random())
    limits, moves = list(hubs), []
    for size, limit in kinds:
        moves += clique(draw, len(limits), size, limit, rounds, len(hubs), part)
        limits += [limit] * size
    draw.shuffle(moves)
    return limits, moves, rounds


def side_by_side(parts):
    limits, moves = [], []
    for part_limits, part_moves in parts:
        first = len(limits)
        limits += part_limits
        moves += [(first + source, first + target) for source, target in part_moves]
    return limits, moves


def in_parts(draw, parts):
    return side_by_side([draw.choice([
        lambda: two_sided(draw, draw.randrange(2, 12), draw.randrange(1, 60)),
        lambda: tight(draw, draw.randrange(6, 12), draw.randrange(1, 4)),
        lambda: ([5] * 3, [(0, 1), (1, 2), (2, 0)] * draw.randrange(1, 12)),
    ])() for _ in range(parts)])


def cases(count):
    """So many cases of each kind, the same ones each time."""
    draw = random.Random(39)
    for number in range(count):
        disks = draw.randrange(6, 200)
        yield "two sides, odd limits", str(number), *two_sided(draw, disks, disks * draw.randrange(1, 60))
        yield "tight at 2", str(number), *tight(draw, draw.randrange(6, 200), 2)
        yield "tight at 3", str(number), *tight(draw, draw.randrange(6, 200), 3)
        yield "Petersen's graph, even", str(2 * number + 2), *petersen(draw, 2 * number + 2)
        yield "Petersen's graph, odd", str(2 * number + 1), *petersen(draw, 2 * number + 1)
        yield "parts", str(number), *in_parts(draw, draw.randrange(2, 12))
    draw = random.Random(3)
    for number in range(4 * count):
        yield "cliques beside hubs", str(number), *beside_hubs(draw)

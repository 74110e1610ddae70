"""First come, first served: how many rounds the same moves take without a plan, where each begins as soon as it can."""
import csv, os
from operators import generator


def rounds_of(limits, moves):
    """Each move, in the order in which they are given, goes into the first round in which both of its disks have a place: a disk
    takes part in at most its limit of moves of a round, or where it has two, in at most so many that leave it and so many that reach
    it. The answer is the number of the last round with a move."""
    full = {side: 0 for side in limits}  # the rounds in which a disk, or a side of it, has no place left, as the bits of a number
    taken = {side: {} for side in limits}  # how many moves of a round count there
    last = 0
    for source, target in moves:
        ends = (source, target) if source in limits else ((source, "out"), (target, "in"))
        blocked = full[ends[0]] | full[ends[1]]
        at = (~blocked & (blocked + 1)).bit_length()  # the lowest bit that is 0
        last = at if at > last else last
        for side in ends:
            taken[side][at] = count = taken[side].get(at, 0) + 1
            if count == limits[side]:
                full[side] |= 1 << (at - 1)
    return last


def shuffled(moves, seed=1):
    """The moves in a random order, the same one for the same seed."""
    moves, draw = list(moves), generator(seed)
    for at in range(len(moves) - 1, 0, -1):
        other = draw(at + 1)
        moves[at], moves[other] = moves[other], moves[at]
    return moves


def of_files(folder):
    """The rounds for disks.csv, now.csv and next.csv of a folder: in the order of the now file, and in a random order."""

    def rows(name):
        with open(os.path.join(folder, name), newline="") as file:
            return list(csv.reader(file))[1:]

    target = dict(rows("next.csv"))
    moves = [(disk, target[item]) for item, disk, _ in rows("now.csv") if disk != target[item]]
    limits = {}
    for disk, *most, _ in rows("disks.csv"):
        limits |= {disk: int(most[0])} if len(most) == 1 else {(disk, "out"): int(most[0]), (disk, "in"): int(most[1])}
    return of_moves(limits, moves)


def of_moves(limits, moves):
    """The rounds in the order in which the moves are given, and in a random order."""
    return rounds_of(limits, moves), rounds_of(limits, shuffled(moves))

"""`drain` beside the wish to empty a device: over made volume groups its plan has no more rounds than that of what
`from-lvm --empty` deals out."""
import random, re
from tight import group_of, segment
from rooms import Room, same, that

UNIT = 16


def made_group(room, draw):
    """A group of three to six devices, each in use from its beginning on by volumes of some units; gives the words for
    their limits."""
    sizes = {it: UNIT * draw.randrange(4, 13) for it in "abcdef"[:draw.randrange(3, 7)]}
    segments = []
    for device, size in sizes.items():
        at, end = 0, size if device == "a" else UNIT * draw.randrange(size // UNIT)
        while at < end:
            last = min(end, at + UNIT * draw.randrange(1, 4)) - 1
            segments.append(segment(f"v{len(segments)}", f"/dev/{device}:{at}-{last}"))
            at = last + 1
    group_of(room, sizes, segments)
    return " ".join(f"--limit {it}={draw.randrange(1, 5)}" for it in sizes)


def rounds_of(room, name, next_):
    """The rounds of the plan for these next disks, which is judged."""
    text = room.good(name, f"./migrate plan disks.csv now.csv {next_} plan.txt cert.txt")
    room.good(name, f"./migrate check disks.csv now.csv {next_} plan.txt cert.txt")
    return int(re.search(r"^rounds (\d+)$", text, re.M)[1])


def emptied_groups():
    draw, compared, fewer = random.Random(20), 0, 0
    for case in range(24):
        name = f"emptied group {case}"
        with Room() as room:
            limits = made_group(room, draw)
            ran = room.run(f"contrib/from-lvm lvs.json pvs.json --empty a --unit {UNIT} {limits}")
            if ran.returncode != 0:
                that(f"{name}: there is no room", "no room" in ran.stderr, ran)
                continue
            by_wish = rounds_of(room, name, "next.csv")
            printed = room.good(name, "./migrate drain disks.csv now.csv a drained.csv")
            by_drain = rounds_of(room, name, "drained.csv")
            that(f"{name}: a is emptied", ",a\n" not in room.read("drained.csv"))
            same(f"{name}: the rounds of its plan", printed.split("\n")[0], f"rounds {by_drain}")
            that(f"{name}: no more rounds", by_drain <= by_wish, (by_drain, by_wish))
            compared, fewer = compared + 1, fewer + (by_drain < by_wish)
    that("groups that can be emptied, and some in fewer rounds", compared >= 8 and fewer >= 1, (compared, fewer))


CASES = (emptied_groups,)

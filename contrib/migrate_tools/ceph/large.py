"""Plans with more disks or items than `migrate` takes, where each disk has two limits. Their rounds are made here, as
few as can be (König 1916), and the program looks at them in parts: each has some of the disks with all their moves, and
stands for all other disks by a few that are never full. So in each part it looks whether these disks keep their limits
in every round, and whether each item gets to where it is to be; and in that of the busiest disk, whether fewer rounds
do."""
import collections, hashlib, os
from collections.abc import Hashable, Mapping, Sequence
from ..command import Wrong, read_text, save_all
from ..disks import Disks, Limits, Side, Split, disk_rows, limits_by_side, loads_of
from ..plans import MOST_DISKS, MOST_ITEMS, MOST_LIMIT, Plan, Shift, plan_text, table
from ..whole import FILES, NOW, Planner

Rounds = Sequence[Sequence[Shift]]


def coloured(pairs: Sequence[tuple[Hashable, Hashable]], count: int) -> list[int]:
    """A colour below `count` for each edge between two sides, so that no two of one colour have an end in common. No
    node has more than `count` edges. An edge whose ends have no free colour in common gets one that is free at the
    first: along the path from the second whose edges have this one and one that is free there, the two are swapped."""
    nodes: dict[Hashable, int] = {}
    ends = [(nodes.setdefault(one, len(nodes)), nodes.setdefault(two, len(nodes))) for one, two in pairs]
    at, free = [[-1] * count for _ in nodes], [(1 << count) - 1] * len(nodes)
    colours = [0] * len(ends)
    for number, (one, two) in enumerate(ends):
        bit = free[one] & free[two]
        if not bit:
            bits = [free[it] & -free[it] for it in (one, two)]
            first, sum_ = bits[0].bit_length() - 1, bits[0].bit_length() + bits[1].bit_length() - 2
            node, colour, path = two, first, list[int]()
            while (edge := at[node][colour]) >= 0:
                path.append(edge)
                node, colour = sum(ends[edge]) - node, sum_ - colour
            for edge in path:
                for end in ends[edge]:
                    at[end][colours[edge]] = -1
            for edge in path:
                colours[edge] = sum_ - colours[edge]
                for end in ends[edge]:
                    at[end][colours[edge]] = edge
            free[two] ^= sum(bits)
            free[node] ^= sum(bits)
            bit = bits[0]
        bit &= -bit
        colours[number] = colour = bit.bit_length() - 1
        at[one][colour] = at[two][colour] = number
        free[one] ^= bit
        free[two] ^= bit
    return colours


def ends_of(shifts: Sequence[Shift]) -> dict[str, list[str]]:
    """The disks that the moves leave, and those that they reach."""
    return {"out": [it.source for it in shifts], "in": [it.target for it in shifts]}


def rounds_of(shifts: Sequence[Shift], disks: Disks) -> list[list[Shift]]:
    """As few rounds as can be: a side of a disk stands for as many nodes as its limit, among which its moves are
    dealt."""
    limits, count, nodes = limits_by_side(disks), 0, list[list[int]]()
    numbers = {it: number * MOST_LIMIT for number, it in enumerate(limits)}
    for way, ends in ends_of(shifts).items():
        most, first = ({it: its[Side(it, way)] for it in {*ends}} for its in (limits, numbers))
        used, its = dict.fromkeys(most, 0), list[int]()
        for it in ends:
            used[it] += 1
            its.append(first[it] + used[it] % most[it])
        nodes.append(its)
        count = max([count, *(-(-load // most[it]) for it, load in used.items())])
    found: list[list[Shift]] = [[] for _ in range(count)]
    for shift, colour in zip(shifts, coloured([*zip(nodes[0], nodes[1])], count)):
        found[colour].append(shift)
    return found


def parts_of(shifts: Sequence[Shift]) -> dict[str, int]:
    """The part of each disk, from 1 on."""
    loads = collections.Counter(it for ends in ends_of(shifts).values() for it in ends)
    found, part, load, disks = dict[str, int](), 1, 0, 0
    for disk, more in sorted(loads.items()):
        if more > MOST_ITEMS:
            raise Wrong(f"{disk} has {more} moves, more than {MOST_ITEMS}")
        if load + more > MOST_ITEMS or disks == MOST_DISKS - 100:
            part, load, disks = part + 1, 0, 0
        found[disk], load, disks = part, load + more, disks + 1
    return found


def texts_of(rounds: Rounds, disks: Disks, parts: Mapping[str, int], part: int) -> list[str]:
    """The files of a part, of these moves, and its last layout. In a round other disks are as many as they have to be
    to be never full."""
    limits: dict[str, Limits | None] = {it: disks[it].limits for it, number in parts.items() if number == part}
    slots: dict[str, int] = collections.defaultdict(int)
    now, next_, last, lines = [NOW], ["item,disk"], [NOW], list[str]()
    for at, round_ in enumerate(filter(None, rounds), 1):
        lines.append(f"round {at} {len(round_)}")
        out = in_ = 0
        for item, source, _, target, _ in round_:
            if source not in limits:
                source, out = f"other-{out // MOST_LIMIT}", out + 1
            if target not in limits:
                target, in_ = f"other-{in_ // MOST_LIMIT}", in_ + 1
            one, two = slots[source], slots[target]
            now.append(f"{item},{source},{one}")
            next_.append(f"{item},{target}")
            last.append(f"{item},{target},{two}")
            lines.append(f"{item} {source} {one} {target} {two}")
            slots[source], slots[target] = one + 1, two + 1
    limits |= dict.fromkeys((it for it in slots if it not in limits), Split(MOST_LIMIT, MOST_LIMIT))
    plan_ = ["migration-plan 1", f"rounds {at}", *lines, "end"]
    return [table(disk_rows(limits, {it: max(1, slots[it]) for it in limits}, "")),
            *("\n".join([*it, ""]) for it in (now, next_, plan_, last))]


def plan(planner: Planner, sub: str, shifts: Sequence[Shift], disks: Disks) -> tuple[Plan, str]:
    """Makes plan.txt and cert.txt of a folder. Gives the plan, and the verdict."""
    rounds, limits = rounds_of(shifts, disks), limits_by_side(disks)
    made = [id(it) for round_ in rounds for it in round_]
    if len(made) != len(shifts) or {*made} != {*map(id, shifts)}:
        raise Wrong("the rounds that were made do not have all moves")
    _, busiest, _ = max((-(-count // limits[Side(*side)]), *side) for side, count in loads_of(shifts, disks).items())
    verdict, parts = "", parts_of(shifts)
    split: dict[int, list[list[Shift]]] = {it: [[] for _ in rounds] for it in sorted({*parts.values()})}
    for at, round_ in enumerate(rounds):
        for it in round_:
            for part in {parts[it.source], parts[it.target]}:
                split[part][at].append(it)
    for part, those in split.items():
        (*texts, last), folder = texts_of(those, disks, parts, part), os.path.join(sub, f"part-{part}")
        os.makedirs(planner.at(folder), exist_ok=True)
        save_all({planner.at(f"{folder}/{name}"): text for name, text in zip(FILES, texts)})
        if planner.migrate("after", *FILES, sub=folder) != last:
            raise Wrong("does not lead to next.csv", planner.at(f"{folder}/plan.txt"))
        if parts[busiest] == part:
            planner.migrate("plan", *FILES[:3], "least.txt", "cert.txt", sub=folder)
            verdict = planner.checked(folder)
            save_all({planner.at(os.path.join(sub, "cert.txt")): read_text(planner.at(f"{folder}/cert.txt"))})
    text = plan_text(rounds)
    save_all({planner.at(os.path.join(sub, "plan.txt")): text})
    return Plan(rounds, hashlib.sha256(text.encode()).digest()), f"{verdict}, looked at in {len(split)} parts"

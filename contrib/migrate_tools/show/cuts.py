"""Sets of disks that need more rounds than is known: what the transfers inside a set take of its limits, searched by
minimum odd cuts.

A transfer inside a set takes a place at two of its disks, so a round has at most half of the sum of its limits, rounded
down (Shannon 1949; Kari, Kim and Russell 2011). A set whose sum is even never needs more rounds than some disk of it.
One whose sum is odd needs more than r rounds exactly where what its disks could do in r rounds and do not do inside it
is less than r. That is a cut: between two disks it counts their transfers, and between a disk and the node REST what
the disk could do besides. So the sets that count are the cuts of less than r with an odd number of odd limits on either
side (Padberg and Rao 1982); how they are found is Rizzi's (2003)."""
import time
from collections.abc import Iterator, Mapping, MutableMapping, Sequence

REST = None
Node = str | None  # a disk, or REST
Graph = MutableMapping[Node, MutableMapping[Node, int]]
Limits = Mapping[Node, int]
Pair = tuple[Node, Node]
Members = dict[Node, set[Node]]  # the nodes that one stands for


class OutOfTime(Exception):
    pass


def inside(near: Graph, disks: set[Node]) -> int:
    """The transfers inside a set of disks."""
    return sum(count for it in disks for other, count in near[it].items() if other in disks) // 2


def rounds_for(near: Graph, limits: Limits, disks: set[Node]) -> int:
    """The rounds that a set of disks needs for the transfers inside it."""
    return -(-inside(near, disks) // (sum(limits[it] for it in disks) // 2))


def peeled(near: Graph, limits: Limits, rounds: int) -> set[Node]:
    """The disks without those that are in no set that needs more rounds: each of these could do as many more transfers
    in the rounds."""
    loads = {it: sum(others.values()) for it, others in near.items()}
    idle = [it for it in near if loads[it] <= rounds * (limits[it] - 1)]
    left = set(near) - set(idle)
    while idle:
        for other, count in near[idle.pop()].items():
            loads[other] -= count
            if other in left and loads[other] <= rounds * (limits[other] - 1):
                left.discard(other)
                idle.append(other)
    return left


def parts(near: Graph, disks: set[Node]) -> Iterator[set[Node]]:
    """These disks by which of them are joined by transfers among them."""
    left = set(disks)
    while left:
        part = [left.pop()]
        for it in part:
            more = near[it].keys() & left
            left -= more
            part += more
        yield set(part)


def merge(near: Graph, members: Members, odd: set[Node], one: Node, other: Node, least: float,
          ready: list[Pair]) -> None:
    """Makes one node of two; `ready` gets the pairs that no cut of less than `least` parts."""
    for it, count in near.pop(other).items():
        del near[it][other]
        if it != one:
            near[one][it] = near[it][one] = near[one].get(it, 0) + count
            if near[one][it] >= least:
                ready.append((one, it))
    members[one] |= members.pop(other)
    if other in odd:
        odd ^= {one, other}


def merge_all(near: Graph, members: Members, odd: set[Node], least: float, ready: list[Pair]) -> None:
    while ready:
        one, other = ready.pop()
        if one in near and other in near:
            merge(near, members, odd, one, other, least, ready)


def cut_between(near: Graph, one: Node, other: Node, least: int) -> set[Node] | None:
    """The side of `one` of a least cut between two nodes; none where each cut is `least` or more."""
    def push(path: Sequence[Node]) -> int:
        most = min(free[a][b] for a, b in zip(path, path[1:]))
        for a, b in zip(path, path[1:]):
            free[a][b] -= most
            free[b][a] += most
        return most

    between = [it for it in near[one] if it in near[other]]
    if sum(min(near[one][it], near[other][it]) for it in between) + near[one].get(other, 0) >= least:
        return None
    free, flow = {it: dict(others) for it, others in near.items()}, 0
    for it in between:
        flow += push([one, it, other])
    if other in near[one]:
        flow += push([one, other])
    while flow < least:
        came, line = {one: one}, [one]
        for it in line:
            more = [at for at, count in free[it].items() if count and at not in came]
            came.update(dict.fromkeys(more, it))
            if other in came:
                break
            line += more
        if other not in came:
            return set(came)
        path = [other]
        while path[-1] != one:
            path.append(came[path[-1]])
        flow += push(path[::-1])
    return None


def shrunk(near: Graph, members: Members, odd: set[Node], side: set[Node]) -> tuple[Graph, Members, set[Node]]:
    """The graph with one node in place of those of a side."""
    members, odd, (first, *others) = {it: set(members[it]) for it in near}, set(odd), side
    near = {it: dict(others_) for it, others_ in near.items()}
    for it in others:
        merge(near, members, odd, first, it, float("inf"), [])
    return near, members, odd


def odd_cut(near: Graph, odd: set[Node], least: int, end: float) -> set[Node] | None:
    """The nodes on one side of a cut of less than `least` with an odd number of odd nodes on it; none where there is no
    such cut."""
    waiting: list[tuple[Graph, Members, set[Node]]] = [(near, {it: {it} for it in near}, odd)]
    while waiting:
        near, members, odd = waiting.pop()
        ready = [(one, other) for one, others in near.items() for other, count in others.items() if count >= least]
        merge_all(near, members, odd, least, ready)
        while odd:
            if time.monotonic() > end:
                raise OutOfTime
            one, other, *_ = odd
            side = cut_between(near, one, other, least)
            if side is None:
                merge_all(near, members, odd, least, [(one, other)])
            elif len(side & odd) % 2:
                return set().union(*(members[it] for it in side))
            else:
                waiting += [shrunk(near, members, odd, side), shrunk(near, members, odd, set(near) - side)]
                break
    return None


def needs_more(near: Graph, limits: Limits, rounds: int, end: float) -> set[Node] | None:
    """A set of disks that needs more rounds than these, which are no fewer than each disk needs alone; none where there
    is no such set."""
    for part in parts(near, peeled(near, limits, rounds)):
        if sum(limits[it] for it in part) % 2 and rounds_for(near, limits, part) > rounds:
            return part
        graph: Graph = {it: {other: count for other, count in near[it].items() if other in part} for it in part}
        graph[REST] = {it: rounds * limits[it] - sum(graph[it].values()) for it in part}
        for it in part:
            graph[it][REST] = graph[REST][it]
        odd = {it for it in part if limits[it] % 2}
        found = odd_cut(graph, odd ^ {REST} if len(odd) % 2 else odd, rounds, end)
        if found:
            return part - found if REST in found else found
    return None

"""Which transfers of a plan may begin where none waits for whole rounds: as soon as the limits of their disks let
them."""
import collections, heapq
from collections.abc import Callable, Iterable, Mapping, Sequence
from .disks import Disks, Side, limits_by_side, sides_of
from .plans import Shift


def needed(shifts: Iterable[Shift]) -> list[set[int]]:
    """For each transfer those before it that must be done first: the last of its item, and the last that leaves its
    target."""
    by_item: dict[str, int] = {}
    by_slot: dict[tuple[str, int], int] = {}
    found = []
    for at, it in enumerate(shifts):
        before = by_item.get(it.item), by_slot.get((it.target, it.target_slot))
        found.append({number for number in before if number is not None})
        by_item[it.item] = by_slot[it.source, it.source_slot] = at
    return found


class Waiting:
    """The transfers that have not begun. Each waits until those that it needs are done, and then, as long as a limit at
    which it counts has no place free, for such a limit. Of those that wait for the same one the first of the plan
    begins first."""

    def __init__(self, shifts: Sequence[Shift], disks: Disks, left: Iterable[int]) -> None:
        """`left` are the numbers of the transfers that are not done yet, from the first one of the plan on."""
        self.free, self.sides = limits_by_side(disks), {at: sorted(sides_of(shifts[at], disks)) for at in left}
        self.needs = {at: needs & self.sides.keys() for at, needs in enumerate(needed(shifts)) if at in self.sides}
        self.needed_by: dict[int, list[int]] = collections.defaultdict(list)
        self.waiting: dict[Side, list[int]] = collections.defaultdict(list)
        for at, needs in self.needs.items():
            for it in needs:
                self.needed_by[it].append(at)

    def begins(self, at: int) -> bool:
        """Takes its places, or lets it wait for one of them. Answers whether it begins."""
        full = next((it for it in self.sides[at] if not self.free[it]), None)
        if full:
            heapq.heappush(self.waiting[full], at)
            return False
        for it in self.sides[at]:
            self.free[it] -= 1
        return True

    def first(self) -> list[int]:
        """The transfers that begin at first."""
        return [at for at, needs in self.needs.items() if not needs and self.begins(at)]

    def done(self, at: int) -> list[int]:
        """The transfers that begin once this one is done."""
        found = []
        for it in self.sides[at]:
            self.free[it] += 1
        for side in self.sides[at]:
            while self.free[side] and self.waiting[side]:
                other = heapq.heappop(self.waiting[side])
                found += [other] * self.begins(other)
        for other in self.needed_by[at]:
            self.needs[other].discard(at)
            found += [other] * (not self.needs[other] and self.begins(other))
        return found


def simulated(waiting: Waiting, running: Mapping[int, float], lasts: Callable[[int], float]) -> dict[int, float]:
    """When each of these ends, in order of the time, where those of `running` have begun already."""
    ready = [it for it in waiting.needs if not waiting.needs[it]]
    begun = [it for it in sorted(ready, key=lambda it: it not in running) if waiting.begins(it)]
    ends, heap = {}, [(lasts(it), it) for it in begun]
    heapq.heapify(heap)
    while heap:
        now, at = heapq.heappop(heap)
        ends[at] = now
        for it in waiting.done(at):
            heapq.heappush(heap, (now + lasts(it), it))
    return ends

"""The wish that each disk is filled to the same part, within so many hundredths, with as few items moved as can be
found."""
import bisect, collections, math, random
from collections.abc import Callable, Iterable, Iterator, Mapping, Sequence
from dataclasses import dataclass, field
from fractions import Fraction
from .items import Items, May, Next, Refused, Slots, Spot, bulk_of

TRIES, MOST_STEPS = 60, 30000


def percent_of(text: str) -> Fraction:
    """A number of hundredths above 0, as 5 or 2.5."""
    found = Fraction(text)
    if not 0 < found <= 100:
        raise ValueError(text)
    return found


@dataclass
class Balance:
    """What is wished: how far the part of a disk that is in use may be from that of all disks together. `sizes` are the
    disks' sizes, `other` what is in use there by no item, `rooms` what may come to each, and `fits` says whether an
    item may go to a disk at all. `least` says, once it is carried out, how many items at least have to move."""
    percent: Fraction
    sizes: Mapping[str, int]
    other: Mapping[str, int] = field(default_factory=dict)
    rooms: Mapping[str, int] = field(default_factory=dict)
    fits: Callable[[Spot, str], bool] = lambda at, disk: True
    least: int = 0

    def carry_out(self, items: Items, next_: dict[Spot, str], loose: Sequence[Spot], open_: Sequence[str], slots: Slots,
                  apart: May) -> None:
        """Gives each loose item, and each that has to move, its next disk. `apart` says what is kept apart."""
        bulk = {at: bulk_of(parts) for at, parts in items.items()}
        used = {disk: self.other.get(disk, 0) for disk in open_}
        for at in (it for it in items if next_.get(it) in used):
            used[next_[at]] += bulk[at]
        part = Fraction(sum(used.values()) + sum(bulk[at] for at in loose), sum(self.sizes[it] for it in open_) or 1)
        low = {it: math.ceil((part - self.percent / 100) * self.sizes[it]) for it in open_}
        high = {it: math.floor((part + self.percent / 100) * self.sizes[it]) for it in open_}
        free = [at for at in items if at not in loose and bulk[at] and next_.get(at, at[0]) == at[0] in open_
                and not any(it.fixed for it in items[at])]
        self.least = len(loose) or fewest(free, bulk, used, low, high)
        best: Next | None = None
        why: Refused | None = None
        for seed in range(max(1, min(TRIES, 200000 // len(items)))):
            try:
                draw = random.Random(seed) if seed else None
                found = Try(self, bulk, dict(used), low, high, slots, items, next_, apart, draw).run(free, loose)
            except Refused as refused:
                why = why or refused
                continue
            if best is None or len(found) < len(best):
                best = found
            if len(best) <= self.least:
                break
        # none is known to be a best one: each is tried, as far as it goes
        if not loose and (best is None or len(best) > self.least):
            first = Try(self, bulk, dict(used), low, high, slots, items, next_, apart, None)
            below = len(best) if best is not None else len(free) + 1
            best = Search(first, free, below).run(self.least) or best
        if best is None:
            raise why or Refused("no way was tried")
        next_.update(best)


class Try:
    """One way to go: the disk that is most too full gives to the one that is least full, and then the least full one
    takes."""

    def __init__(self, wish: Balance, bulk: Mapping[Spot, int], used: dict[str, int], low: Mapping[str, int],
                 high: Mapping[str, int], slots: Slots, items: Items, next_: Next, apart: May,
                 draw: random.Random | None) -> None:
        self.wish, self.bulk, self.used, self.low, self.high, self.apart = wish, bulk, used, low, high, apart
        self.draw, self.rooms = draw, dict(wish.rooms)
        self.next: dict[Spot, str] = {}
        self.slots = {it: slots[it] for it in used}
        for at in items:
            for disk in {at[0], next_.get(at, at[0])} & used.keys():
                self.slots[disk] -= 1
        self.there: dict[str, list[Spot]] = collections.defaultdict(list)

    def shuffled(self, disks: Iterable[str], key: Callable[[str], float]) -> list[str]:
        """These disks in order, with a few exchanged where this is a further try."""
        found = sorted(disks, key=key)
        for at in range(len(found) - 1) if self.draw else ():
            if self.draw and self.draw.random() < 0.3:
                found[at : at + 2] = reversed(found[at : at + 2])
        return found

    def may_come(self, at: Spot, disk: str) -> bool:
        has_room = self.slots[disk] > 0 and self.bulk[at] <= self.rooms.get(disk, self.bulk[at])
        return has_room and self.wish.fits(at, disk) and self.apart(at, disk, self.next)

    def move(self, at: Spot, disk: str, sign: int = 1) -> None:
        """Takes an item from its disk to this one, or back. A loose item is on none."""
        bulk = sign * self.bulk[at]
        if sign > 0:
            self.next[at] = disk
        else:
            del self.next[at]
        self.used[disk] += bulk
        self.slots[disk] -= sign
        if disk in self.rooms:
            self.rooms[disk] -= bulk

    def go(self, at: Spot, disk: str) -> None:
        self.move(at, disk)
        if at in self.there[at[0]]:
            self.there[at[0]].remove(at)
            self.used[at[0]] -= self.bulk[at]

    def pick(self, source: str, target: str, need: int) -> Spot | None:
        """The least item that is enough, else the greatest that is not too much."""
        most = min(self.high[target] - self.used[target], self.used[source] - self.low[source])
        those = self.there[source]
        end = bisect.bisect_right(those, most, key=self.bulk.__getitem__)
        at = bisect.bisect_left(those, need, hi=end, key=self.bulk.__getitem__)
        near = *those[at:end][:50], *reversed(those[max(0, at - 50):at])
        return next((it for it in near if self.may_come(it, target)), None)

    def run(self, free: Iterable[Spot], loose: Iterable[Spot]) -> Next:
        for at in sorted(loose, key=lambda it: -self.bulk[it]):
            order = self.shuffled(self.used, lambda it: (self.used[it] + self.bulk[at]) / self.wish.sizes[it])
            to = next((it for it in order if self.may_come(at, it)), None)
            if to is None:
                raise Refused(f"there is no room for what is on {at[0]}")
            self.go(at, to)
        for at in sorted(free, key=self.bulk.__getitem__):
            self.there[at[0]].append(at)
        while True:
            over = [it for it in self.used if self.used[it] > self.high[it]]
            under = [it for it in self.used if self.used[it] < self.low[it]]
            if not over and not under:
                return self.next
            for source, target, need in self.ways(over, under):
                if (picked := self.pick(source, target, need)) is not None:
                    self.go(picked, target)
                    break
            else:
                disk = (over or under)[0]
                used, low, high = (100 * it[disk] / self.wish.sizes[disk] for it in (self.used, self.low, self.high))
                raise Refused(f"not each disk can be filled to the same part within {float(self.wish.percent):g} %: "
                              f"{disk} would be at {used:.1f} %, where {low:.1f} to {high:.1f} % are asked for")

    def ways(self, over: Sequence[str], under: Sequence[str]) -> Iterator[tuple[str, str, int]]:
        """From where to where something may go, and how much: from what is too full, and else to what is not full
        enough."""
        top = max(self.high.values())
        for source in self.shuffled(over, lambda it: self.high[it] - self.used[it]):
            others = [it for it in self.used if it != source]
            for target in self.shuffled(others, lambda it: min(0, self.used[it] - self.low[it])
                                        or self.used[it] - self.high[it] + top):
                yield source, target, self.used[source] - self.high[source]
        for target in self.shuffled(() if over else under, lambda it: self.used[it] - self.low[it]):
            others = [it for it in self.used if it != target]
            for source in self.shuffled(others, lambda it: self.low[it] - self.used[it]):
                yield source, target, self.low[target] - self.used[target]


def fewest(free: Iterable[Spot], bulk: Mapping[Spot, int], used: Mapping[str, int], low: Mapping[str, int],
           high: Mapping[str, int]) -> int:
    """How many of these items at least have to move: the greatest ones do most."""
    def count(weights: Iterable[int], wanted: int) -> int:
        number = 0
        for it in weights:
            if wanted <= 0:
                break
            wanted, number = wanted - it, number + 1
        return number

    by_disk = collections.defaultdict(list)
    for at in sorted(free, key=lambda it: -bulk[it]):
        by_disk[at[0]].append(bulk[at])
    leave, come = sum(count(by_disk[disk], used[disk] - high[disk]) for disk in high), 0
    for disk in (it for it in low if used[it] < low[it]):
        others = sorted((it for other, those in by_disk.items() if other != disk for it in those[:64]), reverse=True)
        come += count(others, low[disk] - used[disk])
    return max(leave, come)


class Search:
    """All ways to move so many items: where a disk is too full one of its own leaves, and where one is not full enough
    one comes."""

    def __init__(self, start: Try, free: Iterable[Spot], below: int) -> None:
        self.start, self.free, self.below, self.steps = start, sorted(free, key=lambda it: -start.bulk[it]), below, 0

    def run(self, least: int) -> Next | None:
        """The next disks of as few items as can be, fewer than `below`; None where none are found."""
        for count in range(least, self.below):
            if self.find(count):
                return self.start.next
            if self.steps > MOST_STEPS:
                break
        return None

    def find(self, count: int) -> bool:
        it = self.start
        over = next((disk for disk in it.used if it.used[disk] > it.high[disk]), None)
        under = next((disk for disk in it.used if it.used[disk] < it.low[disk]), None)
        if over is None and under is None:
            return True
        self.steps += 1
        if count == 0 or self.steps > MOST_STEPS:
            return False
        seen = set()
        for at in (at for at in self.free if over in (None, at[0])):
            for target in it.used if under is None or over is not None else [under]:
                kind = at[0], target, it.bulk[at]
                if at not in it.next and target != at[0] and kind not in seen and it.may_come(at, target):
                    seen.add(kind)
                    it.move(at, target)
                    it.used[at[0]] -= it.bulk[at]
                    if self.find(count - 1):
                        return True
                    it.used[at[0]] += it.bulk[at]
                    it.move(at, target, -1)
        return False

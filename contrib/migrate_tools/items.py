"""Items of which it is wished where they go: known by their disk and slot, each with its parts. Some parts are kept
apart."""
import collections
from collections.abc import Callable, Hashable, Iterable, Mapping, Sequence
from dataclasses import dataclass
from .command import Wrong


@dataclass(frozen=True)
class Part:
    """A part of an item, or all of it: `bulk` extents of a volume on a device, from `first` on, or a path with its
    bytes. Why it is not moved, empty where it may be. LVM keeps the legs of a group, which are those of a raid or a
    mirror, or the stripes of a segment, on devices of their own; elsewhere the group is None."""
    volume: str
    bulk: int
    device: str = ""
    first: int = 0
    fixed: str = ""
    group: Hashable = None
    leg: int = 0

    @property
    def last(self) -> int:
        return self.first + self.bulk - 1


Spot = tuple[str, int]
Items = Mapping[Spot, Sequence[Part]]
Next = Mapping[Spot, str]  # the next disk of each item
Slots = Mapping[str, int]


class Refused(Wrong):
    """A wish that cannot be carried out, at least with this unit."""


def who(parts: Sequence[Part]) -> str:
    names = " and ".join(dict.fromkeys(it.volume for it in parts))
    if not parts[0].device:
        return names
    return f"extents {parts[0].first} to {parts[-1].last} of {parts[0].device} hold {names}"


def bulk_of(parts: Iterable[Part]) -> int:
    return sum(it.bulk for it in parts)


Move = tuple[Hashable, int, str, str]  # a group, a leg, its device and the next one


def meeting(moves: Sequence[Move]) -> Move | None:
    """The first of these moves that goes where another leg of its group is or is to be.

    Before and after are taken together, so that no order of the moves puts two legs on one device in between."""
    legs = collections.defaultdict(set)
    for group, leg, now, next_ in moves:
        legs[group, now].add(leg)
        legs[group, next_].add(leg)
    return next((it for it in moves if it[2] != it[3] and legs[it[0], it[3]] - {it[1]}), None)


def legs_of(items: Items, next_: Next) -> dict[tuple[Hashable, str], set[int]]:
    """The legs of each group that are on each disk, or are to be there."""
    legs = collections.defaultdict(set)
    for at, parts in items.items():
        for it in (it for it in parts if it.group):
            for disk in {at[0], next_.get(at, at[0])}:
                legs[it.group, disk].add(it.leg)
    return legs


May = Callable[[Spot, str, Next], bool]


def keeps_apart(items: Items, next_: Next) -> May:
    """Says whether an item may go to a disk, with what else goes: where no other leg of what it has is, or is to be."""
    legs = legs_of(items, next_)

    def may(at: Spot, disk: str, more: Next) -> bool:
        parts = {(it.group, it.leg) for it in items[at] if it.group}
        comes = [(it.group, it.leg) for other, to in more.items() if parts and to == disk for it in items[other]]
        return all(legs[group, disk] <= {leg} and not any(one == group and it != leg for one, it in comes)
                   for group, leg in parts)

    return may

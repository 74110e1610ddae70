"""How full disks get while a plan is carried out."""
from collections.abc import Iterable, Mapping, Sequence
from dataclasses import dataclass
from typing import TypeVar

Name = TypeVar("Name", str, int)


@dataclass(frozen=True)
class Room:
    """The bytes of a disk, and how many of them are used."""
    size: int
    used: int

    def part(self) -> float:
        return self.used / max(1, self.size)


def fullest(rounds: Iterable[Sequence[tuple[str, Name, Name]]], sizes: Mapping[str, int],
            rooms: Mapping[Name, Room]) -> dict[Name, tuple[float, int]]:
    """By disk that gets something the greatest part of it that is used, and the first round in which it is. A round has
    items, each with the disks that it leaves and reaches: what comes counts from its round on, what goes up to its
    own."""
    used, most = {disk: it.used for disk, it in rooms.items()}, dict[Name, tuple[int, int]]()
    for at, moves in enumerate(rounds, 1):
        for item, _, target in moves:
            used[target] += sizes[item]
        for _, _, target in moves:
            if used[target] > most.get(target, (0, 0))[0]:
                most[target] = used[target], at
        for item, source, _ in moves:
            used[source] -= sizes[item]
    return {disk: (bytes_ / rooms[disk].size, at) for disk, (bytes_, at) in most.items() if rooms[disk].size}

"""Disks files, with one limit for each disk or with two: reading and writing them, and at which limits a transfer
counts."""
import collections
from collections.abc import Callable, Iterable, Mapping, Sequence
from dataclasses import dataclass
from typing import NamedTuple, TypeVar
from .command import Wrong
from .plans import MOST_LIMIT, MOST_SLOTS, NAME, Plan, Shift, number, read_rows


class Joint(NamedTuple):
    """The most transfers of a disk at once, outgoing and incoming together."""
    limit: int = 1

    def by_way(self) -> dict[str, int]:
        return {"": self.limit}


class Split(NamedTuple):
    """The most transfers that leave a disk at once, and the most that reach it, where these don't share a path."""
    outgoing: int = 1
    incoming: int = 1

    def by_way(self) -> dict[str, int]:
        return {"out": self.outgoing, "in": self.incoming}


T = TypeVar("T")
Limits = Joint | Split
HEADERS: dict[type[Joint] | type[Split], str] = {Joint: "disk,limit,slots", Split: "disk,out,in,slots"}


@dataclass(frozen=True)
class Disk:
    """The limits of a disk, joint or split as those of all disks, and its slots."""
    limits: Limits
    slots: int


Disks = Mapping[str, Disk]


class Side(NamedTuple):
    """What has a limit: a disk as a whole, or what leaves it (`out`), or what reaches it (`in`)."""
    disk: str
    way: str = ""

    def __str__(self) -> str:
        return f"{self.disk} {self.way}".rstrip()


def limits_of(texts: Sequence[str], where: str) -> Limits:
    """The limits of these numbers: joint where it is one, split where there are two."""
    if len(texts) not in (1, 2):
        raise Wrong(f"{where}: '{','.join(texts)}' is neither a limit N nor two, OUT,IN")
    found = [number(it, 1, MOST_LIMIT, where) for it in texts]
    return Joint(*found) if len(found) == 1 else Split(*found)


def given_to(disks: Iterable[str], words: Iterable[str], what: str, find: Callable[[str], str],
             read: Callable[[str], T]) -> dict[str, T | None]:
    """What each disk has by words [DISK=]VALUE: its own, or else what is given without a disk, or else None. `find`
    gives the disk that a word means."""
    found: dict[str | None, T] = {}
    for disk, is_, text in (word.rpartition("=") for word in words):
        key = find(disk) if is_ else None
        if key in found:
            raise Wrong(f"{what} is given twice for {key or 'all disks'}")
        found[key] = read(text)
    return {disk: found.get(disk, found.get(None)) for disk in disks}


def read_disks(path: str, plan: Plan | None = None) -> dict[str, Disk]:
    """The disks of a disks file by their names, in its order. Its header says whether their limits are joint or
    split. Refuses a plan with disks that it does not have."""
    disks: dict[str, Disk] = {}
    for at, (name, *limits, slots) in read_rows(path, *HEADERS.values()):
        if not NAME.fullmatch(name) or name in disks:
            raise Wrong(f"'{name}' is no name or is listed twice", path, at)
        where = f"{path} row {at}"
        disks[name] = Disk(limits_of(limits, where), number(slots, 1, MOST_SLOTS, where))
    for at, shifts in enumerate(plan.rounds if plan else (), 1):
        for name in (end for it in shifts for end in (it.source, it.target) if end not in disks):
            raise Wrong(f"round {at}: {path} has no disk {name}; it is of another plan")
    return disks


def disk_rows(limits: Mapping[str, Limits | None], slots: Mapping[str, int], word: str) -> list[list[object]]:
    """The rows of a disks file, its header first. A disk to which `word` gives no limits, None, has 1."""
    first = {type(it): name for name, it in reversed(limits.items()) if it}
    if len(first) == 2:
        raise Wrong(f"{word}: {first[Joint]} has one limit and {first[Split]} has two; write OUT,IN for each disk, or "
                    "for none")
    kind = next(iter(first), Joint)
    return [[*HEADERS[kind].split(",")], *([name, *(it or kind()), slots[name]] for name, it in limits.items())]


def limits_by_side(disks: Disks) -> dict[Side, int]:
    return {Side(name, way): limit for name, disk in disks.items() for way, limit in disk.limits.by_way().items()}


def is_split(disks: Disks) -> bool:
    return any(isinstance(it.limits, Split) for it in disks.values())


def loads_of(shifts: Sequence[Shift], disks: Disks) -> Mapping[tuple[str, str], int]:
    """How many of these count at each side."""
    out, in_ = ("out", "in") if is_split(disks) else ("", "")
    targets = [(it.target, in_) for it in shifts if out or it.source != it.target]
    return collections.Counter(targets + [(it.source, out) for it in shifts])


def sides_of(shift: Shift, disks: Disks) -> set[Side]:
    """Where a transfer counts: at both its disks, once where they are one; with split limits at what leaves and what is
    reached."""
    out, in_ = ("out", "in") if isinstance(disks[shift.source].limits, Split) else ("", "")
    return {Side(shift.source, out), Side(shift.target, in_)}

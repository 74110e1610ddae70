"""The pvmoves of a plan for from-lvm's files: what to-lvm writes down, and summary counts. A spot is a device and a
slot of it."""
import collections, re
from collections.abc import Sequence
from dataclasses import dataclass, field
from ..command import Wrong
from ..items import Spot, meeting
from ..plans import Plan, Shift, read_rows

# LVM keeps these endings for itself, so that no other volume has such a name.
LEG = re.compile(r"(.+)_([rm]image|rmeta)_([0-9]+)", re.ASCII)
PART = re.compile(r"(.+)_([rm]image_[0-9]+|rmeta_[0-9]+|mlog|tdata|tmeta)", re.ASCII)
EXTENTS = re.compile(r"([^ :]+):([0-9]+)-([0-9]+)", re.ASCII)


@dataclass(frozen=True)
class Pvmove:
    """Extents `first` to `last` of a volume, a part of an item, go from a device to a device, to `first` + `by` and on.
    Where the item is moved again in a later round `later` has each device to which it goes then, and by how much."""
    item: str
    volume: str
    source: str
    first: int
    last: int
    target: str
    by: int
    later: list[tuple[str, int]]

    def extents(self) -> int:
        return self.last - self.first + 1


@dataclass
class Names:
    """The table of from-lvm: the unit, the devices by the disks' names with their sizes, the parts by the items' names,
    each a volume with its first and last extent, and the stripes that items have: item, what is striped, number."""
    path: str
    unit: int = 0
    devices: dict[str, tuple[str, int]] = field(default_factory=dict)
    items: dict[str, tuple[str, list[tuple[str, int, int]]]] = field(default_factory=dict)
    stripes: list[tuple[str, str, int]] = field(default_factory=list)

    def slot(self, item: str) -> int:
        """The slot at which an item is now."""
        return self.items[item][1][0][1] // self.unit

    def spots(self, it: Shift) -> tuple[Spot, Spot]:
        """The spots between which a shift goes."""
        return (self.devices[it.source][0], it.source_slot), (self.devices[it.target][0], it.target_slot)


def leg_of(volume: str) -> tuple[str, int] | None:
    """The raid or mirror of which this is a leg's data or metadata, and the leg's number. None where it is no leg."""
    found = LEG.fullmatch(volume)
    return (found[1], int(found[3])) if found else None


def top_of(volume: str) -> str:
    """The volume that a part of a raid, a mirror or a pool belongs to in the end."""
    while found := PART.fullmatch(volume):
        volume = found[1]
    return volume


def options(volume: str) -> list[str]:
    """How pvmove is told to move extents of this volume. Of a raid or a mirror LVM by itself puts nothing where any
    part of the same one is, not even of the same leg, and it does not find a leg's metadata by their own name
    (2.03.16)."""
    found = LEG.fullmatch(volume)
    if not found:
        return ["-n", volume]
    return ["--alloc", "anywhere", "-n", found[1] if found[2] == "rmeta" else volume]


def read_names(path: str) -> Names:
    names = Names(path)
    for at, (kind, name, device, extents) in read_rows(path, "kind,name,device,extents"):
        if kind == "unit" and name.isdecimal() and int(name) > 0:
            names.unit = int(name)
        elif kind == "disk" and extents.isdecimal():
            names.devices[name] = device, int(extents)
        elif kind == "stripe" and device and extents.isdecimal():
            names.stripes.append((name, device, int(extents)))
        elif kind == "item" and all(parts := [EXTENTS.fullmatch(it) for it in extents.split(" ")]):
            names.items[name] = device, [(it[1], int(it[2]), int(it[3])) for it in parts if it]
        else:
            raise Wrong(f"row {at} is none that from-lvm writes", path)
    if not names.unit:
        raise Wrong("names no unit", path)
    return names


Way = tuple[Spot, Spot, list[Spot]]  # where an item is, where it goes, and where it goes in later rounds


def follow(plan: Plan, names: Names) -> list[dict[str, Way]]:
    """For each round the way of each item in it. Each shift begins where its item then is, and goes to a slot that is
    free then."""
    for at, shifts in enumerate(plan.rounds, 1):
        for it in shifts:
            if it.item not in names.items or not {it.source, it.target} <= names.devices.keys():
                raise Wrong(f"round {at}: {names.path} does not name {it.item}, {it.source} or {it.target}; it is of "
                            "another plan")
    where = {item: (device, names.slot(item)) for item, (device, _) in names.items.items()}
    there, rounds = {spot: item for item, spot in where.items()}, []
    ahead: dict[str, collections.deque[Spot]] = collections.defaultdict(collections.deque)
    for it in plan.shifts():
        ahead[it.item].append(names.spots(it)[1])
    more = "; `migrate check`, or `after-tight`, tells more"
    for at, shifts in enumerate(plan.rounds, 1):
        ways: dict[str, Way] = {}
        coming: dict[Spot, str] = {}
        for it in shifts:
            (spot, to), parts, size = names.spots(it), names.items[it.item][1], names.devices[it.target][1]
            if where[it.item] != spot or it.item in ways:
                raise Wrong(f"round {at}: {it.item} is not in slot {it.source_slot} of {it.source}{more}")
            if parts[-1][2] + (it.target_slot - names.slot(it.item)) * names.unit >= size:
                raise Wrong(f"round {at}: {it.item} does not fit at the end of {to[0]}, which has {size} extents")
            if other := there.get(to) or coming.get(to):
                raise Wrong(f"round {at}: {it.item} goes to slot {it.target_slot} of {it.target}, and {other} is there "
                            f"or comes there{more}")
            ahead[it.item].popleft()
            ways[it.item], coming[to] = (spot, to, list(ahead[it.item])), it.item
        check_parked(at, ways, there, coming, names)
        rounds.append(ways)
        for item, (spot, to, _) in ways.items():
            del there[spot]
            where[item], there[to] = to, item
    return rounds


def check_parked(at: int, ways: dict[str, Way], there: dict[Spot, str], coming: dict[Spot, str], names: Names) -> None:
    """Once an item is at a place of a later round, which is seen by its volume, what it had to do before is done. So no
    other item with a part of this volume may be at such a place when the item is parked."""
    for item, (_, _, later) in ways.items():
        for spot in later:
            for other in {there.get(spot, item), coming.get(spot, item)} - {item}:
                if same := {it[0] for it in names.items[item][1]} & {it[0] for it in names.items[other][1]}:
                    raise Wrong(f"round {at}: {item} is parked, and goes on to slot {spot[1]} of {spot[0]}, where "
                                f"{other} of the same volume {min(same)} is: nobody could tell by it how far the plan "
                                "is, so this one is not carried out. Take another --unit, or move that volume by a "
                                "plan of its own")


def check_apart(rounds: Sequence[dict[str, Way]], names: Names) -> None:
    """The legs of a raid or a mirror, and stripes, stay apart, also while they are parked."""
    legs = [(*leg, item) for item, (_, parts) in names.items.items()
            for volume, _, _ in parts if (leg := leg_of(volume))]
    legs += [(group, number, item) for item, group, number in names.stripes if item in names.items]
    moves = collections.defaultdict(list)
    for ways in rounds:
        for item, (spot, to, _) in ways.items():
            moves[item].append((spot[0], to[0]))
    spots = [((group, leg, *ends), item) for group, leg, item in legs
             for ends in moves.get(item) or [(names.items[item][0],) * 2]]
    if found := meeting([move for move, _ in spots]):
        item = next(item for move, item in spots if move == found)
        raise Wrong(f"{item} goes to {found[3]}, where another leg of {found[0]} is or is to be: a disk that fails "
                    "would take both")


def read_pvmoves(plan: Plan, path: str) -> tuple[int, list[list[Pvmove]]]:
    """The unit, and for each round its pvmoves."""
    names = read_names(path)
    rounds, unit = follow(plan, names), names.unit
    check_apart(rounds, names)
    return unit, [[Pvmove(item, volume, source, first + by, last + by, target, (to - slot) * unit,
                          [(device, (other - slot) * unit) for device, other in later])
                   for item, ((source, slot), (target, to), later) in ways.items()
                   for by in [(slot - names.slot(item)) * unit]
                   for volume, first, last in names.items[item][1]] for ways in rounds]


def apart(moves: Sequence[Pvmove]) -> list[list[Pvmove]]:
    """The pvmoves of a round in steps, so that none shares its source or its volume with another one of its step."""
    steps: list[tuple[set[tuple[str, str]], list[Pvmove]]] = []
    for move in moves:
        ends = {("volume", move.volume), ("source", move.source)}
        for used, those in steps:
            if not ends & used:
                used.update(ends)
                those.append(move)
                break
        else:
            steps.append((ends, [move]))
    return [those for _, those in steps]


def steps_of(plan: Plan, path: str) -> list[int]:
    """The extents that the steps of each round move one after the other, the longest pvmove of each."""
    return [sum(max(it.extents() for it in step) for step in apart(moves)) for moves in read_pvmoves(plan, path)[1]]

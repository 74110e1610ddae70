"""The bytes of placement groups, from what `ceph pg dump --format json` prints; and how full OSDs get by a plan."""
import json, re
from collections.abc import Iterable, Mapping
from typing import Any
from .. import fullness
from ..command import Wrong, read_text
from ..fullness import Room
from ..plans import Plan, Shift
from .groups import Group

CHUNK = 4096  # a stripe has so many bytes of each data shard, unless the profile says otherwise
WIDTH = re.compile(r"^pool ([0-9]+) '.*' (replicated|erasure) .*?\bsize ([0-9]+) .*\bstripe_width ([0-9]+)",
                   re.ASCII | re.M)


def data_shards(dump: str) -> dict[str, int]:
    """By pool how many of a group's shards hold its data: 1 where each copy is whole."""
    found = {}
    for name, kind, size, width in WIDTH.findall(read_text(dump)):
        found[name] = int(width) // CHUNK if kind == "erasure" else 1
        if not 0 < found[name] <= int(size):
            raise Wrong(f"{dump}: pool {name} has the stripe_width {width}, from which the number of its data shards "
                        "is not told")
    return found


def rows_of(whole: Any) -> Any:
    """The rows of what `ceph pg dump` prints, also of a part of it."""
    return whole.get("pg_map", whole)["pg_stats"]


def bytes_of(rows: Any) -> dict[str, int]:
    """By placement group."""
    return {it["pgid"]: max(0, int(it["stat_sum"]["num_bytes"])) for it in rows}


def read_bytes(path: str) -> dict[str, int]:
    try:
        return bytes_of(rows_of(json.loads(read_text(path))))
    except (ValueError, LookupError, TypeError, AttributeError):
        raise Wrong("does not hold what `ceph pg dump --format json` prints", path) from None


def sizes_of(bytes_: Mapping[str, int], path: str, dump: str, groups: Mapping[str, Group],
             shifts: Iterable[Shift]) -> dict[str, int]:
    """The bytes of each item of these, by those of the groups, which a file has. A shard has its part of the
    group's."""
    shards, found, wanted = data_shards(dump), {}, {it.item for it in shifts}
    for name, group in groups.items():
        if name not in bytes_:
            raise Wrong(f"has no placement group {name}", path)
        if not (count := shards.get(name.partition(".")[0])):
            raise Wrong(f"has no stripe_width for the pool of placement group {name}", dump)
        found.update({it.name: -(-bytes_[name] // count) for it in group.items if it.name in wanted})
    return found


def rooms_of(df: Any) -> dict[int, Room]:
    """By `ceph osd df`."""
    return {it["id"]: Room(it["kb"] * 1024, it["kb_used"] * 1024) for it in df["nodes"] if it["id"] >= 0}


def fullest(plan: Plan, groups: Mapping[str, Group], sizes: Mapping[str, int],
            rooms: Mapping[int, Room]) -> dict[int, tuple[float, int]]:
    """By OSD, as of disks: a copy goes from the OSD that gives it up, wherever it counts."""
    ends = {it.name: it for group in groups.values() for it in group.items}
    return fullness.fullest(([ends[it.item] for it in shifts] for shifts in plan.rounds), sizes, rooms)


def check_rooms(found: Mapping[int, tuple[float, int]], nearfull: float) -> None:
    """Refuses a plan in which an OSD gets something past this part."""
    over = sorted((at, osd, part) for osd, (part, at) in found.items() if part > nearfull)
    if over:
        at, osd, part = over[0]
        more = f", and {len(over) - 1} more" if len(over) > 1 else ""
        raise Wrong(f"osd.{osd} would be filled to {part:.1%} in round {at}{more}, and from {nearfull:.0%} on it is "
                    "nearly full (ceph osd dump: nearfull_ratio), so nothing is planned")

"""What from-lvm reads: the reports of lvs and pvs, and the extents that are in use."""
import collections, dataclasses, itertools, json, re
from collections.abc import Hashable, Iterator, Mapping, Sequence
from ..command import Wrong, read_text
from ..items import Part, Spot
from ..plans import MOST_ITEMS, MOST_SLOTS, NAME
from .pvmoves import leg_of, top_of

LVS = "lvs -a --segments --reportformat json -o vg_name,lv_name,lv_role,segtype,seg_pe_ranges VG"
PVS = "pvs --reportformat json --units b -o vg_name,pv_name,pv_attr,pv_pe_count,vg_extent_size -S vg_name=VG"
# What pvmove can move alone. A volume with a snapshot, a snapshot, and the parts of a cache have other roles.
ROLES = {"public", "private,raid,image", "private,raid,metadata", "private,mirror,image", "private,mirror,log",
         "private,thin,pool,data", "private,thin,pool,metadata", "private,pool,spare"}

FIXED = "a snapshot, what has one, a part of a cache and the like are not planned; move it by LVM itself first"

Row = dict[str, str]


def report(path: str, key: str, command: str) -> list[Row]:
    """The rows of a report of LVM in JSON, with the columns that the command asks for."""
    columns = command.partition("-o ")[2].partition(" ")[0].split(",")
    try:
        rows = [dict(row) for part in json.loads(read_text(path))["report"] for row in part[key]]
    except (ValueError, KeyError, TypeError):
        raise Wrong(f"does not hold what this prints: {command}", path) from None
    lacks = [it for it in columns if it != "vg_extent_size" and any(it not in row for row in rows)]
    if lacks:
        columns_ = f"column{'s' * (len(lacks) > 1)} {', '.join(lacks)}"
        raise Wrong(f"lacks the {columns_}; this prints all that is needed: {command}", path)
    if not rows:
        raise Wrong(f"lists nothing; is the volume group's name right in: {command}", path)
    return rows


def read_reports(lvs: str, pvs: str) -> tuple[list[Row], list[Row]]:
    """The rows of both reports, which are of one volume group. What is in no volume group is left out."""
    segments, devices = report(lvs, "seg", LVS), [row for row in report(pvs, "pv", PVS) if row["vg_name"]]
    if not devices:
        raise Wrong(f"has no physical volume that is in a volume group: {PVS}", pvs)
    names = [sorted({row["vg_name"] for row in rows}) for rows in (segments, devices)]
    for path, found, command in (lvs, names[0], LVS), (pvs, names[1], PVS):
        if len(found) != 1:
            raise Wrong(f"has the volume groups {' and '.join(found)}, and a plan is for one: {command}", path)
    if names[0] != names[1]:
        raise Wrong(f"is of the volume group {names[0][0]}, and {pvs} of {names[1][0]}: make both for one", lvs)
    return segments, devices


def count(text: object, path: str, what: str) -> int:
    """A number of a report, which in one of its two forms is a text."""
    if not re.fullmatch(r"[0-9]{1,12}", str(text), re.ASCII):
        raise Wrong(f"{path}: '{text}' is no number of extents of {what}")
    return int(str(text))


def read_sizes(rows: Sequence[Row], path: str, segments: Sequence[Row]) -> tuple[dict[str, int], set[str]]:
    """The number of extents of each physical volume, and those to which LVM lets nothing come. LVM moves nothing while
    one is away."""
    sizes: dict[str, int] = {}
    closed = set()
    for name, attr in ((row["pv_name"], row["pv_attr"]) for row in rows):
        if not re.fullmatch(r"[au-][x-][m-].*", attr):
            raise Wrong(f"{path}: {name} has the pv_attr '{attr}', which is that of no sound physical volume")
        if attr[2] == "m":
            there = dict.fromkeys(row["lv_name"].strip("[]") for row in segments
                                  if f"{name}:" in str(row["seg_pe_ranges"]))
            raise Wrong(f"{path}: the physical volume {name} is missing (pv_attr {attr}); on it "
                        f"{', '.join(there) or 'no volume'} has extents. LVM moves nothing until it is back, or is "
                        "given up by vgreduce --removemissing")
        if attr[1] == "x":
            raise Wrong(f"{path}: {name} is exported (pv_attr {attr}): call vgimport first")
        if attr[0] != "a":
            closed.add(name)
    for row in rows:
        name = row["pv_name"]
        if name in sizes:
            raise Wrong(f"has {name} twice", path)
        sizes[name] = count(row["pv_pe_count"], path, name)
    sizes = {device: size for device, size in sizes.items() if size}
    if not sizes:
        raise Wrong("has no physical volume with extents", path)
    return sizes, closed


def extent_of(rows: Sequence[Row], path: str) -> int | None:
    """The bytes of an extent; None where the report was made without them."""
    sizes = {str(row["vg_extent_size"]) for row in rows if "vg_extent_size" in row}
    if not sizes:
        return None
    found = re.fullmatch(r"([1-9][0-9]{0,14})B?", min(sizes), re.ASCII)
    if len(sizes) > 1 or not found:
        raise Wrong(f"{path}: '{min(sizes)}' is no number of bytes of an extent; this prints it: {PVS}")
    return int(found[1])


def ranges_of(volume: str, text: str | list[str], path: str) -> Iterator[tuple[str, int, int]]:
    """The ranges of extents of a segment: of a text, or in LVM's newer form of a list."""
    for word in text.split() if isinstance(text, str) else text:
        found = re.fullmatch(r"(.+):([0-9]{1,12})-([0-9]{1,12})", word)
        if not found:
            raise Wrong(f"{path}: '{word}' of {volume} is no range of extents")
        yield found[1], int(found[2]), int(found[3])


def read_parts(rows: Sequence[Row], path: str, sizes: Mapping[str, int]) -> list[Part]:
    """What is used of each device, in order. A volume over volumes is passed over: those have rows of their own."""
    roles, parts = {row["lv_name"].strip("[]"): row["lv_role"] for row in rows}, []
    for at, row in enumerate(rows):
        volume = row["lv_name"].strip("[]")
        ranges = list(ranges_of(volume, row["seg_pe_ranges"], path))
        movable = row["lv_role"] in ROLES and row["segtype"] in ("linear", "striped")
        movable = movable and (top_of(volume) == volume or roles.get(top_of(volume)) in ("public", "private"))
        for number, (device, first, last) in enumerate(ranges):
            if re.fullmatch(r"pvmove[0-9]+", device) or re.fullmatch(r"pvmove[0-9]+", volume):
                raise Wrong(f"{volume} is being moved: let `pvmove` end it, or give it up with `pvmove --abort`; then "
                            "make both reports anew")
            if device not in sizes:
                if device not in roles:
                    raise Wrong(f"{volume} lies on {device}, which neither report has: call lvs with -a, and both for "
                                "one volume group")
                continue
            if not first <= last < sizes[device]:
                raise Wrong(f"{volume} has {device}:{first}-{last}, and {device} has {sizes[device]} extents: make "
                            "both reports anew")
            stripe: tuple[Hashable, int] = ((volume, at), number) if len(ranges) > 1 else (None, 0)
            group, leg = leg_of(volume) or stripe
            parts.append(Part(volume, last - first + 1, device, first, "" if movable else FIXED, group, leg))
    parts.sort(key=lambda it: (it.device, it.first))
    for one, two in itertools.pairwise(parts):
        if one.device == two.device and two.first <= one.last:
            raise Wrong(f"extent {two.first} of {two.device} is in {one.volume} and in {two.volume}: make the report "
                        "anew")
    return parts


def cut(parts: Sequence[Part], unit: int, sizes: Mapping[str, int]) -> dict[Spot, list[Part]] | None:
    """The parts in each run of `unit` extents that is used, by device and slot. None where they, or the slots, are too
    many."""
    items: dict[Spot, list[Part]] = collections.defaultdict(list)
    for it in parts if max(sizes.values()) <= unit * MOST_SLOTS else ():
        slots = range(it.first // unit, it.last // unit + 1)
        if len(items) + len(slots) > MOST_ITEMS + 1:
            return None
        for slot in slots:
            first = max(it.first, slot * unit)
            bulk = min(it.last, slot * unit + unit - 1) - first + 1
            items[it.device, slot].append(dataclasses.replace(it, first=first, bulk=bulk))
    return items if 0 < len(items) <= MOST_ITEMS else None


def short(name: str, taken: set[str]) -> str:
    """A name of the allowed letters that is not taken yet, and takes it."""
    base = re.sub(r"[^A-Za-z0-9_.-]", "-", name.rsplit("/", 1)[-1]) or "-"
    tries = itertools.chain([base], (f"{base[: 31 - len(str(n))]}-{n}" for n in itertools.count(1)))
    taken.add(found := next(it for it in tries if NAME.fullmatch(it) and it not in taken))
    return found

"""from-lvm LVS PVS WISH..: writes disks.csv, now.csv, next.csv, names.csv and bytes.csv for an LVM volume group and
what is wished of it.

LVS and PVS are files with what these two print for the volume group VG:
  lvs -a --segments --reportformat json -o vg_name,lv_name,lv_role,segtype,seg_pe_ranges VG
  pvs --reportformat json --units b -o vg_name,pv_name,pv_attr,pv_pe_count,vg_extent_size -S vg_name=VG
A disk is a physical volume. A slot is a run of UNIT extents of it, from extent 0 on; an item is what is used of such a
run. The legs of a raid or a mirror, and stripes, only go to disks on which no other one of the same volume is or is to
be. Snapshots, what has one, and the parts of a cache stay where they are. names.csv says what each name stands for, and
to-lvm reads it; bytes.csv has the bytes of each item, for summary and progress.
Where anything is wrong nothing is written. Standard error says whether each disk has room for old and incoming items
together, for `migrate plan`, or it is for `plan-tight`."""
import argparse, collections, os
from collections.abc import Mapping, Sequence
from dataclasses import dataclass
from ..balance import Balance, percent_of
from ..command import Wrong, command, note, words
from ..disks import given_to, limits_of
from ..items import Items, Part, Refused, Spot, bulk_of, who
from ..plans import MOST_DISKS, MOST_ITEMS, MOST_SLOTS
from ..sizes import amount
from ..tight import Form, form_of, may_meet, unfit
from ..wishes import Wishes, carry_out, save_case
from .pvmoves import LEG
from .reports import FIXED, cut, extent_of, read_parts, read_reports, read_sizes, short

LEAST_UNIT, MOST_PVMOVES = 16, 300  # of the unit that is chosen, where the wish leaves a choice


def read_words() -> argparse.Namespace:
    reader = words(__doc__, "lvs", "pvs")
    add = reader.add_argument
    add("--move", metavar="VOLUME=PV", action="append", default=[], help="this volume is to be on that physical volume")
    add("--empty", metavar="PV", action="append", default=[], help="nothing is to stay on this physical volume")
    add("--spread", action="store_true", help="all are to be in use in about the same part")
    add("--balance", metavar="N", type=percent_of,
        help="each is to be in use in the same part, within N %%, with few moved")
    add("--unit", metavar="UNIT", type=int,
        help="extents of a slot, a power of two; where it is left out the least one from 16 on that makes at most 300 "
        "pvmoves, or a smaller one where the wish needs it")
    add("--limit", metavar="[PV=]N|OUT,IN", action="append", default=[],
        help="transfers of a disk at once, or those that leave it and those that reach it; 1 where it is left out")
    add("--extent", metavar="N", type=amount,
        help="the bytes of an extent, as 32M, for bytes.csv, where PVS does not have them; 4M where it is left out")
    add("--into", metavar="FOLDER", default=".", help="where the files are written")
    given = reader.parse_args()
    if not (given.move or given.empty or given.spread or given.balance):
        reader.error("a wish is needed: --move, --empty, --spread or --balance")
    if given.balance and given.spread:
        reader.error("--spread and --balance are two wishes: say one")
    if given.unit is not None and (given.unit < 1 or given.unit & given.unit - 1):
        reader.error(f"--unit {given.unit} is no power of two")
    for word in (it for it in given.move if "=" not in it):
        reader.error(f"--move {word}: write --move {word}=PV")
    return given


def device_of(word: str, sizes: Mapping[str, int]) -> str:
    """The device of this name, or of this last part of a name."""
    found = [it for it in sizes if it == word] or [it for it in sizes if os.path.basename(it) == word]
    if len(found) != 1:
        raise Wrong(f"there is no physical volume {word}; there are {', '.join(sizes)}")
    return found[0]


def read_wishes(given: argparse.Namespace, sizes: Mapping[str, int], closed: set[str], parts: Sequence[Part]) -> Wishes:
    """The wishes by volumes and devices. Nothing can be wished onto a device to which nothing can come."""
    moves: dict[str, str] = {}
    volumes = list(dict.fromkeys(it.volume for it in parts))
    for volume, _, device in (word.partition("=") for word in given.move):
        volume = volume.strip("[]")
        if volume not in volumes:
            raise Wrong(f"there is no volume '{volume}' with extents; there are {', '.join(volumes)}")
        if volume in moves:
            raise Wrong(f"--move is given twice for {volume}")
        moves[volume] = device_of(device, sizes)
    for volume, device in list(moves.items()):
        found = LEG.fullmatch(volume)
        meta = f"{found[1]}_rmeta_{found[3]}" if found and found[2] == "rimage" else ""
        if meta in volumes and meta not in moves:
            moves[meta] = device
            note(f"{meta} goes along with {volume}")
    empty = {device_of(word, sizes) for word in given.empty}
    for volume, device in moves.items():
        if device in empty:
            raise Wrong(f"{volume} is to go to {device}, which is to be emptied")
    for device in (it for it in (sizes if given.spread else moves.values()) if it in closed - empty):
        raise Wrong(f"{device} is not allocatable, so nothing can come to it: call pvchange -x y {device} first"
                    + (", or --empty it too" if given.spread else ""))
    return Wishes(moves, empty, given.spread, closed, Balance(given.balance, sizes) if given.balance else None)


@dataclass(frozen=True)
class Choice:
    """What a unit makes: items, the slots of each device, next devices, and the pvmoves that these are."""
    unit: int
    items: Items
    slots: dict[str, int]
    next: dict[Spot, str]
    pvmoves: int
    form: Form


def choose(parts: Sequence[Part], sizes: Mapping[str, int], wishes: Wishes, wanted: int | None) -> Choice:
    """What the unit makes that is wanted, else the unit that does best."""
    does: list[Choice] = []
    why = None
    for unit in [wanted] if wanted else [1 << n for n in range(max(sizes.values()).bit_length())]:
        if (items := cut(parts, unit, sizes)) is None:
            continue
        # a device's last extents, fewer than a unit, are a slot where they are in use: then no item can come to them
        slots = {it: size // unit + ((it, size // unit) in items)
                 for it, size in sizes.items() if size >= unit or (it, 0) in items}
        try:
            next_ = carry_out(items, slots, wishes)
            form = form_of(items, next_, slots)
            if form.is_tight and (odd := unfit(items, next_, slots, sizes, unit, wishes.closed)):
                raise Refused(f"there is no room on {form.disk} for old and incoming items together, and {odd}")
        except Refused as refusal:
            why = why or refusal
            continue
        does.append(Choice(unit, items, slots, next_, sum(len(items[at]) for at in items if next_[at] != at[0]), form))
    if not does:
        raise why or Wrong(f"a unit of {wanted} extents gives more than {MOST_ITEMS} items, or a disk of more than "
                           f"{MOST_SLOTS} slots: take a greater --unit, or none")
    does = [it for it in does if not it.form.is_tight] or does  # tight space only where no unit has room
    return next((it for it in does if it.unit >= LEAST_UNIT and it.pvmoves <= MOST_PVMOVES), does[-1])


def name_items(items: Items) -> dict[Spot, str]:
    """A name for each item: its first volume, and how many of that volume come before."""
    taken: set[str] = set()
    counts: dict[str, int] = collections.Counter()
    names = {}
    for at, parts in items.items():
        volume = parts[0].volume.strip("[]")
        names[at] = short(f"{volume}.{counts[volume]}", taken)
        counts[volume] += 1
    return names


@command
def main() -> None:
    given = read_words()
    segments, rows = read_reports(given.lvs, given.pvs)
    sizes, closed = read_sizes(rows, given.pvs, segments)
    parts = read_parts(segments, given.lvs, sizes)
    if not parts:
        raise Wrong("has no volume with extents", given.lvs)
    extent = extent_of(rows, given.pvs)
    if extent and given.extent not in (None, extent):
        raise Wrong(f"--extent is not {extent} bytes, as {given.pvs} has it")
    if not extent and not given.extent:
        note(f"{given.pvs} lacks the column vg_extent_size, so bytes.csv supposes extents of 4 MiB")
    extent = extent or given.extent or 4 << 20
    limits = given_to(sizes, given.limit, "--limit", lambda word: device_of(word, sizes),
                      lambda text: limits_of(text.split(","), "--limit"))
    wishes = read_wishes(given, sizes, closed, parts)
    chosen = choose(parts, sizes, wishes, given.unit)
    items, slots, next_ = chosen.items, chosen.slots, chosen.next
    if len(slots) > MOST_DISKS:
        raise Wrong(f"has {len(slots)} physical volumes, more than {MOST_DISKS}", given.pvs)

    taken: set[str] = set()
    names, disks = name_items(items), {it: short(it, taken) for it in slots}
    stands: list[list[object]] = [["kind", "name", "device", "extents"], ["unit", chosen.unit, "", ""]]
    stands += [["disk", disks[it], it, sizes[it]] for it in slots]
    stands += [["item", names[at], at[0], " ".join(f"{it.volume}:{it.first}-{it.last}" for it in parts)]
               for at, parts in items.items()]
    stands += [["stripe", *it] for it in sorted({(names[at], f"{it.group[0]}/{it.group[1]}", it.leg)
                                                 for at in items for it in items[at] if isinstance(it.group, tuple)})]
    bytes_ = {at: extent * bulk_of(parts) for at, parts in items.items()}
    save_case(given.into, names, disks, limits, slots, next_, bytes_, stands, [given.lvs, given.pvs])
    if fixed := dict.fromkeys(it.volume for it in parts if it.fixed):
        note(f"{', '.join(fixed)}: {FIXED}")
    going = sum(next_[at] != at[0] for at in items)
    note(f"unit {chosen.unit} extent{'s' * (chosen.unit > 1)}: {len(items)} items on {len(slots)} disks, {going} of "
         f"them go to another disk, by {chosen.pvmoves} pvmoves")
    note(chosen.form.said())
    if chosen.form.is_tight and (at := may_meet(items, next_, slots)):
        note("`plan-tight` does not know what LVM keeps apart: where it parks a leg or a stripe beside another one, "
             f"as {who(items[at])}, to-lvm refuses its plan")

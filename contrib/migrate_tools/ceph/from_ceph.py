"""from-ceph BEFORE AFTER DUMP CRUSH: writes disks.csv, now.csv and next.csv for the change of a Ceph cluster from one
map to another.

A disk is an OSD. An item is a placement group's copy: '1.7f-5' is that of 1.7f which is on osd.5 before; or, where the
pool is erasure coded, its shard: '2.1as3' is shard 3 of 2.1a. A backfill is counted as Ceph counts it: at the group's
primary, which fills it, so an item goes from there, and at its target; not at the OSD that gives it up. With
--backfills N an OSD fills N at once and is filled by N, as with osd_max_backfills N; with OUT,IN it fills OUT and is
filled by IN. With --count given an item goes from the OSD that gives it up, and N is one limit for both. With --sizes,
a file with what `ceph pg dump --format json` prints, it writes bytes.csv too, with the bytes of each copy and shard,
for summary and progress. Where anything is wrong nothing is written."""
import collections, os
from collections.abc import Mapping, Sequence
from ..command import Wrong, command, note, save_all
from ..disks import Limits, Split, disk_rows, limits_of
from ..plans import MOST_DISKS, MOST_ITEMS, NAME, Shift, table
from ..sizes import size_rows
from .groups import Group, read_change, reader
from .sizes import read_bytes, sizes_of


def read_limits(words: Sequence[str], osds: Sequence[int], as_ceph: bool) -> dict[int, Limits | None]:
    """The limits of each OSD that has some by these words: 'N' or 'OUT,IN' for all others, and 'OSD=N' or
    'OSD=OUT,IN'. As Ceph counts, N is N,N."""
    limits = dict[int, Limits | None]() if words or not as_ceph else dict.fromkeys(osds, Split())
    names = {*map(str, osds)}
    for osd, is_, limit in (word.rpartition("=") for word in words):
        osd = osd.removeprefix("osd.")
        if is_ and osd not in names:
            raise Wrong(f"--backfills: osd.{osd} has no copy before or after")
        for it in [int(osd)] if is_ else [it for it in osds if it not in limits]:
            numbers = limit.split(",")
            limits[it] = limits_of(numbers * 2 if as_ceph and len(numbers) == 1 else numbers, "--backfills")
    return {it: limits.get(it) for it in osds}


def case_of(groups: Mapping[str, Group], words: Sequence[str], as_ceph: bool = True, moving: bool = True
            ) -> tuple[list[Shift], dict[str, Limits | None]]:
    """The items, in slots of their own: where they count, and where they go; those that stay where they are, unless
    those that are `moving` alone are wanted. And the limits of the OSDs of these, by words of --backfills."""
    limits = read_limits(words, sorted({it for group in groups.values() for it in group.before + group.after}), as_ceph)
    all_ = [(name, group.counted_at[name] if as_ceph else source, target) for group in groups.values()
            for name, source, target in group.items if source != target or not moving]
    slots = collections.Counter([source for _, source, _ in all_])
    at, names, found = dict.fromkeys(limits, 0), {it: f"osd.{it}" for it in limits}, []
    for name, source, target in all_:
        if not NAME.fullmatch(name):
            raise Wrong(f"'{name}' is longer than a name may be")
        to = at[source] if source == target else slots[target]
        found.append(Shift(name, names[source], at[source], names[target], to))
        at[source] += 1
        slots[target] += source != target
    ends = {it for _, *both in all_ for it in both}
    return found, {names[osd]: limit for osd, limit in limits.items() if osd in ends or not moving}


def files_of(shifts: Sequence[Shift], limits: Mapping[str, Limits | None]) -> dict[str, Sequence[Sequence[object]]]:
    """The rows of disks.csv, now.csv and next.csv."""
    slots = dict.fromkeys(limits, 1)
    for it in shifts:
        slots[it.source] = max(slots[it.source], it.source_slot + 1)
        slots[it.target] = max(slots[it.target], it.target_slot + 1)
    now, next_ = [("item", "disk", "slot"), *(it[:3] for it in shifts)], [("item", "disk"), *(it[::3] for it in shifts)]
    return {"disks.csv": disk_rows(limits, slots, "--backfills"), "now.csv": now, "next.csv": next_}


@command
def main() -> None:
    words = reader(__doc__)
    add = words.add_argument
    add("--backfills", metavar="[OSD=]N|OUT,IN", action="append", default=[],
        help="the backfills of an OSD at once, or of all others; with OUT,IN those that it fills and those that fill "
        "it; 1 where it is left out")
    add("--count", choices=["primary", "given"], default="primary",
        help="where a backfill counts beside its target: at the group's primary, as Ceph counts it, or at the OSD that "
        "gives its copy up")
    add("--sizes", metavar="PGS", help="what `ceph pg dump --format json` prints: bytes.csv is written too")
    add("--moving", action="store_true", help="leaves out the copies that stay")
    add("--leave-out", action="store_true",
        help="leaves the placement groups that exceptions cannot carry where they are")
    add("--into", metavar="FOLDER", default=".", help="where the files are written")
    given = words.parse_args()
    groups, _ = read_change(given, given.leave_out)
    shifts, limits = case_of(groups, given.backfills, given.count == "primary", given.moving)
    for count, what, most in ((len(limits), "OSDs with copies", MOST_DISKS), (len(shifts), "copies", MOST_ITEMS)):
        if count > most:
            more = "plan-ceph plans them all the same" if given.moving else "--moving leaves out those that stay"
            raise Wrong(f"there are {count} {what}, more than {most}: {more}")
    files = files_of(shifts, limits)
    if given.sizes:
        files["bytes.csv"] = size_rows(sizes_of(read_bytes(given.sizes), given.sizes, given.dump, groups, shifts))
    inputs = [given.before, given.after, given.dump, given.crush, *([given.sizes] if given.sizes else [])]
    save_all({os.path.join(given.into, name): table(rows) for name, rows in files.items()}, inputs)
    gone = sum(it.source != it.target for it in shifts)
    note(f"{len(shifts)} copies of {len(groups)} placement groups on {len(limits)} OSDs, {gone} of them go to another "
         "OSD")

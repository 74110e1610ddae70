"""plan-lvm VG WISH.. --into FOLDER: plans a change of an LVM volume group, from its reports to scripts. Nothing of the
group is changed by it.

It calls lvs and pvs, and writes into FOLDER what `from-lvm`, `migrate plan` and `report` make; move.sh, which carries
the plan out; and back.sh, which undoes what move.sh has done so far, by the same plan. Both plans are checked. It
prints what an operator decides by: moves and bytes, how long, what decides it, how full each disk gets. The wishes are
those of from-lvm: --empty PV, --move VOLUME=PV, --spread, --balance N; --unit and --limit too."""
import os
from ..calls import output
from ..command import command, put, save_all
from ..fullness import Room
from ..plans import Plan, read_rows, table
from ..whole import WishPlanner, reader_of
from .pvmoves import apart, read_names, read_pvmoves
from .reports import LVS, PVS


def names_back(path: str, plan: Plan) -> str:
    """The names.csv of the way back: each item where the plan brings it."""
    names, rows, last = read_names(path), [], {it.item: it for it in plan.shifts()}
    for _, row in read_rows(path, "kind,name,device,extents"):
        if row[0] == "item" and row[1] in last:
            shift, parts = last[row[1]], names.items[row[1]][1]
            by = (shift.target_slot - names.slot(row[1])) * names.unit
            row = [*row[:2], names.devices[shift.target][0], " ".join(f"{it}:{a + by}-{b + by}" for it, a, b in parts)]
        rows.append(row)
    return table([["kind", "name", "device", "extents"], *rows])


@command
def main() -> None:
    reader = reader_of(__doc__, ("empty", "move", "limit", "balance", "unit", "extent"))
    reader.add_argument("group", metavar="VG")
    given = reader.parse_args()
    planner = WishPlanner(given.into)
    for name, words in (("lvs.json", LVS), ("pvs.json", PVS)):
        save_all({planner.at(name): output(*(words.removesuffix("VG") + given.group).split(), passes=True)})
    planner.command("from-lvm", "lvs.json", "pvs.json", *given.handed)
    plan, _ = planner.plan(names_back)
    for sub, script in (("", "move.sh"), ("back/", "back.sh")):
        planner.command("to-lvm", f"{sub}plan.txt", f"{sub}names.csv", "--out", script)
    names = read_names(planner.at("names.csv"))
    sizes = {item: int(it) for _, (item, it) in read_rows(planner.at("bytes.csv"), "item,bytes")}
    extents = {item: sum(last - first + 1 for _, first, last in parts) for item, (_, parts) in names.items.items()}
    extent = sum(sizes.values()) // sum(extents.values())
    rooms = {disk: Room(size * extent, sum(sizes[it] for it, (at, _) in names.items.items() if at == device))
             for disk, (device, size) in names.devices.items()}
    steps = [max(it.extents() for it in step) / names.unit
             for moves in read_pvmoves(plan, planner.at("names.csv"))[1] for step in apart(moves)]
    first = next((names.devices[it.source][0] for it in plan.shifts()), "")
    put(planner.told(given.rate, first, os.path.basename(first), rooms, steps, names.unit * extent))

"""summary PLAN [DISKS] [--bytes N | --sizes BYTES] [--rate N] [--queue NOW] [--names NAMES] [--json]: prints moves,
rounds, transfers by round and the busiest disks of a plan.

With DISKS each busy disk has its limit, or its outgoing and its incoming one, and the rounds that it needs for its own
transfers alone. With --bytes, the bytes of an item, or --sizes, the bytes.csv with those of each item, and --rate, the
bytes that one transfer moves in a second, it prints the time that the rounds take, each as long as its greatest item,
and with sizes and DISKS the time without rounds (run-plan --eager). K, M, G and T after a number stand for powers of
1024. With --queue it prints besides in how many rounds the same transfers are done where each waits in the order of the
file NOW and begins as soon as both of its disks have a place free: first come, first served. With --names, the
names.csv of from-lvm, it counts what the script of to-lvm does: LVM carries out one pvmove at a time from a physical
volume and of a volume, so a round may take several steps, and the time is that of the steps. --json prints an
object."""
import argparse, collections, itertools, json
from collections.abc import Mapping, Sequence
from typing import Any
from ..command import Wrong, command, put, words
from ..disks import Disks, Side, limits_by_side, loads_of, read_disks, sides_of
from ..lvm.pvmoves import apart, read_pvmoves
from ..plans import Plan, read_plan, read_rows
from ..sizes import amount, read_sizes, said
from ..waiting import Waiting, needed, simulated

Sizes = Mapping[str, int] | None


def duration(seconds: float) -> str:
    minutes, seconds = divmod(-(-seconds // 1), 60)
    hours, minutes = divmod(minutes, 60)
    days, hours = divmod(hours, 24)
    parts = [f"{n:.0f} {unit}" for n, unit in ((days, "d"), (hours, "h"), (minutes, "min"), (seconds, "s")) if n]
    return " ".join(parts[:2]) or "0 s"


def by_round(plan: Plan, most: int) -> list[str]:
    """A line for each run of rounds with as many transfers, at most so many lines."""
    at, lines = 1, []
    for count, run in itertools.groupby(map(len, plan.rounds)):
        last = at + len(list(run)) - 1
        lines.append(f"  round {at}: {count}" if at == last else f"  rounds {at} to {last}: {count} each")
        at = last + 1
    if len(lines) > most:
        counts = sorted(map(len, plan.rounds))
        middle = counts[len(counts) // 2]
        lines = [f"  least {counts[0]}, median {middle}, most {counts[-1]} (--all prints each round)"]
    return lines


def busiest(plan: Plan, disks: Disks | None, sizes: Sizes) -> list[dict[str, Any]]:
    """What is told of each disk of the plan: the busiest one first, by rounds that it needs, then by transfers."""
    loads = collections.Counter(name for it in plan.shifts() for name in {it.source, it.target})
    found: dict[str, dict[str, Any]] = {name: {"disk": name, "transfers": loads[name]} for name in loads}
    for name, it in ((name, it) for it in plan.shifts() for name in {it.source, it.target}):
        if sizes:
            found[name]["bytes"] = found[name].get("bytes", 0) + sizes[it.item]
    if disks is not None:
        at, limits = loads_of(plan.shifts(), disks), limits_by_side(disks)
        for name, told in found.items():
            sides = [Side(name, way) for way in disks[name].limits.by_way()]
            told["sides"] = [{"way": side.way, "transfers": at[side], "limit": limits[side]} for side in sides]
            told["rounds"] = max(-(-at[side] // limits[side]) for side in sides)
    return sorted(found.values(), key=lambda it: (-it.get("rounds", 0), -it["transfers"], it["disk"]))


def line_of(disk: Mapping[str, Any]) -> str:
    said_of = {"": "transfers", "out": "outgoing", "in": "incoming"}
    parts = [f"{it['transfers']} {said_of[it['way']]}, limit {it['limit']}" for it in disk.get("sides", ())]
    parts = parts or [f"{disk['transfers']} transfers"]
    parts += [said(disk["bytes"])] if "bytes" in disk else []
    parts += [f"needs {disk['rounds']} round{'s' * (disk['rounds'] > 1)}"] if "rounds" in disk else []
    return f"  {disk['disk']}: {', '.join(parts)}"


def queue(plan: Plan, disks: Disks, path: str) -> int:
    """The rounds of first come, first served: in each one whoever finds a place free at both ends begins."""
    if any(needed(plan.shifts())):
        raise Wrong("--queue: transfers of this plan need others to be done first (an item is parked, or a slot is "
                    "left first), and a queue does not know that")
    rank = {row[0]: at for at, row in read_rows(path, "item,disk,slot")}
    for it in plan.shifts():
        if it.item not in rank:
            raise Wrong(f"has no item {it.item}; it is of another plan", path)
    waiting, rounds = [sides_of(it, disks) for it in sorted(plan.shifts(), key=lambda it: rank[it.item])], 0
    while waiting:
        free, left = limits_by_side(disks), []
        for sides in waiting:
            if all(free[it] for it in sides):
                free.update((it, free[it] - 1) for it in sides)
            else:
                left.append(sides)
        waiting, rounds = left, rounds + 1
    return rounds


def times_of(plan: Plan, rate: int, bytes_: float, sizes: Sizes, disks: Disks | None,
             steps: Sequence[float] | None) -> tuple[list[str], dict[str, float]]:
    """The lines of the time, and its seconds by names: a step of pvmoves takes as long as the longest of them, a round
    as its greatest item. `bytes_` are those of an item, or of a unit of extents."""
    count, each = len(plan.rounds), bytes_ / rate
    if steps is not None:
        total, longest = sum(steps) * each, duration(max(steps, default=0) * each)
        return [f"time {duration(total)}: {len(steps)} steps of at most {longest} each"], {"seconds": total}
    if sizes is None:
        return [f"time {duration(count * each)}: {count} rounds of {duration(each)} each"], {"seconds": count * each}
    shifts = plan.shifts()
    total = sum(max((sizes[it.item] for it in round_), default=0) for round_ in plan.rounds) / rate
    lines, found = [f"time {duration(total)}: {count} rounds, each as long as its greatest item"], {"seconds": total}
    if disks is not None:
        seconds = [sizes[it.item] / rate for it in shifts]
        ends = simulated(Waiting(shifts, disks, range(len(shifts))), {}, seconds.__getitem__)
        found["seconds_without_rounds"] = max(ends.values(), default=0.0)
        shorter = duration(found["seconds_without_rounds"])
        lines.append(f"time without rounds {shorter}: each transfer as soon as the limits let it")
    return lines, found


def read_words() -> argparse.Namespace:
    reader = words(__doc__, "plan")
    add = reader.add_argument
    add("disks", metavar="DISKS", nargs="?")
    add("--bytes", metavar="N", type=amount, help="the bytes of an item")
    add("--sizes", metavar="BYTES", help="bytes.csv, with the bytes of each item")
    add("--rate", metavar="N", type=amount, help="the bytes that one transfer moves in a second")
    add("--queue", metavar="NOW", help="the now file, whose order is the queue's")
    add("--names", metavar="NAMES", help="the names.csv of from-lvm: pvmoves and their steps are counted")
    add("--all", action="store_true", help="prints each round and each disk, be they never so many")
    add("--json", action="store_true", help="prints an object of JSON, with each round and each disk")
    given = reader.parse_args()
    if given.bytes is not None and given.sizes is not None:
        reader.error("--bytes is of each item and --sizes of one after the other: say one of them")
    if not given.sizes and (given.bytes is None) != (given.rate is None):
        reader.error("--bytes and --rate go together")
    if given.queue is not None and not given.disks:
        reader.error("--queue needs DISKS")
    return given


@command
def main() -> None:
    given = read_words()
    plan, most = read_plan(given.plan), 1 << 32 if given.all else 10
    disks, sizes, steps = read_disks(given.disks, plan) if given.disks else None, read_sizes(given.sizes, plan), None
    busy, count, parked = busiest(plan, disks, sizes), len(plan.shifts()), plan.parked()
    found: dict[str, Any] = {"moves": count, "rounds": len(plan.rounds)}
    found |= {"transfers_by_round": [len(it) for it in plan.rounds], "disks": busy}
    found |= {"parked": parked} if parked else {}
    lines = [f"moves {count}" + f", {parked} of them from where an item was parked" * (parked > 0)]
    lines += [f"rounds {len(plan.rounds)}", "transfers by round", *by_round(plan, most), "busiest disks",
              *map(line_of, busy[:most])]
    lines += [f"  and {len(busy) - most} more (--all prints each disk)"] * (len(busy) > most)
    if sizes:
        found["bytes"] = sum(sizes[it.item] for it in plan.shifts())
        lines.insert(1, f"bytes {said(found['bytes'])}")
    if given.names:
        unit, rounds = read_pvmoves(plan, given.names)
        by_step = [step for moves in rounds for step in apart(moves)]
        extents = sum(it.extents() for step in by_step for it in step)
        given.bytes = unit * found["bytes"] / extents if sizes and extents else given.bytes or 0
        steps = [max(it.extents() for it in step) / unit for step in by_step]
        found |= {"pvmoves": sum(map(len, by_step)), "steps": len(steps)}
        lines.append(f"pvmoves {found['pvmoves']}, in {len(steps)} steps one after the other")
    if given.rate is not None:
        more, seconds = times_of(plan, given.rate, given.bytes or 0, sizes, disks, steps)
        lines, found = lines + more, found | seconds
    if given.queue and disks is not None:
        found["rounds_of_queue"] = queue(plan, disks, given.queue)
        lines.append(f"rounds of first come, first served {found['rounds_of_queue']}")
    put(json.dumps(found) + "\n" if given.json else "\n".join([*lines, ""]))

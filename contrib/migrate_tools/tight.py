"""Which form plans a wish: `plan`, where each disk has room for the items that are on it and those that come to it
together, else `plan-tight`, which moves one item at a time, and may park an item that belongs elsewhere on any disk
that has a free slot."""
import collections
from collections.abc import Iterable, Mapping
from dataclasses import dataclass
from .items import Items, Next, Part, Slots, Spot, bulk_of
from .sizes import said


@dataclass(frozen=True)
class Form:
    """The fullest disk of those to which items come: the slots that it needs for old and incoming ones together, and
    those that it has. Whether some disk lacks room, and why `plan-tight` can't do it either, empty where it can."""
    disk: str
    needs: int
    has: int
    is_tight: bool
    why: str

    def said(self) -> str:
        if not self.disk:
            return "no disk gets an item, so that nothing is to be planned"
        if self.is_tight:
            return (f"{self.disk} would need {self.needs} slots for old and incoming items together, and has "
                    f"{self.has}: the form to use is `migrate plan-tight`, with `after-tight`, and not `plan`")
        return (f"the fullest target, {self.disk}, would have {self.needs} of its {self.has} slots in use by old and "
                "incoming items together: each disk has room, and the form to use is `migrate plan`")


def form_of(items: Items, next_: Next, slots: Slots) -> Form:
    """The form for these items and their next disks."""
    now, then = collections.Counter(at[0] for at in items), collections.Counter(next_[at] for at in items)
    coming = collections.Counter(to for at, to in next_.items() if to != at[0])
    fullest = max(coming, key=lambda it: (now[it] + coming[it]) / max(slots.get(it, 0), 0.5), default="")
    over = next((it for it in then if then[it] > slots.get(it, 0)), None)
    held = next((it for it in now if now[it] > slots.get(it, 0)), None)
    why = ""
    if over is not None:
        why = f"{then[over]} items are to be on {over}, which has {slots.get(over, 0)} slots"
    elif held is not None:
        why = f"{now[held]} items are on {held}, which has {slots.get(held, 0)} slots"
    elif coming and sum(slots.values()) <= len(items):
        why = "no slot of any disk is free"
    is_tight = any(count > slots.get(it, 0) for it, count in (now + coming).items())
    return Form(fullest, now[fullest] + coming[fullest], slots.get(fullest, 0), is_tight, why)


def parkable(items: Items, next_: Next) -> list[Spot]:
    """The items that `plan-tight` may park: those that leave a disk to which others come."""
    coming = {to for at, to in next_.items() if to != at[0]}
    return [at for at in items if next_[at] != at[0] and at[0] in coming]


def gets_free(items: Items, next_: Next, slots: Slots) -> set[str]:
    """The disks of which a slot is free, or gets free."""
    now = collections.Counter(at[0] for at in items)
    return {it for it in slots if now[it] < slots[it]} | {at[0] for at in items if next_[at] != at[0]}


def unfit(items: Items, next_: Next, slots: Slots, sizes: Slots, unit: int, closed: set[str]) -> str:
    """Why these runs of extents can't be planned for tight space; empty where they can."""
    for disk in sorted(closed & gets_free(items, next_, slots)):
        return (f"`plan-tight` may park what is moved on {disk}, which is not allocatable: call pvchange -x y {disk} "
                "first")
    for at in items:  # a slot that is shorter than others: `plan-tight` takes it for one as soon as it is free
        if next_[at] != at[0] and at[1] == sizes[at[0]] // unit:
            return (f"the last extents of {at[0]} are fewer than the unit of {unit}, and what is there is to leave: "
                    "take a smaller --unit")
    return ""


def may_meet(items: Items, next_: Next, slots: Slots) -> Spot | None:
    """The first item that may be parked where another leg of what it has is, is to be, or may be parked too."""
    free, parks = gets_free(items, next_, slots), set(parkable(items, next_))
    legs = collections.defaultdict(set)
    for at, parts in items.items():
        for it in (it for it in parts if it.group):
            for disk in free if at in parks else {at[0], next_[at]}:
                legs[it.group, disk].add(it.leg)
    return next((at for at in items if at in parks for it in items[at] if it.group
                 for disk in free if legs[it.group, disk] - {it.leg}), None)


def warning_of(form: Form, items: Items, next_: Next, slots: Slots, rooms: Mapping[str, int]) -> str:
    """The first disk that may lack bytes for what comes to it and for what `plan-tight` may park there; empty where
    nothing is parked, or there are bytes enough. `rooms` has the free bytes of each disk."""
    parks, stays = parkable(items, next_), collections.Counter(at[0] for at in items if next_[at] == at[0])
    for disk in gets_free(items, next_, slots) if form.is_tight else ():
        coming = sum(bulk_of(parts) for at, parts in items.items() if next_[at] == disk != at[0])
        parked = sorted((bulk_of(items[at]) for at in parks if disk not in (at[0], next_[at])), reverse=True)
        most = coming + sum(parked[:slots[disk] - stays[disk]])
        if most > rooms[disk]:
            return (f"with what `plan-tight` may park on {disk} {most} bytes may come to it, and {rooms[disk]} are "
                    "free: where a copy finds no room there run-plan stops")
    return ""


def coming_of(going: Iterable[tuple[Part, str]]) -> dict[str, int]:
    """The bytes that come to each disk."""
    coming: dict[str, int] = collections.Counter()
    for it, disk in going:
        coming[disk] += it.bulk
    return coming


def said_of_bytes(going: Iterable[tuple[Part, str]], rooms: Mapping[str, int], used: Mapping[str, int]) -> str:
    """The disk that is fullest by bytes once what is to come has come, and nothing has left; empty where nothing
    goes."""
    if not (coming := coming_of(going)):
        return ""
    disk = max(coming, key=lambda it: (used[it] + coming[it]) / max(1, used[it] + rooms[it]))
    return (f"the fullest target by bytes, {disk}, would have {said(used[disk] + coming[disk])} of "
            f"{said(used[disk] + rooms[disk])} in use by old and incoming items together")

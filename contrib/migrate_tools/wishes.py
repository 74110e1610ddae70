"""What from-lvm and from-folders do with wishes: the next disk of each item."""
import collections, heapq, os
from collections.abc import Iterable, Mapping, Sequence
from dataclasses import dataclass
from .balance import Balance
from .command import save_all
from .disks import Limits, disk_rows
from .items import Items, Next, Refused, Slots, Spot, keeps_apart, legs_of, meeting, who
from .plans import table
from .sizes import size_rows
from .tight import form_of


@dataclass(frozen=True)
class Wishes:
    """`moves` gives volumes their disk; nothing is to stay on the disks of `empty`, and nothing can come to those of
    `closed`. `balance`, where there is one, says to which part each disk is to be filled."""
    moves: Mapping[str, str]
    empty: set[str]
    spread: bool
    closed: set[str]
    balance: Balance | None = None


def heed(items: Items, wishes: Wishes) -> tuple[dict[Spot, str], list[Spot]]:
    """The next disk of each item that has one, and the items that are to be dealt out."""
    next_, loose = {}, []
    for at, parts in items.items():
        wished = {wishes.moves.get(it.volume) for it in parts}
        if len(wished) > 1:
            raise Refused(f"{who(parts)}, which are not to go to one place: take a smaller --unit")
        wish, fixed = wished.pop(), [it for it in parts if it.fixed]
        if fixed and (wish not in (None, at[0]) or wish is None and at[0] in wishes.empty):
            raise Refused(f"{who(fixed)}: {fixed[0].fixed}")
        if wish is None and (at[0] in wishes.empty or wishes.spread and not fixed):
            loose.append(at)
        else:
            next_[at] = wish or at[0]
    return next_, loose


def shares(count: int, next_: Next, slots: Slots, open_: Sequence[str], is_tight: bool) -> dict[str, int]:
    """How many of `count` more items each open disk is to have: the one of which the least part is in use has the next.
    What leaves a disk takes a slot there still, unless space is tight."""
    taken: collections.Counter[str] = collections.Counter()
    for at, disk in next_.items():
        taken.update({disk} if is_tight else {at[0], disk})
    rank = {disk: n for n, disk in enumerate(open_)}
    heap = [((taken[disk] + 1) / slots[disk], rank[disk], disk) for disk in open_ if taken[disk] < slots[disk]]
    heapq.heapify(heap)
    quota: collections.Counter[str] = collections.Counter()
    for _ in range(count):
        if not heap:
            raise Refused(f"there is no room: {count} items are to be dealt out, and the disks that can have them have "
                          f"{quota.total()} free slots")
        disk = heapq.heappop(heap)[2]
        taken[disk], quota[disk] = taken[disk] + 1, quota[disk] + 1
        if taken[disk] < slots[disk]:
            heapq.heappush(heap, ((taken[disk] + 1) / slots[disk], rank[disk], disk))
    return quota


def deal_legs(loose: Sequence[Spot], quota: dict[str, int], items: Items, next_: dict[Spot, str], slots: Slots) -> None:
    """Deals out items with parts that are kept apart: each one to where the last one of its disk went, or its leg, else
    to where most of a share is left. So what stood on disks of its own does so again."""
    taken, legs = collections.Counter(at[0] for at in items), legs_of(items, next_)
    taken.update(to for at, to in next_.items() if to != at[0])
    went: dict[object, str] = {}
    for at in loose:
        parts = list(dict.fromkeys((it.group, it.leg) for it in items[at] if it.group))
        free = [it for it in quota if it != at[0] and taken[it] < slots[it] and (quota[it] > 0 or at[0] not in quota)
                and all(legs[group, it] <= {leg} for group, leg in parts)]
        if at[0] in quota and (quota[at[0]] > 0 or not free):
            disk = at[0]
        elif free:
            disk = next((went[it] for it in (at[0], *parts) if went.get(it) in free), max(free, key=quota.__getitem__))
            taken[disk], went[at[0]] = taken[disk] + 1, disk
        else:
            raise Refused(f"{who(items[at])}, and no disk is left for it that has room and none of its other legs or "
                          "stripes")
        next_[at], quota[disk] = disk, quota[disk] - 1
        for group, leg in parts:
            legs[group, disk].add(leg)
            went[group, leg] = disk


def deal(loose: Sequence[Spot], quota: dict[str, int], next_: dict[Spot, str]) -> None:
    """Each loose item stays where its disk has some of its share left, and else goes to one that has."""
    left = []
    for at in loose:
        if quota.get(at[0], 0) > 0:
            quota[at[0]], next_[at] = quota[at[0]] - 1, at[0]
        else:
            left.append(at)
    next_.update(zip(left, collections.Counter(quota).elements()))


def check(items: Items, next_: Next, slots: Slots) -> None:
    """Each disk has room, or there is a way by `migrate plan-tight`. What is kept apart stays so."""
    coming = collections.Counter(to for at, to in next_.items() if to != at[0])
    needs, why = collections.Counter(at[0] for at in items) + coming, form_of(items, next_, slots).why
    for disk, count in needs.items():
        if why and count > slots.get(disk, 0):
            raise Refused(f"there is no room on {disk}: it needs {count} slots, and has {slots.get(disk, 0)}; nor can "
                          f"`migrate plan-tight` do it: {why}")
    if found := meeting([(it.group, it.leg, at[0], next_[at]) for at, parts in items.items()
                         for it in parts if it.group]):
        parts = next(parts for at, parts in items.items()
                     if at[0] == found[2] and any((it.group, it.leg) == found[:2] for it in parts))
        raise Refused(f"{who(parts)}, and {found[3]} has or gets another leg or stripe of it, which LVM keeps apart")


def carry_out(items: Items, slots: Slots, wishes: Wishes) -> dict[Spot, str]:
    """The next disk of each item: so that each has room for old and incoming items together, where dealing out can have
    that."""
    closed = ", ".join(it for it in slots if it in wishes.closed - wishes.empty)
    more = f"; nothing can come to {closed}, since LVM has it as not allocatable (pvchange -x y)" if closed else ""
    try:
        return dealt(items, slots, wishes, False)
    except Refused as refused:
        if not wishes.balance:
            try:
                return dealt(items, slots, wishes, True)
            except Refused:
                pass
        is_room = "no room" in str(refused) or "no disk is left" in str(refused) or wishes.balance
        raise Refused(f"{refused}{more if is_room else ''}") from None


def save_case(folder: str, names: Mapping[Spot, str], disks: Mapping[str, str], limits: Mapping[str, Limits | None],
              slots: Slots, next_: Next, sizes: Mapping[Spot, int], stands: Iterable[Iterable[object]],
              inputs: Iterable[str] = ()) -> None:
    """Saves the three files, bytes.csv, and names.csv, which has what the names of disks and items stand for."""
    files: dict[str, Iterable[Iterable[object]]] = {
        "disks.csv": disk_rows({disks[it]: limits[it] for it in slots}, {disks[it]: slots[it] for it in slots},
                               "--limit"),
        "now.csv": [["item", "disk", "slot"], *([name, disks[at[0]], at[1]] for at, name in names.items())],
        "next.csv": [["item", "disk"], *([name, disks[next_[at]]] for at, name in names.items())],
        "names.csv": stands, "bytes.csv": size_rows({name: sizes[at] for at, name in names.items()})}
    save_all({os.path.join(folder, name): table(rows) for name, rows in files.items()}, inputs)


def dealt(items: Items, slots: Slots, wishes: Wishes, is_tight: bool) -> dict[Spot, str]:
    next_, loose = heed(items, wishes)
    open_ = [it for it in slots if it not in wishes.empty | wishes.closed]
    if wishes.balance:
        wishes.balance.carry_out(items, next_, loose, open_, slots, keeps_apart(items, next_))
    else:
        quota = {**dict.fromkeys(open_, 0), **shares(len(loose), next_, slots, open_, is_tight)}
        deal_legs([at for at in loose if any(it.group for it in items[at])], quota, items, next_, slots)
        loose = [at for at in loose if at not in next_]
        deal(loose, shares(len(loose), next_, slots, open_, is_tight), next_)
    check(items, next_, slots)
    return next_

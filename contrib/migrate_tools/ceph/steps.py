"""The steps of a plan for from-ceph's files: in which rounds which exceptions of a placement group are set; and as
lines of a script."""
import collections
from collections.abc import Mapping, Sequence
from typing import NamedTuple
from ..command import Wrong, note
from ..disks import Disks, Split, limits_by_side
from ..plans import Plan, Shift
from .crush import Pairs
from .groups import Group

Counts = Mapping[str, int]


class Step(NamedTuple):
    """In this round the exceptions of a group are set, with which it is to be on these OSDs, where it has one of the
    lists `start` of exceptions; = keeps their order. `counts` is where it counts, as osd.5/in, and how often; `items`
    are those that go then, each with the round in which the plan has it."""
    round: int
    group: str
    order: str
    pairs: Pairs
    start: Sequence[Pairs]
    counts: Counts
    items: Mapping[str, int]

    def line(self) -> str:
        """As a step is written in a script."""
        round_, group, order, pairs, start, counts, items = self
        at = [f"{side}:{count}" if count > 1 else side for side, count in sorted(counts.items())]
        return (f"ceph-step {round_} {group} {order} {pairs_text(pairs)} from {'/'.join(map(pairs_text, start))} "
                f"at {','.join(at) or '-'} items {','.join([f'{its}:{item}' for item, its in items.items()]) or '-'}\n")

    def osds(self) -> list[int]:
        return [int(it) for it in self.order.removeprefix("=").split(",")]

    def command(self) -> list[str]:
        """What sets these exceptions: the words of `ceph`."""
        osds = [str(it) for pair in self.pairs for it in pair]
        return ["osd", "pg-upmap-items" if osds else "rm-pg-upmap-items", self.group, *osds]


def pairs_text(pairs: Pairs) -> str:
    return ",".join([f"{one}:{two}" for one, two in pairs]) or "-"


def read_pairs(text: str) -> Pairs:
    return [(int(one), int(two)) for one, _, two in (it.partition(":") for it in text.split(",") if text != "-")]


def read_step(words: Sequence[str]) -> Step:
    """The step that these words say, those of its line after `ceph-step`."""
    try:
        round_, group, order, pairs, *more = words
        named = dict(zip(more[::2], more[1::2], strict=True))
        counts = {side: int(count or 1) for side, _, count in
                  (it.partition(":") for it in named.pop("at", "-").split(",")) if side != "-"}
        items = {item: int(its) for its, is_, item in
                 (it.partition(":") for it in named.pop("items", "-").split(",")) if is_}
        start = [read_pairs(it) for it in named.pop("from", "-").split("/")]
        if named:
            raise ValueError
        return Step(int(round_), group, order, read_pairs(pairs), start, counts, items)
    except ValueError:
        said = " ".join(words)
        raise Wrong(f"'{said}' is no step: ROUND GROUP OSD,OSD.. OLD:NEW,.. from .. at .. items ..") from None


def read_rounds(plan: Plan, path: str, groups: Mapping[str, Group]) -> tuple[dict[str, dict[str, int]], bool]:
    """The round in which each item of each placement group goes, and whether each goes from the OSD that gives it
    up."""
    homes = {it.name: (name, it) for name, group in groups.items() for it in group.items}
    osds = {osd: f"osd.{osd}" for osd in {it for _, (_, *ends) in homes.values() for it in ends}}
    given = all(it.source == osds[homes[it.item][1].source] for it in plan.shifts() if it.item in homes)
    rounds: dict[str, dict[str, int]] = {}
    seen: set[str] = set()
    for at, shifts in enumerate(plan.rounds, 1):
        for it in shifts:
            if it.item in seen:
                raise Wrong(f"{path} round {at}: {it.item} moves a second time: a copy of a placement group is not "
                            "parked on an OSD on its way. from-ceph gives each OSD room for old and incoming copies, "
                            "so make the plan by `migrate plan`")
            seen.add(it.item)
        for item, source, _, target, _ in shifts:
            name, home = homes.get(item, ("", None))
            ends = home and home.source != home.target and (
                osds[home.source if given else groups[name].counted_at[item]], osds[home.target])
            if ends != (source, target):
                raise Wrong(f"{path} round {at}: {item} from {source} to {target} is no move of a plan for "
                            "from-ceph's files of these dumps")
            rounds.setdefault(name, {})[item] = at
    missing = {item: name for item, (name, home) in homes.items() if home.source != home.target and item not in seen}
    for item, name in missing.items():
        if name in rounds:
            raise Wrong(f"moves others of placement group {name}, and not {item}", path)
    for name in dict.fromkeys(missing.values()):
        note(f"placement group {name} goes elsewhere with the change, and {path} does not move it")
    if not rounds:
        raise Wrong("moves nothing", path)
    return rounds, given


def counts_of(shifts: Sequence[Shift], filler: int | None, disks: Disks) -> Counts:
    """Where what goes together counts: as Ceph has it once at the OSD that fills all of it, and at each that is filled;
    else, without such an OSD, at both ends of each."""
    out, in_ = ("/out", "/in") if isinstance(disks[shifts[0].target].limits, Split) else ("", "")
    sides = [it.source + out for it in shifts] if filler is None else [f"osd.{filler}{out}"]
    sides += [it.target + in_ for it in shifts]
    return {it: sides.count(it) for it in sides}


def limits_text(disks: Disks, ahead: int) -> str:
    """The words of ceph-step for the limits of these disks by their ways, most of them the same:
    out=2,in=2,osd.5/out=1."""
    all_ = {str(side).replace(" ", "/"): limit for side, limit in limits_by_side(disks).items()}
    found: dict[str, int] = {}
    for way in dict.fromkeys(it.partition("/")[2] for it in all_):
        its = {side: limit for side, limit in all_.items() if side.partition("/")[2] == way}
        most = collections.Counter(its.values()).most_common(1)[0][0]
        found |= {way or "osd": most, **{side: limit for side, limit in its.items() if limit != most}}
    text = ",".join(f"{side}={limit}" for side, limit in found.items())
    return f" --limits {text}" + f" --ahead {ahead}" * bool(ahead)


def steps_of(groups: Mapping[str, Group], rounds: Mapping[str, Mapping[str, int]], plan: Plan, given: bool,
             disks: Disks | None, hold: bool) -> list[Step]:
    """The steps by their rounds. What holds each group where it was is in round 0. As Ceph counts, a step counts once
    at the group's primary; with `given` where each of its items does."""
    shifts, steps = {it.item: it for it in plan.shifts()}, []
    for name, those in rounds.items():
        group = groups[name]
        before, old, was = -1, group.old or [], group.before
        for at, osds, pairs in group.states(those, hold):
            items = {it: its for it, its in those.items() if before < its <= at}
            filler = None if given or not items else group.filler(was, osds, pairs)
            counts = counts_of([shifts[it] for it in items], filler, disks) if disks and items else {}
            steps.append(Step(at, name, "=" * group.shards + ",".join(map(str, osds)), pairs, [old], counts, items))
            before, was, old = at, osds, pairs
    return sorted(steps, key=lambda it: it.round)

"""What from-ceph and to-ceph read: the placement groups of a change, and their pools' rules. What cannot be carried out
is named."""
import argparse, functools, json, re
from collections.abc import Callable, Iterator, Mapping
from dataclasses import dataclass
from typing import NamedTuple
from ..command import Wrong, note, read_text, words
from .crush import Pairs, Rule, hashed, landed, paired

OSDS = r"\(\[([0-9,]*)\], p-?[0-9]+\)"
LINE = re.compile(rf"^([0-9]+\.[0-9a-f]+) raw {OSDS} up {OSDS} acting {OSDS}$", re.ASCII | re.M)
POOL = re.compile(r"^pool ([0-9]+) '.*' (replicated|erasure) (?:profile \S+ )?size ([0-9]+) min_size [0-9]+ "
                  r"crush_rule ([0-9]+) ", re.ASCII | re.M)
PLACED = re.compile(r"^pool ([0-9]+) '.*' .* pgp_num ([0-9]+) .*\bflags (\S+)", re.ASCII | re.M)
AFFINITY = re.compile(r"^osd\.([0-9]+) .* primary_affinity ([0-9.e-]+) ", re.ASCII | re.M)
NO_OSD = 2147483647
FILES = """

BEFORE, AFTER, DUMP and CRUSH are files with what these print. MAP is the cluster's map (ceph osd getmap -o MAP), and
CHANGE.. is as `--mark-out 5 --adjust-crush-weight 3:0.5`:
  osdmaptool MAP --clear-temp --test-map-pgs-dump-all >BEFORE
  osdmaptool MAP --clear-temp CHANGE.. --upmap-cleanup COMMANDS --test-map-pgs-dump-all >AFTER
  osdmaptool MAP --print >DUMP         or: ceph osd dump
  ceph osd crush dump >CRUSH           or: osdmaptool MAP --export-crush FILE; crushtool -i FILE --dump
With --hold the change is made already: BEFORE is of the old map, and the others are of the new one, without CHANGE."""


def without(osds: list[int], others: list[int]) -> list[int]:
    return [it for it in osds if it not in others]


class Item(NamedTuple):
    """A copy or a shard of a placement group, with its OSD before and after."""
    name: str
    source: int
    target: int


@dataclass
class Group:
    """A placement group: what CRUSH chooses for it while the commands run, and where it is before and after. A place in
    these lists is a shard's where the pool is erasure coded; else it means nothing. `old` are its exceptions now, None
    for a whole one; `shy` are OSDs that are not its primary where another can be, by their primary affinity."""
    name: str
    rule: Rule
    shards: bool
    size: int
    chosen: list[int]
    before: list[int]
    after: list[int]
    old: Pairs | None
    shy: frozenset[int] = frozenset()

    def differ(self, one: list[int], two: list[int]) -> bool:
        return one != two and (self.shards or set(one) != set(two))

    @functools.cached_property
    def items(self) -> list[Item]:
        """A shard keeps its place, a copy goes where it is near."""
        if self.shards:
            return [Item(f"{self.name}s{at}", *ends) for at, ends in enumerate(zip(self.before, self.after))]
        pairs = paired(without(self.before, self.after), without(self.after, self.before), self.rule, [])
        return [Item(f"{self.name}-{it}", it, pairs.get(it, it)) for it in self.before]

    def pairs(self, osds: list[int]) -> Pairs | str:
        """The pairs that put the group on these OSDs, or why there are none. Ceph takes the pairs in their order,
        passes over one whose second is there already, and keeps none whose first CRUSH did not choose: so what takes an
        OSD away stands before what brings it."""
        if len(set(osds)) < len(osds):
            return f"osd.{max(osds, key=osds.count)} would have two of its shards"
        if not self.shards:
            leave, come = without(self.chosen, osds), without(osds, self.chosen)
            return [*paired(leave, come, self.rule, self.old or []).items()]
        pairs, ordered = {one: two for one, two in zip(self.chosen, osds) if one != two}, []
        while pairs:
            first = next((one for one, two in pairs.items() if two not in pairs), None)
            if first is None:
                ring = " and ".join(f"osd.{it}" for it in pairs)
                return f"its shards on {ring} would change places, which exceptions cannot say"
            ordered.append((first, pairs.pop(first)))
        return ordered

    def exceptions(self, osds: list[int]) -> tuple[Pairs, str]:
        """The same, and why Ceph would not keep them."""
        pairs = self.pairs(osds)
        return ([], pairs) if isinstance(pairs, str) else (pairs, self.rule.broken(landed(self.chosen, pairs)))

    @functools.cached_property
    def last(self) -> tuple[Pairs, str]:
        """The same of where it is after."""
        return self.exceptions(self.after)

    def filler(self, before: list[int], after: list[int], pairs: Pairs | str = "") -> int:
        """The OSD that fills what comes to the group between these two states, the second by these exceptions where
        they are known, at which Ceph counts that: its acting primary meanwhile. Of shards it is that of the first one.
        Of copies it is the first of the new ones, if it has the data; where that one is new itself, Ceph takes of those
        that have the data that of the lowest number."""
        if self.shards:
            return next(it for it in before if it != NO_OSD)
        first = self.chosen[0]
        if self.shy or first not in after:
            pairs = pairs or self.pairs(after)
            order = landed(self.chosen, [] if isinstance(pairs, str) else pairs)
            first = next((it for it in order if it not in self.shy), order[0])
        return first if first in before else min(before)

    @functools.cached_property
    def counted_at(self) -> dict[str, int]:
        """The OSD at which Ceph counts each item beside its target, as if it moved alone; its own one where that is its
        target."""
        found = {}
        for name, source, target in self.items:
            first = target if source == target else self.filler(
                self.before, [target if it == source else it for it in self.before])
            found[name] = source if first == target else first
        return found

    def states(self, rounds: Mapping[str, int], hold: bool) -> Iterator[tuple[int, list[int], Pairs]]:
        """The OSDs of the group after each of its rounds in which the rule holds, and the exceptions then; with `hold`
        also before the first, as round 0. It holds in the last. `rounds` has the round in which an item goes."""
        late: list[str] = []
        broken = ""
        for at in sorted({*rounds.values(), *([0] if hold else [])}):
            osds = [target if rounds.get(name, at + 1) <= at else source for name, source, target in self.items]
            pairs, why = self.last if osds == self.after else self.exceptions(osds)
            if why:
                late.append(str(at))
                broken = why
                continue
            if late:
                note(f"placement group {self.name}: what round {' and '.join(late)} is to move goes in round {at}, "
                     f"since without that {broken}")
            late = []
            yield at, osds, pairs

    def turned(self, now: list[int], pairs: Pairs) -> "Group":
        """The way back from where these exceptions have put it."""
        return Group(self.name, self.rule, self.shards, self.size, self.chosen, now, self.before, pairs, self.shy)

    def refusal(self, then: list[int], hold: bool) -> str:
        """Why it cannot be carried out; empty where it can. `then` is what CRUSH chooses after the change."""
        for osds, when in ((self.before, "before"), (self.after, "after")):
            there = len(osds) - osds.count(NO_OSD)
            if there != self.size:
                return f"has {there} OSDs {when} the change, where its pool's size is {self.size}"
        if not self.differ(self.before, self.after):
            return ""
        if self.old is None:
            return f"has a whole exception (pg_upmap); remove it first: ceph osd rm-pg-upmap {self.name}"
        for osds in [self.before, self.after] if hold else [self.after]:
            if why := (self.last if osds is self.after else self.exceptions(osds))[1]:
                return f"cannot be held on {osds} by exceptions: {why}"
        last = landed(then, self.last[0])
        is_there = not self.differ(last, self.after)
        return "" if is_there else f"would be on {last} with its exceptions once the change is made"


Lists = dict[str, tuple[list[int], list[int]]]


def reader(doc: str | None, *names: str) -> argparse.ArgumentParser:
    """A reader of the words that both commands have, after these."""
    found = words((doc or "") + FILES, *names, "before", "after", "dump", "crush")
    found.add_argument("--hold", action="store_true", help="the weights are as AFTER already")
    return found


def numbers(text: str) -> list[int]:
    return [*map(int, filter(None, text.split(",")))]


def read_groups(path: str, cleaned: bool) -> Lists:
    """For each placement group the OSDs that CRUSH chooses, and those that it is on."""
    groups: Lists = {}
    text = read_text(path)
    for name, raw, wanted, acting in LINE.findall(text):
        chosen = numbers(raw)
        up = chosen if wanted == raw else numbers(wanted)
        if name in groups:
            raise Wrong(f"lists placement group {name} twice: write each file anew, and do not append", path)
        if wanted != acting:
            raise Wrong(f"{path}: placement group {name} is on {numbers(acting)} still, and goes to {up}: let its "
                        "backfill end, and add --clear-temp")
        groups[name] = chosen, up
    is_odd = any(up is not chosen and set(up) - {*chosen, NO_OSD} for chosen, up in groups.values())
    if cleaned and is_odd and not re.search("^checking for upmap cleanups$", text, re.M):
        raise Wrong("has exceptions that Ceph may drop with the change: add --upmap-cleanup COMMANDS", path)
    for osd in re.findall(r"^marking OSD@([0-9]+) as out$", text, re.M):
        note(f"{path} has osd.{osd} marked out; of several --mark-out osdmaptool takes the last alone")
    if not groups:
        raise Wrong("lists no placement group; this prints them: osdmaptool MAP --clear-temp --test-map-pgs-dump-all",
                    path)
    return groups


@dataclass(frozen=True)
class Pool:
    """Its rule, whether its groups have shards, and how many copies or shards a group has."""
    rule: Rule
    shards: bool
    size: int


def read_pools(dump: str, crush: str) -> tuple[dict[str, Pool], dict[str, Pairs | None]]:
    """The pools, and each group's exceptions, None for a whole one."""
    text, pools = read_text(dump), {}
    old: dict[str, Pairs | None] = {}
    if not re.search(r"^epoch [0-9]+$", text, re.M) or not POOL.search(text):
        raise Wrong("does not hold what `ceph osd dump` or `osdmaptool MAP --print` prints", dump)
    out = [int(it) for it in re.findall(r"^osd\.([0-9]+) +\S+ +\S+ +weight 0 ", text, re.M)]
    try:
        whole, wanted = json.loads(read_text(crush)), {rule for *_, rule in POOL.findall(text)}
        rules = {str(it["rule_id"]): Rule(it, whole, out) for it in whole["rules"] if str(it["rule_id"]) in wanted}
    except (ValueError, LookupError, TypeError):
        raise Wrong("does not hold what `ceph osd crush dump` prints", crush) from None
    for name, kind, size, rule in POOL.findall(text):
        if rule not in rules:
            raise Wrong(f"has no rule {rule}, which pool {name} of {dump} has", crush)
        pools[name] = Pool(rules[rule], kind == "erasure", int(size))
    for items, name, osds in re.findall(r"^pg_upmap(_items)? (\S+) \[([0-9,]*)\]", text, re.M):
        pairs = list(zip(numbers(osds)[::2], numbers(osds)[1::2]))
        old[name] = pairs if items and old.get(name, ()) is not None else None
    return pools, old


def read_shy(dump: str) -> Callable[[str], frozenset[int]]:
    """What tells of a placement group which OSDs are not its primary where another can be. By the affinity of an OSD
    Ceph draws that for each group of its own, from a number that groups share where pgp_num is less than pg_num."""
    text = read_text(dump)
    shy = {int(osd): float(it) for osd, it in AFFINITY.findall(text) if float(it) < 1}
    placed = {pool: (int(count), flags.split(",")) for pool, count, flags in PLACED.findall(text)}

    def of(name: str) -> frozenset[int]:
        pool, _, seed = name.partition(".")
        count, flags = placed.get(pool, (1, []))
        mask = (1 << (count - 1).bit_length()) - 1
        at = int(seed, 16) & mask
        at = at if at < count else at & mask >> 1
        draw = hashed(at, int(pool)) if "hashpspool" in flags else at + int(pool)
        return frozenset(it for it, most in shy.items() if hashed(draw, it) >> 16 >= most * 65536)

    return of if shy else lambda _: frozenset()


def read_change(given: argparse.Namespace, leave_out: bool) -> tuple[dict[str, Group], list[str]]:
    """The placement groups of the change, and those that cannot be carried out. These are named, and left out where
    that is asked for."""
    before, after = read_groups(given.before, False), read_groups(given.after, not given.hold)
    for name in before.keys() ^ after.keys():
        path = given.before if name in before else given.after
        raise Wrong(f"placement group {name} is in {path} alone: a change of pg_num is no move")
    pools, old = read_pools(given.dump, given.crush)
    groups, refused, shy = {}, list[str](), read_shy(given.dump)
    for name, (chosen, osds) in before.items():
        if not (pool := pools.get(name.partition(".")[0])):
            raise Wrong(f"has no pool for placement group {name}", given.dump)
        then, next_ = after[name]
        now, path = (next_, given.after) if given.hold else (osds, given.before)
        chosen = then if given.hold else chosen
        group = Group(name, pool.rule, pool.shards, pool.size, chosen, osds, next_, old.get(name, []), shy(name))
        if why := group.refusal(then, given.hold):
            note(f"placement group {name} {why}")
            refused.append(name)
            continue
        if group.old is not None and group.differ(landed(chosen, group.old), now):
            raise Wrong(f"is not of the map of {path}: its exceptions put placement group {name} elsewhere than on "
                        f"{now}", given.dump)
        groups[name] = group
    if refused and not leave_out:
        raise Wrong(f"{len(refused)} of {len(before)} placement groups cannot be carried out; --leave-out leaves them "
                    "where they are, and plans the others")
    if not groups:
        raise Wrong("no placement group is left")
    return groups, refused

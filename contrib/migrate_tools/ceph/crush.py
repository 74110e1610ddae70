"""What Ceph's rules ask of the OSDs of a placement group, and what Ceph makes of a group's exceptions."""
import math
from collections.abc import Iterable, Sequence
from typing import Any

Pairs = list[tuple[int, int]]


class Rule:
    """A rule of a CRUSH map, as Ceph judges exceptions by it."""

    def __init__(self, rule: dict[str, Any], crush: dict[str, Any], out: Iterable[int]) -> None:
        self.useless = set(out)
        parts: list[tuple[str, dict[int, dict[str, str]], list[tuple[bool, int, str]]]] = []
        self.buckets = {it["id"]: it for it in crush["buckets"]}
        above: dict[int, dict[str, str]] = {}  # the buckets that an OSD is in, by their kinds
        for step in rule["steps"]:
            if step["op"] == "take":
                below: dict[int, dict[str, str]] = {}
                self.walk(step["item"], {}, below)
                above = {**below, **above}
                parts.append((step["item_name"], below, []))
            elif step["op"].startswith("choose"):
                parts[-1][2].append((step["op"].startswith("chooseleaf"), step["num"], step["type"]))
        self.parts = [(root, below.keys() - self.useless, choices) for root, below, choices in parts]
        kinds = (it["name"] for it in sorted(crush["types"], key=lambda it: int(it["type_id"])) if it["type_id"])
        self.near = {kind: its for kind in kinds
                     if (its := {osd: path[kind] for osd, path in above.items() if kind in path})}

    def walk(self, id_: int, path: dict[str, str], below: dict[int, dict[str, str]]) -> None:
        """Gives each OSD below a bucket the buckets that it is in, by their kinds."""
        path = {**path, self.buckets[id_]["type_name"]: self.buckets[id_]["name"]}
        for item in self.buckets[id_]["items"]:
            if item["id"] < 0:
                self.walk(item["id"], path, below)
            else:
                below[item["id"]] = path
                self.useless |= {item["id"]} if item["weight"] == 0 else set()

    def broken(self, osds: Sequence[int]) -> str:
        """Why Ceph would drop exceptions that put a group on these OSDs; empty where it keeps them."""
        at = 0
        for root, useful, choices in self.parts:
            counts = [number if number > 0 else number + len(osds) for _, number, _ in choices]
            end = at + math.prod(counts)
            if odd := [it for it in osds[at:end] if it not in useful]:
                return f"osd.{odd[0]} is out, or has no weight below {root}"
            at = end
            for (leaf, _, kind), most in zip(choices, counts):
                its = self.near.get(kind, {})
                names = [its[it] for it in osds if it in its]
                used = set(names)
                if leaf and len(used) < len(names):
                    twice = next(it for it in used if names.count(it) > 1)
                    both = " and ".join(f"osd.{osd}" for osd in osds if its.get(osd) == twice)
                    return f"{both} would be in one {kind}, {twice}"
                if not leaf and len(used) > most:
                    return f"its OSDs would be in {len(used)} of the kind {kind}, where the rule has {most}"
        return ""


def paired(leave: Sequence[int], come: Sequence[int], rule: Rule, known: Pairs) -> dict[int, int]:
    """Which of these OSDs takes the place of which: as is known, then within a host, a rack and so on, then as they
    come."""
    if len(leave) == len(come) < 2:
        return dict(zip(leave, come))
    pairs, lone, left = dict[int, int](), list(leave), list(come)
    for one, two in known:
        if one in lone and two in left:
            pairs[one] = two
            lone.remove(one)
            left.remove(two)
    for its in rule.near.values():
        own, places = [*map(its.get, lone)], [*map(its.get, left)]
        if own == places and None not in own:
            break
        if {*own}.isdisjoint(places):
            continue
        for one, place in zip([*lone], own):
            if place and place in places:
                at = places.index(place)
                del places[at]
                pairs[one] = left.pop(at)
                lone.remove(one)
    pairs.update(zip(lone, left))
    return pairs


def landed(chosen: Sequence[int], pairs: Pairs) -> list[int]:
    """Where exceptions put a group for which CRUSH chose these OSDs."""
    osds = list(chosen)
    for one, two in pairs:
        if one in osds and two not in osds and one in chosen:
            osds[osds.index(one)] = two
    return osds


def hashed(one: int, two: int) -> int:
    """The hash of two numbers by which Ceph places and draws (rjenkins1)."""
    def mixed(a: int, b: int, c: int) -> tuple[int, int, int]:
        for left, up, right in ((13, 8, 13), (12, 16, 5), (3, 10, 15)):
            a = (a - b - c ^ c >> left) & 0xFFFFFFFF
            b = (b - c - a ^ a << up) & 0xFFFFFFFF
            c = (c - a - b ^ b >> right) & 0xFFFFFFFF
        return a, b, c

    one, two, all_ = mixed(one, two, 1315423911 ^ one ^ two)
    _, one, all_ = mixed(231232, one, all_)
    return mixed(two, 1232, all_)[2]

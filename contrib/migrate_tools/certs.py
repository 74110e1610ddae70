"""Certificates: reading and writing them, and what their bound says in words."""
import re
from collections.abc import Mapping
from dataclasses import dataclass
from .command import Wrong, read_text
from .disks import Disks, Side, is_split, limits_by_side

WAYS = {"": "", "out": "outgoing ", "in": "incoming "}


@dataclass(frozen=True)
class Bound:
    """What shows that rounds are needed: one disk or side of a disk or, where `is_set`, some disks; the transfers that
    count there, how many of them a round has at most, and the rounds that they need."""
    sides: list[Side]
    load: int
    most: int
    value: int
    is_set: bool = False

    def said(self) -> str:
        so = f"so no schedule has fewer than {self.value} round{'s' * (self.value != 1)}"
        transfers, way = f"transfer{'s' * (self.load != 1)}", WAYS[self.sides[0].way]
        if self.is_set:
            return f"among these {len(self.sides)} disks are {self.load} {transfers}, {so}"
        return f"{self.sides[0]}: it has {self.load} {way}{transfers} and the {way}limit {self.most}, {so}"

    def text(self) -> str:
        if self.is_set:
            return "\n".join([f"set {len(self.sides)} {self.load} {self.value}", *(it.disk for it in self.sides)])
        return f"{'side' if self.sides[0].way else 'disk'} {self.sides[0]} {self.load} {self.most} {self.value}"


@dataclass(frozen=True)
class Cert:
    """A certificate: the rounds of its plan and of the busiest disk, the class, and the bound, None where nothing
    moves."""
    form: int
    rounds: int
    quotient: int
    class_: str
    bound: Bound | None

    def text(self) -> str:
        bound = self.bound.text() if self.bound else "nothing"
        return (f"migration-certificate {self.form}\nrounds {self.rounds}\nquotient {self.quotient}\nclass "
                f"{self.class_}\nbound {bound}\nend\n")


def set_bound(sides: list[Side], load: int, value: int, limits: Mapping[Side, int]) -> Bound:
    return Bound(sides, load, sum(limits[it] for it in sides) // 2, value, True)


def read_cert(path: str, disks: Disks) -> Cert:
    """The certificate of a text, for these disks. Whether it is right is for `check` to judge; its form is judged
    here."""
    text, form = read_text(path), 1 + is_split(disks)
    if not text.startswith(f"migration-certificate {form}\n"):
        kind = "an outgoing and an incoming limit" if form == 2 else "one limit"
        raise Wrong(f"is no certificate for disks with {kind}: it does not begin with migration-certificate {form}",
                    path)
    head = re.fullmatch(r".*\nrounds (\d+)\nquotient (\d+)\nclass (\w+)\nbound (.*)\n((?:\S+\n)*)end\n", text, re.ASCII)
    if not head:
        raise Wrong("is no certificate; `migrate plan` writes one", path)
    one = re.fullmatch(r"(?:disk (\S+)|side (\S+) (out|in)) (\d+) (\d+) (\d+)", head[4], re.ASCII)
    many = re.fullmatch(r"set \d+ (\d+) (\d+)", head[4], re.ASCII)
    if not one and not many and head[4] != "nothing":
        raise Wrong(f"{path}: 'bound {head[4]}' is no bound; `migrate plan` writes one")
    sides = [Side(one[1] or one[2], one[3] or "")] if one else [Side(it) for it in head[5].split()] if many else []
    limits = limits_by_side(disks)
    for side in sides:
        if side not in limits:
            raise Wrong(f"names {side}, which is no disk of the disks file", path)
    bound = Bound(sides, int(one[4]), int(one[5]), int(one[6])) if one else None
    if many:
        bound = set_bound(sides, int(many[1]), int(many[2]), limits)
    return Cert(form, int(head[1]), int(head[2]), head[3], bound)

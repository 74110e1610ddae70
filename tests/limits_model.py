"""What an outgoing and an incoming limit of each disk ask of plans and certificates, counted here for the tests; and the rounds of first
come, first served: each move, in the order of the now file, in the first round in which there is a place at both ends."""
import collections, csv, re
from typing import NamedTuple


class Bound(NamedTuple):
    disk: str
    way: str
    load: int
    limit: int
    value: int


class Case:
    """The three files of a folder. A limit of a disk is that of a way: `out` and `in`, or one for both, named `both`."""

    def __init__(self, read):
        rows, self.now, next_ = (list(csv.reader(read(name).splitlines())) for name in ("disks.csv", "now.csv", "next.csv"))
        self.is_split = rows[0] == ["disk", "out", "in", "slots"]
        assert self.is_split or rows[0] == ["disk", "limit", "slots"], rows[0]
        ways = ("out", "in") if self.is_split else ("both",)
        self.limits = {row[0]: dict(zip(ways, map(int, row[1:-1]))) for row in rows[1:]}
        self.slots = {row[0]: int(row[-1]) for row in rows[1:]}
        self.spots, self.next = {item: (disk, int(slot)) for item, disk, slot in self.now[1:]}, dict(next_[1:])
        self.moves = [(item, disk, self.next[item]) for item, (disk, _) in self.spots.items() if self.next[item] != disk]

    def ends(self, source, target):
        """Where a move counts, a disk and a way each; it does so once where both are the same."""
        return {(source, "out"), (target, "in")} if self.is_split else {(source, "both"), (target, "both")}

    def loads(self, moves):
        return collections.Counter(end for source, target in moves for end in self.ends(source, target))

    def over(self, rounds):
        """The first round, disk and way with more moves than the limit, and the number of these; None where there is none."""
        for at, shifts in enumerate(rounds, 1):
            loads = self.loads((it[1], it[3]) for it in shifts)
            if all(load <= self.limits[disk][way] for (disk, way), load in loads.items()):
                continue
            for disk, limits in self.limits.items():
                for way, limit in limits.items():
                    if loads[disk, way] > limit:
                        return at, disk, way, loads[disk, way]
        return None

    def bound(self):
        """The first side of the greatest value: by the disks file, and outgoing before incoming."""
        loads, best = self.loads(it[1:] for it in self.moves), None
        for disk, limits in self.limits.items():
            for way, limit in limits.items():
                value = (loads[disk, way] + limit - 1) // limit
                if value > (best.value if best else 0):
                    best = Bound(disk, way, loads[disk, way], limit, value)
        return best

    def quotient(self):
        bound = self.bound()
        return bound.value if bound else 0

    def shifts(self):
        """The shift of each move, as words. Targets are the lowest free slots, in the order of the now file."""
        free, taken, found = collections.Counter(), set(self.spots.values()), []
        for item, source, target in self.moves:
            while (target, free[target]) in taken:
                free[target] += 1
            taken.add((target, free[target]))
            found.append([item, source, str(self.spots[item][1]), target, str(free[target])])
        return found

    def first_come(self):
        """The rounds of first come, first served, each as its shifts."""
        rounds, left = [], []
        for shift in self.shifts():
            ends, at = self.ends(shift[1], shift[3]), 0
            while at < len(left) and not all(left[at][end] for end in ends):
                at += 1
            if at == len(left):
                left.append({(disk, way): limit for disk, limits in self.limits.items() for way, limit in limits.items()})
                rounds.append([])
            for end in ends:
                left[at][end] -= 1
            rounds[at].append(shift)
        return rounds


def plan_text(rounds):
    body = "".join(f"round {at} {len(shifts)}\n" + "".join(" ".join(it) + "\n" for it in shifts) for at, shifts in enumerate(rounds, 1))
    return f"migration-plan 1\nrounds {len(rounds)}\n{body}end\n"


def shifts_of(text):
    """The shifts of a plan text, by rounds."""
    rounds = []
    for line in text.splitlines()[2:-1]:
        if re.fullmatch(r"round \d+ \d+", line):
            rounds.append([])
        else:
            rounds[-1].append(line.split())
    return rounds


def cert_text(case):
    """The certificate of a plan for split limits: it has as many rounds as the side needs that needs the most."""
    bound = case.bound()
    line = f"bound side {bound.disk} {bound.way} {bound.load} {bound.limit} {bound.value}" if bound else "bound nothing"
    return f"migration-certificate 2\nrounds {case.quotient()}\nquotient {case.quotient()}\nclass duplex\n{line}\nend\n"


def misses(case, plan, cert):
    """What a plan for split limits and its certificate, as texts, miss of what `plan` promises; nothing where all is right."""
    rounds = shifts_of(plan)
    wanted = {
        "each move once, to its target": (sorted(it for shifts in rounds for it in shifts), sorted(case.shifts())),
        "as many rounds as the quotient": (len(rounds), case.quotient()),
        "no round is empty": (all(rounds), True),
        "each limit is kept": (case.over(rounds), None),
        "the plan's text": (plan, plan_text(rounds)),
        "the certificate's text": (cert, cert_text(case)),
    }
    return {name: f"{str(found)[:200]}; wanted {str(right)[:200]}" for name, (found, right) in wanted.items() if found != right}

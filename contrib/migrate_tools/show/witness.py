"""witness PLAN DISKS CERT [--out FILE] [--seconds N]: looks for a better bound where `check` says `bounded`, and writes
a certificate with it.

`plan` looks at single disks, at sets of three, and at whole components. This looks at all sets of disks. A better bound
may show that the plan is optimal, or by how many rounds it may be too long. The new certificate is saved in FILE, or
printed; `migrate check` judges it. Where no better bound is found it is CERT as it is. What was found is said on
standard error. The search ends after N seconds, 60 where --seconds is left out, with the best set that it has by
then."""
import collections, time
from dataclasses import replace
from ..certs import Bound, Cert, read_cert, set_bound
from ..command import Wrong, command, note, put, words
from ..disks import Disks, Side, is_split, limits_by_side, read_disks
from ..plans import Plan, read_plan
from .cuts import Graph, Limits, OutOfTime, inside, needs_more, rounds_for


def graph_of(plan: Plan) -> Graph:
    """For each disk the disks with which it has transfers, and how many."""
    near: Graph = collections.defaultdict(collections.Counter)
    items = set()
    for it in plan.shifts():
        if it.item in items or it.source == it.target:
            does = "moves twice" if it.item in items else "stays on its disk"
            raise Wrong(f"{it.item} {does}, which no plan of `migrate plan` does")
        items.add(it.item)
        near[it.source][it.target] += 1
        near[it.target][it.source] += 1
    return near


def better(cert: Cert, shown: Bound, near: Graph, disks: Disks, seconds: float) -> tuple[Bound, bool]:
    """The best bound, and whether the search came to its end."""
    by_side = limits_by_side(disks)
    limits: Limits = {side.disk: limit for side, limit in by_side.items()}
    loads = {it: sum(others.values()) for it, others in near.items()}
    rounds, first = max(((-(-loads[it] // limits[it]), it) for it in loads), key=lambda it: it[0])
    own, end = Bound([Side(str(first))], loads[first], limits[first], rounds), time.monotonic() + seconds
    best = max(shown, own, key=lambda it: it.value)
    try:
        while best.value < cert.rounds and (found := needs_more(near, limits, best.value, end)):
            sides = [Side(it) for it in disks if it in found]
            best = set_bound(sides, inside(near, found), rounds_for(near, limits, found), by_side)
    except OutOfTime:
        return best, False
    return best, True


def said(cert: Cert, shown: Bound, best: Bound, ended: bool) -> str:
    """What was found, in a sentence."""
    rounds = f"the plan has {cert.rounds}"
    if best.value < cert.rounds and not ended:
        return f"the time is over; the best bound so far is {best.value} rounds, and {rounds}"
    if best.value == shown.value:
        return f"no set of disks needs more than {best.value} rounds; {rounds}, and a shorter one may or may not exist"
    whom = f"a set of {len(best.sides)} disks" if best.is_set else f"disk {best.sides[0]}"
    found = f"{whom} needs {best.value} rounds, where {shown.value} were shown; {rounds}"
    return f"{found}, so it is optimal" if best.value == cert.rounds else f"{found}, and no set of disks needs more"


@command
def main() -> None:
    reader = words(__doc__, "plan", "disks", "cert")
    reader.add_argument("--out", metavar="FILE",
                        help="where the certificate is saved; it is printed where this is left out")
    reader.add_argument("--seconds", metavar="N", type=float, default=60,
                        help="when the search ends; 60 where this is left out")
    given = reader.parse_args()
    plan = read_plan(given.plan)
    disks = read_disks(given.disks, plan)
    cert, near = read_cert(given.cert, disks), graph_of(plan)
    if cert.rounds != len(plan.rounds) or bool(cert.bound) != bool(near):
        raise Wrong("is the certificate of another plan", given.cert)
    if is_split(disks):
        note("the disks have an outgoing and an incoming limit each; then one side of a disk always shows the best "
             "bound, and there is no better one")
    elif not cert.bound or cert.bound.value >= cert.rounds:
        note(f"the plan has {cert.rounds} rounds, which the bound shows to be needed: it is optimal, and there is no "
             "better bound")
    else:
        best, ended = better(cert, cert.bound, near, disks, given.seconds)
        note(said(cert, cert.bound, best, ended))
        cert = replace(cert, bound=best)
    put(cert.text(), given.out, (given.plan, given.disks, given.cert))

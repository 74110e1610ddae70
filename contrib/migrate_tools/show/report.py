"""report PLAN DISKS NOW [CERT] [--out FILE]: makes one page of HTML about a plan, which any browser shows without a
network.

It says why no schedule is shorter, by the bound of CERT, and which disks are busiest; and has a picture of the plan, a
row for each disk and a column for each round, with a slider over the rounds: how full each disk is after the round, and
what is transferred in it. Without CERT, which `migrate plan-tight` does not make, no bound is shown. The page ends with
#round=N to begin at round N. It is made from report.html of this package."""
import collections, html, json, os
from collections.abc import Mapping
from ..certs import Bound, Cert, read_cert
from ..command import Wrong, command, put, read_text, words
from ..disks import Disks, Side, is_split, limits_by_side, loads_of, read_disks
from ..plans import Plan, number, read_plan, read_rows

MOST_BUSY = 10


def plural(count: int, word: str) -> str:
    return f"{count} {word}{'s' * (count != 1)}"


def used_slots(plan: Plan, disks: Disks, path: str) -> dict[str, int]:
    """For each disk the slots that are in use before the first round. Refuses a plan that does not fit the now file."""
    spots: dict[str, tuple[str, int]] = {}
    for at, (item, disk, slot) in read_rows(path, "item,disk,slot"):
        if disk not in disks:
            raise Wrong(f"there is no disk {disk}", path, at)
        spots[item] = disk, number(slot, 0, disks[disk].slots - 1, path, at)
    used = collections.Counter(disk for disk, _ in spots.values())
    for at, shifts in enumerate(plan.rounds, 1):
        for it in shifts:
            if spots.get(it.item) != (it.source, it.source_slot):
                raise Wrong(f"round {at}: {it.item} is not at slot {it.source_slot} of {it.source} by {path}; it is of "
                            "another plan")
            spots[it.item] = it.target, it.target_slot
    return used


def rounds_needed(bound: Bound, limits: Mapping[Side, int]) -> str:
    """Why the bound's rounds are needed, in sentences."""
    name, transfers = f"<b>{bound.sides[0].disk}</b>", plural(bound.load, "transfer")
    if bound.is_set:
        why = (f"Among {len(bound.sides)} disks are {transfers}. Each takes a place at two of them, and together they "
               f"have {sum(limits[it] for it in bound.sides)} places in a round, so at most {bound.most} of these "
               "transfers can run at once.")
    else:
        why = {"": f"{name} takes part in {transfers}, in", "out": f"{transfers} leave {name},",
               "in": f"{transfers} reach {name},"}[bound.sides[0].way] + f" at most {bound.most} at once."
    return f"{why} That needs {plural(bound.value, 'round')}: {bound.load} / {bound.most}, rounded up."


def why_not_shorter(plan: Plan, cert: Cert | None, limits: Mapping[Side, int]) -> str:
    """The heading and the sentences about the bound, and its disks where they are several."""
    if cert is None:
        go = "go" if plan.parked() > 1 else "goes"
        parked = f" {plural(plan.parked(), 'transfer')} of this plan {go} on from where an item was parked."
        return ("<h2>How short a schedule can be</h2>\n<p>No certificate was given, so that nothing is said of "
                f"it.{parked if plan.parked() else ''}</p>")
    if not cert.bound:
        return "<h2>Why no schedule is shorter</h2>\n<p>Nothing is to be moved.</p>"
    rounds, least = len(plan.rounds), cert.bound.value
    head, last = "Why no schedule is shorter", "<strong>No schedule is shorter.</strong>"
    if rounds != least:
        head = "How short a schedule can be"
        last = (f"<strong>No schedule has fewer than {plural(least, 'round')}.</strong> Whether one has fewer than "
                f"{rounds} is not known; <code>contrib/witness</code> looks for a better bound.")
    chips = f"<p class=chips>{' '.join(f'<span>{it.disk}</span>' for it in cert.bound.sides)}</p>" * cert.bound.is_set
    return f"<h2>{head}</h2>\n<p>{rounds_needed(cert.bound, limits)} The plan has {rounds}. {last}</p>{chips}"


def busiest(plan: Plan, disks: Disks, marked: set[str]) -> tuple[dict[str, int], str]:
    """For each disk the rounds that it needs for its own transfers; and the rows of the busiest ones."""
    at, limits = loads_of(plan.shifts(), disks), limits_by_side(disks)
    ways = {name: [Side(name, way) for way in disks[name].limits.by_way()] for name in disks}
    needs = {name: max(-(-at[side] // limits[side]) for side in ways[name]) for name in disks}
    order = sorted((it for it in disks if needs[it]),
                   key=lambda it: (-needs[it], -sum(at[side] for side in ways[it]), it))
    rows = []
    for name in order[:MOST_BUSY]:
        transfers = "<br>".join(f"{at[side]} {side.way}".rstrip() for side in ways[name])
        rows.append(f"<tr{' class=marked' * (name in marked)}><th>{name}<td>{transfers}<td>"
                    f"{'<br>'.join(str(limits[side]) for side in ways[name])}<td>{needs[name]}<td><span class=bar>"
                    f"<i style=\"width:{100 * needs[name] / max(1, len(plan.rounds)):.1f}%\"></i></span>")
    rows += [f"<tr><td colspan=5>and {len(order) - MOST_BUSY} more"] * (len(order) > MOST_BUSY)
    return needs, "\n".join(rows)


def page_of(plan: Plan, disks: Disks, used: Mapping[str, int], cert: Cert | None, path: str) -> str:
    """The page of a plan, which has this path. `used` has the slots in use before the first round."""
    marked = {it.disk for it in cert.bound.sides} if cert and cert.bound else set()
    needs, rows = busiest(plan, disks, marked)
    numbers = {name: at for at, name in enumerate(disks)}
    data = {"disks": [[name, used[name], it.slots, list(it.limits), needs[name], name in marked]
                      for name, it in disks.items()],
            "split": is_split(disks),
            "rounds": [[[it.item, numbers[it.source], numbers[it.target]] for it in shifts] for shifts in plan.rounds]}
    page = read_text(os.path.join(os.path.dirname(os.path.realpath(__file__)), "report.html"))
    counts = plural(len(plan.shifts()), "transfer"), plural(len(plan.rounds), "round"), plural(len(disks), "disk")
    title = "{} in {} on {}".format(*counts)
    places = {"TITLE": title, "PLAN": html.escape(os.path.basename(path)),
              "WHY": why_not_shorter(plan, cert, limits_by_side(disks)), "BUSIEST": rows,
              "DATA": json.dumps(data, separators=(",", ":"))}
    for place, text in places.items():
        page = page.replace("{{" + place + "}}", text)
    return page


@command
def main() -> None:
    reader = words(__doc__, "plan", "disks", "now")
    reader.add_argument("cert", metavar="CERT", nargs="?")
    reader.add_argument("--out", metavar="FILE", help="where the page is saved; it is printed where this is left out")
    given = reader.parse_args()
    plan = read_plan(given.plan)
    disks = read_disks(given.disks, plan)
    used, cert = used_slots(plan, disks, given.now), read_cert(given.cert, disks) if given.cert else None
    if cert and cert.rounds != len(plan.rounds):
        raise Wrong("is the certificate of another plan", given.cert)
    put(page_of(plan, disks, used, cert, given.plan), given.out,
        [it for it in (given.plan, given.disks, given.now, given.cert) if it])

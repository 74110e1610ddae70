"""plan-ceph [--out OSD].. [--reweight OSD:WEIGHT].. [--balance [POOL]] --into FOLDER: plans a change of a Ceph cluster,
from its map to scripts. Nothing of the cluster is changed by it.

It reads the map, asks the OSDs for osd_max_backfills, looks by osdmaptool where each placement group is and where it
will be, plans, checks, and writes into FOLDER: move.sh, which brings the copies where the change will want them;
change.sh, which makes the change itself, for which then nothing moves; back.sh, which undoes what move.sh has done so
far, while the change is not made; report.html; and all that these were made from, as `from-ceph`, `migrate plan` and
`to-ceph` have it. --balance takes the moves that `osdmaptool --upmap` chooses, after the change where there is one.
  plan-ceph --continue SCRIPT --into FOLDER   plans what is left of a script anew, from the cluster as it is: to where
                                              each group of it was to go, as far as Ceph still lets it
  plan-ceph --make FOLDER [-n]                what change.sh calls: looks which groups would move for the change now,
                                              makes it where the plan moves none of them, in one epoch where it can
A plan that would fill an OSD past nearfull in any round is refused, with the OSD and the round."""
import argparse, collections, gc, json, os, re, shlex
from collections.abc import Mapping, Sequence
from ..certs import read_cert
from ..command import Wrong, command, here, note, put, read_text, save_all, words
from ..disks import Disks, read_disks
from ..plans import MOST_DISKS, MOST_ITEMS, Plan, read_plan, table
from ..sizes import size_rows
from ..whole import FILES, Planner
from . import large
from .ceph_step import read_script
from .change import make
from .cluster import Silent, all_of, backfills_of, ceph
from .crush import landed
from .from_ceph import case_of, files_of
from .groups import Group, read_change, read_groups, read_pools
from .maps import DUMP, Change, Maps
from .sizes import bytes_of, check_rooms, fullest, rooms_of, rows_of, sizes_of
from .steps import Step, counts_of, limits_text, read_rounds, steps_of
from .to_ceph import script

FOUR = ("before", "after", "dump", "crush")
CHANGE = r"""#!/bin/sh
# Makes the change itself, after move.sh is through: WHAT. It looks first which groups would move for it, and makes
# it only where the plan moves none of these. With -n it looks, and prints the commands.
PATH=$PATH:FOLDER
exec plan-ceph --make "$(dirname "$0")" "$@"
"""


def listed(groups: Mapping[str, tuple[Sequence[int], Sequence[int]]]) -> str:
    """As osdmaptool prints groups."""
    lines = ["checking for upmap cleanups\n"]
    for name, both in groups.items():
        one, two = (f"([{','.join(map(str, it))}], p{it[0] if it else -1})" for it in both)
        lines.append(f"{name} raw {one} up {two} acting {two}\n")
    return "".join(lines)


class CephPlanner(Planner):
    """Plans a change of a cluster."""

    def __init__(self, folder: str) -> None:
        super().__init__(folder)
        self.maps = Maps(self.folder)

    def look(self) -> None:
        """The cluster as it is: its map, where its groups are, how full its OSDs are."""
        osds, pgs, df = all_of(["osd", "dump"], ["pg", "dump"], ["osd", "df"])
        rows = rows_of(pgs)
        if busy := [it["pgid"] for it in rows if not {"active", "clean"} <= set(it["state"].split("+"))]:
            raise Wrong(f"{len(busy)} placement groups are not active and clean, as {busy[0]}: let that end first")
        ceph("osd", "getmap", "-o", self.at("map"))
        self.maps.save("before", self.maps.osdmaptool("map", *DUMP.split()))
        self.maps.save("dump", self.maps.osdmaptool("map", "--print"))
        self.bytes = bytes_of(rows)
        kept = [{"pgid": name, "stat_sum": {"num_bytes": it}} for name, it in self.bytes.items()]
        self.maps.save("pgs.json", json.dumps({"pg_stats": kept}))
        self.crush, self.nearfull, self.rooms = self.maps.crush("map"), float(osds["nearfull_ratio"]), rooms_of(df)

    def change(self, change: Change, balance: str | None, deviation: int, most: int) -> None:
        """AFTER, by osdmaptool."""
        self.maps.changed("map", "next", change, self.crush)
        if balance is not None:
            self.maps.osdmaptool("next", "--upmap-cleanup", "cleanup", "--save")
            pool = ["--upmap-pool", balance] if balance else []
            self.maps.osdmaptool("next", "--upmap", "balance", "--upmap-deviation", str(deviation), "--upmap-max",
                                 str(most), *pool, "--save")
        self.maps.placed("next", "after")

    def go_on(self, steps: Sequence[Step]) -> None:
        """AFTER, where the last step of each group was to bring it, as far as Ceph keeps its exceptions now."""
        last = {it.group: it for it in steps}
        before, pools = read_groups(self.at("before"), False), read_pools(self.at("dump"), self.at("crush"))[0]
        after: dict[str, tuple[list[int], list[int]]] = {}
        there = 0
        for name, (chosen, up) in before.items():
            to = landed(chosen, last[name].pairs) if name in last else up
            if pools[name.partition(".")[0]].rule.broken(to):
                to = chosen
            there += name in last and sorted(to) == sorted(up)
            after[name] = chosen, to
        self.maps.save("after", listed(after))
        note(f"{there} of {len(last)} placement groups are where they were to go; the others are planned anew")

    def backfills(self, groups: Mapping[str, Group]) -> list[str]:
        """The words of --backfills for osd_max_backfills, as the OSDs that take part have it."""
        osds = sorted({osd for group in groups.values() for it in group.items if it.source != it.target
                       for osd in (group.counted_at[it.name], it.target)})
        most = backfills_of(osds)
        common = collections.Counter(most.values()).most_common(1)[0][0]
        odd = [f"{osd}={count}" for osd, count in most.items() if count != common]
        note(f"osd_max_backfills is {common}" + ", and another at some OSDs" * bool(odd))
        return [str(common), *odd]

    def plan(self, sub: str, groups: Mapping[str, Group], backfills: Sequence[str]) -> tuple[Plan, Disks, str]:
        """Plans the change of these groups in a folder, and gives the verdict too."""
        shifts, limits = case_of(groups, backfills)
        files = files_of(shifts, limits)
        if not sub:
            self.sizes = sizes_of(self.bytes, self.at("pgs.json"), self.at("dump"), groups, shifts)
            files["bytes.csv"] = size_rows(self.sizes)
        save_all({os.path.join(self.at(sub), name): table(rows) for name, rows in files.items()})
        disks = read_disks(self.at(os.path.join(sub, "disks.csv")))
        if len(limits) > MOST_DISKS or len(shifts) > MOST_ITEMS:
            plan, verdict = large.plan(self, sub, shifts, disks)
            return plan, disks, verdict
        self.migrate("plan", *FILES, "cert.txt", sub=sub)
        return read_plan(self.at(os.path.join(sub, "plan.txt"))), disks, self.checked(sub)

    def back(self, groups: Mapping[str, Group], steps: Sequence[Step], backfills: Sequence[str]) -> tuple[str, str]:
        """back.sh and its verdict: one step for each group, from any state in which move.sh leaves it."""
        homes, starts = dict(groups), collections.defaultdict(list)
        for step in steps:
            starts[step.group].append(step.pairs)
        for name, step in {it.group: it for it in steps}.items():
            homes[name] = groups[name].turned(step.osds(), step.pairs)
            if why := homes[name].refusal(homes[name].chosen, False):
                note(f"placement group {name} {why}")
                del homes[name]
        plan, disks, verdict = self.plan("back", homes, backfills)
        shifts, found = {it.item: it for it in plan.shifts()}, []
        for name, rounds in read_rounds(plan, self.at("back/plan.txt"), homes)[0].items():
            group = homes[name]
            counts = counts_of([shifts[it] for it in rounds], group.filler(group.before, group.after), disks)
            order = "=" * group.shards + ",".join(map(str, group.after))
            found.append(Step(min(rounds.values()), name, order, groups[name].old or [], starts[name], counts, rounds))
        found.sort(key=lambda it: it.round)
        return script(found, plan.digest.hex(), limits_text(disks, 1)), verdict

    def write(self, change: Change) -> str:
        """Plans, checks, and writes the scripts; gives what is said of it."""
        given = argparse.Namespace(hold=False, **{name: self.at(name) for name in FOUR})
        groups, left = read_change(given, True)
        moving = {name: it for name, it in groups.items() if it.differ(it.before, it.after)}
        if not moving:
            raise Wrong("no placement group moves for this, so there is nothing to plan")
        backfills = self.backfills(moving)
        plan, disks, verdict = self.plan("", groups, backfills)
        found = fullest(plan, groups, self.sizes, self.rooms)
        check_rooms(found, self.nearfull)
        rounds, is_given = read_rounds(plan, self.at("plan.txt"), groups)
        steps = steps_of(groups, rounds, plan, is_given, disks, False)
        files = {"move.sh": script(steps, plan.digest.hex(), limits_text(disks, 1))}
        files["back.sh"], back = self.back(groups, steps, backfills)
        kept = {"out": list(change.out), "weights": dict(change.weights), "left_out": left}
        if change.said():
            files["change.sh"] = CHANGE.replace("WHAT", change.said()).replace("FOLDER", shlex.quote(here()))
        save_all({self.at("change.json"): json.dumps(kept) + "\n"})
        save_all({self.at(name): text for name, text in files.items()}, mode=0o755)
        used = collections.Counter([it.source for it in plan.shifts()])
        self.report(plan, disks, used, read_cert(self.at("cert.txt"), disks))
        return self.told(plan, found, verdict, back, files)

    def told(self, plan: Plan, found: Mapping[int, tuple[float, int]], verdict: str, back: str,
             files: Mapping[str, str]) -> str:
        """What an operator decides by."""
        bound = next((it for it in read_text(self.at("cert.txt")).split("\n") if it.startswith("bound ")), "")
        lines = [f"the way back: {back}"]
        if found:
            osd, (part, at) = max(found.items(), key=lambda it: it[1])
            lines.insert(0, f"fullest: osd.{osd} with {part:.1%}, in round {at}; nearly full is {self.nearfull:.0%}")
        names = [it for it in ("move.sh", "change.sh", "back.sh", "report.html") if it in files or it[-1] == "l"]
        return self.lines(plan, f"{len(plan.shifts())} copies", f"{verdict}, {bound}", self.sizes, lines, names)


def read_words() -> argparse.Namespace:
    reader = words(__doc__)
    add = reader.add_argument
    add("--out", metavar="OSD", action="append", default=[], help="an OSD that is to be out; several times, or 5,6")
    add("--reweight", metavar="OSD:WEIGHT", action="append", default=[], help="the new crush weight of an OSD")
    add("--balance", metavar="POOL", nargs="?", const="", help="the moves that osdmaptool --upmap chooses")
    add("--deviation", metavar="N", type=int, default=1, help="of --balance: copies more or less than an even part")
    add("--most", metavar="N", type=int, default=1000, help="of --balance: at most so many exceptions")
    add("--continue", dest="script", metavar="SCRIPT", help="plans what is left of this script")
    add("--make", metavar="FOLDER", help="makes the change that is planned in this folder")
    add("-n", dest="only_print", action="store_true", help="with --make: looks, and prints the commands alone")
    add("--into", metavar="FOLDER", help="where all is written")
    given = reader.parse_args()
    is_change = bool(given.out or given.reweight or given.balance is not None)
    count = is_change + (given.script is not None) + (given.make is not None)
    if count != 1 or (given.into is None) != (given.make is not None):
        reader.error("say a change (--out, --reweight, --balance) or --continue, and --into; or --make alone")
    return given


def change_of(given: argparse.Namespace) -> Change:
    outs = [it.removeprefix("osd.") for text in given.out for it in text.split(",")]
    weights = dict(it.removeprefix("osd.").partition(":")[::2] for text in given.reweight for it in text.split(","))
    for it in [*outs, *weights]:
        if not re.fullmatch("[0-9]{1,9}", it):
            raise Wrong(f"'{it}' is no OSD")
    for osd, weight in weights.items():
        if not re.fullmatch(r"[0-9]{1,6}(\.[0-9]{1,6})?", weight):
            raise Wrong(f"--reweight {osd}:{weight} is no weight")
    return Change([int(it) for it in outs], {int(osd): weight for osd, weight in weights.items()})


@command
def main() -> None:
    given = read_words()
    gc.disable()  # what is made here holds no rings, and is much
    try:
        if given.make is not None:
            return make(given.make, given.only_print)
        change = change_of(given)
        steps = read_script(given.script) if given.script else []
        planner = CephPlanner(given.into)
        planner.look()
        if steps:
            planner.go_on(steps)
        else:
            planner.change(change, given.balance, given.deviation, given.most)
        return put(planner.write(change))
    except Silent as why:
        raise Wrong(f"{why}; nothing was changed") from None
    except OSError as error:
        raise Wrong(f"{error.filename}: {error.strerror}") from None

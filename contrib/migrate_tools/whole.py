"""What plan-lvm, plan-folders and plan-ceph share: from the three files to a plan, its way back, and what an operator
decides by."""
import argparse, collections, os, re, shutil, subprocess, time
from collections.abc import Callable, Iterable, Mapping, Sequence
from .calls import output
from .certs import Cert, read_cert
from .command import Wrong, here, read_text, save_all, words
from .disks import Disks, Side, is_split, limits_by_side, read_disks, sides_of
from .fullness import Room, fullest
from .plans import Plan, Shift, plan_text, read_plan, read_rows, table
from .show.report import page_of, used_slots
from .show.summary import queue, times_of
from .sizes import amount, read_sizes, said
from .waiting import needed

FILES, NOW = ("disks.csv", "now.csv", "next.csv", "plan.txt"), "item,disk,slot"


def reader_of(doc: str | None, options: Iterable[str]) -> argparse.ArgumentParser:
    """A reader of a command's words, of which `handed` has those that it hands on, as they are given."""
    reader = words(doc)
    reader.add_argument("--into", metavar="FOLDER", required=True, help="where all is written")
    reader.add_argument("--rate", metavar="N", type=amount,
                        help="the bytes that one transfer moves in a second, as 100M; read for a second where left out")
    for it in options:
        reader.add_argument(f"--{it}", metavar=it.upper(), dest="handed", action="append", type=f"--{it}={{}}".format)
    reader.add_argument("--spread", dest="handed", action="append_const", const="--spread")
    reader.set_defaults(handed=[])
    return reader


def measured(path: str) -> int | None:
    """The bytes a second at which this is read, for a second at most; None where there is nothing to be read."""
    try:
        with open(path, "rb", buffering=0) as file:
            os.posix_fadvise(file.fileno(), 0, 0, os.POSIX_FADV_DONTNEED)
            begun, count = time.monotonic(), 0
            while data := file.read(1 << 20):
                count += len(data)
                if time.monotonic() > begun + 1:
                    break
            return int(count / (time.monotonic() - begun)) if count else None
    except OSError:
        return None


def turned(plan: Plan, disks: Disks) -> list[list[Shift]]:
    """The same plan backwards. Where limits are split its rounds are dealt anew: what left a disk then reaches it."""
    back = [[Shift(it.item, it.target, it.target_slot, it.source, it.source_slot) for it in round_]
            for round_ in reversed(plan.rounds)]
    if not is_split(disks):
        return back
    shifts, limits, at = [it for round_ in back for it in round_], limits_by_side(disks), list[int]()
    used: collections.Counter[tuple[int, Side]] = collections.Counter()
    for it, before in zip(shifts, needed(shifts)):
        number = 1 + max((at[other] for other in before), default=-1)
        while any(used[number, side] >= limits[side] for side in sides_of(it, disks)):
            number += 1
        at.append(number)
        used.update((number, side) for side in sides_of(it, disks))
    found: list[list[Shift]] = [[] for _ in range(max(at, default=-1) + 1)]
    for it, number in zip(shifts, at):
        found[number].append(it)
    return found


class Planner:
    """A folder in which a plan and its way back are made. `program` is `migrate`."""

    def __init__(self, folder: str) -> None:
        self.folder, self.said = os.path.abspath(folder), folder
        if os.path.exists(self.at("move.sh")):
            raise Wrong("has a plan with its way back already: name another folder", folder)
        os.makedirs(self.at("back"), exist_ok=True)
        beside = os.path.join(os.path.dirname(here()), "migrate")
        self.program = beside if os.access(beside, os.X_OK) else shutil.which("migrate") or beside

    def at(self, name: str) -> str:
        return os.path.join(self.folder, name)

    def command(self, name: str, *words_: str) -> str:
        """What a command of these prints, in the folder."""
        return output(os.path.join(here(), name), *words_, folder=self.folder, passes=True)

    def migrate(self, *words_: str, sub: str = "") -> str:
        return output(self.program, *words_, folder=self.at(sub), passes=True)

    def checked(self, sub: str = "") -> str:
        """The verdict on a plan."""
        return self.migrate("check", *FILES, "cert.txt", sub=sub).strip()

    def report(self, plan: Plan, disks: Disks, used: Mapping[str, int], cert: Cert | None) -> None:
        save_all({self.at("report.html"): page_of(plan, disks, used, cert, "plan.txt")})

    def lines(self, plan: Plan, what: str, verdict: str, sizes: Mapping[str, int], more: Iterable[str],
              scripts: Iterable[str]) -> str:
        """What is said of the plan, and where all is."""
        first = f"{what} move, {said(sum(sizes[it.item] for it in plan.shifts()))}, in {len(plan.rounds)} rounds: "
        return "\n".join([first + verdict, *more, *(os.path.join(self.said, it) for it in scripts), ""])


class WishPlanner(Planner):
    """Plans a wish of plan-lvm or plan-folders, also where space is tight."""

    def plan(self, names_back: Callable[[str, Plan], str]) -> tuple[Plan, Plan]:
        """The plan and its way back, both checked; `names_back` makes the names.csv of the way back."""
        ran = subprocess.run([self.program, "plan", *FILES, "cert.txt"], cwd=self.folder, capture_output=True,
                             text=True, check=False)
        self.is_tight = ran.returncode == 3 and "no room" in ran.stdout
        if self.is_tight:
            self.migrate("plan-tight", *FILES)
        elif ran.returncode:
            raise Wrong(f"{self.program} plan ended with status {ran.returncode}: {ran.stdout}{ran.stderr}".strip())
        self.verdict, plan = self.judged(), read_plan(self.at("plan.txt"))
        self.back(plan)
        self.way_back = self.judged("back")
        save_all({self.at("back/names.csv"): names_back(self.at("names.csv"), plan)})
        return plan, read_plan(self.at("back/plan.txt"))

    def judged(self, sub: str = "") -> str:
        """The verdict on a plan; of one for tight space whether it leads to the next file."""
        if not self.is_tight:
            return self.checked(sub)
        last = self.migrate("after-tight", *FILES, sub=sub).splitlines()
        if [it.rpartition(",")[0] for it in last] != read_text(os.path.join(self.at(sub), "next.csv")).splitlines():
            raise Wrong("does not lead to next.csv", os.path.join(self.at(sub), "plan.txt"))
        return "followed to its end, one at a time"

    def back(self, plan: Plan) -> None:
        """Makes the way back: the same plan backwards."""
        disks, rows = read_disks(self.at("disks.csv")), [row for _, row in read_rows(self.at("now.csv"), NOW)]
        last = {it.item: (it.target, it.target_slot) for it in plan.shifts()}
        now = [[item, *last.get(item, (disk, slot))] for item, disk, slot in rows]
        save_all({self.at("back/now.csv"): table([NOW.split(","), *now]),
                  self.at("back/next.csv"): table([["item", "disk"], *(row[:2] for row in rows)]),
                  self.at("back/disks.csv"): read_text(self.at("disks.csv"))})
        files = {self.at("back/plan.txt"): plan_text(turned(plan, disks))}
        if not self.is_tight:
            self.migrate("plan", *FILES, "cert.txt", sub="back")
            count = files[self.at("back/plan.txt")].split("\n")[1]
            cert = read_text(self.at("back/cert.txt"))
            files[self.at("back/cert.txt")] = re.sub(r"^rounds \d+$", count, cert, count=1, flags=re.M)
        save_all(files)

    def told(self, rate: int | None, source: str, name: str, rooms: Mapping[str, Room], steps: Sequence[float] | None,
             unit: float) -> str:
        """Makes the report, and says what an operator decides by. Without a rate the `source`, which has this name, is
        read."""
        plan, disks = read_plan(self.at("plan.txt")), read_disks(self.at("disks.csv"))
        cert = None if self.is_tight else read_cert(self.at("cert.txt"), disks)
        self.report(plan, disks, used_slots(plan, disks, self.at("now.csv")), cert)
        sizes, lines = read_sizes(self.at("bytes.csv"), plan) or {}, []
        if cert:
            lines += [f"bottleneck {cert.bound.said()}"] if cert.bound else []
            lines.append(f"first come, first served: {queue(plan, disks, self.at('now.csv'))} rounds")
        rate, by = (rate, "as is given") if rate else (measured(source), f"as {name} is read")
        lines += [*times_of(plan, rate, unit, sizes, disks, steps)[0], f"  with {said(rate)} a second, {by}"
                  ] if rate else ["how long it takes is not known: say --rate"]
        moves = ([(it.item, it.source, it.target) for it in round_] for round_ in plan.rounds)
        peaks = {disk: peak for disk, peak in fullest(moves, sizes, rooms).items() if peak[0] > rooms[disk].part()}
        for disk, (part, at) in sorted(peaks.items(), key=lambda it: (-it[1][0], it[0]))[:5]:
            lines.append(f"disk {disk} is {100 * part:.0f} % full at most, in round {at}")
        lines.append(f"way back: {self.way_back}")
        count, all_ = len({it.item for it in plan.shifts()}), len(read_rows(self.at("now.csv"), NOW))
        what, scripts = f"{count} of {all_} items", ("move.sh", "back.sh", "report.html")
        return self.lines(plan, what, self.verdict, sizes, lines, scripts)

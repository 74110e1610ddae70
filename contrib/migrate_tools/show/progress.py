"""progress PLAN [--place FILE | --log FILE | --journal FILE] [--sizes BYTES] [--json | --metrics] [OPTION..]: shows
how far a plan is, and when it will be done.

Where a plan parks items it counts transfers in place of items. It only reads: the place of run-plan (PLAN.place, with
its times), the log of a script of to-lvm or to-ceph (--log moves.log; with --names what of a round is done too), or the
marks in journal.mig of `migrate move`. Where none is named it is PLAN.place, if it is there, else journal.mig of this
folder. It says what is done and what is left, the rate, and the time that is left. With --sizes, the bytes.csv of
from-folders, from-lvm or from-ceph, it weighs by bytes, else by items. Say --eager DISKS as run-plan was told. The time
left of run-plan and of scripts goes by how long transfers and rounds took, without pauses; that of `migrate move` by
what was done since TIME (14:30, or 2026-01-31 14:30), or since the plan was saved or the journal was made, whichever
came later. With --every it looks again and again, until the plan is done. The status is 0 where what it reads is of
this plan, else 1."""
import argparse, datetime, json, os, sys, time
from collections.abc import Sequence
from typing import Any
from ..command import command, words
from ..disks import Disks, read_disks
from ..lvm.pvmoves import steps_of
from ..plans import Plan, read_plan
from ..sizes import read_sizes, said
from .done import Stand, born, by_journal, by_log, by_place, first_of
from .left import seconds_left


def read_time(text: str) -> float:
    for form in ("%Y-%m-%d %H:%M", "%H:%M"):
        try:
            found = datetime.datetime.strptime(text, form)
        except ValueError:
            continue
        if "%Y" in form:
            return found.timestamp()
        today = datetime.datetime.combine(datetime.datetime.fromtimestamp(time.time()), found.time()).timestamp()
        return today if today <= time.time() else today - 86400
    raise ValueError(text)


def duration(seconds: float) -> str:
    minutes = int(seconds + 59) // 60
    if minutes >= 60:
        return f"{minutes // 60} h {minutes % 60} min"
    return f"{minutes} min" if seconds >= 60 else f"{int(seconds + 0.5)} s"


def stand_of(given: argparse.Namespace, plan: Plan) -> Stand:
    def since(path: str) -> float:
        """When the plan was saved, or this file made, whichever came later; or as --since says."""
        return given.since or max(os.stat(given.plan).st_mtime, born(path))

    if given.log:
        return by_log(given.log, plan, given.names)
    place = given.place or f"{given.plan}.place"
    if given.place or not given.journal and os.path.exists(place):
        return by_place(place, plan, since)
    return by_journal(given.journal or "journal.mig", plan, since)


def told(given: argparse.Namespace, plan: Plan, sizes: dict[str, int] | None, disks: Disks | None,
         steps: Sequence[int] | None) -> dict[str, Any]:
    """What is told, by names."""
    now, stand, first, shifts = time.time(), stand_of(given, plan), first_of(plan), plan.shifts()
    weights = [sizes[it.item] if sizes else 1 for it in shifts]
    rounds = sum(stand.done.issuperset(range(low, high)) for low, high in zip(first, first[1:]))
    found: dict[str, Any] = {"time": round(now, 1), "rounds": len(plan.rounds), "rounds_done": rounds,
                             "items": len(shifts), "items_done": len(stand.done)}
    done = sum(weights[it] for it in stand.done)
    found |= {"bytes": sum(weights), "bytes_done": done} if sizes else {}
    found |= {"parked": plan.parked()} if plan.parked() else {}
    rate = done / stand.seconds if done and stand.seconds else None
    found["bytes_per_second" if sizes else "items_per_second"] = rate and round(rate, 3)
    found["seconds_at_work"] = None if stand.seconds is None else round(stand.seconds, 1)
    left = seconds_left(plan, first, weights, stand, disks, steps)
    found["seconds_left"] = None if left is None else round(left, 1)
    return found | {"process": None if stand.worker is None else int(stand.worker), "paused": stand.paused,
                    "done": len(stand.done) == len(shifts), "process_can_be_seen": not stand.unseen}


def metrics_of(it: dict[str, Any], plan: str) -> str:
    """The text that Prometheus reads. What is not known has no line."""
    kinds = [it_ for it_ in ("rounds", "items", "bytes") if it_ in it]
    values: dict[str, Any] = {kind: it[kind] for kind in kinds} | {f"{kind}_done": it[f"{kind}_done"] for kind in kinds}
    values |= {"seconds_at_work": it["seconds_at_work"], "seconds_left": it["seconds_left"]}
    values |= {"paused": int(it["paused"]), "at_work": int(it["process"] is not None), "done": int(it["done"])}
    values["at_work"] = values["at_work"] if it["process_can_be_seen"] else None
    return "".join(f"# TYPE migrate_plan_{name} gauge\nmigrate_plan_{name}{{plan=\"{plan}\"}} {value}\n"
                   for name, value in values.items() if value is not None)


def line_of(it: dict[str, Any]) -> str:
    unit = "bytes" if it.get("bytes") else "items"
    width = 30 * it[f"{unit}_done"] // it[unit] if it[unit] else 30
    line = f"[{'#' * width}{'.' * (30 - width)}] {it['rounds_done']} of {it['rounds']} rounds, "
    line += f"{it['items_done']} of {it['items']} {'transfers' if 'parked' in it else 'items'}"
    line += f", {said(it['bytes_done'])} of {said(it['bytes'])}" if "bytes" in it else ""
    if it["done"]:
        return f"{line}, done"
    line += f", {said(it['bytes_per_second'])} a second" if it.get("bytes_per_second") else ""
    works = it["process"] is not None
    if it["seconds_left"] is None:
        line += ", time left not known yet" + ("" if it["items_done"] else ": no round is done")
    else:
        goes_on = "" if works or not it["process_can_be_seen"] else " once it goes on"
        line += f", about {duration(it['seconds_left'])} left{goes_on}"
    line += ", paused" if it["paused"] else ""
    rests = ", nothing is at work here" if it["process_can_be_seen"] else ""
    return line + (f", process {it['process']} is at work" if works else rests)


@command
def main() -> None:
    reader = words(__doc__, "plan")
    add = reader.add_argument
    add("--journal", metavar="FILE", help="the journal of `migrate move`")
    add("--place", metavar="FILE", help="the place of run-plan")
    add("--log", metavar="FILE", help="the log of a script of to-lvm or to-ceph")
    add("--names", metavar="NAMES", help="with --log: the names.csv of from-lvm")
    add("--sizes", metavar="BYTES", help="bytes.csv, with the bytes of each item")
    add("--eager", metavar="DISKS", help="the disks file that run-plan --eager was told")
    add("--since", metavar="TIME", type=read_time, help="when the move began")
    add("--every", metavar="SECONDS", type=float, help="looks again after so many seconds")
    add("--json", action="store_true", help="prints an object of JSON for each look")
    add("--metrics", action="store_true", help="prints what Prometheus reads, as by its textfile collector")
    given = reader.parse_args()
    if given.every is not None and given.every <= 0:
        reader.error("--every is greater than 0")
    if len([it for it in (given.journal, given.place, given.log) if it]) > 1:
        reader.error("--journal, --place and --log are three ways to say where to look: name one")
    if given.names and not given.log:
        reader.error("--names goes with --log")
    if given.metrics and (given.json or given.every):
        reader.error("--metrics goes neither with --json nor with --every")
    plan = read_plan(given.plan)
    sizes, disks = read_sizes(given.sizes, plan), read_disks(given.eager, plan) if given.eager else None
    steps = steps_of(plan, given.names) if given.names else None
    try:
        while True:
            found = told(given, plan, sizes, disks, steps)
            if given.metrics:
                return print(metrics_of(found, plan.digest.hex()), end="", flush=True)
            print(json.dumps(found) if given.json else line_of(found), flush=True)
            if found["done"] or not given.every:
                break
            time.sleep(given.every)
    except KeyboardInterrupt:
        sys.exit(130)
    except BrokenPipeError:
        os.dup2(os.open(os.devnull, os.O_WRONLY), 1)

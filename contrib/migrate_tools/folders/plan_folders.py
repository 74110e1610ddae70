"""plan-folders MNT.. WISH.. --into FOLDER: plans moves of folders between mounted disks, up to scripts. Nothing on the
disks is changed by it.

It writes into FOLDER what `from-folders`, `migrate plan` and `report` make; move.sh, which carries the plan out by
`run-plan`; and back.sh, which undoes what move.sh has done so far, by the same plan. Both plans are checked. It prints
what an operator decides by: moves and bytes, how long, what decides it, how full each disk gets. The wishes are those
of from-folders: --empty MNT, --move ITEM=MNT, --spread, --balance N; --unit, --size, --limit and --slots too."""
import os, shlex, stat
from ..command import command, here, put, save_all
from ..fullness import Room
from ..plans import Plan, read_rows, table
from ..shell import filled
from ..whole import Planner, WishPlanner, reader_of
from .found import bytes_of
from .targets import HEADER, names_of

COPY = ["cp", "-a", "{from}/{item}", "{to}/"]
DEEP = ["sh", "-c", 'cd "$1" && cp -a --parents "./$2" "$3"/', "sh", "{from}", "{item}", "{to}"]
SCRIPT = """#!/bin/sh
# WHAT: TITLE.
# sh THIS [OPTION..]: stop first what writes to these folders. The options are those of run-plan, as --until 06:00 or
# --jobs 4; begin it again after a stop.
PATH=$PATH:HERE
exec run-plan --eager DISKS --names NAMES --guard GUARD --erase 'rm -rf {from}/{item}' MORE"$@" PLAN COPY
"""


def names_back(path: str, plan: Plan) -> str:
    """The names.csv of the way back: each item where the plan brings it."""
    disks, items = names_of(plan, path)
    last = {it.item: os.path.join(disks[it.target], items[it.item]) for it in plan.shifts()}
    rows = [[kind, name, last.get(name, real) if kind == "item" else real, bytes_]
            for _, (kind, name, real, bytes_) in read_rows(path, HEADER)]
    return table([HEADER.split(","), *rows])


def script(planner: Planner, what: str, sub: str, more: str, copy: list[str], guard: str, plan: Plan) -> str:
    return filled(SCRIPT, WHAT=what, TITLE=f"{len(plan.shifts())} transfers, plan {plan.digest.hex()}", MORE=more,
                  HERE=shlex.quote(here()), DISKS=shlex.quote(planner.at("disks.csv")), GUARD=shlex.quote(guard),
                  NAMES=shlex.quote(planner.at(f"{sub}names.csv")), PLAN=shlex.quote(planner.at(f"{sub}plan.txt")),
                  COPY=shlex.join(copy))


def absolute(word: str) -> str:
    """The same word of from-folders, with a path in it from the root on."""
    option, is_, text = word.partition("=")
    path, *more = (text, "") if option == "--empty" else text.rpartition("=")
    return f"{option}{is_}{os.path.abspath(path) if os.sep in path else path}{''.join(more)}"


def held(path: str) -> int:
    """How much a file has on its disk; 0 of what is no file, as a link or a fifo, or is gone."""
    try:
        it = os.lstat(path)
    except OSError:
        return 0
    return it.st_blocks * stat.S_ISREG(it.st_mode)


@command
def main() -> None:
    reader = reader_of(__doc__, ("empty", "move", "limit", "slots", "size", "balance", "unit"))
    reader.add_argument("mounts", metavar="MNT", nargs="+")
    given = reader.parse_args()
    planner, mounts = WishPlanner(given.into), [os.path.abspath(it) for it in given.mounts]
    planner.command("from-folders", *mounts, *map(absolute, given.handed))
    plan, back = planner.plan(names_back)
    disks, items = names_of(plan, planner.at("names.csv"))
    guard = "mountpoint -q {disk}" if all(os.path.ismount(it) for it in mounts) else "test -d {disk}"
    copy = DEEP if any("/" in it for it in items.values()) else COPY
    undo = f"--undo {shlex.quote(planner.at('plan.txt'))} "
    for name, what, sub, more, its in (("move.sh", "Moves folders", "", "", plan),
                                       ("back.sh", "Undoes move.sh", "back/", undo, back)):
        save_all({planner.at(name): script(planner, what, sub, more, copy, guard, its)}, mode=0o755)
    rows = [row for _, row in read_rows(planner.at("names.csv"), HEADER)]
    free, used = bytes_of(mounts)
    rooms = {name: Room(used[real] + free[real], used[real]) for kind, name, real, _ in rows if kind == "disk"}
    moving = {it.item for it in plan.shifts()}
    tops = [real for kind, name, real, _ in rows if kind == "item" and name in moving]
    files = (os.path.join(folder, it) for top in tops for folder, _, names in os.walk(top) for it in names)
    path = max(filter(held, [*(it for it, _ in zip(files, range(1000))), *tops]), key=held, default="")
    put(planner.told(given.rate, path, path, rooms, None, 0))

"""run-plan [OPTION..] PLAN COMMAND WORD..: carries a plan out by a copy command, one round after the other, and
remembers its place.

COMMAND runs once for each transfer, without a shell, with these put in its words: {item}, {from}, {from_slot}, {to},
{to_slot}, {round}. All transfers of a round run side by side. A round begins only after each one of the round before
has ended with status 0. Where one fails, the others of its round run to their end, and run-plan stops with status 1.
Begun again with the same words it passes over what ended well. Options stand before PLAN.

  run-plan --guard 'mountpoint -q mnt/{disk}' --erase 'rm -rf mnt/{from}/{item}' plan.txt \\
           cp -a mnt/{from}/{item} mnt/{to}/

The command may run twice for one transfer, where it was cut off: it must do no harm then, and has to keep all that
there is, as cp -a and rsync -aHAXS --numeric-ids do. The words of --erase remove what was copied, once all copies of
the round ended well, and the words of --verify for each of them. Right before each of them run-plan compares the copy
with its source: names, kinds, owners, modes, times, attributes and ACLs, links, sizes, bytes. Where the copy lacks any,
or the source was changed since, it is not removed, and the copy counts no more. --unverified leaves this out. The words
of --guard run for each disk of the plan before anything begins, and for both disks of a transfer before and after each
of its commands. Where one ends with another status than 0 nothing more begins, and what ended meanwhile does not count.
With --names, {item} is the path inside its disk, what the folder is really called, and {from}, {to} and {disk} are the
paths of the disks. In a plan of plan-tight an item that was parked is moved twice, each time from where it then is;
without --erase no room is made.

While a file `pause` is in the working folder no further round begins, and with --eager no further transfer. With
--until 06:00 none begins from then on, and run-plan ends with status 3 where something is left: the same words go on
with it. When what began and ended is written to FILE.times beside the place, for `progress`.

With --eager no round waits for the one before. A transfer (its copy, what looks at it, and what removes its source)
begins as soon as both its disks have a place free by the limits of DISKS, and those before it of its item and its slots
are done. Where one fails nothing more begins. With --undo PLAN, of which this plan is the way back, only what that
one's place has is brought back; then both can be begun anew."""
import argparse, collections, functools, os, shlex
from collections.abc import Mapping, Sequence
from typing import NoReturn
from ..calls import Ending, add_hook
from ..clock import Clock, add_times
from ..command import Wrong, command, put, words
from ..disks import Disks, read_disks
from ..folders.targets import names_of
from ..plans import Plan, Shift, read_plan
from ..waiting import Waiting
from .commands import PLACES, Values, check_inside, check_words, commands, ends_in, fill_in, filled
from .place import Place, look
from .runner import Job, Runner

# lines of what needs this no more
PASSED = {"copied": ["copied"], "verified": ["erasing", "erased"], "compared": ["erasing", "erased"],
          "erased": ["erased"]}
STAGES = [["copied"], ["verified"], ["compared", "erased"]]  # a round has one after the other


def read_words() -> argparse.Namespace:
    reader = words(__doc__)
    add = reader.add_argument
    add("--dry-run", action="store_true", help="prints the commands, and runs none")
    for name, said in (("erase", "what removes a source after its round"), ("guard", "what looks at a disk: {disk}"),
                       ("verify", "what looks at a copy before its source is removed")):
        add(f"--{name}", metavar="'COMMAND WORD..'", type=shlex.split, action="append", default=[], help=said)
    add("--unverified", action="store_true", help="with --erase: run-plan does not compare copies by itself")
    add("--names", metavar="FILE", help="the table of from-folders, names.csv")
    add("--eager", metavar="DISKS", help="begins each transfer as soon as the limits of this disks file let it")
    add_times(reader, "round, with --eager transfer,")
    add_hook(reader)
    add("--jobs", metavar="N", type=int, default=65536, help="at most so many commands at once")
    add("--place", metavar="FILE", help="where the place is kept, else in PLAN.place")
    add("--undo", metavar="PLAN", help="PLAN is this one backwards: only what its place has is brought back")
    add("plan", metavar="PLAN")
    add("command", metavar="COMMAND", nargs="...")
    given = reader.parse_args()
    for name in ("erase", "verify", "guard"):
        found = getattr(given, name)
        if len(found) > 1 or [] in found:
            reader.error(f"--{name} is given twice, or has no command")
        setattr(given, name, sum(found, []))
    if not given.command:
        reader.error("a COMMAND is needed")
    if given.jobs < 1:
        reader.error("--jobs is at least 1")
    if (given.verify or given.unverified) and not given.erase:
        reader.error("--verify and --unverified go with --erase: without it nothing is removed")
    return given


class Carrier:
    """Carries out what is left of a plan: each round, or all of them where `disks` has limits to keep instead."""

    def __init__(self, plan: Plan, rounds: Sequence[Sequence[Values]], steps: Mapping[str, Sequence[str]],
                 runner: Runner) -> None:
        self.plan, self.runner, self.steps = plan, runner, steps
        self.values = {(at, it.item): value for at, (shifts, values) in enumerate(zip(plan.rounds, rounds), 1)
                       for it, value in zip(shifts, values)}

    def jobs_of(self, at: int, it: Shift, only: Sequence[str] = tuple(PASSED)) -> collections.deque[Job]:
        """What a transfer needs still of these kinds, one after the other."""
        return collections.deque(
            Job(kind, f"{at} {it.item}", (it.source, it.target), filled(words_, self.values[at, it.item]))
            for kind, words_ in self.steps.items()
            if kind in only and not self.runner.place.has(*(f"{mark} {at} {it.item}" for mark in PASSED[kind])))

    def by_rounds(self) -> None:
        count = len(self.plan.rounds)
        for at, shifts in enumerate(self.plan.rounds, 1):
            is_left = any(self.jobs_of(at, it) for it in shifts)
            if is_left and not self.runner.clock.wait(lambda: self.runner.status != 0):
                stopped(self.runner, f"before round {at} of {count}")
            for stage in STAGES:
                lines = {those[0].line: those for it in shifts if (those := self.jobs_of(at, it, stage))}
                if lines:
                    put(f"round {at} of {count}: {len(lines)} to be {stage[-1]}\n")
                first = [it.popleft() for it in lines.values()]
                if not self.runner.run(first, functools.partial(next_of, lines)) or self.runner.status:
                    stopped(self.runner, f"in round {at} of {count}", is_over=False)

    def by_limits(self, disks: Disks) -> None:
        """No round waits for another: a transfer begins as soon as the limits of its disks let it."""
        numbered = [(at, it) for at, round_ in enumerate(self.plan.rounds, 1) for it in round_]
        jobs = [self.jobs_of(at, it) for at, it in numbered]
        at_of, count = {f"{at} {it.item}": number for number, (at, it) in enumerate(numbered)}, len(numbered)
        waiting = Waiting(self.plan.shifts(), disks, [at for at, those in enumerate(jobs) if those])
        left = len(waiting.sides)

        def then(kept: list[Job]) -> list[Job]:
            nonlocal left
            more, before = [], left
            for number in (at_of[job.line] for job in kept):
                if jobs[number]:
                    more.append(jobs[number].popleft())
                else:
                    left -= 1
                    more += [jobs[it].popleft() for it in waiting.done(number)]
            if left < before:
                put(f"{count - left} of {count} transfers are done\n")
            return more

        self.runner.run([jobs[it].popleft() for it in waiting.first()], then)
        if left:
            stopped(self.runner, f"with {left} of {count} transfers left")


def next_of(left: Mapping[str, collections.deque[Job]], kept: Sequence[Job]) -> list[Job]:
    """What follows these jobs, by their lines."""
    return [left[it.line].popleft() for it in kept if left[it.line]]


def undo(path: str, plan: Plan, place: Place) -> None:
    """Counts what another plan, of which this one is the way back, has not done as done here; and what it copied, and
    did not begin to remove, as copied."""
    there, forward = read_plan(path), Place(f"{path}.place", read_plan(path))
    moved = collections.defaultdict(list)
    for at, it in ((at, it) for at, round_ in enumerate(there.rounds, 1) for it in round_):
        moved[it.item, it.target, it.target_slot].append(f"{at} {it.item}")
    for at, it in ((at, it) for at, round_ in enumerate(plan.rounds, 1) for it in round_):
        lines = moved[it.item, it.source, it.source_slot]
        if len(lines) != 1:
            raise Wrong(f"does not bring {it.item} to where this one takes it from", path)
        line = f"{at} {it.item}"
        if forward.has(f"erasing {lines[0]}", f"erased {lines[0]}") or place.has(f"copied {line}"):
            continue
        place.add(f"copied {line}", *[] if forward.has(f"copied {lines[0]}") else [f"erased {line}"])


def ending_of(runner: Runner) -> Ending:
    return Ending(runner.name, "begin again with the same words", runner.hook)


def stopped(runner: Runner, where: str, is_over: bool = True) -> NoReturn:
    """Ends where not all is done: as --until says, where nothing failed and its time has come; else since something
    failed, or was stopped."""
    runner.place.times.tell("ends")
    if is_over and not runner.status and runner.clock.is_over():
        ending_of(runner).end("ended", where)
    ending_of(runner).end("stopped", where, ", and nothing more is removed", runner.status or 1)


@command
def main() -> None:
    given = read_words()
    plan = read_plan(given.plan)
    limits = read_disks(given.eager, plan) if given.eager else None
    steps = {"copied": ("copy", given.command), "verified": ("verify", given.verify), "erased": ("erase", given.erase)}
    all_ = {"COMMAND": given.command, "--verify": given.verify, "--erase": given.erase, "--guard": given.guard}
    for what, words_ in ((what, words_) for what, words_ in all_.items() if words_):
        check_words(words_, what, ["disk"] if what == "--guard" else PLACES, bool(given.names))
    disks, items = names_of(plan, given.names)
    check_inside(given.command, [items[it.item] for it in plan.shifts()])
    all_words = given.command + given.verify + given.erase
    paths = ["{from}/{item}", "{to}/{item}"] if given.names else ends_in(all_words)
    if given.erase and not paths and not given.unverified:
        raise Wrong("--erase: no word says where an item stands, as {from}/{item}, so that nobody can see whether its "
                    "copy has all of it; with --unverified that is left to --verify")
    rounds = fill_in(plan, disks, items, all_words + given.guard)
    if any(os.path.basename(it[0]) == "ssh" for it in all_.values() if it):
        for name in (it for it in [*items.values(), *disks.values()] if shlex.quote(it) != it):
            raise Wrong(f"ssh reads its words by a shell, which takes the name {name} for something else: rename it")
    names = [name for it in plan.shifts() for name in (it.source, it.target)]
    guards = {name: filled(given.guard, {"disk": disks[name]}) for name in names if given.guard}
    if given.dry_run:
        return put(commands(rounds, steps, guards))

    path = given.place or f"{given.plan}.place"
    runner = Runner(given.jobs, guards, limits is not None)
    runner.hook, runner.name = given.hook, given.plan
    if not runner.guarded(*guards):
        raise Wrong("nothing was begun")
    ends = [filled(paths, it) for round_ in rounds for it in round_ if paths]
    if not given.undo:
        look(path, ends)
    tops = dict(zip(names, (os.path.dirname(it.rstrip("/")) for both in ends for it in both)))
    runner.open({disk: disks[disk] for disk in tops} if given.names else tops)
    runner.place = Place(path, plan)
    if given.undo:
        undo(given.undo, plan, runner.place)
    runner.clock = Clock(given.until, runner.place.times.tell, given.window)
    does = {kind: words_ for kind, (_, words_) in steps.items() if words_}
    if given.erase and not given.unverified:
        does["compared"] = paths
    carrier = Carrier(plan, rounds, {kind: does[kind] for kind in PASSED if kind in does}, runner)
    runner.place.times.tell(f"begins {','.join(carrier.steps)} {'rounds' if limits is None else 'eager'}")
    if limits is None:
        carrier.by_rounds()
    else:
        carrier.by_limits(limits)
    runner.place.times.tell("ends")
    for it in (f"{given.undo}.place", path) if given.undo else ():
        os.unlink(it)  # both plans can be begun anew
    return ending_of(runner).done(f"all {len(rounds)} rounds are carried out")

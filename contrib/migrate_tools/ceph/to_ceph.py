"""to-ceph PLAN BEFORE AFTER DUMP CRUSH: turns a plan of from-ceph's files into a script of steps for `ceph-step`, each
of which sets the exceptions of a placement group by `ceph osd pg-upmap-items`.

A command replaces all exceptions of its placement group, so each one has the old ones in it too. Each is one that Ceph
keeps: what the pool's rule has apart stays apart in each state in between. Where a round alone would break the rule,
its moves of that group wait for the round in which they can be made together with others, and it is said. With --rounds
DISKS PLAN they wait further until the limits of DISKS are kept, and the plan with the rounds in which all is carried
out then is saved in PLAN, for `check`, `summary`, `picture` and `progress`. `ceph-step --help` says what the script
does. Switch the balancer off first (ceph balancer off), else it works against the plan. Without --hold the cluster is
as BEFORE, and copies go to the OSDs that AFTER will want: change the weights after the last round. With --hold round 0
holds each copy where it was, then clears the flag norebalance, and each round lets its own go. Use this for new OSDs.
Set norebalance before the weights are changed. With --eager DISKS the script has no rounds: a group's exceptions are
set as soon as each OSD at which Ceph counts its copies has a place free by the limits of this file."""
import argparse, collections, hashlib
from collections.abc import Sequence
from ..command import command, note, put, save_all
from ..disks import Disks, limits_by_side, read_disks
from ..plans import Plan, Shift, plan_text, read_plan
from ..shell import steps_head
from .groups import read_change, reader
from .plain import WHAT, plain
from .steps import Step, limits_text, read_rounds, steps_of


def within(steps: Sequence[Step], disks: Disks) -> list[Step]:
    """The same steps, each in the first round from its own on in which its places are free, after the one before it of
    its group; rounds are counted anew, without empty ones. A step that by itself needs more places than an OSD has is
    alone there, and is named."""
    limits = {str(side).replace(" ", "/"): limit for side, limit in limits_by_side(disks).items()}
    used: dict[int, collections.Counter[str]] = collections.defaultdict(collections.Counter)
    last: dict[str, int] = collections.defaultdict(int)
    found = [it for it in steps if not it.round]
    for step in steps[len(found) :]:
        at = max(step.round, last[step.group] + 1)
        while any(used[at][it] and used[at][it] + count > limits[it] for it, count in step.counts.items()):
            at += 1
        for side in (it for it, count in step.counts.items() if count > limits[it]):
            note(f"placement group {step.group}: what goes together is {step.counts[side]} at {side}, more than the "
                 f"limit {limits[side]} there; nothing else goes there meanwhile")
        used[at].update(step.counts)
        last[step.group] = at
        found.append(step._replace(round=at))
    new = {at: number for number, at in enumerate(sorted({it.round for it in found} | {0}))}
    return sorted((it._replace(round=new[it.round], items=dict.fromkeys(it.items, new[it.round])) for it in found),
                  key=lambda it: it.round)


def carried(steps: Sequence[Step], plan: Plan) -> str:
    """The plan with the rounds of these steps."""
    shifts = {it.item: it for it in plan.shifts()}
    rounds: dict[int, list[Shift]] = collections.defaultdict(list)
    for step in (it for it in steps if it.round):
        rounds[step.round] += [shifts[it] for it in step.items]
    return plan_text(rounds[it] for it in sorted(rounds))


def script(steps: Sequence[Step], digest: str, limits: str) -> str:
    """The text of a script of these steps."""
    title = f"{sum(len(it.items) for it in steps)} copies in {max(it.round for it in steps)} rounds"
    title += " (no round waits for another, and round 1 is all of them)" * bool(limits)
    lines, held = [it.line() for it in steps], sum(it.round == 0 for it in steps)
    lines[held:held] = ["ceph osd unset norebalance\n"] * bool(held)
    return steps_head(WHAT, title, digest + limits, "ceph-step", "--hook COMMAND] [--force") + "".join(lines)


def read_words() -> argparse.Namespace:
    found = reader(__doc__, "plan")
    add = found.add_argument
    add("--out", metavar="SCRIPT", help="where the script is saved; it is printed where this is left out")
    add("--eager", metavar="DISKS", help="the script waits for no whole rounds, and keeps the limits of this file")
    add("--ahead", metavar="N", type=int, default=0,
        help="with --eager: so many more at each limit, which wait in Ceph's own queue until it has a place for them")
    add("--rounds", metavar=("DISKS", "PLAN"), nargs=2, help="the rounds keep the limits of DISKS also where moves are "
        "put off; the plan with these rounds is saved in PLAN")
    add("--plain", action="store_true", help="a script of a shell alone, by rounds, for where there is no Python")
    given = found.parse_args()
    if given.eager and (given.plain or given.rounds) or given.ahead and not given.eager:
        found.error("--eager goes without --plain and --rounds, and --ahead with --eager")
    return given


@command
def main() -> None:
    given = read_words()
    plan, groups = read_plan(given.plan), read_change(given, True)[0]
    path, saved = given.rounds or (given.eager, None)
    disks = read_disks(path, plan) if path else None
    rounds, is_given = read_rounds(plan, given.plan, groups)
    steps = steps_of(groups, rounds, plan, is_given or saved is not None, disks, given.hold)
    inputs = [given.plan, given.before, given.after, given.dump, given.crush, *([path] if path else [])]
    digest, last = plan.digest.hex(), len(plan.rounds)
    if disks is not None and saved:
        steps = within(steps, disks)
        text, last = carried(steps, plan), steps[-1].round
        if last > len(plan.rounds):
            note(f"with what is put off there are {last} rounds, and not {len(plan.rounds)}")
        save_all({saved: text}, inputs)
        digest = hashlib.sha256(text.encode()).hexdigest()
    limits = limits_text(disks, given.ahead) if disks and given.eager else ""
    text = plain(steps, digest, last) if given.plain else script(steps, digest, limits)
    put(text, given.out, inputs, 0o755)

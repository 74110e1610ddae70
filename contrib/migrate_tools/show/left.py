"""The time that is left of a plan. What is done already says how long a transfer, or a round, takes by its bytes."""
import collections, statistics
from collections.abc import Callable, Iterable, Sequence
from ..disks import Disks
from ..plans import Plan
from ..waiting import Waiting, simulated
from .done import Stand

Pairs = Sequence[tuple[float, float]]  # of weight and seconds


def fitted(pairs: Pairs) -> Callable[[float], float]:
    """How many seconds a weight takes by these pairs: a part for itself, and one that grows with it."""
    weights, seconds = zip(*pairs)
    slope, fixed = statistics.linear_regression(weights, seconds) if len(set(weights)) > 1 else (0.0, 0.0)
    if len(pairs) < 3 or slope <= 0 or fixed < 0:
        whole = sum(weights)
        slope, fixed = (sum(seconds) / whole, 0.0) if whole else (0.0, sum(seconds) / len(pairs))
    return lambda weight: fixed + slope * weight


def of_rounds(plan: Plan, first: Sequence[int], weights: Sequence[int], stand: Stand,
              steps: Sequence[int] | None) -> float | None:
    """The time of the rounds that are not done, by that measure which goes best with those that are: its greatest
    transfer, its busiest disk, or all of it. `steps` has one more of each round."""
    def measures(round_: int, numbers: Iterable[int]) -> list[int]:
        ends: collections.Counter[str] = collections.Counter()
        its = list(numbers)
        for at in its:
            for disk in {shifts[at].source, shifts[at].target}:
                ends[disk] += weights[at]
        each = [weights[it] for it in its]
        found = [max(each, default=0), max(ends.values(), default=0), sum(each)]
        return [steps[round_ - 1], *found] if steps else found

    shifts = plan.shifts()
    whole = {at: measures(at, range(first[at - 1], first[at])) for at in range(1, len(first))}
    if stand.took:
        pairs = [[(whole[at][kind], took) for at, took in stand.took.items()] for kind in range(len(whole[1]))]
        fits = [(fitted(those), those) for those in pairs]
        off = [sum(abs(takes(weight) - took) for weight, took in those) for takes, those in fits]
        kind = off.index(min(off))
        takes = fits[kind][0]
    elif stand.lasted:
        kind, takes = 0, fitted([(weights[it], took) for it, took in stand.lasted.items()])
    else:
        return None
    left = 0.0
    for at in whole:
        rest = [it for it in range(first[at - 1], first[at]) if it not in stand.done]
        if rest and at in stand.begun:
            left += max(0.0, takes(whole[at][kind]) - stand.begun[at])
        elif rest:
            left += takes(measures(at, rest)[kind])
    return left


def of_transfers(plan: Plan, weights: Sequence[int], stand: Stand, disks: Disks) -> float | None:
    """The time until the last transfer ends, where each begins as soon as the limits let it. Where what is done took
    longer than it would have by these durations, since not all that begins can begin at once, the rest is taken to do
    so too."""
    if not stand.lasted:
        return None
    takes, shifts = fitted([(weights[it], took) for it, took in stand.lasted.items()]), plan.shifts()
    rest = Waiting(shifts, disks, [it for it in range(len(shifts)) if it not in stand.done])
    ends = simulated(rest, stand.running, lambda it: max(0.0, takes(weights[it]) - stand.running.get(it, 0.0)))
    done, slower = sum(weights[it] for it in stand.done), 1.0
    for at, end in simulated(Waiting(shifts, disks, range(len(shifts))), {}, lambda it: takes(weights[it])).items():
        done -= weights[at]
        if done <= 0:
            slower = (stand.seconds_done or 0) / end if end else 1.0
            break
    return max(ends.values(), default=0.0) * max(1.0, slower)


def seconds_left(plan: Plan, first: Sequence[int], weights: Sequence[int], stand: Stand, disks: Disks | None,
                 steps: Sequence[int] | None) -> float | None:
    """The time that is left; None where nothing that is done tells it, or too little: less than a fifth, in less than
    a minute."""
    if len(stand.done) == first[-1]:
        return 0.0
    if 5 * sum(weights[it] for it in stand.done) < sum(weights) and (stand.seconds or 0) < 60:
        return None
    found = None
    if stand.way == "eager" and disks is not None:
        found = of_transfers(plan, weights, stand, disks)
    elif stand.way == "rounds":
        found = of_rounds(plan, first, weights, stand, steps)
    done = sum(weights[it] for it in stand.done)
    if found is not None or not done or not stand.seconds:
        return found
    return max(0.0, (sum(weights) - done) * stand.seconds / done - stand.idle)

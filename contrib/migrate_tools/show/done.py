"""What of a plan is done: by the journal of `migrate move`, by the place of run-plan, or by the log of a script."""
import bisect, collections, itertools, os, re, subprocess, time
from collections.abc import Callable, Mapping, Sequence
from dataclasses import dataclass, field, replace
from ..clock import Event, at_work, read_times
from ..command import Wrong, read_bytes
from ..lvm.pvmoves import read_pvmoves
from ..plans import Plan
from ..run.place import count

# the journal: SHA-256 of the plan's text in sector 0, the gate in sector 1, the mark of round n in sector n + 1
SECTOR = 512


@dataclass(frozen=True)
class Stand:
    """How far a plan is. Transfers count from 0 in the order of the plan, rounds from 1. `seconds` is how long it was
    at work, `seconds_done` up to when the last transfer was done, None where that is not known; `lasted` and `took` are
    how long transfers and whole rounds took, `running` and `begun` how long those under way have been by now. `worker`
    is the process at work, `unseen` says that none can be seen."""
    done: set[int]
    way: str = "items"
    seconds: float | None = None
    idle: float = 0.0
    lasted: Mapping[int, float] = field(default_factory=dict)
    took: Mapping[int, float] = field(default_factory=dict)
    running: Mapping[int, float] = field(default_factory=dict)
    begun: Mapping[int, float] = field(default_factory=dict)
    seconds_done: float | None = None
    worker: str | None = None
    paused: bool = False
    unseen: bool = False


Since = Callable[[str], float]  # when a plan was begun, whose place or journal is this file


def first_of(plan: Plan) -> list[int]:
    """The number of the first transfer of each round, and that of all at the end."""
    return list(itertools.accumulate(map(len, plan.rounds), initial=0))


def who_works(path: str) -> str | None:
    """The process that has a file locked; None where there is none, or none can be seen."""
    node = os.stat(path).st_ino
    try:
        with open("/proc/locks", encoding="ascii") as file:
            locks = [line.split() for line in file]
    except OSError:
        return None
    return next((it[4] for it in locks if len(it) > 5 and it[1] == "FLOCK" and it[5].endswith(f":{node}")), None)


def born(path: str) -> float:
    found = subprocess.run(["stat", "--format=%W", path], capture_output=True, text=True, check=False).stdout.strip()
    return float(found) if found.isdecimal() else 0


def by_journal(path: str, plan: Plan, since: Since) -> Stand:
    """The marks in a row that are 1, where the gate is 1 and the digest is the plan's."""
    try:
        with open(path, "rb") as file:
            head, gate = os.pread(file.fileno(), 32, 0), os.pread(file.fileno(), 1, SECTOR)
            done = 0
            while done < len(plan.rounds) and os.pread(file.fileno(), 1, SECTOR * (done + 2)) == b"\1":
                done += 1
    except OSError as error:
        there = "; it stands in the folder in which the move was begun" if isinstance(error, FileNotFoundError) else ""
        raise Wrong(f"cannot be read: {error.strerror}{there}", path) from None
    if gate != b"\1":
        raise Wrong("says that no plan is being carried out, and none was finished", path)
    if head != plan.digest:
        raise Wrong(f"is of another plan, {head.hex()}; this one is {plan.digest.hex()}", path)
    return stand_of_file(path, set(range(first_of(plan)[done])), since)


def stand_of_file(path: str, done: set[int], since: Since) -> Stand:
    """How far a plan is, where nothing but the last change of a file tells when it was."""
    last, start, worker = os.stat(path).st_mtime, since(path), who_works(path)
    seconds, idle = last - start if last > start else None, time.time() - last if worker else 0.0
    return Stand(done, "items", seconds, idle, worker=worker)


def numbered(plan: Plan) -> dict[str, int]:
    """The number of each transfer by its line in a place."""
    lines = (f"{at} {it.item}" for at, round_ in enumerate(plan.rounds, 1) for it in round_)
    return {line: number for number, line in enumerate(lines)}


Spans = dict[int, float]


def spans(plan: Plan, events: Sequence[Event], last_step: str) -> tuple[Spans, Spans, Spans]:
    """How long transfers and whole rounds took, each within one run; and when those of the last run began that have not
    ended."""
    number_of, first = numbered(plan), first_of(plan)
    lasted: Spans = {}
    took: Spans = {}
    began: Spans = {}
    ended: Spans = {}
    for at, text in [*events, (0, "begins")]:
        word, _, line = text.partition(" ")
        if word == "copying" and line in number_of:
            began[number_of[line]] = at
        elif word == last_step and number_of.get(line) in began:
            ended[number_of[line]] = at
        elif word == "begins":
            lasted.update({it: ended[it] - began[it] for it in ended})
            for round_, (low, high) in enumerate(zip(first, first[1:]), 1):
                if low < high and all(it in ended for it in range(low, high)):
                    took[round_] = max(ended[it] for it in range(low, high)) - min(began[it] for it in range(low, high))
            open_, began, ended = {it: when for it, when in began.items() if it not in ended}, {}, {}
    return lasted, took, open_


def by_place(path: str, plan: Plan, since: Since) -> Stand:
    """What run-plan keeps, and when it was by the times beside it. A transfer is done once its last step is."""
    lines = read_bytes(path).decode("ascii", "replace").split("\n")[:-1]
    if lines[:1] != [f"plan {plan.digest.hex()}"]:
        other = "the place of another plan" if lines else "no place"
        raise Wrong(f"keeps {other}; this one is {plan.digest.hex()}", path)
    marks = count(set(), lines)
    try:
        with open(f"{path}.times", encoding="ascii") as file:
            events = read_times(file.read().split("\n"))
    except (OSError, UnicodeDecodeError):
        events = []
    runs = [text.split() for _, text in events if re.fullmatch(r"begins [a-z,]+ (rounds|eager)", text)]
    last_step = "erased" if any(it.startswith("eras") for it in marks) else "copied"
    last_step = runs[-1][1].split(",")[-1] if runs else last_step
    done = {number for line, number in numbered(plan).items() if f"{last_step} {line}" in marks}
    if not runs:
        return stand_of_file(path, done, since)
    worker = who_works(path)
    now = time.time() if worker else None
    return replace(stand_of_transfers(plan, events, done, last_step, runs[-1][2], now), worker=worker)


def stand_of_transfers(plan: Plan, events: Sequence[Event], done: set[int], last_step: str, way: str,
                       now: float | None) -> Stand:
    """How far a plan is by the times of its transfers. `now` is None where nothing is at work any more."""
    seconds, paused = at_work(events, now)
    last = max((at for at, (_, text) in enumerate(events) if text.startswith(f"{last_step} ")), default=-1)
    lasted, took, began = spans(plan, events, last_step)
    running = {it: now - at for it, at in began.items() if it not in done} if now else {}
    begun: Spans = collections.defaultdict(float)
    for it, for_ in running.items():
        round_ = bisect.bisect_right(first_of(plan), it)
        begun[round_] = max(begun[round_], for_)
    return Stand(done, way, seconds, 0.0, lasted, took, running, begun, at_work(events[: last + 1], None)[0],
                 paused=paused and now is not None)


def there_now(plan: Plan, names: str, said: str) -> set[int]:
    """The transfers whose extents are where they are to be, as a log of pvmoves says."""
    spots = set(re.findall(r"^round (\d+): (\S+) is (?:at|past) (\S+?),? (?:already|now|at)\b", said, re.M))
    left = {f"{at} {it.item}" for at, moves in enumerate(read_pvmoves(plan, names)[1], 1) for it in moves
            if (str(at), it.volume, f"{it.target}:{it.first + it.by}-{it.last + it.by}") not in spots}
    return {number for line, number in numbered(plan).items() if line not in left}


def by_log(path: str, plan: Plan, names: str | None) -> Stand:
    """What the log of a script says: which rounds it ended, since the next of the same run began, or all groups were
    clean."""
    said = read_bytes(path).decode("utf-8", "replace")
    events = read_times(line.removeprefix("time ") for line in said.split("\n") if line.startswith("time "))
    if f"begins {plan.digest.hex()}" not in [it for _, it in events]:
        raise Wrong(f"is not the log of a script for this plan, which says first: time .. begins {plan.digest.hex()}",
                    path)
    if any(text.startswith("copying ") for _, text in events):
        marks = {text for _, text in events}
        done = {number for line, number in numbered(plan).items() if f"copied {line}" in marks}
        is_over = events[-1][1] == "ends"
        stand = stand_of_transfers(plan, events, done, "copied", "eager", None if is_over else time.time())
        return replace(stand, unseen=True)
    rounds, now = set(), time.time()
    took: Spans = {}
    under_way: tuple[int, float] | None = None
    for at, text in [*events, (now, "now")]:
        found = re.fullmatch(r"round (\d+)", text)
        if under_way and (found and int(found[1]) > under_way[0] or text in ("paused", "ends")):
            rounds.add(under_way[0])
            took[under_way[0]] = at - under_way[1]
        under_way = (int(found[1]), at) if found else under_way if text == "now" else None
    rounds |= {int(it[1]) for it in re.finditer(r"^round (\d+): (\d+) of \2 groups are clean", said, re.M)}
    if under_way and said.endswith("all rounds are carried out\n"):
        rounds.add(under_way[0])
    begun = {under_way[0]: now - under_way[1]} if under_way and under_way[0] not in rounds else {}
    first = first_of(plan)
    done = {it for round_ in rounds if 0 < round_ < len(first) for it in range(first[round_ - 1], first[round_])}
    seconds, paused = at_work(events, now if begun else None)
    return Stand(done | (there_now(plan, names, said) if names else set()), "rounds", seconds, took=took, begun=begun,
                 paused=paused, unseen=True)

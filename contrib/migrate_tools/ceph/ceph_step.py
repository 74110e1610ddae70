"""ceph-step --script SCRIPT [ROUND]: carries out the steps of a script of to-ceph. ceph-step STEP..: carries out one.

A step is the words of its line. It sets the exceptions of its placement group by `ceph osd pg-upmap-items`, waits until
the group is active and clean on its OSDs, and says so. What is there already, or gone on from there, is passed over. So
a script, or a line of it, can be begun again at any time. A round begins once all steps before it are done. With
--limits none but round 0 is waited for: a step begins as soon as each OSD at which it counts has a place free, and with
it those of its group after it that find theirs free too; groups with the most steps left and then the first of the list
come first. Each look at the cluster is for all of them.

It stops, with a sentence and status 1, where an exception that it set is gone, or another one is there; where a group
gets no place on an OSD that is too full, is degraded or can't be used at three looks, which it wasn't at first; where
a group has come to rest elsewhere, since the weights are others than planned; and at HEALTH_ERR. What is under way then
goes on. One such script works on a cluster at a time, by the key migrate/ceph-step of `ceph config-key`. The time
between two looks is $PAUSE seconds; else 1 to 30, a quarter of the time since a step began or was done."""
import argparse, collections, itertools, os, signal, threading, time
from collections.abc import Sequence
from concurrent.futures import ThreadPoolExecutor
from types import FrameType
from ..calls import Ending, add_hook, call
from ..clock import Clock, add_times, round_of, tell
from ..command import Wrong, command, note, put, read_text, words
from .cluster import AT_ONCE, LOCK, Key, Silent, View, ceph, is_balancing, view
from .locks import Lock
from .steps import Counts, Step, pairs_text, read_step

MOST = {"ill": 3, "peering": 10, "elsewhere": 10}  # so many looks in a row, and it stops


class Ended(Exception):
    """As --until says."""


class Stopped(Exception):
    """By a signal."""


class Carrier:
    """Carries out steps, which are known by their numbers. `chains` has those of each group, in their order; `place`
    their places there, `at` the place of the last one whose exceptions the group has, -1 where those from before,
    `set_` that of the last one set here."""

    def __init__(self, steps: Sequence[Step], limits: dict[str, int], ahead: int, clock: Clock, lock: Lock) -> None:
        self.steps, self.limits, self.ahead, self.clock, self.lock = steps, limits, ahead, clock, lock
        self.chains: dict[str, list[int]] = collections.defaultdict(list)
        for number, step in enumerate(steps):
            self.chains[step.group].append(number)
        self.place = {number: at for chain in self.chains.values() for at, number in enumerate(chain)}
        self.set_ = dict.fromkeys(self.chains, -1)
        self.at: dict[str, int] = {}
        self.done: set[int] = set()
        self.now: View | None = None
        self.ill_at_first: set[str] = set()
        self.looks: collections.Counter[tuple[str, str]] = collections.Counter()  # in a row, by group and what is seen
        self.round, self.said, self.since, self.stopped = 0, "", time.monotonic(), threading.Event()

    def carry_out(self, first: int) -> None:
        """Round by round from this one on; with limits none but round 0 is waited for."""
        stages: dict[int, list[int]] = collections.defaultdict(list)
        for number, step in enumerate(self.steps):
            if step.round >= first:
                stages[min(step.round, 1) if self.limits else step.round].append(number)
        for self.round, numbers in sorted(stages.items()):
            self.stage(numbers, bool(self.limits) and self.round > 0)

    def stage(self, numbers: Sequence[int], eager: bool) -> None:
        is_new = True
        while True:
            if self.now is None and not self.look():
                self.rest()
                continue
            left = [it for it in numbers if it not in self.done]
            under = [it for it in left if self.place[it] <= self.at[self.steps[it].group]]
            if is_new and not eager and left and self.clock.holds():
                if not self.clock.wait(self.stopped.is_set):
                    self.rest(0)
                    raise Ended(f"before round {self.round}")
                self.now = None  # whoever took its place meanwhile may have begun what it would
                continue
            if is_new and not eager:
                tell(f"round {self.round}")
            is_new = False
            count = len(numbers) - len(left)
            self.says(f"{count} of {len(numbers)} steps are done, {len(under)} under way" if eager else
                      f"round {self.round}: {count} of {len(numbers)} groups are clean where they are to be")
            begun = self.begin(self.due(left, under), eager)
            is_held = self.round == 0 and begun == len(left) - len(under)
            if is_held and self.now and "norebalance" in self.now.flags:
                ceph("osd", "unset", "norebalance")
            if not left:
                return
            if eager and self.clock.is_over() and not under and not begun:
                raise Ended(f"with {len(left)} of {len(numbers)} steps left")
            self.now = None
            self.rest()

    def rest(self, seconds: float | None = None) -> None:
        """Waits for the next look. Nothing is broken off by a signal but this."""
        if self.stopped.wait(self.pause() if seconds is None else seconds):
            raise Stopped

    def pause(self) -> float:
        """The seconds until the next look. What is seen that may stop it gets the time to pass by."""
        is_odd = any(what == "ill" or count > 5 for (_, what), count in self.looks.items())
        calm = min(30, max(1, (time.monotonic() - self.since) / 4))
        return float(os.environ.get("PAUSE") or (30 if is_odd else calm))

    def says(self, text: str) -> None:
        if text != self.said:
            self.said = text
            put(f"{text}\n")

    def look(self) -> bool:
        """Learns where all groups are, and stops where it should. Answers whether the cluster did."""
        try:
            with ThreadPoolExecutor(1) as pool:
                check = pool.submit(self.lock.check)
                now = view()
                check.result()
        except Silent as why:
            self.rest(0)  # a signal ends what it called too
            self.says(f"{why}; it is asked again")
            return False
        if now.error:
            raise Wrong(f"the cluster says HEALTH_ERR: {now.error}")
        ill, seen = {name for name, it in now.groups.items() if it.is_ill()}, set()
        if not self.at:
            self.ill_at_first = ill
        self.ill = ill - self.ill_at_first
        for group, chain in self.chains.items():
            at = self.at[group] = self.where(group, now)
            if at >= 0 and self.is_there(self.steps[chain[at]], now):
                self.passed(chain[: at + 1])
            if at >= 0 and chain[at] not in self.done and self.rests(self.steps[chain[at]], now):
                seen.add((group, "elsewhere"))
        seen |= {(name, "ill") for name in self.ill}
        seen |= {(name, "peering") for name, it in now.groups.items() if it.is_peering()}
        self.looks = collections.Counter({it: self.looks[it] + 1 for it in seen})
        for name, what in (it for it, count in self.looks.items() if count >= MOST[it[1]]):
            if what == "elsewhere":
                raise Wrong(f"placement group {name} rests on {now.groups[name].up}: its exceptions do not bring it "
                            "where it is to be, since the weights or the rule were changed")
            raise Wrong(f"placement group {name} is {'+'.join(sorted(now.groups[name].state))}, which it was not when "
                        "this began: see `ceph health detail`, and let it mend first")
        self.now = now
        return True

    def where(self, group: str, now: View) -> int:
        """The place of the last step of a group whose exceptions it has; -1 where those from before."""
        chain, has = [self.steps[it] for it in self.chains[group]], now.pairs.get(group, [])
        found = max((at for at, step in enumerate(chain) if step.pairs == has), default=-1)
        is_start = has in chain[0].start
        if is_start and chain[0].round == 0 and "norebalance" in now.flags and self.set_[group] < 0:
            found = 0 if chain[0].pairs == has else -1  # where its last step lets go of all it is not held yet
        if found < self.set_[group] or found < 0 and not is_start:
            said = "a whole one" if has is None else pairs_text(has)
            raise Wrong(f"ceph osd dump has other exceptions of placement group {group} than this script set ({said}): "
                        "Ceph dropped them, since they break the pool's rule or an OSD of theirs has no weight, or "
                        "someone else changed them")
        return found

    def is_there(self, step: Step, now: View) -> bool:
        placed = now.groups.get(step.group)
        if placed is None or not placed.is_clean():
            return False
        return placed.up == step.osds() if step.order[0] == "=" else set(step.osds()) <= set(placed.up)

    def passed(self, numbers: Sequence[int]) -> None:
        """These are done."""
        for number in (it for it in numbers if it not in self.done):
            self.done.add(number)
            self.since = time.monotonic()
            self.each("copied", self.steps[number])

    def each(self, word: str, step: Step) -> None:
        for item, its in step.items.items() if self.limits and step.round else ():
            tell(f"{word} {its} {item}")

    def rests(self, step: Step, now: View) -> bool:
        """Whether a group that is under way is clean elsewhere. Where its new OSD is too full it stops."""
        placed = now.groups.get(step.group)
        if placed and (full := next((it for it in placed.state if it.endswith("_toofull")), "")):
            osds = " and ".join(f"osd.{it}" for it in placed.up if it not in placed.acting)
            back = Step(0, step.group, "", step.start[0], [], {}, {})
            raise Wrong(f"placement group {step.group} is in {full}: {osds} has no room for it. Make room there, or "
                        f"send it back by: ceph {' '.join(back.command())}")
        return placed is not None and placed.is_clean()

    def due(self, left: Sequence[int], under: Sequence[int]) -> list[int]:
        """The steps that may begin: those first that find each place free, groups with the most steps left and then
        their order, then those that go ahead and wait for the fewest. While a group is ill that was not so at first
        none may."""
        busy: dict[str, collections.Counter[str]] = collections.defaultdict(collections.Counter)
        for it in under:
            self.together(self.steps[it], busy[self.steps[it].group])
        used = sum(busy.values(), collections.Counter[str]())
        found: list[int] = []
        ready = []
        for number in left if not self.ill else ():
            if self.steps[number].group not in busy:
                ready.append(number)
            busy.setdefault(self.steps[number].group, collections.Counter())
        ready.sort(key=lambda it: self.place[it] - len(self.chains[self.steps[it].group]))
        for most in (0, 1, 2, 1 << 10)[: 4 if self.ahead else 1]:  # at so many OSDs it may have to wait
            taken = set()
            for number in ready:
                counts = self.steps[number].counts
                full = self.full(counts, used, 0)
                if len(full) <= most and not (full and self.full(counts, used, self.ahead)):
                    taken.add(number)
                    found.append(self.last(number, used))
                for side in full if not most else ():  # one that wants several places keeps others from it till then
                    used[side] += 1 << 20 if counts[side] > 1 else 0
            ready = [it for it in ready if it not in taken]
        return found

    def full(self, counts: Counts, used: collections.Counter[str], ahead: int) -> list[str]:
        """Where what counts so finds no place, with so many more than the limits."""
        limits = ((side, self.limits.get(side) or self.limits[side.partition("/")[2] or "osd"])
                  for side in (counts if self.limits else ()))
        return [side for side, most in limits if used[side] and used[side] + counts[side] > most + ahead]

    @staticmethod
    def together(step: Step, counts: collections.Counter[str]) -> Counts:
        """Adds where a step counts to where those of its group do that are carried out together with it, and gives what
        is new: Ceph counts a group once at the OSD that fills it."""
        new = {side: count for side, count in step.counts.items() if not (side in counts and side.endswith("/out"))}
        counts.update(new)
        return new

    def last(self, number: int, used: collections.Counter[str]) -> int:
        """Takes the places of a step, and of those after it of its group that find theirs free too, which are carried
        out together with it by the exceptions of the last. Answers which that is."""
        chain, counts = self.chains[self.steps[number].group], collections.Counter[str]()
        used.update(self.together(self.steps[number], counts))
        for it in chain[self.place[number] + 1 :] if self.limits and self.round else ():
            new = self.together(self.steps[it], counts)
            if self.full(new, used, 0):
                break
            used.update(new)
            number = it
        return number

    def begin(self, numbers: Sequence[int], eager: bool) -> int:
        """Sets the exceptions of these, several at once; none with `eager` while the clock holds. Answers how many."""
        begun = 0
        with ThreadPoolExecutor(AT_ONCE) as pool:
            while begun < len(numbers) and not (eager and self.clock.holds()):
                self.rest(0)
                these = numbers[begun : begun + AT_ONCE]
                for number in these:
                    group, at = self.steps[number].group, self.place[number]
                    for it in self.chains[group][self.at[group] + 1 : at + 1]:
                        self.each("copying", self.steps[it])
                list(pool.map(lambda it: ceph(*self.steps[it].command()), these))
                self.set_.update((self.steps[it].group, self.place[it]) for it in these)
                begun += len(these)
                self.since = time.monotonic()
                if self.round == 0:
                    self.says(f"round 0: {begun} of {len(numbers)} groups are set")
        return begun


def read_script(path: str) -> list[Step]:
    """The steps of a script of to-ceph."""
    lines = (it.split() for it in read_text(path).split("\n"))
    steps = [read_step(it[1:]) for it in lines if it[:1] == ["ceph-step"]]
    if not steps:
        raise Wrong("has no step; `to-ceph` writes a script of them", path)
    return steps


def commands_of(steps: Sequence[Step]) -> str:
    """What is run, as text."""
    lines: list[str] = []
    for round_, those in itertools.groupby(steps, key=lambda it: it.round):
        lines += [f"# round {round_}", *(f"ceph {' '.join(it.command())}" for it in those)]
        lines += ["ceph osd unset norebalance"] * (round_ == 0)
    return "".join(f"{it}\n" for it in lines)


def read_limits(text: str) -> dict[str, int]:
    return {side: int(limit) for side, _, limit in (it.partition("=") for it in text.split(","))}


def read_words() -> tuple[argparse.Namespace, list[Step], int]:
    """The words, the steps, and the round with which to begin."""
    reader = words(__doc__)
    reader.add_argument("--script", metavar="SCRIPT", help="carries out the steps of this file")
    reader.add_argument("--plan", metavar="DIGEST", default="", help=argparse.SUPPRESS)
    reader.add_argument("--limits", metavar="WAY=N,..", type=read_limits, default={},
                        help="at most so many backfills of an OSD at once: out=2,in=2,osd.5/out=1")
    reader.add_argument("--ahead", metavar="N", type=int, default=0,
                        help="so many more at each limit, which wait in Ceph's own queue until it has a place for them")
    reader.add_argument("-n", dest="only_print", action="store_true", help="prints the commands alone")
    reader.add_argument("--force", action="store_true", help="takes the place of a script at work, and stops it")
    add_times(reader, "round, with --limits step,")
    add_hook(reader)
    reader.add_argument("words", metavar="WORD", nargs="*", help="with --script the first round; else a step")
    given = reader.parse_args()
    if not (given.script or given.words):
        reader.error("say --script SCRIPT, or the words of a step")
    if not given.script:
        steps = [read_step(given.words)]
        return given, steps, steps[0].round
    steps = read_script(given.script)
    first, last = steps[0].round, 1 if given.limits else steps[-1].round
    return given, steps, round_of(reader, given.words, min(first, 1), last)


@command
def main() -> None:
    given, steps, first = read_words()
    if given.only_print:
        return put(commands_of([it for it in steps if it.round >= first]))
    if is_balancing():
        raise Wrong("the balancer is on, and would work against the plan: ceph balancer off")
    lock, clock = Lock(Key(), os.path.abspath(given.script or "a step")), Clock(given.until, tell, given.window)
    carrier = Carrier(steps, given.limits, given.ahead, clock, lock)
    name = given.script or "a step"
    ending = Ending(name, f"begin again with{f': sh {name}' if given.script else ' the same words'}", given.hook)

    def stop(number: int, _: FrameType | None) -> None:
        carrier.stopped.set()
        signal.signal(number, signal.SIG_DFL)  # a second one ends it at once

    signal.signal(signal.SIGINT, stop)
    signal.signal(signal.SIGTERM, stop)
    try:
        lock.take(given.force)
    except Silent as why:
        raise Wrong(f"{why}; nothing was begun") from None
    try:
        tell(f"begins {given.plan}")
        carrier.carry_out(first)
        tell("ends")
        return ending.done()
    except Ended as where:
        tell("ends")
        ending.end("ended", str(where))
    except (Wrong, Silent, Stopped) as why:
        if not isinstance(why, Stopped):
            note(why)
            call(given.hook, "failed", f"{name}: {why}")
        status = 130 if carrier.stopped.is_set() else 1  # what it called is stopped with it
        ending.end("stopped", f"in round {carrier.round}", "; what is under way goes on", status)
    finally:
        try:
            lock.release()
        except Silent:
            note(f"the cluster does not answer, so its key {LOCK} stays: --force takes it over")

"""lvm-step --script SCRIPT [-n] [OPTION..] [ROUND], lvm-step --round N VOLUME PV:FIRST-LAST PV:FIRST-LAST [LATER..]:
carries out the steps of a script of to-lvm, or one of them.

A step moves extents of a volume from a physical volume to another one by pvmove. It looks first where they are, by
pvs: what is done is passed over, also where they are at a later place already, to which a later round brings them, and
where they are at none of these places it stops. Then it calls pvmove, waits for it, looks again, and says what it did.
A script begins at ROUND, or at the first one; -n prints the commands alone. LVM moves only once at a time from one
physical volume, and of one volume, so what shares one of these within a round comes after the other. While a file
`pause` is in the folder, outside of each --window, and once --until has come, no further round begins; ended so the
status is 3. What it prints is for `progress --log`."""
import argparse, fcntl, json, re, shlex, signal, subprocess, sys
from collections.abc import Sequence
from ..calls import Ending, add_hook, call, output
from ..clock import Clock, add_times, round_of, tell
from ..command import Wrong, command, read_text, words
from .pvmoves import Pvmove, apart, options

LOOK = ["pvs", "--segments", "--reportformat", "json", "-o", "lv_name,pvseg_start,pvseg_size"]
SPOT = re.compile(r"(.+):([0-9]{1,12})-([0-9]{1,12})", re.ASCII)


def move_of(volume: str, spots: Sequence[str]) -> Pvmove:
    """The step of these words: where the extents are, where they go, and where they go in later rounds."""
    found = [SPOT.fullmatch(it) for it in spots]
    ends = [(it[1], int(it[2]), int(it[3])) for it in found if it]
    if len(ends) < 2 or len(ends) < len(spots) or len({last - first for _, first, last in ends}) > 1:
        raise Wrong(f"'{' '.join(spots)}' are no places of as many extents, as /dev/sda:0-15 /dev/sdb:32-47")
    source, first, last = ends[0]
    (target, to, _), *later = ends[1:]
    return Pvmove("", volume, source, first, last, target, to - first, [(it, at - first) for it, at, _ in later])


def rounds_of(path: str) -> list[list[Pvmove]]:
    """The steps of a script, by rounds."""
    rounds: list[list[Pvmove]] = []
    for line in read_text(path).splitlines():
        if line.startswith("lvm-step --round "):
            number, volume, *spots = shlex.split(line)[2:]
            rounds += [[] for _ in range(int(number) - len(rounds))]
            rounds[int(number) - 1].append(move_of(volume, spots))
    if not rounds:
        raise Wrong("has no steps; `to-lvm` writes them", path)
    return rounds


def spot(device: str, move: Pvmove, by: int) -> str:
    return f"{device}:{move.first + by}-{move.last + by}"


def commands(move: Pvmove) -> list[str]:
    return ["pvmove", "-i", "3", *options(move.volume), spot(move.source, move, 0), spot(move.target, move, move.by)]


def holds(move: Pvmove, device: str, by: int) -> bool:
    """Whether the volume has all of these extents there."""
    said = output(*LOOK, device)
    try:
        rows = [row for part in json.loads(said)["report"] for row in part["pvseg"]]
        there = {at for row in rows if row["lv_name"].strip("[]") == move.volume
                 for at in range(int(row["pvseg_start"]), int(row["pvseg_start"]) + int(row["pvseg_size"]))}
    except (ValueError, LookupError, TypeError):
        raise Wrong(f"{shlex.join([*LOOK, device])} does not say what it is asked for: {said[:200]}") from None
    return there.issuperset(range(move.first + by, move.last + by + 1))


class Round:
    """Carries out what a round needs."""

    def __init__(self, number: int) -> None:
        self.number = number

    def say(self, text: str, is_wrong: bool = False) -> bool:
        print(f"round {self.number}: {text}", flush=True, file=sys.stderr if is_wrong else sys.stdout)
        return not is_wrong

    def begin(self, it: Pvmove) -> subprocess.Popen[bytes] | bool:
        """The pvmove that it needs, or whether it is done already."""
        target = spot(it.target, it, it.by)
        if holds(it, it.target, it.by):
            return self.say(f"{it.volume} is at {target} already")
        for device, by in it.later:
            if holds(it, device, by):
                return self.say(f"{it.volume} is past {target}, at {spot(device, it, by)} already")
        if not holds(it, it.source, 0):
            return self.say(f"{it.volume} is neither at {spot(it.source, it, 0)} nor at {target}\nwhere a pvmove is "
                            "unfinished (lvs -a shows it), call pvmove without words, then begin again; else make a "
                            "new plan", True)
        self.say(f"{it.volume} goes from {spot(it.source, it, 0)} to {target}")
        return subprocess.Popen(commands(it), stdin=subprocess.DEVNULL, start_new_session=True)

    def ends(self, it: Pvmove, going: subprocess.Popen[bytes] | bool) -> bool:
        """Waits for it, and answers whether its extents are where they are to be."""
        if isinstance(going, bool):
            return going
        target = spot(it.target, it, it.by)
        if status := going.wait():
            return self.say(f"pvmove of {it.volume} from {spot(it.source, it, 0)} to {target} ended with status "
                            f"{status}", True)
        if not holds(it, it.target, it.by):
            return self.say(f"pvmove ended, and {it.volume} is not at {target}: was another pvmove from {it.source} at "
                            "work?", True)
        return self.say(f"{it.volume} is at {target} now")

    def run(self, moves: Sequence[Pvmove]) -> bool:
        """Whether all of it is done. What shares a source or a volume comes one after the other."""
        for step in apart(moves):
            begun = [(it, self.begin(it)) for it in step]
            if not all([self.ends(it, going) for it, going in begun]):
                return False
        return True


class Script:
    """Carries out these rounds from this one on."""

    def __init__(self, given: argparse.Namespace, rounds: Sequence[Sequence[Pvmove]], first: int) -> None:
        self.given, self.rounds, self.number = given, rounds, first
        for it in (signal.SIGINT, signal.SIGTERM):
            signal.signal(it, self.stopped)

    def ending(self) -> Ending:
        return Ending(self.given.script, f"begin again with: sh {self.given.script} {self.number}", self.given.hook)

    def stopped(self, *_: object) -> None:
        more = "; each pvmove under way goes on: when none is left"
        self.ending().end("stopped", f"in round {self.number}", more, 130)

    def print_alone(self) -> None:
        for number, moves in enumerate(self.rounds[self.number - 1:], self.number):
            steps = [it for step in apart(moves) for it in step]
            print("\n".join([f"# round {number}", *(shlex.join(commands(it)) for it in steps)]))

    def run(self) -> None:
        clock = Clock(self.given.until, tell, self.given.window)
        with open(self.given.script, "rb") as file:
            try:
                fcntl.flock(file, fcntl.LOCK_EX | fcntl.LOCK_NB)
            except OSError:
                raise Wrong("is being carried out already", self.given.script) from None
            for device in dict.fromkeys(end for moves in self.rounds for it in moves for end in (it.source, it.target)):
                if subprocess.run(["pvs", "--noheadings", "-o", "pv_name", device], stdout=subprocess.DEVNULL,
                                  check=False).returncode:
                    raise Wrong(f"pvs of {device} fails, so nothing was begun; is this root?")
            tell(f"begins {self.given.plan}")
            for self.number in range(1 if self.given.all_rounds else self.number, len(self.rounds) + 1):
                if not clock.wait():
                    tell("ends")
                    self.ending().end("ended", f"before round {self.number}")
                tell(f"round {self.number}")
                if not Round(self.number).run(self.rounds[self.number - 1]):
                    call(self.given.hook, "failed", f"{self.given.script}: a pvmove of round {self.number} failed")
                    self.ending().end("stopped", f"in round {self.number}", status=1)
            self.ending().done()


@command
def main() -> None:
    reader = words(__doc__)
    add = reader.add_argument
    add("--script", metavar="SCRIPT", help="the script whose steps are carried out")
    add("--plan", metavar="DIGEST", default="", help="the digest of its plan, for `progress`")
    add("--all-rounds", action="store_true", help="each run looks at all rounds, since one needs those before it")
    add("--round", metavar="N", type=int, help="the round of the one step that follows")
    add("-n", action="store_true", help="prints the commands alone")
    add("rest", metavar="ROUND | VOLUME PV:FIRST-LAST ..", nargs="*")
    add_times(reader, "round")
    add_hook(reader)
    given = reader.parse_args()
    if (given.script is None) == (given.round is None):
        reader.error("say --script SCRIPT, or --round N and a step")
    if given.script is None:
        move = move_of(given.rest[0] if given.rest else "", given.rest[1:])
        if given.n:
            return print(shlex.join(commands(move)))
        sys.exit(not Round(given.round).run([move]))
    rounds = rounds_of(given.script)
    script = Script(given, rounds, round_of(reader, given.rest, 1, len(rounds)))
    return script.print_alone() if given.n else script.run()

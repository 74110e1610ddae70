"""to-lvm PLAN NAMES [--out SCRIPT] [--plain]: turns a plan into a shell script of steps for `lvm-step`, each of which
is a pvmove; NAMES is the names.csv of from-lvm.

The script carries out one round after the other, and the transfers of a round side by side, as far as LVM does that;
`lvm-step --help` says how. It can be begun again at any round, as a whole too, and each line can be run by hand. Of a
plan of plan-tight, which may park items, each run looks at all rounds, since one needs those before it. One that parks
an item where the script could not see that, or beside another leg or stripe of what it has, is refused. It needs root,
and it is for /bin/sh; with --plain it does without Python:
  sh SCRIPT        carries out all rounds
  sh SCRIPT 3      begins at round 3
  sh SCRIPT -n     prints the commands alone
  sh SCRIPT --until 06:00    no round begins from then on; where one is left the status is 3
While a file `pause` is in the folder in which it was begun no further round begins. `lvm-step --help` has the other
words; with --plain there are these alone. `progress --log` reads what it prints."""
import shlex
from ..command import Wrong, command, put, words
from ..plans import read_plan
from ..shell import steps_head
from ..waiting import needed
from .lvm_step import spot
from .plain import plain
from .pvmoves import Pvmove, read_pvmoves


def line_of(at: int, move: Pvmove) -> str:
    spots = [spot(device, move, by) for device, by in ((move.source, 0), (move.target, move.by), *move.later)]
    return shlex.join(["lvm-step", "--round", str(at), move.volume, *spots])


@command
def main() -> None:
    reader = words(__doc__, "plan", "names")
    reader.add_argument("--out", metavar="SCRIPT",
                        help="where the script is saved; it is printed where this is left out")
    reader.add_argument("--plain", action="store_true", help="a script that does without Python")
    given = reader.parse_args()
    plan = read_plan(given.plan)
    shifts, digest = plan.shifts(), plan.digest.hex()
    if not shifts:
        raise Wrong("moves nothing", given.plan)
    rounds, all_rounds = read_pvmoves(plan, given.names)[1], any(needed(shifts))
    title, words_ = f"{len(shifts)} transfers in {len(rounds)} rounds", digest + " --all-rounds" * all_rounds
    lines = [steps_head("pvmove", title, words_, "lvm-step", "--hook COMMAND")]
    for at, moves in enumerate(rounds, 1):
        lines += [f"\n# round {at}\n", *(f"{line_of(at, it)}\n" for it in moves)]
    text = plain(title, digest, rounds, all_rounds) if given.plain else "".join(lines)
    put(text, given.out, [given.plan, given.names], 0o755)

"""The script of pvmoves for a machine without Python: what lvm-step does, in the shell's own words."""
import shlex
from collections.abc import Sequence
from .. import shell
from .pvmoves import Pvmove, apart, options

OWN = r"""going='' failed=''
say() { echo "round $round: $*"; }
holds() { # VOLUME PV FIRST-LAST: whether the volume has all of these extents
    pvs --noheadings --segments -o lv_name,pvseg_start,pvseg_size "$2" |
        awk -v volume="$1" -v first="${3%-*}" -v last="${3#*-}" '
        NF == 3 && ($1 == volume || $1 == "[" volume "]") {
            from = $2 > first + 0 ? $2 : first + 0; to = $2 + $3 - 1 < last + 0 ? $2 + $3 - 1 : last + 0
            if (from <= to) found += to - from + 1
        }
        END { exit found != last - first + 1 }'
}

# VOLUME PV FIRST-LAST PV FIRST-LAST [PV FIRST-LAST].. OPTION..: those in brackets are where it goes in later rounds
move() {
    volume=$1 from=$2 old=$3 to=$4 new=$5; shift 5
    if holds "$volume" "$to" "$new"; then say "$volume is at $to:$new already"; return 0; fi
    while [ "${1#-}" = "$1" ]; do
        if holds "$volume" "$1" "$2"; then say "$volume is past $to:$new, at $1:$2 already"; return 0; fi
        shift 2
    done
    if ! holds "$volume" "$from" "$old"; then
        say "$volume is neither at $from:$old nor at $to:$new" >&2
        echo "where a pvmove is unfinished (lvs -a shows it), call pvmove without words, then begin again;" \
            "else make a new plan" >&2
        return 1
    fi
    say "$volume goes from $from:$old to $to:$new"
    pvmove -i 3 "$@" "$from:$old" "$to:$new" ||
        { say "pvmove of $volume from $from:$old to $to:$new ended with status $?" >&2; return 1; }
    holds "$volume" "$to" "$new" ||
        { say "pvmove ended, and $volume is not at $to:$new: was another pvmove from $from at work?" >&2; return 1; }
    say "$volume is at $to:$new now"
}

go() {
    if [ "$only_print" ]; then
        from=$2:$3 to=$4:$5; shift 5
        while [ "${1#-}" = "$1" ]; do shift 2; done
        echo "pvmove -i 3 $* $from $to"
        return 0
    fi
    move "$@" & going="$going $!"
}
together() { # waits for what goes
    for it in $going; do wait "$it" || failed=yes; done
    going=''
    [ -z "$failed" ] || { echo "$0: stopped in round $round; begin again with: sh $0 $round" >&2; exit 1; }
}
look_first() { :; }
ready() {
    for it in DEVICES; do
        pvs --noheadings -o pv_name "$it" >/dev/null ||
            { echo "$0: pvs of $it fails, so nothing was begun; is this root?" >&2; exit 1; }
    done
}
"""

# A round needs those before it where a slot is used again, or an item is parked. By itself its place says nothing then.
ALL_ROUNDS = '[ "$only_print" ] || first=1 # here a round needs those before it: each is looked at, from the first on\n'


def words_for(move: Pvmove) -> str:
    """What the script's `go` gets: volume, source, extents, target, extents, later places, and options of pvmove."""
    spots = [(move.source, 0), (move.target, move.by), *move.later]
    ranges = (it for device, by in spots for it in (device, f"{move.first + by}-{move.last + by}"))
    return shlex.join([move.volume, *ranges, *options(move.volume)])


def plain(title: str, digest: str, rounds: Sequence[Sequence[Pvmove]], all_rounds: bool) -> str:
    """The script. `all_rounds` says that each run looks at all of them."""
    devices = shlex.join(dict.fromkeys(it for moves in rounds for move in moves for it in (move.source, move.target)))
    bodies = ("".join("".join(f"    go {words_for(it)}\n" for it in step) + "    together\n" for step in apart(moves))
              for moves in rounds)
    return shell.plain("pvmove", title, digest, ALL_ROUNDS * all_rounds + OWN.replace("DEVICES", devices),
                       "each pvmove under way goes on: when none is left,",
                       {at: it or "    :\n" for at, it in enumerate(bodies, 1)})

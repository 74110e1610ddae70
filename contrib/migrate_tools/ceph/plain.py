"""The script of to-ceph --plain, for where `ceph` is, and no Python: rounds alone, in the words of a shell."""
from collections.abc import Sequence
from .. import shell
from .steps import Step

WHAT = "exceptions of placement groups"
OWN = r"""wanted='' dump=''
stop() { echo "$0: $*; stopped in round $round; begin again with: sh $0 $round" >&2; exit 1; }
flag() {
    if [ "$only_print" ]; then echo "ceph osd $*"; else ceph osd "$@" || stop "ceph osd $* ended with status $?"; fi
}
# GROUP OSD,OSD.. [OSD OSD]..: sets the exceptions of a group, with which it is to be on these OSDs; = keeps their order
go() {
    group=$1 osds=$2 && shift 2
    there=$(echo "$dump" | sed -n "s/^pg_upmap_items $group \[\(.*\)\]\$/\1/p" | tr , ' ')
    if [ "$only_print" ] || [ "$there" != "$*" ]; then
        # it has gone on from here, where a later line has just what is there; while norebalance is set nothing has
        if [ -z "$only_print" ] && ! { [ "$round" = 0 ] && echo "$dump" | grep -q '^flags .*norebalance'; } &&
            sed "1,/^if begins $round;/d" "$0" | grep -qx "    go $group [=0-9,]*${there:+ $there}"; then
            return 0
        fi
        if [ $# -gt 0 ]; then flag pg-upmap-items "$group" "$@"; else flag rm-pg-upmap-items "$group"; fi
    fi
    wanted="$wanted$group $osds [$(echo "$*" | tr ' ' ,)]
"
}
look() { # which group of the round has other exceptions than were set here; how many are clean where they are to be
    { printf '%s\n' "$wanted"; ceph osd dump; ceph pg dump pgs_brief 2>/dev/null; } | awk '
        !begun && NF == 3 { need[$1] = $2; set[$1] = $3; groups++; next }
        { begun = 1 }
        $1 == "pg_upmap_items" { there[$2] = $3 }
        $1 == "PG_STAT" { for (i = 1; i <= NF; i++) at[$i] = i }
        $1 in need && at["UP"] && $at["STATE"] ~ /^active[+]clean/ && $at["UP"] == $at["ACTING"] {
            up = substr($at["UP"], 2, length($at["UP"]) - 2)
            n = split(need[$1], osds, ",")
            for (i = 1; i <= n; i++) if (need[$1] !~ /^=/ && !index("," up ",", "," osds[i] ",")) next
            if (need[$1] ~ /^=/ && need[$1] != "=" up) next
            clean++
        }
        END {
            for (it in need) if (at["UP"] && set[it] != (it in there ? there[it] : "[]")) { print "lost " it; exit }
            word = clean == groups ? "all" : "some"
            print word " " clean + 0 " of " groups + 0 " groups are clean where they are to be"
        }'
}
together() { # waits for the groups of the round
    [ -z "$only_print" ] || return 0
    while said=$(look) && [ "${said%% *}" = some ]; do echo "round $round: ${said#* }"; sleep "${PAUSE:-30}"; done
    [ "${said%% *}" != lost ] ||
        stop "ceph osd dump has other exceptions of placement group ${said#* } than this script set: Ceph dropped" \
            "them, since they break the pool's rule or an OSD of theirs has no weight, or someone else changed them"
    echo "round $round: ${said#* }"
    wanted=''
}
look_first() { dump=$(ceph osd dump) || stop "no answer"; }
ready() {
    ceph balancer status | grep -q '"active": true' || return 0
    echo "$0: the balancer is on, and would work against the plan: ceph balancer off" >&2
    exit 1
}
"""


def plain(steps: Sequence[Step], digest: str, last: int) -> str:
    """The text of the script."""
    rounds = {at: "" for at in range(min(1, steps[0].round), last + 1)}
    for it in steps:
        rounds[it.round] += f"    go {it.group} {it.order}{''.join(f' {osd}' for pair in it.pairs for osd in pair)}\n"
    rounds = {at: f"{body}{'    flag unset norebalance' + chr(10) if not at else ''}    together\n"
              for at, body in rounds.items()}
    title = f"{sum(len(it.items) for it in steps)} copies in {last} rounds"
    return shell.plain(WHAT, title, digest, OWN, "what is under way goes on;", rounds)

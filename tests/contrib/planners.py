"""Tries plan-lvm and plan-folders: what they say is counted again here, and back.sh undoes what move.sh has done, from
each place where it may stop."""
import collections, os, re
from copies import make_all_kinds
from limits_model import shifts_of
from lvm import after_pvmoves
from migrate_tools.run import compare
from rooms import Room, refused, same, sizes_of, that, volumes_of
from tight import SWAP, full_group

# a group, the words of a wish, and whether some item is parked or a slot is left first
OF_LVM = ((None, "--empty /dev/loop0 --limit 2", False), (None, "--empty loop0 --limit 1,2 --limit loop1=3,1", False),
          (None, "--spread --limit 2,1 --unit 32", False), (full_group, f"{SWAP} --unit 16", True),
          (None, "--move mail=loop1 --move web=loop2 --limit 2 --unit 4", False))


def fills_of(room, sizes):
    """How full each disk is at most, and the first round with that, where old and incoming bytes count together."""
    plan, bytes_ = shifts_of(room.read("p/plan.txt")), {it: int(size) for it, size in room.rows("p/bytes.csv")}
    used = collections.Counter()
    for item, disk, _ in room.rows("p/now.csv"):
        used[disk] += bytes_[item]
    most = {disk: (count, 0) for disk, count in used.items()}
    for at, shifts in enumerate(plan, 1):
        for item, _, _, target, _ in shifts:
            used[target] += bytes_[item]
        for target in {it[3] for it in shifts}:
            most[target] = max(most.get(target, (0, 0)), (used[target], at), key=lambda it: it[0])
        for item, source, *_ in shifts:
            used[source] -= bytes_[item]
    return {disk: f"{100 * count / sizes[disk]:.0f} % full at most, in round {at}"
            for disk, (count, at) in most.items() if at}


def plans_of_lvm():
    for make, wish, is_tight in OF_LVM:
        name = f"plan-lvm {wish}"
        with Room() as room:
            devices, volumes = make(room) if make else (sizes_of(), volumes_of())
            said = room.good(name, f"contrib/plan-lvm data {wish} --rate 64M --into p")
            plan, now = shifts_of(room.read("p/plan.txt")), room.rows("p/now.csv")
            moved = {it[0] for it in sum(plan, [])}
            sizes = dict(room.rows("p/bytes.csv"))
            bytes_ = sum(int(sizes[it[0]]) for it in sum(plan, []))
            that(f"{name}: what moves",
                 said.startswith(f"{len(moved)} of {len(now)} items move, {bytes_ / 2**20:.1f} MiB, in {len(plan)} "
                                 f"rounds: "), said)
            found = dict(re.findall(r"^disk (\S+) is (.*)$", said, re.M))
            full = fills_of(room, {os.path.basename(it): size << 22 for it, size in devices.items()})
            if is_tight:
                that(f"{name}: full", found, said)
            else:
                same(f"{name}: how full each disk gets", found, full)
            same(f"{name}: the way back is checked", re.findall(r"^way back: (.*)$", said, re.M),
                 ["followed to its end, one at a time" if is_tight else "optimal"])
            that(f"{name}: what decides it", is_tight
                 or re.search(r"^bottleneck .*so no schedule has fewer than \d+ rounds?\nfirst come, first served: \d+ "
                              r"rounds$", said, re.M), said)
            that(f"{name}: nothing was moved", room.state("lvm.json")["volumes"] == volumes)
            commands = [it.split() for it in room.good(name, "sh p/move.sh -n").splitlines() if it[0] != "#"]
            there = after_pvmoves(volumes, room.good(name, "sh p/move.sh -n"), devices)
            back = room.good(name, "sh p/back.sh -n")
            same(f"{name}: the way back leads to where it began", sorted_of(after_pvmoves(there, back, devices)),
                 sorted_of(volumes))
            for at in sorted({0, 1, len(commands) // 2, len(commands)}):
                if at < len(commands):
                    volume, first = commands[at][commands[at].index("-n") + 1], re.search(r":(\d+)-",
                        commands[at][-2])[1]
                    room.write(f"state/fail-{volume}-{first}", "")
                ran = room.run("sh p/move.sh")
                same(f"{name}: stopped before command {at}", ran.returncode, int(at < len(commands)))
                ran = room.run("sh p/back.sh")
                that(f"{name}: back from before command {at}", ran.returncode == 0
                     and sorted_of(room.state("lvm.json")["volumes"]) == sorted_of(volumes), ran)
    with Room() as room:
        for words, said, status in (("data --into p", "a wish is needed", 1),
                                    ("other --empty loop0 --into p", "lvs -a --segments", 1),
                                    ("data --empty loop0", "--into", 2)):
            ran = room.says(f"plan-lvm {words}", f"contrib/plan-lvm {words}", said, status=status)
            that(f"plan-lvm {words}", not ran.stdout, ran)


def sorted_of(volumes):
    return {volume: sorted(map(tuple, extents)) for volume, extents in volumes.items()}


# a tool that fails for an item as long as the file `stop` names it; what removes a source has removed half of it then
STOPS = """#!/bin/sh
for last; do :; done
[ "$(cat "$STAND_IN/stop" 2>/dev/null)" != TOOL ] || case $* in
*'it 2'*) [ TOOL != rm ] || /bin/rm -f "$last/one"; exit 1;;
esac
exec /bin/TOOL "$@"
"""


def plans_of_folders():
    """The copy of an item fails, or what removes its source is cut off, in the middle; then back, and once more from
    the start."""
    for wish, stop in (("--empty mnt/a", "cp"), ("--empty mnt/a", "rm"), ("--empty mnt/a --limit 1,2", "none"),
                       ("--empty mnt/a --unit 100K", "cp"), ("--empty mnt/a", "written")):
        name = f"plan-folders {wish}, {stop}"
        with Room() as room:
            room.good(name, """mkdir -p mnt/a mnt/b mnt/c; for it in 1 2 3 4; do mkdir "mnt/a/it $it"
                head -c ${it}00000 /dev/urandom >"mnt/a/it $it/one"; cp "mnt/a/it $it/one" "mnt/a/it $it/two"; done""")
            if stop == "none":
                make_all_kinds(room)
            room.good(name, "mkdir kept; cp -a mnt/a kept/")
            said = room.good(name, f"contrib/plan-folders mnt/* {wish} --rate 1M --into p")
            that(f"{name}: what is said", re.match(r"\d+ of \d+ items move, .* rounds: optimal\nbottleneck a",
                                                   said) and "way back: optimal" in said, said)
            for tool in ("cp", "rm"):
                room.write(f"bin/{tool}", STOPS.replace("TOOL", tool))
                os.chmod(room.path(f"bin/{tool}"), 0o755)
            room.write("state/stop", stop)
            ran = room.run("sh p/move.sh --jobs 1")
            same(f"{name}: it stops in the middle", ran.returncode, int(stop in ("cp", "rm")))
            os.unlink(room.path("state/stop"))
            if stop == "written":  # what was written at a target meanwhile comes back too
                room.good(name, 'for it in mnt/*/"it 2"/one; do echo more >>"$it"; echo more >>"kept/a/it 2/one"; done')
            room.good(name, "sh p/back.sh --jobs 1")
            same(f"{name}: nothing is left elsewhere", room.good(name, "find mnt/b mnt/c -mindepth 1 ! -type d"), "")
            same(f"{name}: all is where it was", room.good(name, "diff -r --no-dereference kept/a mnt/a 2>&1 | "
                                                                 "grep -v 'is a fifo\\|is a socket\\|is a character'; "
                                                                 "true"), "")
            for it in os.listdir(room.path("kept/a")) if stop == "none" else ():
                compare.compare(room.path(f"kept/a/{it}"), room.path(f"mnt/a/{it}"))
            same(f"{name}: once more, and there",
                 (room.run("sh p/move.sh").returncode, room.good(name, "find mnt/a ! -type d")), (0, ""))
    with Room() as room:
        room.good("plan-folders", """mkdir -p mnt/a/x mnt/b; head -c 99999 /dev/zero >mnt/a/x/file
            ln -s none mnt/a/x/broken; ln -s none mnt/a/link; truncate -s 9M mnt/a/x/holes; mkfifo mnt/a/x/fifo""")
        said = room.good("plan-folders", "contrib/plan-folders mnt/* --empty mnt/a --into p")
        that("a rate that is measured", re.search(r"^  with .*iB a second, as \S*/mnt/a/x/file is read$", said, re.M),
             said)
        room.good("plan-folders", "sh p/move.sh; rm mnt/b/x/fifo")
        refused(room, "a plan that was begun", "contrib/plan-folders mnt/* --empty mnt/b --into p",
                "p has a plan with its way back already")
        refused(room, "a wish that cannot be", "contrib/plan-folders mnt/* --empty mnt/none --into p/more",
                "there is no disk ")


CASES = (plans_of_lvm, plans_of_folders)

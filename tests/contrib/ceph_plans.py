"""Tries plan-ceph: from a cluster to its scripts, the change itself, the way back, and what is left of a script."""
import collections, os, random, re, resource, shutil
from ceph import FOUR
from ceph_model import exceptions_in, groups_in, up_of
from ceph_steps import DONE, HOLD, printed
from migrate_tools import disks, plans
from migrate_tools.ceph import change, groups, large, maps, plan_ceph, sizes
from migrate_tools.command import Wrong
from rooms import PROGRAM, Count, Room, page, refused, rows_of, shifts_of

WORDS = "--out 5 --reweight 3:0.5 --into plan"
AFTER = {it: sorted(up) for it, (_, up) in groups_in(page("contrib/samples/ceph/after")).items()}
BEFORE = {it: sorted(up) for it, (_, up) in groups_in(page("contrib/samples/ceph/before")).items()}


def where(room):
    """Each group's OSDs now."""
    state = room.state("ceph.json")
    return {it: sorted(up_of(raw, state["pairs"].get(it, []))) for it, raw in state["raw"].items()}


def partly(room, lines):
    """Runs these commands, and lets what is under way end."""
    for line in lines:
        room.good("a part of the moves", line)
    for _ in range(4 if lines else 0):
        room.good("a look", "ceph pg dump pgs_brief")


def planned_ceph():
    """From the cluster to the change: nothing moves for it once move.sh is through."""
    with Room() as room:
        said = room.good("plan-ceph", f"contrib/plan-ceph {WORDS}")
        moves = sum(map(len, shifts_of(room.read("plan/plan.txt"))))
        form = rf"{moves} copies move, .* in \d+ rounds: optimal, bound side osd\.\d+ (in|out) .*\nfullest: osd\.\d+ "
        Count.that("it says what is decided by", re.match(form, said) and "the way back: optimal\n" in said, said)
        for name in ("move.sh", "change.sh", "back.sh"):
            is_there = f"plan/{name}\n" in said and os.access(room.path(f"plan/{name}"), os.X_OK)
            Count.that(f"it says {name}", is_there, said)
        ran = room.run("cd plan && sh change.sh")
        is_refused = ran.returncode == 1 and " would move: move.sh has not brought them where they" in ran.stderr
        Count.that("the change is refused before its moves", is_refused and room.read("state/log") is None, ran)
        Count.same("move.sh", room.good("move", "cd plan && sh move.sh | tail -n 1"), DONE)
        Count.same("each group is where it is to be", where(room), AFTER)
        room.keep("state/ceph.json", {**room.state("ceph.json"), "epoch": 1 << 20})
        ran, log = room.run("cp state/log log; cd plan && sh change.sh"), room.read("log")
        is_refused = ran.returncode == 1 and "the map has changed while this looked, and nothing was" in ran.stderr
        Count.that("another epoch than that of the look is refused", is_refused and room.read("state/log") == log, ran)
        room.keep("state/ceph.json", {it: one for it, one in room.state("ceph.json").items() if it != "epoch"})
        said = room.good("change", "cd plan && sh change.sh -n")
        wanted = ["ceph osd set norebalance", "ceph osd crush reweight osd.3 0.5", "ceph osd out 5",
                  "ceph osd unset norebalance"]
        none = "0 placement groups would move for the change, 0 of them left out of the plan"
        Count.same("the change, nothing copied meanwhile", said.splitlines(), [none, *wanted])
        room.good("change", "rm state/log; cd plan && sh change.sh")
        Count.same("it does what it says", room.read("state/log").splitlines(), wanted)
        Count.same("nothing moved for it", where(room), AFTER)
        ran = room.run("cd plan && sh back.sh")
        Count.that("the way back ends with the change", ran.returncode == 1 and "begin again" in ran.stderr, ran)


def the_change_of_ceph():
    """One command, and so one epoch, where one can say it; and what may move for it are those that were left out."""
    for out, weights, *wanted in (
            ([5, 7], {}, "osd out 5 7"), ([], {3: "0.5"}, "osd crush reweight osd.3 0.5"),
            ([], {3: "0.5", 4: "2"}, "osd setcrushmap -i new 9"),
            ([5], {3: "0.5", 4: "2"}, "osd set norebalance", "osd setcrushmap -i new 9", "osd out 5",
             "osd unset norebalance")):
        found = change.commands_of(maps.Change(out, weights), "9", "new")
        Count.same(f"out {out}, weights {weights}", [" ".join(it) for it in found], wanted)
    with Room() as room:
        room.good("plan-ceph", f"contrib/plan-ceph {WORDS}")
        moving = sorted({it.split()[3] for it in printed(room, "plan/move.sh")})
        for left, status in ((moving, 0), (moving[1:], 1)):
            room.keep("plan/change.json", {"out": [5], "weights": {"3": "0.5"}, "left_out": left})
            said = f"{len(moving)} placement groups would move for the change, {len(left)} of them left out of the plan"
            ran = room.says("left out", "cd plan && sh change.sh -n", said, status=status)
            named = re.findall(r"plan-ceph: (.*) would move: ", ran.stderr)
            Count.same("what moves besides is named", named, moving[:1] if status else [])
        made, told = maps.Maps(room.path("plan")), []  # the weights of a device class's own tree are none
        made.osdmaptool = lambda *words: told.append(words) or "osd.5 up   out weight 0\n"
        made.changed("map", "next", maps.Change([5], {}), {"buckets": [{"name": name, "items": [
            {"id": 5, "weight": weight}]} for name, weight in (("h0", 98304), ("h0~ssd", 65536))]})
        Count.same("device classes", told[0][1:], ("--mark-out", "5", "--adjust-crush-weight", "5:1.50", "--save"))


def balanced_ceph():
    """What osdmaptool --upmap chooses, once; there is no change to be made then."""
    with Room() as room:
        room.good("plan-ceph", f"contrib/plan-ceph {WORDS}")
        *_, group = (line := printed(room, "plan/move.sh")[-1]).split()[:4]
        pairs = [int(it) for it in line.split()[4:]]
        room.keep("state/balance", {group: list(zip(pairs[::2], pairs[1::2]))})
        for words, asked in (("--balance --into b", "--upmap-deviation 1 --upmap-max 1000 --save"),
                             ("--balance p5 --deviation 2 --most 9 --into c",
                              "--upmap-deviation 2 --upmap-max 9 --upmap-pool p5 --save")):
            room.good("plan-ceph", f"contrib/plan-ceph {words}")
            Count.same(f"{words}: how osdmaptool is asked", room.read("state/balanced"), f"{asked}\n")
            Count.same(f"{words}: what it chose", printed(room, f"{words.split()[-1]}/move.sh"), [line])
            Count.same(f"{words}: no change", room.read(f"{words.split()[-1]}/change.sh"), None)


def the_way_back():
    """What move.sh has done so far is undone, to the exceptions that were there before; and done again."""
    with Room() as room:
        room.good("plan-ceph", f"contrib/plan-ceph {WORDS}")
        old, forth = exceptions_in(room.read("plan/dump")), room.state("ceph.json")
        commands = [it.split() for it in printed(room, "plan/move.sh")]
        for count in (0, 1, len(commands) // 2, len(commands)):
            room.keep("state/ceph.json", forth)
            partly(room, [" ".join(it) for it in commands[:count]])
            Count.same(f"back after {count} steps", room.good("back", "cd plan && sh back.sh | tail -n 1"), DONE)
            Count.same(f"back after {count} steps: all is as it was", where(room), BEFORE)
            state = room.state("ceph.json")
            kept = {it: [tuple(pair) for pair in pairs] for it, pairs in state["pairs"].items() if pairs}
            Count.same(f"back after {count} steps: the exceptions too", kept, old)
        found = [it.split()[2] for it in room.read("plan/back.sh").splitlines() if it.startswith("ceph-step ")]
        Count.same("one step for each group", sorted(found), sorted({it[3] for it in commands}))


def what_is_left_of_ceph():
    """A script that was stopped is planned anew from the cluster as it is: forth, and where all was held."""
    with Room() as room:
        room.good("plan-ceph", f"contrib/plan-ceph {WORDS}")
        commands = printed(room, "plan/move.sh")
        half = {it.split()[3] for it in commands[:9]} - {it.split()[3] for it in commands[9:]}
        partly(room, commands[:9])
        all_ = {it.split()[3] for it in commands}
        ran = room.run("contrib/plan-ceph --continue plan/move.sh --into rest")
        said = f"{len(half)} of {len(all_)} placement groups are where they were to go; the others are planned anew"
        Count.that("--continue says what is left", ran.returncode == 0 and said in ran.stderr, ran)
        Count.same("the rest alone", {it.split()[3] for it in printed(room, "rest/move.sh")}, all_ - half)
        Count.same("the rest", room.good("rest", "cd rest && sh move.sh | tail -n 1"), DONE)
        Count.same("each group is where it was to be", where(room), AFTER)
        partly(room, ["true"])
        ran = room.run("contrib/plan-ceph --continue plan/move.sh --into none")
        Count.that("nothing is left", ran.returncode == 1 and "no placement group moves for this" in ran.stderr, ran)
    with Room() as room:
        room.good("held", f"{HOLD} && contrib/from-ceph {FOUR} --hold")
        room.planned("held")
        room.good("held", f"contrib/to-ceph plan.txt {FOUR} --hold --eager disks.csv --out move.sh")
        commands = printed(room, "move.sh")
        zero = commands.index("ceph osd unset norebalance")
        partly(room, [*commands[:zero], *commands[zero + 1 : zero + 9]])
        room.good("--continue", "contrib/plan-ceph --continue move.sh --into rest && cd rest && sh move.sh")
        Count.same("what was held is let go", where(room), BEFORE)


def what_plan_ceph_refuses():
    with Room() as room:
        state = room.state("ceph.json")
        for words, more, said in (
                ("--out 5 --reweight 3:0.5", {"used": {str(it): 0.849 for it in range(32)}}, "in round 1"),
                ("--out 5 --reweight 3:0.5", {"ill": {"3.1": (0, 9, "active+undersized+degraded")}},
                 "1 placement groups are not active and clean, as 3.1"),
                ("--out 99", {}, "osd.99 is not in the tree of the cluster"), ("--out x", {}, "'x' is no OSD"),
                ("--reweight 3:much", {}, "--reweight 3:much is no weight"), ("--reweight 3", {}, "is no weight")):
            room.keep("state/ceph.json", {**state, **more})
            ran = room.run(f"contrib/plan-ceph {words} --into p; ls p/*.sh")
            is_refused = said in ran.stderr and not ran.stdout and "Traceback" not in ran.stderr
            Count.that(f"plan-ceph {words}", is_refused, ran)
        room.keep("state/ceph.json", state)
        ran = room.run(f"touch state/forgets; contrib/plan-ceph {WORDS}; rm state/forgets")
        Count.that("what osdmaptool saves is looked at", "osdmaptool did not keep osd.5 as out" in ran.stderr, ran)
        for words in ("", "--out 5", "--into p", "--out 5 --continue s --into p", "--make p --into q"):
            refused(room, "plan-ceph", f"contrib/plan-ceph {words}", "say a change (--out, --reweight, --balance)", 2)
        room.keep("state/ceph.json", {**state, "most": {"osd.6": 3}})
        room.good("plan-ceph", f"contrib/plan-ceph {WORDS}")
        limits = {name: both for name, *both, _ in rows_of(room.read("plan/disks.csv"))}
        found = limits["osd.6"], limits["osd.7"]
        Count.same("osd_max_backfills is each daemon's own", found, (["3", "3"], ["1", "1"]))
        Count.same("one command asks all of them", room.state("ceph.json")["told"], ["osd.*"])
        room.keep("state/ceph.json", {**state, "most": {"osd.6": 3}, "down": ["osd.31"]})
        ran = room.run(f"rm -r plan; contrib/plan-ceph {WORDS}; grep -c osd plan/disks.csv")
        asked, (count, again) = room.state("ceph.json")["told"][1:], (
            ran.stdout.splitlines()[-1], {name: both for name, *both, _ in rows_of(room.read("plan/disks.csv"))})
        Count.same("those of one that is down are asked one by one", (str(len(asked)), again == limits), (count, True))
        said = "plan has a plan with its way back already: name another folder"
        refused(room, "a folder with a plan", f"contrib/plan-ceph {WORDS}", said)


def fuller_and_fuller():
    """What comes counts from its round on, what goes up to its own: counted here by hand."""
    gone = groups.Group("1.0", None, True, 2, [0, 1], [0, 1], [2, 0], [])
    rooms = {osd: sizes.Room(*it) for osd, it in enumerate(((100, 60), (100, 50), (200, 100)))}
    bytes_ = {"1.0s0": 30, "1.0s1": 20}
    for rounds, wanted in (((0, 1), {2: (0.65, 1), 0: (0.5, 2)}), ((1, 0), {2: (0.65, 2), 0: (0.8, 1)}),
                           ((0, 0), {2: (0.65, 1), 0: (0.8, 1)})):
        moves = [plans.Shift("1.0s0", "osd.0", 0, "osd.2", 0), plans.Shift("1.0s1", "osd.0", 1, "osd.0", 2)]
        plan = plans.Plan([[it for it, at in zip(moves, rounds) if at == round_] for round_ in range(2)], b"")
        found = sizes.fullest(plan, {"1.0": gone}, bytes_, rooms)
        Count.same(f"rounds {rounds}", {osd: (round(part, 6), at) for osd, (part, at) in found.items()}, wanted)


def colours():
    """As many as the greatest number of edges at a node, and no two of one colour at a node."""
    for seed in range(60):
        rnd = random.Random(seed)
        count, each = rnd.randrange(1, 40), rnd.randrange(1, 9)
        ends = [(f"a{at}", f"b{it}") for _ in range(each) for at, it in enumerate(rnd.sample(range(count), count))]
        rnd.shuffle(ends)
        ends = ends[: rnd.choice([len(ends), rnd.randrange(1, len(ends) + 1)])]
        most = max(collections.Counter(it for both in ends for it in both).values())
        found = large.coloured(ends, most)
        used = collections.Counter((it, colour) for both, colour in zip(ends, found) for it in both)
        is_good = max(used.values()) == 1 and {*found} <= {*range(most)}
        Count.that(f"{len(ends)} edges, {most} colours", is_good, (seed, used.most_common(3)))


# a cluster that is as the files of json/ say; AFTER is where all is once a weight is set
LARGE = {
    "ceph": """case "$*" in
"osd dump "*) cat $0.osds ;; "pg dump "*) cat $0.pgs ;; "osd df "*) cat $0.df ;; "osd getmap -o "*) echo >"$4" ;;
"tell osd.* config get osd_max_backfills "*) cat $0.most ;; *) exit 22 ;; esac
""", "osdmaptool": """case "$*" in
"map --clear-temp "*) cat $0.before ;; *--test-map-pgs-dump-all*) cat $0.after ;; *--print*) cat $0.dump ;; esac
""", "crushtool": "cat $0.crush\n"}


def made_large(room, osds, count):
    """A cluster in which each of so many groups of three goes to three other hosts once a weight is set."""
    rnd, hosts = random.Random(osds), osds // 10
    for name, text in LARGE.items():
        os.unlink(room.path(f"bin/{name}"))
        room.write(f"bin/{name}", f"#!/bin/sh\n{text}")
        os.chmod(room.path(f"bin/{name}"), 0o755)
    below = [{"id": -1, "type_name": "root", "name": "default", "items": [{"id": -2 - it, "weight": 10 << 16}
                                                                         for it in range(hosts)]}]
    below += [{"id": -2 - host, "type_name": "host", "name": f"host{host}",
               "items": [{"id": host * 10 + it, "weight": 1 << 16} for it in range(10)]} for host in range(hosts)]
    steps = [{"op": "take", "item": -1, "item_name": "default"}, {"op": "chooseleaf_firstn", "num": 0, "type": "host"}]
    types = [{"type_id": at, "name": it} for at, it in enumerate(("osd", "host", "root"))]
    room.keep("bin/crushtool.crush", {"types": types, "buckets": below, "rules": [{"rule_id": 0, "steps": steps}]})
    lists = {name: {} for name in ("before", "after")}
    for name in (f"1.{it:x}" for it in range(count)):
        its = [host * 10 + rnd.randrange(10) for host in rnd.sample(range(hosts), 6)]
        lists["before"][name], lists["after"][name] = (its[:3],) * 2, (its[3:],) * 2
    for name, those in lists.items():
        room.write(f"bin/osdmaptool.{name}", plan_ceph.listed(those))
    room.write("bin/osdmaptool.dump", "epoch 9\npool 1 'p' replicated size 3 min_size 2 crush_rule 0 stripe_width 0\n"
               + "".join(f"osd.{it} up   in  weight 1 up_from 0\n" for it in range(osds)))
    room.keep("bin/ceph.osds", {"epoch": 9, "nearfull_ratio": 0.85})
    room.keep("bin/ceph.pgs", {"pg_map": {"pg_stats": [
        {"pgid": it, "state": "active+clean", "stat_sum": {"num_bytes": 9}} for it in lists["after"]]}})
    room.keep("bin/ceph.df", {"nodes": [{"id": it, "kb": 1 << 30, "kb_used": 1 << 28} for it in range(osds)]})
    room.write("bin/ceph.most", "".join(f'\nosd.{it}: {{"osd_max_backfills": "{1 + (it != 7)}"}}\n'
                                        for it in range(osds)))
    return {it: {*up} for it, (_, up) in lists["after"].items()}


def large_ceph():
    """More OSDs than the program takes, and with LARGE=1 in the environment more moves too, which takes under a minute:
    from what the cluster says to scripts and report. As few rounds as can be, at which the program looks in parts. It
    refuses rounds that have too much."""
    is_large = bool(os.environ.get("LARGE"))
    osds, count = (4000, 100000) if is_large else (1200, 3000)
    with Room() as room:
        after, began = made_large(room, osds, count), sum(resource.getrusage(resource.RUSAGE_CHILDREN)[:2])
        ran = room.begin("exec alone/plan-ceph --reweight 0:0.5 --into plan >said 2>notes").wait(3600)
        Count.same("plan-ceph", (ran, room.read("notes").count("\n")), (0, 1))
        said = room.read("said")
        took = sum(resource.getrusage(resource.RUSAGE_CHILDREN)[:2]) - began
        if is_large:
            print(f"note: {3 * count} moves planned by {took:.0f} s of a processor")
        Count.that("planned in under a minute", took < 60, took)
        Count.that("the way back too", "the way back: optimal, looked at in " in said, said)
        for name in ("move.sh", "back.sh"):
            steps = room.read(f"plan/{name}").count("\nceph-step ")
            Count.that(f"{name} has a step for each group", steps >= count, steps)
        rounds, loads = shifts_of(room.read("plan/plan.txt")), collections.Counter()
        for at, shifts in enumerate(rounds):
            loads.update(side for it in shifts for side in ((at, it[1], "out"), (at, it[3], "in")))
        limit = lambda side: 1 if side[1] == "osd.7" else 2
        Count.same("limits are kept", [it for it, load in loads.items() if load > limit(it)], [])
        whole = collections.Counter(side[1:] for side, load in loads.items() for _ in range(load))
        least = max(-(-load // limit((0, *side))) for side, load in whole.items())
        is_best = len(rounds) == least and "optimal, looked at in" in said
        Count.that("no plan has fewer rounds", is_best, (rounds[-1], said))
        told = room.good("summary", "contrib/summary plan/plan.txt plan/disks.csv").splitlines()
        Count.same("what the summary says", told[:2], [f"moves {3 * count}", f"rounds {least}"])
        busiest = told[told.index("busiest disks") + 1]
        Count.that("and the bound of the whole", busiest.endswith(f", needs {least} rounds"), busiest)
        there = collections.defaultdict(set)
        for it in (it for round_ in rounds for it in round_):
            there[it[0].split("-")[0]].add(int(it[3][4:]))
        Count.that("each copy goes where it is to be", there == after)
        planner = plan_ceph.CephPlanner(room.path("bad"))
        planner.program = PROGRAM
        limits, plan = disks.read_disks(room.path("plan/disks.csv")), plans.read_plan(room.path("plan/plan.txt"))
        shifts = plan.shifts()
        loads, parts = collections.Counter(it.source for it in shifts), large.parts_of(shifts)
        for at in (1, 2):  # a third move from a disk in a round
            disk = max((it for it in parts if parts[it] == at), key=lambda it: loads[it])
            full = next(it for it in plan.rounds if sum(shift.source == disk for shift in it) == 2)
            there = collections.Counter(["osd.7", *(it.target for it in full)])
            third = next(it for it in shifts if it.source == disk and it not in full and there[it.target] < 2)
            bad = [[it for it in round_ if it != third] + [third] * (round_ is full) for round_ in plan.rounds]
            refuses(planner, f"too much in a round, part {at}", bad, shifts, limits, "outgoing limit is 2")
        refuses(planner, "a move left out", [shifts[:1]], shifts, limits, "do not have all moves")


def refuses(planner, name, bad, shifts, limits, said):
    """These rounds are refused."""
    large.rounds_of, kept = lambda *_: bad, large.rounds_of
    try:
        Count.that(f"{name} is refused", False, large.plan(planner, "bad", shifts, limits))
    except Wrong as why:
        Count.that(f"{name} is refused", said in str(why), why)
    large.rounds_of = kept


def real_plans():
    """With osdmaptool itself: two OSDs out are both out."""
    if not shutil.which("osdmaptool") or not shutil.which("crushtool"):
        return print("note: plan-ceph is tried with a stand-in for osdmaptool alone")
    with Room() as room:
        room.good("real maps", "cp contrib/samples/ceph/map map")
        made = maps.Maps(room.at)
        made.changed("map", "next", maps.Change([5, 7], {3: "0.5"}), made.crush("map"))
        made.placed("next", "after")
        there = {osd for _, up in groups_in(room.read("after")).values() for osd in up}
        Count.same("each OSD has something, those that are out nothing", {*range(32)} - there, {5, 7})
        planner = plan_ceph.CephPlanner(room.at)
        planner.crush = made.crush("map")
        uneven = []
        for balance in (None, ""):
            planner.change(maps.Change([], {}), balance, 1, 100)
            counts = collections.Counter(osd for _, up in groups_in(room.read("after")).values() for osd in up)
            uneven.append(max(counts.values()) - min(counts.values()))
        Count.that("--balance makes it more even", uneven[1] < uneven[0], uneven)
    return None


CASES = (planned_ceph, the_change_of_ceph, balanced_ceph, the_way_back, what_is_left_of_ceph, what_plan_ceph_refuses,
         fuller_and_fuller, colours, large_ceph, real_plans)

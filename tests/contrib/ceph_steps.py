"""Tries the scripts of to-ceph over a stand-in of a cluster, which takes reservations for backfills as Ceph does: what
they run, what they wait for, what they pass over, and what they stop for."""
import collections, json, os, random, re, time
from ceph import FILES, FOUR
from ceph_model import Cluster, filling, groups_in, up_of
from migrate_tools.ceph import ceph_step, cluster, steps
from migrate_tools.clock import Clock
from rooms import Count, Room, refused, shifts_of
from waiting import LIMIT, until

HOLD = ("cp contrib/samples/ceph/before-new before && cp contrib/samples/ceph/before after && "
        "cp contrib/samples/ceph/{dump,crush} .")
DONE, UNSET = "all rounds are carried out\n", "ceph osd unset norebalance"


def made(room, backfills="2", hold="", files=FILES, ahead=""):
    """The four files, a plan, and the scripts: by rounds, plain, and eager."""
    room.good("to-ceph", f"{files} && contrib/from-ceph {FOUR} {hold} --backfills {backfills}")
    room.planned("to-ceph")
    for words in ("--out upmaps.sh", "--plain --out plain.sh", f"--eager disks.csv {ahead} --out eager.sh"):
        room.good("to-ceph", f"contrib/to-ceph plan.txt {FOUR} {hold} {words}")
    return room.state("ceph.json")


def printed(room, script, round_=""):
    return [it for it in room.good(script, f"sh {script} -n {round_}").splitlines() if it[0] != "#"]


def ended(room, name):
    """Each group is where AFTER has it."""
    cluster_, state = Cluster(room.read("crush"), room.read("dump")), room.state("ceph.json")
    wrong = [it for it, (_, after) in groups_in(room.read("after")).items()
             if not cluster_.same(it, up_of(state["raw"][it], state["pairs"].get(it, [])), after)]
    Count.same(f"{name}: each group is where AFTER wants it", wrong, [])


def begun(room, state, **more):
    """The cluster is in this state; nothing was run."""
    room.keep("state/ceph.json", {**state, **more})
    room.good("again", "rm -f state/log state/events")


def stops(room, name, script, said, status=1):
    ran = room.run(f"sh {script}")
    again = f"begin again with: sh {script.split()[0]}" in ran.stderr or status != 1
    Count.that(f"{name}: {script} stops", ran.returncode == status and said in ran.stderr and again, ran)
    return ran


def the_script_of_ceph():
    """Rounds, by ceph-step and plain."""
    with Room() as room:
        state = made(room)
        Count.same("the same commands", printed(room, "upmaps.sh"), printed(room, "plain.sh"))
        group = printed(room, "upmaps.sh")[0].split()[3]
        line = next(it for it in room.read("upmaps.sh").splitlines() if it.startswith("ceph-step "))
        said = room.good("by hand", f"PATH=$PATH:$PWD/contrib {line}")
        found = said.splitlines()[-3:-2], room.read("state/log").splitlines()
        wanted = ["round 1: 1 of 1 groups are clean where they are to be"], printed(room, "upmaps.sh")[:1]
        Count.same("a step by hand", found, wanted)
        room.write("half", f"#!/bin/sh\n[ \"$3\" = '{group}' ] && exit 13\nexec {room.path('bin/ceph')} \"$@\"\n")
        room.good("half", "mkdir less && chmod +x half && mv half less/ceph")
        for script in ("upmaps.sh", "plain.sh"):
            begun(room, state, balancer=True)
            ran = room.run(f"sh {script}")
            is_off = ran.returncode == 1 and "ceph balancer off" in ran.stderr and room.read("state/log") is None
            Count.that(f"{script}: the balancer has to be off", is_off, ran)
            begun(room, state, dropped=group)
            stops(room, "dropped", script, f"has other exceptions of placement group {group} than this script set")
            begun(room, state)
            ran = room.run(f"sh {script}")
            Count.that(f"{script} ends well", ran.returncode == 0 and ran.stdout.endswith(DONE), ran)
            waited = r"^round 1: 0 of (\d+) groups are clean where they are to be\n(.*\n)*round 1: \1 of \1 groups"
            Count.that(f"{script} waited", re.search(waited, ran.stdout, re.M), ran.stdout[:500])
            room.write("log", ran.stdout)
            found = json.loads(room.good(script, "contrib/progress plan.txt --log log --json"))
            Count.same(f"{script}: progress", (found["done"], found["rounds_done"]), (True, found["rounds"]))
            lines = room.read("state/log").splitlines()
            Count.same(f"{script} ran what -n prints", sorted(lines), sorted(printed(room, script)))
            ended(room, script)
            room.good("again", "rm state/log")
            for words in ("", "2", "1"):
                room.good(f"{script} again", f"sh {script} {words}")
                Count.same(f"{script} {words} again runs nothing", room.read("state/log"), None)
            refused(room, "no such round", f"sh {script} 99", "there is no round 99", 2)
            begun(room, state)
            ran = room.run(f"PATH=$PWD/less:$PATH sh {script}")
            is_stopped = ran.returncode == 1 and "stopped in round 1" in ran.stderr
            Count.that(f"{script}: a command that fails stops it", is_stopped and "status 13" in ran.stderr, ran)


# a group that is to be on 1, 2, 3, and is so: whether copies, and whether shards have arrived
ARRIVED = (("as it is to be", "active+clean [1,2,3] 1 [1,2,3] 1", True, True),
           ("scrubbed", "active+clean+scrubbing [1,2,3] 1 [1,2,3] 1", True, True),
           ("in another order", "active+clean [2,1,3] 1 [2,1,3] 1", True, False),
           ("elsewhere", "active+clean [1,2,4] 1 [1,2,4] 1", False, False),
           ("not clean", "active+recovering [1,2,3] 1 [1,2,3] 1", False, False),
           ("not active", "clean [1,2,3] 1 [1,2,3] 1", False, False),
           ("remapped", "active+clean+remapped [1,2,3] 1 [1,2,4] 1", False, False))


def what_has_arrived():
    with Room() as room:
        made(room)
        head = room.read("plain.sh").partition("begins() {")[0]
        room.good("arrived", "mkdir half")
        for name, state, *wanted in ARRIVED:
            word, up, _, acting, _ = state.split()
            placed = cluster.Placed(frozenset(word.split("+")), *(json.loads(it) for it in (up, acting)))
            rows = f"PG_STAT STATE UP UP_PRIMARY ACTING ACTING_PRIMARY\\n4.1 {state}"
            room.write("half/ceph", f"#!/bin/sh\n[ \"$1\" = pg ] && printf '{rows}\\n'\nexit 0\n")
            for order, there in zip(("1,2,3", "=1,2,3"), wanted):
                step = steps.read_step(["1", "4.1", order, "-", "from", "-", "at", "-", "items", "-"])
                carrier = ceph_step.Carrier([step], {}, 0, Clock(), None)
                found = carrier.is_there(step, cluster.View({}, set(), {"4.1": placed}, ""))
                room.write("part.sh", f"{head}wanted='4.1 {order} []'\nlook\n")
                plain = room.good("arrived", "chmod +x half/ceph; PATH=$PWD/half:$PATH sh part.sh").split()[0] == "all"
                Count.same(f"a group that is {name} has arrived: {order}", (found, plain), (there, there))


def watch(room, name, limit):
    """Goes through what happened: what fills and is filled at each moment, by the reservations that Ceph would take,
    and whether something waited that could have begun."""
    state, cluster_ = room.state("ceph.json"), Cluster(room.read("crush"), room.read("dump"))
    first, left = json.loads(room.read("first")), collections.defaultdict(list)
    for line in printed(room, "eager.sh"):
        *_, group = line.split()[:4]
        left[group].append([(int(one), int(two)) for one, two in zip(line.split()[4::2], line.split()[5::2])])
    under, used, clean, idle, most, looks = {}, collections.Counter(), set(), [], 0, 0
    there = {it: up_of(first["raw"][it], first["pairs"].get(it, [])) for it in left}

    def ends(group):
        to = up_of(state["raw"][group], left[group][0])
        fills = filling(cluster_.pool(group)[0], to, there[group])
        return to, [f"out {fills}", *(f"in {it}" for it in to if it not in there[group])]

    def in_of(group):
        return ",".join(it[3:] for it in ends(group)[1][1:]) or "-"

    def fits(its):
        return all(not used[it] or used[it] < limit for it in its)

    for event in [*room.read("state/events").splitlines(), "look"]:
        word, _, said = event.partition(" ")
        group = said.split(" ")[0]
        looks += word == "look"
        if word == "look" and looks > 1:
            idle += [it for it in left if left[it] and it not in under and fits(ends(it)[1])]
            for it in clean:
                there[it], its = under.pop(it)
                used.subtract(its)
            clean = set()
        elif word == "clean" and group in under:
            clean.add(group)
        elif word == "set":
            while in_of(group) != said.split(" ")[2]:  # several go at once
                left[group].pop(0)
            to, its = ends(group)
            is_free = group not in under and fits(its)
            Count.that(f"{name}: {group} is set once the step before is done, and has places", is_free, its)
            used.update(its)
            under[group], most = (to, its), max(most, len(under) + 1)
            left[group].pop(0)
    Count.that(f"{name}: all is done", not any(left.values()), left)
    return idle, most


def reserved(room):
    """How many reservations of a kind an OSD has at most, and whether a group ever waits for its own. The manager tells
    of a group a look late, so it has them at the second look."""
    used, waits, held, most, longest = collections.Counter(), collections.Counter(), {}, 0, 0
    for word, *said in (it.split() for it in room.read("state/events").splitlines()):
        if word == "set":
            held[said[0]] = [f"out {said[1]}", *(f"in {it}" for it in said[2].split(",") if it != "-")]
            waits[said[0]] = 0
        elif word == "reserve":
            longest = max(longest, waits.pop(said[0]))
            used.update(held[said[0]])
            most = max([most, *used.values()])
        elif word == "free" and said[0] in held:
            used.subtract(held.pop(said[0]))
        elif word == "look":
            waits.update([*waits])
    return most, longest > 2


def eager_ceph():
    looks = {}
    for seed, (limit, ahead) in enumerate(((2, ""), (1, "--ahead 1"))):
        with Room() as room:
            name, rnd = f"to-ceph --eager, {limit} {ahead}", random.Random(seed)
            state = made(room, str(limit), ahead=ahead)
            lines = sorted(printed(room, "eager.sh"))
            Count.same(f"{name}: the same commands", lines, sorted(printed(room, "upmaps.sh")))
            groups = [it.split()[3] for it in printed(room, "eager.sh")]
            state |= {"odd": True, "max": limit, "slow": {it: rnd.choice([0, 0, 1, 4]) for it in groups}}
            room.keep("first", state)
            for script in ("upmaps.sh", "eager.sh")[ahead != "" :]:
                begun(room, state)
                Count.same(f"{name}: {script}", room.good(name, f"sh {script} >log; tail -n 1 log"), DONE)
                ended(room, f"{name}, {script}")
                looks[limit, ahead, script] = room.read("state/events").split("\n").count("look")
            run, last = room.read("state/log").splitlines(), {it.split()[3]: it for it in printed(room, "eager.sh")}
            Count.that(f"{name}: what a group still has to do goes together where it can", len(run) < len(lines), run)
            Count.that(f"{name}: each command at most once, the last of each group", len(set(run)) == len(run)
                       and {*last.values()} <= {*run} <= {*lines}, run)
            if not ahead:
                idle, count = watch(room, name, limit)
                Count.that(f"{name}: nothing waits that could begin, several go", not idle and count > 2, idle)
            Count.same(f"{name}: Ceph's limit is reached, and who waits", reserved(room), (limit, ahead != ""))
            found = json.loads(room.good(name, "contrib/progress plan.txt --log log --eager disks.csv --json"))
            moves = sum(map(len, shifts_of(room.read("plan.txt"))))
            Count.same(f"{name}: progress", (found["done"], found["items_done"]), (True, moves))
            room.good(name, "rm state/log; sh eager.sh")
            Count.same(f"{name}: once more it does nothing", room.read("state/log"), None)
    print(f"note: looks at the cluster by rounds and with --eager: {looks}")
    Count.that("it takes less time than rounds", looks[2, "", "eager.sh"] < looks[2, "", "upmaps.sh"], looks)


def eager_ceph_stops():
    """Stopped, ended, paused, and begun again; what others do meanwhile."""
    with Room() as room:
        name = "to-ceph --eager, stopped"
        state = made(room)
        room.good(name, "sed -i 's/^PATH=.*/PATH=$PATH:alone/' eager.sh")  # a signal reaches it there
        for _ in range(3):  # again and again, each time once more is done
            before = copied(room)
            ran = room.begin("exec sh eager.sh >>log 2>notes", PAUSE="0.05")
            until(lambda: copied(room) > before + 1 or ran.poll() is not None, "a step to be done")
            ran.terminate()
            how = ran.wait(LIMIT), "begin again with: sh eager.sh" in room.read("notes")
            Count.that(f"{name}: it says how to go on", how in ((130, True), (0, False)), room.read("notes"))
            Count.same(f"{name}: its key is gone", room.state("ceph.json").get("keys"), {})
        Count.same(f"{name}: the rest", room.good(name, "sh eager.sh >>log; tail -n 1 log"), DONE)
        ended(room, name)
        ends = "[ $1 = pg ] && kill -INT $PPID && exit 13"
        room.write("less", f"#!/bin/sh\n{ends}\nexec {room.path('bin/ceph')} \"$@\"\n")
        room.good(name, "mkdir cut && chmod +x less && mv less cut/ceph")
        ran = room.run("PATH=$PWD/cut:$PATH sh eager.sh")
        is_said = ran.returncode == 130 and "stopped in round 1" in ran.stderr and "asked again" not in ran.stdout
        Count.that(f"{name}: a signal that ends what it called too", is_said, ran)
        # outside of a window, a pause, and an end by --until
        begun(room, state)
        hours = "-".join(time.strftime("%H:%M", time.localtime(time.time() + it * 3600)) for it in (2, 3))
        ran = room.begin(f"exec sh eager.sh --window {hours} >log 2>notes", PAUSE="0.05")
        said = f"paused: nothing more begins outside of --window {hours}"
        until(lambda: said in (room.read("notes") or "") or ran.poll() is not None, "what keeps it")
        ran.terminate()
        how = ran.wait(LIMIT), room.read("state/log")
        Count.same(f"{name}: nothing begins outside of a window", how, (130, None))
        begun(room, state)
        warm = f"PAUSE=0.05 OVER=over PATH={room.path('contrib')}:$PATH"
        room.write("hook", 'echo "$@" >>told')
        ran = room.begin(f"touch pause; {warm} exec sh eager.sh --until 06:00 --hook 'sh hook' >log 2>notes")
        until(lambda: "paused: nothing more begins until" in (room.read("notes") or ""), "a pause")
        Count.same(f"{name}: nothing begins in a pause", room.read("state/log"), None)
        os.unlink(room.path("pause"))
        until(lambda: copied(room), "a step to be done")
        room.write("over", "")
        how = ran.wait(LIMIT), "as --until says; begin again with: sh eager.sh" in room.read("notes")
        Count.same(f"{name}: an end by --until", how, (3, True))
        found = json.loads(room.good(name, "contrib/progress plan.txt --log log --eager disks.csv --json"))
        is_half = 0 < found["items_done"] < found["items"] and not found["done"] and found["seconds_left"] is not None
        Count.that(f"{name}: progress", is_half, found)
        lines = room.good(name, "contrib/progress plan.txt --log log --eager disks.csv --metrics").splitlines()
        digest = room.good(name, "sha256sum <plan.txt").split()[0]
        wanted = [f'migrate_plan_{it}{{plan="{digest}"}} {found[it]}' for it in ("items", "items_done", "rounds_done")]
        Count.that(f"{name}: what Prometheus reads", {*wanted} <= {*lines}, lines)
        last = room.good(name, "sh eager.sh --hook 'sh hook' >>log; tail -n 1 log")
        Count.same(f"{name}: the rest after that", last, DONE)
        told = [it.split()[0] for it in room.read("told").splitlines()]
        Count.same(f"{name}: the hook is told of both ends", told, ["ended", "done"])
        ended(room, name)


def copied(room):
    return (room.read("log") or "").count(" copied ")


def what_stops_ceph():
    """What a step cannot mend, each with its cause; nothing more begins then, and the key is given back."""
    with Room() as room:
        state = made(room, "9")
        room.write("hook", 'echo "$@" >>told')
        lines = [it.split() for it in printed(room, "eager.sh")]
        group, other = lines[0][3], lines[5][3]
        state["slow"] = {lines[1][3]: 6}
        raw, pairs = state["raw"][group], [(int(one), int(two)) for one, two in zip(lines[0][4::2], lines[0][5::2])]
        model = Cluster(room.read("crush"), room.read("dump"))
        stays = next(it for it in raw if it not in sum(pairs, ()))
        others = ([osd if it == stays else it for it in raw] for osd in range(32) if osd not in raw)
        moved = next(it for it in others if model.keeps(group, up_of(it, pairs)))
        full = [it for it in up_of(raw, pairs) if it not in up_of(raw, state["pairs"].get(group, []))]
        still = next(it for it in state["raw"] if it not in {line[3] for line in lines})
        for name, more, said in (
                ("dropped", {"dropped": group}, f"exceptions of placement group {group} than this script set (-)"),
                ("another's", {"pairs": {**state["pairs"], other: [[1, 2]]}}, f"{other} than this script set (1:2)"),
                ("too full", {"full": full}, f"group {group} is in backfill_toofull: osd.{full[0]} has no room for it"),
                ("degraded", {"ill": {still: (3, 99, "active+undersized+degraded")}, "slow": {group: 9}},
                 f"placement group {still} is active+degraded+undersized, which it was not when this began"),
                ("not active", {"ill": {still: (2, 99, "down")}}, f"placement group {still} is down, which it was not"),
                ("for ever peering", {"ill": {still: (1, 99, "peering")}}, f"placement group {still} is peering"),
                ("an error", {"error": 2}, "the cluster says HEALTH_ERR: OSD_FULL, 1 full osd(s)"),
                ("other weights", {"raw": {**state["raw"], group: moved}}, f"placement group {group} rests on ")):
            begun(room, state, **{"error": 60, **more})  # what waits for ever is told so
            ran = stops(room, name, "eager.sh --hook 'sh hook'", said)
            told = room.read("told").splitlines()[-2:]
            is_told = told[0].startswith("failed eager.sh: ") and said in told[0] and told[0][17:] in ran.stderr
            is_told = is_told and told[1].startswith("stopped eager.sh: stopped in")
            Count.that(f"{name}: the hook is told", is_told, told)
            Count.same(f"{name}: the key is given back", room.state("ceph.json")["keys"], {})
        for name, more in (("degraded at first already", {"ill": {still: (0, 999, "active+undersized+degraded")}}),
                           ("degraded for a look", {"ill": {still: (3, 4, "active+recovery_wait+degraded")}}),
                           ("only remapped", {"ill": {still: (0, 999, "active+clean+remapped")}})):
            begun(room, state, **more)
            room.good("one at a time", "sed 's/--limits [^ ]*/--limits out=1,in=1/' eager.sh >one.sh")
            Count.that(f"{name}: it goes on", room.run("sh one.sh").returncode == 0)
            begun_by_look = [it.count("set ") > 0 for it in room.read("state/events").split("look\n")[3:5]]
            Count.same(f"{name}: whether steps begin meanwhile", any(begun_by_look), "a look" not in name)


def one_at_a_time():
    """A second script is refused; by force it takes the place of the first, which then stops."""
    with Room() as room:
        made(room)
        ran = room.begin("touch pause; exec sh upmaps.sh >log 2>notes")
        until(lambda: "paused" in (room.read("notes") or ""), "a pause")
        second, said = room.run("mkdir other; cd other; sh ../eager.sh"), f"{room.path('upmaps.sh')}, process "
        is_refused = second.returncode == 1 and said in second.stderr and "--force" in second.stderr
        Count.that("a second script is refused", is_refused and room.read("state/log") is None, second)
        forced = room.begin("exec sh eager.sh --force >log2 2>notes2")
        until(lambda: "paused" in (room.read("notes2") or ""), "a pause of the second")
        os.unlink(room.path("pause"))
        how = ran.wait(LIMIT), "took the place of this script by --force" in room.read("notes")
        Count.same("the first one stops", how, (1, True))
        Count.same("the second one goes on", forced.wait(LIMIT), 0)
        Count.same("the key is given back", room.state("ceph.json")["keys"], {})


def held_ceph():
    """A new OSD: all is held first, and let go step by step."""
    with Room() as room:
        state = made(room, "4", "--hold", HOLD)
        state["acting"] = {name: up for name, (_, up) in groups_in(room.read("before")).items()}
        for script in ("upmaps.sh", "eager.sh", "plain.sh"):
            begun(room, state, flags=["sortbitwise", "norebalance"])
            Count.same(f"{script}: it ends well", room.good(script, f"sh {script} >log; tail -n 1 log"), DONE)
            said = r"^round 0: \d+ of \d+ groups are " + ("clean" if script == "plain.sh" else "set$")
            log = room.read("log")
            Count.that(f"{script}: it says how many are held", re.search(said, log, re.M), log)
            lines, block = room.read("state/log").splitlines(), printed(room, script)
            Count.same(f"{script}: the flag is cleared, once", [lines.count(UNSET), block.count(UNSET)], [1, 1])
            zero = [*lines, UNSET].index(UNSET)
            block = [it.split() for it in block[: [*block, UNSET].index(UNSET)]]
            has = {name: [str(it) for pair in pairs for it in pair] for name, pairs in state["pairs"].items()}
            wanted = sorted(" ".join(it) for it in block if has.get(it[3], []) != it[4:])
            Count.same(f"{script}: all are held first", sorted(lines[:zero]), wanted)
            ended(room, script)
            room.good(script, "rm state/log")
            for words in ("1", "" if script != "plain.sh" else "1"):
                room.good(script, f"sh {script} {words}")
                Count.same(f"{script} {words} once more: nothing goes back", room.read("state/log"), None)


def looks_of_ceph():
    """The time between two looks: short after something happened, long while something may be wrong."""
    carrier, given = ceph_step.Carrier([], {}, 0, Clock(), None), os.environ.pop("PAUSE", None)
    for ago, looks, wanted in ((0, {}, 1), (40, {}, 10), (9999, {}, 30), (0, {("4.1", "ill"): 1}, 30),
                               (40, {("4.1", "peering"): 5}, 10), (40, {("4.1", "elsewhere"): 6}, 30)):
        carrier.since, carrier.looks = time.monotonic() - ago, looks
        Count.same(f"the pause {ago} s after a step, {looks}", round(carrier.pause()), wanted)
    os.environ["PAUSE"] = "7"
    Count.same("as it is said", carrier.pause(), 7)
    os.environ.pop("PAUSE") if given is None else os.environ.update(PAUSE=given)


CASES = (eager_ceph, eager_ceph_stops, what_stops_ceph, the_script_of_ceph, held_ceph, one_at_a_time, what_has_arrived,
         looks_of_ceph)

"""The scripts of contrib/ where space is tight: which form they name, and plans in which an item stands in two
shifts."""
import copy, json, os, random, re, shlex
from lvm import after_pvmoves, carry_out, wanted_extents
from rooms import Room, all_refused, plan_of, refused, same, that


def segment(volume, ranges, role="public", kind="linear"):
    return {"vg_name": "data", "lv_name": volume, "lv_role": role, "segtype": kind, "seg_pe_ranges": ranges}


def group_of(room, sizes, segments, attrs=()):
    """Writes both reports of a volume group with these devices and segments, and sets the stand-in to it."""
    room.keep("pvs.json",
              {"report": [{"pv": [{"vg_name": "data", "pv_name": f"/dev/{it}", "pv_attr": dict(attrs).get(it, "a--"),
                                   "pv_pe_count": str(size)} for it, size in sizes.items()]}]})
    room.keep("lvs.json", {"report": [{"seg": segments}]})
    volumes = {}
    for it in segments:
        for device, first, last in re.findall(r"(/dev/\S+):(\d+)-(\d+)", it["seg_pe_ranges"]):
            extents = volumes.setdefault(it["lv_name"].strip("[]"), [])
            extents += [[device, at] for at in range(int(first), int(last) + 1)]
    devices = {f"/dev/{it}": size for it, size in sizes.items()}
    room.keep("state/lvm.json", {"devices": devices, "volumes": volumes, "moving": {}})
    return devices, volumes


def full_group(room):
    """Two full devices whose volumes are to change places, and a third one with one free run of 16 extents."""
    return group_of(room, {"a": 64, "b": 64, "c": 32},
                    [segment("db", "/dev/a:0-63"), segment("web", "/dev/b:0-63"), segment("log", "/dev/c:0-15")])


SWAP = "--move db=b --move web=a"


def tight_lvm(room):
    devices, volumes = full_group(room)
    room.says("the form for tight space", f"contrib/from-lvm lvs.json pvs.json {SWAP} --unit 16",
              "/dev/b would need 8 slots for old and incoming items together, and has 4: the form to use is "
              "`migrate plan-tight`")
    room.says("`plan` has no room", "./migrate plan disks.csv now.csv next.csv plan.txt cert.txt",
              "no room on a, needs 8, has 4", status=3)
    carry_out(room, "tight", SWAP, 16, volumes, devices, lambda: room.state("lvm.json")["volumes"], Room.planned_tight)
    wanted, parked = room.state("lvm.json")["volumes"], [it for it in sum(room.shifts(), []) if it[3] == "c"]
    same("one item is parked", len(parked), 1)
    same("db is on b, and web on a", {it[0] for it in wanted["db"]} | {it[0] + "!" for it in wanted["web"]},
         {"/dev/b", "/dev/a!"})
    full_group(room)
    room.good("tight", f"sh moves.sh {len(room.shifts())}")
    same("tight, begun at the last round: each is looked at", room.state("lvm.json")["volumes"], wanted)
    # it is begun again from each place where it stops, as a whole
    commands = [line.split() for line in room.good("tight", "sh moves.sh -n").splitlines() if line[0] != "#"]
    for at, words in list(enumerate(commands, 1))[::4]:  # `made_tight` has each of them
        full_group(room)
        volume, first = words[4], re.search(r":(\d+)-", words[5])[1]
        room.write(f"state/fail-{volume}-{first}", "")
        failed = room.run("sh moves.sh")
        again = room.run("sh moves.sh")
        that(f"tight, stopped at {words}", failed.returncode == 1 and "stopped in round" in failed.stderr
             and again.returncode == 0 and "all rounds" in again.stdout, (failed, again))
        same(f"tight, begun again after {words}", room.state("lvm.json")["volumes"], wanted)
    full_group(room)
    room.good("tight", f"sh moves.sh {len(commands)}")
    same("tight, begun at the last round all are carried out", room.state("lvm.json")["volumes"], wanted)
    # what the log says of it
    full_group(room)
    room.good("tight", "sh moves.sh >moves.log; sh moves.sh >again.log")
    that("what has gone on is passed over",
         f"is past {parked[0][3].replace('c', '/dev/c')}:16-31, at /dev/b:" in room.read("again.log"),
         room.read("again.log"))
    for log in ("moves.log", "again.log"):
        room.says(f"progress by {log}", f"contrib/progress plan.txt --log {log} --names names.csv",
                  f"{len(commands)} of {len(commands)} rounds, {len(commands)} of {len(commands)} transfers, done")
    # with the log of a run that stopped before the end the later transfer to a slot isn't taken for done
    part = room.read("moves.log").split("time ")
    room.write("part.log", "time ".join(part[: len(commands) // 2]))
    said = json.loads(room.good("tight", "contrib/progress plan.txt --log part.log --names names.csv --json"))
    that("progress of a part", 0 < said["items_done"] < len(commands) and said["parked"] == 1, said)


def parked_of_lvm():
    """What can't be told apart, or would not stay apart, is refused."""
    with Room() as room:  # x.0 is parked, and goes on to where another part of its volume is
        group_of(room, {"a": 32, "b": 32, "c": 32},
                 [segment("x", "/dev/a:0-15 /dev/b:0-15"), segment("y", "/dev/c:0-15")])
        rows = [segment("x", "/dev/a:0-15"), segment("x", "/dev/b:0-15"), segment("y", "/dev/c:0-15")]
        group_of(room, {"a": 32, "b": 32, "c": 32}, rows)
        room.good("parked", "contrib/from-lvm lvs.json pvs.json --spread --unit 16")
        room.write("p", plan_of("x.0 a 0 c 1", "x.1 b 0 a 0", "x.0 c 1 b 0"))
        for script in ("to-lvm p names.csv --out s", "summary p --names names.csv"):
            refused(room, "parked", f"contrib/{script}",
                    "round 1: x.0 is parked, and goes on to slot 0 of /dev/b, where x.1 of the same volume x is")
        room.write("p", plan_of("x.0 a 0 c 1", "y.0 c 0 a 0", "x.0 c 1 b 1"))
        printed = room.good("parked", "contrib/to-lvm p names.csv --out s && sh s -n")
        same("each shift begins where the item then is", printed,
             "# round 1\npvmove -i 3 -n x /dev/a:0-15 /dev/c:16-31\n# round 2\npvmove -i 3 -n y /dev/c:0-15 "
             "/dev/a:0-15\n" "# round 3\npvmove -i 3 -n x /dev/c:16-31 /dev/b:16-31\n")
        all_refused(room, "to-lvm", "contrib/to-lvm p names.csv --out s2", "p",
                    (("from where it is no more", plan_of("x.0 a 0 c 1", "x.0 a 0 b 1"),
                      "round 2: x.0 is not in slot 0 of a"),
                     ("to a slot in use", plan_of("x.0 a 0 c 0"), "round 1: x.0 goes to slot 0 of c, and y.0 is there"),
                     ("into one slot", plan_of("x.0 a 0 c 1, x.1 b 0 c 1"),
                      "x.1 goes to slot 1 of c, and x.0 is there or comes there"),
                     ("twice in a round", plan_of("x.0 a 0 c 1, x.0 a 0 b 1"), "round 1: x.0 is not in slot 0 of a")))
    raid = [segment("r", "r_rimage_0:0-15 r_rimage_1:0-15", kind="raid1"),
            segment("[r_rimage_0]", "/dev/a:0-15", "private,raid,image"),
            segment("[r_rimage_1]", "/dev/c:0-15", "private,raid,image"), segment("w", "/dev/b:0-15")]
    stripes = [segment("s", "/dev/a:0-15 /dev/c:0-15", kind="striped"), segment("w", "/dev/b:0-15")]
    for name, rows, wish, item in (("a leg", raid, "--move r_rimage_0=b --move w=a", "r_rimage_0.0"),
                                   ("a stripe", stripes, "", "s.0")):
        with Room() as room:
            group_of(room, {"a": 16, "b": 16, "c": 32, "d": 16}, rows)
            if wish:
                room.says(f"{name}: from-lvm warns", f"contrib/from-lvm lvs.json pvs.json {wish} --unit 16",
                          "`plan-tight` does not know what LVM keeps apart",
                          "extents 0 to 15 of /dev/a hold r_rimage_0")
            else:
                room.good(name, "contrib/from-lvm lvs.json pvs.json --move w=d --unit 16")
            room.write("p", plan_of(f"{item} a 0 c 1", "w.0 b 0 a 0", f"{item} c 1 b 0"))
            refused(room, f"{name} beside another one", "contrib/to-lvm p names.csv --out s",
                    f"{item} goes to /dev/c, where another leg of {'r' if wish else 's/0'} is or is to be")
            room.write("p", plan_of(f"{item} a 0 d 0", "w.0 b 0 a 0", f"{item} d 0 b 0"))
            room.good(f"{name} beside none", "contrib/to-lvm p names.csv --out s")


def forms_of_lvm():
    """Where each disk has room it is `plan`; where not even `plan-tight` does it nothing is written."""
    with Room() as room:
        group_of(room, {"a": 64, "b": 64, "c": 64}, [segment("db", "/dev/a:0-63"), segment("web", "/dev/b:0-15")])
        room.says("the form where there is room", "contrib/from-lvm lvs.json pvs.json --move web=c --unit 16",
                  "the fullest target, /dev/c, would have 1 of its 4 slots in use by old and incoming items together: "
                  "each disk has room, and the form to use is `migrate plan`")
        room.planned("room")
    for name, sizes, attrs, wish, said in (("too many", {"a": 64, "b": 48, "c": 32}, (), SWAP,
                                            "there is no room on /dev/a: it needs 7 slots, and has 4; nor can `migrate "
                                            "plan-tight` do it: 4 items are to be on /dev/b, which has 3 slots"),
                                           ("no free slot", {"a": 64, "b": 64}, (), SWAP,
                                            "nor can `migrate plan-tight` do it: no slot of any disk is free"),
                                           ("not allocatable", {"a": 64, "b": 64, "c": 32}, (("c", "u--"),), SWAP,
                                            "`plan-tight` may park what is moved on /dev/c, which is not allocatable: "
                                            "call pvchange -x y /dev/c first"),
                                           ("short last extents", {"a": 64, "b": 72, "c": 32}, (),
                                            SWAP + " --move tail=a --unit 16",
                                            "the last extents of /dev/b are fewer than the unit of 16, and what is "
                                            "there is to leave")):
        with Room() as room:
            rows = [segment("db", "/dev/a:0-63"),
                    segment("web", f"/dev/b:0-{47 if sizes['b'] % 16 else sizes['b'] - 1}"),
                    *[segment("tail", "/dev/b:64-71")] * (sizes["b"] % 16 > 0)]
            group_of(room, sizes, rows, attrs)
            refused(room, f"from-lvm, {name}",
                    f"contrib/from-lvm lvs.json pvs.json {wish}{'' if '--unit' in wish else ' --unit 16'}", said)
    with Room() as room:  # dealing out, where what leaves makes the room
        group_of(room, {"a": 32, "b": 32, "c": 32},
                 [segment("db", "/dev/a:0-31"), segment("web", "/dev/b:0-31"), segment("log", "/dev/c:0-15")])
        room.says("too little for what is wished",
                  "contrib/from-lvm lvs.json pvs.json --move web=a --empty b --unit 16", "there is no room on /dev/a",
                  status=1)
        group_of(room, {"a": 32, "b": 32, "c": 48},
                 [segment("db", "/dev/a:0-31"), segment("web", "/dev/b:0-31"), segment("log", "/dev/c:0-15")])
        room.says("what leaves makes room for what is dealt out",
                  "contrib/from-lvm lvs.json pvs.json --move db=c --empty b --unit 16",
                  "the form to use is `migrate plan-tight`")
        room.planned_tight("dealt out")


def steps_of(script):
    """The moves of a script in their order: the volume, and the spots that it looks at: from where, to where, and where
    it goes later."""
    lines = [shlex.split(line)[3:] for line in script.splitlines() if line.startswith("lvm-step --round ")]
    spots = re.compile(r"(\S+):(\d+)-(\d+)")
    return [(volume, [(it[1], int(it[2]), int(it[3])) for it in map(spots.fullmatch, those)])
            for volume, *those in lines]


def run_of(volumes, steps, most):
    """Carries out as a script does what is not done by what it sees, at most so many moves. Says how it ended."""
    for volume, (old, new, *later) in steps:
        there = set(map(tuple, volumes[volume]))
        if any(all((device, at) in there for at in range(first, last + 1)) for device, first, last in (new, *later)):
            continue
        if not all((old[0], at) in there for at in range(old[1], old[2] + 1)):
            return "neither"
        if most == 0:
            return "stopped"
        most -= 1
        if {(new[0], at) for at in range(new[1], new[2] + 1)} & {tuple(it) for extents in volumes.values()
                                                                 for it in extents}:
            return "in use"
        volumes[volume] = [[new[0], at - old[1] + new[1]] if device == old[0] and old[1] <= at <= old[2]
                           else [device, at] for device, at in volumes[volume]]
    return "done"


def made_group(room, rnd):
    """A nearly full group, mostly of one volume on each device, and a wish that moves most of them in a ring or
    elsewhere."""
    names = "abcde"[: rnd.randint(2, 5)]
    sizes = {it: 4 * rnd.randint(3, 4) + rnd.choice((0, 0, 0, 2)) for it in names}
    slots = [(it, slot) for it in names for slot in range(sizes[it] // 4)]
    rnd.shuffle(slots)
    segments = []
    for device, slot in slots[rnd.randint(1, 3):]:
        count, volume = rnd.choice((4, 4, 4, 3,
                                    2)), f"v{names.index(device) if rnd.random() < 0.9 else rnd.randrange(len(names))}"
        first = 4 * slot + rnd.choice((0, 4 - count))
        segments.append(segment(volume, f"/dev/{device}:{first}-{first + count - 1}"))
    segments.sort(key=lambda it: it["lv_name"])
    to = rnd.sample(names, len(names))
    wish = " ".join(f"--move {it}={to[int(it[1:])]}"
                    for it in sorted({it["lv_name"] for it in segments}) if rnd.random() < 0.9)
    return *group_of(room, sizes, segments), wish or "--spread"


def made_tight():
    """Made groups: the form is the one that the program takes, and a script that was stopped after any of its moves,
    begun again, ends where the plan does."""
    kinds = {True: 0, False: 0}
    for seed in range(int(os.environ.get("CHANGES", 60))):
        with Room() as room:
            devices, volumes, wish = made_group(room, random.Random(seed))
            name = f"made group {seed}, {wish}"
            ran = room.run(f"contrib/from-lvm lvs.json pvs.json {wish} --unit 4")
            if ran.returncode:
                that(f"{name}: why not", ran.returncode == 1 and "there is no room" in ran.stderr, ran)
                continue
            is_tight = "the form to use is `migrate plan-tight`" in ran.stderr
            ran = room.run("./migrate plan disks.csv now.csv next.csv plan.txt cert.txt")
            that(f"{name}: the form",
                 (ran.returncode, "no room on" in ran.stdout) == ((3, True) if is_tight else (0, False)), ran)
            last = room.planned_tight(name)
            if not room.shifts():
                continue
            ran = room.run("contrib/to-lvm plan.txt names.csv --out moves.sh")
            if ran.returncode:
                that(f"{name}: why to-lvm refuses", "of the same volume" in ran.stderr or not is_tight
                     and "does not fit at the end" in ran.stderr, ran)
                continue
            kinds[is_tight] += 1
            wanted, steps = wanted_extents(room, last, 4, volumes, devices), steps_of(room.read("moves.sh"))
            same(f"{name}: the commands", after_pvmoves(volumes, room.good(name, "sh moves.sh -n"), devices), wanted)
            for most in range(len(steps) + 1):
                found = copy.deepcopy(volumes)
                ends = run_of(found, steps, most), run_of(found, steps, -1)
                that(f"{name}: begun again after {most} moves",
                     ends == ("stopped" if most < len(steps) else "done", "done") and found == wanted, ends)
    that("both forms were met", all(kinds.values()), kinds)


TREE = ("rm -rf mnt; mkdir -p mnt/a/x1 mnt/a/x2 mnt/b/y1 mnt/b/y2 mnt/c; for it in a/x1 a/x2 b/y1 b/y2; do echo $it "
        ">mnt/$it/data; done; ")
CARRY = "contrib/run-plan --names names.csv --erase 'rm -rf {from}/{item}' plan.txt cp -a {from}/{item} {to}/"


def where_is(room):
    return {name: os.path.basename(folder) for folder, names, _ in os.walk(room.path("mnt"))
            for name in names if re.fullmatch(r"[xy]\d", name)}


def tight_folders():
    wish = "mnt/a mnt/b mnt/c --move x1=b --move x2=b --move y1=a --move y2=a --slots a=2 --slots b=2 --slots c=1"
    with Room() as room:
        room.good("folders", TREE)
        ran = room.says("folders, the form", f"contrib/from-folders {wish}",
                        "mnt/b would need 4 slots for old and incoming items together, and has 2: the form to use is "
                        "`migrate plan-tight`", "the fullest target by bytes, mnt/")
        room.planned_tight("folders")
        shifts = sum(room.shifts(), [])
        parked = next(it for it in shifts if it[3] == "c")
        same("folders, parked and moved on", [it[1::2] for it in shifts if it[0] == parked[0]][0][1], "c")
        room.says("folders, each shift begins where the item is", CARRY.replace("run-plan", "run-plan --dry-run"),
                  f"cp -a mnt/{parked[1]}/{parked[0]} mnt/c/\n", f"cp -a mnt/c/{parked[0]} mnt/")
        wanted = {"x1": "b", "x2": "b", "y1": "a", "y2": "a"}
        room.good("folders", "cp -a mnt before")
        for name, more in (("rounds", ""), ("eager", " --eager disks.csv")):
            room.good("folders", "rm -rf mnt plan.txt.place*; cp -a before mnt")
            room.good(f"folders, {name}", CARRY.replace("run-plan", f"run-plan{more}"))
            same(f"folders, {name}: where each is", where_is(room), wanted)
            same(f"folders, {name}: what it holds", room.good("folders", "cat mnt/*/*/data | sort"),
                 "a/x1\na/x2\nb/y1\nb/y2\n")
            room.says(f"folders, {name}: progress", "contrib/progress plan.txt",
                      f"{len(shifts)} of {len(shifts)} transfers, done")
        # stopped after each number of commands, and begun again
        for count in range(1, 3 * len(shifts)):
            room.good("folders", f"rm -rf mnt plan.txt.place* count; cp -a before mnt; echo {count} >count")
            once = "'n=$(cat count); echo $((n - 1)) >count; [ $n -gt 0 ] || exit 9; \"$@\"' sh "
            counted = CARRY.replace("plan.txt cp", f"plan.txt sh -c {once}cp")
            ran = room.run(counted)
            stopped = ran.returncode != 0
            again = room.run(CARRY.replace("plan.txt cp", f"plan.txt sh -c '\"$@\"' sh cp") if stopped else "true")
            that(f"folders, stopped after {count} copies", again.returncode == 0 and where_is(room) == wanted,
                 (ran.stderr[-300:], again.stderr[-300:], where_is(room)))
            if not stopped:
                break
        # where an item of one name is on the disk on which it would be parked
        room.good("folders", "rm -rf mnt plan.txt.place*; cp -a before mnt")
        rows = room.read("names.csv")
        room.write("names.csv", rows + f"item,z,mnt/c/{parked[0]},0\n")
        refused(room, "folders, one of its name", CARRY,
                f"have one name, and mnt/c/{parked[0]} can only be one of them")
        room.write("names.csv", rows)
        room.write("plan.txt", plan_of(f"{parked[0]} a 0 c 0", f"{parked[0]} b 0 a 0") if parked[1] == "a"
                   else plan_of(f"{parked[0]} b 0 c 0", f"{parked[0]} a 0 b 0"))
        refused(room, "folders, from where it is no more", CARRY,
                "from where the plan moves it: it was made for another plan")
        refused(room, "folders, from where it is no more, without names",
                "contrib/run-plan plan.txt cp -a mnt/{from}/{item} mnt/{to}/", "in slot 0 of c since its last move")
    with Room() as room:
        room.good("folders", TREE)
        for name in ("disks.csv", "now.csv", "next.csv"):
            that("no file yet", room.read(name) is None)
        for words, said in (("--slots a=2 --slots b=1 --slots c=1",
                             "there is no room on mnt/a: it needs 4 slots, and has 2; nor can `migrate plan-tight` do "
                             "it: 2 items are to be on mnt/b, which has 1 slots"), ("--slots a=2 --slots b=2", "")):
            wish = f"mnt/a mnt/b {'mnt/c ' * ('c=' in words)}--move x1=b --move x2=b --move y1=a --move y2=a {words}"
            refused(room, "folders", f"contrib/from-folders {wish}",
                    said or "nor can `migrate plan-tight` do it: no slot of any disk is free")


def tight_pages():
    """What shows a plan takes one in which an item stands in two shifts, or refuses it with a sentence."""
    with Room() as room:
        room.write("disks.csv", "disk,limit,slots\na,1,1\nb,1,1\nc,1,1\n")
        room.write("now.csv", "item,disk,slot\nx,a,0\ny,b,0\n")
        room.write("next.csv", "item,disk\nx,b\ny,a\n")
        room.planned_tight("pages")
        room.write("bytes.csv", "item,bytes\nx,1024\ny,2048\n")
        lines = room.good("pages", "contrib/summary plan.txt disks.csv --sizes bytes.csv --rate 1K").splitlines()
        same("summary", lines[:4],
             ["moves 3, 1 of them from where an item was parked", "bytes 4.0 KiB", "rounds 3", "transfers by round"])
        same("summary, the time", lines[-2:], ["time 4 s: 3 rounds, each as long as its greatest item",
                                               "time without rounds 4 s: each transfer as soon as the limits let it"])
        same("summary --json", json.loads(room.good("pages", "contrib/summary plan.txt --json"))["parked"], 1)
        refused(room, "pages", "contrib/summary plan.txt disks.csv --queue now.csv",
                "transfers of this plan need others to be done first")
        that("picture",
             "3 transfers in 3 rounds on 3 disks" in room.good("pages", "contrib/picture plan.txt disks.csv"))
        room.says("report without a certificate", "contrib/report plan.txt disks.csv now.csv",
                  "No certificate was given, so that nothing is said of it. 1 transfer of this plan goes on from where "
                  "an item was parked.", '"rounds":[[["x",0,2]],[["y",1,0]],[["x",2,1]]]')
        room.write("p", plan_of("x a 0 c 0", "y b 0 a 0", "x a 0 b 0"))
        refused(room, "pages", "contrib/report p disks.csv now.csv", "round 3: x is not at slot 0 of a")
        if room.run("./migrate fill disks.csv now.csv").returncode == 0:
            room.good("pages", "./migrate move-tight disks.csv now.csv next.csv plan.txt")
            same("progress by the journal", room.good("pages", "contrib/progress plan.txt"),
                 f"[{'#' * 30}] 3 of 3 rounds, 3 of 3 transfers, done\n")
    with Room() as room:
        room.good("pages",
                  "cp contrib/samples/ceph/{before,after,dump,crush} . && contrib/from-ceph before after dump crush "
                  "--backfills 2")
        room.planned("pages")
        item, source, slot, target, to = room.shifts()[0][0]
        room.write("p", plan_of(f"{item} {source} {slot} osd.99 0", f"{item} osd.99 0 {target} {to}"))
        refused(room, "to-ceph, parked", "contrib/to-ceph p before after dump crush --out s",
                f"{item} from {source} to osd.99 is no move of a plan")
        room.write("p", plan_of(f"{item} {source} {slot} {target} {to}", f"{item} {target} {to} {source} {slot}"))
        refused(room, "to-ceph, twice", "contrib/to-ceph p before after dump crush --out s",
                f"round 2: {item} moves a second time: a copy of a placement group is not parked")


CASES = (tight_lvm, parked_of_lvm, forms_of_lvm, made_tight, tight_folders, tight_pages)

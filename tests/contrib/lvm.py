"""LVM's cases: recorded reports, a stand-in, and the real tools where they are installed."""
import collections, contextlib, hashlib, itertools, json, os, re, subprocess
from waiting import LIMIT, until
from rooms import HERE, Room, cases, page, plan_of, refused, same, shifts_of, sizes_of, that, volumes_of

LVS = "lvs -a --segments --reportformat json -o vg_name,lv_name,lv_role,segtype,seg_pe_ranges"
PVS = "pvs --reportformat json --units b -o vg_name,pv_name,pv_attr,pv_pe_count,vg_extent_size"
FORMS = itertools.cycle((("", "--plain"), ("--plain", "")))  # each form of the script is tried with half of the wishes
PVMOVE = re.compile(r"pvmove -i 3 (?:--alloc anywhere )?-n (\S+) (\S+):(\d+)-(\d+) (\S+):(\d+)-(\d+)")


def wanted_extents(room, last, unit, volumes, devices):
    """Each volume's extents after the last layout: what a slot holds keeps its place in it."""
    rows = room.rows("names.csv")
    stands = {name: device for kind, name, device, _ in rows if kind == "disk"}
    spots = {}
    for kind, name, device, extents in rows:
        if kind == "item":
            at = int(re.search(r":(\d+)-", extents)[1]) // unit
            spots[device, at] = (stands[last[name][0]], last[name][1])
    same("the table has each device", set(stands.values()), set(devices))
    wanted = {}
    for volume, extents in volumes.items():
        to = [spots[device, at // unit] for device, at in extents]
        wanted[volume] = [[new, slot * unit + at % unit] for (new, slot), (_, at) in zip(to, extents)]
    return wanted


def legs_together(volumes):
    """The devices on which two legs of one raid or mirror are."""
    legs = collections.defaultdict(set)
    for volume, extents in volumes.items():
        if found := re.fullmatch(r"(.+)_(?:rimage|rmeta|mimage)_(\d+)", volume):
            for device, _ in extents:
                legs[found[1], device].add(found[2])
    return {it for it, numbers in legs.items() if len(numbers) > 1}


def after_pvmoves(volumes, printed, devices):
    """Where each volume's extents are after these commands. `-n` names a volume, or the raid of which it is a leg's
    metadata."""
    found = {volume: list(extents) for volume, extents in volumes.items()}
    for line in printed.splitlines():
        if line[0] == "#":
            continue
        name, source, first, last, target, to, end = PVMOVE.fullmatch(line).groups()
        goes = {(source, it): [target, it - int(first) + int(to)] for it in range(int(first), int(last) + 1)}
        used = {tuple(it) for extents in found.values() for it in extents}
        good = int(end) - int(to) == int(last) - int(first) and int(end) < devices[target] and not used & {
            tuple(it) for it in goes.values()}
        moved = [it for it, extents in found.items() if re.fullmatch(rf"{re.escape(name)}(_rmeta_\d+)?", it)
                 and set(goes) <= set(map(tuple, extents))]
        if that(f"LVM can carry it out: {line}", good and len(moved) == 1, moved):
            found[moved[0]] = [goes.get(tuple(it), it) for it in found[moved[0]]]
        same(f"each leg has disks of its own after {line}", legs_together(found) - legs_together(volumes), set())
    return found


def carry_out(room, name, wish, unit, volumes, devices, look, planned=Room.planned):
    """From two reports over files, plan and script to what stands on the devices; gives what the script prints alone.
    Where nothing can be looked at, the commands are followed."""
    room.good(name, f"contrib/from-lvm lvs.json pvs.json {wish} --unit {unit}")
    last = planned(room, name)
    if not room.shifts():
        return that(f"{name}: something moves", False)
    for form, out in zip(next(FORMS), ("moves.sh", "other.sh")):
        room.good(name, f"contrib/to-lvm plan.txt names.csv {form} --out {out}")
    wanted = wanted_extents(room, last, unit, volumes, devices)
    that(f"{name}: something is wanted", wanted != volumes)
    printed = room.good(name, "sh moves.sh -n")
    same(f"{name}: both forms say the same commands", room.good(name, "sh other.sh -n"), printed)
    same(f"{name}: the commands lead to where the plan ends", after_pvmoves(volumes, printed, devices), wanted)
    if look is None:
        return printed
    same(f"{name}: -n moves nothing", look(), volumes)
    room.good(name, "sh moves.sh")
    same(f"{name}: the volumes are where the plan ends", look(), wanted)
    for script in ("moves.sh", "other.sh"):
        again = room.good(name, f"sh {script}")
        that(f"{name}: once more {script} moves nothing", "goes from" not in again and look() == wanted, again)
    return printed


def recorded_lvm():
    devices, volumes = sizes_of(), dict(volumes_of())
    wishes = [("--empty /dev/loop0", 1), ("--empty loop0 --limit 2", 16),
              ("--empty /dev/loop0 --limit 4 --limit /dev/loop1=1", 32), ("--spread", 4),
              ("--spread --empty loop2 --limit 3", 32), ("--move db=loop2 --move web=/dev/loop1", 4),
              ("--move mail=loop0 --spread", 1), ("--empty loop0 --limit 1,2", 16),
              ("--spread --empty loop2 --limit 2,1 --limit loop0=1,3", 32)]
    for wish, unit in wishes:
        name = f"from-lvm {wish}, unit {unit}"
        with Room() as room:
            room.good(name, "cp contrib/samples/lvm/*.json .")
            runs = unit >= 16
            printed = carry_out(room, name, wish, unit, volumes, devices,
                                (lambda room=room: room.state("lvm.json")["volumes"]) if runs else None)
            last = after_pvmoves(volumes, printed, devices)
            if runs:
                what_ran(room, name, printed)
            for device in re.findall(r"--empty (\S+)", wish):
                same(f"{name}: {device} is empty",
                     [it for extents in last.values() for it in extents if it[0].endswith(device)], [])
            for volume, device in re.findall(r"--move (\S+)=(\S+)", wish):
                found = {it[0] for it in last[volume]}
                that(f"{name}: {volume} is on {device}", len(found) == 1 and found.pop().endswith(device))
            if wish == "--spread":
                used = collections.Counter(it[0] for extents in last.values() for it in extents)
                that("spread: each disk has about the same", max(used.values()) - min(used.values()) <= 2 * unit, used)
    with Room() as room:  # a disk's last extents are fewer than a unit: what is there can leave, and nothing can come
        volumes = {**volumes, "end": [["/dev/loop1", at] for at in range(240, 255)]}
        report = json.loads(page("contrib/samples/lvm/lvs.json"))
        report["report"][0]["seg"].append({**report["report"][0]["seg"][0], "lv_name": "end",
                                           "seg_pe_ranges": "/dev/loop1:240-254"})
        room.keep("lvs.json", report)
        room.good("the last extents", "cp contrib/samples/lvm/pvs.json .")
        printed = carry_out(room, "the last extents", "--empty loop1", 32, volumes, devices, None)
        that("what is in the last extents leaves", "-n end /dev/loop1:240-254 " in printed, printed)
        that("they are a slot where they are in use",
             "loop1,1,8\n" in room.read("disks.csv") and "loop0,1,7\n" in room.read("disks.csv"))


def what_ran(room, name, printed):
    """What -n prints is what the stand-in was called with, a round after the other."""
    moves = [line.removeprefix("begin ") for line in room.read("state/log").splitlines() if line.startswith("begin ")]
    same(f"{name}: what -n prints is what runs",
         sorted(line.removeprefix("pvmove ") for line in printed.splitlines() if line[0] != "#"), sorted(moves))
    rounds, at = {}, 0
    for line in printed.splitlines():
        at += line[0] == "#"
        rounds[line.removeprefix("pvmove ")] = at
    ran = [rounds[it] for it in moves]
    same(f"{name}: one round after the other", ran, sorted(ran))


def the_unit_of_lvm(room):
    """The unit that is chosen makes some hundred pvmoves at most, and goes below 16 extents only where the wish needs
    it."""
    room.good("unit", "cp contrib/samples/lvm/*.json .")

    def chosen(wish, said):
        room.says(f"the unit is told: {wish}", f"contrib/from-lvm lvs.json pvs.json {wish}", said)
        room.planned(f"the unit of {wish}")

    # 200 extents are 13 runs of 16 extents; the one from 96 on has two volumes
    chosen("--empty loop0", "unit 16 extents: 19 items on 3 disks, 13 of them go to another disk, by 14 pvmoves")
    # db ends at extent 99, and what follows is to stay: a run of 4 extents is the greatest that has db alone
    chosen("--move db=loop1", "unit 4 extents: 73 items on 3 disks, 25 of them go to another disk, by 25 pvmoves")
    room.write("pvs.json", page("contrib/samples/lvm/pvs.json").replace("255", "200000"))
    rows = [{**json.loads(room.read("lvs.json"))["report"][0]["seg"][0], "lv_name": "huge",
             "seg_pe_ranges": "/dev/loop0:0-149999"}]
    room.keep("lvs.json", {"report": [{"seg": rows}]})
    # 150000 extents are 293 runs of 512, and 586 of 256
    chosen("--empty loop0", "unit 512 extents: 293 items on 3 disks, 293 of them go to another disk, by 293 pvmoves")
    same("its slots", room.read("disks.csv"), "disk,limit,slots\nloop0,1,390\nloop1,1,390\nloop2,1,390\n")
    chosen("--spread", "unit 512 extents: 293 items on 3 disks, 195 of them go to another disk, by 195 pvmoves")


def what_reports_know():
    """The bytes of an extent are those of the report; what is not allocatable is named; a leg's metadata go along with
    it."""
    with Room() as room:
        room.good("extents", "cp contrib/samples/lvm/*.json . && cp contrib/samples/lvm/odd/closed-pvs.json .")
        report = json.loads(room.read("pvs.json"))
        for name, text, words, wanted in (("of the report", "33554432B", "", 32 << 20),
                                          ("without a unit", "1048576", "", 1 << 20),
                                          ("said twice", "33554432B", "--extent 32M", 32 << 20),
                                          ("of none", None, "", 4 << 20), ("by a word", None, "--extent 8M", 8 << 20)):
            for row in report["report"][0]["pv"]:
                row.pop("vg_extent_size", None)
                row.update({"vg_extent_size": text} if text else {})
            room.keep("pvs.json", report)
            ran = room.run(f"contrib/from-lvm lvs.json pvs.json --empty loop0 --unit 16 {words}")
            same(f"the bytes of 16 extents, {name}", (ran.returncode, room.read("bytes.csv").splitlines()[1]),
                 (0, f"db.0,{16 * wanted}"))
            same(f"it is said that they are supposed, {name}", "supposes extents of 4 MiB" in ran.stderr,
                 name == "of none")
        for text, words, said in (("4.00m", "", "'4.00m' is no number of bytes of an extent"),
                                  ("33554432B", "--extent 4M", "--extent is not 33554432 bytes, as pvs.json has it")):
            report["report"][0]["pv"][0]["vg_extent_size"] = text
            room.keep("pvs.json", report)
            refused(room, "an extent", f"contrib/from-lvm lvs.json pvs.json --empty loop0 {words}", said)
        refused(room, "closed", "contrib/from-lvm lvs.json closed-pvs.json --empty loop0 --empty loop2",
                "nothing can come to /dev/loop1, since LVM has it as not allocatable (pvchange -x y)")
    with Room() as room:
        room.good("along", "cp contrib/samples/lvm/parts/*.json .")
        room.says("a leg's metadata go along, and it is said",
                  "contrib/from-lvm lvs.json pvs.json --move r_rimage_0=loop3 --unit 1",
                  "from-lvm: r_rmeta_0 goes along with r_rimage_0\n")
        that("a leg's metadata go along, and it is said",
             {disk for item, disk in room.rows("next.csv") if re.match(r"r_r(image|meta)_0\.", item)} == {"loop3"})
        ran = room.run("contrib/from-lvm lvs.json pvs.json --move r_rimage_0=loop3 --move r_rmeta_0=loop4 --unit 1")
        that("where it is told it goes elsewhere", "goes along" not in ran.stderr
             and dict(room.rows("next.csv"))["r_rmeta_0.0"] == "loop4", ran)


def lvm_of_parts():
    """Raids, a mirror, stripes and a pool, as they were recorded on active volumes. What the commands lead to is what
    lvs said then."""
    devices, volumes = sizes_of("parts/pvs.json"), dict(volumes_of("parts/lvs.json"))
    with Room() as room:
        room.good("parts",
                  "cp contrib/samples/lvm/parts/*.json . && contrib/from-lvm lvs.json pvs.json --empty loop0 --limit 2 "
                  "--unit 4")
        room.good("parts",
                  "cp contrib/samples/lvm/parts/plan.txt . && contrib/to-lvm plan.txt names.csv --out moves.sh")
        printed = room.good("parts", "sh moves.sh -n")
        same("the recorded plan leads to what lvs said after it",
             sorted_extents(after_pvmoves(volumes, printed, devices)),
             sorted_extents(volumes_of("parts/after.json")))
    for wish, unit in cases("""
            --empty loop0 --limit 2 | 4
            --empty loop0 --empty loop1 | 4
            --empty loop1 --limit 3 | 16
            --empty loop1 --limit 1,4 | 16
            --spread --empty loop2 | 2
            --spread | 1
            --move r_rimage_0=loop3 --move [r_rmeta_0]=loop4 | 1
            --move stripes=loop3 --move db=loop4 | 1"""):
        name = f"parts, {wish}"
        with Room() as room:
            room.good(name, "cp contrib/samples/lvm/parts/*.json .")
            room.keep("state/lvm.json", {"devices": devices, "volumes": volumes, "moving": {}})
            if wish.startswith("--move stripes"):
                refused(room, name, f"contrib/from-lvm lvs.json pvs.json {wish}",
                        "/dev/loop3 has or gets another leg or stripe of it, which LVM keeps apart")
                continue
            printed = carry_out(room, name, wish, unit, volumes, devices,
                                (lambda room=room: room.state("lvm.json")["volumes"]) if unit >= 16 else None)
            last = after_pvmoves(volumes, printed, devices)
            same(f"{name}: what was to be empty is",
                 [it for extents in last.values()
                  for it in extents if any(it[0].endswith(at) for at in re.findall(r"--empty (\S+)", wish))], [])
            if wish == "--spread":
                used = collections.Counter(it[0] for extents in last.values() for it in extents)
                that("parts, spread: each disk has about the same", max(used.values()) - min(used.values()) <= 4, used)


def sorted_extents(volumes):
    return {volume: sorted(map(tuple, extents)) for volume, extents in volumes.items() if extents}


WORDS_OF_SCRIPTS = (("{more}", 2, "there is no round {more}, but 1 to {rounds}"), ("x", 2, "x is no round"),
                    ("0", 2, "there is no round 0"), ("-n 1x", 2, "1x is no round"), ("--until 6", 2, "--until"))


def the_script_of_lvm():
    """What the script of pvmoves does where something is in the way, with lvm-step and in the shell's own words."""
    for form in ("", "--plain"):
        with Room() as room:
            room.good(form, "cp contrib/samples/lvm/*.json . && contrib/from-lvm lvs.json pvs.json --empty loop0 "
                            "--unit 32")
            wanted = wanted_extents(room, room.planned("to-lvm"), 32, dict(volumes_of()), sizes_of())
            room.good(form, f"contrib/to-lvm plan.txt names.csv {form} --out moves.sh")
            same("to-lvm prints what it saves", room.good(form, f"contrib/to-lvm plan.txt names.csv {form}"),
                 room.read("moves.sh"))
            plan, rounds = room.shifts(), len(room.shifts())
            for words, status, said in WORDS_OF_SCRIPTS:
                words, said = (it.format(more=rounds + 1, rounds=rounds) for it in (words, said))
                ran = room.says(f"sh moves.sh {form} {words}", f"sh moves.sh {words}", said, status=status)
                that(f"sh moves.sh {form} {words}", not ran.stdout, ran)
            room.write("state/fail-db-64", "")
            failing = next(at for at, round_ in enumerate(plan, 1) if any(it[1:3] == ["loop0", "2"] for it in round_))
            room.write("hook", 'echo "$@" >>told')
            ran = room.says(f"a pvmove that fails stops the script {form}",
                            "sh moves.sh --hook 'sh hook'" if not form else "sh moves.sh", "ended with status 5",
                            f"stopped in round {failing}; begin again with: sh moves.sh {failing}", status=1)
            if not form:
                same("the hook is told", room.read("told"),
                     f"failed moves.sh: a pvmove of round {failing} failed\nstopped moves.sh: stopped in round "
                     f"{failing}\n")
            line = next((it for it in room.read("moves.sh").splitlines()
                         if it.startswith("lvm-step ") and " /dev/loop0:64-95 " in it), "")
            if not form:  # a line by hand, with what the script's PATH has
                ran = room.run(f"PATH=$PATH:contrib; {line}; {line}; {line.partition(' /dev/loop2')[0]} "
                               f"/dev/loop2:200-231; echo $?")
                that("a line by hand", "db goes from /dev/loop0:64-95" in ran.stdout and " already\n"
                     in ran.stdout and "neither at" in ran.stderr and ran.stdout.endswith("1\n"), ran)
                same("a line by hand, printed", room.good("by hand", f"PATH=$PATH:contrib; {line} -n").split()[:4],
                     ["pvmove", "-i", "3", "-n"])
            ran = room.run(f"sh moves.sh {failing}")
            that(f"it begins again there {form}", ran.returncode == 0 and room.state("lvm.json")["volumes"] == wanted
                 and f"round {failing - 1}:" not in ran.stdout, ran)
            state = room.state("lvm.json")
            state["volumes"]["db"] = [["/dev/loop1", at + 150] for at in range(100)]
            room.keep("state/lvm.json", state)
            room.says(f"extents that are elsewhere stop the script {form}", "sh moves.sh",
                      "db is neither at /dev/loop0:", status=1)
            room.keep("state/lvm.json", {**state, "volumes": volumes_of(), "moving": {"/dev/loop0": "log"}})
            room.says(f"a pvmove that was at work is seen {form}", "sh moves.sh",
                      "was another pvmove from /dev/loop0 at work?", status=1)
    with Room() as room:  # one at a time; what a signal leaves; what LVM does not say
        room.good("lvm-step", "cp contrib/samples/lvm/*.json . && contrib/from-lvm lvs.json pvs.json --empty loop0 "
                              "--unit 32")
        room.planned("lvm-step")
        room.good("lvm-step", "alone/to-lvm plan.txt names.csv --out moves.sh; mkdir bin/real; mv bin/pvmove bin/real/")
        room.write("bin/pvmove", '#!/bin/sh\necho at work >>at\nuntil [ -e go ] || [ ! -e at ]; do sleep 0.1; '
                                 'done\nexec "${0%pvmove}real/pvmove" "$@"\n')
        room.good("lvm-step", "chmod +x bin/pvmove")
        ran = room.begin("exec sh moves.sh >said 2>notes")
        until(lambda: room.read("at"), "a pvmove to begin")
        refused(room, "a second one at once", "timeout 20 sh moves.sh", "moves.sh is being carried out already")
        ran.terminate()
        status, said = ran.wait(LIMIT), room.read("notes")
        that("a signal lets pvmove go on",
             status == 130 and "each pvmove under way goes on" in said and "sh moves.sh 1" in said, (status, said))
        room.write("go", "")
        until(lambda: "end " in (room.read("state/log") or ""), "the pvmove to go on")
        room.good("lvm-step", "sh moves.sh")
        room.good("lvm-step", "rm bin/pvs; printf '#!/bin/sh\\n[ $1 != --segments ] || echo {}\\n' >bin/pvs; chmod +x "
                              "bin/pvs")
        room.says("what LVM does not say is no answer", "sh moves.sh", "does not say what it is asked for", status=1)


def the_log_of_lvm(room):
    """A pause, a window, an end by --until, and what progress reads of them in the log of a script of steps."""
    room.good("log", "cp contrib/samples/lvm/*.json . && contrib/from-lvm lvs.json pvs.json --empty loop0 --limit "
                     "2 --unit 32")
    room.planned("log")
    room.good("log", "contrib/to-lvm plan.txt names.csv --out moves.sh; mkdir bin/real; mv bin/pvmove bin/real/")
    room.write("bin/pvmove", '#!/bin/sh\n[ ! -e end ] || echo 1773190000 >clock\n'
               'exec "${0%pvmove}real/pvmove" "$@"\n')
    plan, hook = room.shifts(), "--hook 'sh hook'"
    room.write("hook", 'echo "$@" >>told')
    room.write("clock", "1773180000")  # 2026-03-10, a Tuesday
    words, zone = "plan.txt --log log --names names.csv --json", "TZ=UTC CLOCK=clock"
    look = lambda: json.loads(room.good("log", f"contrib/progress {words}"))
    waits = ("(until grep -qs 'time .* paused' log || ! kill -0 $$; do sleep 0.1; done; touch over) >err 2>&1 & "
             "OVER=over")
    room.good("log", "chmod +x bin/pvmove")
    for name, first, more in (("a pause", "touch pause;", ""),
                              ("a window that is closed", "rm pause;", "--window 'mon,wed-sun 00:00-24:00'"),
                              ("two windows", "", "--window 20:00-21:59 --window 22:01-22:02")):
        room.says(f"{name}, up to --until",
                  f"rm -f log over; {first} {waits} {zone} sh moves.sh --until 06:00 {more} {hook} >log",
                  "lvm-step: paused: ", "ended before round 1, as --until says; begin again with: sh moves.sh 1",
                  status=3)
        that(f"{name}, up to --until", "round 1:" not in room.read("log"))
        found = look()
        same(f"{name}: nothing is done",
             (found["rounds_done"], found["items_done"], found["done"], found["seconds_left"]), (0, 0, False, None))
    room.says("an end after the first round",
              f"rm -f pause over; touch end; {zone} sh moves.sh --until 22:30 {hook} >>log", "ended before round 2",
              status=3)
    that("an end after the first round", "round 2:" not in room.read("log"))
    found = look()
    same("the first round is done", (found["rounds_done"], found["items_done"], found["done"]),
         (1, len(plan[0]), False))
    room.good("the rest", f"rm -f end; echo 1773180000 >clock; {zone} sh moves.sh 2 --window 'tue 22:00-06:00' "
              f"{hook} >>log; tail -n 1 log | grep -qx 'all rounds are carried out'")
    found = look()
    same("all is done", (found["rounds_done"], found["items_done"], found["done"]),
         (len(plan), sum(map(len, plan)), True))
    same("what the hook is told", collections.Counter(it.split()[0] for it in room.read("told").splitlines()),
         {"ended": 4, "done": 1})


def the_summary_of_lvm(room):
    """A round of four items: three leave a, of two volumes, and one leaves b. So b's goes beside the first of a, and
    three steps are needed."""
    room.write("names", "kind,name,device,extents\nunit,8,,\n" + "".join(f"disk,{it},/dev/{it},64\n" for it in "abc")
               + "item,x.0,/dev/a,x:0-7\nitem,x.1,/dev/a,x:8-9\n"
               "item,y.0,/dev/a,y:18-19 z:20-23\nitem,w.0,/dev/b,w:0-7\n")
    room.write("p", plan_of("x.0 a 0 c 0, x.1 a 1 c 1, w.0 b 0 c 2", "y.0 a 2 b 1"))
    lines = room.good("summary", "contrib/summary p --names names").splitlines()
    same("summary counts pvmoves and steps", lines[-1], "pvmoves 5, in 4 steps one after the other")
    # 8, 2, 2 and 4 extents of 8 that take 8 s: 8 + 2 + 2 + 4 seconds
    lines = room.good("summary", "contrib/summary p --names names --bytes 8M --rate 1M").splitlines()
    same("summary has the time of the steps", lines[-1], "time 16 s: 4 steps of at most 8 s each")
    refused(room, "summary, names of another plan", "contrib/summary p --names contrib/samples/README.md",
            "does not begin with the row kind,name,device,extents")


# The real tools

class Lab:
    """Real LVM over files behind loop devices: active volumes where there is a device-mapper, LVM's metadata alone
    elsewhere."""

    def __init__(self, room, loops, live):
        self.room, self.loops, self.live, self.group = room, loops, live, f"migrate{os.getpid()}"
        accept = ", ".join(f'"a|^{it}$|"' for it in loops)
        options = ["--config",
                   f'devices {{ filter = [{accept}, "r|.*|"] use_devicesfile = 0 }} backup {{ backup = 0 archive = 0 '
                   f'}}']
        room.env |= {"GROUP": self.group, "LVM": "\n".join(options if live else ["--driverloaded", "n", *options]),
                     "LOCK": room.path("state/lock")}
        for tool in ("lvs", "pvs", "pvmove", "vgcreate", "vgremove", "vgreduce", "vgcfgrestore", "lvcreate",
                     "lvconvert", "lvextend", "pvcreate", "pvremove", "pvchange"):
            if os.path.lexists(room.path(f"bin/{tool}")):
                os.unlink(room.path(f"bin/{tool}"))
            if tool == "pvmove" and not live:
                os.symlink(f"{HERE}/real-pvmove", room.path("bin/pvmove"))
                continue
            room.write(f"bin/{tool}",
                       f"#!/bin/bash\nmapfile -t options <<<\"$LVM\"\nexec /usr/sbin/{tool} \"$@\" \"${{options[@]}}\" "
                       f"2>>\"$STAND_IN/said\"\n")
            os.chmod(room.path(f"bin/{tool}"), 0o755)

    def do(self, command):
        return self.room.good("real LVM", command)

    def report(self):
        self.do(f"{LVS} {self.group} >lvs.json && {PVS} -S vg_name={self.group} >pvs.json")

    def look(self):
        return dict(volumes_of(json.loads(self.do(f"{LVS} {self.group}"))))

    def carry_out(self, wish, unit, planned=Room.planned):
        self.report()
        sums = self.sums()
        carry_out(self.room, f"real LVM, {wish}", wish, unit, self.look(), {it: 63 for it in self.loops}, self.look,
                  planned)
        same(f"real LVM, {wish}: what the volumes hold", self.sums(), sums)

    def sums(self):
        """The digests of the active volumes; where none can be active, of the first bytes of each extent, in the order
        of the volume."""
        found = {} if self.live else {volume: [hashlib.sha256(self.first_bytes(*it)).hexdigest() for it in extents]
                                      for volume, extents in self.look().items()}
        for name in sorted(os.listdir(f"/dev/{self.group}")) if self.live else ():
            with open(f"/dev/{self.group}/{name}", "rb") as file:
                found[name] = hashlib.file_digest(file, "sha256").hexdigest()
        return found

    def first_bytes(self, device, extent, write=None):
        """The first bytes of an extent of 4 MiB; the first one is at 1 MiB, as LVM has it by itself."""
        with open(device, "r+b") as file:
            at = (1 << 20) + (extent << 22)
            return os.pread(file.fileno(), 4096, at) if write is None else os.pwrite(file.fileno(), write, at)

    def fill(self):
        for extents in self.look().values() if not self.live else ():
            for device, extent in extents:
                self.first_bytes(device, extent, os.urandom(4096))
        for name in os.listdir(f"/dev/{self.group}") if self.live else ():
            self.do(f"dd if=/dev/urandom of=/dev/{self.group}/{name} bs=1M 2>&1 | grep -q copied; sync")

    def plain(self):
        """Linear volumes, then stripes, and one that is being moved."""
        a, b, c, *_ = self.loops
        off = "" if self.live else "-an"
        for volume, size, device in (("db", 25, a), ("log", 20, a), ("web", 18, b), ("a+b_c.d-e", 5, c)):
            self.do(f"lvcreate {off} -Zn -Wn -l {size} -n {volume} {self.group} {device}")
        self.do(f"lvextend -l +4 {self.group}/web {c}")
        self.fill()
        self.carry_out(f"--empty {a} --limit 2", 8)
        self.carry_out("--spread", 4)
        self.do(f"lvcreate {off} -Zn -Wn -i2 -l 8 -n stripes {self.group} {b} {c}")
        self.report()
        refused(self.room, "real LVM, stripes", f"contrib/from-lvm lvs.json pvs.json --move stripes={b}",
                "has or gets another leg or stripe of it")
        self.do(f"pvchange -x n {a}")
        self.report()
        refused(self.room, "real LVM, not allocatable", f"contrib/from-lvm lvs.json pvs.json --move stripes={a}",
                f"{a} is not allocatable")
        self.do(f"pvchange -x y {a}")

    def tight(self):
        """Two full devices whose volumes change places, and one with a run of 8 extents free. Beyond its runs no device
        has any extents free."""
        a, b, c = self.loops
        off = "" if self.live else "-an"
        for volume, size, device in (("db", 56, a), ("web", 56, b), ("log", 48, c), ("rest_a", 7, a), ("rest_b", 7, b),
                                     ("rest_c", 7, f"{c}:56-62")):
            self.do(f"lvcreate {off} -Zn -Wn -l {size} -n {volume} {self.group} {device}")
        self.fill()
        self.report()
        said = self.room.run(f"contrib/from-lvm lvs.json pvs.json --move db={b} --move web={a} --unit 8").stderr
        that("real LVM, tight: the form", "the form to use is `migrate plan-tight`" in said, said)
        self.carry_out(f"--move db={b} --move web={a}", 8, Room.planned_tight)
        that("real LVM, tight: an item is parked",
             any(it[3] == os.path.basename(c) for it in sum(shifts_of(self.room.read("plan.txt")), [])))

    def under_way(self):
        """A pvmove that was begun, and is at no end."""
        device, at = re.fullmatch(r"(.+):(\d+)-\d+",
                                  self.do(f"lvs --noheadings --segments -o seg_pe_ranges {self.group}/db").split()[
                                      0]).groups()
        self.do(f'mapfile -t options <<<"$LVM"; /usr/sbin/pvmove "${{options[@]}}" -b -n db {device}:{at}-{at}')
        self.report()
        refused(self.room, "real LVM, a pvmove at work", "contrib/from-lvm lvs.json pvs.json --spread",
                "is being moved: let `pvmove` end it")

    def make_parts(self):
        """Raids, a mirror, stripes and a pool over a raid: made anew, or as they were recorded."""
        devices = " ".join(self.loops)
        if self.live:
            a, b, c, *_ = self.loops
            return self.do(" && ".join(it.format(group=self.group, a=a, b=b, c=c, all=devices) for it in PARTS))
        recorded = page("contrib/samples/lvm/parts/vg").replace("\nparts {", f"\n{self.group} {{")
        self.room.write("vg", recorded)
        for device, id_ in zip(self.loops, re.findall(r'\bpv\d+ { id = "(\S+)"', recorded)):
            self.do(f"pvcreate -qq --restorefile vg --uuid {id_} {device}")
        return self.do(f"vgcfgrestore -qq --force -f vg {self.group}")

    def parts(self):
        a, _, c, *_ = self.loops
        self.make_parts()
        self.fill()
        self.carry_out(f"--empty {a} --limit 2", 16)
        used = dict(line.split() for line in self.do(f"pvs --noheadings -o pv_name,pv_pe_alloc_count -S "
                                                     f"vg_name={self.group}").splitlines())
        same("real LVM says that it is empty", used[a], "0")
        self.do(f"vgreduce {self.group} {a}")
        self.report()
        refused(self.room, "real LVM, legs", f"contrib/from-lvm lvs.json pvs.json --move five_rimage_1={c} --unit 1",
                f"{c} has or gets another leg or stripe of it")


PARTS = ("vgcreate {group} {all}", "lvcreate -Zn -Wn -l 10 -n db {group} {a}",
         "lvcreate --type raid1 -m1 --nosync -y -l 8 -n r {group} {a} {b}",
         "lvcreate --type raid5 -i2 --nosync -y -l 8 -n five {group} {a} {b} {c}",
         "lvcreate --type mirror -m1 --nosync -y -l 6 -n m {group} {a} {b} {c}",
         "lvcreate -Zn -Wn -y -i2 -l 8 -n stripes {group} {a} {b}",
         "lvcreate --type raid1 -m1 --nosync -y -l 5 -n pool {group} {a} {b}",
         "lvconvert -y --type thin-pool {group}/pool", "lvcreate -y -V 40M --thinpool pool -n thin {group}")


@contextlib.contextmanager
def loop_devices(room, count):
    """So many files of 256 MiB behind loop devices; none of them where there are none to have."""
    loops = []
    try:
        for at in range(count):
            room.good("loop", f"truncate -s 256M {at}.img")
            ran = room.run(f"losetup -f --show {at}.img")
            if ran.returncode:
                print(f"note: LVM is tried with recorded outputs alone: {ran.stderr.strip()}")
                break
            loops.append(ran.stdout.strip())
        yield loops if len(loops) == count else []
    finally:
        for loop in loops:
            subprocess.run(["losetup", "-d", loop], check=False)


def real_lvm():
    """The same over the real tools, each group on loop devices of its own."""
    missing = [it for it in ("lvs", "pvs", "pvmove", "vgcreate", "lvcreate", "vgcfgrestore")
               if not os.path.exists(f"/usr/sbin/{it}")]
    if missing or os.geteuid():
        return print(f"note: LVM is tried with recorded outputs alone: "
                     f"{'no ' + missing[0] if missing else 'this is not root'}")
    live = subprocess.run(["dmsetup", "targets"], capture_output=True, check=False).returncode == 0
    for case, count in (Lab.plain, 3), (Lab.parts, 5), (Lab.tight, 3):
        with Room() as room, loop_devices(room, count) as loops:
            if not loops:
                return None
            lab = Lab(room, loops, live)
            try:
                if case is not Lab.parts and room.run(f"vgcreate {lab.group} {' '.join(loops)}").returncode:
                    return print(f"note: LVM is tried with recorded outputs alone: vgcreate fails: "
                                 f"{(room.read('state/said') or '').strip()[-200:]}")
                case(lab)
                if case is Lab.plain and not live:
                    lab.under_way()
            finally:
                if live:
                    room.run(f"vgremove -ff -y {lab.group}")
    return None


CASES = (recorded_lvm, what_reports_know, lvm_of_parts, the_unit_of_lvm, the_script_of_lvm, the_log_of_lvm,
         the_summary_of_lvm, real_lvm)

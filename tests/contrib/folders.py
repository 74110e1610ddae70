"""What from-folders finds, and how run-plan carries a plan out: side by side, killed, with disks that go away and
copies that are wrong; over folders, and over real file systems where this is root and there are loop devices."""
import collections, os, random, shutil, signal, subprocess, time
from copies import disk_at
from rooms import Room, cases, refused, same, that
from waiting import LIMIT, until

MOUNT = """
for disk in $(tail -n +2 examples/disks.csv | cut -d, -f1); do mkdir -p mnt/$disk; touch mnt/$disk/.here; done
tail -n +2 examples/now.csv | while IFS=, read item disk slot; do
    mkdir mnt/$disk/$item; echo "$item" >mnt/$disk/$item/data; done
cp examples/*.csv . && ./migrate plan disks.csv now.csv next.csv plan.txt cert.txt"""
COPY, ERASE = "cp -a mnt/{from}/{item} mnt/{to}/", "--erase 'rm -rf mnt/{from}/{item}'"
GUARD, VERIFY = "--guard 'test -e mnt/{disk}/.here'", "--verify 'diff -r mnt/{from}/{item} mnt/{to}/{item}'"
REAL = ("--guard 'mountpoint -q {disk}' --verify 'diff -r --no-dereference {from}/{item} {to}/{item}' --erase 'rm -rf "
        "{from}/{item}'")


def tree(room):
    """On which disk each item is."""
    found = {}
    for folder, _, names in os.walk(room.path("mnt")):
        for name in names if folder.count("/") > room.path("mnt/disk").count("/") else ():
            disk, item = folder.split("/")[-2:]
            with open(f"{folder}/{name}", encoding="ascii") as file:
                same(f"the contents of {item}", file.read(), f"{item}\n")
            found.setdefault(item, set()).add(disk)
    return found


def wanted_of(room):
    return {item: {disk} for item, disk in room.rows("next.csv")}


def wait_for(room, name):
    """Waits until the file is there."""
    until(lambda: os.path.exists(room.path(name)), name)


def at_rest(run):
    """What a run gives once no command of an earlier one is at work any more."""
    return until(lambda: None if "still at work" in (ran := run()).stderr else ran,
                 "the commands of an earlier run to end")


# The runner

def the_runner(room):
    room.good("run-plan", MOUNT)
    start, rounds, wanted = tree(room), room.shifts(), wanted_of(room)
    words = f"{GUARD} {VERIFY} {ERASE} plan.txt {COPY}"
    lines = ["# guard", *(f"test -e mnt/{it}/.here" for it in dict.fromkeys(disk for shifts in rounds for it in shifts
                                                                            for disk in it[1:4:2]))]
    for at, shifts in enumerate(rounds, 1):
        lines += [f"# round {at}, copy", *(f"cp -a mnt/{it[1]}/{it[0]} mnt/{it[3]}/" for it in shifts)]
        lines += [f"# round {at}, verify", *(f"diff -r mnt/{it[1]}/{it[0]} mnt/{it[3]}/{it[0]}" for it in shifts)]
        lines += [f"# round {at}, erase", *(f"rm -rf mnt/{it[1]}/{it[0]}" for it in shifts)]
    same("run-plan --dry-run", room.good("run-plan", f"contrib/run-plan --dry-run {words}"), "\n".join([*lines, ""]))
    big = room.run(f"contrib/run-plan --dry-run plan.txt sh -c {'x' * 100000} {{item}} | head -n 1; echo "
                   f"${{PIPESTATUS[0]}}")
    same("--dry-run, whose reader goes early", (big.stdout, big.stderr), ("# round 1, copy\n0\n", ""))
    that("--dry-run does nothing", tree(room) == start and room.read("plan.txt.place") is None)
    # the second round's first source is away: the others go on, and the place is kept
    item, source = rounds[1][0][:2]
    room.good("run-plan", f"mv mnt/{source}/{item} away")
    room.says("a copy that fails stops it", f"contrib/run-plan {words}",
              f"not copied 2 {item}: status 1: cp -a mnt/{source}/{item}", "stopped in round 2 of 3", status=1)
    found = tree(room)
    for name, *_, target, _ in rounds[0]:
        same(f"round 1 is done: {name}", found[name], {target})
    for name, old, _, target, _ in rounds[1][1:]:
        same(f"round 2, the others: {name}", found[name], {old, target})
    room.good("run-plan", f"mv away mnt/{source}/{item}")
    ran = room.run(f"contrib/run-plan {words}")
    that("it goes on there", ran.returncode == 0 and ran.stdout.startswith("round 2 of 3: 1 to be copied\n"), ran)
    same("all is where it is to be", tree(room), wanted)
    ran = room.run(f"contrib/run-plan {words}")
    same("once more", (ran.returncode, ran.stdout), (0, "all 3 rounds are carried out\n"))
    room.good("run-plan, a disk that is no folder here",
              "sleep 0.2 & exec alone/run-plan --place other plan.txt true remote:{from}/{item}")
    room.write("plan2.txt", room.read("plan.txt").replace("db2 ssd1 1 ssd2 2", "db2 ssd1 1 ssd2 3"))
    room.says("the place of another plan", f"contrib/run-plan --place plan.txt.place plan2.txt {COPY}",
              "keeps the place of another plan", status=1)


def side_by_side(room):
    """A round after the other, and all of a round at once; at most as many as --jobs says."""
    room.good("run-plan", MOUNT)
    for at, shifts in enumerate(room.shifts(), 1):
        room.write(f"count{at}", str(len(shifts)))
    # a job waits until all of its round have begun; with two at once until one more has than when it began, if
    # there is one, and a while then
    room.write("job", "#!/bin/sh\necho begin $1 $2 >>log\nall=$(cat count$1)\n"
               "[ -z \"$3\" ] || { at=$(grep \"^begin $1 \" log | grep -n \" $2\\$\" | cut -d: -f1); [ $at -ge "
               "$all ] || all=$((at + 1)); }\n"
               "until [ $(grep -c \"^begin $1 \" log) -ge $all ] || [ ! -e job ]; do sleep 0.1; done\n[ -z \"$3\" "
               "] || sleep 0.2\necho end $1 $2 >>log\n")
    for jobs, most in (("", None), ("--jobs 2", 2)):
        room.good("run-plan", f"rm -f log plan.txt.place; contrib/run-plan {jobs} plan.txt sh job {{round}} {{item}} "
                  f"'{most or ''}'")
        rounds, at, most_at_once, order = room.shifts(), 0, 0, []
        for line in room.read("log").splitlines():
            at += 1 if line.startswith("begin") else -1
            most_at_once = max(most_at_once, at)
            order.append(line.split()[1][0])
        same(f"side by side {jobs}", most_at_once, most or max(map(len, rounds)))
        same(f"one round after the other {jobs}", order, sorted(order))


def killed_or_stopped():
    with Room() as room:  # killed in the middle, while a command runs on
        room.good("run-plan", MOUNT)
        room.write("job", "#!/bin/sh\ncp -a mnt/$1/$2 mnt/$3/ && touch begun && until [ -e go ]; do sleep 0.1; done\n")
        begun = subprocess.Popen(["alone/run-plan", "plan.txt", "sh", "job", "{from}", "{item}", "{to}"], cwd=room.at,
                                 env=room.env, stdout=subprocess.DEVNULL, stderr=subprocess.DEVNULL,
                                 start_new_session=True)
        wait_for(room, "begun")
        begun.kill()
        begun.wait()
        room.says("no second one beside a command of the first", f"contrib/run-plan plan.txt {COPY}",
                  "still at work with plan.txt.place", status=1)
        room.write("go", "")
        until(lambda: room.run(f"contrib/run-plan {ERASE} plan.txt {COPY}").returncode == 0,
              "the commands of the first to end")
        same("killed and begun again, all is where it is to be", tree(room), wanted_of(room))
        place = room.read("plan.txt.place")
        room.write("plan.txt.place", place[: place.rindex("\n", 0, len(place) - 1) + 4])
        room.good("run-plan", f"contrib/run-plan {ERASE} plan.txt true {{item}}")
        same("a line that was cut off is written again", set(room.read("plan.txt.place").splitlines()),
             set(place.splitlines()))
    with Room() as room, open(room.path("notes"), "wb") as notes:  # stopped by a signal
        room.good("run-plan", MOUNT)
        begun = subprocess.Popen(["alone/run-plan", "--jobs", "1", "plan.txt", "sh", "-c",
                                  "touch begun; until [ -e go ]; do sleep 0.1; done # {item}"], cwd=room.at,
                                 env=room.env, stdout=subprocess.DEVNULL, stderr=notes, start_new_session=True)
        wait_for(room, "begun")
        begun.send_signal(signal.SIGTERM)
        until(lambda: "waiting for the transfers that run" in room.read("notes"), "the signal to come")
        room.write("go", "")
        begun.wait(LIMIT)
        said = room.read("notes")
        that("stopped by a signal", begun.returncode == 130 and "waiting for the transfers that run" in said
             and "begin again" in said, (begun.returncode, said))
        same("what ran is kept", len(room.read("plan.txt.place").splitlines()), 2)


# Disks that go away, copies that are wrong

# carries out a transfer's command, and takes a disk away before or after it, as the file `take` says, once: an empty
# folder is left
AT = """gone() { [ "$(cat take 2>/dev/null)" != "$1" ] || { rm take; mv mnt/$2 gone; mkdir mnt/$2; }; }
case $1 in
copy) do="cp -a mnt/$4/$3 mnt/$5/";;
verify) do="diff -r mnt/$4/$3 mnt/$5/$3";;
erase) do="rm -rf mnt/$4/$3";;
esac
gone "before $1 $2 from" $4; gone "before $1 $2 to" $5
$do; status=$?
gone "after $1 $2 from" $4; gone "after $1 $2 to" $5
exit $status
"""
MOMENTS = cases("""
    before copy | to
    before copy | from
    after copy | to
    before verify | to
    before verify | from
    before erase | to
    after erase | from""")
STEP = "sh at {} {{round}} {{item}} {{from}} {{to}} mnt/{{from}}/{{item}}"


def bring_back(room, disk):
    """The disk is mounted again; what was copied below its mount point is hidden then."""
    shutil.rmtree(room.path(f"mnt/{disk}"))
    os.rename(room.path("gone"), room.path(f"mnt/{disk}"))


def a_disk_goes_away():
    """At each round, before, in the middle of and after each kind of command: nothing is lost, and the run goes on from
    its place."""
    with Room() as room:
        room.good("run-plan", MOUNT)
        room.write("at", AT)
        rounds, wanted = room.shifts(), wanted_of(room)
        words = (f"{GUARD} --verify '{STEP.format('verify')}' --erase '{STEP.format('erase')}' --jobs 1 plan.txt "
                 f"{STEP.format('copy')}")
        disk = rounds[0][0][1]
        room.good("run-plan", f"mv mnt/{disk} gone && mkdir mnt/{disk}")
        refused(room, "a disk is away before anything begins", f"contrib/run-plan {words}",
                f"disk {disk} is not as --guard asks: test -e mnt/{disk}/.here: status 1\nrun-plan: nothing was begun")
        bring_back(room, disk)
        for at, shifts in enumerate(rounds, 1):
            for kind, end in MOMENTS if at == 1 else MOMENTS[::5]:
                moment = f"{kind} {at} {end}"
                room.write("take", f"{moment}\n")
                ran = room.run(f"contrib/run-plan {words}")
                gone = [it for it in os.listdir(room.path("mnt")) if not os.path.exists(room.path(f"mnt/{it}/.here"))]
                that(f"{moment}: it stops", ran.returncode == 1 and len(gone) == 1
                     and f"disk {gone[0]} is not as --guard asks: test -e" in ran.stderr
                     and f"stopped in round {at} of 3" in ran.stderr, ran)
                bring_back(room, gone[0])
                found = tree(room)
                same(f"{moment}: nothing is lost", set(found), set(wanted))
                if "erase" not in kind:
                    same(f"{moment}: nothing is removed", [it[0] for it in shifts if it[1] not in found[it[0]]], [])
        room.good("run-plan", f"contrib/run-plan {words}")
        same("in the end all is where it is to be", tree(room), wanted)
    with Room() as room:  # a disk that goes away between two commands, which are of other disks
        room.good("run-plan", MOUNT)
        shifts = room.shifts()[0]
        first, *rest = shifts
        item, source, _, target, _ = next(it for it in rest if it[3] not in (first[1], first[3]))
        room.says("nothing of a disk that is away is removed",
                  f"contrib/run-plan {GUARD} {VERIFY} --erase 'sh -c \"rm -rf mnt/{{from}}/{{item}}; [ {{item}} != "
                  f"{first[0]} ] || mv mnt/{target} gone\"' --jobs 1 plan.txt {COPY}",
                  f"disk {target} is not as --guard asks", status=1)
        that("nothing of a disk that is away is removed", source in tree(room)[item])


def a_copy_is_wrong():
    with Room() as room:
        room.good("run-plan", MOUNT)
        shifts = room.shifts()[0]
        item, source, _, target, _ = shifts[1]
        start = tree(room)
        ran = room.says("a copy that is wrong stops it",
                        f"contrib/run-plan {VERIFY} {ERASE} plan.txt sh -c '{COPY} && {{ [ {{item}} != {item} ] || rm "
                        f"mnt/{{to}}/{{item}}/data; }}'",
                        f"not verified 1 {item}: status 1: diff -r mnt/{source}/{item} mnt/{target}/{item}\n", status=1)
        that("a copy that is wrong stops it", "erased" not in ran.stdout, ran)
        found = tree(room)
        that("nothing of its round is removed", all(start[it] <= found[it] for it in start), found)
        ran = room.run(f"contrib/run-plan {VERIFY} {ERASE} plan.txt {COPY}")
        that("it alone is copied again", ran.returncode == 0
             and ran.stdout.startswith(f"round 1 of 3: 1 to be copied\nround 1 of 3: {len(shifts)} to be "
                                       f"verified\n"), ran)
        same("a wrong copy, copied again", tree(room), wanted_of(room))
    with Room() as room:  # what was verified in an earlier run is looked at again before it is removed
        room.good("run-plan", MOUNT)
        room.says("what cannot be removed stops it",
                  f"contrib/run-plan {VERIFY} --erase 'sh -c \"exit 1\" {{item}}' --jobs 1 plan.txt {COPY}",
                  f"not erased 1 {shifts[0][0]}: status 1", status=1)
        room.write("plan.txt.place", "".join(line for line in room.read("plan.txt.place").splitlines(True)
                                             if not line.startswith("erasing")))
        room.good("run-plan", f"rm -r mnt/{target}/{item}")
        room.says("a copy that went away meanwhile", f"contrib/run-plan {VERIFY} {ERASE} plan.txt {COPY}",
                  f"not verified 1 {item}: status 2", status=1)
        that("a copy that went away meanwhile", source in tree(room)[item])


def whole(room):
    """On which disks each item is with all of its files."""
    found = collections.defaultdict(set)
    for disk in os.listdir(room.path("mnt")):
        for item in os.listdir(room.path(f"mnt/{disk}")):
            parts = [room.read(f"mnt/{disk}/{item}/{it}") for it in ("data", "more")] if item != ".here" else [None]
            if parts == [f"{item}\n" * 20000] * 2:
                found[item].add(disk)
    return found


def killed_at_random(room):
    """With guards and verification, with --eager and without it; alone, or with all its commands, as where the machine
    goes down; and disks go away meanwhile."""
    chance = random.Random(7)
    room.good("run-plan", MOUNT
              + "; for it in mnt/*/*/data; do yes \"$(cat $it)\" | head -n 20000 >more; cp more $it; mv more "
              "${it%data}more; done")
    wanted, counts = wanted_of(room), collections.Counter()
    same("all items are there", set(whole(room)), set(wanted))
    words = ["alone/run-plan", "--guard", "test -e mnt/{disk}/.here", "--verify",
             "diff -r mnt/{from}/{item} mnt/{to}/{item}", "--erase", "rm -rf mnt/{from}/{item}", "--jobs", "2",
             "plan.txt", "sh", "-c",
             "cp -a mnt/{from}/{item} mnt/{to}/ && sleep 0.3 && until [ ! -e hold ]; do sleep 0.1; done"]
    room.write("hold", "")  # what the first kill meets cannot have ended by itself
    for at in range(15):
        begun = subprocess.Popen([words[0], *["--eager", "disks.csv"] * (at % 2), *words[1:]], cwd=room.at,
                                 env=room.env, stdout=subprocess.DEVNULL, stderr=subprocess.PIPE,
                                 start_new_session=True)
        time.sleep(0.1 + chance.random() / 4)
        disk = chance.choice(os.listdir(room.path("mnt"))) if chance.random() < 0.5 else None
        if disk:
            os.rename(room.path(f"mnt/{disk}"), room.path("gone"))
            os.mkdir(room.path(f"mnt/{disk}"))
            time.sleep(0.1)
        kill = os.killpg if chance.random() < 0.5 else os.kill  # with all its commands, or alone
        kill(begun.pid, signal.SIGKILL)
        room.run("rm -f hold")
        begun.communicate()
        counts[begun.returncode] += 1
        if disk:
            room.run("flock plan.txt.place true")  # a command that runs on has not the disk back under its hands
            bring_back(room, disk)
        lost = set(wanted) - set(whole(room))
        if not that(f"nothing is lost after kill {at + 1}", not lost, (lost, counts)):
            return
    ran = at_rest(lambda: subprocess.run(words, cwd=room.at, env=room.env, capture_output=True, text=True, check=False))
    that("it ends well after all kills", ran.returncode == 0, (ran, counts))
    same("after all kills", whole(room), wanted)
    that("kills met it at work", counts[-9] > 0, counts)


def the_place_is_lost(room):
    room.good("run-plan", MOUNT)
    rounds, wanted = room.shifts(), wanted_of(room)
    item, source = rounds[1][0][:2]
    room.good("run-plan", f"mv mnt/{source}/{item} away")
    room.run(f"contrib/run-plan {ERASE} plan.txt {COPY}")
    room.good("run-plan", f"mv away mnt/{source}/{item}; mv plan.txt.place kept")
    done, count = len(rounds[0]), len(rounds[0]) + len(rounds[1]) - 1
    first = f"mnt/{rounds[0][0][3]}/{rounds[0][0][0]}"
    said = (f"no place is kept in plan.txt.place, but {count} of {sum(map(len, rounds))} items are at their "
            f"target, the first one as {first}; {done} of them have left their source")
    for words in (f"{ERASE} plan.txt {COPY}", f"{GUARD} {VERIFY} {ERASE} plan.txt {COPY}", f"plan.txt {COPY}"):
        refused(room, "the place is lost", f"contrib/run-plan {words}", said)
    room.write("plan.txt.place", "")
    refused(room, "the place is empty", f"contrib/run-plan {ERASE} plan.txt {COPY}", said)
    # a place that is written by hand
    room.good("run-plan", "echo plan $(sha256sum <plan.txt | cut -d' ' -f1) >plan.txt.place")
    with open(room.path("plan.txt.place"), "a", encoding="ascii") as file:
        file.write("".join(f"{what} 1 {it[0]}\n" for it in rounds[0] for what in ("copied", "erased")))
    ran = room.run(f"contrib/run-plan {ERASE} plan.txt {COPY}")
    that("a place by hand",
         ran.returncode == 0 and ran.stdout.startswith(f"round 2 of 3: {len(rounds[1])} to be copied\n"), ran)
    same("a place by hand: all is where it is to be", tree(room), wanted)


# Folders

ODD = {"Fotos März 2020": "Fotos-Marz-2020-", "-rf": "rf-", "it's \"quoted\" $HOME `id`": "it-s-quoted-HOME-id-",
       "*": "folder-", "{item}": "item-", "a,b;c": "a-b-c-", " lead and trail ": "lead-and-trail-",
       "back\\slash": "back-slash-", "x" * 255: "x" * 25 + "-", "ä" * 127: "a" * 25 + "-", "日本": "folder-"}
PLAIN = ["plain", "...", ".hidden", "x" * 32, "0", "a_b-c.d"]


def contents(room):
    """All that is below each item: names, kinds, modes and bytes."""
    found = {}
    for path in sorted(room.run("find mnt -mindepth 3 -printf '%p\\n'").stdout.splitlines()):
        at = room.path(path)
        kept = os.readlink(at) if os.path.islink(at) else sorted(os.listdir(at)) if os.path.isdir(at) else room.read(
            path)
        found.setdefault(path.split("/")[2], []).append((path.split("/")[3:], os.lstat(at).st_mode, kept))
    return found


def names_in(room, path="names.csv"):
    rows = room.rows(path)
    return [{real: (name, bytes_) for kind, name, real, bytes_ in rows if kind == wanted}
            for wanted in ("disk", "item")]


def digits_of(text):
    return subprocess.run(["sha256sum"], input=text.encode(), capture_output=True, check=True).stdout.decode()[:6]


def odd_folders(room):
    for at, name in enumerate([*ODD, *PLAIN]):
        os.makedirs(room.path(f"mnt/disk {at % 3}/{name}/sub/empty"))
        room.write(f"mnt/disk {at % 3}/{name}/sub/data", name * (at * 100))
        os.link(room.path(f"mnt/disk {at % 3}/{name}/sub/data"), room.path(f"mnt/disk {at % 3}/{name}/again"))
        os.symlink("nowhere", room.path(f"mnt/disk {at % 3}/{name}/link"))
    room.good("folders",
              "mkdir -p mnt/empty/lost+found 'mnt/disk 0/lost+found'; echo file >'mnt/disk 0/a file'; cp -a 'mnt/disk "
              "1/{item}' 'mnt/disk 2/{item}'")


def the_folders(room):
    odd_folders(room)
    room.good("folders", "contrib/from-folders mnt/* --limit 2 --limit mnt/empty=3 --slots empty=9")
    same("without a wish all stays", room.read("next.csv"),
         "".join(line.rpartition(",")[0] + "\n" for line in room.read("now.csv").splitlines()))
    room.good("folders", "touch mnt/empty/lost+found/#12")
    that("what was found again stays", "mnt/empty/lost+found is not empty, and stays\n"
         in room.run("contrib/from-folders mnt/* --into examples").stderr)
    disks, names = names_in(room)
    same("each folder and file has a row", collections.Counter(map(os.path.basename, names)),
         collections.Counter([*ODD, *PLAIN, "a file", "{item}"]))
    for path, (name, bytes_) in names.items():
        real = os.path.basename(path)
        digits = digits_of(path if real == "{item}" else real)
        wanted = real if real in PLAIN else {**ODD, "a file": "a-file-"}[real] + digits
        same(f"the name of {real}", name, wanted)
        du = subprocess.run(["du", "-s", "--block-size=1", "--", path], cwd=room.at, capture_output=True, text=True,
                            check=True)
        same(f"the bytes of {name}", bytes_, du.stdout.split("\t")[0])
    wanted = [[f"disk-{it}-{digits_of(f'disk {it}')}", "2", str(len(names))] for it in range(3)] + [["empty", "3", "9"]]
    same("the disks, also the empty one, their limits and slots", room.rows("disks.csv"), wanted)
    os.rename(room.path("mnt/disk 2/{item}"), room.path("mnt/disk 2/another"))
    room.good("folders",
              "contrib/from-folders --spread --empty 'disk 0' --limit 2 --move 'mnt/disk 1/-rf=mnt/disk 2' mnt/*")
    disks, names = names_in(room)
    next_ = dict(room.rows("next.csv"))
    counts = collections.Counter(next_.values())
    that("--spread and --empty", disks["mnt/disk 0"][0] not in counts and max(counts.values()) - min(counts.values())
         <= 2 and len(counts) == 3, counts)
    same("--move", next_[names["mnt/disk 1/-rf"][0]], disks["mnt/disk 2"][0])
    start = contents(room)
    room.planned("folders")
    room.good("folders",
              f"contrib/run-plan --names names.csv {REAL.replace('mountpoint -q', 'test -d')} plan.txt cp -a "
              f"{{from}}/{{item}} {{to}}/")
    same("odd names: nothing is lost or changed", contents(room), start)
    room.says("what is no folder, file or link",
              "mkfifo mnt/empty/pipe; contrib/from-folders mnt/*; status=$?; rm mnt/empty/pipe; exit $status",
              "mnt/empty/pipe is neither a folder, a file nor a link", status=1)
    room.good("folders", "mkdir found && contrib/from-folders --into found mnt/*")
    same("odd names: all is where it is to be, under the same names",
         {item: disk for item, disk, _ in room.rows("found/now.csv")}, next_)


# Real file systems

def real_folders():
    """Three file systems: one is unmounted before and in the middle, one is full, one loses what is written to it."""
    if os.geteuid() or not shutil.which("mkfs.ext4") or not shutil.which("losetup"):
        return print("note: folders are tried without mounts alone: this is not root, or there is no mkfs.ext4 or "
                     "losetup")
    loops = {}
    with Room() as room:
        try:
            room.good("real disks",
                      "rm bin/mount bin/mountpoint bin/umount; mkdir state/thin && mount -t tmpfs -o size=3M none "
                      "state/thin")
            for name, image in (("a", "state/a.img"), ("b", "state/b.img"), ("thin", "state/thin/image")):
                loops[name] = disk_at(room, name, image)
                if loops[name] is None:
                    return
            try_real_folders(room, loops)
        finally:
            room.run("umount -l mnt/*; umount -l state/thin")
            for loop in filter(None, loops.values()):
                subprocess.run(["losetup", "-d", loop], check=False)


def try_real_folders(room, loops):
    carry_out, copy = f"contrib/run-plan --names names.csv {REAL}", "plan.txt cp -a {from}/{item} {to}/"
    for at in range(3):
        room.write(f"mnt/a/item {at}", random.Random(at).randbytes(1500000))
    start = {it: room.read(f"mnt/a/{it}") for it in ("item 0", "item 1", "item 2")}

    def stand(disk):
        return {it: room.read(f"mnt/{disk}/{it}")
                for it in os.listdir(room.path(f"mnt/{disk}")) if it.startswith("item")}

    room.good("real disks",
              "contrib/from-folders mnt/a mnt/b mnt/thin --mounted --empty a --slots thin=1 --move 'item 0=b' --move "
              "'item 1=b' --move 'item 2=b'")
    same("lost+found is no item", len(room.rows("now.csv")), 3)
    room.planned("real disks")
    room.good("real disks", "umount mnt/b")
    refused(room, "real disks, one is not mounted", f"{carry_out} {copy}",
            "disk b is not as --guard asks: mountpoint -q mnt/b: status 32\nrun-plan: nothing was begun")
    refused(room, "real disks, --mounted", "contrib/from-folders mnt/a mnt/b --mounted", "nothing is mounted at mnt/b")
    room.good("real disks", f"mount {loops['b']} mnt/b")
    room.says("real disks, one is unmounted in the middle",
              f"{carry_out} plan.txt sh -c 'umount -l \"$1\" && cp -a \"$0\" \"$1\"/' {{from}}/{{item}} {{to}}",
              "disk b is not as --guard asks", status=1)
    that("real disks, one is unmounted in the middle", stand("a") == start and len(stand("b")) == 1)
    room.good("real disks", f"rm mnt/b/item*; mount {loops['b']} mnt/b")
    same("real disks, nothing came to the one that was unmounted", stand("b"), {})
    room.good("real disks", "head -c 5M /dev/zero >mnt/b/filler")
    refused(room, "real disks, one has too few bytes", "contrib/from-folders mnt/a mnt/b --empty a",
            "there is no room on mnt/b: 4500480 bytes are to come to it, and ")
    room.says("real disks, one is full", f"{carry_out} {copy}", "No space left on device", status=1)
    that("real disks, one is full", {**stand("b"), **stand("a")} == start)
    room.good("real disks", "rm mnt/b/filler")
    room.good("real disks, the full one has room again", f"{carry_out} {copy}")
    same("real disks, all is where it is to be", (stand("a"), stand("b")), ({}, start))
    room.good("real disks",
              "rm plan.txt.place; contrib/from-folders mnt/a mnt/b mnt/thin --mounted --move 'item 0=thin' --move "
              "'item 1=thin' --move 'item 2=thin' --limit 3")
    room.planned("real disks")
    ran = room.run(f"{carry_out} {copy}")
    that("real disks, one loses what is written to it",
         ran.returncode == 1
         and any(it in ran.stderr
                 for it in ("what was written to disk thin did not reach it", "not copied 1 item-"))
         and stand("b") == start, ran)


# Folders in units

TREE = """mkdir -p mnt/a/media/films/{x,y} mnt/a/media/music mnt/a/small mnt/b/media/clips mnt/b/odd mnt/c/media
for it in a/media/films/x:80 a/media/films/y:84 a/media/music:60 a/small:20 b/media/clips:40 b/odd:12; do
    yes $it | head -c ${it#*:}000 >mnt/${it%:*}/data; done
echo note >mnt/a/media/note; ln -s note mnt/a/media/link"""
INSIDE = """sh -c 'cd "$1" && cp -a --parents "./$2" "$3"/' sh {from} {item} {to}"""
UNITS = "--verify 'diff -r --no-dereference {from}/{item} {to}/{item}' --erase 'rm -rf {from}/{item}' --names names.csv"


def told_of(room):
    """The path inside its disk of each item of names.csv; the disk that each is on by now.csv."""
    rows, top = room.rows("names.csv"), f"{room.at}/mnt/"
    return {row[1]: row[2].removeprefix(top).partition("/")[2] for row in rows if row[0] == "item"}, {
        it: disk for it, disk, _ in room.rows("now.csv")}


def files_below(room):
    """The bytes of each file below the disks, and the disks that have it."""
    found = collections.defaultdict(set)
    for folder, _, names in os.walk(room.path("mnt")):
        for it in names:
            _, disk, *inside = os.path.relpath(f"{folder}/{it}", room.at).split("/")
            data = os.readlink(f"{folder}/{it}") if os.path.islink(f"{folder}/{it}") else room.read(
                os.path.relpath(f"{folder}/{it}", room.at))
            found["/".join(inside), data].add(disk)
    return found


def units_of_folders():
    with Room() as room:
        room.good("units", TREE)
        words = 'contrib/from-folders "$PWD"/mnt/* --unit 100K'
        ran = room.run(f"{words} --empty a")
        paths, now = told_of(room)
        that("the folders that are split", ran.returncode == 0 and {(now[it], path) for it, path in paths.items()}
             == {("a", it) for it in ("media/films/x", "media/films/y", "media/music", "media/note", "media/link",
                                      "small")} | {("b", "media/clips"), ("b", "odd")}, (ran, paths))
        last, before = room.planned("units"), files_below(room)
        that("nothing stays on a", {disk for disk, _ in last.values()} == {"b", "c"}, last)
        refused(room, "a copy to the top", "contrib/run-plan --names names.csv plan.txt cp -a {from}/{item} {to}/",
                "to the top of a disk, and not into its folder")
        refused(room, "another one", "contrib/run-plan --names names.csv plan.txt cp -rp {from}/{item} {to}",
                "to the top of a disk, and not into its folder")
        room.good("units", f"contrib/run-plan {UNITS} plan.txt {INSIDE}")
        same("each file is where it is to be", files_below(room),
             {(inside, data): {last[next(it for it, path in paths.items() if f"{inside}/".startswith(f"{path}/"))][0]}
              for inside, data in before})
        room.good("units", f"find mnt/a -mindepth 1 -type d -empty -delete; {words}")
        same("the same items are found there", told_of(room), (paths, {it: disk for it, (disk, _) in last.items()}))
        same("other words for the disks",
             room.good("units",
                       "mkdir again && cd again && ../contrib/from-folders ../mnt/* --unit 100K && cut -d, -f1 "
                       "now.csv | sort | cmp - <(cut -d, -f1 ../now.csv | sort)"), "")
    with Room() as room:
        room.good("units", TREE)
        for words, said in cases("""
                --move media=c | there are several items media
                --move mnt/a/media=c --move mnt/a/media/music=b | --move is given twice for mnt/a/media/music
                --move mnt/a/media=c --empty c | which is to be emptied
                --move films/x=c | there is no item films/x
                --unit 0 | invalid amount value"""):
            refused(room, words, f"contrib/from-folders mnt/* --unit 100K {words}", said, 2 if "--unit" in words else 1)
        room.good("units", "contrib/from-folders mnt/* --unit 100K --move mnt/a/media=c")
        next_, (paths, _) = dict(room.rows("next.csv")), told_of(room)
        names = {row[1]: row[2] for row in room.rows("names.csv") if row[0] == "item"}
        same("--move of a folder that is split",
             {it: disk for it, disk in next_.items() if names[it].startswith("mnt/a/media/")},
             {it: "c" for it in names if names[it].startswith("mnt/a/media/")})
        for make, words, said in cases("""
                mkdir mnt/a/media/clips | --move mnt/a/media/clips=b | mnt/a/media/clips and mnt/b/media/clips have \
                    one name, and mnt/b/media/clips can only be one of them
                rmdir mnt/a/media/clips mnt/c/media && echo >mnt/c/media | --move music=c | mnt/a/media/music would \
                    come into mnt/c/media, which is an item of its own there
                ln mnt/b/media/clips/data mnt/b/media/same | --move mnt/b/media=a | mnt/b/media would come to \
                    mnt/a/media, where mnt/a/media/"""):
            room.good("units", make)
            refused(room, words, f"contrib/from-folders mnt/* --unit 100K {words}", said)
        room.says("hard links keep a folder whole", "contrib/from-folders mnt/* --unit 100K",
                  "mnt/b/media is not split: a file has names in several of its parts")
        # what can be no item keeps the folder whole that has it
        room.good("units",
                  "rm mnt/b/media/same; mkfifo mnt/a/media/films/pipe; mkdir mnt/a/media/many; cd mnt/a/media/many; "
                  "head -c 200000 /dev/zero >0; echo >1; python3 -c 'import os; [os.link(\"1\", str(it)) for it in "
                  "range(2, 4098)]'")
        ran = room.says("a pipe does so", "contrib/from-folders mnt/* --unit 100K",
                        "mnt/a/media/films is not split: mnt/a/media/films/pipe is neither a folder, a file nor a link")
        that("many parts do so", "mnt/a/media/many is not split: it has 4098 parts, more than 4096" in ran.stderr, ran)
        room.good("units", "contrib/from-folders mnt/*")
        same("without --unit nothing is split", {row[2] for row in room.rows("names.csv") if row[0] == "item"},
             {"mnt/a/media", "mnt/a/small", "mnt/b/media", "mnt/b/odd", "mnt/c/media"})
    with Room() as room:
        room.good("units", "mkdir -p mnt/a/all mnt/b; for it in 1 2 3 4 5 6 7 8; do mkdir mnt/a/all/$it; head -c 60000 "
                  "/dev/zero >mnt/a/all/$it/data; done")
        refused(room, "one folder", "contrib/from-folders mnt/* --balance 10 --size 1M",
                "not each disk can be filled to the same part")
        room.good("units", "contrib/from-folders mnt/* --balance 10 --size 1M --unit 100K")
        same("as few of its parts as can be", collections.Counter(disk for _, disk in room.rows("next.csv")),
             {"a": 5, "b": 3})
        room.planned("units")


CASES = (the_runner, side_by_side, killed_or_stopped, a_disk_goes_away, a_copy_is_wrong, killed_at_random,
         the_place_is_lost, the_folders, units_of_folders, real_folders)

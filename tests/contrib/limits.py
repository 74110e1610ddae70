"""Tries the scripts with an outgoing and an incoming limit for each disk: what from-ceph, from-lvm and from-folders
write and how it is planned, what summary and picture say, and how run-plan --eager begins transfers, by such limits and
by joint ones. What is right is counted by limits_model.py."""
import collections, itertools, os, random, re
import xml.etree.ElementTree as xml
from clocked import START, carried_out
from folders import COPY, ERASE, GUARD, MOUNT, VERIFY, tree, wanted_of
from limits_model import Case, plan_text
from rooms import Room, cases, plan_of, refused, same, that

SPLIT = "disk,out,in,slots\n"


# What the scripts write

def split_lvm(room):
    room.good("LVM", "cp contrib/samples/lvm/*.json . && contrib/from-lvm lvs.json pvs.json --empty loop0 --unit 16 "
              "--limit 1,2 --limit loop1=3,4")
    same("from-lvm writes both limits", room.read("disks.csv"), f"{SPLIT}loop0,1,2,15\nloop1,3,4,15\nloop2,1,2,15\n")
    room.good("LVM", "contrib/from-lvm lvs.json pvs.json --empty loop0 --unit 16 --limit loop1=3,4")
    same("from-lvm, the others have 1 and 1", room.read("disks.csv"),
         f"{SPLIT}loop0,1,1,15\nloop1,3,4,15\nloop2,1,1,15\n")
    for words, said in cases("""
            --limit 2 --limit loop1=1,2 | --limit: loop0 has one limit and loop1 has two; write OUT,IN for each disk
            --limit 1,0 | --limit: '0' is no number from 1 to 1024
            --limit 1,1 --limit 2,2 | --limit is given twice
            --limit loop1=, | --limit: '' is no number"""):
        refused(room, "from-lvm", f"contrib/from-lvm lvs.json pvs.json --empty loop0 {words}", said)


def split_folders(room):
    room.good("folders",
              "mkdir -p mnt/{a,b,c} mnt/a/{x,y,z} && contrib/from-folders mnt/* --empty a --limit 2,1 --limit b=1,3")
    same("from-folders writes both limits", room.read("disks.csv"), f"{SPLIT}a,2,1,3\nb,1,3,3\nc,2,1,3\n")
    room.planned("folders")
    room.good("folders",
              "contrib/run-plan --names names.csv --eager disks.csv --erase 'rmdir {from}/{item}' plan.txt cp -a "
              "{from}/{item} {to}/")
    that("all is where it is to be", not os.listdir(room.path("mnt/a")) and {it[0] for it in room.rows("next.csv")}
         == {*os.listdir(room.path("mnt/b")), *os.listdir(room.path("mnt/c"))})
    for words, said in cases("""
            --limit 1,2 --limit c=1 | --limit: c has one limit and a has two; write OUT,IN for each disk
            --limit 1,x | --limit: 'x' is no number from 1 to 1024
            --slots 1,2 | --slots: '1,2' is no number"""):
        refused(room, "from-folders", f"contrib/from-folders mnt/* {words}", said)


# Sums and pictures

DISKS = f"{SPLIT}a,2,1,4\nb,1,1,4\nc,1,2,9\n"
# b gets three, one in each round; a gives three, two of them in one round; in the second c gets two
PLAN = plan_of("x a 0 b 0, y a 1 c 0", "z a 2 c 1, w b 3 c 2, v c 8 b 1", "u c 7 b 2")
CERT = "migration-certificate 2\nrounds 3\nquotient 3\nclass duplex\nbound side b in 3 1 3\nend\n"
SUMMARY = """busiest disks
  b: 1 outgoing, limit 1, 3 incoming, limit 1, needs 3 rounds
  c: 2 outgoing, limit 1, 3 incoming, limit 2, needs 2 rounds
  a: 3 outgoing, limit 2, 0 incoming, limit 1, needs 2 rounds
"""


def split_summary(room):
    room.write("d", DISKS)
    room.write("p", PLAN)
    that("summary", room.good("summary", "contrib/summary p d").endswith(SUMMARY),
         room.run("contrib/summary p d").stdout)
    room.write("n", "item,disk,slot\n" + "".join(f"{it},a,{at}\n" for at, it in enumerate("zyxwvu")))
    # z and y leave a at once, and w finds no place at c; x waits for a; v and u for the limit of c
    same("a queue", room.good("summary", "contrib/summary p d --queue n").splitlines()[-1],
         "rounds of first come, first served 3")
    for seed in range(20):  # made cases: the queue's rounds are those of the model
        made_case(room, random.Random(seed), is_split=seed % 4 > 0)
        case = Case(room.read)
        rounds = case.first_come()
        room.write("plan.txt", plan_text(rounds))
        lines = room.good("summary", "contrib/summary plan.txt disks.csv --queue now.csv --all").splitlines()
        same(f"first come, first served, made case {seed}", lines[-1],
             f"rounds of first come, first served {len(rounds)}")
        bound = case.bound()
        that(f"the busiest disk, made case {seed}",
             lines[lines.index("busiest disks") + 1].endswith(f"needs {bound.value} round{'s' * (bound.value > 1)}"),
             lines)


def made_case(room, rnd, is_split, disks=6, items=40):
    """Three files at random."""
    names, used = [f"d{it}" for it in range(disks)], collections.Counter()
    limits = [",".join(str(rnd.randrange(1, 4)) for _ in range(1 + is_split)) for _ in names]
    room.write("disks.csv",
               (SPLIT if is_split else "disk,limit,slots\n")
               + "".join(f"{name},{limit},{2 * items}\n" for name, limit in zip(names, limits)))
    now, next_ = [], []
    for item in range(items):
        source = rnd.choice(names)
        now.append(f"i{item},{source},{used[source]}\n")
        next_.append(f"i{item},{rnd.choice([it for it in names if it != source or item % 9 == 0])}\n")
        used[source] += 1
    room.write("now.csv", "item,disk,slot\n" + "".join(now))
    room.write("next.csv", "item,disk\n" + "".join(next_))


def split_pictures(room):
    room.write("d", DISKS)
    room.write("p", PLAN)
    room.write("c", CERT)
    svg = room.good("picture", "contrib/picture p d --cert c")
    texts = [it.text for it in xml.fromstring(svg).iter("{http://www.w3.org/2000/svg}text")]
    same("a row for each side of each disk", [it for it in texts if re.fullmatch("[abc] (out|in)", it)],
         ["a out", "a in", "b out", "b in", "c out", "c in"])
    same("its numbers", [it for it in texts if "/" in it],
         ["2/2", "1/2", "1/1", "1/1", "1/1", "1/1", "1/1", "1/1", "1/2", "2/2"])
    that("its bound", "the bound, b in: it has 3 incoming transfers and the incoming limit 1, so no schedule has fewer "
         "than 3 rounds" in texts, texts)
    same("one side is marked", svg.count('stroke="#c0392b"'), 1)
    room.write("c", CERT.replace("b in 3 1 3", "b out 1 1 1"))
    that("a bound of one",
         "the bound, b out: it has 1 outgoing transfer and the outgoing limit 1, so no schedule has fewer than 1 round<"
         in room.good("picture", "contrib/picture p d --cert c"))
    room.says("without a certificate the side that needs most", "contrib/picture p d",
              "b in: it needs 3 rounds for its own transfers, the most of all")
    room.write("d2", DISKS.replace("c,1,2", "c,1,1"))
    room.says("two sides need most", "contrib/picture p d2",
              "2 sides of disks: each needs 3 rounds for its own transfers, the most of all", ">2/1<")
    room.write("j", "disk,limit,slots\na,2,4\nb,1,4\nc,1,9\n")
    room.write("c1", "migration-certificate 1\nrounds 3\nquotient 3\nclass general\nbound disk b 4 1 4\nend\n")
    no_side, no_disk = CERT.replace("side b", "side z"), CERT.replace("side b in", "disk b")
    for name, text, disks, said in (("text 1 for such limits", room.read("c1"), "d",
                                     "c is no certificate for disks with an outgoing and an incoming limit: it does "
                                     "not begin with migration-certificate 2"),
                                    ("text 2 for joint limits", CERT, "j",
                                     "c is no certificate for disks with one limit: it does not begin with "
                                     "migration-certificate 1"),
                                    ("another disk", no_side, "d", "c names z in, which is no disk of the disks file"),
                                    ("a disk and no side", no_disk, "d", "c names b, which is no disk"),
                                    ("a side of text 1", room.read("c1").replace("disk b", "side b in"), "j",
                                     "c names b in, which is no disk")):
        room.write("c", text)
        refused(room, f"picture, {name}", f"contrib/picture p {disks} --cert c", said)
    # 40 disks are 80 rows
    room.write("d", SPLIT + "".join(f"d{it},1,1,4\n" for it in range(40)))
    room.write("p", plan_text([[[f"i{it}", f"d{it}", "0", f"d{(it + 1) % 40}", "1"] for it in range(40)]]))
    svg = room.good("picture", "contrib/picture p d")
    that("80 rows, in use to the limit", svg.count('fill="#1f4e8c"') == 80 + 1
         and "80 sides of disks: each needs 1 round for" in svg, svg[-300:])


def refusals_of_limits(room):
    """Disks files that are neither of the two."""
    room.write("p", PLAN)
    for name, text, said in (("the limits exchanged", DISKS.replace("out,in", "in,out"),
                              "does not begin with the row disk,limit,slots or disk,out,in,slots"),
                             ("three fields", DISKS.replace("a,2,1,4", "a,1,4"),
                              "row 1: 3 fields where the header has 4"),
                             ("no limit", DISKS.replace("b,1,1", "b,0,1"), "row 2: '0' is no number from 1 to 1024"),
                             ("an empty one", DISKS.replace("b,1,1", "b,1,"), "row 2: '' is no number from 1 to 1024"),
                             ("too many", DISKS.replace("c,1,2", "c,1025,2"), "row 3: '1025' is no number"),
                             ("no slots", DISKS.replace("2,9", "2,0"), "row 3: '0' is no number from 1 to 65536"),
                             ("four fields of joint limits", "disk,limit,slots\na,2,1,4\n",
                              "row 1: 4 fields where the header has 3"),
                             ("another plan's", DISKS.replace("c,", "d,"),
                              "round 1: odd has no disk c; it is of another plan")):
        room.write("odd", text)
        for script in ("picture p odd", "summary p odd", "run-plan --eager odd p true {item}",
                       "run-plan --dry-run --eager odd p true {item}"):
            refused(room, f"{name}", f"contrib/{script}", said)


# Without waiting for whole rounds

def events_of(room):
    """What the commands of a run wrote: at which time one of a kind began or ended for an item."""
    return [(what, kind, item) for what, kind, item in map(str.split, room.read("log").splitlines())]


def watch(room, name, case, shifts, kinds):
    """From a log: at no moment are more under way than a limit says, from the first command of a transfer to its last.
    Gives how many were at most."""
    ends, now, most, worst = {it[0]: case.ends(it[1], it[3]) for it in shifts}, collections.Counter(), 0, None
    held, seen = set(), collections.defaultdict(list)
    for what, kind, item in events_of(room):
        seen[item].append((what, kind))
        if what == "begin" and kind == kinds[0]:
            held.add(item)
            now.update(ends[item])
            worst = worst or next(((end, now[end], item)
                                   for end in ends[item] if now[end] > case.limits[end[0]][end[1]]), None)
        if what == "end" and kind == kinds[-1]:
            held.discard(item)
            now.subtract(ends[item])
        most = max(most, len(held))
    same(f"{name}: more than a limit at once", worst, None)
    wanted = [(what, kind) for kind in kinds for what in ("begin", "end")]
    same(f"{name}: each transfer in its order", {item: steps for item, steps in seen.items() if steps != wanted}, {})
    same(f"{name}: each transfer", set(seen), set(ends))
    return most


# writes when it begins and ends; waits as long as its third word says
JOB = "#!/bin/sh\necho begin $1 $2 >>log\nsleep $3\necho end $1 $2 >>log\n"
# does so too, and ends once a line of the log, or of the file that its fourth word names, begins with its third word
AFTER = ("#!/bin/sh\necho begin $1 $2 >>log\nuntil [ -z \"$3\" ] || grep -qs \"^$3\" ${4:-log} || [ ! -e job ]; do "
         "sleep 0.1; done\necho end $1 $2 >>log\n")
EAGER = "--unverified --verify 'sh job verify {item} 0' --erase 'sh job erase {item} 0'"


def at_once(room, name, case, rounds):
    """The first transfer is under way as long as it takes for another of its round to begin."""
    (first, *_), (second, *_) = rounds[0][:2]
    room.write("job", AFTER)
    room.write("waits", f"for=''\n[ $1 = {first} ] && for='begin copy {second}$'\nsh job copy $1 \"$for\"\n")
    room.good(name, f"contrib/run-plan --eager disks.csv --jobs 3 {EAGER.replace(' 0', '')} plan.txt sh waits {{item}}")
    shifts = [it for shifts in rounds for it in shifts]
    that(f"{name}: --jobs", watch(room, f"{name}, --jobs 3", case, shifts, ("copy", "verify", "erase")) >= 2)


def eager_limits():
    """Made cases with both kinds of limits: at each moment the limits are kept, and a transfer waits for nothing
    else."""
    for seed in range(6):
        with Room() as room:
            is_split, name = seed % 3 > 0, f"eager, made case {seed}"
            made_case(room, random.Random(seed), is_split, items=30)
            room.write("job", JOB)
            room.planned(name)
            case, rounds = Case(room.read), room.shifts()
            shifts = [it for shifts in rounds for it in shifts]
            printed = room.good(name,
                                f"contrib/run-plan --eager disks.csv {EAGER} plan.txt sh job copy {{item}} 0.0{seed}")
            that(f"{name}: its end",
                 printed.endswith(f"{len(shifts)} of {len(shifts)} transfers are done\nall {len(rounds)} rounds "
                                  f"are carried out\n"), printed)
            told = [int(line.split()[0]) for line in printed.splitlines()[:-1]]
            that(f"{name}: what is done grows", told == sorted(set(told)), told)
            watch(room, name, case, shifts, ("copy", "verify", "erase"))
            same(f"{name}: a second time",
                 room.good(name, f"contrib/run-plan --eager disks.csv {EAGER} plan.txt sh job copy {{item}} 0"),
                 f"all {len(rounds)} rounds are carried out\n")
            os.unlink(room.path("plan.txt.place"))
            os.unlink(room.path("log"))
            if len(rounds[0]) > 1:
                at_once(room, name, case, rounds)


def no_barrier(room):
    """One long transfer holds up nobody but what needs its disks; and by split limits two disks exchange items at
    once."""
    room.write("job", AFTER)
    chain = [[["long", "a", "0", "b", "0"], ["s1", "c", "0", "d", "0"]], [["s2", "c", "1", "d", "1"]],
             [["s3", "c", "2", "d", "2"], ["after", "b", "1", "c", "3"]]]
    room.write("plan.txt", plan_text(chain))
    for header, back in (("disk,limit,slots\n", False), (SPLIT, True)):
        limits = "1,1" if back else "1"
        room.write("disks.csv", header + "".join(f"{it},{limits},9\n" for it in "abcd"))
        waits = ("case $1 in long) for='end copy s3' ;; s3) for='begin copy after' ;; esac" if back
                 else "[ $1 = long ] && for='end copy s3'")
        room.write("waits", f"for=''\n{waits}\nsh job copy $1 \"$for\"\n")
        room.good("no barrier", "rm -f log plan.txt.place; contrib/run-plan --eager disks.csv plan.txt sh waits {item}")
        order = [(what, item) for what, _, item in events_of(room)]
        at = order.index(("end", "long"))
        that(f"what needs other disks goes on, {limits}",
             all(order.index(("end", it)) < at for it in ("s1", "s2", "s3")), order)
        # with one limit of 1 what leaves b waits until the long one has come to b; apart, it does not
        same(f"what leaves b waits for what comes to it, {limits}", order.index(("begin", "after")) > at, not back)
    # a slot that is left first, and an item that moves twice: each waits, though its disks have places free
    room.write("disks.csv", SPLIT + "".join(f"{it},5,5,9\n" for it in "abc"))
    room.write("plan.txt", plan_of("x a 0 b 0, free c 0 b 1", "y b 3 a 0, x b 0 c 0", "z c 2 b 0"))
    room.write("waits",
               "for=''\ncase $1-$2 in x-1) for='begin copy free-1' ;; free-1) for='end copy y-2' ;; esac\nsh job "
               "copy $1-$2 \"$for\"\n")
    words = "--eager disks.csv --unverified --erase 'sh job erase {item}-{round}' plan.txt sh waits {item} {round}"
    room.good("no barrier", f"rm -f log plan.txt.place; contrib/run-plan {words}")
    order = [(what, kind, item) for what, kind, item in events_of(room)]
    for one, other in (("x-1", "y-2"), ("x-1", "x-2"), ("free-1", "x-2"), ("x-2", "z-3")):
        that(f"{other} waits for {one}", order.index(("begin", "copy", other)) > order.index(("end", "erase", one)),
             order)
    that("what needs nothing begins at once",
         order.index(("begin", "copy", "free-1")) < order.index(("end", "copy", "x-1")), order)
    # begun again where the first round is done: what needed it begins
    lines = room.read("plan.txt.place").splitlines(True)
    room.write("plan.txt.place", "".join(it for it in lines if it.split()[0] == "plan" or it.split()[1] == "1"))
    printed = room.good("no barrier", f"rm log; contrib/run-plan {words}")
    order = collections.Counter(events_of(room))
    same("it goes on after the first round", order,
         collections.Counter((what, kind, it) for it in ("y-2", "x-2", "z-3") for kind in ("copy", "erase")
                             for what in ("begin", "end")))
    that("and says so",
         re.fullmatch(r"(3 of 5 transfers are done\n)?(4 of 5 transfers are done\n)?5 of 5 transfers are "
                      r"done\nall 3 rounds are carried out\n", printed), printed)
    # s is free, and the first that waits for it finds t1 in use: the next one begins
    room.write("disks.csv", "disk,limit,slots\n" + "".join(f"{it},1,9\n" for it in ("s", "t1", "t2", "t3", "x")))
    room.write("plan.txt", plan_of("long x 0 t1 0, first s 0 t3 0", "held s 1 t1 1", "next s 2 t2 0"))
    room.write("waits", "for=''\n[ $1 = long ] && for='begin copy next'\nsh job copy $1 \"$for\"\n")
    room.good("no barrier", "rm -f log plan.txt.place; contrib/run-plan --eager disks.csv plan.txt sh waits {item}")
    order = [(what, item) for what, _, item in events_of(room)]
    that("the next one begins",
         order.index(("begin", "next")) < order.index(("end", "long")) < order.index(("begin", "held")),
         order)


def eager_stops():
    """Where a command fails nothing more begins; the same words go on, with --eager and without it; and the place is
    the same."""
    with Room() as room:  # a long one runs while another one fails
        room.write("job", AFTER)
        room.write("disks.csv", SPLIT + "".join(f"{it},1,1,9\n" for it in "abcd"))
        room.write("plan.txt", plan_of("bad a 0 b 0, long c 0 d 0", "more c 1 d 1"))
        ran = room.run("contrib/run-plan --eager disks.csv --unverified --erase 'sh job erase {item}' plan.txt sh -c "
                       "'[ $1 = bad ] && exit 3; sh job copy $1 \"run-plan: not copied 1 bad\" notes' sh {item} "
                       "2>notes")
        same("nothing more begins once one fails", [(what, kind, item) for what, kind, item in events_of(room)],
             [("begin", "copy", "long"), ("end", "copy", "long")])
        that("what is left is told", ran.returncode == 1 and "not copied 1 bad: status 3" in room.read("notes")
             and "stopped with 3 of 3 transfers left, and nothing more is removed" in room.read("notes"),
             (ran, room.read("notes")))
        that("what ended well is kept", "copied 1 long\n" in room.read("plan.txt.place"))
    with Room() as room:
        room.good("run-plan", MOUNT)
        rounds, wanted = room.shifts(), wanted_of(room)
        count = sum(map(len, rounds))
        words = f"{GUARD} {VERIFY} {ERASE} plan.txt {COPY}"
        same("--dry-run prints the same",
             room.good("run-plan", f"contrib/run-plan --dry-run --eager disks.csv {words}"),
             room.good("run-plan", f"contrib/run-plan --dry-run {words}"))
        item, source, _, target, _ = rounds[1][0]
        room.good("run-plan", f"mv mnt/{source}/{item} away")
        ran = room.says("a copy that fails stops it", f"contrib/run-plan --eager disks.csv {words}",
                        f"not copied 2 {item}: status 1: cp -a mnt/{source}/{item}", status=1)
        that("a copy that fails stops it",
             re.search(rf"^run-plan: stopped with [1-9][0-9]* of {count} transfers left, and nothing more is "
                       rf"removed; begin again with the same words\n\Z", ran.stderr, re.M)
             and f"{count} of {count}" not in ran.stdout, ran)
        found = tree(room)
        that("nothing is lost", set(found) == set(wanted) - {item} and all(found.values()), found)
        room.good("run-plan", f"mv away mnt/{source}/{item} && mv mnt/{target} gone && mkdir mnt/{target}")
        room.says("a disk that is gone", f"contrib/run-plan --eager disks.csv {words}",
                  f"disk {target} is not as --guard asks", status=1)
        that("a disk that is gone", not os.listdir(room.path(f"mnt/{target}")))
        room.good("run-plan", f"rmdir mnt/{target} && mv gone mnt/{target}")
        room.says("what cannot be removed stops it",
                  f"contrib/run-plan --eager disks.csv --jobs 1 {GUARD} {VERIFY} --erase 'sh -c \"test {{item}} != "
                  f"{item} && rm -rf mnt/{{from}}/{{item}}\"' plan.txt {COPY}", f"not erased 2 {item}: status 1",
                  status=1)
        that("what cannot be removed stops it", {source, target} == tree(room)[item])
        room.good("run-plan, without --eager", f"contrib/run-plan {words}")
        same("all is where it is to be", tree(room), wanted)
        same("with --eager nothing is left", room.good("run-plan", f"contrib/run-plan --eager disks.csv {words}"),
             "all 3 rounds are carried out\n")


def eager_gains(room):
    """Rounds of unequal transfers: with a barrier each round takes as long as its longest one, and without as long as
    the busiest disk. A clock of the test says when they end."""
    room.write("plan.txt", plan_text([[[f"i{at}.{disk}", f"s{disk}", str(at), f"t{disk}", str(at)] for disk in range(2)]
                                      for at in range(2)]))
    room.write("disks.csv",
               SPLIT + "".join(f"{side}{disk},1,1,9\n" for side, disk in itertools.product("st", range(2))))
    for options, spans in (("", {"i0.0": (0, 10), "i0.1": (0, 1), "i1.0": (10, 11), "i1.1": (10, 20)}),
                           ("--eager disks.csv", {"i0.0": (0, 10), "i0.1": (0, 1), "i1.0": (10, 11), "i1.1": (1, 11)})):
        room.good("gains", "rm -f plan.txt.place*")
        status = carried_out(room, options, spans)
        last = room.read("plan.txt.place.times").splitlines()[-1]
        same(f"how long it takes, {options or 'rounds'}", (status, last),
             (0, f"{START + max(end for _, end in spans.values()):.3f} ends"))


CASES = (split_lvm, split_folders, split_summary, split_pictures, refusals_of_limits, eager_limits, no_barrier,
         eager_stops, eager_gains)

"""What no plan shows: what is synced before it counts, times and time zones of a day, what commands inherit, disks that
are full to the last byte, and what of a plan's picture a page shows. The functions of the package are called here,
where that says most."""
import contextlib, datetime, fcntl, fractions, os, re, subprocess, sys, time
from unittest import mock
from migrate_tools import balance, clock, command, items, plans, tight, wishes
from migrate_tools.ceph import crush
from migrate_tools.disks import Disk, Joint
from migrate_tools.folders import found
from migrate_tools.lvm import lvm_step, pvmoves
from migrate_tools.show import done, left, progress
import waiting
from refusals import SMALL, lists
from rooms import HERE, PROGRAM, Room, cases, plan_of, refused, same, that, wrong

PLAN = plan_of("x a 0 b 0", "y b 1 a 1")


def at(text):
    """The time of a moment of the clock of this machine."""
    return datetime.datetime.strptime(text, "%Y-%m-%d %H:%M").timestamp()


@contextlib.contextmanager
def clock_at(text):
    with mock.patch.object(time, "time", lambda: at(text)):
        yield


def next_of(those, slots, *wish):
    """The next disks of items by a wish, or why there are none."""
    try:
        return wishes.carry_out(those, slots, wishes.Wishes(*wish))
    except command.Wrong as why:
        return str(why)


# What is saved

def saved_whole(room):
    order, sync, replace = [], os.fsync, os.replace

    def synced(handle):
        order.append(("sync", os.readlink(f"/proc/self/fd/{handle}"), os.fstat(handle).st_size))
        sync(handle)

    def replaced(one, two):
        order.append(("replace", one, two))
        replace(one, two)

    with mock.patch.multiple(os, fsync=synced, replace=replaced):
        command.save_all({room.path("one"): "1\n", room.path("two"): "22\n"})
    kinds, new = [it[0] for it in order], [it[1] for it in order]
    same("a saved text is synced, with all of it, before it has its name",
         (kinds, [it[2] for it in order[:2]], new[:2]),
         (["sync", "sync", "replace", "replace"], [2, 3], new[2:]))
    same("where the second text has no folder",
         wrong(command.save_all, {room.path("three"): "", room.path("no/four"): ""}),
         f"{os.path.realpath(room.path('no/four'))} cannot be written: No such file or directory")
    same("neither it nor the first one is left", [it for it in room.files() if it not in ("one", "two")], [])
    room.good("spellings",
              "cp contrib/samples/lvm/*.json . && contrib/from-lvm lvs.json pvs.json --empty loop0 --unit 32")
    room.planned("spellings")
    room.good("spellings", "mkdir folder; ln plan.txt same; ln -s plan.txt link")
    for out in ("./plan.txt", "folder/../plan.txt", "same", "link", room.path("plan.txt")):
        refused(room, "other spellings", f"contrib/to-lvm plan.txt names.csv --out {out}",
                f"{out} was read, and is not written over")


def what_commands_inherit(room):
    room.write("plan.txt", PLAN)
    room.write("job", "#!/bin/sh\ncat >>in-$1\ngrep SigIgn /proc/self/status >ignored-$1\n")
    room.good("inherited", "echo data | alone/run-plan --guard 'sh job {disk}' plan.txt sh job {item}")
    for name in ("x", "a"):
        same(f"a command has no input: {name}", room.read(f"in-{name}"), "")
        ignored = int((room.read(f"ignored-{name}") or "x 1000").split()[1], 16)
        that(f"a command ends where its reader has gone: {name}", not ignored & 1 << 13 - 1, hex(ignored))
    room.good("dangling", "rm plan.txt.place*; mkdir -p b; ln -s nowhere b/x")
    refused(room, "a target that is a dangling link", "contrib/run-plan plan.txt cp -a {from}/{item} {to}/",
            "no place is kept in plan.txt.place, but 1 of 2 items are at their target, the first one as b/x")


# Times

def times_of_day():
    for now, text, wanted in cases("""
            2026-03-10 22:00 | 06:00 | 2026-03-11 06:00
            2026-03-10 05:00 | 06:00 | 2026-03-10 06:00
            2026-12-31 22:00 | 06:00 | 2027-01-01 06:00"""):
        with clock_at(now):
            same(f"--until {text} at {now}", clock.time_of_day(text), at(wanted))
    for text, wanted in cases("""
            22:30 | 2026-03-09 22:30
            05:00 | 2026-03-10 05:00
            2026-01-31 14:30 | 2026-01-31 14:30"""):
        with clock_at("2026-03-10 06:00"):
            same(f"--since {text} at 06:00", progress.read_time(text), at(wanted))
    for seconds, wanted in ((0.4, "0 s"), (59.4, "59 s"), (61, "2 min"), (3541, "1 h 0 min"), (7201, "2 h 1 min")):
        same(f"a time left of {seconds} s is not less than said", progress.duration(seconds), wanted)
    with Room() as room:
        for is_new, text in ((True, "one"), (False, "two")):
            clock.Times(room.path("times"), is_new).tell(text)
        same("earlier times are kept", [it.split()[1] for it in room.read("times").splitlines()], ["one", "two"])
    weeks = [(0.0, "begins copied rounds"), (100.0, "copying 1 x"), (2000000.0, "begins copied rounds"),
             (2000010.0, "ends")]
    same("weeks between two runs are no work", clock.at_work(weeks, None), (110.0, False))


def time_that_is_left():
    shifts = [[plans.Shift(f"i{n}{m}", f"s{m}", n, f"t{m}", n) for m in range(2)] for n in range(3)]
    plan, disks = plans.Plan(shifts, b""), {f"{side}{m}": Disk(Joint(1), 9) for side in "st" for m in range(2)}
    for name, stand, wanted in (("a round", done.Stand({0, 1}, "rounds", 100.0, took={1: 100.0}, begun={2: 40.0}),
                                 160.0),
                                ("a later moment", done.Stand({0, 1}, "rounds", 130.0, took={1: 100.0},
                                                              begun={2: 70.0}), 130.0),
                                ("longer than was thought", done.Stand({0, 1}, "rounds", 190.0, took={1: 100.0},
                                                                       begun={2: 130.0}), 100.0),
                                ("without times", done.Stand({0, 1}, "items", 100.0, idle=40.0), 160.0),
                                ("transfers", done.Stand({0, 1}, "eager", 100.0, lasted={0: 100.0, 1: 100.0},
                                                         running={2: 40.0, 3: 60.0}, seconds_done=100.0), 160.0)):
        same(f"the time left goes on: {name}", left.seconds_left(plan, [0, 2, 4, 6], [1] * 6, stand, disks, None),
             wanted)


def strangers_lock(room):
    room.write("plan.txt", plan_of("x a 0 b 0", "y a 1 b 1"))
    room.good("locks",
              "contrib/run-plan plan.txt true {item}; head -n 2 plan.txt.place >kept; mv kept plan.txt.place; : >other")
    with open(room.path("other"), "rb") as other, open(room.path("plan.txt.place"), "r+b") as own:
        fcntl.flock(other, fcntl.LOCK_EX)
        said = room.good("locks", "contrib/progress plan.txt")
        that("who has another file locked is not at work here", said.endswith(", nothing is at work here\n"), said)
        fcntl.lockf(own, fcntl.LOCK_EX)  # which this process would lose if it read the file itself
        said = room.good("locks", "alone/progress plan.txt")
        that("nor is who has it locked in another way", said.endswith(", nothing is at work here\n"), said)
        fcntl.flock(own, fcntl.LOCK_EX)
        said = room.good("locks", "contrib/progress plan.txt")
        that("who has it locked is", said.endswith(f", process {os.getpid()} is at work\n"), said)


# Disks

def full_disks():
    hundred = [(found.Item("/mnt/a/x", 100, inside="x"), "b")]
    same("what fits to the last byte fits", wrong(found.check_bytes, hundred, {"b": 100}), "")
    that("and one byte more does not",
         "100 bytes are to come to it, and 99 are free" in wrong(found.check_bytes, hundred, {"b": 99}))
    said = os.statvfs_result((4096, 4096, 100, 20, 10, 0, 0, 0, 0, 255))
    with mock.patch.object(os, "statvfs", lambda path: said):
        same("what only root may use is not free", found.bytes_of(["a"]), ({"a": 10 * 4096}, {"a": 80 * 4096}))
    with Room() as room:
        os.makedirs(room.path("a/folder"))
        os.symlink("/proc", room.path("link"))
        device = os.stat(room.path("a")).st_dev
        same("a link to where something is mounted is such a place", wrong(found.read_disks, [room.path("link")], True),
             "")
        that("another file system inside is refused", "is on another file system than a; a copy of it would be no move"
             in wrong(found.weigh, room.path("a/folder"), "a", device + 1, {}))
    # a disk that is half full by what is no item: all items leave it
    parts = {("a", n): [items.Part(f"v{n}", 10)] for n in range(5)}
    wish = balance.Balance(fractions.Fraction(5), {"a": 100, "b": 100}, {"a": 50})
    same("balance counts what is no item", next_of(parts, {"a": 9, "b": 9}, {}, set(), False, set(), wish),
         dict.fromkeys(parts, "b"))
    wish = balance.Balance(fractions.Fraction(5), {"a": 100, "b": 100, "c": 800})
    next_ = next_of({**parts, ("c", 0): [items.Part("c", 50)]}, dict.fromkeys("abc", 9), {}, {"c"}, False, set(), wish)
    same("balance goes by the disks that stay in use", next_, {**dict.fromkeys(parts, "a"), ("c", 0): "b"})
    # a stripe of a and b leaves a: b, which has the most room, has the other one, and only one more is allocatable
    striped = {("a", 0): [items.Part("s", 4, group=("s", 0), leg=0)],
               ("b", 0): [items.Part("s", 4, group=("s", 0), leg=1)]}
    for free in "cde":
        closed = set("cde") - {free}
        next_ = next_of(striped, {**dict.fromkeys("acde", 3), "b": 30}, {}, {"a"}, False, closed)
        same(f"a stripe goes where it may be, {free}", next_, {("a", 0): free, ("b", 0): "b"})
    # x and y change places over c, which has no bytes for either
    swap = {("a", 0): [items.Part("x", 100)], ("b", 0): [items.Part("y", 100)]}
    next_, slots = {("a", 0): "b", ("b", 0): "a"}, dict.fromkeys("abc", 1)
    form = tight.form_of(swap, next_, slots)
    for bytes_, warns in ((99, True), (100, False)):
        rooms = {"a": 100, "b": 100, "c": bytes_}
        same(f"what may be parked has bytes too: {bytes_}",
             "may park on c 100 bytes may come to it" in tight.warning_of(form, swap, next_, slots, rooms), warns)


def kept_apart():
    def move(volume, source, first):
        return pvmoves.Pvmove("i", volume, source, first, first + 3, "/dev/z", 0, [])

    steps = pvmoves.apart([move("x", "/dev/a", 0), move("x", "/dev/b", 0), move("y", "/dev/b", 4),
                           move("y", "/dev/c", 4), move("z", "/dev/a", 8)])
    same("no step moves a volume twice, or from a device twice",
         [[(it.volume, it.source[-1]) for it in step] for step in steps],
         [[("x", "a"), ("y", "b")], [("x", "b"), ("y", "c"), ("z", "a")]])
    told = []
    with mock.patch.multiple(lvm_step.Round,
                             begin=lambda self, it: not told.append(f"begin {it.volume} {it.source[-1]}"),
                             ends=lambda self, it, going: not told.append(f"end {it.volume} {it.source[-1]}")):
        lvm_step.Round(1).run(sum(steps, []))
    same("a step ends before the next one begins", told, [
        f"{what} {it}" for step in (("x a", "y b"), ("x b", "y c", "z a")) for what in ("begin", "end") for it in step])
    same("two legs that change places meet in between", items.meeting([("r", 0, "a", "b"), ("r", 1, "b", "a")]),
         ("r", 0, "a", "b"))
    same("what follows a leg that leaves meets it in between", items.meeting([("r", 0, "a", "c"), ("r", 1, "b", "a")]),
         ("r", 1, "b", "a"))
    same("two that go to one disk meet there", items.meeting([("r", 0, "a", "c"), ("r", 1, "b", "c")]),
         ("r", 0, "a", "c"))
    same("two that go to other disks do not", items.meeting([("r", 0, "a", "c"), ("r", 1, "b", "d")]), None)


# Ceph

def pairs_of_ceph():
    """Copies go within their host, else within their rack: osd.0 and osd.1 are on h0, and so on; h0 and h1 in r0, h2
    and h3 in r1."""
    whole = {"types": [{"type_id": n, "name": it} for n, it in enumerate(("osd", "host", "rack", "root"))],
             "buckets":
             [{"id": -1, "type_name": "root", "name": "default",
               "items": [{"id": -2 - n, "weight": 1} for n in range(2)]},
              *({"id": -2 - n, "type_name": "rack", "name": f"r{n}",
                 "items": [{"id": -4 - 2 * n - m, "weight": 1} for m in range(2)]} for n in range(2)),
              *({"id": -4 - n, "type_name": "host", "name": f"h{n}",
                 "items": [{"id": 2 * n + m, "weight": 1} for m in range(2)]} for n in range(4))]}
    rule = crush.Rule({"steps": [{"op": "take", "item": -1, "item_name": "default"}]}, whole, [])
    for leave, come, wanted in (([0, 4], [6, 2], {0: 2, 4: 6}), ([0, 2], [3, 1], {0: 1, 2: 3}),
                                ([2, 0, 4], [5, 1, 6], {2: 6, 0: 1, 4: 5})):
        same(f"{leave} to {come}", crush.paired(leave, come, rule, []), wanted)
    for chosen, pairs, wanted in (([0, 2, 4], [(0, 6), (6, 1)], [6, 2, 4]), ([0, 2, 4], [(2, 0), (0, 6)], [6, 2, 4]),
                                  ([0, 2, 4], [(0, 6), (2, 0)], [6, 0, 4])):
        same(f"{pairs} on {chosen}", crush.landed(chosen, pairs), wanted)
    with Room() as room:
        room.write("crush", SMALL["crush"])
        room.write("before", lists(("1.0", "0,2,4")))
        room.write("after", lists(("1.0", "0,2,6")))
        room.write("dump", SMALL["epoch"].replace("osd.6 up   out weight 0 ", "osd.6 up   in  weight 0.95 "))
        room.good("a reweight of 0.95 is not out", "contrib/from-ceph before after dump crush")


# The tests themselves

def these_tests():
    """A case that is none is an error, and what is waited for in vain is named."""
    for words, status, said in ((["no_case"], 2, "there is no case no_case; --list names them\nusage: run "),
                                (["--list"], 0, "these_tests\n")):
        ran = subprocess.run([sys.executable, f"{HERE}/run", PROGRAM, *words], capture_output=True, text=True,
                             check=False)
        that(f"run {words}", ran.returncode == status and said in ran.stdout + ran.stderr, ran)
    for limit, wait, said in ((0, lambda: waiting.until(lambda: None, "what never comes"), "what never comes"),
                              (0.01, endless, "a loop to end, which is at work")):
        with mock.patch.object(waiting, "LIMIT", limit):
            try:
                found = wait()
            except TimeoutError as why:
                found = str(why)
        same("what is waited for in vain", found, f"waited {limit} seconds in vain for {said}")


def endless():
    with waiting.at_work("a loop"):
        while True:
            pass


# Pages

def what_pages_show(room):
    room.write("disks.csv", "disk,limit,slots\na,1,9\nb,1,9\n")
    room.write("now.csv", "item,disk,slot\nx,a,0\ny,a,1\n")
    room.write("a<b>&.txt", plan_of("x a 0 b 0, y a 1 b 1"))
    page = room.good("pages", "contrib/report 'a<b>&.txt' disks.csv now.csv")
    that("a name of a file is text in the page",
         '<p class="soft">a&lt;b&gt;&amp;.txt</p>' in page and "a<b>" not in page)
    that("the page marks more than a limit", "pen.fillStyle = sum > most ? over : sum === most ? full : part;" in page
         and 'get("over").hidden = !data.disks.some((it, disk) => it[3].some((limit, way) => uses[disk][way].some(n => '
         'n > limit)));' in page)
    picture = room.good("pages", "contrib/picture 'a<b>&.txt' disks.csv")
    same("the picture marks more than a limit",
         len(re.findall(r'<rect x="\S+" y="\S+" width="58" height="28" fill="#c0392b"/>', picture)), 2)
    room.write("cert", "migration-certificate 1\nrounds 2\nquotient 2\nclass general\nbound disk a 2 1 2\nend\n")
    for name in ("witness 'a<b>&.txt' disks.csv cert", "report 'a<b>&.txt' disks.csv now.csv cert"):
        refused(room, "a foreign certificate", f"contrib/{name}", "cert is the certificate of another plan")


CASES = (saved_whole, what_commands_inherit, times_of_day, time_that_is_left, strangers_lock, full_disks,
         kept_apart, pairs_of_ceph, what_pages_show, these_tests)

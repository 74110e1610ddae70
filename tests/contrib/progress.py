"""What progress tells of runs of run-plan and of the scripts, pauses and --until, sizes, and balanced disks."""
import collections, contextlib, fcntl, fractions, itertools, json, os, random, re, time
from clocked import START, carried_out, set_clock
from limits import made_case
from limits_model import Case, plan_text
from rooms import Room, cases, page, plan_of, refused, same, shifts_of, that
from waiting import LIMIT, until


# The time that is left

def simulated(case, rounds, seconds, eager):
    """When each transfer begins and ends: by rounds, or as soon as the limits let it, the plan's order first."""
    shifts, spans, now = [it for round_ in rounds for it in round_], {}, 0.0
    if not eager:
        for round_ in rounds:
            spans.update({it[0]: (now, now + seconds[it[0]]) for it in round_})
            now = max(spans[it[0]][1] for it in round_)
        return spans
    used, running, waiting = collections.Counter(), [], list(shifts)
    while waiting or running:
        for it in list(waiting):
            ends = case.ends(it[1], it[3])
            if all(used[end] < case.limits[end[0]][end[1]] for end in ends):
                used.update(ends)
                waiting.remove(it)
                spans[it[0]] = now, now + seconds[it[0]]
                running.append((now + seconds[it[0]], ends))
        running.sort(key=lambda it: it[0])
        now, ends = running.pop(0)
        used.subtract(ends)
    return spans


@contextlib.contextmanager
def locked(path):
    with open(path, "rb") as held:
        fcntl.flock(held, fcntl.LOCK_EX)
        yield


def time_left():
    """Made runs of copies of unequal size, up to a third of their time: what progress says is left differs by a fifth
    at most."""
    for seed, eager in itertools.product(range(8), (False, True)):
        with Room() as room:
            rnd, name = random.Random(seed), f"time left, case {seed}, {'eager' if eager else 'rounds'}"
            made_case(room, rnd, False, items=60)
            room.good(name, "./migrate plan disks.csv now.csv next.csv plan.txt cert.txt")
            case, text = Case(room.read), room.read("plan.txt")
            rounds = shifts_of(text)
            sizes = {it[0]: int(2 ** rnd.uniform(20, 26)) for round_ in rounds for it in round_}
            # a copy takes a moment for itself, and its bytes at a rate that differs a little
            seconds = {item: 20 + size / 2 ** 17 * rnd.uniform(0.9, 1.1) for item, size in sizes.items()}
            room.write("bytes.csv", "item,bytes\n" + "".join(f"{item},{size}\n" for item, size in sizes.items()))
            spans = simulated(case, rounds, seconds, eager)
            whole = max(end for _, end in spans.values())
            round_of = {it[0]: at for at, round_ in enumerate(rounds, 1) for it in round_}
            digest = room.good(name, "sha256sum <plan.txt").split()[0]
            set_clock(room, whole / 3)
            events = [(0, "begins copied " + ("eager" if eager else "rounds"))]
            events += [(at, f"{word} {round_of[item]} {item}") for item, span in spans.items()
                       for at, word in zip(span, ("copying", "copied")) if at <= whole / 3]
            room.write("plan.txt.place",
                       f"plan {digest}\n" + "".join(f"{it}\n" for _, it in sorted(events) if it.startswith("copied")))
            room.write("plan.txt.place.times", "".join(f"{START + at:.3f} {it}\n" for at, it in sorted(events)))
            with locked(room.path("plan.txt.place")):
                found = json.loads(room.good(name, f"CLOCK=clock contrib/progress plan.txt --json --sizes bytes.csv "
                                             f"{'--eager disks.csv' if eager else ''}"))
            left = whole * 2 / 3
            that(name, abs(found["seconds_left"] - left) <= left / 5, (found, left))
            done = [item for item, (_, end) in spans.items() if end <= whole / 3]
            same(f"{name}: what is done",
                 (found["items_done"], found["bytes_done"], found["bytes"], found["done"], found["paused"]),
                 (len(done), sum(sizes[it] for it in done), sum(sizes.values()), False, False))


def a_real_run(room):
    """A run of run-plan, whose copies take about as long as their bytes say by a clock of the test: looked at again and
    again."""
    rnd, rounds = random.Random(5), [[[f"i{at}.{n}", f"s{n}", str(at), f"t{n}", str(at)] for n in range(2)]
                                     for at in range(9)]
    room.write("plan.txt", plan_text(rounds))
    sizes = {it[0]: 200 + 100 * ((at * 5 + n) % 7) for at, round_ in enumerate(rounds) for n, it in enumerate(round_)}
    room.write("bytes.csv", "item,bytes\n" + "".join(f"{item},{size}\n" for item, size in sizes.items()))
    spans = simulated(None, rounds, {item: size * rnd.uniform(0.9, 1.1) for item, size in sizes.items()}, False)
    whole, seen = max(end for _, end in spans.values()), []

    def look(now):
        found = json.loads(room.good("a real run", "CLOCK=clock contrib/progress plan.txt --json --sizes bytes.csv"))
        seen.append(found)
        # a source is removed after its round
        done = [it[0] for round_ in rounds if all(spans[it[0]][1] <= now for it in round_) for it in round_]
        left = whole - now
        that(f"a real run: the time left after {now / whole:.2f} of it",
             found["done"] or abs(found["seconds_left"] - left) <= left / 5, (found, left))
        same("a real run: what is done", (found["items_done"], found["bytes_done"]),
             (len(done), sum(sizes[it] for it in done)))
        that("a real run: its time", abs(found["seconds_at_work"] - now) < 0.1, found)
        that("a real run: who is at work", found["process"] is not None and not found["paused"], found)

    status = carried_out(room, "--unverified --erase 'true {item}'", spans, look,
                         [whole * part / 12 for part in (4, 5, 6, 8, 10)])
    same("a real run: it ends well, and was looked at", (status, len(seen)), (0, 5))
    total = f"{sum(sizes.values()) / 1024:.1f} KiB"
    same("a real run: done", room.good("a real run", "contrib/progress plan.txt --sizes bytes.csv"),
         f"[{'#' * 30}] 9 of 9 rounds, 18 of 18 items, {total} of {total}, done\n")


def what_places_say(room):
    """A place without times, one of another plan, one with copies whose sources still stand, a run that was killed."""
    room.example()
    rounds, digest = room.shifts(), room.good("places", "sha256sum <plan.txt").split()[0]
    head = f"plan {digest}\n"
    copied = "".join(f"copied 1 {it[0]}\n" for it in rounds[0])
    for name, place, times, wanted in (("without times", head + copied, "", " 1 of 3 rounds, 3 of 11 items, "),
                                       ("a line that is cut off", head + copied[:-1], "",
                                        " 0 of 3 rounds, 2 of 11 items, "),
                                       ("one that counts no more", head + copied + f"not copied 1 {rounds[0][0][0]}\n",
                                        "", " 0 of 3 rounds, 2 of 11 items, "),
                                       ("copied, and to be erased", head + copied,
                                        "1700000000.5 begins copied,erased rounds\n",
                                        " 0 of 3 rounds, 0 of 11 items, time left not known yet"),
                                       ("erased", head + copied + copied.replace("copied", "erased"),
                                        "1700000000.5 begins copied,erased rounds\n",
                                        " 1 of 3 rounds, 3 of 11 items, "),
                                       ("erasing without times", head + copied + f"erasing 1 {rounds[0][0][0]}\n", "",
                                        " 0 of 3 rounds, 0 of 11 items, "),
                                       ("times that are none", head + copied, "x\n\0\xff begins\n12 \n",
                                        " 1 of 3 rounds, 3 of 11 items, ")):
        room.write("plan.txt.place", place)
        room.write("plan.txt.place.times", times)
        said = room.good(f"places, {name}", "contrib/progress plan.txt")
        that(f"places, {name}", wanted in said and ", done" not in said and "nothing is at work here" in said, said)
    # two runs: what lies between them doesn't count, and the time left goes by both
    room.write("plan.txt.place", head + copied)
    lines = [(0, "begins copied rounds"), *((0, f"copying 1 {it[0]}") for it in rounds[0]),
             *((100, f"copied 1 {it[0]}") for it in rounds[0]), (100, f"copying 2 {rounds[1][0][0]}"),
             (90000, "begins copied rounds"), (90000, f"copying 2 {rounds[1][0][0]}"), (90010, "ends")]
    room.write("plan.txt.place.times", "".join(f"{1700000000 + at} {text}\n" for at, text in lines))
    found = json.loads(room.good("places", "contrib/progress plan.txt --json"))
    same("two runs", (found["seconds_at_work"], found["seconds_left"], found["process"]), (110.0, 200.0, None))
    room.write("other.txt", room.read("plan.txt").replace("db2 ssd1 1 ssd2 2", "db2 ssd1 1 ssd2 3"))
    room.write("no", "item,bytes\ndb2,1\n")
    room.write("bad", "item,bytes\ndb2,1.5\n")
    for words, said, status in (("other.txt --place plan.txt.place", "keeps the place of another plan", 1),
                                ("plan.txt --log plan.txt", "is not the log of a script for this plan", 1),
                                ("plan.txt --sizes no", "no does not list", 1),
                                ("plan.txt --sizes bad", "bad row 1: ", 1),
                                ("plan.txt --names names.csv", "--names goes with --log", 2),
                                ("plan.txt --log a --place b", "name one", 2)):
        refused(room, f"progress {words}", f"contrib/progress {words}", said, status)


def what_is_measured():
    """The text for Prometheus; and no time left before a fifth is done, or a minute has passed."""
    rounds = [[[f"i{at}", "a", str(at), "b", str(at)]] for at in range(10)]
    with Room() as room:
        room.write("plan.txt", plan_text(rounds))
        room.write("bytes.csv", "item,bytes\n" + "".join(f"i{at},{1000 * (at + 1)}\n" for at in range(10)))
        digest = room.good("metrics", "sha256sum <plan.txt").split()[0]
        for done, seconds, left in ((1, 20, None), (1, 59, None), (1, 61, 549.0), (2, 20, 80.0), (10, 20, 0.0)):
            room.write("plan.txt.place", f"plan {digest}\n" + "".join(f"copied {at + 1} i{at}\n" for at in range(done)))
            ends = [seconds * (at + 1) / done for at in range(done)]
            lines = ["0 begins copied rounds", *(f"{ends[at] - seconds / done} copying {at + 1} i{at}\n{ends[at]} "
                                                 f"copied {at + 1} i{at}" for at in range(done)), f"{seconds} ends"]
            room.write("plan.txt.place.times", "".join(f"{line}\n" for line in lines))
            found = json.loads(room.good("time left", "contrib/progress plan.txt --json"))
            same(f"the time left once {done} of 10 are done in {seconds} s", found["seconds_left"], left)
        room.write("plan.txt.place", f"plan {digest}\ncopied 1 i0\n")
        room.write("plan.txt.place.times", "0 begins copied rounds\n0 copying 1 i0\n20 copied 1 i0\n20 ends\n")
        wanted = {"rounds": 10, "items": 10, "bytes": 55000, "rounds_done": 1, "items_done": 1, "bytes_done": 1000,
                  "seconds_at_work": 20.0, "paused": 0, "at_work": 0, "done": 0}
        same("what Prometheus reads", room.good("metrics", "contrib/progress plan.txt --sizes bytes.csv --metrics"),
             "".join(f'# TYPE migrate_plan_{name} gauge\nmigrate_plan_{name}{{plan="{digest}"}} {value}\n'
                     for name, value in wanted.items()))
        refused(room, "--metrics --every", "contrib/progress plan.txt --metrics --every 1",
                "--metrics goes neither with", 2)


def hooks(room):
    """What --hook is called with where a check fails, where run-plan stops, and where all is done."""
    room.write("plan.txt", plan_of("x a 0 b 0"))
    room.write("hook", 'echo "$1: $2" >>told; exit ${STATUS:-0}')
    words = "--hook 'sh hook' --erase 'rm -rf mnt/{from}/{item}' plan.txt"
    room.good("hooks", "mkdir -p mnt/a/x mnt/b; touch -d @5 mnt/a/x")
    stopped = "stopped: plan.txt: stopped in round 1 of 1\n"
    for name, command, status, wanted in (
            ("a copy that lacks something", f"contrib/run-plan {words} cp -r mnt/{{from}}/{{item}} mnt/{{to}}/", 1,
             f"failed: plan.txt: not compared 1 x\n{stopped}"),
            ("a guard", f"contrib/run-plan --guard 'test -e {{disk}}' {words} true {{item}}", 1,
             "failed: plan.txt: disk a is not as --guard asks\n"),
            ("its time", f"OVER=hook contrib/run-plan {words} true {{item}}", 3,
             "ended: plan.txt: ended before round 1 of 1, as --until says\n"),
            ("a hook that fails", f"STATUS=7 contrib/run-plan {words} cp -a mnt/{{from}}/{{item}} mnt/{{to}}/", 0,
             "done: plan.txt: all 1 rounds are carried out\n")):
        ran = room.run(f"rm -f told; {command}")
        same(f"the hook, {name}", (ran.returncode, room.read("told")), (status, wanted))
        same(f"the hook's own status, {name}", "run-plan: --hook ended with status 7: sh hook\n" in ran.stderr,
             "7" in command)


# Pauses

def pauses(room):
    room.example()
    rounds = room.shifts()
    first, all_ = {it[0] for it in rounds[0]}, {it[0] for round_ in rounds for it in round_}
    # each other copy ends after the first one, so that not all have begun by then
    room.write("job", "#!/bin/sh\necho begin $1 $2 >>log\n[ $1 = copy ] && [ -e stop-$2 ] && touch $(cat stop-$2)\n"
               f"until [ $1-$2 = copy-{rounds[0][0][0]} ] || grep -qx 'end copy {rounds[0][0][0]}' log || [ ! -e "
               f"job ]; do sleep 0.1; done\necho end $1 $2 >>log\n")
    for eager in ("", "--eager disks.csv"):
        words = (f"{eager} --unverified --verify 'sh job verify {{item}}' --erase 'sh job erase {{item}}' "
                 "plan.txt sh job copy {item}")
        stop = f"stop-{rounds[0][0][0]}"
        room.good("pauses", f"rm -f log notes pause over plan.txt.place*; echo pause >{stop}")
        ran = room.begin(f"exec alone/run-plan {words} >said 2>notes")
        until(lambda: "paused" in (room.read("notes") or ""), "a pause")
        until(lambda: room.read("log").count("begin copy ") == room.read("log").count("end erase "),
              "what is under way to end")
        time.sleep(0.5)
        log = [it.split() for it in room.read("log").splitlines()]
        begun = {item for what, kind, item in log if (what, kind) == ("begin", "copy")}
        that(f"a pause, {eager or 'rounds'}: nothing begins",
             begun < all_ and (eager or begun == first) and ran.poll() is None, log)
        found = json.loads(room.good("pauses", "contrib/progress plan.txt --json"))
        that(f"a pause, {eager or 'rounds'}: progress says so", found["paused"] and not found["done"], found)
        if not eager:
            same("a pause between rounds: the round is whole", collections.Counter(map(tuple, log)),
                 collections.Counter((what, kind, it) for it in first for kind in ("copy", "verify", "erase")
                                     for what in ("begin", "end")))
        os.unlink(room.path("pause"))
        same(f"a pause that is over, {eager or 'rounds'}", (ran.wait(LIMIT), room.read("said").splitlines()[-1]),
             (0, "all 3 rounds are carried out"))
        # its time comes in the first round: what began is ended, and the status is not 0
        room.good("until", f"rm -f log pause plan.txt.place*; echo over >{stop}")
        ended = room.run(f"OVER=over contrib/run-plan {words}")
        log = [it.split() for it in room.read("log").splitlines()]
        that(f"--until, {eager or 'rounds'}",
             ended.returncode == 3 and "as --until says; begin again with the same words" in ended.stderr
             and "all" not in ended.stdout.splitlines()[-1:], ended)
        that(f"--until, {eager or 'rounds'}: what began is whole",
             log and all(collections.Counter(item for *_, item in log)[item] == 6 for *_, item in log), log)
        room.good("until", f"rm {stop} over")
        that(f"--until, {eager or 'rounds'}: the rest",
             room.good("until", f"contrib/run-plan {words}").endswith("all 3 rounds are carried out\n"))
        same(f"--until, {eager or 'rounds'}: each once", collections.Counter(room.read("log").splitlines()),
             collections.Counter(f"{what} {kind} {it}" for it in all_ for kind in ("copy", "verify", "erase")
                                 for what in ("begin", "end")))
        same(f"--until, when all is done, {eager or 'rounds'}",
             room.run(f"touch over; OVER=over contrib/run-plan {words}").returncode, 0)
        # a copy that fails while its time has come is a failure, and not an end by --until
        room.good("until", "rm -f log over plan.txt.place*")
        room.says(f"--until and a failure, {eager or 'rounds'}",
                  f"OVER=over contrib/run-plan {eager} plan.txt sh -c 'touch over; sleep 0.3; test $1 != "
                  f"{rounds[0][0][0]}' sh {{item}}", "not copied", status=1)
        # stopped while it is paused
        room.good("pauses", "rm -f log notes over plan.txt.place*; touch pause")
        ran = room.begin(f"exec alone/run-plan {words} >said 2>notes")
        until(lambda: "paused" in (room.read("notes") or ""), "a pause")
        ran.terminate()
        that(f"a pause that is stopped, {eager or 'rounds'}", ran.wait(LIMIT) == 130 and room.read("log") is None
             and "begin again with the same words" in room.read("notes"), room.read("notes"))
        ended = room.run(f"rm notes; (until grep -qs paused notes || ! kill -0 $$; do sleep 0.1; done; touch over) "
                         f"& OVER=over contrib/run-plan {words} 2>notes")
        that(f"a pause up to --until, {eager or 'rounds'}", ended.returncode == 3 and room.read("log") is None, ended)
    refused(room, "--until of no time", "contrib/run-plan --until 25:00 plan.txt true {item}", "--until", 2)


# the time of --until is that of tomorrow, and has come once the file `over` is there
DATE = """#!/bin/sh
case $1$2 in
-dtomorrow*) echo 5000000000 ;;
-d*) echo 1 ;;
*) { [ -e over ] && echo 5000000001; } || exec /bin/date "$@" ;;
esac
"""


def logs(room):
    """The scripts of to-lvm and to-ceph: a pause, an end by --until, and what progress reads in their logs."""
    room.write("bin/date", DATE)
    room.good("logs", "chmod +x bin/date; cp contrib/samples/lvm/*.json . && contrib/from-lvm lvs.json pvs.json "
                      "--empty /dev/loop0 --limit 2 --unit 32 && ./migrate plan disks.csv now.csv next.csv "
                      "plan.txt cert.txt && contrib/to-lvm plan.txt names.csv --plain --out moves.sh")
    room.good("logs", "mkdir ceph && cd ceph && S=../contrib/samples/ceph && ../contrib/from-ceph $S/before $S/after "
              "$S/dump $S/crush --backfills 2 && ../migrate plan disks.csv now.csv next.csv plan.txt cert.txt && "
              "../contrib/to-ceph plan.txt $S/before $S/after $S/dump $S/crush --plain --out upmaps.sh")
    refused(room, "no log yet", "contrib/progress plan.txt --log moves.sh", "is not the log of a script for this plan")
    for folder, script, names in (".", "moves.sh", "--names ../names.csv"), ("ceph", "upmaps.sh", ""):
        plan, words = (shifts_of(room.read(f"{folder}/plan.txt")),
                       f"plan.txt --log log --json --sizes bytes.csv {names.replace('../', '')}")
        room.write(f"{folder}/bytes.csv",
                   "item,bytes\n"
                   + "".join(f"{it[0]},{at + 1}\n" for at, it in enumerate(it for round_ in plan for it in round_)))
        at = "cd " + folder + " && "
        look = at + ("contrib" if folder == "." else "../contrib") + f"/progress {words}"
        count = sum(map(len, plan))
        # paused before the first round, up to its time
        ran = room.run(f"{at}touch pause; (until grep -qs paused log || ! kill -0 $$; do sleep 0.1; done; touch over) "
                       f">/dev/null 2>&1 & sh {script} --until 06:00 >log; echo $?; rm pause over")
        that(f"{script}: a pause up to --until", ran.stdout == "3\n" and "paused before round 1" in ran.stderr
             and f"begin again with: sh {script} 1" in ran.stderr and "round 1:" not in room.read(f"{folder}/log"), ran)
        found = json.loads(room.good(script, look))
        same(f"{script}: nothing is done", (found["rounds_done"], found["items_done"], found["done"],
                                            found["seconds_left"]), (0, 0, False, None))
        # its time comes in the first round
        ran = room.run(f"{at}sed 's/^if begins 2; then/touch over; if begins 2; then/' {script} >half.sh; sh "
                       f"half.sh --until 06:00 >>log; echo $?; rm -f over")
        found = json.loads(room.good(script, look))
        that(f"{script}: an end after the first round",
             ran.stdout == "3\n" and "round 2:" not in room.read(f"{folder}/log"), ran)
        same(f"{script}: the first round is done",
             (found["rounds_done"], found["items_done"], found["bytes_done"], found["done"]),
             (1, len(plan[0]), sum(range(len(plan[0]) + 1)), False))
        if names:
            that(f"{script}: the rest",
                 room.good(script, f"{at}sh {script} 2 >>log; tail -n 1 log") == "all rounds are carried out\n")
        else:  # what it prints is made here: a run of all takes its time
            digest = room.good(script, f"{at}sha256sum <plan.txt").split()[0]
            rest = "".join(f"time {int(time.time())} round {it}\nround {it}: 0 of 2 groups are clean where they "
                           f"are to be\nround {it}: 2 of 2 groups are clean where they are to be\n"
                           for it in range(2, len(plan) + 1))
            room.write(f"{folder}/log",
                       f"{room.read(f'{folder}/log')}time {int(time.time())} begins {digest}\n{rest}all rounds are "
                       f"carried out\n")
        found = json.loads(room.good(script, look))
        same(f"{script}: all is done", (found["rounds_done"], found["items_done"], found["done"]),
             (len(plan), count, True))
        # a log that begins in the middle says what it saw
        if names:
            found = json.loads(room.good(script, f"{at}sh {script} {len(plan)} >log; {look.removeprefix(at)}"))
            same(f"{script}: a log of the last round", (found["done"], found["rounds_done"], found["items_done"]),
                 (False, 1, len(plan[-1])))
        for word in ("6", "24:00", "06:60", ""):
            ran = room.run(f"{at}sh {script} --until '{word}'")
            that(f"{script} --until '{word}'", ran.returncode == 2 and not ran.stdout, ran)
        room.says(f"{script} --until alone", f"{at}sh {script} --until", "is no time of day", status=2)


# Sizes

def sizes():
    with Room() as room:
        room.good("sizes",
                  "for it in a b; do mkdir -p mnt/$it; done; for it in 1 2 30; do mkdir mnt/a/i$it; head -c ${it}0000 "
                  "/dev/zero >mnt/a/i$it/data; done; contrib/from-folders mnt/* --empty a")
        names = {row[1]: row[3] for row in room.rows("names.csv") if row[0] == "item"}
        same("bytes.csv of folders is what names.csv has", dict(room.rows("bytes.csv")), names)
        room.good("sizes", "./migrate plan disks.csv now.csv next.csv plan.txt cert.txt")
        found = json.loads(room.good("sizes", "contrib/summary plan.txt disks.csv --sizes bytes.csv --rate 1K --json"))
        total = sum(map(int, names.values()))
        same("summary --json",
             (found["moves"], found["rounds"], found["bytes"], found["transfers_by_round"], found["seconds"],
              found["seconds_without_rounds"]), (3, 3, total, [1, 1, 1], total / 1024, total / 1024))
        same("its disks", found["disks"],
             [{"disk": it, "transfers": 3, "bytes": total, "sides": [{"way": "", "transfers": 3, "limit": 1}],
               "rounds": 3} for it in "ab"])
    with Room() as room:
        # two rounds of a long and a short one each, on disks of their own: without rounds they take half the time
        room.write("plan.txt", plan_of("x a 0 b 0, y c 0 d 0", "z a 1 b 1, w c 1 d 1"))
        room.write("disks.csv", "disk,limit,slots\n" + "".join(f"{it},1,4\n" for it in "abcd"))
        room.write("bytes.csv", "item,bytes\nx,9216\ny,1024\nz,1024\nw,9216\nmore,5\n")
        said = room.good("sizes", "contrib/summary plan.txt disks.csv --sizes bytes.csv --rate 1K")
        that("the time of rounds of unequal sizes", said.startswith("moves 4\nbytes 20.0 KiB\nrounds 2\n")
             and "  a: 2 transfers, limit 1, 10.0 KiB, needs 2 rounds\n" in said
             and said.endswith("time 18 s: 2 rounds, each as long as its greatest item\ntime without rounds 10 "
                               "s: each transfer as soon as the limits let it\n"), said)
        for text, said in (("item,bytes\nx,1\n", "does not list y"),
                           ("item,bytes\nx,1\nx,2\n", "row 2: 'x' is no name or is listed twice"),
                           ("item,size\n", "does not begin with the row item,bytes"),
                           ("item,bytes\nx,-1\n", "row 1: ")):
            room.write("bad.csv", text)
            refused(room, f"sizes, {text!r}", "contrib/summary plan.txt disks.csv --sizes bad.csv", said)
        refused(room, "--sizes and --bytes", "contrib/summary plan.txt --sizes bytes.csv --bytes 1K --rate 1K",
                "say one of them", 2)
    with Room() as room:
        room.good("sizes",
                  "cp contrib/samples/lvm/*.json . && contrib/from-lvm lvs.json pvs.json --empty loop0 --extent 32M")
        extents = {row[1]: sum(int(last) - int(first) + 1 for first, last in re.findall(r":(\d+)-(\d+)", row[3]))
                   for row in room.rows("names.csv") if row[0] == "item"}
        same("bytes.csv of LVM", {item: int(it) for item, it in room.rows("bytes.csv")},
             {item: it * 32 << 20 for item, it in extents.items()})
        groups = sorted(set(re.findall(r"^(\d+\.[0-9a-f]+) raw", page("contrib/samples/ceph/before"), re.M)))
        room.keep("pgs.json", {"pg_map": {"pg_stats": [{"pgid": it, "stat_sum": {"num_bytes": 4000 * at}} for at,
                                                       it in enumerate(groups)]}})
        words = "contrib/from-ceph S/before S/after S/dump S/crush".replace("S/", "contrib/samples/ceph/")
        room.good("sizes", f"{words} --sizes pgs.json --moving")
        found = {item: int(it) for item, it in room.rows("bytes.csv")}
        same("bytes.csv of Ceph has the items of now.csv", list(found), [row[0] for row in room.rows("now.csv")])
        that("a shard of four has a quarter",
             all(it == 4000 * groups.index(re.split("[s-]", item)[0]) / (4 if item.startswith("4.") else 1)
                 for item, it in found.items()), found)
        room.keep("pgs.json", {"pg_stats": []})
        refused(room, "a group without bytes", f"{words} --sizes pgs.json", "pgs.json has no placement group 3.0")
        room.write("pgs.json", "{}")
        refused(room, "no dump of groups", f"{words} --sizes pgs.json",
                "does not hold what `ceph pg dump --format json` prints")


# Balanced disks

def fewest(items, disks, size, percent):
    """How few of a few items have to move; None where no way does."""
    part, best = fractions.Fraction(sum(items.values()), sum(size.values())), None
    for ends in itertools.product(disks, repeat=len(items)):
        moved, used = sum(end != it[0] for end, it in zip(ends, items)), collections.Counter()
        for end, bytes_ in zip(ends, items.values()):
            used[end] += bytes_
        if (best is None or moved < best) and all(abs(fractions.Fraction(used[it], size[it]) - part)
                                                  <= fractions.Fraction(percent, 100) for it in disks):
            best = moved
    return best


def balanced():
    for seed in range(12):
        with Room() as room:
            rnd, disks = random.Random(seed), ["a", "b", "c"]
            for it in disks:
                os.makedirs(room.path(f"mnt/{it}"))
            for at in range(6):
                room.write(f"mnt/{rnd.choice(disks[:2])}/i{at}", bytes(4096 * rnd.choice((2, 2, rnd.randint(1, 9)))))
            size, percent = {it: rnd.choice((1, 1, 2)) << 18 for it in disks}, rnd.choice((2, 3, 6))
            words = (f"contrib/from-folders mnt/* --balance {percent} "
                     f"{' '.join(f'--size {it}={bytes_ >> 10}K' for it, bytes_ in size.items())}")
            ran = room.run(words)
            items = {(disk, it): 512 * os.stat(room.path(f"mnt/{disk}/{it}")).st_blocks for disk in disks
                     for it in sorted(os.listdir(room.path(f"mnt/{disk}")))}
            best = fewest(items, disks, size, percent)
            if best is None:
                that(f"balance, case {seed}: no way does",
                     ran.returncode == 1 and "not each disk can be filled to the same part" in ran.stderr
                     and room.read("now.csv") is None, ran)
                continue
            now, next_ = {it[0]: it[1] for it in room.rows("now.csv")}, dict(room.rows("next.csv"))
            used = collections.Counter()
            for (_, it), bytes_ in items.items():
                used[next_[it]] += bytes_
            part = sum(used.values()) / sum(size.values())
            that(f"balance, case {seed}: each disk's part",
                 all(abs(used[it] / size[it] - part) <= percent / 100 + 1e-9 for it in disks), (used, size))
            same(f"balance, case {seed}: as few as can be", sum(now[it] != next_[it] for it in now), best)
            that(f"balance, case {seed}: how few have to is not more",
                 int(re.search(r"; (\d+) at least have to", ran.stderr)[1]) <= best, ran.stderr)
    with Room() as room:
        room.good("balance", "cp contrib/samples/lvm/*.json .")
        for words, percent, gone in (("--balance 4", 4, ()), ("--balance 2.5 --empty loop0", 2.5, ("loop0",)),
                                     ("--balance 8 --move mail=loop1", 8, ())):
            room.good("balance", f"contrib/from-lvm lvs.json pvs.json {words}")
            last = room.planned(f"from-lvm {words}")
            bulk = {row[1]: sum(int(two) - int(one) + 1 for one, two in re.findall(r":(\d+)-(\d+)", row[3]))
                    for row in room.rows("names.csv") if row[0] == "item"}
            used = collections.Counter(dict.fromkeys((it for it in ("loop0", "loop1", "loop2") if it not in gone), 0))
            for item, (disk, _) in last.items():
                used[disk] += bulk[item]
            part = sum(used.values()) / len(used) / 255
            that(f"from-lvm {words}: each disk's part", set(used) == {"loop0", "loop1", "loop2"} - set(gone)
                 and all(abs(it / 255 - part) <= percent / 100 for it in used.values()), used)
        os.makedirs(room.path("mnt/a"))
        os.makedirs(room.path("mnt/b"))
        for words, said, status in cases("""
                from-lvm lvs.json pvs.json --balance 0 | --balance | 2
                from-lvm lvs.json pvs.json --balance 5 --spread | say one | 2
                from-folders mnt/* --size 2G | --size goes with --balance | 2
                from-folders mnt/* --balance 5 | are on one file system: say by --size | 1
                from-folders mnt/* --balance 5 --size much | 'much' is no number of bytes | 1"""):
            refused(room, words, f"contrib/{words}", said, status)


CASES = (time_left, a_real_run, what_places_say, what_is_measured, hooks, pauses, logs, sizes, balanced)

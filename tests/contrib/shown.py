"""Pictures, sums, and what progress tells of journals."""
import collections, fcntl, hashlib, os, re, time
import xml.etree.ElementTree as xml
from rooms import plan_of, page, same, that


def the_picture(room):
    room.example()
    svg = room.good("picture", "contrib/picture plan.txt disks.csv --cert cert.txt")
    same("the README's picture is that of its plan", page("docs/plan.svg"), svg)
    that("the README shows it", "](docs/plan.svg)" in page("README.md"))
    room.good("picture", "contrib/picture plan.txt disks.csv --cert cert.txt --out plan.svg")
    same("--out saves the same", room.read("plan.svg"), svg)
    texts = [it.text for it in xml.fromstring(svg).iter("{http://www.w3.org/2000/svg}text")]
    used = {disk: collections.Counter() for disk, *_ in room.rows("disks.csv")}
    for at, shifts in enumerate(room.shifts()):
        for it in shifts:
            used[it[1]][at], used[it[3]][at] = used[it[1]][at] + 1, used[it[3]][at] + 1
    limits = {disk: limit for disk, limit, _ in room.rows("disks.csv")}
    same("its numbers", [it for it in texts if "/" in it],
         [f"{count}/{limits[disk]}" for disk in used for _, count in sorted(used[disk].items())])
    same("its disks", [it for it in texts if it in used], list(used))
    that("its bound",
         "the bound, hdd1: it has 5 transfers and the limit 2, so no schedule has fewer than 3 rounds" in texts, texts)
    room.says("without a certificate the disks that need most", "contrib/picture plan.txt disks.csv",
              "2 disks: each needs 3 rounds for its own transfers, the most of all")
    # a set, and more in use than the limit
    room.write("d", "disk,limit,slots\na,1,4\nb,1,4\nc,1,4\n")
    room.write("c", "migration-certificate 1\nrounds 3\nquotient 2\nclass general\nbound set 3 3 3\na\nb\nc\nend\n")
    room.write("p", plan_of("x a 0 b 1, y b 0 c 1, z c 0 a 1"))
    svg = room.good("picture", "contrib/picture p d --cert c")
    that("a set is marked", svg.count('stroke="#c0392b"') == 3
         and "among these 3 disks are 3 transfers, so no schedule has fewer than 3 rounds" in svg, svg[-500:])
    that("more than the limit is shown", svg.count(">2/1<") == 3, svg)
    # 200 disks, and more rounds than columns
    room.write("d", "disk,limit,slots\n" + "".join(f"d{it},1,4\n" for it in range(200)))
    room.write("p", plan_of(*(f"i{it} d{it % 200} 0 d{(it + 1) % 200} 1" for it in range(1, 1001))))
    svg = room.good("picture", "contrib/picture p d")
    places = [float(it.get("y")) for it in xml.fromstring(svg).iter("{http://www.w3.org/2000/svg}text")
              if it.text in {f"d{n}" for n in range(200)}]
    that("200 disks are 200 rows apart", len(places) == 200 and min(b - a for a, b in zip(places, places[1:])) >= 11,
         places[:5])
    that("columns of several rounds", "first round of each column of 4 rounds" in svg)


SUMMARY = """moves 11
rounds 3
transfers by round
  rounds 1 to 2: 3 each
  round 3: 5
busiest disks
  hdd1: 5 transfers, limit 2, needs 3 rounds
  tape: 3 transfers, limit 1, needs 3 rounds
  hdd3: 5 transfers, limit 3, needs 2 rounds
  hdd2: 3 transfers, limit 2, needs 2 rounds
  ssd1: 4 transfers, limit 4, needs 1 round
  ssd2: 2 transfers, limit 4, needs 1 round
"""


def the_summary(room):
    room.example()
    same("summary of the README's plan", room.good("summary", "contrib/summary plan.txt disks.csv"), SUMMARY)
    same("summary without disks", room.good("summary", "contrib/summary plan.txt").splitlines()[6:8],
         ["  hdd1: 5 transfers", "  hdd3: 5 transfers"])
    # 3 rounds of 40 GiB at 120 MiB a second: 341.33 s each
    same("summary with a rate",
         room.good("summary", "contrib/summary plan.txt --bytes 40G --rate 120M").splitlines()[-1],
         "time 17 min 4 s: 3 rounds of 5 min 42 s each")
    # a queue that begins what it can: a-b and c-d wait for nothing, then b-c; the other order needs three
    room.write("d", "disk,limit,slots\na,1,4\nb,1,4\nc,1,4\nd,1,4\n")
    room.write("p", plan_of("x a 0 b 1, z c 0 d 1", "y b 0 c 1, w d 0 a 1"))
    for order, rounds in (("xyzw", 2), ("xzyw", 2)):
        room.write("n", "item,disk,slot\n" + "".join(f"{it},a,{at}\n" for at, it in enumerate(order)))
        same(f"a queue, {order}", room.good("summary", "contrib/summary p d --queue n").splitlines()[-1],
             f"rounds of first come, first served {rounds}")
    room.write("p", plan_of("x a 0 b 1, z c 0 d 1", "y b 2 c 1"))
    room.write("n", "item,disk,slot\ny,b,2\nx,a,0\nz,c,0\n")
    same("a queue that begins in the middle", room.good("summary", "contrib/summary p d --queue n").splitlines()[-1],
         "rounds of first come, first served 2")
    room.write("p", plan_of(*(", ".join(f"i{it}.{n} a {it} b {n}" for n in range(it % 2 + 1)) for it in range(1, 41))))
    that("many rounds are told in one line",
         "  least 1, median 2, most 2 (--all prints each round)\n" in room.good("summary", "contrib/summary p"))
    that("--all tells each", "  round 40: 1\n" in room.good("summary", "contrib/summary p --all"))


def journal(text, gate, marks):
    """The journal as docs tell it: the head in sector 0, the gate in sector 1, the mark of round n in sector n + 1."""
    cells = [hashlib.sha256(text.encode()).digest(), gate, *marks]
    return b"".join(it.ljust(512, b"\0") for it in cells)


def the_progress(room):
    room.example()
    plan = room.read("plan.txt")
    now = time.time() // 60 * 60

    def shows(name, gate, marks, wanted, words="", ago=0, status=0):
        room.write("journal.mig", journal(plan, gate, marks))
        os.utime(room.path("journal.mig"), (now - ago, now - ago))
        os.utime(room.path("plan.txt"), (now - 3000 - ago, now - 3000 - ago))
        held = room.read("journal.mig")
        ran = room.run(f"contrib/progress plan.txt {words}")
        that(f"progress, {name}", ran.returncode == status and re.fullmatch(wanted, ran.stdout if status == 0
                                                                            else ran.stderr), (ran, wanted))
        that(f"progress, {name}: it only reads",
             room.read("journal.mig") == held and abs(os.stat(room.path("journal.mig")).st_mtime - now + ago) < 0.01)

    since = "--since '" + time.strftime("%Y-%m-%d %H:%M", time.localtime(now - 3600)) + "'"
    shows("no round", b"\1", [b"", b"", b""],
          r"\[\.{30}\] 0 of 3 rounds, 0 of 11 items, time left not known yet: no round is done, nothing is at work "
          r"here\n")
    # 5 of 11 items in the hour to the last mark: 6 more take 72 minutes
    shows("a round", b"\1", [b"\1", b"", b""],
          r"\[#{8}\.{22}\] 1 of 3 rounds, 3 of 11 items, about 2 h 40 min left once it goes on, nothing is at work "
          r"here\n", since)
    shows("a mark after a gap does not count", b"\1", [b"\1", b"", b"\1"],
          r"\[#{8}\.{22}\] 1 of 3 rounds, 3 of 11 items, .*\n", since)
    shows("a mark of another byte", b"\1", [b"\2", b"\1", b"\1"], r".* 0 of 3 rounds, 0 of 11 items, .*\n")
    shows("done", b"\1", [b"\1", b"\1", b"\1"], r"\[#{30}\] 3 of 3 rounds, 11 of 11 items, done\n")
    shows("done, again and again", b"\1", [b"\1", b"\1", b"\1"], r"\[#{30}\] 3 of 3 rounds, 11 of 11 items, done\n",
          "--every 0.1")
    shows("the gate is not 1", b"\0", [b"\1", b"\1", b"\1"],
          r"progress: journal.mig says that no plan is being carried out, and none was finished\n", status=1)
    shows("another byte in the gate", b"\7", [b"\1", b"\1", b"\1"], r"progress: journal.mig says that no plan .*\n",
          status=1)
    room.write("journal.mig", journal(plan, b"\1", [b"\1", b"\1"]))
    that("a journal that ends early",
         " 2 of 3 rounds, 6 of 11 items" in room.good("progress", "contrib/progress plan.txt"))
    with open(room.path("journal.mig"), "rb") as held:
        fcntl.flock(held, fcntl.LOCK_EX)
        room.says("who is at work", "contrib/progress plan.txt", f"process {os.getpid()} is at work")
    room.write("other.txt", plan.replace("db2 ssd1 1 ssd2 2", "db2 ssd1 1 ssd2 3"))
    room.says("another plan", "contrib/progress other.txt",
              f"is of another plan, {hashlib.sha256(plan.encode()).hexdigest()}", status=1)
    os.unlink(room.path("journal.mig"))
    if room.run("./migrate fill disks.csv now.csv").returncode == 2:
        print("note: progress is tried with made journals alone: this program has no move")
    else:
        room.good("progress", "./migrate move disks.csv now.csv next.csv plan.txt")
        same("progress after a real move", room.good("progress", "contrib/progress plan.txt"),
             f"[{'#' * 30}] 3 of 3 rounds, 11 of 11 items, done\n")
        os.unlink(room.path("journal.mig"))
    room.says("no journal", "contrib/progress plan.txt", "journal.mig cannot be read: No such file or directory",
              status=1)


CASES = (the_picture, the_summary, the_progress)

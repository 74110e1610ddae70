"""Tries from-ceph and to-ceph: over recorded outputs, over made clusters, over maps that osdmaptool changes now. Each
command is judged by the model of ceph_model.py: Ceph must keep it, each group must be where the plan has it after each
round, and where AFTER has it at last."""
import copy, json, os, random, re, shutil
from ceph_model import NO_OSD, Cluster, Made, exceptions_in, filling, groups_in, numbers, up_of
from refusals import SMALL, lists
from limits_model import Case
from migrate_tools.ceph import groups
from rooms import Count, Room, page, refused, rows_of, shifts_of

FOUR = "before after dump crush"
FILES = "cp contrib/samples/ceph/{before,after,dump,crush} ."
CHANGES = int(os.environ.get("CHANGES", "20"))  # of made clusters; CHANGES=200 tries more
UNSET = "ceph osd unset norebalance".split()


def possible(cluster, name, chosen, osds):
    """Whether exceptions can put a group there, and Ceph keeps them."""
    if len(set(osds)) < len(osds) or not cluster.keeps(name, osds):
        return False
    to = {one: two for one, two in zip(chosen, osds) if one != two} if cluster.pool(name)[0] else {}
    for _ in range(len(to)):
        to = {one: two for one, two in to.items() if two in to}
    return not to


def rounds_of(printed):
    rounds = []
    for line in printed.splitlines():
        rounds.append([]) if line.startswith("# round ") else rounds[-1].append(line.split())
    return rounds


def group_of(item):
    return re.split("[-s]", item)[0]


def home_of(item, groups):
    """The OSD that an item is on, as its name says."""
    group, is_shard, at = re.fullmatch(r"([^-s]+)(s?)-?(\d+)", item).groups()
    return groups[group][1][int(at)] if is_shard else int(at)


def follow(name, cluster, groups, chosen, pairs, room, said, hold):
    """Carries out the commands of upmaps.sh. Gives the exceptions at the end."""
    rounds = shifts_of(room.read("plan.txt"))
    now = {item: home_of(item, groups) for item, *_ in rows_of(room.read("now.csv"))}
    waits = set(re.findall(r"placement group (\S+): what round .* since without", said))
    moved = {group_of(it[0]) for shifts in rounds for it in shifts}
    steps = rounds_of(room.good(name, "sh upmaps.sh -n"))
    Count.same(f"{name}: the flag is cleared once where all are held", sum(steps, []).count(UNSET), int(hold))
    Count.that(f"{name}: no more rounds", len(steps) <= len(rounds) + bool(hold), len(steps))
    at_rounds = [int(it) for it in re.findall(r"^# round (\d+)", room.good(name, "sh upmaps.sh -n"), re.M)]
    by_round = dict(zip(at_rounds, steps))
    for at in range(0 if hold else 1, len(rounds) + 1):
        commands = by_round.get(at, [])
        now.update({it[0]: int(it[3][4:]) for it in (rounds[at - 1] if at else [])})
        for words in commands:
            if words == UNSET:
                Count.that(f"{name}: the flag is cleared once all is held", hold and at == 0 and words is commands[-1])
                continue
            asked = [(int(one), int(two)) for one, two in zip(words[4::2], words[5::2])]
            form = ["ceph", "osd", "pg-upmap-items" if asked else "rm-pg-upmap-items"]
            Count.same(f"{name}: the form of {words}", words[:3], form)
            kept = cluster.kept(words[3], chosen[words[3]], asked)
            Count.same(f"{name}: what Ceph keeps of {' '.join(words)} in round {at}", kept, asked)
            pairs[words[3]] = kept
        planned = {}
        for item, osd in now.items():
            planned.setdefault(group_of(item), []).append(osd)
        for group in moved:
            there = up_of(chosen[group], pairs.get(group, []))
            held = group in waits and not possible(cluster, group, chosen[group], planned[group])
            is_there = held or cluster.same(group, there, planned[group])
            Count.that(f"{name}: round {at}, placement group {group}", is_there, (there, planned[group], held))
    return pairs


def change(name, room, cluster, hold, plan=None, words="", plain=""):
    """From the four files to the commands and their end. Gives the exceptions at the end, and the groups that were
    refused."""
    before, after = groups_in(room.read("before")), groups_in(room.read("after"))
    flag = "--hold" if hold else ""
    chosen = {it: chosen for it, (chosen, _) in (after if hold else before).items()}
    room.good(name, "rm -f plan.txt upmaps.sh")
    ran = room.run(f"contrib/from-ceph {FOUR} --leave-out {flag} {words}")
    refused_ = dict(re.findall(r"placement group ([0-9]\S*) (.*)", ran.stderr))
    is_good = ran.returncode == 0 or "no placement group is left" in ran.stderr
    if not Count.that(f"{name}: from-ceph", is_good, ran.stderr[-900:]):
        return {}, refused_, []
    for group, why in refused_.items():
        size, places = cluster.pool(group)[1], (before[group][1], after[group][1])
        holes = any(len(osds) < size or NO_OSD in osds for osds in places)
        ends = [after[group][1], *([before[group][1]] if hold else [])]
        bad = not all(possible(cluster, group, chosen[group], it) for it in ends)
        Count.that(f"{name}: {group} is refused with reason", holes or "once the change is made" in why or bad, why)
    moving = [it for it in before if it not in refused_ and not cluster.same(it, before[it][1], after[it][1])]
    if not moving:
        return {}, refused_, moving
    plan(room) if plan else room.planned(name)
    ran = room.run(f"contrib/to-ceph plan.txt {FOUR} {flag} {plain} --out upmaps.sh")
    Count.that(f"{name}: to-ceph", ran.returncode == 0, ran.stderr[-900:])
    pairs = follow(name, cluster, before, chosen, exceptions_in(room.read("dump")), room, ran.stderr, hold)
    for group in moving:
        there = up_of(chosen[group], pairs.get(group, []))
        Count.that(f"{name}: {group} is where AFTER has it", cluster.same(group, there, after[group][1]),
                   (there, before[group], after[group]))
    return pairs, refused_, moving


def the_answers_of_ceph():
    """The model says what a monitor said."""
    cluster = Cluster(page("contrib/samples/ceph/crush"), page("contrib/samples/ceph/dump"))
    for line in page("contrib/samples/ceph/answers").splitlines():
        name, *lists_ = line.split()
        chosen, asked, kept, up = (numbers(it.strip("[]")) for it in lists_)
        found = cluster.kept(name, chosen, list(zip(asked[::2], asked[1::2])))
        Count.same(f"the answer {line}", (found, up_of(chosen, found)), (list(zip(kept[::2], kept[1::2])), up))


def counted_as_ceph():
    """An item that moves counts at the OSD that Ceph says fills its group meanwhile, and at its target."""
    with Room() as room:
        room.good("Ceph", FILES)
        room.good("Ceph", f"contrib/from-ceph {FOUR}")
        cluster, next_ = Cluster(room.read("crush"), room.read("dump")), dict(rows_of(room.read("next.csv")))
        before, after, moves = groups_in(room.read("before")), groups_in(room.read("after")), 0
        gone = sum(len({*up} - {*after[name][1]}) for name, (_, up) in before.items())
        for item, disk, _ in rows_of(room.read("now.csv")):
            group, home = group_of(item), home_of(item, before)
            target, shards = int(next_[item][4:]), cluster.pool(group_of(item))[0]
            up = [target if it == home else it for it in before[group][1]]
            first = filling(shards, up, before[group][1]) if home != target else home
            Count.same(f"where {item} counts", disk, f"osd.{home if first == target else first}")
            moves += home != target
            Count.that(f"where {item} goes", target in after[group][1])
        Count.same("each that goes is an item that moves", moves, gone)
        room.good("Ceph", f"contrib/from-ceph {FOUR} --count given")
        for item, disk, _ in rows_of(room.read("now.csv")):
            Count.same(f"where {item} is", disk, f"osd.{home_of(item, before)}")


def limits_of_ceph():
    """Two limits for each OSD; one for both ends of a backfill only where it is counted at what gives copies up."""
    with Room() as room:
        room.good("Ceph", FILES)
        for words, wanted in (("", ("1,1", "1,1")), ("--backfills 1,2", ("1,2", "1,2")),
                              ("--backfills 3", ("3,3", "3,3")),
                              ("--backfills 2,3 --backfills osd.5=1,4", ("1,4", "2,3")),
                              ("--backfills 2 --backfills 5=3", ("3,3", "2,2")),
                              ("--backfills 5=7,1024 --count given", ("7,1024", "1,1")),
                              ("--backfills 4 --count given", ("4", "4"))):
            room.good("Ceph", f"contrib/from-ceph {FOUR} {words}")
            rows = {row[0]: ",".join(row[1:-1]) for row in rows_of(room.read("disks.csv"))}
            header = "disk,out,in,slots" if "," in wanted[0] else "disk,limit,slots"
            found = room.read("disks.csv").split("\n")[0], rows["osd.5"], rows["osd.8"]
            Count.same(f"from-ceph {words}", found, (header, *wanted))
            room.planned(f"from-ceph {words}")
        for words, said in (("--count given --backfills 2 --backfills 5=1,2", "osd.0 has one limit and osd.5 has two"),
                            ("--backfills 1,2,3", "'1,2,3' is neither a limit N nor two, OUT,IN"),
                            ("--backfills 1,", "'' is no number from 1 to 1024"),
                            ("--backfills 0,1", "'0' is no number"),
                            ("--backfills 1,1025", "'1025' is no number")):
            refused(room, "from-ceph", f"contrib/from-ceph {FOUR} {words}", f"--backfills: {said}")


def what_is_put_off():
    """What a round cannot have alone goes on until the limits are kept, and the plan with these rounds says so."""
    with Room() as room:
        room.good("put off", FILES)
        for limit in (1, 2):
            room.good("put off", f"contrib/from-ceph {FOUR} --backfills {limit}")
            room.planned("put off")
            ran = room.run(f"contrib/to-ceph plan.txt {FOUR} --rounds disks.csv carried.txt --out upmaps.sh")
            Count.that("moves are put off", ran.returncode == 0 and "is to move goes in round" in ran.stderr, ran)
            named = set(re.findall(r"group (\S+): what goes together is \d+ at (osd\.\d+)/(\w+), more", ran.stderr))
            case, rounds, over = Case(room.read), shifts_of(room.read("carried.txt")), set()
            for shifts in rounds:
                loads = case.loads((it[1], it[3]) for it in shifts)
                for side in (it for it, load in loads.items() if load > case.limits[it[0]][it[1]]):
                    its = {group_of(it[0]) for it in shifts if side in case.ends(it[1], it[3])}
                    Count.that(f"past the limit is one group alone, {side}", len(its) == 1, its)
                    over |= {(*its, *side)}
            Count.same(f"limit {limit}: what is past it is named", over, named)
            last = room.run("./migrate after disks.csv now.csv next.csv carried.txt")
            found = {it[0]: it[1] for it in rows_of(last.stdout)} if not over else last.stdout[:11]
            wanted = dict(rows_of(room.read("next.csv"))) if not over else "over limit "
            Count.same(f"limit {limit}: the program says how it ends", found, wanted)
            steps = rounds_of(room.good("put off", "sh upmaps.sh -n"))
            found = [{it[3] for it in commands} for commands in steps]
            Count.same("the script has these rounds", found, [{group_of(it[0]) for it in shifts} for shifts in rounds])


def recorded_ceph():
    cluster = Cluster(page("contrib/samples/ceph/crush"), page("contrib/samples/ceph/dump"))
    with Room() as room:
        room.good("Ceph", FILES)
        for words in ("", "--count given"):
            _, gone, moving = change(f"Ceph, recorded {words}", room, cluster, False, None, words)
            Count.that("shards and copies move, and none is refused", {it[0] for it in moving} == {*"345"} and not gone)
        room.good("Ceph", f"contrib/from-ceph {FOUR} --backfills 3 --backfills osd.5=1 --backfills 7=4,5")
        limits = {name: limit for name, *limit, _ in rows_of(room.read("disks.csv"))}
        wanted = [["1", "1"], ["4", "5"], ["3", "3"]]
        Count.same("the limits of OSDs", [limits[f"osd.{it}"] for it in (5, 7, 8)], wanted)
        whole, next_ = rows_of(room.read("now.csv")), dict(rows_of(room.read("next.csv")))
        room.good("Ceph", f"contrib/from-ceph {FOUR} --count given --moving")
        before = groups_in(room.read("before"))
        moving = [[it, next_[it]] for it, *_ in whole if f"osd.{home_of(it, before)}" != next_[it]]
        Count.same("--moving leaves out what stays", rows_of(room.read("next.csv")), moving)
        ends = {it[1] for name in ("now.csv", "next.csv") for it in rows_of(room.read(name))}
        Count.same("--moving has the OSDs of these alone", {it[0] for it in rows_of(room.read("disks.csv"))}, ends)
        Count.same("an item for each copy and shard", len(whole), 64 * 3 + 32 * 6 + 16 * 4)
        room.planned("Ceph, --moving")
        said = room.run(f"contrib/from-ceph {FOUR}").stderr
        Count.that("which --mark-out was taken", "after has osd.5 marked out; of several --mark-out" in said, said)
    with Room() as room:
        room.good("Ceph", "cp contrib/samples/ceph/before-new before && cp contrib/samples/ceph/before after && "
                  "cp contrib/samples/ceph/{dump,crush} .")
        change("Ceph, a new OSD, held", room, cluster, True)
        change("Ceph, a new OSD, held, --plain", room, cluster, True, plain="--plain")


def old_exceptions_of_ceph():
    """Exceptions of which one does nothing, since another brought its OSD first: by hand, what is on osd.10 stays
    there."""
    cluster = Cluster(SMALL["crush"], SMALL["epoch"])
    with Room() as room:
        for path, text in (("before", lists(("1.0", "2,4,8", "0,4,10"))), ("after", lists(("1.0", "4,7,8", "4,7,10"))),
                           ("dump", SMALL["epoch"] + "pg_upmap_items 1.0 [2,0,8,10,2,10]\n"), ("crush", SMALL["crush"]),
                           ("plan.txt", "migration-plan 1\nrounds 1\nround 1 1\n1.0-0 osd.0 0 osd.7 0\nend\n")):
            room.write(path, text)
        made = f"contrib/from-ceph {FOUR} --count given && contrib/to-ceph plan.txt {FOUR} --out s && sh s -n"
        printed = room.good("old exceptions", made).split()
        pairs = list(zip(map(int, printed[7::2]), map(int, printed[8::2])))
        found = sorted(up_of([2, 4, 8], pairs)), cluster.kept("1.0", [2, 4, 8], pairs)
        Count.same("old exceptions", found, ([4, 7, 10], pairs))


# six hosts of two OSDs, osd.0 and osd.1 on h0 and so on: where CRUSH has a group before and after; more of the dump;
# and the exceptions that bring it there, or why there are none
ODD = (("another weight is not out", "0,2,4", "0,2,8", "osd.8 up   in  weight 0.95 up_from 0\n", "1.0 4 8"),
       ("out", "0,2,4", "0,2,8", "osd.8 up   out weight 0 up_from 0\n", "osd.8 is out, or has no weight below default"),
       ("no weight", "0,2,4", "0,2,11", "", "osd.11 is out, or has no weight below default"),
       ("not below the rule's root", "0,2,4", "0,2,12", "", "osd.12 is out, or has no weight below default"),
       ("a host each, then as they come", "0,2,4", "1,8,10", "", "1.0 0 1 2 8 4 10"),
       ("a host before a rack", "0,2,4", "8,10,1", "", "1.0 0 1 2 8 4 10"),
       ("a rack before the root", "0,4,8", "2,10,6", "", "1.0 0 2 4 6 8 10"))


def odd_clusters():
    """Weights, outs, places beside the rule's root, and who takes whose place: within a host, then a rack."""
    crush = json.loads(SMALL["crush"])
    crush["types"].insert(2, {"type_id": 3, "name": "rack"})
    crush["buckets"][0]["items"] = [{"id": -20 - it, "weight": 1} for it in range(3)]
    crush["buckets"] += [{"id": -20 - it, "type_name": "rack", "name": f"r{it}",
                          "items": [{"id": 2 * it - 9 + at, "weight": 1} for at in range(2)]} for it in range(3)]
    with Room() as room:
        room.keep("crush", crush)
        for name, before, after, more, wanted in ODD:
            for path, text in (("before", lists(("1.0", before))), ("after", lists(("1.0", after))),
                               ("dump", SMALL["epoch"].replace("out weight 0", "in  weight 1") + more)):
                room.write(path, text)
            if "osd" in wanted:
                refused(room, name, f"contrib/from-ceph {FOUR}", wanted)
                continue
            room.good(name, f"contrib/from-ceph {FOUR}")
            room.planned(name)
            made = f"contrib/to-ceph plan.txt {FOUR} --out s && sh s -n | tail -n 1"
            Count.same(name, room.good(name, made), f"ceph osd pg-upmap-items {wanted}\n")
        # 2 went to 0 and then 0 to 10 does nothing, as 0 was not chosen; 8 goes by the next one
        room.write("dump", SMALL["epoch"] + "pg_upmap_items 1.0 [2,0,0,10]\n")
        room.write("before", lists(("1.0", "2,4,8", "0,4,8")))
        room.write("after", lists(("1.0", "2,4,8", "0,4,8")))
        room.good("a chain of two does one thing", f"contrib/from-ceph {FOUR}")
        room.write("before", lists(("1.0", "2,4,8", "10,4,8")))
        refused(room, "a chain taken on", f"contrib/from-ceph {FOUR}", "its exceptions put placement group 1.0 else")


# a running cluster's: of some groups the OSDs that CRUSH chose, and which of them was the primary, where osd.2, 5, 8
# and 9 have an affinity of 0.5, and osd.6 of 0
SHY = """2.1 4,10,2 0; 2.6 2,0,4 1; 2.7 8,0,2 0; 2.9 6,2,10 2; 2.a 2,4,0 1; 2.d 6,8,2 2; 2.f 6,2,8 1; 2.1a 4,8,2 0;
2.1b 6,8,0 2; 2.1d 6,4,0 1; 2.1e 2,0,8 0; 2.1f 2,4,6 0; 3.3 9,5 0; 3.4 9,3 1; 3.8 5,1 0; 5.3 2,10,1 0; 5.4 8,5,2 0;
5.5 5,9,10 1; 5.8 5,1,6 1; 5.9 10,0,5 0; 5.c 8,6,5 0; 5.f 2,0,5 0"""


def shy_primaries():
    """Who fills a group where OSDs have a primary affinity, for each group of its own: what Ceph draws, and 0 never."""
    pools = "".join(f"pool {it} 'p' replicated size 3 min_size 2 crush_rule 0 object_hash rjenkins pg_num 32 pgp_num "
                    f"{count} flags hashpspool stripe_width 0\n" for it, count in ((2, 32), (3, 16), (5, 16)))
    osds = "".join(f"osd.{it} up   in  weight 1 primary_affinity {part} up_from 16\n"
                   for it, part in ((2, 0.5), (5, 0.5), (6, 0), (8, 0.5), (9, 0.5)))
    with Room() as room:
        room.write("dump", pools + osds)
        shy = groups.read_shy(room.path("dump"))
    for name, chosen, wanted in (it.split() for it in SHY.split(";")):
        found = [at for at, osd in enumerate(numbers(chosen)) if osd not in shy(name)]
        Count.same(f"the primary of {name}", [*found, 0][0], int(wanted))
    Count.same("groups that are placed as one", shy("3.14"), shy("3.4"))
    for affinity, wanted in (("", "osd.0"), ("0", "osd.2"), ("0.999999", "osd.0")):
        with Room() as room:
            said = f"osd.0 up   in  weight 1 primary_affinity {affinity} up_from 0\n" if affinity else ""
            for path, text in (("before", lists(("1.0", "0,2,4", "0,2,4"))), ("crush", SMALL["crush"]),
                               ("after", lists(("1.0", "0,2,8", "0,2,8"))), ("dump", SMALL["epoch"] + said)):
                room.write(path, text)
            room.good("affinity", f"contrib/from-ceph {FOUR} --moving")
            Count.same(f"affinity {affinity}", rows_of(room.read("now.csv")), [["1.0-4", wanted, "0"]])


def byte_sizes_of_ceph():
    """A copy is whole, a shard has its part: by the dump's stripe widths."""
    with Room() as room:
        room.good("sizes", FILES)
        size = {it: 1000 + at for at, it in enumerate(groups_in(room.read("before")))}
        room.keep("pgs", {"pg_stats": [{"pgid": it, "stat_sum": {"num_bytes": size[it]}} for it in size]})
        room.good("sizes", f"contrib/from-ceph {FOUR} --sizes pgs")
        form = r"^pool (\d+) .* stripe_width (\d+)"
        parts = {pool: int(width) // 4096 or 1 for pool, width in re.findall(form, room.read("dump"), re.M)}
        wrong = [item for item, bytes_ in rows_of(room.read("bytes.csv"))
                 if int(bytes_) != -(-size[group_of(item)] // parts[item.split(".")[0]])]
        Count.same("bytes of copies and shards", (wrong, {*parts.values()} > {1}), ([], True))


def at_random(rnd):
    """A plan of rounds at random, which keeps no limit: so more states come between than in a good one."""
    def plan(room):
        next_, rounds, used = dict(rows_of(room.read("next.csv"))), [[] for _ in range(rnd.randrange(1, 7))], 100
        groups = groups_in(room.read("before"))
        for item, disk, slot in rows_of(room.read("now.csv")):
            if next_[item] != f"osd.{home_of(item, groups)}":
                used += 1
                rnd.choice(rounds).append(f"{item} {disk} {slot} {next_[item]} {used}\n")
        rounds = [it for it in rounds if it]
        body = "".join(f"round {at} {len(it)}\n{''.join(it)}" for at, it in enumerate(rounds, 1))
        room.write("plan.txt", f"migration-plan 1\nrounds {len(rounds)}\n{body}end\n")
    return plan


def changed(made, rnd, hold):
    """The cluster with an OSD out, or other weights. An OSD that is out cannot hold."""
    new, osds = copy.deepcopy(made), rnd.sample(sorted(made.host), min(len(made.host), rnd.randrange(1, 6)))
    if not hold and rnd.random() < 0.7:
        new.out.add(osds.pop())
    for osd in osds:
        new.weight[osd] = rnd.choice([0.25, 0.5, 2, 3] if hold else [0, 0.25, 0.5, 2])
    if hold and osds:
        made.weight[osds[0]] = 0  # it is new
        made.clean()
        new.pairs = copy.deepcopy(made.pairs)
    new.clean()
    return new


def made_ceph():
    """Changes of made clusters with 4 to 40 hosts. Every second plan is the program's, some for limits apart, and some
    counted at what gives copies up; the others are at random. Some scripts are plain."""
    ended = refusals = 0
    with Room() as room:
        for seed in range(CHANGES):
            rnd = random.Random(seed)
            made = Made(rnd, rnd.choice([4, 5, 6, 7, 8, 10, 12, 16, 24, 40]))
            hold, name = seed % 3 == 2, f"made cluster {seed}"
            for group in rnd.sample(sorted(groups_in(made.groups(6))), 10):
                pairs = [(rnd.choice(made.choose(group)), rnd.randrange(len(made.host)))
                         for _ in range(rnd.choice([1, 1, 2, 4]))]
                made.pairs[group] = [(one, two) for one, two in pairs if one != two]
            made.clean()
            new = changed(made, rnd, hold)
            now = new if hold else made
            for path, text in (("before", made.groups(6)), ("after", new.groups(6)), ("dump", now.dump()),
                               ("crush", now.crush())):
                room.write(path, text)
            cluster, after, last = now.cluster(), groups_in(room.read("after")), new.cluster()
            words = f"--backfills {rnd.randrange(1, 4)},{rnd.randrange(1, 4)}" if seed % 4 == 1 else ""
            words += " --count given" * (seed % 5 == 0)
            plan = None if seed % 2 else at_random(rnd)
            pairs, gone, moving = change(name, room, cluster, hold, plan, words, "--plain" * (seed % 4 == 3))
            for group in moving:
                kept = last.kept(group, after[group][0], pairs.get(group, []))
                there = up_of(after[group][0], kept, new.out)
                Count.that(f"{name}: {group} stays where AFTER has it once the change is made",
                           cluster.same(group, there, after[group][1]), (there, after[group], pairs.get(group)))
            ended, refusals = ended + len(moving), refusals + len(gone)
    Count.that("the made clusters try much, and refuse little", ended > 4 * CHANGES and ended > refusals, ended)


def real_ceph():
    """The recorded map, changed by osdmaptool now: OSDs out, weights changed, an OSD new."""
    if not shutil.which("osdmaptool") or not shutil.which("crushtool"):
        return print("note: Ceph is tried with recorded outputs and made clusters alone: no osdmaptool")
    with Room() as room:
        for name in ("osdmaptool", "crushtool", "ceph"):
            os.unlink(room.path(f"bin/{name}"))
        dump = "--clear-temp --upmap-cleanup cleanup --test-map-pgs-dump-all"
        for first, second, hold in (
                ("", "--mark-out 5", False), ("", "--adjust-crush-weight 3:0.5,4:0,30:2", False),
                ("", "--mark-out 0 --adjust-crush-weight 19:0.5", False), ("--adjust-crush-weight 31:0", "", True),
                ("", "--adjust-crush-weight 7:0.5,8:0.75", True),
                ("--adjust-crush-weight 0:0,1:0,2:0,3:0", "", True)):
            name = f"real Ceph, {first or 'as it is'} to {second or 'as it is'} {'held' * hold}"
            room.good(name, "cp contrib/samples/ceph/map one && cp one two")
            for path, at in (("before", f"one {first}"), ("after", f"two {second}")):
                room.good(name, f"osdmaptool {at} --save {dump} >{path} 2>said")
            now = "two" if hold else "one"
            room.good(name, f"osdmaptool {now} --print >dump 2>said && osdmaptool {now} --export-crush crush.bin >said "
                      "2>&1 && crushtool -i crush.bin --dump >crush")
            change(name, room, Cluster(room.read("crush"), room.read("dump")), hold)


CASES = (made_ceph, recorded_ceph, counted_as_ceph, limits_of_ceph, what_is_put_off, the_answers_of_ceph,
         old_exceptions_of_ceph, odd_clusters, shy_primaries, byte_sizes_of_ceph, real_ceph)

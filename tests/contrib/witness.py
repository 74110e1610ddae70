"""Tries witness: what it writes is judged by the program, and its bound compared with the best one of all sets of
disks, counted here one by one. CASES=300 in the environment tries as many made cases; else it is 30."""
import collections, os, random, re
from rooms import Room, cases, plan_of, refused, same, that

CHECK = "./migrate check disks.csv now.csv next.csv plan.txt"


def write_case(room, limits, moves):
    """The three files of these limits, joint ones, and a move for each pair of disks."""
    used = collections.Counter(it for move in moves for it in move)
    room.write("disks.csv",
               "disk,limit,slots\n" + "".join(f"d{it},{limit},{used[it] + 1}\n" for it, limit in enumerate(limits)))
    slots, now = collections.Counter(), []
    for at, (source, _) in enumerate(moves):
        now.append(f"i{at},d{source},{slots[source]}\n")
        slots[source] += 1
    room.write("now.csv", "item,disk,slot\n" + "".join(now))
    room.write("next.csv", "item,disk\n" + "".join(f"i{at},d{target}\n" for at, (_, target) in enumerate(moves)))


def made_case(rnd):
    """Up to 13 disks, most with odd limits; cycles of moves through some groups of them, and a few moves besides."""
    disks, moves = rnd.randrange(6, 14), []
    limits = [rnd.choice([1, 1, 1, 3]) for _ in range(disks)] if rnd.random() < 0.3 else [1] * disks
    for _ in range(rnd.choice([1, 2])):
        group = rnd.sample(range(disks), rnd.choice([4, 5, 5, 5, 6, 7][:disks - 2]))
        for _ in range(rnd.randrange(2, 9)):
            rnd.shuffle(group)
            moves += [rnd.choice([move, move[::-1]]) for move in zip(group, group[1:] + group[:1])]
    return limits, moves + [tuple(rnd.sample(range(disks), 2)) for _ in range(rnd.randrange(12))]


def best_of_all(limits, moves):
    """The most rounds that a disk, or a set of disks, needs. Sets are numbers, with a bit for each disk."""
    joined, loads = collections.Counter(map(frozenset, moves)), collections.Counter(it for move in moves for it in move)
    most, sums, within = max(-(-loads[it] // limits[it]) for it in loads), [0], [0]
    for last, limit in enumerate(limits):
        more = [0]
        for it in range(last):
            more += [count + joined[frozenset((it, last))] for count in more]
        within += [a + b for a, b in zip(within, more)]
        sums += [it + limit for it in sums]
    return max(most, *(-(-count // (total // 2)) for count, total in zip(within, sums) if total > 1))


def value_of(cert):
    return int(re.search(r"^bound .* (\d+)$", cert, re.M)[1])


def made_witnesses():
    less = found = bounded = 0
    with Room() as room:
        for seed in range(int(os.environ.get("CASES", 30))):
            limits, moves = made_case(random.Random(seed))
            write_case(room, limits, moves)
            printed = room.good("witness",
                                f"./migrate plan disks.csv now.csv next.csv plan.txt cert.txt; {CHECK} cert.txt; "
                                f"contrib/witness plan.txt disks.csv cert.txt --seconds 1e9 --out best.txt 2>said; "
                                f"{CHECK} best.txt")
            verdict, own, shown, best = re.findall("^(optimal|bounded)$", printed, re.M), value_of(printed), value_of(
                room.read("best.txt")), best_of_all(limits, moves)
            rounds = int(room.read("plan.txt").split()[3])
            bounded += verdict[0] == "bounded"
            less += own < best
            found += own < best == shown
            same(f"made case {seed}: its bound", shown, best)
            same(f"made case {seed}: the verdict", verdict,
                 ["optimal" if own == rounds else "bounded", "optimal" if best == rounds else "bounded"])
    print(f"note: {bounded} plans were bounded; the program's bound was less than that of all sets in {less} cases, "
          f"and witness found that of all sets in {found} of them")
    that("some bounds are better", found == less > 0, (less, found))


# 60 moves among five disks, 25 at the busiest
PENTAGON = [(a, b) for a in range(5) for b in range(a)] * 6 + [(4, 5), (5, 6), (6, 0)]


def the_answers_of_witness(room):
    """What it says, and that it writes the certificate as it is where it finds nothing."""
    def says(name, said, words="plan.txt disks.csv cert.txt"):
        ran = room.run(f"contrib/witness --seconds 1e9 {words}")
        that(f"witness, {name}", ran.returncode == 0 and ran.stderr == f"witness: {said}\n", ran)
        return ran.stdout

    write_case(room, [1] * 7, PENTAGON)
    room.good("witness", "./migrate plan disks.csv now.csv next.csv plan.txt cert.txt")
    cert = room.read("cert.txt")
    found = says("a set", "a set of 5 disks needs 30 rounds, where 25 were shown; the plan has 30, so it is optimal")
    same("the set", found, cert.split("bound")[0] + "bound set 5 60 30\nd0\nd1\nd2\nd3\nd4\nend\n")
    same("no time", says("no time", "the time is over; the best bound so far is 25 rounds, and the plan has 30",
                         "plan.txt disks.csv cert.txt --seconds 0"), cert)
    room.write("less.txt", cert.replace("bound disk d0 25 1 25", "bound disk d5 2 1 2"))
    that("a certificate with a poor bound",
         says("a poor bound",
              "a set of 5 disks needs 30 rounds, where 2 were shown; the plan has 30, so it is optimal",
              "plan.txt disks.csv less.txt") == found)
    room.write("best.txt", found)
    same("optimal already",
         says("optimal",
              "the plan has 30 rounds, which the bound shows to be needed: it is optimal, and there is no "
              "better bound", "plan.txt disks.csv best.txt"), found)
    # the Petersen graph: three rounds for each disk, and no schedule with three
    write_case(room, [1] * 10,
               [(a, (a + 1) % 5) for a in range(5)] + [(a, a + 5) for a in range(5)]
               + [(a + 5, (a + 2) % 5 + 5) for a in range(5)])
    room.good("witness", "./migrate plan disks.csv now.csv next.csv plan.txt cert.txt")
    same("no better bound",
         says("no better bound",
              "no set of disks needs more than 3 rounds; the plan has 4, and a shorter one may or may not exist"),
         room.read("cert.txt"))
    for words, said in cases("""
            plan.txt disks.csv best.txt | best.txt is the certificate of another plan
            plan.txt now.csv cert.txt | does not begin with the row
            plan.txt disks.csv now.csv | now.csv is no certificate for disks with one limit
            plan.txt disks.csv cert.txt --out cert.txt | cert.txt was read, and is not written over
            twice.txt disks.csv cert.txt | i0 moves twice, which no plan
            still.txt disks.csv cert.txt | i0 stays on its disk"""):
        room.write("twice.txt", plan_of("i0 d0 0 d1 1", "i0 d1 1 d2 1"))
        room.write("still.txt", plan_of("i0 d0 0 d0 1"))
        refused(room, "witness", f"contrib/witness {words}", said)
    # an outgoing and an incoming limit
    room.write("disks.csv", "disk,out,in,slots\n" + "".join(f"d{it},1,2,9\n" for it in range(10)))
    room.good("witness", "./migrate plan disks.csv now.csv next.csv plan.txt cert.txt")
    same("split limits",
         says("split limits",
              "the disks have an outgoing and an incoming limit each; then one side of a disk always shows "
              "the best bound, and there is no better one"), room.read("cert.txt"))


CASES = (made_witnesses, the_answers_of_witness)

"""What tests/session tries with plans of small clusters: what `plan` saves and prints (status 0), and what `check` and
`after` say of it, and of plans and certificates that are wrong (status 1) or are none (status 10)."""
from session_inputs import cert_text, cluster, layout_text, names, plan_text
from session_rooms import Count, Room

PLAN, CHECK, AFTER = "plan D N X P C", "check D N X P C", "after D N X P"
TWO, THREE_MOVE, TWO_NEEDED = "a,2,4 b,2,4", "x a 0 b 0, y a 1 b 1, z a 2 b 2", "2 2 even disk a 3 2 2"
RING, RING_MOVES, RING_NEEDS = "a,1,2 b,1,2 c,1,2", "x a 0 b 1, y b 0 c 1, z c 0 a 1", "3 2 general set 3 3 3 a b c"
BOTH_WAYS, IN_TWO = "w a 0 b 2, x b 1, y a 3 b 3, z b 0 a 1", [[2, 1], [1, 2]]

# the disks; the items, each with its spot and where it goes with the spot there; the shifts of each round, as one of
# these, where that is settled; and the certificate, or one for each number of rounds that there may be
PLANNED = [
    (TWO, THREE_MOVE, IN_TWO, TWO_NEEDED),
    ("a,2,4", "x a 0", [[]], "0 0 even nothing"),
    ("", "", [[]], "0 0 even nothing"),
    (RING, RING_MOVES, [[1, 1, 1]], RING_NEEDS),
    (RING.replace("1,", "2,"), RING_MOVES, [[3]], "1 1 even disk a 2 2 1"),
    # an outgoing and an incoming limit for each disk: the three items reach b one after the other
    ("a,2,1,4 b,1,1,4", THREE_MOVE, [[1, 1, 1]], "3 3 duplex side b in 3 1 3"),
    ("a,2,1,4 b,1,2,4", THREE_MOVE, IN_TWO, "2 2 duplex side a out 3 2 2"),
    ("a,1,1,2 b,1,1,2 c,1,1,2", RING_MOVES, [[3]], "1 1 duplex side a out 1 1 1"),
    # limits that differ by the side: a gives two at a time
    ("a,2,1,4 b,1,2,4 c,1,1,4", BOTH_WAYS, [[3]], "1 1 duplex side a out 2 2 1"),
    ("a,2,3,4", "x a 0", [[]], "0 0 duplex nothing"),
    # a ring of five disks of limit 1
    ("a,1,2 b,1,2 c,1,2 d,1,2 e,1,2", "v a 0 b 1, w b 0 c 1, x c 0 d 1, y d 0 e 1, z e 0 a 1",
     [[2, 2, 1], [2, 1, 2], [1, 2, 2]], "3 2 general set 5 5 3 a b c d e"),
    # the last slot of a disk is taken
    ("a,1,2 b,1,2", "x a 0 b 1, y b 0", [[1]], "1 1 general disk a 1 1 1"),
    # two triangles without a move between them: the first one is the bound
    ("a,1,2 b,1,2 c,1,2 d,1,2 e,1,2 f,1,2", "u a 0 b 1, v b 0 c 1, w c 0 a 1, x d 0 e 1, y e 0 f 1, z f 0 d 1",
     [[2, 2, 2]], RING_NEEDS),
    # the third disk takes no part, and its limit counts for nothing
    ("a,2,4 b,4,4 c,1,4", BOTH_WAYS, IN_TWO, "2 2 even disk a 3 2 2"),
    ("a,4,4 b,2,4 c,6,4", BOTH_WAYS, IN_TWO, "2 2 even disk b 3 2 2"),
    ("a,3,4 b,4,4 c,2,4", BOTH_WAYS, [[3]], "1 1 general disk a 3 3 1"),
    ("a,4,4 b,1,4 c,2,4", BOTH_WAYS, [[1, 1, 1]], "3 3 general disk b 3 1 3"),
    # Petersen's graph, whose fifteen edges cannot be coloured with three colours
    (" ".join(f"{ring}{n},1,3" for ring in "ab" for n in range(5)),
     "o0 a0 0 a1 2, s0 a0 1 b0 1, n0 b0 0 b2 1, o1 a1 0 a2 2, s1 a1 1 b1 1, n1 b1 0 b3 1, o2 a2 0 a3 2, s2 a2 1 b2 2, "
     "n2 b2 0 b4 1, o3 a3 0 a4 2, s3 a3 1 b3 2, n3 b3 0 b0 2, o4 a4 0 a0 2, s4 a4 1 b4 2, n4 b4 0 b1 2",
     None, "4 3 general disk a0 3 1 3"),
    # one disk of limit 4 gives to three of limit 1; the last disk, of an odd limit, takes no part
    ("h,4,9 p,1,3 q,1,3 r,1,3 s,7,1",
     "t h 0 p 0, u h 1 p 1, v h 2 p 2, w h 3 q 0, x h 4 q 1, y h 5 q 2, z h 6 r 0, k h 7 r 1, l h 8 r 2",
     None, "3 3 general disk h 9 4 3"),
    # each of three disks has two ends; the last one has the least limit
    ("a,9,4 b,2,4 c,1,4", "x a 0 b 1, y b 0 c 0, z a 1 c 1", None,
     "2 2 general disk c 2 1 2", "3 2 general disk c 2 1 2"),
    # a triangle of limits 2, and one of limits 1, which needs more rounds
    ("a,2,2 b,2,2 c,2,2 d,1,2 e,1,2 f,1,2", "x d 0 e 1, y e 0 f 1, z f 0 d 1, u a 0 b 1, v b 0 c 1, w c 0 a 1",
     None, "3 2 general set 3 3 3 d e f"),
    # two rings of five, each on every other disk: the one with the first disk is the bound
    (" ".join(f"{disk},1,2" for disk in "abcdefghij"),
     "v b 0 d 1, w d 0 f 1, x f 0 h 1, y h 0 j 1, z j 0 b 1, q a 0 c 1, r c 0 e 1, s e 0 g 1, t g 0 i 1, u i 0 a 1",
     None, "3 2 general set 5 5 3 a c e g i"),
]


def ends(room, name, line, status, text):
    Count.ended(f"{line}: {name}", room.run(*line.split()), status, text)


def is_optimal(cert):
    """Whether the rounds are as many as the bound says."""
    rounds, _, _, *bound = cert.split()
    return rounds in ("0", bound[3] if bound[0] == "set" else bound[-1])


def ends_planned(room, name, *certs):
    """A plan ends with one of these certificates, which is saved, and `check` counts the same. Gives that one."""
    ran = room.run(*PLAN.split())
    cert = next((it for it in certs if cert_text(it).encode() == ran.out), certs[0])
    Count.ended(f"plan {name}", ran, 0, cert_text(cert))
    Count.same(f"{name}: the certificate is saved", room.read("C"), cert_text(cert).encode())
    ends(room, name, CHECK, 0, "optimal\n" if is_optimal(cert) else "bounded\n")
    return cert


def is_planned(room, files, items, sizes, *certs):
    """The certificate, the text of the plan, its shifts and its rounds, and the last layout."""
    names(room, files)
    cert = ends_planned(room, items, *certs)
    Count.same(f"{items}: the disks stay", room.read("D"), files[0].encode())
    plan = room.read("P").decode()
    rounds = [it.split("\n")[1:-1] for it in plan.replace("end\n", "round ").split("round ")[1:-1]]
    Count.same(f"{items}: the plan's text", plan, plan_text(" / ".join(map(", ".join, rounds))))
    shifts = [it for it in items.split(", ") if len(it.split()) == 5]
    Count.same(f"{items}: its shifts", sorted(sum(rounds, [])), sorted(shifts))
    Count.same(f"{items}: how many rounds", len(rounds), int(cert.split()[0]))
    Count.that(f"{items}: its rounds", not sizes or [*map(len, rounds)] in sizes, plan)
    ends(room, items, AFTER, 0, layout_text(items))


def planned(program):
    """What is planned as stated; and the first cluster once more, as a spreadsheet saves it."""
    with Room(program) as room:
        for disks, items, sizes, *certs in PLANNED:
            is_planned(room, cluster(disks, items), items, sizes, *certs)
        files = ["\ufeff" + it.replace("\n", "\n\n", 1).replace("a,2,4", '"a",2,4') for it in cluster(TWO, THREE_MOVE)]
        is_planned(room, [it.replace("\n", "\r\n") for it in files], THREE_MOVE, IN_TWO, TWO_NEEDED)


def drawn(disks, items):
    """A cluster of disks d0, d1, .. by their limits and slots, and of items by their disk, slot and next disk."""
    return cluster(" ".join(f"d{at},{limit},{slots}" for at, (limit, slots) in enumerate(disks)),
                   ", ".join(f"i{disk}-{slot} d{disk} {slot} d{target}" for disk, slot, target in items))


def exchange(limits, each, guest):
    """Disks of which each gives so many items to each other one, and the first one also one to a guest of limit 1."""
    others = [[it for it in range(len(limits)) if it != disk for _ in range(each)] for disk in range(len(limits))]
    items = [(disk, slot, target) for disk, targets in enumerate(others) for slot, target in enumerate(targets)]
    return drawn([*((limit, 4096) for limit in limits), *[(1, 1)] * guest], [*items, *[(0, 4095, len(limits))] * guest])


# the limits, the items of each pair and whether there is a guest; and the certificate: the rounds are as few as can be,
# which no promise of the planner says
EXCHANGES = [
    # of 600 moves a round has at most 7 of the 15 ends that the limits allow: 86 rounds
    ([3] * 5, 30, False, "86 80 general set 5 600 86 d0 d1 d2 d3 d4"),
    # a disk of limit 1 has 240 ends; those of limit 8 have as many, which none of their copies may have alone
    ([8, 1, 8, 1, 8], 30, False, "240 240 general disk d1 240 1 240"),
    # of the 400 moves inside the first five disks a round has two, and no bound but that of these five shows it
    ([1] * 5, 20, True, "200 161 general disk d0 161 1 161"),
    # 576 moves, 22 in a round
    ([5] * 9, 8, False, "27 26 general set 9 576 27 d0 d1 d2 d3 d4 d5 d6 d7 d8"),
    ([7, 5, 3, 1, 1, 3, 5], 10, False, "120 120 general disk d3 120 1 120"),
]


def few_rounds(program):
    """Odd limits; limits that are lowered to even ones; two sides, a and c, and b and d, whose items go both ways."""
    with Room(program) as room:
        for limits, each, guest, cert in EXCHANGES:
            names(room, exchange(limits, each, guest))
            ends_planned(room, f"limits {limits}", cert)
        items = [f"{disk}{n} {disk} {n} {to}" for disk, to in ("ab", "bc", "ca") for n in range(10)]
        names(room, cluster("a,5,20 b,5,20 c,5,20", ", ".join(items)))
        ends_planned(room, "lowered limits", "5 4 general set 3 30 5 a b c")
        names(room, cluster("a,1,9 b,3,9 c,1,9 d,3,9", "u a 0 b, v b 0 a, w b 1 c, x c 0 d, y d 0 c, z d 1 a"))
        ends_planned(room, "two sides", "3 3 general disk a 3 1 3")


def many_items(program):
    """4,096 items on 16 disks, each into the slot that lies 256 higher; and the most items, with a round for each."""
    with Room(program) as room:
        moves = [(disk, slot, (disk + 1 + slot % 15) % 16) for slot in range(256) for disk in range(16)]
        names(room, drawn([(4, 512)] * 16, moves))
        ends_planned(room, "4096 items", "128 128 even disk d0 512 4 128")
        moved = [f"i{disk}-{slot} d{to} {slot + 256}" for disk, slot, to in moves]
        ends(room, "4096 items", AFTER, 0, layout_text(", ".join(moved)))
        names(room, drawn([(1, 65536)] * 2, [(0, slot, 1) for slot in range(65536)]))
        ends_planned(room, "the most items", "65536 65536 general disk d0 65536 1 65536")


# What is judged

HEAD, CERT = "migration-plan 1\n", "migration-certificate 1\n"
TWO_ROUNDS = plan_text("x a 0 b 0, y a 1 b 1 / z a 2 b 2")
THREE_ROUNDS = plan_text("x a 0 b 0 / y a 1 b 1 / z a 2 b 2")
RING_ROUNDS = plan_text(RING_MOVES.replace(", ", " / "))

# the disks, the items, a plan that runs, and its certificate
THREE = (TWO, THREE_MOVE, TWO_ROUNDS, TWO_NEEDED)
TURN = (RING, RING_MOVES, plan_text(RING_MOVES.replace(", ", " / ")), RING_NEEDS)
SPLIT = ("a,2,1,4 b,1,1,4", THREE_MOVE, THREE_ROUNDS, "3 3 duplex side b in 3 1 3")

# these, a plan in place of theirs, and how `check` and `after` blame it
STOPPED = [
    (THREE, "x a 0 b 0, y a 1 b 1, z a 2 b 2 /", "over limit round 1 disk a count 3"),
    (THREE, "x a 0 b 0 / y a 1 b 1 / z a 2 b 2 /", "empty round 4"),
    (THREE, "x a 3 b 0, y a 1 b 1 / z a 2 b 2", "not here round 1 item x"),
    (THREE, "x a 0 b 0, x a 0 b 1 / z a 2 b 2", "twice in round 1 item x"),
    (THREE, "x a 0 b 0, y a 1 b 0 / z a 2 b 2", "slot not free round 1 item y"),
    (THREE, "x a 0 b 0, y a 1 b 1 / z a 2 b 4", "slot not free round 2 item z"),
    (THREE, "x a 0 a 1 / y a 1 b 1", "slot not free round 1 item x"),
    (THREE, "x a 0 b 65535", "slot not free round 1 item x"),
    (THREE, " ", "empty round 1"),
    (THREE, "", "wrong end item x"),
    (THREE, "x a 0 b 0, y a 1 b 1", "wrong end item z"),
    (TURN, "x a 0 b 1, y b 0 c 1 / z c 0 a 1", "over limit round 1 disk b count 2"),
    (SPLIT, "x a 0 b 0, y a 1 b 1, z a 2 b 2", "over limit round 1 disk a count 3"),
    (SPLIT, "x a 0 b 0, y a 1 b 1 / z a 2 b 2", "over limit round 1 disk b count 2"),
]

# these, a certificate in place of theirs, and the verdict
JUDGED = [
    (THREE, TWO_NEEDED, "optimal"),
    ((TWO, THREE_MOVE, THREE_ROUNDS, ""), "3 2 even disk a 3 2 2", "bounded"),
    (THREE, "3 2 even disk a 3 2 2", "rounds differ kept 3 counted 2"),
    (THREE, "2 3 even disk a 3 2 2", "quotient differs kept 3 counted 2"),
    (THREE, "2 2 general disk a 3 2 2", "class differs"),
    (THREE, "2 2 even disk a 4 2 2", "load differs kept 4 counted 3"),
    (THREE, "2 2 even disk a 3 2 3", "value differs kept 3 counted 2"),
    (TURN, RING_NEEDS, "optimal"),
    (TURN, "3 2 general set 3 3 4 a b c", "value differs kept 4 counted 3"),
    (TURN, "3 2 general set 3 4 3 a b c", "load differs kept 4 counted 3"),
    (TURN, "3 2 even set 3 3 3 a b c", "class differs"),
    (TURN, "3 3 general set 3 3 3 a b c", "quotient differs kept 3 counted 2"),
    (("a,2,4", "x a 0 a 1", plan_text("x a 0 a 1"), ""), "0 0 even nothing", "moved too often item x count 1"),
    (SPLIT, "3 3 duplex side b in 3 1 3", "optimal"),
    (SPLIT, "3 3 duplex side a out 3 2 2", "bounded"),
    (SPLIT, "3 2 duplex side b in 3 1 3", "quotient differs kept 2 counted 3"),
    (SPLIT, "3 3 duplex side b out 3 1 3", "load differs kept 3 counted 0"),
    (SPLIT, "3 3 duplex side a out 3 2 1", "value differs kept 1 counted 2"),
    (SPLIT, "3 3 duplex nothing", "bounded"),
]

# texts that are no plan of the three items, and the line that is refused
NO_PLANS = [
    ("", 1),
    (HEAD + "rounds 131073\nround 1 1\nx a 0 b 0\n", 2),
    # as many rounds as there may be, of which the first is missing
    (HEAD + "rounds 131072\nend\n", 3),
    (HEAD + "rounds 0\nround 1 0\nend\n", 3),
    (HEAD + "rounds 2\nroun", 3),
    (TWO_ROUNDS.replace("round 1", "round 01"), 3),
    (HEAD + "rounds 1\nround 2 1\nx a 0 b 0\nend\n", 3),
    (HEAD + "rounds 1\nround 1 65537\nx a 0 b 0\n", 3),
    # as many shifts as there may be, of which the second is missing
    (HEAD + "rounds 1\nround 1 65536\nx a 0 b 0\nend\n", 5),
    # a slot as great as there may be; the next line is another item's
    (plan_text("x a 0 b 65535, w a 1 b 1"), 5),
    (plan_text("x a 0 b 65536"), 4),
    (plan_text("x a 0 b 0").replace("b 0", "b 0 "), 4),
    (plan_text("x  a 0 b 0"), 4),
    (TWO_ROUNDS.replace("z a", "w a"), 7),
    (TWO_ROUNDS[:-1], 9),
    (TWO_ROUNDS + "\n", 10),
]

# texts that are no certificate, and the line that is refused: of three disks without items, of the three items, and of
# these under split limits
EMPTY = ("a,2,4 b,2,4 c,2,4", "", plan_text(""), "")
NO_CERTS = [
    (EMPTY, "", 1),
    (EMPTY, cert_text("0 0 even nothing").replace("e 1", "e 2"), 1),
    (EMPTY, CERT + "rounds 4294967296\nquotient 0\n", 2),
    (EMPTY, cert_text("0 00 even nothing"), 3),
    (EMPTY, cert_text("3 2 odd nothing"), 4),
    (EMPTY, cert_text("2 2 even disk a 3 3 2"), 5),
    (EMPTY, cert_text("2 2 even disk d 3 2 2"), 5),
    (EMPTY, CERT + "rounds 3\nquotient 2\nclass general\nbound set 1025 3 3\na\n", 5),
    (EMPTY, cert_text(TWO_NEEDED)[:-1], 7),
    (EMPTY, cert_text("3 2 general set 2 3 3 b a"), 7),
    (EMPTY, cert_text("3 2 general set 2 3 3 a a"), 7),
    (EMPTY, cert_text("3 2 general set 1 3 3 a b"), 7),
    (EMPTY, cert_text("3 2 general set 3 3 3 a b"), 8),
    (THREE, cert_text("2 2 even disk a 3 3 2"), 5),
    (SPLIT, cert_text(TWO_NEEDED), 1),
    (SPLIT, cert_text("3 3 duplex side b in 3 1 3").replace("duplex", "general"), 4),
    (SPLIT, cert_text("3 3 duplex side a out 3 1 3"), 5),
    (SPLIT, cert_text("3 3 duplex disk b 3 1 3"), 5),
]


def stopped(program):
    """Status 1 of both, where a plan doesn't run."""
    with Room(program) as room:
        for (disks, items, _, cert), plan, text in STOPPED:
            names(room, cluster(disks, items), plan_text(plan), cert_text(cert))
            for line in (CHECK, AFTER):
                ends(room, text, line, 1, text + "\n")


def judged(program):
    """Each verdict of a plan that runs, of which `after` prints the last layout."""
    with Room(program) as room:
        for (disks, items, plan, _), cert, text in JUDGED:
            names(room, cluster(disks, items), plan, cert_text(cert))
            ends(room, text, CHECK, 0 if text in ("optimal", "bounded") else 1, text + "\n")
            ends(room, text, AFTER, 0, layout_text(items))


def no_texts(program):
    """Status 10: of both for a plan, also before its certificate, and cut anywhere; of `check` for a certificate."""
    cuts = [(TWO_ROUNDS[:at], 1 + TWO_ROUNDS[: at + 1].count("\n")) for at in range(len(TWO_ROUNDS))]
    with Room(program) as room:
        names(room, cluster(TWO, THREE_MOVE), "", "")
        ends(room, "no plan and no certificate", CHECK, 10, "refused plan line 1\n")
        room.write("C", cert_text(TWO_NEEDED))
        for lines, plans in ([CHECK, AFTER], NO_PLANS), ([AFTER], [*cuts, ("\n" * 16777217, 0)]):
            for plan, at in plans:
                room.write("P", plan)
                for line in lines:
                    ends(room, f"{plan[-30:]!r}", line, 10, f"refused plan line {at}\n")
        for (disks, items, plan, _), cert, at in NO_CERTS:
            names(room, cluster(disks, items), plan, cert)
            ends(room, f"{cert!r}", CHECK, 10, f"refused certificate line {at}\n")
            ends(room, f"{cert!r}", AFTER, 0, layout_text(items))


CASES = [planned, few_rounds, stopped, judged, no_texts]
# long runs, which are the same for each build of the program
ONCE = [many_items]

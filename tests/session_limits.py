"""What tests/session tries with disks that have an outgoing and an incoming limit: what is refused of their rows (status 3), what `plan`
makes for them, also for made files, counted again by limits_model.py, what `check` says of plans and certificates, and that plans are
carried out by such limits."""
import random
from limits_model import Case, misses, shifts_of
from session_cells import LATER, here, stores
from session_inputs import (AFTER, APART, AT_ONCE, CERT_TEXT, CHECK, DISKS, DRILL, FILES, FILL, HALT, LAYOUT_TEXT, MOVE, PLAN, PLAN_TEXT, RESUME, TEXT_2, THREE,
                            put)
from session_rooms import Count, Room, page

WIDE = [APART[0].replace("right,2,1", "right,1,3"), *APART[1:]]

ROWS = [
    ("left,2,2,4", "left,2,4", "disks row 1: bad width"),
    ("left,2,2,4", "left,2,2,4,4", "disks row 1: bad width"),
    ("right,2,1,4", "right,2,,4", "disks row 2: bad number"),
    ("right,2,1,4", "right,x,1,4", "disks row 2: bad number"),
    ("left,2,2,4", "left,2,2,-4", "disks row 1: bad number"),
    ("left,2,2,4", "left,0,2,4", "disks row 1: out of range"),
    ("left,2,2,4", "left,2,1025,4", "disks row 1: out of range"),
    ("left,2,2,4", "left,2,2,0", "disks row 1: out of range"),
    ("right,2,1,4", "left,2,1,4", "disks row 2: disk listed twice"),
    ("disk,out,in,slots", "disk,in,out,slots", "disks row 0: bad header"),
    ("disk,out,in,slots", "disk,out,slots", "disks row 0: bad header"),
    ("disk,out,in,slots", "disk,limit,slots", "disks row 1: bad width"),
    ("right,2,1,4", "right,2,1,2", "disks row 2: no room on right, needs 3, has 2"),
]

# the disks, the plan, the certificate; the status and what `check` prints
JUDGED = [
    (APART, THREE, TEXT_2, 0, "optimal"),
    (APART, THREE, TEXT_2.replace("right in 3 1 3", "left out 3 2 2"), 0, "bounded"),
    (APART, THREE, TEXT_2.replace("right in 3 1 3", "left in 0 2 0"), 0, "bounded"),
    (WIDE, AT_ONCE, TEXT_2.replace("right in 3 1 3", "left out 3 2 2"), 1, "over limit round 1 disk left count 3"),
    (WIDE, PLAN_TEXT, TEXT_2.replace("s 3", "s 2").replace("quotient 3", "quotient 2").replace("right in 3 1 3", "left out 3 2 2"), 0, "optimal"),
    (APART, AT_ONCE, TEXT_2, 1, "over limit round 1 disk left count 3"),
    (APART, PLAN_TEXT, TEXT_2, 1, "over limit round 1 disk right count 2"),
    (APART, THREE, TEXT_2.replace("rounds 3", "rounds 2"), 1, "rounds differ kept 2 counted 3"),
    (APART, THREE, TEXT_2.replace("quotient 3", "quotient 2"), 1, "quotient differs kept 2 counted 3"),
    (APART, THREE, TEXT_2.replace("3 1 3", "2 1 2"), 1, "load differs kept 2 counted 3"),
    (APART, THREE, TEXT_2.replace("3 1 3", "3 1 2"), 1, "value differs kept 2 counted 3"),
    (APART, THREE, TEXT_2.replace("right in 3 1 3", "left out 3 2 1"), 1, "value differs kept 1 counted 2"),
    (APART, THREE, TEXT_2.replace("right in 3 1 3", "left in 3 2 2"), 1, "load differs kept 3 counted 0"),
    (APART, THREE, CERT_TEXT, 10, "refused certificate line 1"),
    (DISKS, PLAN_TEXT, TEXT_2, 10, "refused certificate line 1"),
    (APART, THREE, TEXT_2.replace("duplex", "even"), 10, "refused certificate line 4"),
    (APART, THREE, TEXT_2.replace("in 3 1 3", "in 3 2 3"), 10, "refused certificate line 5"),
    (APART, THREE, TEXT_2.replace("in 3 1 3", "out 3 1 3"), 10, "refused certificate line 5"),
    (APART, THREE, TEXT_2.replace("side right in", "disk right"), 10, "refused certificate line 5"),
    (APART, THREE, TEXT_2.replace(" in ", " both "), 10, "refused certificate line 5"),
    (APART, THREE, TEXT_2.replace("end\n", "end"), 10, "refused certificate line 7"),
    (DISKS, PLAN_TEXT, CERT_TEXT.replace("disk left", "side left out"), 10, "refused certificate line 5"),
    (DISKS, PLAN_TEXT, CERT_TEXT.replace("even", "duplex"), 10, "refused certificate line 4"),
]


# disks, now and next; the certificate, and the shifts by rounds where one order is as good as another
PLANNED = [
    (["disk,out,in,slots\na,2,1,4\nb,1,1,4\n", "item,disk,slot\nx,a,0\ny,a,1\nz,a,2\n", "item,disk\nx,b\ny,b\nz,b\n"],
     "rounds 3\nquotient 3\nclass duplex\nbound side b in 3 1 3\n", [1, 1, 1], ["x a 0 b 0", "y a 1 b 1", "z a 2 b 2"]),
    # a ring: each disk gives one and takes one at once
    (["disk,out,in,slots\na,1,1,2\nb,1,1,2\nc,1,1,2\n", "item,disk,slot\nx,a,0\ny,b,0\nz,c,0\n", "item,disk\nx,b\ny,c\nz,a\n"],
     "rounds 1\nquotient 1\nclass duplex\nbound side a out 1 1 1\n", [3], ["x a 0 b 1", "y b 0 c 1", "z c 0 a 1"]),
    (APART, TEXT_2.partition("\n")[2].removesuffix("end\n"), [1, 1, 1], ["p left 0 right 0", "q left 1 right 1", "r left 2 right 2"]),
    # of two sides with the same value the first disk's is named, and its outgoing one
    ([WIDE[0].replace("right,1,3", "right,2,2"), *WIDE[1:]], "rounds 2\nquotient 2\nclass duplex\nbound side left out 3 2 2\n", None,
     ["p left 0 right 0", "q left 1 right 1", "r left 2 right 2"]),
    (["disk,out,in,slots\na,1,1,3\nb,2,2,3\n", "item,disk,slot\nx,a,0\ny,b,0\n", "item,disk\nx,b\ny,a\n"],
     "rounds 1\nquotient 1\nclass duplex\nbound side a out 1 1 1\n", [2], ["x a 0 b 1", "y b 0 a 1"]),
    (["disk,out,in,slots\na,1,1,3\nb,2,2,3\n", "item,disk,slot\ny,b,0\n", "item,disk\ny,a\n"],
     "rounds 1\nquotient 1\nclass duplex\nbound side a in 1 1 1\n", [1], ["y b 0 a 0"]),
    # nothing moves
    ([APART[0], "item,disk,slot\np,left,0\n", "item,disk\np,left\n"], "rounds 0\nquotient 0\nclass duplex\nbound nothing\n", [], []),
    ([APART[0], "item,disk,slot\n", "item,disk\n"], "rounds 0\nquotient 0\nclass duplex\nbound nothing\n", [], []),
]


def refused_rows(program):
    """Status 3: the causes under the header of split limits."""
    for row, changed, text in ROWS:
        with Room(program) as room:
            put(room, [APART[0].replace(row, changed), *APART[1:]])
            before = room.files()
            Count.ended(f"{changed}: {text}", room.run(*PLAN), 3, f"refused {text}\n")
            Count.same(f"{changed}: nothing is saved", room.files(), before)


def planned(program):
    """Status 0: the certificate byte for byte, the plan's rounds and shifts, and that `check` finds it optimal."""
    for files, text, sizes, shifts in PLANNED:
        with Room(program) as room:
            put(room, files)
            cert = f"migration-certificate 2\n{text}end\n"
            Count.ended(f"plan: {text}", room.run(*PLAN), 0, cert)
            Count.same(f"{text}: the certificate is saved", room.read("cert.txt"), cert.encode())
            rounds = shifts_of((room.read("plan.txt") or b"").decode())
            Count.that(f"{text}: rounds of {sizes} shifts", sizes is None or [len(it) for it in rounds] == sizes, rounds)
            Count.same(f"{text}: the shifts", sorted(" ".join(it) for those in rounds for it in those), shifts)
            counted_again(room, text)


def counted_again(room, name):
    """What `plan` saved is what the model wants, and `check` says so; and the same files give the same plan."""
    Count.ended(f"{name}: check", room.run(*CHECK), 0, "optimal\n")
    saved = [(room.read(it) or b"").decode() for it in ("plan.txt", "cert.txt")]
    Count.same(f"{name}: what the plan misses", misses(Case(lambda it: room.read(it).decode()), *saved), {})
    ran = room.run("plan", *FILES, "again.txt", "again-cert.txt")
    Count.ended(f"{name}: plan again", ran, 0, saved[1])
    Count.same(f"{name}: the same plan", room.read("again.txt"), saved[0].encode())


def other_files(program):
    """A file without disks has no limits, so its certificate is text 1; and what is missing or refused is told first."""
    with Room(program) as room:
        put(room, ["disk,out,in,slots\n", "item,disk,slot\n", "item,disk\n"])
        Count.ended("plan without disks", room.run(*PLAN), 0, "migration-certificate 1\nrounds 0\nquotient 0\nclass even\nbound nothing\nend\n")
        Count.ended("check without disks", room.run(*CHECK), 0, "optimal\n")
        put(room, APART, "old plan", "old cert")
        before = room.files()
        Count.ended("plan with a file that is not there", room.run("plan", "disks.csv", "no.csv", *PLAN[3:]), 16, "no file no.csv\n")
        Count.same("no file changes", room.files(), before)
        put(room, DISKS)
        Count.ended("plan with joint limits", room.run(*PLAN), 0, CERT_TEXT)


def made(rnd, disks, items, most, moving=0.9):
    """Three files at random: so many disks with limits up to `most`, and so many items, the given part of which is to go anywhere."""
    names, places = [f"d{it}" for it in range(disks)], [(disk, slot) for disk in range(disks) for slot in range(items)]
    now = [(f"i{at}", *spot) for at, spot in enumerate(rnd.sample(places, items))]
    next_ = [(item, rnd.randrange(disks) if rnd.random() < moving else disk) for item, disk, _ in now]
    rows = [f"{name},{rnd.randint(1, most)},{rnd.randint(1, most)},{max(1, 2 * items)}\n" for name in names]
    return ["disk,out,in,slots\n" + "".join(rows), "item,disk,slot\n" + "".join(f"{item},{names[disk]},{slot}\n" for item, disk, slot in now),
            "item,disk\n" + "".join(f"{item},{names[disk]}\n" for item, disk in rnd.sample(next_, items))]


def around(disks, moves, limit, incoming):
    """A star: one disk gives all away, or takes all, with this limit on that side; the other sides take more."""
    ends = [(0, 1 + it % (disks - 1))[:: -1 if incoming else 1] for it in range(moves)]
    first = f"d0,9,{limit}" if incoming else f"d0,{limit},9"
    return ["disk,out,in,slots\n" + f"{first},{2 * moves}\n" + "".join(f"d{it},3,3,{2 * moves}\n" for it in range(1, disks)),
            "item,disk,slot\n" + "".join(f"i{it},d{source},{it}\n" for it, (source, _) in enumerate(ends)),
            "item,disk\n" + "".join(f"i{it},d{target}\n" for it, (_, target) in enumerate(ends))]


def made_files(program):
    """Many made files: few and many disks, few and many items, small and great limits; stars; and many items between two disks."""
    with Room(program) as room:
        for seed in range(60):
            rnd = random.Random(seed)
            put(room, made(rnd, rnd.randint(1, 12), rnd.randint(0, 80), rnd.choice([1, 2, 3, 9, 1024]), rnd.choice([0.3, 0.9, 1])))
            Count.same(f"plan of made files {seed}", room.run(*PLAN).status, 0)
            counted_again(room, f"made files {seed}")
        for name, files in (("many disks", made(random.Random(1), 200, 3000, 4)), ("many items of two disks", made(random.Random(2), 2, 3000, 5)),
                            ("a star outwards", around(150, 1500, 1, False)), ("a star inwards", around(150, 1500, 2, True))):
            put(room, files)
            Count.same(f"plan of {name}", room.run(*PLAN).status, 0)
            counted_again(room, name)


def judged(program):
    """Status 1 and 10, and the verdicts: outgoing and incoming are counted apart, and each text of a certificate goes with its disks file."""
    formats = page("docs/FORMATS.md")
    Count.that("FORMATS shows the text", f"```\n{TEXT_2}```" in formats)
    Count.that("FORMATS shows its disks", all(f"`{row}`" in formats for row in APART[0].split()[1:]))
    with Room(program) as room:
        for files, plan, cert, status, text in JUDGED:
            put(room, files, plan, cert)
            Count.ended(f"check {cert[:-1].split(chr(10))[-2]}: {text}", room.run(*CHECK), status, text + "\n")
            over = text.startswith("over")
            Count.ended(f"after: {text}", room.run(*AFTER), int(over), text + "\n" if over else LAYOUT_TEXT)


def carried_out(program):
    """`fill`, `move`, `drill`, `halt` and `audit` take split limits. A plan that breaks one is not begun."""
    with Room(program) as room:
        put(room, APART, PLAN_TEXT)
        Count.ended("fill", room.run(*FILL), 0, "filled 3\n")
        before = stores(room)
        for words in (MOVE, RESUME, DRILL, HALT):
            Count.ended(f"{words[0]} of a plan that breaks a limit", room.run(*words), 1, "over limit round 1 disk right count 2\n")
        Count.same("nothing is written", stores(room), before)
        put(room, APART, THREE)
        ran = room.run(*DRILL)
        Count.that("drill", ran.status == 0 and ran.out.startswith(b"writes 14\nstop 0 ") and ran.out.endswith(b"\nreached 56\n"), ran)
        Count.ended("move", room.run(*MOVE), 0, "done 3 rounds, found 0\n")
        Count.ended("resume", room.run(*RESUME), 0, "done 3 rounds, found 3\n")
        room.write("later.csv", LAYOUT_TEXT)
        Count.ended("audit", room.run("audit", FILES[0], "later.csv"), 0, here(LATER))
        Count.ended("halt", room.run(*HALT), 0, "halted after 3 of 3\n")


CASES = [refused_rows, planned, other_files, made_files, judged, carried_out]

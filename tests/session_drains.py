"""What tests/session tries of `drain`: its statuses, its texts and hints, what it saves, and that its next disks are planned in as many rounds."""
import itertools, os, random
from session_hints import tells
from session_inputs import FILES, put
from session_rooms import Count, Room

SIX = ["disk,limit,slots\na,4,6\nb,1,4\nc,2,4\n", "item,disk,slot\n" + "".join(f"i{n + 1},a,{n}\n" for n in range(6))]
TWO_AND_FOUR = "item,disk\ni1,b\ni2,b\ni3,c\ni4,c\ni5,c\ni6,c\n"
DRAIN = ["drain", *FILES[:2], "a", "next.csv"]
PLAN = ["plan", *FILES, "plan.txt", "cert.txt"]


def saved(program):
    """What is saved is a next file, whose plan has the rounds that were printed. An older file is saved over."""
    with Room(program) as room:
        put(room, [*SIX, "older"])
        Count.ended("drain", room.run(*DRAIN), 0, "rounds 2\nshown own 6 4\n")
        Count.same("its next disks", room.read("next.csv"), TWO_AND_FOUR.encode())
        Count.same("no other file changed", [room.read(name) for name in FILES[:2]], [text.encode() for text in SIX])
        ran = room.run(*PLAN)
        Count.that("their plan has as many rounds", ran.status == 0 and ran.out.startswith(b"migration-certificate 1\nrounds 2\n"), ran)
        Count.ended("and is as short as can be", room.run("check", *FILES, "plan.txt", "cert.txt"), 0, "optimal\n")
        put(room, [SIX[0].replace("c,2", "c,1"), SIX[1]])
        Count.ended("drain, where the others decide", room.run(*DRAIN), 0, "rounds 3\nshown others 4 of 6\n")
        put(room, [SIX[0], "item,disk,slot\nx,b,0\n"])
        Count.ended("drain of an empty disk", room.run(*DRAIN), 0, "rounds 0\nshown nothing\n")
        Count.same("nothing moves", room.read("next.csv"), b"item,disk\nx,b\n")


# the disks, the name, what is printed, and what is said besides
NOT_EMPTIED = [
    (SIX[0].replace("c,2,4", "c,2,1"), "a", "no room, 6 items, 5 free\n",
     ["disks.csv, line 2: a,4,6\n", "now.csv has 6 items on this disk, and leaves 5 slots of the other disks free: add slots or a disk, or take items away"]),
    (SIX[0], "q", "no disk q\n", ["disks.csv lists no disk `q`\n"]),
    (SIX[0], "A", "no disk A\n", ["disks.csv lists no disk `A`, but `a`: capitals count"]),
]


def not_emptied(program):
    """Status 14, with a hint; NEXT stays. Bad files are told first, and missing ones before them."""
    for disks, name, text, hints in NOT_EMPTIED:
        with Room(program) as room:
            put(room, [disks, SIX[1], "older"])
            tells(text, room.run("drain", *FILES[:2], name, "next.csv"), 14, text, hints)
            Count.same(f"{text}: NEXT stays", room.read("next.csv"), b"older")
    with Room(program) as room:
        put(room, [SIX[0], SIX[1].replace("a,5", "a,6"), "older"])
        tells("a bad file", room.run("drain", *FILES[:2], "q", "next.csv"), 3, "refused now row 6: slot too high\n", ["now.csv, line 7: i6,a,6\n", "the last slot of `a`, which has 6 by disks.csv, is 5"])
        tells("a missing file", room.run("drain", "disks.csv", "q.csv", "q", "next.csv"), 16, "no file q.csv\n", ["q.csv, the word for NOW, leads to no file\n"])
        Count.same("NEXT stays", room.read("next.csv"), b"older")


def not_saved(program):
    """Status 4 where NEXT can't be saved, and where it is another spelling of a file that was loaded."""
    with Room(program) as room:
        put(room, SIX)
        os.mkdir(room.path("folder"))
        for word in ("folder", "./now.csv", "nowhere/next.csv"):
            Count.ended(f"drain into {word}", room.run(*DRAIN[:4], word), 4, "folder fault\n")
        Count.same("NOW stays", room.read("now.csv"), SIX[1].encode())


def least_rounds(disks, held, disk):
    """The fewest rounds in which the disk's items can leave it and the others can take them; None where they have too few slots."""
    items = held[disk]
    others = [(limit, slots - held[name]) for name, (limit, slots) in disks.items() if name != disk]
    if sum(free for _, free in others) < items:
        return None
    enough = lambda rounds: rounds * disks[disk][0] >= items and sum(min(free, rounds * limit) for limit, free in others) >= items
    return next(rounds for rounds in itertools.count() if enough(rounds))


def as_few(program):
    """Drawn layouts: the rounds are the fewest, what is saved empties the disk, and its plan has as many rounds."""
    draw = random.Random(20)
    for case in range(20):
        names = [f"d{n}" for n in range(draw.randrange(2, 7))]
        disks = {name: (draw.randrange(1, 5), draw.randrange(1, 9)) for name in names}
        held = {name: draw.randrange(slots + 1) if name != "d0" else slots for name, (_, slots) in disks.items()}
        rounds = least_rounds(disks, held, "d0")
        now = "".join(f"i{name}.{slot},{name},{slot}\n" for name in names for slot in range(held[name]))
        with Room(program) as room:
            put(room, ["disk,limit,slots\n" + "".join(f"{name},{limit},{slots}\n" for name, (limit, slots) in disks.items()), "item,disk,slot\n" + now])
            ran = room.run("drain", *FILES[:2], "d0", "next.csv")
            if rounds is None:
                Count.that(f"layout {case} has no room", ran.status == 14 and ran.out.startswith(b"no room, "), ran)
                continue
            Count.that(f"layout {case} in {rounds} rounds", ran.status == 0 and ran.out.startswith(f"rounds {rounds}\n".encode()), ran)
            Count.that(f"layout {case}: d0 is emptied", b",d0\n" not in (room.read("next.csv") or b",d0\n"), room.read("next.csv"))
            ran = room.run(*PLAN)
            Count.that(f"layout {case}: its plan", ran.status == 0 and f"\nrounds {rounds}\nquotient {rounds}\n".encode() in ran.out, ran)


CASES = [saved, not_emptied, not_saved, as_few]

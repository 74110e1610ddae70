"""What tests/session tries where disks can't hold old and incoming items together: `plan-tight`, its statuses and hints, and the commands
that read without asking for room. The inputs are those of docs/FORMATS.md."""
from session_hints import tells
from session_inputs import FILES, put
from session_rooms import Count, Room, page

FULL = ["disk,limit,slots\na,1,1\nb,1,1\nc,1,1\n", "item,disk,slot\nx,a,0\ny,b,0\n", "item,disk\nx,b\ny,a\n"]
WITHOUT_THIRD = "disk,limit,slots\na,1,1\nb,1,1\n"
BY_THIRD = "migration-plan 1\nrounds 3\nround 1 1\nx a 0 c 0\nround 2 1\ny b 0 a 0\nround 3 1\nx c 0 b 0\nend\n"
EXCHANGED = "item,disk,slot\nx,b,0\ny,a,0\n"
TIGHT = ["plan-tight", *FILES, "plan.txt"]
NO_ROOM = "refused disks row 1: no room on a, needs 2, has 1\n"


def of_plan(command, *more):
    return [command, *FILES, "plan.txt", *more]


def full_disks(program):
    """Two full disks change their items over real files, also where the move stops on the way."""
    for text in (FULL[0], BY_THIRD):
        Count.that("FORMATS shows the example", f"```\n{text}```" in page("docs/FORMATS.md"), text)
    with Room(program) as room:
        put(room, FULL)
        tells("plan of full disks", room.run("plan", *FILES, "plan.txt", "cert.txt"), 3, NO_ROOM, ["disks.csv, line 2: a,1,1\n", "`plan-tight`"])
        Count.ended("plan-tight", room.run(*TIGHT), 0, "rounds 3, parked 1\n")
        Count.same("its plan", room.read("plan.txt"), BY_THIRD.encode())
        Count.ended("after-tight", room.run(*of_plan("after-tight")), 0, EXCHANGED)
        for command in ("after", "move", "resume", "drill"):
            Count.ended(f"{command} asks for room", room.run(*of_plan(command)), 3, NO_ROOM)
        Count.ended("fill", room.run("fill", *FILES[:2]), 0, "filled 2\n")
        held = [room.read(f"{disk}.disk") for disk in "ab"]
        room.run("rm -f c.disk; mkdir c.disk", shell=True)
        Count.same("a disk that can't be written stops the move", room.run(*of_plan("move-tight")).status, 5)
        room.run("rmdir c.disk", shell=True)
        Count.ended("resume-tight", room.run(*of_plan("resume-tight")), 0, "done 3 rounds, found 0\n")
        Count.same("the disks hold each other's items", [room.read(f"{disk}.disk") for disk in "ba"], held)
        tells("move-tight once more", room.run(*of_plan("move-tight")), 8, "journal started\n", ["`migrate after-tight disks.csv now.csv next.csv plan.txt`", "`halt-tight`"])
        Count.ended("halt-tight", room.run(*of_plan("halt-tight", "layout.csv")), 0, "halted after 3 of 3\n")
        Count.same("its layout", room.read("layout.csv"), EXCHANGED.encode())


# disks, next, what is printed, and what is said besides
NO_PLAN = [
    (WITHOUT_THIRD, FULL[2], "no free slot\n", ["each slot of each disk has an item in it", "one free slot on any disk will do"]),
    (FULL[0], "item,disk\nx,b\ny,b\n", "too many for b, needs 2, has 1\n", ["disks.csv, line 3: b,1,1\n", "next.csv gives this disk 2 items, and it has 1 slots"]),
]


def no_plan(program):
    """Status 13, with a hint, where no plan can be carried out; PLAN stays. Where nothing moves, no free slot is needed."""
    for disks, next_, text, hints in NO_PLAN:
        with Room(program) as room:
            put(room, [disks, FULL[1], next_], "a plan")
            tells(text, room.run(*TIGHT), 13, text, hints)
            Count.same(f"{text}: the plan stays", room.read("plan.txt"), b"a plan")
    with Room(program) as room:
        put(room, [WITHOUT_THIRD, FULL[1], "item,disk\nx,a\ny,b\n"])
        Count.ended("nothing moves", room.run(*TIGHT), 0, "rounds 0, parked 0\n")
        tells("no plan there", room.run("move-tight", *FILES, "p.txt"), 16, "no file p.txt\n", ["`plan-tight` makes it"])
        put(room, [WITHOUT_THIRD, FULL[1], "item,disk\nx,a\n"])
        tells("another fault", room.run(*TIGHT), 3, "refused now row 2: item not in next\n", ["now.csv, line 3: y,b,0\n"])


CASES = [full_disks, no_plan]

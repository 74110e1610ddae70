"""What tests/session tries with stores that fail (status 5): another process at work, a disk that may not be read, a folder as a disk, no
room, and a folder that may not be written. The file and the reason are said on standard error, and nothing is lost."""
import fcntl, os, resource
from session_cells import BEFORE, LATER, SLOT, here, stores
from session_inputs import AUDIT, DISKS, FILL, LAYOUT_TEXT, MOVE, PLAN_TEXT, RESUME, put
from session_rooms import Count, Room, says


def one_store(program):
    """A store that was filled meets each fault in turn, and is moved in the end."""
    with Room(program) as room:
        put(room, DISKS, PLAN_TEXT)
        Count.ended("fill", room.run(*FILL), 0, "filled 3\n")
        another_at_work(room)
        disks_that_fail(room)
        no_room(room)


def another_at_work(room):
    """Another process holds the journal: what writes is refused, and what looks is not."""
    with open(room.path("journal.mig"), "ab") as held:
        room.own(room.path("journal.mig"))
        fcntl.flock(held, fcntl.LOCK_EX)
        for case in (MOVE, RESUME, FILL):
            ran = room.run(*case)
            Count.ended(f"{case[0]} while another runs", ran, 5, "store fault\n")
            Count.that(f"{case[0]} while another runs is said", says(ran, "migrate: ", "journal.mig"), ran)
        Count.ended("audit while another runs", room.run(*AUDIT), 0, here(BEFORE))


def disks_that_fail(room):
    """A disk that may not be read, and one that is a folder; neither a disk nor the journal changes."""
    before = stores(room)
    os.chmod(room.path("left.disk"), 0)
    for case in (MOVE, AUDIT):
        ran = room.run(*case)
        Count.ended(f"{case[0]} of a disk that may not be read", ran, 5, "store fault\n")
        Count.that(f"{case[0]} of a disk that may not be read is said", says(ran, "migrate: ", "left.disk", "permission denied"), ran)
    os.chmod(room.path("left.disk"), 0o644)
    room.mkdir("locked")
    for target in ("locked/there", "locked/nothing"):
        room.write("locked/there", b"")
        os.symlink(target, room.path("right.disk"))
        os.chmod(room.path("locked"), 0)
        ran = room.run(*MOVE)
        Count.ended(f"a disk whose folder may not be searched, {target}", ran, 5, "store fault\n")
        Count.that(f"a disk whose folder may not be searched is said, {target}", says(ran, "migrate: ", "right.disk", "permission denied"), ran)
        os.chmod(room.path("locked"), 0o755)
        os.remove(room.path("right.disk"))
    room.mkdir("right.disk")
    ran = room.run(*MOVE)
    Count.ended("a folder as a disk", ran, 5, "store fault\n")
    Count.that("a folder as a disk is said", says(ran, "migrate: ", "right.disk", "is a directory"), ran)
    os.rmdir(room.path("right.disk"))
    Count.same("faults change no disk", stores(room), before)


def no_room(room):
    """A disk has no room for what comes. Once it has, the move goes on, and each item is there in the end."""
    ran = room.run(*MOVE, limits=[(resource.RLIMIT_FSIZE, 2 * SLOT)])
    Count.ended("no room", ran, 5, "store fault\n")
    Count.that("no room is said", says(ran, "migrate: ", "right.disk"), ran)
    Count.ended("resume after no room", room.run(*RESUME), 0, "done 2 rounds, found 1\n")
    room.write("later.csv", LAYOUT_TEXT)
    Count.ended("nothing was lost", room.run("audit", "disks.csv", "later.csv"), 0, here(LATER))


def folders_that_may_not_be_written(program):
    """Where no file can be made, nothing is."""
    with Room(program) as room:
        put(room, DISKS, PLAN_TEXT)
        os.chmod(room.at, 0o555)
        Count.ended("a folder that may not be written", room.run(*FILL), 5, "store fault\n")
        os.chmod(room.at, 0o755)
        Count.same("nothing is made there", stores(room), {})


CASES = [one_store, folders_that_may_not_be_written]

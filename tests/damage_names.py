"""What tests/damage tries with names: one file under two of them, a disk of two folders, and a layout in the place of a disk."""
import itertools, os, resource, signal
from session_cells import SLOT, cell, stores
from session_inputs import put
from session_rooms import Count, Room, says
from damage_rooms import ENDS, LAYOUT, WORDS, Store, case, example, judge, ring, stages, twins
from damages import JOURNAL, mark
from waiting import ended, until


# One file under two names

def linked(path, target):
    os.symlink(target, path)


def hard_linked(path, target):
    os.link(os.path.realpath(os.path.join(os.path.dirname(path), target)), path)


# the disk whose name leads elsewhere, to what, how, and what the second name of the file is
DOUBLES = {"a hard link": ("b", "disks/a", hard_linked, "a.disk"), "a link to the other's name": ("b", "a.disk", linked, "a.disk"),
           "two links to one file": ("b", "disks/a", linked, "a.disk"), "the journal by a link": ("c", JOURNAL, linked, JOURNAL),
           "the journal by a hard link": ("c", JOURNAL, hard_linked, JOURNAL)}


def merged(image, *names):
    """The image with one file in the place of two, of which no byte is used in both."""
    size = max(len(image[name]) for name in names)
    both = bytes(map(max, *(image[name].ljust(size, b"\0") for name in names)))
    return {**image, **dict.fromkeys(names, both)}


def refused(store, what, command, *names, **how):
    """The command ends with status 5, says these names, and has written nothing."""
    before = store.snapshot()
    ran = store.run(command, **how)
    Count.ended(what, ran, 5, "store fault\n")
    Count.that(f"{what}: the names are said", says(ran, *names), f"{ran}; wanted {names}")
    store.is_left(f"{what}: nothing is written", before)


def doubles(program):
    """Two disks are one file, or a disk is the journal: no command that writes does anything."""
    with Room(program) as room:
        store = Store(room, twins())
        spots = {stage: count for count, stage in stages(store.case)}
        steps = [("fill", None), ("move", "before the gate"), ("resume", "before the gate"),
                 *itertools.product(ENDS, ("at the gate", "round 1 copied", "round 1 marked", "round 1 erased"))]
        for (way, (disk, target, join, other)), (command, stage) in itertools.product(DOUBLES.items(), steps):
            image = store.case.image(spots[stage]) if stage else dict.fromkeys(store.case.image(0), b"")
            store.put(merged(image, f"{disk}.disk", other))
            store.link(disk, None)
            join(store.path(disk), target)
            refused(store, f"{way}, {stage or 'empty disks'}: {command}", command, f"{disk}.disk", other)


def doubles_at_few_files(program):
    """Two disks are one file, and so many others lie between them that their files can't both be open."""
    with Room(program) as room:
        store = Store(room, ring(40))
        (before, _), (armed, _), *_ = stages(store.case)
        for count, command in ((before, "move"), (before, "resume"), (armed, "resume"), (armed, "halt")):
            store.put(merged(store.case.image(count), "d0.disk", "d39.disk"))
            store.link("d39", "disks/d0")
            refused(store, f"one file twice among 40 after {count} writes: {command}", command, "d0.disk", "d39.disk", limits=[(resource.RLIMIT_NOFILE, 16)])


# Two folders, one disk

def filled(room, names, shared, slots, first=0):
    """A folder whose disk a holds these items, and whose disk b, of so many slots, is a link to a file of two folders. They go there from
    this slot on, two in a round."""
    pairs = [names[n : n + 2] for n in range(0, len(names), 2)]
    plan = ["; ".join(f"{name} a {2 * k + n} b {first + 2 * k + n}" for n, name in enumerate(pair)) for k, pair in enumerate(pairs)]
    both = case(f"a,2,{len(names)} b,2,{slots}", " ".join(f"{name},a,{n}" for n, name in enumerate(names)), " ".join(f"{name},b" for name in names), plan)
    put(room, both.files, both.plan)
    for old in stores(room):
        os.remove(room.path(old))
    room.write("a.disk", b"".join(cell(name) for name in names))
    room.write(JOURNAL, b"")
    os.symlink(shared, room.path("b.disk"))


def held_in(room, name):
    """The items that a disk's file holds whole, with their slots."""
    held, found = room.read(name) or b"", {}
    for at in range(0, len(held), SLOT):
        item = held[at + 2 : at + 2 + held[at + 1]].decode(errors="replace")
        if held[at : at + SLOT] == cell(item):
            found[item] = at // SLOT
    return found


def stopped_in_the_midst(room):
    """A move that stands still after some of its rounds, or failed; None where it was too fast."""
    mover = room.start([room.path("migrate"), *WORDS["move"]])
    with open(room.path(JOURNAL), "rb") as journal:
        until(lambda: mover.poll() is not None or os.pread(journal.fileno(), 1, mark(20)) == b"\1", "a mover to mark its round 20, or to end", 0)
        mover.send_signal(signal.SIGSTOP)
        if mover.returncode is None:
            os.waitid(os.P_PID, mover.pid, os.WSTOPPED | os.WEXITED | os.WNOWAIT)
        if mover.poll() is None and os.pread(journal.fileno(), 1, mark(280)) != b"\1":
            return mover
    mover.send_signal(signal.SIGCONT)
    ended(mover, "a mover that was too fast")
    return mover if mover.returncode else None


def shared_disks(program):
    """Two folders share a disk by a link, and both move to it at once: the second is refused, and no item is lost."""
    firsts, seconds = [f"first{n}" for n in range(600)], [f"second{n}" for n in range(40)]
    with Room(program) as one, Room(program) as other:
        def at_work():
            one.write("shared", b"")
            filled(one, firsts, one.path("shared"), 600)
            return stopped_in_the_midst(one)

        mover = until(at_work, "a mover of a shared disk to be stopped in its midst")
        filled(other, seconds, one.path("shared"), 600, 560)
        before = one.read("shared")
        ran = other.run(*WORDS["move"])
        Count.ended("a second mover of a shared disk", ran, 5, "store fault\n")
        Count.that("a second mover: why is said", says(ran, "b.disk", "another process"), ran)
        Count.that("a second mover leaves the shared disk alone", one.read("shared") == before)
        mover.send_signal(signal.SIGCONT)
        out, _ = ended(mover, "the first mover of a shared disk")
        Count.same("the first mover ends", (mover.returncode, out), (0, b"done 300 rounds, found 0\n"))
        Count.same("its items are there", held_in(one, "shared"), {name: n for n, name in enumerate(firsts)})
        ran = other.run(*WORDS["resume"])
        Count.that("the second one finds its slots taken", ran.status in (5, 9), ran)
        Count.same("the first one's items stay", held_in(one, "shared"), {name: n for n, name in enumerate(firsts)})
        Count.same("the second one's items stay", held_in(other, "a.disk"), {name: n for n, name in enumerate(seconds)})


def racing_folders(program):
    """The same, with both started at once: one of them ends well, and each item stands somewhere."""
    for _ in range(20):
        with Room(program) as one, Room(program) as other:
            one.write("shared", b"")
            for room, name in ((one, "first"), (other, "second")):
                filled(room, [f"{name}{n}" for n in range(100)], one.path("shared"), 100)
            movers = [room.start([room.path("migrate"), *WORDS["move"]]) for room in (one, other)]
            ends = [ended(mover, "one of two movers to the same slots") and mover.returncode for mover in movers]
            Count.that("of two movers to the same slots one alone ends well", sorted(ends) in ([0, 5], [0, 9]), ends)
            there = held_in(one, "shared").keys() | held_in(one, "a.disk").keys() | held_in(other, "a.disk").keys()
            Count.same("each item stands somewhere", len(there), 200)


# A layout in the place of a disk

# what is saved to, and how its name comes to be that of a disk or of the journal
OVER = [(LAYOUT, linked, "tape.disk"), (LAYOUT, linked, "disks/tape"), (LAYOUT, hard_linked, "disks/tape"), (LAYOUT, linked, JOURNAL),
        (LAYOUT, hard_linked, JOURNAL), ("disks/tape", None, "")]


def layouts_over_disks(program):
    """LAYOUT of `halt` is a disk or the journal, by whatever name: nothing changes."""
    with Room(program) as room:
        store = Store(room, example())
        spots = {stage: count for count, stage in stages(store.case)}
        for stage, (word, join, target) in itertools.product(("round 1 marked", "round 3 erased"), OVER):
            store.put(store.case.image(spots[stage]))
            if join:
                join(room.path(word), target)
            before = store.snapshot()
            ran, what = room.run(*WORDS["halt"][:-1], word), f"halt with {word}, {join.__name__ if join else 'a true disk'} {target}, {stage}"
            Count.ended(what, ran, 4, "folder fault\n")
            Count.that(f"{what}: why is said", says(ran, f"migrate: cannot save {word}: "), ran)
            store.is_left(f"{what}: nothing changes", before)
            if join:
                os.remove(room.path(word))
            store.put(store.case.image(spots[stage]))
            judge(store, f"{what}, and then elsewhere", "halt")

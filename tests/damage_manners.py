"""What tests/damage tries besides: few open files, new disks beside old ones, pipes as disks, two first movers, and fills that were stopped."""
import itertools, os, resource, stat
from session_cells import SLOT, cell
from session_inputs import DISKS, PLAN_TEXT, put
from session_rooms import Count, Ran, Room, says
from damage_rooms import LAYOUT, LEFT, WORDS, Store, ended_well, ring, spread, stages
from damages import JOURNAL, wanted
from waiting import ended

def few_files(program):
    """More disks than files that may be open at once."""
    with Room(program) as room:
        store = Store(room, ring(40))
        for most, (count, stage), command in itertools.product((16, 12), stages(store.case), ("resume", "halt")):
            store.put(store.case.image(count))
            outcome, what = wanted(store.case, store.seen(), command), f"at most {most} open files, {stage}: {command}"
            ran = store.run(command, limits=[(resource.RLIMIT_NOFILE, most)])
            Count.ended(what, ran, outcome.status, outcome.text)
            if outcome.status == 0 == ran.status:
                ended_well(store, what, command, outcome)


def made_at_few_files(program):
    """More disks are made than files may be open at once: none of them is taken for another process's."""
    with Room(program) as room:
        store = Store(room, spread(20))
        image = store.case.image(next(stages(store.case))[0])
        for most in (10, 16, 24):
            store.put(image)
            for n in range(20):
                store.link(f"d{n}", None)
            what = f"move to new disks, at most {most} open files"
            Count.ended(what, store.run("move", limits=[(resource.RLIMIT_NOFILE, most)]), 0, "done 1 rounds, found 0\n")
            Count.same(f"{what}: each item is there", [store.room.read(f"d{n}.disk") for n in range(20)], [cell(f"i{n}") for n in range(20)])


def last_files(program):
    """More disks than files that may be open at once: the store leaves two to others, by which LAYOUT is looked at. One that holds no text stays."""
    with Room(program) as room:
        store = Store(room, ring(40))
        for count, stage in stages(store.case):
            if stage != "before the gate":
                store.put(store.case.image(count))
                store.write(LAYOUT, LEFT)
                what = f"at most 12 open files, {stage}: halt with a layout that holds no text"
                ran = store.run("halt", limits=[(resource.RLIMIT_NOFILE, 12)])
                Count.ended(what, ran, 4, "folder fault\n")
                Count.that(f"{what}: why is said", says(ran, "is no text"), ran)
                Count.same(f"{what}: it stays", room.read(LAYOUT), LEFT)


def modes(program):
    """A disk's file that is made has the mode of the other disks."""
    for mode, command in itertools.product((0o600, 0o640, 0o644, 0o664), ("move", "resume")):
        with Room(program) as room:
            put(room, DISKS, PLAN_TEXT)
            room.write("left.disk", LEFT, mode)
            Count.same(f"{command} beside disks of mode {mode:o}", room.run(*WORDS[command]).status, 0)
            Count.same(f"{command}: the mode of a disk that is made", oct(stat.S_IMODE(os.stat(room.path("right.disk")).st_mode)), oct(mode))


def pipes(program):
    """A pipe as a disk, or as the journal, is refused, and nobody waits for it: here nobody ever opens its other end."""
    for name, command in itertools.product(("left.disk", "right.disk", JOURNAL), ("fill", "audit", "move", "resume")):
        if command == "audit" and name != "left.disk" or (name, command) == ("right.disk", "fill"):
            continue
        with Room(program) as room:
            put(room, DISKS, PLAN_TEXT)
            if name != "left.disk" and command != "fill":
                room.write("left.disk", LEFT)
            os.mkfifo(room.path(name))
            room.own(room.path(name))
            ran = room.run(*WORDS[command])
            what = f"{command} with a pipe as {name}"
            Count.that(what, ran.status == 5 and ran.out.endswith(b"store fault\n"), ran)
            Count.that(f"{what} is said", any(says(ran, name, why) for why in ("pipe", "plain file", "regular file")), ran)
            Count.that(f"{what}: the items stay", name == "left.disk" or command == "fill" or room.read("left.disk") == LEFT)


# First movers

def racing_movers(program):
    """Two movers are the first in a folder, and one of them makes the journal while the other one is about to."""
    for _ in range(20):
        with Room(program) as room:
            put(room, DISKS, PLAN_TEXT)
            room.write("left.disk", LEFT)
            movers = [room.start([room.path("migrate"), *WORDS["move"]]) for _ in range(2)]
            ends = [ended(mover, "one of two first movers") for mover in movers]
            Count.that("of two first movers one moves", sorted(mover.returncode for mover in movers) in ([0, 5], [0, 8]), ends)
            for mover, (out, err) in zip(movers, ends):
                Count.that("two first movers: the file is said", mover.returncode != 5 or says(Ran(5, out, err), JOURNAL), err)
            Count.same("they lose nothing", (room.read("right.disk"), room.read("left.disk")), (LEFT, bytes(3 * SLOT)))


def stopped_fills(program):
    """A store that `fill` was stopped in is told from one in use."""
    said = {}
    for what, held in (("stopped", LEFT[: 2 * SLOT]), ("in use", cell("p")[:34] + b"x" * (SLOT - 34))):
        with Room(program) as room:
            put(room, DISKS, PLAN_TEXT)
            room.write("left.disk", held)
            ran = room.run(*WORDS["fill"])
            Count.ended(f"fill of a store that is {what}", ran, 9, "occupied left 0\n")
            Count.that(f"fill of a store that is {what}: the file is said", says(ran, "left.disk"), ran)
            Count.same(f"fill of a store that is {what} writes nothing", (room.read("left.disk"), room.read("right.disk")), (held, None))
            said[what] = ran.err
    Count.that("a stopped fill is told from a store in use", said["stopped"] != said["in use"] and b"fill" in said["stopped"].lower(), said)

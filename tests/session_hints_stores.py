"""What tests/session looks for on standard error where a store isn't as a command needs it (statuses 8 and 9): what is there, and which
command is the next one. And where a run ends well nothing is said."""
from session_cells import OTHER, SLOT, cell, digest, put_half_way
from session_hints import tells
from session_inputs import AFTER, AUDIT, CHECK, DISKS, DRILL, FILES, FILL, HALT, MOVE, PLAN, PLAN_TEXT, RESUME, many, put
from session_outputs import output
from session_rooms import Count, Room


def of_journals(program):
    """Status 8."""
    with Room(program) as room:
        put(room, DISKS, PLAN_TEXT)
        room.write("other.txt", OTHER)
        tells("halt of nothing", room.run(*HALT), 8, "journal not started\n", ["journal.mig names no plan: none was begun in this folder"])
        room.run(*FILL)
        Count.ended("move", room.run(*MOVE), 0, "done 2 rounds, found 0\n")
        tells("move again", room.run(*MOVE), 8, "journal started\n", ["journal.mig says that plan.txt was carried out: all of its 2 rounds", "before `halt`", "`migrate after disks.csv now.csv next.csv plan.txt`", "`migrate audit disks.csv LAYOUT`"])
        tells("fill again", room.run(*FILL), 8, "journal started\n", ["a migration is under way here, or was carried out", "look first: `after`", "`audit`", "only `halt` closes it"])
        text = f"journal started with another plan {digest(PLAN_TEXT.encode())}, ours {digest(OTHER.encode())}\n"
        for command in ("move", "resume", "halt"):
            words = [command, *FILES, "other.txt", *(["layout.csv"] if command == "halt" else [])]
            tells(f"{command} of another plan", room.run(*words), 8, text, ["another plan than other.txt", "look first", "`after`", "`audit`", "only then `halt`", "the same plan again"])
        Count.ended("halt", room.run(*HALT), 0, "halted after 2 of 2\n")
        tells("halt again", room.run(*HALT), 8, "journal not started\n", ["journal.mig says that no plan is under way: the last one was closed"])
    with Room(program) as room:
        put_half_way(room)
        tells("move half way", room.run(*MOVE), 8, "journal started\n", ["plan.txt is under way: 1 of its 2 rounds", "`migrate resume disks.csv now.csv next.csv plan.txt` goes on with it"])


def of_slots(program):
    """Status 9: what the slot holds."""
    look = "look first: `migrate audit disks.csv now.csv`"
    lost = [
        (None, "left.disk, slot 0, where now.csv lists `p`: there is no such file"),
        (bytes(3 * SLOT), "slot 0, where now.csv lists `p`: zeros are there"),
        (b"", "slot 0, where now.csv lists `p`: zeros are there"),
        (cell("q") + cell("p") + cell("r"), "slot 0, where now.csv lists `p`: the item `q` is there"),
        (b"\x02" * SLOT, "slot 0, where now.csv lists `p`: bytes are there that are no item"),
        (b"\0" + cell("p")[1:], "slot 0, where now.csv lists `p`: bytes are there that are no item"),
    ]
    for held, piece in lost:
        for command in (MOVE, RESUME):
            with Room(program) as room:
                put(room, DISKS, PLAN_TEXT)
                if held is not None:
                    room.write("left.disk", held)
                tells(f"{command[0]} of {str(held)[:20]}", room.run(*command), 9, "not there p\n", [piece, look])
    with Room(program) as room:
        put(room, DISKS, PLAN_TEXT)
        room.run(*FILL)
        room.write("right.disk", bytes(SLOT) + cell("w"))
        tells("a target in use", room.run(*MOVE), 9, "occupied right 1\n", ["right.disk, slot 1, to which the plan moves an item: the item `w` is there, and now.csv lists none", look])
        tells("fill again", room.run(*FILL), 9, "occupied left 0\n", ["left.disk, slot 0: the item `p` is there", "slots of now.csv in use: 3. All of them hold just what `fill` writes there: a `fill` that was stopped, or done before? `migrate audit disks.csv now.csv`"])
        room.write("left.disk", bytes(SLOT) + cell("q"))
        tells("fill half way", room.run(*FILL), 9, "occupied left 1\n", ["left.disk, slot 1: the item `q` is there", "slots of now.csv in use: 1. All of them hold just what `fill` writes"])
        room.write("left.disk", cell("p") + cell("q")[:-1] + b"!")
        tells("fill of a store in use", room.run(*FILL), 9, "occupied left 0\n", ["slots of now.csv in use: 2. Not all of them hold what `fill` writes there: the store is in use"])
    with Room(program) as room:
        put(room, DISKS)
        room.write("now.csv", "item,disk,slot\npqr,left,0\n")
        room.run(*FILL)
        tells("fill of a name of three bytes again", room.run(*FILL), 9, "occupied left 0\n", ["slots of now.csv in use: 1. All of them hold just what `fill` writes"])


def quiet(program):
    """A run that succeeds says nothing, nor does one whose output was closed."""
    with Room(program) as room:
        put(room, DISKS)
        for words in (PLAN, CHECK, AFTER, DRILL, FILL, AUDIT, MOVE, RESUME, HALT, ["rehearse", "4", "6", "6"]):
            ran = room.run(*words)
            Count.same(f"{words[0]} ends well, and says nothing", (ran.status, ran.err), (0, b""))
        # more than a pipe holds
        put(room, many(2000))
        ran = room.run("./migrate audit disks.csv now.csv | head -n 1", shell=True)
        Count.same("audit into head says nothing", (ran.out.count(b"\n"), ran.err), (1, b""))
        for name, said in (("/dev/full", True), ("a closed pipe", False)):
            with output(name) as out:
                ran = room.run(*AUDIT, stdout=out)
            Count.same(f"audit into {name}", (ran.status, bool(ran.err)), (6, said))


CASES = [of_journals, of_slots, quiet]

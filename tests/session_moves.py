"""What tests/session tries with `fill`, `audit`, `move` and `resume` over real files: each text, each refusal, and what the disks and the
journal then hold, byte by byte."""
import hashlib
from session_cells import BEFORE, GATE, LATER, OTHER, SLOT, cell, digest, here, put_half_way, slots, stores
from session_inputs import AFTER, AUDIT, DISKS, FILES, FILL, LAYOUT_TEXT, MOVE, PLAN_TEXT, RESUME, put
from session_rooms import Count, Room

MOVED = {"left": [bytes(SLOT)] * 4, "right": [cell("p"), cell("q"), cell("r"), bytes(SLOT)]}


def marks(room):
    """The bytes of the two marks in the journal."""
    journal = (room.read("journal.mig") or b"").ljust(4 * GATE, b"\0")
    return [journal[GATE * (n + 1)] for n in (1, 2)]


def disks_of(held):
    return {name: text for name, text in held.items() if name.endswith(".disk")}


# One store from its first fill to its last audit

def one_store(program):
    """A store that is filled, moved, and looked at in the end; and what is refused in between."""
    with Room(program) as room:
        put(room, DISKS, PLAN_TEXT)
        room.write("other.txt", OTHER)
        room.write("later.csv", LAYOUT_TEXT)
        looks_at_nothing(room)
        fills(room)
        moves(room)
        refuses_what_was_moved(room)
        looks_at_what_was_moved(room)


def all_lost():
    """What an audit of the first layout prints where all its slots are zeros."""
    return "".join(f"{item} {disk} {at} lost {digest(bytes(SLOT))}\n" for item, disk, at in BEFORE) + "0 here, 3 lost\n"


def looks_at_nothing(room):
    """Before the first fill each slot reads as zeros, and what only looks makes no disk."""
    Count.ended("audit of nothing", room.run(*AUDIT), 0, all_lost())
    Count.ended("move of nothing", room.run(*MOVE), 9, "not there p\n")
    Count.same("what only looks makes no disk", [*disks_of(stores(room))], [])


def fills(room):
    """The made items stand in their slots, and are not filled again."""
    Count.ended("fill", room.run(*FILL), 0, "filled 3\n")
    Count.same("fill: the disk's bytes", room.read("left.disk"), b"".join(cell(item) for item, _, _ in BEFORE))
    Count.ended("fill again", room.run(*FILL), 9, "occupied left 0\n")
    Count.ended("audit", room.run(*AUDIT), 0, here(BEFORE))


def moves(room):
    """Each slot after a move, and the journal's head, gate and marks."""
    Count.ended("move", room.run(*MOVE), 0, "done 2 rounds, found 0\n")
    Count.same("move: right", slots(room, "right"), MOVED["right"])
    Count.same("move: left", slots(room, "left"), MOVED["left"])
    journal = (room.read("journal.mig") or b"").ljust(4 * GATE, b"\0")
    Count.same("move: the head and the gate", (journal[:32], journal[GATE]), (hashlib.sha256(PLAN_TEXT.encode()).digest(), 1))
    Count.same("move: the marks", marks(room), [1, 1])


def refuses_what_was_moved(room):
    """Status 8: the journal was started, by this plan or by another one; nothing is written."""
    moved = stores(room)
    Count.ended("move again", room.run(*MOVE), 8, "journal started\n")
    Count.ended("fill of a moved store", room.run(*FILL), 8, "journal started\n")
    kept, ours = digest(PLAN_TEXT.encode()), digest(OTHER.encode())
    for command in ("move", "resume"):
        text = f"journal started with another plan {kept}, ours {ours}\n"
        Count.ended(f"{command} of another plan", room.run(command, *FILES, "other.txt"), 8, text)
    Count.same("refusals write nothing", stores(room), moved)


def looks_at_what_was_moved(room):
    """A resume finds all rounds done, and an audit each item in the last layout and none in the first."""
    moved = stores(room)
    Count.ended("resume of a moved store", room.run(*RESUME), 0, "done 2 rounds, found 2\n")
    Count.same("resume of a moved store: the disks", disks_of(stores(room)), disks_of(moved))
    Count.ended("audit of the last layout", room.run("audit", "disks.csv", "later.csv"), 0, here(LATER))
    Count.ended("audit of the first layout", room.run(*AUDIT), 0, all_lost())
    Count.ended("after still tells the layout", room.run(*AFTER), 0, LAYOUT_TEXT)


# Other stores

def targets_in_use(program):
    """An item stands where another is to come: status 9, and it stays."""
    with Room(program) as room:
        put(room, DISKS, PLAN_TEXT)
        room.write("more.csv", DISKS[1] + "w,right,0\n")
        Count.ended("fill one more", room.run("fill", "disks.csv", "more.csv"), 0, "filled 4\n")
        before = stores(room)
        Count.ended("move onto it", room.run(*MOVE), 9, "occupied right 0\n")
        Count.same("it stays", stores(room), before)


def journals_that_are_none(program):
    """An old head, marks that were set, and a gate that is not 1: a move begins anew."""
    for gate in (0, 2, 255):
        with Room(program) as room:
            put(room, DISKS, PLAN_TEXT)
            Count.ended("fill", room.run(*FILL), 0, "filled 3\n")
            journal = bytearray(4 * GATE)
            journal[:32], journal[GATE], journal[2 * GATE], journal[3 * GATE] = b"x" * 32, gate, 1, 1
            room.write("journal.mig", bytes(journal))
            Count.ended(f"move with a gate of {gate}", room.run(*MOVE), 0, "done 2 rounds, found 0\n")
            held = {disk: slots(room, disk) for disk in ("left", "right")}
            Count.same(f"move with a gate of {gate}: the disks", held, MOVED)


def half_way(program):
    """A move that was stopped in its second round goes on after the first."""
    with Room(program) as room:
        put_half_way(room)
        Count.ended("resume half way", room.run(*RESUME), 0, "done 2 rounds, found 1\n")
        Count.same("resume half way: right", slots(room, "right"), MOVED["right"])
        Count.same("resume half way: left", slots(room, "left"), MOVED["left"])
        Count.same("resume half way: the marks", marks(room), [1, 1])


CASES = [one_store, targets_in_use, journals_that_are_none, half_way]

"""What a store of files holds: the cells of its disks and its journal, for the small input of session_inputs.py before its migration, half way and after it."""
import hashlib
from session_inputs import DISKS, PLAN_TEXT, put

SLOT, GATE = 4096, 512


def cell(item):
    """The slot that is made for an item: used, its name's length, the name up to 32 bytes, and then the name over and over."""
    name = item.encode()
    return bytes([1, len(name)]) + name.ljust(32, b"\0") + (name * SLOT)[: SLOT - 34]


def digest(data):
    return hashlib.sha256(data).hexdigest()


def slots(room, disk):
    """The bytes of each of the four slots of a disk; what was never written reads as zeros."""
    held = (room.read(f"{disk}.disk") or b"").ljust(4 * SLOT, b"\0")
    return [held[at : at + SLOT] for at in range(0, len(held), SLOT)]


def stores(room):
    """The bytes of all disks and of the journal."""
    return {name: held for name, held in room.files().items() if name.endswith((".disk", ".mig"))}


def here(spots):
    """What an audit prints where each of these items is at its spot."""
    return "".join(f"{item} {disk} {at} here {digest(cell(item))}\n" for item, disk, at in spots) + f"{len(spots)} here, 0 lost\n"


BEFORE = [("p", "left", 0), ("q", "left", 1), ("r", "left", 2)]
LATER = [("p", "right", 0), ("q", "right", 1), ("r", "right", 2)]
OTHER = PLAN_TEXT.replace("rounds 2", "rounds 3").replace("round 1 2", "round 1 1").replace("q left", "round 2 1\nq left").replace("round 2 1\nr", "round 3 1\nr")


def put_half_way(room):
    """Stopped after the first round, whose sources were not erased, and with the second half done."""
    put(room, DISKS, PLAN_TEXT)
    room.write("left.disk", cell("p") + cell("q") + cell("r"))
    room.write("right.disk", cell("p") + cell("q") + cell("r")[:100])
    journal = bytearray(4 * GATE)
    journal[:32], journal[GATE], journal[2 * GATE] = hashlib.sha256(PLAN_TEXT.encode()).digest(), 1, 1
    room.write("journal.mig", bytes(journal))


def is_closed(room):
    """The gate is 0, the items are where they are after the first round, and the other slots are zeros."""
    gate = (room.read("journal.mig") or b"\1" * 4 * GATE)[GATE]
    empty = bytes(SLOT)
    return gate == 0 and slots(room, "left") == [empty, empty, cell("r"), empty] and slots(room, "right") == [cell("p"), cell("q"), empty, empty]

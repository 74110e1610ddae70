"""What bench/stops and bench/halts share, and tests/power in part: plans, layouts, disks of items with random bytes, and what their
files then hold. All files are those of the working folder."""
import os, random

SLOT, GATE = 4096, 512


def rows(name):
    with open(name) as file:
        return [line.rstrip("\n").split(",") for line in list(file)[1:]]


def spots_of(name):
    """Where a file of the form of NOW lists each item."""
    return {item: (disk, int(slot)) for item, disk, slot in rows(name)}


def named_in(now, rounds):
    """The slots that an item has now, or that a plan names."""
    return set(now.values()) | {spot for shifts in rounds for shift in shifts for spot in shift[1:]}


def read_rounds(name="plan.txt"):
    """The shifts of each round of a plan that was saved."""
    with open(name) as file:
        return rounds_of(file)


def rounds_of(lines):
    """The shifts of each round of a plan, as (item, (disk, slot), (disk, slot))."""
    rounds = []
    for line in lines:
        words = line.split()
        if words[0] == "round":
            rounds.append([])
        elif len(words) == 5:
            rounds[-1].append((words[0], (words[1], int(words[2])), (words[3], int(words[4]))))
    return rounds


def layouts(now, rounds):
    """Where each item is after each number of rounds, from 0 on."""
    spots, result = dict(now), [dict(now)]
    for shifts in rounds:
        for item, source, target in shifts:
            assert spots[item] == source
            spots[item] = target
        result.append(dict(spots))
    return result


def header(item):
    name = item.encode()
    return bytes([1, len(name)]) + name.ljust(32, b"\0")


def fill(now, slots):
    """Writes the disks' files anew, with an item of random bytes at each of its spots, and removes the journal."""
    held = {item: header(item) + random.randbytes(SLOT - 34) for item in now}
    for disk, number in slots.items():
        with open(f"{disk}.disk", "wb") as file:
            file.truncate(number * SLOT)
    for item, (disk, slot) in now.items():
        with open(f"{disk}.disk", "r+b") as file:
            file.seek(slot * SLOT)
            file.write(held[item])
    if os.path.exists("journal.mig"):
        os.remove("journal.mig")
    return held


def marked(rounds, digest):
    """The number of rounds that the journal tells to be done; None where it isn't armed with this plan."""
    try:
        with open("journal.mig", "rb") as file:
            journal = file.read()
    except FileNotFoundError:
        return None
    if journal[GATE:GATE + 1] != b"\1":
        return None
    assert journal[:32] == digest, "the journal is armed with another plan"
    k = 0
    while k < rounds and journal[GATE * (k + 2):GATE * (k + 2) + 1] == b"\1":
        k += 1
    return k


def disks_now(slots):
    disks = {}
    for disk, number in slots.items():
        with open(f"{disk}.disk", "rb") as file:
            disks[disk] = file.read().ljust(number * SLOT, b"\0")
    return disks


def lost(spots, held, slots):
    """The items whose bytes don't stand at these spots."""
    disks = disks_now(slots)
    return [item for item, (disk, slot) in spots.items() if disks[disk][slot * SLOT:(slot + 1) * SLOT] != held[item]]


def left_over(spots, named, slots):
    """The named slots that no item has and that don't hold zeros."""
    disks, taken = disks_now(slots), set(spots.values())
    return [(disk, slot) for disk, slot in named - taken if any(disks[disk][slot * SLOT:(slot + 1) * SLOT])]

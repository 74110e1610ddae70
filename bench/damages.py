"""A model of what `migrate resume` and `migrate halt` do with the files of a store, whatever was done to them. It knows
docs/FORMATS.md and these rules, and nothing of the program. Before anything is written each item that the plan shifts must stand
where the marked rounds have put it, no slot that the plan names and that is free then may hold an item which isn't one of these, and
what the last marked round's sources still hold must stand at its targets: such slots are written over. A link that leads nowhere is a disk
that isn't there, and a missing file one that is to be made.
tests/damage and bench/stops judge damaged stores by it.

An image of a store has the bytes of each file, None for one that isn't there."""
import functools, hashlib, os, random, re
from typing import NamedTuple

from disks import GATE, SLOT, header, layouts, rounds_of

JOURNAL = "journal.mig"
ZEROS = bytes(SLOT)


def mark(number):
    """Where the mark of a round is; the gate is that of round 0."""
    return GATE * (number + 1)


def rows_of(text):
    return [line.split(",") for line in text.splitlines()[1:]]


class Case:
    """A migration: its three files and its plan, and what its items hold: `cell` of each. Where space is tight, it is carried out by the
    commands that don't ask for room."""

    def __init__(self, files, plan, cell=header, tight=False):
        self.files, self.plan, self.tight = files, plan, tight
        self.slots = {row[0]: int(row[-1]) for row in rows_of(files[0])}
        self.now = {item: (disk, int(slot)) for item, disk, slot in rows_of(files[1])}
        self.rounds = rounds_of(plan.splitlines())
        self.at = layouts(self.now, self.rounds)
        self.digest = hashlib.sha256(plan.encode()).digest()
        self.held = {item: cell(item) for item in self.now}
        moved = {item for shifts in self.rounds for item, _, _ in shifts}
        self.shifted = [item for item in self.now if item in moved]
        self.spots = {self.now[item] for item in moved} | {target for shifts in self.rounds for _, _, target in shifts}

    def writes(self):
        """What a move writes, in its order: a file, an offset and the bytes."""
        count = len(self.rounds)
        yield from ((JOURNAL, mark(number), b"\0") for number in range(1, count + 1))
        yield JOURNAL, 0, self.digest
        yield JOURNAL, mark(0), b"\1"
        for number, shifts in enumerate(self.rounds, 1):
            yield from ((f"{disk}.disk", SLOT * slot, self.held[item]) for item, _, (disk, slot) in shifts)
            yield JOURNAL, mark(number), b"\1"
            yield from ((f"{disk}.disk", SLOT * slot, ZEROS) for _, (disk, slot), _ in shifts)

    @functools.cache
    def image(self, count):
        """The files after a move's first writes."""
        files = {**{f"{disk}.disk": bytearray() for disk in self.slots}, JOURNAL: bytearray()}
        first = [(f"{disk}.disk", SLOT * slot, self.held[item]) for item, (disk, slot) in self.now.items()]
        for name, offset, data in [*first, *list(self.writes())[:count]]:
            files[name].extend(bytes(max(0, offset + len(data) - len(files[name]))))
            files[name][offset : offset + len(data)] = data
        return {name: bytes(held) for name, held in files.items()}

    def free(self, rounds):
        """The slots that the plan names and that no item is in after so many rounds."""
        return self.spots - {self.at[rounds][item] for item in self.shifted}

    def layout_text(self, rounds):
        return "item,disk,slot\n" + "".join(f"{item},{disk},{slot}\n" for item, (disk, slot) in self.at[rounds].items())


def journal_of(image, rounds):
    """Whether a plan is being carried out, the digest of which, and how many of its rounds are marked."""
    journal = (image.get(JOURNAL) or b"").ljust(mark(rounds) + 1, b"\0")
    found = next((n for n in range(rounds) if journal[mark(n + 1)] != 1), rounds)
    return journal[mark(0)] == 1, journal[:32], found


class Slots:
    """The disks of an image."""

    def __init__(self, case, image):
        self.case = case
        self.files = {disk: bytearray(image.get(f"{disk}.disk") or b"") for disk in case.slots}

    def read(self, spot):
        disk, slot = spot
        return bytes(self.files[disk][SLOT * slot : SLOT * (slot + 1)])

    def item(self, spot):
        """The item that a slot's header names."""
        held = self.read(spot).ljust(SLOT, b"\0")
        name = held[2 : 2 + held[1]].decode("ascii", errors="replace")
        return name if re.fullmatch(r"[A-Za-z0-9_.-]+", name) and held[:34] == header(name) else None

    def is_whole(self, item, spot):
        return self.item(spot) == item and len(self.read(spot)) == SLOT

    def differ(self, item, source, target):
        """Whether both slots hold the item, and a sector of the first is neither zeros nor the second's."""
        left, copied = (self.read(spot).ljust(SLOT, b"\0") for spot in (source, target))
        same = all(left[at : at + 512] in (ZEROS[:512], copied[at : at + 512]) for at in range(0, SLOT, 512))
        return self.item(source) == self.item(target) == item and not same

    def write(self, spot, data):
        disk, slot = spot
        self.files[disk].extend(bytes(max(0, SLOT * (slot + 1) - len(self.files[disk]))))
        self.files[disk][SLOT * slot : SLOT * (slot + 1)] = data

    def resume(self, found):
        """Carries out the rounds that aren't marked. What the last marked one left is erased again."""
        for number, shifts in enumerate(self.case.rounds, 1):
            if number > found:
                for _, source, target in shifts:
                    self.write(target, self.read(source))
            if number >= found:
                for _, source, _ in shifts:
                    self.write(source, ZEROS)

    def halt(self, found):
        """Erases each named slot that no item is in."""
        for spot in self.case.free(found):
            self.write(spot, ZEROS)


class Outcome(NamedTuple):
    """What a command ends with: its status and text, the disks that it leaves with status 0, the marked rounds, and why not: the disks
    that aren't there, the spots whose items were looked for in vain, and those that should be free, as (disk, slot, item), and pairs of
    such spots that hold one item and differ."""
    status: int
    text: str
    disks: dict | None = None
    rounds: int = 0
    away: frozenset = frozenset()
    vain: tuple = ()
    taken: tuple = ()
    apart: tuple = ()


def unready(case, slots):
    """Why a plan isn't begun: each item is looked for in turn, and one that the file's end cuts is a fault; then the targets."""
    for item in case.shifted:
        vain = ((*case.now[item], item),)
        if slots.item(case.now[item]) != item:
            return Outcome(9, f"not there {item}\n", vain=vain)
        if not slots.is_whole(item, case.now[item]):
            return Outcome(5, "store fault\n", vain=vain)
    listed = set(case.now.values())
    for disk, slot in (target for shifts in case.rounds for _, _, target in shifts):
        if (disk, slot) not in listed and slots.read((disk, slot))[:1] == b"\1":
            return Outcome(9, f"occupied {disk} {slot}\n")
    return None


def wanted(case, image, command, away=frozenset()):
    """What `resume` or `halt` must make of an image. The links of the disks that are `away` lead nowhere."""
    count, slots = len(case.rounds), Slots(case, image)
    armed, head, found = journal_of(image, count)
    if armed and head != case.digest:
        return Outcome(8, f"journal started with another plan {head.hex()}, ours {case.digest.hex()}\n")
    if not armed and command == "halt":
        return Outcome(8, "journal not started\n")
    found = found if armed else 0
    at = case.at[found]
    away = frozenset(away) & {disk for disk, _ in case.spots}
    refusal = None if armed or away else unready(case, slots)
    if refusal:
        return refusal
    vain = tuple((*at[item], item) for item in case.shifted if not slots.is_whole(item, at[item]))
    taken = tuple((*spot, slots.item(spot)) for spot in case.free(found) if slots.item(spot) not in (None, *case.shifted))
    last = case.rounds[found - 1] if found else ()
    apart = tuple(((*source, item), (*target, item)) for item, source, target in last
                  if slots.differ(item, source, target))
    if away or vain or taken or apart:
        return Outcome(5, "store fault\n", rounds=found, away=away, vain=vain, taken=taken, apart=apart)
    slots.resume(found) if command == "resume" else slots.halt(found)
    text = f"done {count} rounds, found {found}\n" if command == "resume" else f"halted after {found} of {count}\n"
    return Outcome(0, text, {disk: bytes(held) for disk, held in slots.files.items()}, found)


# Damage at random, to the files of the working folder

def read_image(case):
    """The files as they are; None for one that isn't there."""
    def held(name):
        try:
            with open(name, "rb") as file:
                return file.read()
        except FileNotFoundError:
            return None
    return {name: held(name) for name in [*(f"{disk}.disk" for disk in case.slots), JOURNAL]}


def write_image(image, away=()):
    """Writes the files anew. The links of the disks that are `away` lead nowhere."""
    for name, held in image.items():
        if os.path.lexists(name):
            os.remove(name)
        if held is not None:
            with open(name, "wb") as file:
                file.write(held)
    for disk in away:
        os.symlink("nowhere/" + disk, f"{disk}.disk")


def swapped(image, one, other):
    return {**image, one: image[other], other: image[one]}


def struck(journal, rounds):
    """A journal with one to four bytes changed, most of them bytes that mean something."""
    held = bytearray(journal.ljust(mark(rounds) + 1, b"\0"))
    for _ in range(random.randint(1, 4)):
        at = random.choice([0, 31, mark(0), *(mark(n + 1) for n in range(rounds)), random.randrange(len(held))])
        held[at] = random.choice((0, 1, random.randrange(256)))
    return bytes(held)


def damaged(case, image, first):
    """One of the ways in which a store gets damaged: what it is, the image then, and the disks whose links lead nowhere. `first` is the
    image in which the plan was begun."""
    one, other = random.sample([f"{disk}.disk" for disk in case.slots], 2)
    journal, count = image[JOURNAL] or b"", len(case.rounds)
    ways = [(f"{one} is missing", {**image, one: None}, ()), (f"{one} leads nowhere", {**image, one: None}, {one[:-5]}), (f"{one} is empty", {**image, one: b""}, ()),
            (f"{one} is blank", {**image, one: bytes(len(image[one]))}, ()), (f"{one} and {other} are exchanged", swapped(image, one, other), ()),
            (f"{one} is restored", {**image, one: first[one]}, ()), ("all disks are restored", {**first, JOURNAL: image[JOURNAL]}, ()),
            ("the journal is cut", {**image, JOURNAL: journal[: random.randrange(len(journal) + 1)]}, ()),
            ("the journal is struck", {**image, JOURNAL: struck(journal, count)}, ())]
    return random.choice(ways)

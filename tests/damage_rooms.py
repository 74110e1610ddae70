"""What tests/damage stands on: stores whose disks are links to files elsewhere, what may be done to them, and the judgement of what a
command makes of them, by the model of bench/damages.py."""
import os
from session_cells import BEFORE, SLOT, cell
from session_inputs import FILES, put
from session_rooms import Count, bytes_of, page, says
from damages import JOURNAL, Case, Slots, journal_of, wanted

OLD = 10**18
LAYOUT = "layout.csv"
WORDS = {"fill": ["fill", *FILES[:2]], "audit": ["audit", *FILES[:2]], "halt": ["halt", *FILES, "plan.txt", LAYOUT],
         **{command: [command, *FILES, "plan.txt"] for command in ("move", "resume")}}
ENDS = ("resume", "halt")
LEFT = b"".join(cell(item) for item, _, _ in BEFORE)


# The migrations

def case(disks, now, next_, plan, tight=False):
    """A migration from the rows of its files and its rounds, as lines of shifts."""
    texts = [head + "".join(f"{row}\n" for row in rows.split()) for head, rows in
             (("disk,limit,slots\n", disks), ("item,disk,slot\n", now), ("item,disk\n", next_))]
    rounds = [shifts.split("; ") for shifts in plan]
    text = "".join(f"round {n} {len(shifts)}\n" + "".join(f"{shift}\n" for shift in shifts) for n, shifts in enumerate(rounds, 1))
    return Case(texts, f"migration-plan 1\nrounds {len(rounds)}\n{text}end\n", cell, tight)


def example():
    """The three files of examples/ and their plan of three rounds, as the README shows it."""
    rows = [page(f"examples/{name}").split("\n", 1)[1] for name in FILES]
    return case(*rows, ["db2 ssd1 1 ssd2 2; home1 hdd2 0 ssd1 4; scan1 hdd3 0 hdd1 4; scan2 hdd3 1 hdd2 3; old2 tape 1 hdd3 4",
                        "web2 ssd2 1 ssd1 3; log1 hdd1 0 hdd3 2; old1 tape 0 hdd1 5",
                        "mail1 ssd1 2 hdd2 2; log2 hdd1 1 hdd3 3; log3 hdd1 2 tape 3"])


def stayers():
    """Three disks on which only items are in the end that stay: no one asks for them."""
    return case("left,2,4 right,2,4 far,2,4 idle,1,4", "p,left,0 u,left,1 v,right,0 q,right,1 w,idle,0",
                "p,far u,left v,right q,far w,idle", ["p left 0 far 0; q right 1 far 1"])


def reuse():
    """The second round brings an item to the slot that the first one left."""
    return case("a,2,3 b,2,3", "p,a,0 x,a,1 q,b,0", "p,b x,a q,a", ["p a 0 b 1", "q b 0 a 0"])


def parked():
    """Two full disks exchange their items by the free slot of a third one, on which one of them is parked."""
    return case("a,1,1 b,1,1 c,1,1", "x,a,0 y,b,0", "x,b y,a", ["x a 0 c 0", "y b 0 a 0", "x c 0 b 0"], tight=True)


def twins():
    """Two items go to slots of one number on two disks, one after the other."""
    return case("a,2,4 b,2,4 c,2,4", "p,a,0 q,b,1 r,c,1 s,c,2", "p,a q,b r,a s,b", ["r c 1 a 2", "s c 2 b 2"])


def ring(count):
    """So many disks in a ring, each with an item that goes to the next one. The last and the first disk use different slots now, and get
    their items into slots of one number."""
    last = count - 1
    spots = [(f"i{n}", f"d{n}", int(n == last), f"d{(n + 1) % count}") for n in range(count)]
    return case(" ".join(f"d{n},2,4" for n in range(count)), " ".join(f"{item},{disk},{slot}" for item, disk, slot, _ in spots),
                " ".join(f"{item},{target}" for item, _, _, target in spots), ["; ".join(f"{item} {disk} {slot} {target} 2" for item, disk, slot, target in spots)])


def spread(count):
    """A disk with so many items, each of which goes to a disk of its own."""
    return case(f"a,{count},{count} " + " ".join(f"d{n},1,1" for n in range(count)), " ".join(f"i{n},a,{n}" for n in range(count)),
                " ".join(f"i{n},d{n}" for n in range(count)), ["; ".join(f"i{n} a {n} d{n} 0" for n in range(count))])


def stages(case):
    """After how many of a move's writes the store is looked at, and what that is: before and after the gate, and for each round the copies,
    the mark, a part of the erasures and all of them."""
    at = len(case.rounds) + 1
    yield at, "before the gate"
    yield at + 1, "at the gate"
    at += 1
    for number, shifts in enumerate(case.rounds, 1):
        yield at + len(shifts), f"round {number} copied"
        yield at + len(shifts) + 1, f"round {number} marked"
        if len(shifts) > 1:
            yield at + len(shifts) + 2, f"round {number} erased in part"
        at += 2 * len(shifts) + 1
        yield at, f"round {number} erased"


# A store

class Store:
    """The files of a migration in a room. Each disk is a link to a file of its own below disks/. Nobody's rights are in question here: the
    program runs as who runs the suite, which takes less time."""

    def __init__(self, room, case):
        self.room, self.case = room, case
        room.user = {}
        put(room, case.files, case.plan)
        for folder in ("disks", "away"):
            room.mkdir(folder)

    def path(self, disk):
        return self.room.path(f"{disk}.disk")

    def true(self, disk):
        return self.room.path(f"disks/{disk}")

    def link(self, disk, target):
        """Leads the name of a disk to another file."""
        if os.path.lexists(self.path(disk)):
            os.remove(self.path(disk))
        if target:
            os.symlink(target, self.path(disk))

    def write(self, name, held):
        """Writes a file that looks as if it were old."""
        self.room.write(name, held)
        os.utime(self.room.path(name), ns=(OLD, OLD))

    def put(self, image):
        """Writes the true disks and the journal, and removes what else runs have left."""
        for name in os.listdir(self.room.at):
            if name.endswith((".disk", ".mig")) or name == LAYOUT:
                os.remove(self.room.path(name))
        for name in os.listdir(self.room.path("away")):
            os.remove(self.room.path(f"away/{name}"))
        for disk in self.case.slots:
            self.write(f"disks/{disk}", image[f"{disk}.disk"])
            self.link(disk, f"disks/{disk}")
        self.write(JOURNAL, image[JOURNAL])

    def mend(self, image):
        """Brings the true disks and the true journal back."""
        for disk in self.case.slots:
            if os.path.exists(self.room.path(f"away/{disk}")):
                os.rename(self.room.path(f"away/{disk}"), self.true(disk))
            self.link(disk, f"disks/{disk}")
        self.write(JOURNAL, image[JOURNAL])

    def seen(self):
        """The files as they are under the names that the program knows."""
        return {name: self.room.read(name) for name in [*(f"{disk}.disk" for disk in self.case.slots), JOURNAL]}

    def snapshot(self):
        """All that the room holds but the program: links, bytes, and when they were written. A copy with the same bytes may take
        the journal's place."""
        found, folders = {}, [self.room.at]
        for folder in folders:
            with os.scandir(folder) as entries:
                for it in entries:
                    if it.is_dir(follow_symlinks=False):
                        folders.append(it.path)
                    elif it.is_symlink():
                        found[it.path] = os.readlink(it.path)
                    elif it.name != "migrate":
                        written = 0 if it.name == JOURNAL else it.stat(follow_symlinks=False).st_mtime_ns
                        found[it.path] = written, bytes_of(it.path)
        return found

    def is_left(self, what, before):
        """Nothing is written since the snapshot before."""
        after = self.snapshot()
        Count.that(what, after == before, lambda: changed(before, after))

    def run(self, command, **how):
        word, *files = WORDS[command]
        return self.room.run(word + "-tight" * self.case.tight, *files, **how)


# What may be done to a disk

def lead_nowhere(store, disk, _):
    os.rename(store.true(disk), store.room.path(f"away/{disk}"))


def be_missing(store, disk, _):
    store.link(disk, None)


def replace(store, disk, held):
    store.write(f"away/{disk}.other", held)
    store.link(disk, f"away/{disk}.other")


def be_empty(store, disk, _):
    replace(store, disk, b"")


def be_blank(store, disk, _):
    replace(store, disk, bytes(SLOT * store.case.slots[disk]))


def be_cut(store, disk, found):
    """The file ends within the first slot where an item is that the plan shifts, or in slot 0."""
    spots = [store.case.at[found][item] for item in store.case.shifted]
    slot = min((slot for where, slot in spots if where == disk), default=0)
    held = store.room.read(f"disks/{disk}")
    replace(store, disk, held[: SLOT * slot + 100])


UNMOUNTED = {"its link leads nowhere": lead_nowhere, "its file is missing": be_missing, "an empty placeholder": be_empty,
             "a blank replacement": be_blank, "a file that ends within an item": be_cut}


# What is judged

def named(ran, vain):
    """Whether standard error names one of these spots: the disk's file, the slot and the item."""
    said = ran.err.decode(errors="replace").replace(",", " ").replace(":", " ").replace("\n", " ") + " "
    return any(f"{disk}.disk " in said and f"slot {slot} " in said and f"item {item} " in said for disk, slot, item in vain)


def padded(case, disks):
    """What the disks hold with zeros up to their last slots: how long that is, and all but the zeros at its end."""
    return {disk: (max(len(held), SLOT * case.slots[disk]), held.rstrip(b"\0")) for disk, held in disks.items()}


def ended_well(store, name, command, outcome):
    """After status 0 each slot is as the model has it, and the journal and the layout say where the items are."""
    case, seen = store.case, store.seen()
    disks = {disk: seen[f"{disk}.disk"] or b"" for disk in case.slots}
    Count.that(f"{name}: what the disks hold", padded(case, disks) == padded(case, outcome.disks), lambda: unlike(case, disks, outcome.disks))
    armed, head, found = journal_of(seen, len(case.rounds))
    if command == "halt":
        Count.same(f"{name}: the gate", armed, False)
        Count.same(f"{name}: the layout", store.room.read(LAYOUT), case.layout_text(outcome.rounds).encode())
    else:
        Count.same(f"{name}: the journal", (armed, head, found), (True, case.digest, len(case.rounds)))


def unlike(case, disks, others):
    """The slots in which two stores differ, with the items that they hold."""
    one, other = (Slots(case, {f"{disk}.disk": held for disk, held in it.items()}) for it in (disks, others))
    spots = [(disk, slot) for disk, count in case.slots.items() for slot in range(count)]
    return [f"{disk} {slot}: {one.item((disk, slot))}, wanted {other.item((disk, slot))}" for disk, slot in spots
            if one.read((disk, slot)).ljust(SLOT, b"\0") != other.read((disk, slot)).ljust(SLOT, b"\0")]


def judge(store, what, command, away=frozenset()):
    """Runs a command over the store as it is, and compares what it says and leaves with the model."""
    outcome, name = wanted(store.case, store.seen(), command, away), f"{what}: {command}"
    before = store.snapshot() if outcome.status else None
    ran = store.run(command)
    Count.ended(name, ran, outcome.status, outcome.text)
    if outcome.status == 0 == ran.status:
        ended_well(store, name, command, outcome)
    elif outcome.status:
        store.is_left(f"{name}: nothing is written", before)
    if outcome.vain and outcome.status == 9:
        Count.that(f"{name}: the file is said", says(ran, f"{outcome.vain[0][0]}.disk"), ran)
    if outcome.status == 5:
        spots = outcome.vain or outcome.taken
        if outcome.apart and not spots and not outcome.away:
            both = any(all(named(ran, [spot]) for spot in pair) for pair in outcome.apart)
            said = both and says(ran, "differ")
            Count.that(f"{name}: both slots are said", said, lambda: f"{ran}; {outcome.apart}")
            return outcome
        # before the gate slots are read, and not asked for items: a link that leads nowhere is told as that
        nowhere = "before the gate" in what and any(says(ran, f"{disk}.disk: it is a link that leads nowhere") for disk in outcome.away)
        why = nowhere or (named(ran, spots) if spots else says(ran, *(f"{disk}.disk" for disk in outcome.away)))
        Count.that(f"{name}: why is said", why, lambda: f"{ran}; wanted one of {spots}")
        Count.that(f"{name}: whether the disk is mounted is asked", says(ran, "mounted?"), ran)
    return outcome


def changed(before, after):
    return sorted(os.path.basename(path) for path in before.keys() | after.keys() if before.get(path) != after.get(path))


def goes_on(store, what):
    """With the true files back `resume` reaches the target."""
    outcome = wanted(store.case, store.seen(), "resume")
    ran = store.run("resume")
    Count.ended(f"{what}: resume with the true files", ran, 0, outcome.text)
    final = padded(store.case, {name[:-5]: held for name, held in store.case.image(10**9).items() if name != JOURNAL})
    found = {disk: store.room.read(f"disks/{disk}") or b"" for disk in store.case.slots}
    Count.that(f"{what}: each item is there", padded(store.case, found) == final, lambda: unlike(store.case, found, final))

"""What tests/session tries line by line with small clusters: the words of a line, a bar, the status, and the text, that
may be one of TEXTS. The lines of a session run one after the other over the same files, disks and journal."""
import hashlib
from session_cells import GATE, SLOT, cell, digest, here
from session_inputs import cert_text, cluster, layout_text, names, plan_text, table
from session_outputs import output
from session_plans import AFTER, CHECK, PLAN, THREE_MOVE, THREE_ROUNDS, TWO, TWO_NEEDED, TWO_ROUNDS, drawn, ends
from session_rooms import Count, Room

THREE, FULL = cluster(TWO, THREE_MOVE), cluster("a,1,1 b,1,1 c,1,1", "x a 0 b, y b 0 a")
ON_A = ", ".join(f"i{n + 1} a {n}" for n in range(6))
SIX = [*cluster("a,4,6 b,1,4 c,2,4", ON_A)[:2], "no next file"]
BY_THIRD = plan_text("x a 0 c 0 / y b 0 a 0 / x c 0 b 0")
MOVED, EXCHANGED = layout_text(THREE_MOVE), layout_text("x b 0, y a 0")
TWO_AND_FOUR = table("item,disk", [f"i{n + 1},{it}" for n, it in enumerate("bbcccc")])
NO_ROOM = "refused disks row 1: no room on a, needs 2, has 1\n"


def drilled(writes, *marks):
    """What is put of a drill whose rounds are marked at these stops: just then a mark may be there or not."""
    counts = [(sum(it < at for it in marks), sum(it <= at for it in marks)) for at in range(writes)]
    stops = [f"stop {at} marks {a} {b} {a} {b}" for at, (a, b) in enumerate(counts)]
    return table(f"writes {writes}", [*stops, f"reached {4 * writes}"])


def replies(items):
    return "".join(f"{it} {digest(cell(it))}\n" for it in items)


KEPT = digest(TWO_ROUNDS.encode())
TEXTS = {
    "HERE": here([("x", "a", 0), ("y", "a", 1), ("z", "a", 2)]),
    "MOVED": here([("x", "b", 0), ("y", "b", 1), ("z", "b", 2)]),
    "LOST": "".join(f"{it} a {at} lost {digest(bytes(SLOT))}\n" for at, it in enumerate("xyz")) + "0 here, 3 lost\n",
    "SWAPPED": here([("x", "b", 0), ("y", "a", 0)]), "THREE": MOVED, "TWO": EXCHANGED, "NO_ROOM": NO_ROOM,
    "WAY": replies("xxxz") + "left 0\n", "DRAINED": cert_text("2 2 general disk a 6 4 2"),
    "ANOTHER": f"journal started with another plan {KEPT}, ours {digest(THREE_ROUNDS.encode())}\n",
    # the mark is zeroed, the head, the gate, the items and the mark are written, the sources are erased
    "ONE": drilled(6, 4), "TWO_DRILLED": drilled(12, 6, 10), "NONE": drilled(2), "MOST": drilled(516, 259),
}

# plans and layouts of the three items, and scripts
OF_THREE = {
    "P": TWO_ROUNDS, "R": THREE_ROUNDS, "L": MOVED, "W": THREE[1] + "w,b,0\n",
    "V": plan_text("x a 3 b 0, y a 1 b 1 / z a 2 b 2"),
    "B": plan_text("x b 0 a 0"), "O": plan_text(""), "EMPTY": "",
    "S": "read x\nstep 3\nread x\nstep 1\nread x\nstep 7\nread z\n", "F": "step 5\n", "Z": "step 0\n", "U": "read x",
    "I": "read q\n", "K": "step 1\nread z\nstep 1000001\n",
}
OF_FULL = {"A": plan_text("x a 0 b 0, y b 0 a 0"), "O": plan_text(""), "B": plan_text("z a 0 c 0"), "P": None}
AT_TARGET = "audit D L | 0 MOVED\naudit D N | 0 LOST"

# the files, other ones, and the lines; and what files hold in the end
SESSIONS = [
    (THREE, {"EMPTY": ""}, """plan D N Q P C | 16 no file Q
        plan R N Q P C | 16 no file R
        plan none/D N X P C | 16 no file none/D
        plan N/D N X P C | 4 folder fault
        plan D N X none/P C | 4 folder fault
        plan D N X D/P C | 4 folder fault
        check D N X P C | 16 no file P
        check D N X Q R | 16 no file Q
        check D N X X R | 16 no file R
        after D N X P | 16 no file P
        drill D N X P | 16 no file P
        plan EMPTY N Q P C | 16 no file Q
        plan EMPTY N X P C | 3 refused disks row 0: bad header
        check EMPTY EMPTY X D N | 3 refused disks row 0: bad header
        after EMPTY X N D | 3 refused disks row 0: bad header""", {"P": None, "C": None}),
    # looked at, filled, moved, and looked at again
    (THREE, OF_THREE, f"""halt D N X P H | 8 journal not started
        live D N X P EMPTY | 9 not there x
        live D N X P Z | 15 refused script line 1
        live D N X P U | 15 refused script line 2
        live D N X P I | 15 refused script line 1
        live D N X P K | 15 refused script line 3
        live D N X P G | 16 no file G
        live D N X N Z | 10 refused plan line 1
        live D N X V Z | 15 refused script line 1
        live D N X V EMPTY | 1 not here round 1 item x
        audit D N | 0 LOST
        move D N X P | 9 not there x
        resume D N X P | 9 not there x
        fill D N | 0 filled 3
        fill D N | 9 occupied a 0
        audit D N | 0 HERE
        fill D Q | 16 no file Q
        audit Q N | 16 no file Q
        fill D X | 3 refused now row 0: bad header
        drill D N X P | 0 TWO_DRILLED
        drill D N X B | 1 not here round 1 item x
        drill D N X O | 1 wrong end item x
        drill D N X EMPTY | 10 refused plan line 1
        move D N X P | 0 done 2 rounds, found 0
        move D N X P | 8 journal started
        resume D N X P | 0 done 2 rounds, found 2
        move D N X R | 8 ANOTHER
        resume D N X R | 8 ANOTHER
        fill D N | 8 journal started
        after D N X P | 0 THREE
        resume D N X N | 10 refused plan line 1
        {AT_TARGET}""", {"H": None, "P": TWO_ROUNDS}),
    (THREE, OF_THREE, f"""fill D N | 0 filled 3
        live D N X P S | 0 WAY
        resume D N X P | 0 done 2 rounds, found 2
        live D N X P EMPTY | 0 left 1
        live D N X R EMPTY | 8 ANOTHER
        {AT_TARGET}""", {}),
    # left in the middle, and not halted
    (THREE, OF_THREE, f"""fill D N | 0 filled 3
        live D N X P F | 0 left 6
        live D N X P EMPTY | 0 left 5
        halt D X X P H | 3 refused now row 0: bad header
        halt D N X N H | 10 refused plan line 1
        halt D N X V H | 1 not here round 1 item x
        halt D N X Q H | 16 no file Q
        halt D N X R H | 8 ANOTHER
        halt D N X P none/H | 4 folder fault
        resume D N X P | 0 done 2 rounds, found 1
        {AT_TARGET}""", {"H": None}),
    (THREE, OF_THREE, """fill D W | 0 filled 4
        move D N X P | 9 occupied b 0
        resume D N X P | 9 occupied b 0
        audit D N | 0 HERE""", {}),
    (FULL, OF_FULL, """plan D N X P C | 3 NO_ROOM
        after-tight D N X A | 1 slot not free round 1 item x
        after-tight D N X O | 1 wrong end item x
        after-tight D N X B | 10 refused plan line 4
        plan-tight D N Q R | 16 no file Q
        after-tight D N X R | 16 no file R
        halt-tight D N X R L | 16 no file R
        after-tight D N X P | 16 no file P
        plan-tight D N X P | 0 rounds 3, parked 1
        after-tight D N X P | 0 TWO
        after D N X P | 3 NO_ROOM
        drill D N X P | 3 NO_ROOM
        move-tight D N X P | 9 not there x
        fill D N | 0 filled 2
        move D N X P | 3 NO_ROOM
        resume D N X P | 3 NO_ROOM
        halt D N X P L | 3 NO_ROOM
        move-tight D N X P | 0 done 3 rounds, found 0
        move-tight D N X P | 8 journal started
        resume-tight D N X P | 0 done 3 rounds, found 3
        after-tight D N X P | 0 TWO
        halt-tight D N X P L | 0 halted after 3 of 3
        halt-tight D N X P L | 8 journal not started
        audit D L | 0 SWAPPED""", {"P": BY_THIRD, "C": None, "L": EXCHANGED}),
    # where disks have room, both forms take plans of either planner
    (THREE, OF_THREE, "after-tight D N X P | 0 THREE", {}),
    (cluster(TWO, "x a 0 b, y a 1, z a 2"), {}, """plan-tight D N X P | 0 rounds 1, parked 0
        after D N X P | 0 ONE_WENT""", {}),
    ([*FULL[:2], "item,disk\nx,b\n"], {}, "plan-tight D N X P | 3 refused now row 2: item not in next", {"P": None}),
    # what was saved is read as a next file; the name of the disk may be that of a file, and of the file that is saved
    (SIX, {}, """drain D N q Y | 14 no disk q
        drain D N A Y | 14 no disk A
        drain D N a.disk Y | 14 no disk a.disk
        drain D Q a Y | 16 no file Q
        drain D N a a | 0 DRAIN
        drain D N a Z | 0 DRAIN
        plan D N Z P C | 0 DRAINED
        check D N Z P C | 0 optimal""", {"Y": None, "Z": TWO_AND_FOUR, "a": TWO_AND_FOUR}),
    (cluster("a,1,1 b,1,1", "x a 0 b"), {"P": plan_text("x a 0 b 0"), "C": ""}, "drill D N X P | 0 ONE", {"C": ""}),
    (cluster("a,2,4", "x a 0"), {"P": plan_text(""), "C": ""}, "drill D N X P | 0 NONE", {"C": ""}),
]
TEXTS.update(ONE_WENT=layout_text("x b 0, y a 1, z a 2"), DRAIN="rounds 2\nshown own 6 4\n")


def follow(room, lines):
    for line in lines.split("\n"):
        words, _, end = line.strip().partition(" | ")
        status, _, text = end.partition(" ")
        ends(room, words, words, int(status), TEXTS.get(text, f"{text}\n"))


def holds(room, name, saved):
    for it, text in saved.items():
        Count.same(f"{name}: {it}", room.read(it), text if text is None else text.encode())


def put(room, files, others):
    names(room, files)
    for it, text in others.items():
        if text is not None:
            room.write(it, text)


def sessions(program):
    """Each session in a folder of its own."""
    for files, others, lines, saved in SESSIONS:
        with Room(program) as room:
            put(room, files, others)
            follow(room, lines)
            holds(room, lines, saved)


# lines that are no listed form
NO_FORMS = (
    "plan; plan D N X P; plan D N X P P; plan D N X D C; plan D N X P C C; audit D a.disk; after D N X a.disk; "
    "check D N X P b.mig; drill; drill D N X; drill D N X P C; drill D N X P.mig; halt D N X P; halt D N X P D; "
    "halt D N X P N; halt D N X P X; halt D N X P P; halt D N X P L.mig; halt D N X P a.disk; plan-tight D N X; plan- "
    "tight D N X P C; plan-tight D N X D; plan-tight D N X N; plan-tight D N X X; plan-tight D N X a.disk; Plan- "
    "tight D N X P; after-tight D N X; move-tight D N X P L; resume-tight D N X b.mig; halt-tight D N X P; halt- "
    "tight D N X P P; check-tight D N X P C; drain D N a; drain D N a Y Z; drain D N a D; drain D N a N; "
    "drain D N a Y.disk; drain D N a Y.mig; drain D.mig N a Y; drain D N a,b Y; "
    "drain D N abcdefghijabcdefghijabcdefghijabc Y; Drain D N a Y; drain-tight D N a Y; drain R Q a,b Y; rehearse; "
    "rehearse 2 1; rehearse 2 1 1 1; rehearse 1 1 1; rehearse 2 0 1; rehearse 2 1 0; rehearse 2 1 1025; "
    "rehearse 2 32769 1; rehearse 257 1 3; rehearse 1024 0 1; rehearse 1025 1 1; rehearse 2 00000000001 1; "
    "rehearse 2 9999999999 1; rehearse +2 1 1; rehearse 2 1 0x1"
).split("; ")


def no_forms(program):
    """Status 2, and no file changes."""
    with Room(program) as room:
        names(room, THREE, TWO_ROUNDS, "")
        before = room.files()
        for line in ["", *NO_FORMS]:
            ends(room, "no form", line, 2, "words not understood\n")
        Count.same("no forms: the files", room.files(), before)


SCATTERED = "i1 b 0, i2 a 1, i3 c 0, i4 b 1, i5 a 0, i6 b 2"
# the disk that is emptied, the disks, the items, how it ends, and the items' next disks that are saved, if any are
DRAINS = [
    ("a", "a,4,6 b,1,4 c,2,4", ON_A, 0, "rounds 2\nshown own 6 4", "bbcccc"),
    # in two rounds the others can take four
    ("a", "a,4,6 b,1,4 c,1,4", ON_A, 0, "rounds 3\nshown others 4 of 6", "bbbccc"),
    # of split limits the outgoing one counts for the disk, and the incoming one for each other disk
    ("a", "a,4,1,6 b,9,1,4 c,1,2,4", ON_A, 0, "rounds 2\nshown own 6 4", "bbcccc"),
    ("a", "a,4,1,6 b,9,1,4 c,9,2,4", ON_A, 0, "rounds 2\nshown own 6 4", "bbcccc"),
    ("a", "a,4,9,6 b,9,1,4 c,9,1,4", ON_A, 0, "rounds 3\nshown others 4 of 6", "bbbccc"),
    ("a", "a,1,9,6 b,9,9,4 c,9,9,4", ON_A, 0, "rounds 6\nshown own 6 1", "bbbbcc"),
    # as many free slots as items are enough. A disk takes no more than it has free slots, in however many rounds
    ("a", "a,6,6 b,6,2 c,1,4", ON_A, 0, "rounds 4\nshown others 5 of 6", "bbcccc"),
    # items of other disks stay, and their slots aren't free
    ("a", "b,1,2 a,1,2 c,1,2", "x b 1, y a 0, z c 0, w a 1", 0, "rounds 2\nshown own 2 1", "bbcc"),
    ("b", "a,2,3 b,3,3 c,1,3", SCATTERED, 0, "rounds 2\nshown others 2 of 3", "aaccac"),
    ("a", "a,4,6 b,1,4 c,2,4", "x b 1", 0, "rounds 0\nshown nothing", "b"),
    ("b", "a,4,6 b,1,4 c,2,4", ON_A, 0, "rounds 0\nshown nothing", "aaaaaa"),
    # there is no other disk, and no item
    ("a", "a,1,1", "", 0, "rounds 0\nshown nothing", ""),
    ("a", "a,4,6 b,1,4 c,2,1", ON_A, 14, "no room, 6 items, 5 free", None),
    ("a", "a,4,4,6 b,1,1,4 c,2,2,1", ON_A, 14, "no room, 6 items, 5 free", None),
    ("b", "a,2,3 b,3,3 c,1,2", SCATTERED, 14, "no room, 3 items, 2 free", None),
    ("a", "b,1,1 a,1,2", "x b 0, y a 0", 14, "no room, 1 items, 0 free", None),
    ("a", "a,1,1", "x a 0", 14, "no room, 1 items, 0 free", None),
    # a bad file is told before a missing disk
    ("a", "b,1,1", "x a 0", 3, "refused now row 1: unknown disk", None),
]
# the disks, the items with their next disks, how `plan-tight` ends, and the plan that is saved, if one is
TIGHT = [
    ("a,1,1 b,1,1", "x a 0 b, y b 0 a", 13, "no free slot", None),
    ("a,1,1 b,1,1", "x a 0 b, y b 0", 13, "too many for b, needs 2, has 1", None),
    ("a,1,1 b,1,1 c,1,1", "x a 0 b, y b 0", 13, "too many for b, needs 2, has 1", None),
    # each disk has too few slots, and the first is told
    ("a,1,3 b,1,1", "w a 0 b, x a 1 b, y a 2 b, z b 0", 13, "too many for b, needs 4, has 1", None),
    ("a,1,1 b,1,1", "x a 0, y b 0", 0, "rounds 0, parked 0", ""),
    # where each disk has room nothing is parked
    ("a,1,1,2 b,1,1,1", "x a 1 b", 0, "rounds 1, parked 0", "x a 1 b 0"),
    ("a,1,2 b,1,2", "x a 0 b, y b 0 a", 0, "rounds 2, parked 0", ...),
    ("a,1,1,1 b,1,1,1 c,1,1,1", "x a 0 b, y b 0 a", 0, "rounds 3, parked 1", "x a 0 c 0 / y b 0 a 0 / x c 0 b 0"),
    # nine items of three full disks turn: one is parked on a fourth disk, and the free slot goes round three times
    ("d0,1,3 d1,1,3 d2,1,3 spare,1,1", ", ".join(f"i{n} d{n % 3} {n // 3} d{(n + 1) % 3}" for n in range(9)),
     0, "rounds 10, parked 1", ...),
    ("a,1,1 b,1,1 c,1,1", "x a 0 b, y a 0 a", 3, "refused now row 2: slot taken", None),
]


def emptied(program):
    """What `drain` puts and saves."""
    for disk, disks, items, status, text, next_ in DRAINS:
        with Room(program) as room:
            names(room, [*cluster(disks, items)[:2], "no next file"])
            before = room.files()
            ends(room, f"{disks}; {items}", f"drain D N {disk} Y", status, text + "\n")
            if next_ is not None:
                rows = [f"{item.split()[0]},{to}" for item, to in zip(items.split(", "), next_)]
                before["Y"] = table("item,disk", rows).encode()
            Count.same(f"{disks}; {items}: the files", room.files(), before)


def tight(program):
    """What `plan-tight` puts and saves."""
    for disks, items, status, text, plan in TIGHT:
        with Room(program) as room:
            names(room, cluster(disks, items))
            ends(room, f"{disks}; {items}", "plan-tight D N X P", status, text + "\n")
            if plan is not ...:
                wanted = None if plan is None else plan_text(plan).encode()
                Count.same(f"{disks}; {items}: the plan", room.read("P"), wanted)


# files that stand for no input: the three items' but for these, and what is put
D_ROWS = [
    ("disk,limit,slots a,1 b,2,4", "row 1: bad width"),
    ("disk,limit,slots a_b,1,4 b,2,4", "row 1: bad name"),
    ("disk,limit,slots a,12345678901,4 b,2,4", "row 1: bad number"),
    ("disk,limit,slots a,,4 b,2,4", "row 1: bad number"),
    ("disk,limit,slots a,0,4 b,2,4", "row 1: out of range"),
    ("disk,limit,slots a,1025,4 b,2,4", "row 1: out of range"),
    ("disk,limit,slots a,2,4 a,2,4", "row 2: disk listed twice"),
    ("disk,out,in,slots a,1,4 b,1,1,4", "row 1: bad width"),
    ("disk,out,in,slots a,0,1,4 b,1,1,4", "row 1: out of range"),
    ("disk,out,in,slots a,1,1025,4 b,1,1,4", "row 1: out of range"),
    ("disk,out,in,slots a,1,,4 b,1,1,4", "row 1: bad number"),
    ("disk,in,out,slots a,1,1,4 b,1,1,4", "row 0: bad header"),
    ("disk,limit,slots a,1,1,4 b,1,1,4", "row 1: bad width"),
    (" ".join(["disk,limit,slots", *(f"d{n},1,1" for n in range(1, 1026))]), "row 1025: too many rows"),
]
STAYS, WITH_SLOTS = cluster("a,2,4", "x a 0"), "item,disk,slot\n"
REFUSED = [
    (["", *THREE[1:]], "disks row 0: bad header"),
    ([THREE[0].ljust(16777217, "\n"), *THREE[1:]], "disks row 0: file too long"),
    *(([rows.replace(" ", "\n").replace("_", " ") + "\n", *THREE[1:]], f"disks {text}") for rows, text in D_ROWS),
    *(([THREE[0], f"item,disk,slot\n{rows}", THREE[2]], f"now {text}") for rows, text in (
        ("x,a,0\nx,a,1\n", "row 2: item listed twice"), ("x,q,0\n", "row 1: unknown disk"),
        ("x,a,4\n", "row 1: slot too high"), ("x,a,0\ny,a,0\n", "row 2: slot taken"))),
    ([*STAYS[:2], "item,disk\ny,a\n"], "next row 1: item not in now"),
    ([*STAYS[:2], "item,disk\n"], "now row 1: item not in next"),
    (cluster("a,1,2 b,1,2", "x a 0 b, y b 0 b, w a 1 b"), "disks row 2: no room on b, needs 3, has 2"),
    # a fault in each file, and in the last two: the earliest file's is told
    (["disk,limit,slots\na,0,4\n", "item,disk,slot\nx,q,0\n", WITH_SLOTS], "disks row 1: out of range"),
    ([cluster("a,1,2 b,1,2 c,1,2", "")[0], "item,disk,slot\nx,q,0\n", WITH_SLOTS], "now row 1: unknown disk"),
    ([*cluster("a,1,2 b,1,2 c,1,2", "x a 0, y b 0, z c 0")[:2], WITH_SLOTS], "next row 0: bad header"),
]


def refused(program):
    """Each command refuses the files, and saves nothing."""
    with Room(program) as room:
        for files, text in REFUSED:
            names(room, files, TWO_ROUNDS, cert_text(TWO_NEEDED))
            for line in (PLAN, CHECK, AFTER):
                ends(room, text, line, 3, f"refused {text}\n")
            holds(room, text, {"P": TWO_ROUNDS, "C": cert_text(TWO_NEEDED)})


def large_drills(program):
    """256 shifts are drilled, and not one more."""
    with Room(program) as room:
        for count, line in (256, "drill D N X P | 0 MOST"), (257, "drill D N X P | 11 too large for a drill 257"):
            shifts = [f"i0-{it} d0 {it} d1 {it}" for it in range(count)]
            files = drawn([(256 if count == 256 else 1, count)] * 2, [(0, it, 1) for it in range(count)])
            names(room, files, plan_text((", " if count == 256 else " / ").join(shifts)))
            follow(room, line)


# what a journal holds once the items are filled, its gate, head and marks; and lines over it
JOURNALS = [
    # marks of an earlier plan, which was closed
    (0, b"\7" * 32, b"\1\1", f"move D N X P | 0 done 2 rounds, found 0\n{AT_TARGET}"),
    # a gate of 2 is that of no journal
    (2, b"\7" * 32, b"\0\0", f"move D N X P | 0 done 2 rounds, found 0\n{AT_TARGET}"),
    (1, b"\7" * 32, b"\0\0", "move D N X P | 8 SEVENS\nresume D N X P | 8 SEVENS"),
    # the marks count up to the first that is not set
    (1, hashlib.sha256(TWO_ROUNDS.encode()).digest(), b"\0\1",
     f"resume D N X P | 0 done 2 rounds, found 0\n{AT_TARGET}"),
]
TEXTS["SEVENS"] = f"journal started with another plan {'07' * 32}, ours {KEPT}\n"


def journals(program):
    """Journals that the plan didn't leave, and one that began before the items were filled; and what a move leaves."""
    for gate, head, marks, lines in JOURNALS:
        with Room(program) as room:
            put(room, THREE, OF_THREE)
            follow(room, "fill D N | 0 filled 3")
            journal = [head, bytes([gate]), marks[:1], marks[1:]]
            room.write("journal.mig", b"".join(it.ljust(GATE, b"\0") for it in journal))
            follow(room, lines)
            held = room.read("journal.mig").ljust(4 * GATE, b"\0")
            moved = [hashlib.sha256(TWO_ROUNDS.encode()).digest(), b"\1", b"\1", b"\1"] if "MOVED" in lines else journal
            Count.same(f"{lines}: the journal", held, b"".join(it.ljust(GATE, b"\0") for it in moved))
    with Room(program) as room:
        put(room, THREE, OF_THREE)
        room.write("journal.mig", bytes(GATE) + b"\1")
        follow(room, "fill D N | 8 journal started\naudit D N | 0 LOST")


# texts that are no scripts of the three items, and the line that is refused
NO_SCRIPTS = [
    ("step 0\n", 1), ("step 01\n", 1), ("step 1000001\n", 1), ("step\n", 1), ("step 1 \n", 1), ("read x", 2),
    ("read q\n", 1), ("read\n", 1), ("read  x\n", 1), ("read x y\n", 1), ("Read x\n", 1), ("\n", 1), ("read x\n\n", 2),
    ("read x\n\nread y\n", 2), ("read x\r\n", 1), ("step 1\nstep 2\nread q", 3), ("step 1\nstep 2\nread y", 4),
    ("q\nread q\n", 1), ("step 1\n" * 65537, 65537),
    ("\n" * 16777217, 0), ("\n" * 16777216, 1),
]
LIVE = "live D N X P S"
# an item goes away, and another goes to where it was and back again: a slot is left twice
LEFT = cluster("a,1,1 b,1,1 c,1,1", "x a 0 b, y c 0")
LEFT_TWICE = {"P": plan_text("x a 0 b 0 / y c 0 a 0 / y a 0 c 0"), "L": layout_text("x b 0, y c 0")}
# the files, the items, and as many steps as the plan has: of each round its copies, a sync, its mark and its erasures;
# and a last sync
STEPPED = [(THREE, OF_THREE, "xyz", 11), (LEFT, LEFT_TWICE, "xy", 13)]


def scripts(program):
    """Status 15 of `live`; and orders that are read, up to as many as there may be."""
    with Room(program) as room:
        put(room, THREE, OF_THREE)
        for text, at in NO_SCRIPTS:
            room.write("S", text)
            ends(room, f"{text[:30]!r}", LIVE, 15, f"refused script line {at}\n")
    for text, reply in ("read z\nstep 1\nstep 1000000\nread x\n", replies("zx")), ("step 1\n" * 65536, ""):
        with Room(program) as room:
            put(room, THREE, {**OF_THREE, "S": text})
            follow(room, "fill D N | 0 filled 3")
            ends(room, f"{text[:30]!r}", LIVE, 0, f"{reply}left 0\n")


def stepped(program):
    """Each item is read after each step, and once at any moment; and sessions of three steps follow one another."""
    for files, others, items, steps in STEPPED:
        reads = "".join(f"read {it}\n" for it in items)
        cases = [(f"step 1\n{reads}" * steps, replies(items) * steps)]
        if files is LEFT:
            once = lambda at, it: "step 1\n" * at + f"read {it}\n" + "step 1\n" * (steps - at)
            cases += [(once(at, it), replies(it)) for at in range(steps + 1) for it in items]
        for script, text in cases:
            with Room(program) as room:
                put(room, files, {**others, "S": script})
                follow(room, f"fill D N | 0 filled {len(items)}")
                ends(room, items, LIVE, 0, f"{text}left 0\n")
                ran = room.run("audit", "D", "L")
                Count.that(f"{items}: at their targets", ran.out.endswith(f"{len(items)} here, 0 lost\n".encode()), ran)
    with Room(program) as room:
        put(room, LEFT, {**LEFT_TWICE, "S": "step 3\nread x\nread y\n"})
        follow(room, "fill D N | 0 filled 2")
        for left in (10, 6, 2, 0):
            ends(room, f"three steps, and then {left}", LIVE, 0, f"{replies('xy')}left {left}\n")


def filled(program):
    """Two items, the first in the later slot; a gate other than 1 is one of a store where no plan is carried out."""
    for gate in (b"\0", b"\2"):
        with Room(program) as room:
            names(room, cluster("a,1,2", "x1 a 1, y a 0"))
            room.write("journal.mig", bytes(GATE) + gate)
            lost = [f"{it} lost {digest(bytes(SLOT))}" for it in ("x1 a 1", "y a 0")]
            ends(room, "nothing", "audit D N", 0, table(lost[0], [lost[1], "0 here, 2 lost"]))
            follow(room, "fill D N | 0 filled 2\nfill D N | 9 occupied a 1")
            ends(room, "x1 and y", "audit D N", 0, here([("x1", "a", 1), ("y", "a", 0)]))
            Count.same("x1 and y: the disk", room.read("a.disk"), cell("y") + cell("x1"))


# lines whose text can't be put, and what is done all the same
UNTOLD = [
    (THREE, "rehearse 2 1 1", "audit D N | 0 LOST", {"P": None}),
    (SIX, "drain D N a Y", "drain D N q Y | 14 no disk q", {"Y": TWO_AND_FOUR}),
    (FULL, "plan-tight D N X P", "after-tight D N X P | 0 TWO", {"P": BY_THIRD}),
    *((THREE, f"{it} D N X P", AT_TARGET, {}) for it in ("move", "resume")),
]


def untold(program):
    """Status 6."""
    for files, line, then, saved in UNTOLD:
        with Room(program) as room, output("/dev/full") as out:
            put(room, files, OF_THREE if "MOVED" in then else {})
            if "MOVED" in then:
                follow(room, "fill D N | 0 filled 3")
            Count.ended(f"{line} into a full output", room.run(*line.split(), stdout=out), 6, "")
            follow(room, then)
            holds(room, line, saved)


# SHA-256 of the two plans of two items that change places one after the other, by the one that goes first
TWO_PLANS = (
    "6431c34c4c89e0ed4152f7d9d39e2635418390e7258926981e3c6f92728020cc",
    "04aba060805098fae1d1c056966b15e8010d4c5b9a8b2bde8accd4067896126b",
)
REHEARSED = "disks 2\nitems 2\nmoves 2\nquotient {0}\nrounds {0}\nbound {0}\nverdict optimal\nplan "


def rehearsed(program):
    """Two items that change places, also by numbers with zeros before them."""
    at_once = [digest(plan_text(it).encode()) for it in ("i0 d0 0 d1 1, i1 d1 0 d0 1", "i1 d1 0 d0 1, i0 d0 0 d1 1")]
    with Room(program) as room:
        for line, rounds, plans in ("rehearse 2 1 1", 2, TWO_PLANS), ("rehearse 0002 0000000001 1024", 1, at_once):
            ran = room.run(*line.split())
            text, _, plan = ran.out.decode()[:-1].rpartition(" ")
            Count.that(line, (ran.status, f"{text} ") == (0, REHEARSED.format(rounds)) and plan in plans, ran)


CASES = [sessions, no_forms, emptied, tight, refused, journals, filled, scripts, stepped, untold, rehearsed]
# a long run, which is the same for each build of the program
ONCE = [large_drills]

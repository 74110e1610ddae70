"""What tests/session tries with `live`, which carries a plan out step by step and replies to reads in between: its statuses and texts, and what
stands once it was left, cut off or killed in the middle."""
import fcntl, os, select, signal
from session_cells import LATER, OTHER, SLOT, cell, digest, here, slots
from session_hints import tells
from session_inputs import DISKS, FILES, FILL, LAYOUT_TEXT, LIVE, PLAN_TEXT, RESUME, put
from session_outputs import output
from session_rooms import Count, Room
from waiting import ended, until

WAY = "read p\nstep 3\nread p\nstep 1\nread p\nstep 7\nread r\n"


def replied(items, end):
    """What is put where these items were read, and how it ends."""
    return "".join(f"{item} {digest(cell(item))}\n" for item in items) + end


def put_script(room, text):
    room.write("script.txt", text)


def put_filled(room):
    put(room, DISKS, PLAN_TEXT)
    room.write("later.csv", LAYOUT_TEXT)
    Count.ended("fill before a session", room.run(*FILL), 0, "filled 3\n")


def is_resumed(name, room, found):
    """The plan is gone on with, and each item stands at its end."""
    Count.ended(f"{name}: resume", room.run(*RESUME), 0, f"done 2 rounds, found {found}\n")
    Count.ended(f"{name}: audit", room.run("audit", "disks.csv", "later.csv"), 0, here(LATER))
    Count.same(f"{name}: what was left is zeros", slots(room, "left"), [bytes(SLOT)] * 4)


def served_on_the_way(program):
    """The same bytes are replied before a copy, after it and once its source was erased; then nothing is left but the last sync."""
    with Room(program) as room:
        put_filled(room)
        put_script(room, WAY)
        Count.ended("live to the end", room.run(*LIVE), 0, replied("pppr", "left 0\n"))
        put_script(room, "")
        Count.ended("live at the end", room.run(*LIVE), 0, "left 1\n")
        is_resumed("live to the end", room, 2)


def read_at_one_moment(program):
    """An item is read once, before the first step or after any one. Nothing is wrong then, so each session comes to its end."""
    for steps in range(12):
        for item in "pqr":
            with Room(program) as room:
                put_filled(room)
                way = [f"step {steps}\n", f"read {item}\n", f"step {11 - steps}\n"]
                put_script(room, "".join(line for line in way if line != "step 0\n"))
                Count.ended(f"live that reads {item} after {steps} steps alone", room.run(*LIVE), 0, replied(item, "left 0\n"))
                is_resumed(f"live that reads {item} after {steps} steps alone", room, 2)


def left_in_the_middle(program):
    """After each number of steps the next session finds the marked rounds, and erases what the last of them left."""
    for steps in range(12):
        with Room(program) as room:
            put_filled(room)
            put_script(room, f"step {steps}\nread r\n" if steps else "read r\n")
            Count.ended(f"live, {steps} steps", room.run(*LIVE), 0, replied("r", f"left {11 - steps}\n"))
            put_script(room, "")
            marked = 0 if steps < 4 else 1 if steps < 9 else 2
            Count.ended(f"live after {steps} steps", room.run(*LIVE), 0, f"left {[11, 5, 1][marked]}\n")
            is_resumed(f"live, {steps} steps", room, marked)


def killed_in_the_middle(program):
    """A kill while it waits for its replies to be taken, which fill the pipe. No item is lost, and the plan goes on."""
    for steps in range(1, 11):
        with Room(program) as room:
            put_filled(room)
            put_script(room, f"step {steps}\n" + "read q\n" * 4000)
            started = room.start([room.path("migrate"), *LIVE])
            until(lambda: select.select([started.stdout], [], [], 0)[0], f"live to answer after {steps} steps")
            line = started.stdout.readline()
            os.killpg(started.pid, signal.SIGKILL)
            ended(started, "live that was killed")
            Count.same(f"live, killed after {steps} steps: the first line", line.decode(), replied("q", ""))
            is_resumed(f"live, killed after {steps} steps", room, 0 if steps < 4 else 1 if steps < 9 else 2)


def refusals(program):
    """Every other status before the first write: nothing changes. A script is read after the plan, and before it is asked whether the plan runs."""
    kept, ours = digest(PLAN_TEXT.encode()), digest(OTHER.encode())
    with Room(program) as room:
        put_filled(room)
        room.write("wrong.txt", PLAN_TEXT.replace("p left 0", "p left 3"))
        room.write("bad.txt", "step 0\n")
        put_script(room, WAY)
        room.mkdir("folder")
        before = room.files()
        for words, status, text in (
            (["live", *FILES, "wrong.txt", "script.txt"], 1, "not here round 1 item p\n"),
            (["live", *FILES, "wrong.txt", "bad.txt"], 15, "refused script line 1\n"),
            (["live", *FILES, "now.csv", "bad.txt"], 10, "refused plan line 1\n"),
            (["live", "disks.csv", "next.csv", "next.csv", "plan.txt", "bad.txt"], 3, "refused now row 0: bad header\n"),
            (["live", *FILES, "plan.txt", "folder"], 4, "folder fault\n"),
            (["live", *FILES, "plan.txt", "none.txt"], 16, "no file none.txt\n"),
            (["live", "disks.csv", "later.csv", "next.csv", "plan.txt", "script.txt"], 1, "not here round 1 item p\n"),
        ):
            Count.ended(f"{' '.join(words)}", room.run(*words), status, text)
            Count.same(f"{' '.join(words)} changes nothing", room.files(), before)
        put_script(room, "step 5\n")
        Count.ended("live that begins", room.run(*LIVE), 0, "left 6\n")
        room.write("other.txt", OTHER)
        before = room.files()
        Count.ended("live of another plan", room.run("live", *FILES, "other.txt", "script.txt"), 8, f"journal started with another plan {kept}, ours {ours}\n")
        with open(room.path("journal.mig"), "ab") as held:
            fcntl.flock(held, fcntl.LOCK_EX)
            Count.ended("live while another runs", room.run(*LIVE), 5, "store fault\n")
        Count.same("what was refused changes nothing", room.files(), before)
    with Room(program) as room:
        put(room, DISKS, PLAN_TEXT)
        put_script(room, WAY)
        Count.ended("live of nothing", room.run(*LIVE), 9, "not there p\n")


# scripts that are none, and the number of the line
WRONG = [
    ("step 0\n", 1), ("step 1000001\n", 1), ("step 01\n", 1), ("read x\n", 1), ("read  p\n", 1), ("READ p\n", 1), ("step\n", 1), ("step 1 \n", 1), ("\n", 1),
    ("read p", 2), ("read p\nstep 1", 3), ("read p\n\nstep 1\n", 2), ("read p\n\n", 2), ("read p\r\n", 1), ("step 1\n" * 65536 + "step 1\n", 65537),
    ("step 1\n" * 65535 + "step 1", 65537), ("read p\n" * 2396746, 0),
]


def scripts(program):
    """Scripts that are refused, with the line that standard error points to; and the longest that is read."""
    with Room(program) as room:
        put_filled(room)
        for text, line in WRONG:
            put_script(room, text)
            tells(f"script {text[:20]!r} of {len(text)} bytes", room.run(*LIVE), 15, f"refused script line {line}\n", ["script.txt"])
        put_script(room, "step 1\n" * 65535 + "read q\n")
        Count.ended("the longest script", room.run(*LIVE), 0, replied("q", "left 0\n"))


def cut_off(program):
    """A full output stops it at a reply, and a disk that may not be written at a step. What was done before stands."""
    with Room(program) as room:
        put_filled(room)
        put_script(room, "step 5\nread p\nstep 6\n")
        with output("/dev/full") as out:
            Count.ended("live into a full output", room.run(*LIVE, stdout=out), 6, "")
        put_script(room, "")
        Count.ended("live after it", room.run(*LIVE), 0, "left 5\n")
        put_script(room, "read r\nstep 1\n")
        os.chmod(room.path("right.disk"), 0o444)
        Count.ended("live of a disk that may not be written", room.run(*LIVE), 5, replied("r", "store fault\n"))
        os.chmod(room.path("right.disk"), 0o644)
        is_resumed("live that was cut off", room, 1)


def an_item_that_stays(program):
    """A read looks for its item also where the plan doesn't move it: a disk that is away, blank or another's is no item's bytes."""
    with Room(program) as room:
        put(room, [DISKS[0] + "third,2,4\n", DISKS[1] + "s,third,1\n", DISKS[2] + "s,third\n"], PLAN_TEXT)
        Count.ended("fill with an item that stays", room.run(*FILL), 0, "filled 4\n")
        put_script(room, "read s\nread p\n")
        Count.ended("live reads an item that stays", room.run(*LIVE), 0, replied("sp", "left 11\n"))
        held = room.read("third.disk")
        put_script(room, "read p\nstep 1\nread s\nread p\n")
        for name, third in ("away", None), ("blank", bytes(len(held))), ("cut", held[: SLOT + 100]), ("another's", cell("t") + cell("t")):
            os.remove(room.path("third.disk"))
            if third is not None:
                room.write("third.disk", third)
            tells(f"live, the disk of an item that stays is {name}", room.run(*LIVE), 5, replied("p", "store fault\n"), ["third", "item s"])
            room.write("third.disk", held)
        Count.ended("live, the disk is back", room.run(*LIVE), 0, replied("psp", "left 10\n"))


CASES = [served_on_the_way, read_at_one_moment, left_in_the_middle, killed_in_the_middle, refusals, scripts, cut_off, an_item_that_stays]

"""What tests/session tries where a file changes between a command and what it says on standard error: then it says nothing. The command is held where it
puts its text, into a pipe that is full; by then it has read its files."""
import contextlib, fcntl, os
from session_cells import SLOT, cell
from session_hints import THREE, now
from session_inputs import CERT_TEXT, CHECK, DISKS, FILES, FILL, LIVE, MOVE, PLAN, PLAN_TEXT, put
from session_rooms import Count, Room, bytes_of
from waiting import ended, until

SMALLEST = 4096


@contextlib.contextmanager
def full_pipe():
    """The two ends of a pipe without room."""
    read, write = os.pipe()
    try:
        os.write(write, bytes(fcntl.fcntl(write, fcntl.F_SETPIPE_SZ, SMALLEST)))
        yield read, write
    finally:
        os.close(read)
        os.close(write)


def holds_at_output(process):
    """It waits in a call on its standard output."""
    return bytes_of(f"/proc/{process.pid}/syscall").split()[1:2] == [b"0x1"]


def said(room, words, change):
    """What the command said on standard error, where this is done while it puts its text."""
    with full_pipe() as (read, write):
        started = room.start([room.path("migrate"), *words], stdout=write)
        until(lambda: holds_at_output(started) or started.poll() is not None, f"{words[0]} to put its text")
        change()
        os.read(read, SMALLEST)
        _, err = ended(started, words)
    return started.returncode, err


def tried(program, name, status, words, files, changed):
    """Something is said where nothing changes, and nothing where one of the files does, which gets a byte more each time."""
    def made():
        room = Room(program)
        put(room, DISKS, PLAN_TEXT, CERT_TEXT)
        for file, text in files.items():
            room.write(file, text)
        return room

    with made() as room:
        found, err = said(room, words, lambda: None)
        Count.that(f"{name}: said", found == status and err.startswith(b"migrate: "), (found, err))
    for file in changed:
        with made() as room:
            Count.same(f"{name}: nothing is said of another {file}", said(room, words, lambda: room.write(file, (room.read(file) or b"") + b"\n")), (status, b""))


def changes(program):
    wrong_plan, no_script = PLAN_TEXT.replace("q left 1", "q left 2"), "read nothing\n"
    tried(program, "a disk of a row", 3, PLAN, {"now.csv": now.replace("q,left", "q,middle")}, FILES)
    tried(program, "no room", 3, PLAN, {"disks.csv": DISKS[0].replace("right,2,4", "right,2,2")}, FILES)
    tried(program, "a line of a plan", 10, CHECK, {"plan.txt": PLAN_TEXT.replace("r left", "s left")}, [*FILES, "plan.txt", "cert.txt"])
    tried(program, "a line of a certificate", 10, CHECK, {"cert.txt": THREE}, ["disks.csv", "plan.txt", "cert.txt"])
    tried(program, "a line of a script", 15, LIVE, {"script.txt": no_script}, ["now.csv", "plan.txt", "script.txt"])
    tried(program, "a plan that is not right", 1, CHECK, {"plan.txt": wrong_plan}, [*FILES, "plan.txt", "cert.txt"])
    tried(program, "a certificate that is not right", 1, CHECK, {"cert.txt": CERT_TEXT.replace("even", "general")}, ["disks.csv", "cert.txt"])
    tried(program, "a disk to empty", 14, ["drain", *FILES[:2], "middle", "out.csv"], {}, FILES[:2])
    tried(program, "a missing file", 16, ["check", *FILES, "plan.txt", "c"], {}, ["c", "now.csv"])
    tried(program, "an item that is not there", 9, MOVE, {}, [*FILES, "plan.txt"])
    tried(program, "a slot in use", 9, FILL, {"left.disk": cell("p")}, FILES[:2])
    with Room(program) as room:
        put(room, DISKS, PLAN_TEXT)
        Count.same("an item that is there by now", said(room, MOVE, lambda: room.write("left.disk", cell("p"))), (9, b""))
    with Room(program) as room:
        put(room, DISKS, PLAN_TEXT)
        room.write("left.disk", cell("p"))
        Count.same("a slot that is free by now", said(room, FILL, lambda: room.write("left.disk", bytes(SLOT))), (9, b""))
    with Room(program) as room:
        put(room, DISKS, PLAN_TEXT)
        room.run(*FILL)
        room.run(*MOVE)
        for name, text in (("journal.mig", b"another plan's digest"), ("journal.mig", b""), ("plan.txt", b"another plan")):
            kept = room.read(name)
            Count.same(f"a plan that was begun, and another {name}", said(room, MOVE, lambda: room.write(name, text)), (8, b""))
            room.write(name, kept)


CASES = [changes]

"""What tests/session tries with `halt`, which closes a plan half way: its statuses, the layout that it saves, what the disks and the journal
then hold, and the next migration."""
import fcntl, os
from session_cells import LATER, OTHER, digest, here, is_closed, put_half_way
from session_inputs import DISKS, FILES, HALF_TEXT, HALT, LAYOUT_TEXT, PLAN_TEXT, RESUME, put
from session_outputs import output
from session_rooms import Count, Room


def nothing_to_close(program):
    """Status 8 where no plan was begun, and nothing is made but the journal, with no bytes, which was to be locked."""
    with Room(program) as room:
        put(room, DISKS, PLAN_TEXT)
        before = room.files()
        Count.ended("halt of nothing", room.run(*HALT), 8, "journal not started\n")
        Count.same("halt of nothing makes nothing but an empty journal", room.files(), {**before, "journal.mig": b""})


def closed_half_way(program):
    """A plan is closed after its first round. From the layout that is saved the rest is planned, moved and closed in turn."""
    with Room(program) as room:
        put_half_way(room)
        Count.ended("halt", room.run(*HALT), 0, "halted after 1 of 2\n")
        Count.same("halt: the layout", room.read("layout.csv"), HALF_TEXT.encode())
        Count.that("halt: the disks and the gate", is_closed(room))
        before = room.files()
        Count.ended("halt again", room.run(*HALT), 8, "journal not started\n")
        Count.same("halt again changes nothing", room.files(), before)
        room.write("other.txt", OTHER)
        Count.ended("halt of another plan", room.run("halt", *FILES, "other.txt", "layout.csv"), 8, "journal not started\n")
        goes_on_from_the_layout(room)


def goes_on_from_the_layout(room):
    """LAYOUT takes the place of the now file: what is left is planned, moved and closed, and each item is found at its end."""
    rest = ["disks.csv", "layout.csv", "next.csv", "rest.txt"]
    cert = "migration-certificate 1\nrounds 1\nquotient 1\nclass even\nbound disk left 1 2 1\nend\n"
    Count.ended("plan from the layout", room.run("plan", *rest, "rest-cert.txt"), 0, cert)
    Count.same("the plan from the layout", room.read("rest.txt"), b"migration-plan 1\nrounds 1\nround 1 1\nr left 2 right 2\nend\n")
    Count.ended("move from the layout", room.run("move", *rest), 0, "done 1 rounds, found 0\n")
    Count.ended("halt at the end", room.run("halt", *rest, "end.csv"), 0, "halted after 1 of 1\n")
    Count.same("halt at the end: the layout", room.read("end.csv"), LAYOUT_TEXT.encode())
    Count.ended("audit at the end", room.run("audit", "disks.csv", "end.csv"), 0, here(LATER))


def refusals(program):
    """Every other status before the first write, and another process at work: nothing changes."""
    kept, ours = digest(PLAN_TEXT.encode()), digest(OTHER.encode())
    with Room(program) as room:
        put_half_way(room)
        room.write("other.txt", OTHER)
        room.write("wrong.txt", PLAN_TEXT.replace("p left 0", "p left 3"))
        before = room.files()
        for words, status, text in (
            (["halt", *FILES, "wrong.txt", "layout.csv"], 1, "not here round 1 item p\n"),
            (["halt", "disks.csv", "next.csv", "next.csv", "plan.txt", "layout.csv"], 3, "refused now row 0: bad header\n"),
            ([*HALT[:5], "none/layout.csv"], 4, "folder fault\n"),
            ([*HALT[:5], "./now.csv"], 4, "folder fault\n"),
            (["halt", *FILES, "other.txt", "layout.csv"], 8, f"journal started with another plan {kept}, ours {ours}\n"),
            (["halt", *FILES, "now.csv", "layout.csv"], 10, "refused plan line 1\n"),
            (["halt", *FILES, "none.txt", "layout.csv"], 16, "no file none.txt\n"),
        ):
            Count.ended(f"{' '.join(words)}", room.run(*words), status, text)
            Count.same(f"{' '.join(words)} changes nothing", room.files(), before)
        with open(room.path("journal.mig"), "ab") as held:
            fcntl.flock(held, fcntl.LOCK_EX)
            Count.ended("halt while another runs", room.run(*HALT), 5, "store fault\n")
        Count.same("halt while another runs changes nothing", room.files(), before)


def stopped_and_done(program):
    """A disk that may not be written stops it, after the layout was saved; then it is done, though the output is full."""
    with Room(program) as room:
        put_half_way(room)
        os.chmod(room.path("left.disk"), 0o444)
        Count.ended("halt of a disk that may not be written", room.run(*HALT), 5, "store fault\n")
        Count.same("it has saved the layout", room.read("layout.csv"), HALF_TEXT.encode())
        os.chmod(room.path("left.disk"), 0o644)
        with output("/dev/full") as out:
            Count.ended("halt into a full output", room.run(*HALT, stdout=out), 6, "")
        Count.that("it is closed all the same", is_closed(room))


def stopped_and_resumed(program):
    """Once it was stopped, the plan may go on after all."""
    with Room(program) as room:
        put_half_way(room)
        os.chmod(room.path("left.disk"), 0o444)
        Count.ended("halt that is stopped", room.run(*HALT), 5, "store fault\n")
        os.chmod(room.path("left.disk"), 0o644)
        Count.ended("resume in its place", room.run(*RESUME), 0, "done 2 rounds, found 1\n")
        room.write("later.csv", LAYOUT_TEXT)
        Count.ended("nothing was lost by it", room.run("audit", "disks.csv", "later.csv"), 0, here(LATER))


CASES = [nothing_to_close, closed_half_way, refusals, stopped_and_done, stopped_and_resumed]

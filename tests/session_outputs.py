"""What tests/session tries with standard output: a full device, a closed pipe and a closed output are status 6, where it would be 0."""
import contextlib, os
from session_inputs import AFTER, AUDIT, CERT_TEXT, CHECK, DISKS, DRILL, FILL, MOVE, PLAN, PLAN_TEXT, RESUME, put
from session_rooms import Count, Room


@contextlib.contextmanager
def output(name):
    """/dev/full, or the end of a pipe whose other end is closed."""
    if name == "/dev/full":
        out = os.open(name, os.O_WRONLY)
    else:
        read, out = os.pipe()
        os.close(read)
    try:
        yield out
    finally:
        os.close(out)


def remove_saved(room):
    """So that what stands there later was saved by the next run."""
    for name in ("plan.txt", "cert.txt"):
        if os.path.exists(room.path(name)):
            os.remove(room.path(name))


def failing_outputs(program):
    """Status 6 where the output fails under the text of status 0; every other status stays."""
    with Room(program) as room:
        put(room, DISKS)
        for name in ("/dev/full", "a closed pipe"):
            with output(name) as out:
                remove_saved(room)
                Count.ended(f"plan into {name}", room.run(*PLAN, stdout=out), 6, "")
                Count.same(f"plan into {name} saved CERT", room.read("cert.txt"), CERT_TEXT.encode())
                Count.ended(f"plan into {name} saved PLAN", room.run(*CHECK), 0, "optimal\n")
                Count.ended(f"check into {name}", room.run(*CHECK, stdout=out), 6, "")
                Count.ended(f"after into {name}", room.run(*AFTER, stdout=out), 6, "")
                Count.ended(f"wrong words into {name}", room.run("plan", stdout=out), 2, "")
                Count.ended(f"a missing file into {name}", room.run("after", "no", *AFTER[2:], stdout=out), 16, "")
                Count.ended(f"a fault into {name}", room.run("after", ".", *AFTER[2:], stdout=out), 4, "")


def closed_outputs(program):
    """Status 6 where standard output is closed, and the other streams too: no file that is saved takes its place."""
    with Room(program) as room:
        put(room, DISKS)
        room.run(*PLAN)
        plan = room.read("plan.txt")
        for command in (PLAN, CHECK, AFTER):
            for closed in (">&-", ">&- 2>&-", "<&- >&- 2>&-"):
                if command is PLAN:
                    remove_saved(room)
                ran = room.run(" ".join(["./migrate", *command, closed]), shell=True)
                Count.ended(f"{command[0]} {closed}", ran, 6, "")
                Count.same(f"{command[0]} {closed}: PLAN and CERT", (room.read("plan.txt"), room.read("cert.txt")), (plan, CERT_TEXT.encode()))


def stores_all_the_same(program):
    """Status 6 of a command over a store: what it does is done all the same."""
    with Room(program) as room, output("/dev/full") as out:
        put(room, DISKS, PLAN_TEXT)
        Count.ended("drill into a full output", room.run(*DRILL, stdout=out), 6, "")
        Count.ended("fill into a full output", room.run(*FILL, stdout=out), 6, "")
        Count.ended("move into a full output", room.run(*MOVE, stdout=out), 6, "")
        Count.ended("audit into a full output", room.run(*AUDIT, stdout=out), 6, "")
        Count.ended("it was moved", room.run(*RESUME), 0, "done 2 rounds, found 2\n")


CASES = [failing_outputs, closed_outputs, stores_all_the_same]

"""What tests/session tries with `drill`, which tells what each stop of a plan leaves, and leaves nothing itself."""
from session_cells import stores
from session_inputs import DISKS, DRILL, FILES, FILL, MOVE, PLAN, PLAN_TEXT, many, put
from session_rooms import Count, Room, page


def drill_text():
    """The drill of docs/FORMATS.md's plan: its first mark is write 6, and its second write 10."""
    marks = {6: "0 1 0 1", 10: "1 2 1 2"}
    after = lambda n: "0 0 0 0" if n < 6 else "1 1 1 1" if n < 10 else "2 2 2 2"
    return "writes 12\n" + "".join(f"stop {n} marks {marks.get(n) or after(n)}\n" for n in range(12)) + "reached 48\n"


def stops(program):
    """The same text before the migration and after it, and no file or disk is made or changed."""
    text = drill_text()
    Count.that("FORMATS shows the drill", f"```\n{text}```" in page("docs/FORMATS.md"), text)
    with Room(program) as room:
        put(room, DISKS, PLAN_TEXT)
        before = room.files()
        Count.ended("drill", room.run(*DRILL), 0, text)
        Count.same("drill makes no file", room.files(), before)
        Count.ended("fill", room.run(*FILL), 0, "filled 3\n")
        Count.ended("move", room.run(*MOVE), 0, "done 2 rounds, found 0\n")
        moved = stores(room)
        Count.ended("drill of what is moved", room.run(*DRILL), 0, text)
        Count.same("drill changes no disk", stores(room), moved)


def refusals(program):
    """Statuses 16, 10 and 1, and 11 for one shift more than a drill takes."""
    with Room(program) as room:
        put(room, DISKS, PLAN_TEXT)
        Count.ended("drill of no plan", room.run("drill", *FILES, "other.txt"), 16, "no file other.txt\n")
        room.write("plan.txt", PLAN_TEXT.replace("rounds 2", "rounds 3"))
        Count.ended("drill of another text", room.run(*DRILL), 10, "refused plan line 8\n")
        room.write("plan.txt", PLAN_TEXT.replace("r left 2", "r left 3"))
        Count.ended("drill of a plan that cannot run", room.run(*DRILL), 1, "not here round 2 item r\n")
    with Room(program) as room:
        put(room, many(257))
        Count.same("plan of 257 shifts", room.run(*PLAN).status, 0)
        Count.ended("drill of 257 shifts", room.run(*DRILL), 11, "too large for a drill 257\n")


CASES = [stops, refusals]

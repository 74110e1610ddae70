"""What tests/session tries with large files: files of many pieces, a small stack, and memory that is refused (status 7)."""
import resource
from session_inputs import AFTER, CHECK, FILES, HALT, PLAN, many, many_saved, put
from session_rooms import Count, Room

COUNT = 5000
SMALL_STACK = [(resource.RLIMIT_STACK, 256 << 10)]
# 8 MiB hold the program and its stack, and not 60,000 items
LITTLE_MEMORY = [(resource.RLIMIT_AS, 8 << 20)]


def many_pieces(program):
    """A plan of files that are read in many pieces, each of its lines, and the same plan again from the same files."""
    files, (cert, layout) = many(COUNT), many_saved(COUNT)
    with Room(program) as room:
        put(room, files)
        Count.ended("plan of many pieces", room.run(*PLAN), 0, cert)
        Count.same("cert of many pieces", room.read("cert.txt"), cert.encode())
        plan = (room.read("plan.txt") or b"").decode()
        moves = [line for line in plan.split("\n") if line.startswith("item")]
        Count.same("its moves", sorted(moves), sorted(f"item{i} a {i} b {i}" for i in range(COUNT)))
        Count.same("its ends", (plan[: plan.find("\nround 1 ") + 1], plan[-5:]), (f"migration-plan 1\nrounds {COUNT // 2}\n", "\nend\n"))
        Count.ended("check of many pieces", room.run(*CHECK), 0, "optimal\n")
        Count.ended("after of many pieces", room.run(*AFTER), 0, layout)
        Count.ended("plan again", room.run(*PLAN[:4], "again.txt", "cert.txt"), 0, cert)
        Count.same("the same files give the same plan", room.read("again.txt"), room.read("plan.txt"))


def small_stacks(program):
    """256 KiB of stack do for many items, whether the limits are even or odd."""
    files, (cert, layout) = many(COUNT), many_saved(COUNT)
    with Room(program) as room:
        put(room, files)
        for case, text in ((PLAN, cert), (CHECK, "optimal\n"), (AFTER, layout)):
            Count.ended(f"{case[0]} with a small stack", room.run(*case, limits=SMALL_STACK), 0, text)
        room.write("odd.csv", files[0].replace(",2,", ",3,"))
        rounds = -(-COUNT // 3)
        cert = f"migration-certificate 1\nrounds {rounds}\nquotient {rounds}\nclass general\nbound disk a {COUNT} 3 {rounds}\nend\n"
        for case, text in ((PLAN, cert), (CHECK, "optimal\n")):
            ran = room.run(case[0], "odd.csv", *case[2:4], "odd-plan.txt", "odd-cert.txt", limits=SMALL_STACK)
            Count.ended(f"{case[0]} of odd limits with a small stack", ran, 0, text)


def refused_memory(program):
    """Status 7 where memory is refused: nothing is saved."""
    with Room(program) as room:
        put(room, many(60000))
        Count.ended("plan without memory", room.run(*PLAN, limits=LITTLE_MEMORY), 7, "no memory\n")
        Count.same("plan without memory: files", sorted(room.files()), sorted([*FILES, "migrate"]))
        Count.ended("plan with memory", room.run(*PLAN), 0, many_saved(60000)[0])
        before = room.files()
        for case in (CHECK, AFTER, HALT):
            ran = room.run(*case, limits=LITTLE_MEMORY)
            Count.that(f"{case[0]} without memory", (ran.status, ran.out, room.files()) == (7, b"no memory\n", before), f"{ran}, and files {sorted(room.files())}")


CASES = [many_pieces, small_stacks, refused_memory]

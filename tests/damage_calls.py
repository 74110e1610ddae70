"""What tests/damage does in the midst of a run, at a call that it picks (calls.c): files and folders that are exchanged, calls that are
interrupted or fail, and locks that keep nobody out. It needs a C compiler; where there is none a line says so, and nothing is counted."""
import collections, contextlib, errno, itertools, os, resource, shlex, shutil, subprocess, tempfile
from session_cells import cell, put_half_way, stores
from session_inputs import DISKS, FILES, PLAN_TEXT, put
from session_rooms import Count, Room, says
from damage_rooms import LEFT, WORDS, Store, ring, stages
from damages import JOURNAL, Slots, journal_of

NOTE = "unsynced.mig"
ANEW = "cp -p {0} other && mv other {0}"


def with_calls(trial):
    """A case that is handed the program and calls.c as a library; left out where that can't be made."""
    def run(program):
        if not shutil.which("cc"):
            print(f"left out: {trial.__name__}: there is no C compiler (cc)")
            return
        with tempfile.TemporaryDirectory(prefix="migrate-calls-") as folder:
            os.chmod(folder, 0o755)
            library = f"{folder}/calls.so"
            subprocess.run(["cc", "-O1", "-shared", "-fPIC", "-o", library, f"{os.path.dirname(os.path.realpath(__file__))}/calls.c", "-ldl"], check=True)
            trial(lambda room, words, **env: called(room, words, {"LD_PRELOAD": library, **env}), program)
    run.__name__, run.__doc__ = trial.__name__, trial.__doc__
    return run


def called(room, words, env):
    """Runs the program with calls.c, which is told by the names `at`, `run`, `lock`, `errno`, `log`, `free` and `full` what to do; `limits` are those of a room."""
    limits = {"limits": env.pop("limits")} if "limits" in env else {}
    told = [f"{name if name == 'LD_PRELOAD' else f'CALLS_{name.upper()}'}={shlex.quote(str(value))}" for name, value in env.items()]
    return room.run(" ".join([*told, "exec", "./migrate", *map(shlex.quote, words)]), shell=True, **limits)


@contextlib.contextmanager
def begun(program, command):
    """A room in which a command is to write: all but before `resume` and `halt` at its beginning, and else half way."""
    with Room(program) as room:
        if command in ("resume", "halt"):
            put_half_way(room)
        else:
            put(room, DISKS, PLAN_TEXT)
            room.write("left.disk", LEFT)
            room.write(JOURNAL, b"")
        yield room


def refused(room, what, ran, *names):
    Count.ended(what, ran, 5, "store fault\n")
    Count.that(f"{what}: why is said", says(ran, *names), ran)


def moved(room, what, ran, found):
    Count.ended(what, ran, 0, f"done 2 rounds, found {found}\n")
    held = (room.read("right.disk"), (room.read("left.disk") or b"").strip(b"\0"))
    Count.that(f"{what}: the target is reached", held == (LEFT, b""))


# Files that are exchanged

@with_calls
def exchanged_in_the_midst(run, program):
    """A disk or the journal is replaced by a copy, or removed, at a write of a round, or the disk later, up to the sync of its mark: the round's
    items stay where they were."""
    moments = [*itertools.product((("pwrite right.disk 1", 0), ("pwrite right.disk 3", 1)), ("right.disk", JOURNAL)),
               *((it, "right.disk") for it in (("open journal.mig 3", 0), ("pwrite journal.mig 5", 0), ("fdatasync journal.mig 4", 0), ("fdatasync left.disk 2", 1)))]
    for ((at, marked), name), change in itertools.product(moments, (ANEW, "rm {0}")):
        with begun(program, "move") as room:
            ran, what = run(room, WORDS["move"], at=at, run=change.format(name)), f"{change.format(name)}, at {at}"
            refused(room, what, ran, name, "exchanged")
            left = room.read("left.disk")
            Count.that(f"{what}: the round's items stay", left == (LEFT if marked == 0 else left[:8192] and bytes(8192) + LEFT[8192:]), left[:3])


@with_calls
def exchanged_while_closed(run, program):
    """A disk is replaced by a copy, or removed, while it is closed, since more disks are in use than files may be open: before the round's
    first copy, or after the one to this disk. The round isn't marked, and its items stay where they were."""
    for at, change in itertools.product(("pread disks/d30 1", "pwrite disks/d30 1"), (ANEW, "rm {0}")):
        with Room(program) as room:
            store = Store(room, ring(40))
            store.put(store.case.image(next(stages(store.case))[0]))
            ran = run(room, WORDS["move"], at=at, run=change.format("disks/d5"), limits=[(resource.RLIMIT_NOFILE, 16)])
            what = f"{change.format('a closed disk')}, at {at}"
            refused(room, what, ran, "d5.disk")
            seen = Slots(store.case, store.seen())
            left = {item for item, spot in store.case.now.items() if seen.item(spot) != item}
            Count.that(f"{what}: the items stay", left <= ({"i5"} if change != ANEW else set()), left)
            Count.same(f"{what}: the marked rounds", journal_of(store.seen(), 1)[2], 0)


@with_calls
def exchanged_before_the_lock(run, program):
    """A disk or the journal is replaced by a copy between its opening and its lock, or is made by another process first: nothing is written."""
    for at, name, change in (("flock journal.mig 1", JOURNAL, ANEW), ("open left.disk 2", "left.disk", ANEW), ("make right.disk 1", "right.disk", "cp left.disk right.disk")):
        with begun(program, "move") as room:
            ran = run(room, WORDS["move"], at=at, run=change.format(name))
            refused(room, f"{name}, {at}", ran, name, "another process made or exchanged it")
            held = stores(room)
            Count.that(f"{name}, {at}: nothing is written", held["left.disk"] == LEFT and held.get("right.disk") in (None, LEFT), held.keys())
            if name != "right.disk":
                Count.same(f"{name}, {at}: nothing is written to the journal", held[JOURNAL], b"")


@with_calls
def exchanged_saves(run, program):
    """What is saved is replaced by another process's file before it gets its name: the old one stands."""
    with Room(program) as room:
        put(room, DISKS)
        room.write("plan.txt", "old\n")
        ran = run(room, ["plan", *FILES, "plan.txt", "cert.txt"], at="fsync plan.txt.new.mig 1", run="cp now.csv other && mv other plan.txt.new.mig")
        Count.ended("a save beside another", ran, 4, "folder fault\n")
        Count.same("a save beside another: the old file stands", room.read("plan.txt"), b"old\n")


@with_calls
def written_in_the_midst(run, program):
    """A process that heeds no lock writes another item over the old slot of one that was copied, before it is erased: it stays."""
    for command, at, slot in (("move", "pwrite journal.mig 5", 0), ("move", "fdatasync journal.mig 4", 1), ("resume", "pwrite journal.mig 1", 2)):
        with begun(program, command) as room:
            room.write("other", cell("s"))
            ran, what = run(room, WORDS[command], at=at, run=f"dd if=other of=left.disk seek={slot} bs=4096 conv=notrunc status=none"), f"{command}, another item at {at}"
            refused(room, what, ran, "left", "s")
            Count.same(f"{what}: it stays", room.read("left.disk")[4096 * slot :][:4096], cell("s"))


# Locks

@with_calls
def free_locks(run, program):
    """On a file system whose locks keep nobody out nothing is begun."""
    for command in ("fill", "move", "resume", "halt"):
        with begun(program, command) as room:
            if command == "fill":
                os.remove(room.path("left.disk"))
            before = stores(room)
            refused(room, f"{command} where locks keep nobody out", run(room, WORDS[command], free=1), JOURNAL, "locks")
            Count.same(f"{command} where locks keep nobody out writes nothing", stores(room), before)


@with_calls
def held_locks(run, program):
    """Each disk is locked when it is looked at, and when it is made; the journal all the while."""
    for command, at, name in (("move", "pread left.disk 1", "left.disk"), ("move", "pwrite right.disk 1", "right.disk"), ("resume", "pread right.disk 1", "right.disk"),
                              ("move", "pwrite left.disk 1", JOURNAL), ("resume", "pwrite right.disk 1", JOURNAL)):
        with begun(program, command) as room:
            ran, what = run(room, WORDS[command], at=at, lock=name), f"{command}, at {at}"
            moved(room, what, ran, 0 if command == "move" else 1)
            Count.same(f"{what}: {name} is locked", room.read("taken"), None)


# Calls that are interrupted, or fail

def counted(room, run, command):
    """How often a command makes each call on a file of the store; its log is removed."""
    Count.same(f"{command} under a record", run(room, WORDS[command], log="log").status, 0)
    lines = [line.split(" ", 1) for line in room.read("log").decode().splitlines()]
    return collections.Counter((call, os.path.basename(path)) for call, path in lines if path.endswith((".disk", ".mig")))


def each_call(run, program, command):
    """Each call of a command on a file of the store, with a room in which it is to be made."""
    with begun(program, command) as room:
        calls = counted(room, run, command)
    for (call, name), count in sorted(calls.items()):
        for number in range(1, count + 1):
            with begun(program, command) as room:
                yield room, call, name, f"{call} {name} {number}"


@with_calls
def interruptions(run, program):
    """Each call is interrupted once: it is made again."""
    for command in ("move", "resume"):
        for room, _, _, at in each_call(run, program, command):
            moved(room, f"{command}, interrupted at {at}", run(room, WORDS[command], at=at, errno=errno.EINTR), int(command == "resume"))
    for room, _, _, at in each_call(run, program, "halt"):
        Count.ended(f"halt, interrupted at {at}", run(room, WORDS["halt"], at=at, errno=errno.EINTR), 0, "halted after 1 of 2\n")


@with_calls
def failures(run, program):
    """Each call fails once: that is status 5, and what is said is that, and no other process; `resume` goes on, after a sync that failed only once its note is gone."""
    for command in ("move", "resume"):
        for room, call, name, at in each_call(run, program, command):
            ran, what = run(room, WORDS[command], at=at, errno=errno.EDQUOT), f"{command}, failed at {at}"
            Count.ended(what, ran, 5, "store fault\n")
            Count.that(f"{what}: why is said", says(ran, "quota exceeded") and not says(ran, "another process"), ran)
            Count.same(f"{what}: a sync that failed is noted", room.read(NOTE) is not None, call in ("fsync", "fdatasync"))
            if room.read(NOTE):
                refused(room, f"{what}: resume before a new mount", room.run(*WORDS["resume"]), name if name in (JOURNAL, "left.disk", "right.disk") else ".", "a sync of it has failed")
                os.remove(room.path(NOTE))
            ran = room.run(*WORDS["resume"])
            Count.that(f"{what}: resume goes on", ran.status == 0 and room.read("right.disk") == LEFT, ran)


# What is full, and whose it is

@with_calls
def full(run, program):
    """Where no file can be made and none can grow, a plan whose slots and journal are there is carried on, and closed."""
    for command in ("resume", "halt"):
        with begun(program, command) as room:
            for name, length in (("right.disk", len(LEFT)), (JOURNAL, 4 * 512)):
                os.truncate(room.path(name), max(length, os.path.getsize(room.path(name))))
            room.mkdir("elsewhere")
            ran = run(room, [*WORDS[command][:5], *(["elsewhere/layout.csv"] if command == "halt" else [])], full=1)
            Count.ended(f"{command} on a full file system", ran, 0, "done 2 rounds, found 1\n" if command == "resume" else "halted after 1 of 2\n")


@with_calls
def owners(run, program):
    """The journal keeps its owner and its mode where root carries the plan on, and a link to it stays one."""
    with begun(program, "resume") as room:
        os.chmod(room.path(JOURNAL), 0o640)
        room.mkdir("there")
        os.rename(room.path(JOURNAL), room.path(f"there/{JOURNAL}"))
        os.symlink(f"there/{JOURNAL}", room.path(JOURNAL))
        before, room.user = os.stat(room.path(JOURNAL)), {}
        moved(room, "resume by root", run(room, WORDS["resume"]), 1)
        after = os.stat(room.path(JOURNAL))
        Count.same("the journal is the same file", (after.st_ino, after.st_uid, after.st_mode), (before.st_ino, before.st_uid, before.st_mode))
        Count.that("the link stays", os.path.islink(room.path(JOURNAL)))


CALLS = [exchanged_in_the_midst, written_in_the_midst, exchanged_while_closed, exchanged_before_the_lock, exchanged_saves, free_locks, held_locks, interruptions, failures, full, owners]

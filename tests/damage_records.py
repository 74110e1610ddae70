"""What tests/damage sees in a record of the system's calls: what is read before the first write to a disk or the journal, and which write
that is; and what becomes of a mover that is held between two calls. It needs strace; where it isn't there a line says so, and nothing is
counted."""
import fcntl, os, re, shutil
from session_cells import SLOT
from session_inputs import DISKS, PLAN_TEXT, put
from session_rooms import Count, Ran, Room, says
from damage_rooms import ENDS, LAYOUT, LEFT, WORDS, Store, example, stages
from damages import JOURNAL, journal_of, mark
from waiting import LIMIT, ended, until

CALL = re.compile(r"(\w+)\((.*)\)\s+= -?\d+")
WRITES = {"pwrite64", "write", "pwritev", "writev", "pwritev2", "ftruncate", "fallocate", "copy_file_range", "sendfile"}
NAMED = {"openat", "open", "rename", "renameat", "renameat2", "link", "linkat", "unlink", "unlinkat"}


def is_missing(trial):
    """Whether there is no strace, and a line that says so."""
    if shutil.which("strace"):
        return False
    print(f"left out: {trial.__name__}: strace isn't there")
    return True


def call_of(line, folder):
    """A call of a record: its name, the file that it is about, and its last argument where that is a number."""
    found = CALL.search(line)
    if not found:
        return None
    call, arguments = found.groups()
    files = re.findall(r'"([^"]*)"' if call in NAMED else r"<([^<>]*)>", arguments)
    last = arguments.rsplit(",", 1)[-1].strip()
    return call, os.path.relpath(os.path.join(folder, files[0]), folder) if files else "", int(last) if last.isdigit() else None


def recorded(room, command):
    """Runs a command under strace: how it ended, and its calls with files."""
    log = room.path("calls")
    words = ["strace", "-f", "-y", "-s", "0", "-o", log, "-e", "trace=desc,file", room.path("migrate"), *WORDS[command]]
    started = room.start(words)
    out, err = ended(started, f"{command} under strace")
    with open(log, errors="replace") as file:
        calls = [call_of(line, os.path.realpath(room.at)) for line in file]
    os.remove(log)
    return Ran(started.returncode, out, err), [call for call in calls if call]


def cells_of(spots):
    """The files and offsets of slots."""
    return {(f"disks/{disk}", SLOT * slot) for disk, slot in spots}


def first_writes(case, command, rounds):
    """What the mover may write first."""
    if command == "halt":
        return cells_of(case.free(rounds)) | {(JOURNAL, mark(0))}
    left = [source for _, source, _ in case.rounds[rounds - 1]] if rounds else []
    coming = [target for shifts in case.rounds[rounds : rounds + 1] for _, _, target in shifts]
    return cells_of(left + coming)


def judge_record(store, what, command, rounds):
    """Each item that the plan shifts is looked for before anything is saved or written, and what is written first is what the mover asks for."""
    case = store.case
    ran, calls = recorded(store.room, command)
    Count.same(f"a record of {what}", ran.status, 0)
    writes = [n for n, (call, name, _) in enumerate(calls) if call in WRITES and (name == JOURNAL or name.startswith("disks/"))]
    saves = [n for n, (call, name, _) in enumerate(calls) if call in NAMED and name.startswith(LAYOUT)]
    begun = min([*writes, *saves], default=len(calls))
    looked = {(name, at) for call, name, at in calls[:begun] if call == "pread64"}
    missed = cells_of(case.at[rounds][item] for item in case.shifted) - looked
    Count.that(f"a record of {what}: each item is looked for before anything is written", not missed, missed)
    if writes:
        Count.that(f"a record of {what}: the first write", calls[writes[0]][1:] in first_writes(case, command, rounds), calls[writes[0]])
    if command == "halt":
        Count.that(f"a record of {what}: the layout is saved before the first write", saves and saves[-1] < min(writes, default=len(calls)), (saves, writes[:1]))


def recorded_calls(program):
    """A record of the calls of `resume` and `halt` at each stage."""
    if is_missing(recorded_calls):
        return
    with Room(program) as room:
        store = Store(room, example())
        for (count, stage), command in ((stage, command) for stage in stages(store.case) for command in ENDS):
            image = store.case.image(count)
            armed, _, rounds = journal_of(image, len(store.case.rounds))
            if armed:
                store.put(image)
                judge_record(store, f"{stage}: {command}", command, rounds)


def late_makers(program):
    """Another process makes the journal, and takes it, while a first mover is held between its look and its making."""
    if is_missing(late_makers):
        return
    with Room(program) as room:
        put(room, DISKS, PLAN_TEXT)
        room.write("left.disk", LEFT)
        # it is held for good before it opens the journal, until strace is killed; a shell prints its status
        held = ["strace", "-f", "-qq", "-o", room.path("calls"), "-P", JOURNAL, "-e", "trace=openat", "-e", f"inject=openat:delay_enter={2 * LIMIT * 10**6}"]
        mover = room.start([*held, "sh", "-c", './migrate "$@"; echo $?', "sh", *WORDS["move"]])
        until(lambda: mover.poll() is not None or JOURNAL.encode() in (room.read("calls") or b""), "a mover to be about to open the journal")
        with open(room.path(JOURNAL), "ab") as journal:
            room.own(room.path(JOURNAL))
            fcntl.flock(journal, fcntl.LOCK_EX)
            mover.kill()
            out, err = ended(mover, "a mover that was held")
        *out, status = out.splitlines(keepends=True) or [b"-1"]
        ran = Ran(int(status), b"".join(out), err)
        Count.ended("a mover that comes late", ran, 5, "store fault\n")
        Count.that("a mover that comes late: why is said", says(ran, "another process is at work") and not says(ran, "leads nowhere"), ran)
        Count.same("a mover that comes late writes nothing", (room.read("left.disk"), room.read("right.disk"), room.read(JOURNAL)), (LEFT, None, b""))
        Count.ended("move after it", room.run(*WORDS["move"]), 0, "done 2 rounds, found 0\n")

"""What tests/power stands on: what files and names hold in memory and on the device, and runs of the program whose calls are
told one by one (power.c), so that any of them may be the last one, or may fail."""
import errno, fcntl, functools, os, random, shutil, socket, struct, subprocess, tempfile
from waiting import LIMIT, ended, in_vain

HERE = os.path.dirname(os.path.realpath(__file__))
SLOT, SECTOR, JOURNAL, NOTE = 4096, 512, "journal.mig", "unsynced.mig"
with open("/proc/sys/kernel/random/boot_id", "rb") as file:
    BOOT = file.read().strip()
ANOTHER_BOOT = b"0" * len(BOOT)
OPEN, WRITE, LENGTH, SYNC, RENAME, REMOVE, LINK, CLOSE = range(8)
KINDS_OF_CALLS = ["open", "write", "length", "sync", "rename", "remove", "link", "close"]
GO_ON, DONE = 0, -1
CALL = struct.Struct("=iiiiqq")
LONGEST = 1 << 18

# what a power cut may leave of a cell that was written since its file's last sync
KINDS = ["old", "new", "half", "ones", "random"]


# What files and names hold

class Held:
    """What a file holds: what reads show, and what the device has. A cell is a slot of a disk or a sector of the journal;
    any other file is one cell."""

    def __init__(self, name, memory=b""):
        self.unit = SLOT if name.endswith(".disk") else SECTOR if name == JOURNAL else 0
        self.memory, self.device = bytearray(memory), bytearray(memory)
        self.unsettled = {}  # the cells that were written since the last sync, with what was written
        self.lost = set()  # those whose sync failed, since when no sync brings them to the device

    def copy(self):
        it = Held.__new__(Held)
        it.unit, it.memory, it.device = self.unit, bytearray(self.memory), bytearray(self.device)
        it.unsettled, it.lost = {cell: list(values) for cell, values in self.unsettled.items()}, set(self.lost)
        return it

    def cell(self, held, number):
        """A cell of what is held in memory or on the device."""
        return bytes(held[number * self.unit : (number + 1) * self.unit]).ljust(self.unit, b"\0") if self.unit else bytes(held)

    def put(self, held, number, value):
        if not self.unit:
            held[:] = value
            return
        if len(held) < number * self.unit:
            held.extend(bytes(number * self.unit - len(held)))
        held[number * self.unit : (number + 1) * self.unit] = value

    def note(self, first, last):
        """The cells of these bytes are written."""
        for number in range(first // self.unit, last // self.unit + 1) if self.unit else [0]:
            self.unsettled.setdefault(number, []).append(self.cell(self.memory, number))

    def write(self, at, data):
        if len(self.memory) < at:
            self.memory.extend(bytes(at - len(self.memory)))
        self.memory[at : at + len(data)] = data
        self.note(at, at + len(data) - 1)

    def shorten(self, length):
        assert not self.unit, "a disk or the journal is cut"
        self.memory[length:] = bytes(max(0, length - len(self.memory)))
        self.note(0, 0)

    def settle(self):
        """A sync succeeds."""
        for number in self.unsettled.keys() - self.lost:
            self.put(self.device, number, self.cell(self.memory, number))
        self.unsettled.clear()

    def lose(self, chance):
        """A sync fails: what was written counts as settled, though the device may lack it, and reads go on showing it. So does what is
        written there later, until the file is mounted anew."""
        self.lost |= self.unsettled.keys()
        for number in self.unsettled:
            self.leave(self.device, number, chance.choice(["old", "old", *KINDS]), chance)
        self.unsettled.clear()

    def leave(self, held, number, kind, chance):
        """Puts what is left of an unsettled cell. Past its end a file may end anywhere."""
        old, new = self.cell(self.device, number), self.cell(self.memory, number)
        is_past = not self.unit or number * self.unit >= len(held)
        if kind == "old" and not is_past:
            self.put(held, number, old)
        elif kind == "new":
            self.put(held, number, chance.choice([new, new, new, *self.unsettled[number]]))
        elif kind == "half":
            self.put(held, number, new[: len(new) // 2] + (b"" if is_past else old[len(new) // 2 :]))
        elif kind in ("ones", "random"):
            self.put(held, number, b"\1" * len(new) if kind == "ones" else chance.randbytes(len(new)))

    def after_cut(self, chance, name, kind):
        """The file after a power cut: each unsettled cell is left in this way, or each in a way of its own."""
        held = bytearray(self.device)
        for number in self.unsettled:
            self.leave(held, number, kind or chance.choice(KINDS), chance)
        return Held(name, held)


class World:
    """The files of a folder, and of folders in it, by their paths: what the names show, and what the device has of the names."""

    def __init__(self, files=()):
        self.names = {path: Held(path, held) for path, held in dict(files).items()}
        self.settled = dict(self.names)
        self.untold = ()  # the paths of files of which the next sync is to tell a loss
        # of names, since their folder's last sync: the folder, the names that go, the name that comes, its file, and whether a sync lost it
        self.changes = []

    def copy(self):
        files = [*self.names.values(), *self.settled.values(), *(held for *_, held, _ in self.changes if held)]
        copies = {id(held): held.copy() for held in {id(held): held for held in files}.values()}
        it = World()
        it.names = {path: copies[id(held)] for path, held in self.names.items()}
        it.settled = {path: copies[id(held)] for path, held in self.settled.items()}
        it.changes = [(folder, gone, come, held and copies[id(held)], lost) for folder, gone, come, held, lost in self.changes]
        it.untold = self.untold
        return it

    def change(self, gone, come=None, held=None):
        """A name goes, another comes with its file."""
        change = (os.path.dirname(come or gone) or ".", gone, come, held, False)
        self.changes.append(change)
        apply(self.names, change)

    def unsettled_names(self, folder):
        """What was made, renamed or removed in a folder since its last sync."""
        return [come or gone for at, gone, come, *_ in self.changes if at == folder]

    def settle_names(self, folder):
        """A folder's sync succeeds. What an earlier one lost it brings only where the name was changed once more."""
        left = []
        for change in self.changes:
            if change[0] != folder or change[-1]:
                left.append(change)
            else:
                apply(self.settled, change)
                left = [it for it in left if not {*it[1:3]} & {*change[1:3]} - {None}]
        self.changes = left

    def lose_names(self, folder):
        """A folder's sync fails."""
        self.changes = [(*change[:-1], change[-1] or change[0] == folder) for change in self.changes]

    def after_cut(self, chance):
        """What a power cut may leave: memory is gone, each change of a name was made or not, each unsettled cell holds anything."""
        disks, journal, others = (chance.choice([*KINDS, None, None, None]) for _ in range(3))
        share = chance.choice([0, 0.5, 1])
        names = dict(self.settled)
        for change in self.changes:
            if chance.random() < share:
                apply(names, change)
        it = World()
        for path, held in names.items():
            kind = disks if path.endswith(".disk") else journal if path == JOURNAL else others
            it.names[path] = held.after_cut(chance, path, kind)
        it.start_anew()
        it.settled = dict(it.names)
        return it

    def mounted(self, chance):
        """The files once their file systems were unmounted, which settles all that can be settled, and mounted; the note that a sync
        failed is removed."""
        it, names = World(), dict(self.settled)
        for change in self.changes:
            if not change[-1] or chance.random() < 0.5:
                apply(names, change)
        for path, held in names.items():
            held.settle()
            it.names[path] = Held(path, held.device)
        it.names.pop(NOTE, None)
        it.settled = dict(it.names)
        return it

    def start_anew(self):
        """What is noted is of another boot of the machine."""
        held = self.names.get(NOTE)
        if held and held.memory.startswith(BOOT):
            self.names[NOTE] = Held(NOTE, ANOTHER_BOOT + held.memory[len(BOOT) :])

    def is_unsynced(self):
        """Whether a sync failed since the machine was started, as far as the note tells."""
        held = self.names.get(NOTE)
        return held is not None and (held.memory.startswith(BOOT) or not held.memory.endswith(b"\n"))

    def files(self):
        return {path: bytes(held.memory) for path, held in self.names.items()}


def apply(names, change):
    _, gone, come, held, _ = change
    if gone:
        names.pop(gone, None)
    if come:
        names[come] = held


# Runs whose calls are told

@functools.cache
def names_in(data, folder):
    """The names that a call was told with, below the folder."""
    return [os.path.normpath(it.removeprefix(f"{folder}/")) for it in data.decode(errors="surrogateescape").split("\0") if it]


class Call:
    """A call that was told: the file or folder that it is about, and what became of it."""

    def __init__(self, packet, paths, folder):
        self.kind, self.descriptor, self.error, self.made, self.file, self.at = CALL.unpack_from(packet)
        self.data = packet[CALL.size :]
        self.names = []
        if self.kind in (OPEN, RENAME, REMOVE, LINK):
            self.names = names_in(self.data, folder)
        self.path = self.names[0] if self.names else paths.get(self.file)
        # it fails; it is told to have been made all the same; it is not made, and told to have been; what it wrote is lost later; the
        # model does not follow it
        self.fails = self.passes = self.drops = self.is_lost = self.is_hidden = False

    def __str__(self):
        more = (f" at {self.at}" if self.kind == WRITE else "") + (" which fails" if self.fails else " which is lost" if self.is_lost else "")
        return f"{KINDS_OF_CALLS[self.kind]} {' '.join(self.names) or self.path}{more}"


def make(world, call, chance):
    """Does to a world what a call does."""
    held = world.names.get(call.path)
    if call.is_hidden:
        return
    if call.kind == OPEN and call.made:
        world.change(None, call.path, Held(call.path))
    elif call.kind == RENAME:
        world.change(*call.names, held)
    elif call.kind == LINK:
        world.change(None, call.names[1], held)
    elif call.kind == REMOVE:
        world.change(call.path)
    elif call.kind == SYNC and held is None and call.fails:
        world.lose_names(call.path)
    elif call.kind == SYNC and held is None and not call.drops:
        world.settle_names(call.path)
    elif held is None or call.drops:
        pass
    elif call.kind == WRITE:
        held.write(call.at, call.data)
        if call.is_lost:
            held.lose(chance)
    elif call.kind == LENGTH:
        held.shorten(call.at)
    elif call.kind == SYNC and call.fails:
        held.lose(chance)
    elif call.kind == SYNC:
        held.settle()


class Run:
    """A run of the program over a world, with its calls and how it ended. The sync numbered `fails` fails, from 0 on; and what was
    written to its file is lost by itself after the write numbered `loses`, which the next sync by whoever has the file open then
    is told. A `bug` may drop a call, or let one that failed pass. `meanwhile` may do something in the room before a call."""

    def __init__(self, room, world, words, seed=0, fails=None, loses=None, bug=None, files=None, meanwhile=None):
        self.start, self.world, self.words, self.seed = world, world.copy(), words, seed
        self.fails, self.loses, self.bug, self.meanwhile, self.room = fails, loses, bug, meanwhile, room
        self.calls, self.syncs, self.writes, self.has_failed = [], 0, 0, False
        # the paths by their descriptors, the descriptors that are to be told of a loss, and their paths after each call
        self.open, self.owed, self.owing = {}, set(), []
        self.paths = room.put(world)
        self.status, self.out, self.err = room.run(words, self.answer, files)
        unlike = [path for path in room.unlike(self.world) if path != NOTE or not bug]
        if unlike and not meanwhile:
            raise AssertionError(f"{words[0]} changed {unlike} by calls that are not told")

    def answer(self, packet):
        """Notes a call and what becomes of it; gives what is answered: nothing where a file was opened or is closed."""
        call = Call(packet, self.paths, self.room.folder)
        if self.meanwhile:
            self.meanwhile(self, call)
        self.mark(call)
        if self.bug:
            self.bug(self, call)
        self.has_failed = self.has_failed or call.fails
        self.calls.append(call)
        self.owing.append(tuple({self.open[descriptor] for descriptor in self.owed}))
        self.make(self.world, len(self.calls), call)
        self.follow(call)
        if call.kind in (OPEN, CLOSE):
            return None
        if call.fails and not call.passes:
            return errno.EIO
        return DONE if call.drops or call.kind == SYNC else GO_ON

    def mark(self, call):
        """Says of a call whether it fails, or is lost."""
        if call.kind == WRITE and call.path:
            call.is_lost = self.writes == self.loses
            self.writes += 1
        elif call.kind == SYNC and call.path:
            call.fails = self.syncs == self.fails or call.descriptor in self.owed
            self.syncs += 1
        if call.kind == OPEN:
            self.open[call.descriptor] = call.path
            if call.path in self.start.untold:
                self.owed.add(call.descriptor)
        elif call.kind == CLOSE:
            self.open.pop(call.descriptor, None)
        if call.is_lost:
            self.owed = {descriptor for descriptor, path in self.open.items() if path == call.path}
        elif call.kind in (SYNC, CLOSE):
            self.owed.discard(call.descriptor)

    def follow(self, call):
        """The paths of the files by their numbers."""
        if call.kind == OPEN and call.made:
            self.paths[call.file] = call.path
        elif call.kind == RENAME:
            self.paths = {file: call.names[1] if path == call.path else path for file, path in self.paths.items() if path != call.names[1]}
        elif call.kind == REMOVE:
            self.paths = {file: path for file, path in self.paths.items() if path != call.path}

    def make(self, world, number, call):
        """Does to a world what a call of this run does."""
        if call.kind != CLOSE and (call.kind != OPEN or call.made):
            make(world, call, random.Random(f"{self.seed} {number}") if call.fails or call.is_lost else None)


    def stops(self, begin=0):
        """The numbers of calls, from `begin` on, after which the run may be stopped: all of them, or up to a call that does something."""
        does = (number for number, call in enumerate(self.calls, 1) if call.made or call.kind not in (OPEN, CLOSE))
        # nobody can tell that a sync failed where the process ends before it notes that
        failed = next((number for number, call in enumerate(self.calls, 1) if call.kind == SYNC and call.fails), len(self.calls))
        noted = next((number for number, call in enumerate(self.calls, 1) if call.made and call.path == NOTE), failed)
        return sorted({0, len(self.calls), *does} - set(range(begin)) - set(range(failed, noted)))

    def at(self, count):
        """The world after so many calls."""
        world = self.start.copy()
        for number, call in enumerate(self.calls[:count], 1):
            self.make(world, number, call)
        world.untold = self.owing[count - 1] if count else self.start.untold
        return world


class ToldRoom:
    """A folder with the program, and the library that tells of its calls."""

    def __init__(self, program):
        self.made = os.path.realpath(tempfile.mkdtemp(prefix="migrate-power-", dir="/dev/shm" if os.path.isdir("/dev/shm") else None))
        self.folder, self.library = f"{self.made}/folder", f"{self.made}/power.so"
        self.program = os.path.abspath(program)
        subprocess.run(["cc", "-O2", "-shared", "-fPIC", "-o", self.library, f"{HERE}/power.c", "-ldl"], check=True)
        self.said = tempfile.TemporaryFile(dir=self.made), tempfile.TemporaryFile(dir=self.made)
        os.mkdir(self.folder)

    def __enter__(self):
        return self

    def __exit__(self, *_):
        shutil.rmtree(self.made)

    def put(self, world):
        """Lays the files of a world into the folder. The paths of files and folders by their numbers."""
        shutil.rmtree(self.folder)
        os.mkdir(self.folder)
        paths = {os.stat(self.folder).st_ino: "."}
        for path, held in world.names.items():
            whole, above = f"{self.folder}/{path}", os.path.dirname(path)
            if above and not os.path.isdir(f"{self.folder}/{above}"):
                os.mkdir(f"{self.folder}/{above}")
                paths[os.stat(f"{self.folder}/{above}").st_ino] = above
            with open(whole, "wb") as file:
                file.write(held.memory)
                paths[os.fstat(file.fileno()).st_ino] = path
        return paths

    def unlike(self, world):
        """The paths at which the folder holds something else than a world does."""
        found = {}
        for above, _, names in os.walk(self.folder):
            for name in names:
                with open(f"{above}/{name}", "rb") as file:
                    found[f"{above}/{name}"[len(self.folder) + 1 :]] = file.read()
        wanted = world.files()
        return sorted(path for path in {*found, *wanted} if found.get(path) != wanted.get(path))

    def run(self, words, answer, files=None):
        """Runs the program, and answers its calls; its status, what it printed, and what it said on standard error."""
        ours, theirs = socket.socketpair(socket.AF_UNIX, socket.SOCK_SEQPACKET)
        theirs_high = fcntl.fcntl(theirs, fcntl.F_DUPFD, 100)
        theirs.close()
        env = {"PATH": "/usr/bin:/bin", "LD_PRELOAD": self.library, "POWER": str(theirs_high)}
        if files:
            env["POWER_FILES"] = str(files)
        for file in self.said:
            file.truncate(0), file.seek(0)
        out, err = self.said
        process = subprocess.Popen([self.program, *words], cwd=self.folder, env=env, stdin=subprocess.DEVNULL, stdout=out, stderr=err, pass_fds=[theirs_high])
        os.close(theirs_high)
        ours.settimeout(LIMIT)
        try:
            while packet := ours.recv(LONGEST):
                answered = answer(packet)
                if answered is not None:
                    ours.send(struct.pack("=i", answered))
        except (ConnectionError, BrokenPipeError):
            process.kill()
        except TimeoutError:
            process.kill()
            raise in_vain(f"{words} to tell of its next call, or to end") from None
        ours.close()
        ended(process, words[0])
        status = process.returncode
        for file in self.said:
            file.seek(0)
        return status, out.read().decode(errors="replace"), err.read().decode(errors="replace")

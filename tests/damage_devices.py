"""What tests/damage tries with block devices: one that is in use, one under two names, and one that is too short. They are loop devices,
which root alone can make; where that fails a line says so, and nothing is counted."""
import contextlib, fcntl, itertools, os, shlex, shutil, stat, subprocess, tempfile
from session_cells import SLOT, cell
from session_rooms import Count, Room, bytes_of, says
from damage_names import merged, refused
from damage_rooms import ENDS, LAYOUT, Store, case, changed, judge, reuse, stages, twins
from damages import JOURNAL


def called(*words):
    return subprocess.run(words, check=True, capture_output=True, text=True).stdout.strip()


class Loop:
    """A block device over a file of so many slots."""

    def __init__(self, slots):
        self.folder = tempfile.mkdtemp(prefix="migrate-device-")
        self.point = f"{self.folder}/mnt"
        os.mkdir(self.point)
        with open(f"{self.folder}/device", "wb") as file:
            file.truncate(SLOT * slots)
        try:
            self.name = called("losetup", "--find", "--show", file.name)
        except (OSError, subprocess.CalledProcessError):
            shutil.rmtree(self.folder)
            raise

    def __enter__(self):
        return self

    def __exit__(self, *_):
        if os.path.ismount(self.point):
            called("umount", self.point)
        called("losetup", "--detach", self.name)
        shutil.rmtree(self.folder)

    def node(self, path):
        """Another node with the number of the device."""
        os.mknod(path, stat.S_IFBLK | 0o600, os.stat(self.name).st_rdev)

    def write(self, slot, held):
        with open(self.name, "r+b", buffering=0) as device:
            os.pwrite(device.fileno(), held, SLOT * slot)
            os.fsync(device.fileno())

    def read(self, slot, count=1):
        with open(self.name, "rb", buffering=0) as device:
            return os.pread(device.fileno(), SLOT * count, SLOT * slot)

    def mount(self):
        called("mkfs.ext4", "-q", "-F", "-b", "1024", self.name)
        called("mount", self.name, self.point)
        with open(f"{self.point}/kept", "w") as file:
            file.write("kept\n" * 100)
        called("sync", "-f", self.point)

    def kept(self):
        """Whether the file system is whole, once it isn't mounted any more."""
        called("umount", self.point)
        whole = subprocess.run(["e2fsck", "-fn", self.name], capture_output=True).returncode == 0
        called("mount", self.name, self.point)
        with open(f"{self.point}/kept") as file:
            return whole and file.read() == "kept\n" * 100


def with_device(slots):
    """A case that is handed a room, whose program root runs, and a device; left out where there are none."""
    def decorate(trial):
        def run(program):
            with Room(program) as room:
                room.user = {}
                try:
                    device = Loop(slots)
                except (OSError, subprocess.CalledProcessError) as error:
                    print(f"left out: {trial.__name__}: no loop device can be made here: {error}")
                    return
                with device:
                    trial(room, device)
        run.__name__, run.__doc__ = trial.__name__, trial.__doc__
        return run
    return decorate


def by_link(device, path):
    os.symlink(device.name, path)


def by_node(device, path):
    device.node(path)


@with_device(256)
def mounted_devices(room, device):
    """A disk is a device that is mounted: it is refused, and its file system stays whole."""
    store = Store(room, case("a,2,4 b,2,256", "p,a,0 q,b,200", "p,b q,b", ["p a 0 b 201"]))
    steps = [("fill", None), ("move", 0), ("resume", 0), ("resume", 1), ("halt", 2)]
    counts = [count for count, _ in stages(store.case)]
    for join, (command, stage) in itertools.product((by_link, by_node), steps):
        device.mount()
        device.write(201, cell("p") if command == "halt" else bytes(SLOT))
        image = store.case.image(counts[stage]) if stage is not None else dict.fromkeys(store.case.image(0), b"")
        store.put(image)
        store.link("b", None)
        join(device, store.path("b"))
        what = f"a mounted device {join.__name__}, {command}"
        refused(store, what, command, "b.disk", "mounted")
        Count.same(f"{what}: its slots", device.read(200, 2), bytes(SLOT) + (cell("p") if command == "halt" else bytes(SLOT)))
        Count.that(f"{what}: the file system is whole", device.kept())
        called("umount", device.point)
        device.write(201, cell("p") if command == "halt" else bytes(SLOT))
        Count.same(f"{what}, once it isn't mounted", store.run(command).status, 0)


# Devices in use

@contextlib.contextmanager
def mounted(source, point, kind="tmpfs"):
    os.makedirs(point, exist_ok=True)
    called("mount", "-t", kind, source, point)
    try:
        yield
    finally:
        called("umount", point)


@contextlib.contextmanager
def second_of_btrfs(room, device):
    """The device is the second one of a file system: the table of mounts names the first one alone."""
    with Loop(32768) as first, Loop(32768) as second:
        called("mkfs.btrfs", "-q", "-f", "-d", "raid1", "-m", "raid1", first.name, second.name)
        called("mount", "-o", f"device={first.name},device={second.name}", first.name, device.point)
        os.sync()  # else the file system writes of its own accord some time later
        try:
            yield {"disk": second.name}
        finally:
            called("umount", device.point)


@contextlib.contextmanager
def by_blank(room, device):
    """A file system with a number of its own: what was mounted is a node with a blank in its name. A line before it is no text."""
    device.node(f"{device.folder}/a node")
    with mounted("none", f"{device.folder}".encode() + b"/no\xfftext"), mounted(f"{device.folder}/a node", device.point):
        yield {}


@contextlib.contextmanager
def by_partition(room, device):
    """A partition of the device is mounted."""
    called("addpart", device.name, "1", "0", "2048")
    try:
        with mounted(f"{device.name}p1", device.point):
            yield {}
    finally:
        called("delpart", device.name, "1")


@contextlib.contextmanager
def by_whole(room, device):
    """The device of which the disk is a partition is mounted."""
    called("addpart", device.name, "1", "0", "2048")
    try:
        with mounted(device.name, device.point):
            yield {"disk": f"{device.name}p1"}
    finally:
        called("delpart", device.name, "1")


def apart(how):
    """The words that run a command where a line of a shell was carried out, with a table of mounts of its own."""
    return {"shell": lambda words: f"exec unshare -m sh -c {shlex.quote(f'{how} && exec ' + shlex.join(words))}"}


@contextlib.contextmanager
def without_table(room, device):
    yield apart("mount -t tmpfs none /proc")


@contextlib.contextmanager
def with_other_nodes(room, device):
    """As in a container, whose nodes are its own."""
    number = os.stat(device.name).st_rdev
    yield apart(f"mount -t tmpfs none /dev && mknod {device.name} b {os.major(number)} {os.minor(number)}")


@contextlib.contextmanager
def by_lock(room, device):
    """Another process has locked the device; the folder has another node of it."""
    device.node(room.path("node"))
    with open(device.name, "rb") as held:
        fcntl.flock(held, fcntl.LOCK_EX)
        yield {"disk": "node"}
    os.remove(room.path("node"))


USES = {second_of_btrfs: "mounted", by_blank: "mounted", by_partition: "mounted", by_whole: "mounted", without_table: "can't be read",
        with_other_nodes: "table of devices", by_lock: "another process"}


@with_device(256)
def devices_in_use(room, device):
    """A device is in use in other ways, or it can't be known whether it is: it is refused, and nothing is written to it."""
    store = Store(room, case("a,2,4 b,2,256", "p,a,0 q,b,200", "p,b q,b", ["p a 0 b 201"]))
    for use, why in USES.items():
        try:
            with use(room, device) as how:
                store.put(dict.fromkeys(store.case.image(0), b""))
                disk = os.path.join(room.at, how.get("disk", device.name))
                store.link("b", disk)
                held = bytes_of(disk)
                words = ["./migrate", "fill", "disks.csv", "now.csv"]
                ran = room.run(how["shell"](words), shell=True) if "shell" in how else room.run(*words[1:])
                Count.that(f"a device in use, {use.__name__}", ran.status == 5 and says(ran, "b.disk", why), ran)
                Count.that(f"a device in use, {use.__name__}: it stays", bytes_of(disk) == held)
        except (OSError, subprocess.CalledProcessError) as error:
            print(f"left out: a device in use, {use.__name__}: {error}")


# One device under two names

def its_file(device, path):
    os.symlink(f"{device.folder}/device", path)


def its_partition(device, path):
    called("addpart", device.name, "1", "0", "128")
    os.symlink(f"{device.name}p1", path)


def end_partition(device):
    if os.path.exists(f"{device.name}p1"):
        called("delpart", device.name, "1")


@with_device(16)
def parts_twice(room, device):
    """One disk is a device, and another one the file that it lies in, or a partition of it; or one is that file, and the other that partition.
    Two partitions are two disks."""
    store = Store(room, twins())
    spots = {stage: count for count, stage in stages(store.case)}
    for pair, (command, stage) in itertools.product(itertools.permutations((by_link, its_file, its_partition), 2), (("fill", None), ("move", "before the gate"), ("resume", "round 1 marked"))):
        try:
            image = store.case.image(spots[stage]) if stage else dict.fromkeys(store.case.image(0), b"")
            image = merged(image, "a.disk", "b.disk")
            store.put(image)
            held = image["a.disk"].ljust(16 * SLOT, b"\0")
            device.write(0, held)
            for disk, join in zip("ab", pair):
                store.link(disk, None)
                join(device, store.path(disk))
            what = f"{pair[0].__name__} and {pair[1].__name__}, {stage or 'empty disks'}: {command}"
            refused(store, what, command, "a.disk", "b.disk")
            Count.that(f"{what}: the device stays", device.read(0, 16) == held)
        except (FileNotFoundError, subprocess.CalledProcessError) as error:
            print(f"left out: {pair[0].__name__} and {pair[1].__name__}: {error}")
        finally:
            end_partition(device)
    try:
        called("addpart", device.name, "1", "0", "64")
        called("addpart", device.name, "2", "64", "64")
    except (FileNotFoundError, subprocess.CalledProcessError) as error:
        print(f"left out: two partitions: {error}")
        return
    store.put(dict.fromkeys(store.case.image(0), b""))
    device.write(0, bytes(16 * SLOT))
    for disk, number in zip("ab", "12"):
        store.link(disk, f"{device.name}p{number}")
    Count.ended("two partitions: fill", store.run("fill"), 0, "filled 4\n")
    Count.ended("two partitions: move", store.run("move"), 0, "done 2 rounds, found 0\n")
    for number in "12":
        called("delpart", device.name, number)


@with_device(16)
def devices_twice(room, device):
    """Two disks are one device: by two links, or by two nodes of one number."""
    store = Store(room, twins())
    spots = {stage: count for count, stage in stages(store.case)}
    steps = [("fill", None), ("move", "before the gate"), *itertools.product(ENDS, ("at the gate", "round 1 marked"))]
    for join, (command, stage) in itertools.product((by_link, by_node), steps):
        image = store.case.image(spots[stage]) if stage else dict.fromkeys(store.case.image(0), b"")
        image = merged(image, "a.disk", "b.disk")
        store.put(image)
        held = image["a.disk"].ljust(16 * SLOT, b"\0")
        device.write(0, held)
        for disk in "ab":
            store.link(disk, None)
            join(device, store.path(disk))
        what = f"one device twice {join.__name__}, {stage or 'empty disks'}: {command}"
        refused(store, what, command, "a.disk", "b.disk")
        Count.that(f"{what}: the device stays", device.read(0, 16) == held)


@with_device(8)
def short_devices(room, device):
    """A device is shorter than disks.csv says: no move is begun that needs what isn't there, and one that was begun can be closed."""
    store = Store(room, case("a,2,4 b,2,16", "p,a,0 r,a,1", "p,b r,b", ["p a 0 b 0", "r a 1 b 12"]))
    for count, stage in stages(store.case):
        for command in ("move", "resume") if stage == "before the gate" else ENDS if "round 2" not in stage else ():
            put_short(store, device, count)
            what = f"a short device, {stage}"
            if stage == "before the gate":
                refused(store, f"{what}: {command}", command, "b.disk")
            elif command == "resume":
                ran = store.run(command)
                Count.ended(f"{what}: resume", ran, 5, "store fault\n")
                Count.that(f"{what}: the device is said", says(ran, "b.disk"), ran)
            Count.that(f"{what}: {command}: the second item stays", store.room.read("disks/a")[SLOT : 2 * SLOT] == cell("r"))
            if stage != "before the gate":
                judge(store, what, "halt")


@with_device(256)
def journals_on_devices(room, device):
    """The journal is a device: a plan goes on and is closed there as on a file, unless it is mounted or is a disk besides."""
    store = Store(room, reuse())
    for (count, stage), command in itertools.product(stages(store.case), ENDS):
        image = store.case.image(count)
        put_journal(store, device, image)
        judge(store, f"a journal on a device, {stage}", command)
    armed = store.case.image([count for count, _ in stages(store.case)][1])
    put_journal(store, device, armed)
    store.link("b", device.name)
    refused(store, "a journal that is the device of a disk: resume", "resume", "b.disk", JOURNAL)
    device.mount()
    store.link("b", "disks/b")
    refused(store, "a journal on a mounted device: resume", "resume", JOURNAL, "mounted")
    Count.that("a journal on a mounted device: the file system is whole", device.kept())


def put_journal(store, device, image):
    """The store with its journal on a device."""
    store.put(image)
    device.write(0, image[JOURNAL].ljust(256 * SLOT, b"\0"))
    os.remove(store.room.path(JOURNAL))
    os.symlink(device.name, store.room.path(JOURNAL))


@with_device(16)
def layouts_over_devices(room, device):
    """LAYOUT of `halt` is the device of a disk, by a link or by another node: nothing changes."""
    store = Store(room, twins())
    for (count, stage), join in itertools.product(stages(store.case), (by_link, by_node)):
        if stage == "before the gate":
            continue
        image = store.case.image(count)
        store.put(image)
        held = image["b.disk"].ljust(16 * SLOT, b"\0")
        device.write(0, held)
        store.link("b", device.name)
        join(device, room.path(LAYOUT))
        before, what = store.snapshot(), f"halt with the device of a disk as its layout {join.__name__}, {stage}"
        Count.ended(what, store.run("halt"), 4, "folder fault\n")
        Count.that(f"{what}: nothing changes", store.snapshot() == before and device.read(0, 16) == held, lambda: changed(before, store.snapshot()))


def put_short(store, device, count):
    """The store after so many writes, with the device as disk b."""
    image = store.case.image(count)
    store.put(image)
    device.write(0, image["b.disk"].ljust(8 * SLOT, b"\0"))
    store.link("b", device.name)

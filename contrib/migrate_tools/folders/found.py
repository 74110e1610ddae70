"""What from-folders finds on mounted disks, and which items it makes of it."""
import collections, os, stat, unicodedata
from collections.abc import Iterable, Mapping, Sequence
from dataclasses import dataclass, field
from ..command import Wrong, note
from ..items import Part
from ..plans import MOST_DISKS
from ..tight import coming_of

MOST_PARTS = 4096  # a folder in which more stands is not split

Node = tuple[int, int]  # a device and an inode
Nodes = dict[Node, str]  # the path of each disk


@dataclass(frozen=True)
class Item(Part):
    """What is moved as a whole: its path, for wishes its volume, its bytes, the path of it inside its disk, and the
    first fifo, socket or device in it."""
    inside: str = ""
    special: str = ""


def look_at(path: str) -> tuple[os.stat_result, list[str]]:
    """What stands at a path, not what a link leads to; and the paths in it, where it is a folder."""
    try:
        found = os.lstat(path)
        return found, sorted(os.path.join(path, it) for it in os.listdir(path)) if stat.S_ISDIR(found.st_mode) else []
    except OSError as error:
        raise Wrong(f"cannot be read: {error.strerror}", path) from None


def read_disks(mounts: Sequence[str], mounted: bool) -> Nodes:
    disks: Nodes = {}
    for word in mounts:
        path = word.rstrip("/") or "/"
        path = f"./{path}" if path[0] == "-" else path
        if not os.path.isdir(path):
            raise Wrong("is no folder", path)
        if mounted and not os.path.ismount(os.path.realpath(path)):
            raise Wrong(f"nothing is mounted at {path}")
        found = os.stat(path)
        same = disks.setdefault((found.st_dev, found.st_ino), path)
        if same is not path:
            raise Wrong(f"{same} and {path} are one folder")
    if len(disks) > MOST_DISKS:
        raise Wrong(f"there are {len(disks)} disks, more than {MOST_DISKS}")
    return disks


@dataclass
class Weight:
    """The bytes that are in use at a path and below it, each file counted once; the files there that have several
    names, with how many of them were met and the first one; and the first fifo, socket or device."""
    bytes: int = 0
    linked: dict[Node, tuple[int, os.stat_result, str]] = field(default_factory=dict)
    special: str = ""

    def outside(self) -> str:
        """The first file that has a name elsewhere too, as a hard link; empty where none has."""
        return next((path for count, found, path in self.linked.values() if count < found.st_nlink), "")


def weigh(top: str, disk: str, device: int, disks: Nodes) -> Weight:
    weight, todo = Weight(), [top]
    while todo:
        path = todo.pop()
        found, inner = look_at(path)
        node = found.st_dev, found.st_ino
        if stat.S_ISDIR(found.st_mode):
            if node in disks:
                raise Wrong(f"{disks[node]} is inside {disk}, as {path}")
            if found.st_dev != device:
                raise Wrong(f"is on another file system than {disk}; a copy of it would be no move", path)
        elif not (stat.S_ISREG(found.st_mode) or stat.S_ISLNK(found.st_mode)):
            weight.special = weight.special or path
        if found.st_nlink > 1 and not stat.S_ISDIR(found.st_mode):
            count, _, first = weight.linked.get(node, (0, found, path))
            weight.linked[node] = count + 1, found, first
            if count:
                continue
        weight.bytes += 512 * found.st_blocks
        todo += inner
    return weight


def item_of(path: str, inside: str, weight: Weight) -> Item:
    """An item. What shares a file with something else stays where it is: a copy would be a file of its own."""
    outside = weight.outside()
    why = f"{outside} has another name outside of it (a hard link), which a copy would not keep" if outside else ""
    return Item(path, weight.bytes, fixed=why, inside=inside, special=weight.special)


def odd(path: str) -> str:
    """Why a path can be no item; empty where it can."""
    if any(unicodedata.category(letter) in ("Cc", "Cs") for letter in os.path.basename(path)):
        return (f"{path!a} has a line break, another control character or a byte that is no UTF-8 in its name: rename "
                "it first")
    kind = look_at(path)[0].st_mode
    is_one = stat.S_ISDIR(kind) or stat.S_ISREG(kind) or stat.S_ISLNK(kind)
    return "" if is_one else f"{path} is neither a folder, a file nor a link"


def read_items(disk: str, device: int, disks: Nodes) -> list[Item]:
    """What stands at the top of a disk, in order of its names."""
    items = []
    for path in look_at(os.path.join(disk, ""))[1]:
        name = os.path.basename(path)
        if name == "lost+found" and os.path.isdir(path):
            if os.access(path, os.R_OK) and os.listdir(path):
                note(f"{path} is not empty, and stays")
            continue
        if why := odd(path):
            raise Wrong(why)
        items.append(item_of(path, name, weigh(path, disk, device, disks)))
    return items


def parts_of(item: Item, disk: str, device: int, disks: Nodes) -> list[Item]:
    """What stands in a folder, as items; the folder itself where it is none, or cannot be split."""
    found, paths = look_at(item.volume)
    if not stat.S_ISDIR(found.st_mode):
        return [item]
    seen: set[Node] = set()
    parts = []
    many = f"it has {len(paths)} parts, more than {MOST_PARTS}" if len(paths) > MOST_PARTS else ""
    why = many or next(filter(None, map(odd, paths)), "")
    for path in paths if not why else ():
        weight = weigh(path, disk, device, disks)
        why = why or ("a file has names in several of its parts" if weight.linked.keys() & seen else "")
        seen |= weight.linked.keys()
        parts.append(item_of(path, f"{item.inside}/{os.path.basename(path)}", weight))
    if why:
        note(f"{item.volume} is not split: {why}")
    return [item] if why else parts


def in_units(items: dict[str, list[Item]], unit: int, nodes: Nodes) -> dict[str, list[Item]]:
    """Splits folders of more than so many bytes into what stands in them, again and again. Those of one path on several
    disks count together, so that a folder of which some parts went to another disk is split there too. `items` has
    those of each disk."""
    whole: set[str] = set()
    while True:
        bytes_: collections.Counter[str] = collections.Counter()
        for it in (it for those in items.values() for it in those):
            bytes_[it.inside] += it.bulk
        large = {inside for inside, count in bytes_.items() if count > unit} - whole
        if not large:
            return items
        for (device, _), disk in nodes.items():
            items[disk] = [part for it in items[disk]
                           for part in (parts_of(it, disk, device, nodes) if it.inside in large else [it])]
        whole |= large


def bytes_of(disks: Iterable[str]) -> tuple[dict[str, int], dict[str, int]]:
    """The bytes that are free on each disk, and those that are in use there."""
    found = {disk: os.statvfs(disk) for disk in disks}
    return ({disk: it.f_bavail * it.f_frsize for disk, it in found.items()},
            {disk: (it.f_blocks - it.f_bfree) * it.f_frsize for disk, it in found.items()})


def check_bytes(going: Iterable[tuple[Item, str]], rooms: Mapping[str, int]) -> None:
    """An item that leaves makes no room before it is gone. `plan-tight` counts items, and no bytes, so it makes none
    either."""
    for disk, bytes_ in coming_of(going).items():
        if bytes_ > rooms[disk]:
            raise Wrong(f"there is no room on {disk}: {bytes_} bytes are to come to it, and {rooms[disk]} are free. "
                        "`migrate plan-tight` counts items, and not their bytes, so it would not help: move less at a "
                        "time")

"""What a copy lacks of what it was made from, and whether what it was made from has changed since."""
import collections, hashlib, os, stat, time
from collections.abc import Iterator, Mapping
from ..command import Wrong

COARSE = 5  # CLOCK_REALTIME_COARSE, by which the kernel sets a file's times
BLOCK, SLACK = 1 << 20, 1 << 16  # bytes that are read at once, and those by which a run of data may grow in a copy

Tree = Mapping[str, os.stat_result]


def tree_of(top: str) -> dict[str, os.stat_result]:
    """What stands at a path and below it, by the path from there; not what a link leads to."""
    found: dict[str, os.stat_result] = {}
    todo = [""]
    try:
        while todo:
            inside = todo.pop()
            path = os.path.join(top, inside) if inside else top
            found[inside] = os.lstat(path)
            if stat.S_ISDIR(found[inside].st_mode):
                todo += [os.path.join(inside, it) for it in os.listdir(path)]
            if found[inside].st_dev != found[""].st_dev:
                raise Wrong("is on another file system than the rest", path)
    except OSError as error:
        raise Wrong(f"cannot be read: {error.strerror}", path) from None
    return found


def runs_of(handle: int, size: int) -> Iterator[int]:
    """The bytes of each run of data of a file; what lies between is a hole."""
    at = 0
    while at < size:
        try:
            first = os.lseek(handle, at, os.SEEK_DATA)
        except OSError:
            return
        at = os.lseek(handle, first, os.SEEK_HOLE)
        yield at - first


def bytes_differ(source: str, target: str, size: int) -> str:
    """How a file's bytes differ from those of its copy, which are read from its disk; or that holes were filled."""
    with open(source, "rb") as one, open(target, "rb") as two:
        os.posix_fadvise(two.fileno(), 0, 0, os.POSIX_FADV_DONTNEED)
        runs = list(runs_of(one.fileno(), size))
        if sum(runs_of(two.fileno(), size)) > sum(runs) + SLACK * (len(runs) + 1):
            return "has fewer holes"
        one.seek(0)
        two.seek(0)
        while data := one.read(BLOCK):
            if data != two.read(BLOCK):
                return "has other bytes"
    return ""


def attributes(path: str) -> dict[str, bytes]:
    """The extended attributes, of which the ACLs are some: xfs shows them once more under names of its own."""
    try:
        return {it: os.getxattr(path, it, follow_symlinks=False) for it in os.listxattr(path, follow_symlinks=False)
                if not it.startswith("trusted.SGI_ACL_")}
    except OSError:
        return {}


def differs(source: str, target: str, one: os.stat_result, two: os.stat_result) -> str:
    """How what stands at a path differs from its copy; empty where it does not."""
    kind = stat.S_IFMT(one.st_mode)
    if kind != stat.S_IFMT(two.st_mode) or stat.S_ISCHR(kind) | stat.S_ISBLK(kind) and one.st_rdev != two.st_rdev:
        return "is of another kind"
    if (one.st_uid, one.st_gid) != (two.st_uid, two.st_gid):
        return "has another owner"
    if one.st_mode != two.st_mode:
        return "has another mode"
    if one.st_mtime_ns != two.st_mtime_ns:
        return "has another time"
    if names := {name for name, _ in attributes(source).items() ^ attributes(target).items()}:
        return f"has other attributes or ACLs ({min(names)})"
    if stat.S_ISLNK(kind) and os.readlink(source) != os.readlink(target):
        return "leads elsewhere"
    if stat.S_ISREG(kind) and one.st_size != two.st_size:
        return "has another size"
    return bytes_differ(source, target, one.st_size) if stat.S_ISREG(kind) else ""


def links_of(tree: Tree) -> dict[str, list[str]]:
    """The names of each file that has several in this tree, by each of them."""
    nodes = collections.defaultdict(list)
    for inside, it in tree.items():
        if it.st_nlink > 1 and not stat.S_ISDIR(it.st_mode):
            nodes[it.st_dev, it.st_ino].append(inside)
    return {inside: sorted(names) for names in nodes.values() for inside in names}


def state_of(tree: Tree) -> str:
    """A digest of what changes where something of this tree is changed."""
    rows = sorted((inside, it.st_mode, it.st_ino, it.st_nlink, it.st_uid, it.st_gid, it.st_size, it.st_mtime_ns,
                   it.st_ctime_ns) for inside, it in tree.items())
    return hashlib.sha256(repr(rows).encode("utf-8", "surrogateescape")).hexdigest()


def compare(source: str, target: str) -> str:
    """Refuses a copy that lacks anything. Gives when it began to look, and the digest of what it then found at the
    source."""
    begun = time.clock_gettime_ns(COARSE)
    one, two = tree_of(source), tree_of(target)
    for inside in sorted(one.keys() ^ two.keys()):
        raise Wrong("has no copy" if inside in one else "is in the copy alone",
                    os.path.join(source if inside in one else target, inside))
    links, copied = links_of(one), links_of(two)
    for inside, it in sorted(one.items()):
        path, copy = (os.path.join(top, inside) if inside else top for top in (source, target))
        if not stat.S_ISDIR(it.st_mode) and it.st_nlink != len(links.get(inside, [inside])):
            raise Wrong(f"has another name outside of {source}, a hard link, which no copy of that keeps", path)
        if links.get(inside) != copied.get(inside) and inside in links:
            raise Wrong(f"does not have the hard links of {path}", copy)
        try:
            why = differs(path, copy, it, two[inside])
        except OSError as error:
            raise Wrong(f"or {copy} cannot be read: {error.strerror}", path) from None
        if why:
            raise Wrong(f"{why} than {path}", copy)
    seen = f"{begun} {state_of(one)}"
    check_since(source, seen)
    return seen


def check_since(source: str, seen: str) -> None:
    """Refuses a source of which anything was changed since it was looked at. Where a file system counts whole seconds
    so does this."""
    (begun, state), tree, why = seen.split(), tree_of(source), "was changed since its copy was compared"
    for inside, it in tree.items():
        unit = 1 if it.st_ctime_ns % 10**9 else 10**9
        if it.st_ctime_ns >= int(begun) // unit * unit:
            raise Wrong(f"{why}: stop what writes there", os.path.join(source, inside))
    if state_of(tree) != state:
        raise Wrong(f"{why}: stop what writes there", source)

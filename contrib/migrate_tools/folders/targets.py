"""What the names of a plan stand for, where its items are folders; and where these may go."""
import collections, hashlib, os, re, unicodedata
from collections.abc import Iterable, Mapping
from ..command import Wrong
from ..plans import NAME, Plan, read_rows

HEADER = "kind,name,path,bytes"


def short_names(paths: Mapping[str, str]) -> dict[str, str]:
    """A name for each path, of which the path inside its disk is given too. The last part of it, where that is a name
    for a plan and no other path has it. Else what of it can be read, and digits that depend on it alone: where others
    have the same last part on the path inside its disk, and on the whole path where others have this too."""
    last = {path: os.path.basename(os.path.abspath(path)) for path in paths}
    counts, insides = collections.Counter(last.values()), collections.Counter(paths.values())
    names = {path: it for path, it in last.items() if counts[it] == 1 and NAME.fullmatch(it) and it[0] != "-"}
    taken = set(names.values())
    for path, it in last.items():
        if path not in names:
            letters = unicodedata.normalize("NFKD", it)
            plain = "".join(letter for letter in letters if not unicodedata.combining(letter))
            plain = re.sub(r"[^A-Za-z0-9_.]+", "-", plain).strip("-") or "folder"
            key = it if counts[it] == 1 else paths[path] if insides[paths[path]] == 1 else path
            digits = hashlib.sha256(key.encode()).hexdigest()
            tries = (f"{plain[:31 - width]}-{digits[:width]}" for width in range(6, 31))
            taken.add(name := next(name for name in tries if name not in taken))
            names[path] = name
    return names


def folders_above(inside: str) -> list[str]:
    """The folders in which a path inside a disk is."""
    parts = inside.split("/")
    return ["/".join(parts[:count]) for count in range(1, len(parts))]


def check_targets(moves: Iterable[tuple[str, str]], stand: Mapping[str, tuple[str, str]]) -> None:
    """Refuses what would come to a disk that has, or gets, another of its name, or would come into another item, or
    around one. `stand` has the disk of each path and the path inside it, `moves` has paths with the disks that they go
    to."""
    there = {at: path for path, at in stand.items()}
    above = {(disk, it): path for path, (disk, inside) in stand.items() for it in folders_above(inside)}
    for path, disk in moves:
        inside = stand[path][1]
        new, over = os.path.join(disk, inside), [(disk, it) for it in folders_above(inside)]
        if (disk, inside) in there:
            raise Wrong(f"{path} and {there[disk, inside]} have one name, and {new} can only be one of them")
        for it in [it for it in over if it in there]:
            raise Wrong(f"{path} would come into {there[it]}, which is an item of its own there, or comes there")
        if (disk, inside) in above:
            raise Wrong(f"{path} would come to {new}, where {above[disk, inside]} is in, or comes to, as an item of "
                        "its own")
        there[disk, inside] = path
        above.update(dict.fromkeys(over, path))


def names_of(plan: Plan, path: str | None) -> tuple[dict[str, str], dict[str, str]]:
    """What the disks and the items of a plan stand for: themselves, or what a table of from-folders says, where there
    is one."""
    shifts = plan.shifts()
    if path is None:
        return {name: name for it in shifts for name in (it.source, it.target)}, {it.item: it.item for it in shifts}
    rows = [row for _, row in read_rows(path, HEADER)]
    disks, paths = ({name: real for kind, name, real, _ in rows if kind == wanted} for wanted in ("disk", "item"))
    if len(disks) + len(paths) != len(rows):
        raise Wrong("has a row that is neither of a disk nor of an item, or two rows for one name", path)
    tops = sorted((os.path.join(real, ""), real) for real in disks.values())
    stand = {real: next(((disk, real[len(top):]) for top, disk in tops if real.startswith(top)), ("", real))
             for real in paths.values()}
    at: dict[str, str] = {}  # where an item is that was moved already: one that is parked moves twice
    for it in shifts:
        if it.item not in paths or it.source not in disks or it.target not in disks:
            raise Wrong(f"does not have {it.item}, {it.source} and {it.target}, so it is not of this plan", path)
        disk, inside = stand[paths[it.item]]
        disk, at[it.item] = at.get(it.item, disk), disks[it.target]
        if disk != disks[it.source] or {"", ".", ".."} & set(inside.split("/")):
            raise Wrong(f"has {it.item} at {paths[it.item]}, which is not on {disks[it.source]}, from where the plan "
                        "moves it: it was made for another plan", path)
    check_targets([(paths[it.item], disks[it.target]) for it in shifts], stand)
    return disks, {name: stand[real][1] for name, real in paths.items()}

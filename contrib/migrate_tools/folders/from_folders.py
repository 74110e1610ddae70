"""from-folders MNT..: writes disks.csv, now.csv, next.csv, names.csv and bytes.csv for what is on mounted disks and
what is wished of it.

A disk is a folder MNT at which a file system is mounted. Its items are what stands at its top, each moved as a whole:
folders, and also files and links. lost+found is none. A name that a plan cannot have, since it has blanks or umlauts,
is longer than 32 bytes, or is on two disks, gets a short one. names.csv has for each short name the path and the bytes
that are in use there, as du counts them; run-plan reads it. bytes.csv has these bytes for summary and progress. Without
a wish all stays: next.csv can be written by hand then.

A slot has no meaning for a folder, so the items of a disk are numbered. A disk has as many slots as there are items on
all disks, so that slots never stand in the way; --slots sets how many items it may have at once. Where anything is
wrong nothing is written.

With --unit 200G a folder of more bytes, on all disks together, is split into what stands in it, and so on: its parts
are items, which may go to several disks, each to the same path there. The folder itself is none, and stands on each
disk that has a part of it. Standard error says how full the fullest target would be, and whether `migrate plan` has
room, or it is for `plan-tight`."""
import argparse, collections, functools, os
from collections.abc import Iterable, Mapping, Sequence
from ..balance import Balance, percent_of
from ..command import Wrong, command, note, words
from ..disks import given_to, limits_of
from ..items import Spot
from ..plans import MOST_ITEMS, MOST_SLOTS, number
from ..sizes import amount
from ..tight import form_of, said_of_bytes, warning_of
from ..wishes import Wishes, carry_out, save_case
from .found import Item, Nodes, bytes_of, check_bytes, in_units, read_disks, read_items
from .targets import HEADER, check_targets, folders_above, short_names


def read_words() -> argparse.Namespace:
    reader = words(__doc__)
    add = reader.add_argument
    add("mounts", metavar="MNT", nargs="+")
    add("--mounted", action="store_true", help="refuses a folder at which nothing is mounted")
    add("--move", metavar="ITEM=MNT", action="append", default=[],
        help="this item, given by its path, is to be on that disk; all parts of a folder that is split")
    add("--empty", metavar="MNT", action="append", default=[], help="nothing is to stay on this disk")
    add("--spread", action="store_true", help="all disks are to have about the same part of their slots in use")
    add("--balance", metavar="N", type=percent_of,
        help="the same part of each disk's bytes is to be in use, within N %%, with few moved")
    add("--size", metavar="[MNT=]N", action="append", default=[],
        help="with --balance: the bytes that the items of a disk may have, as 2T; where it is left out what its file "
        "system has, less what else is in use there")
    add("--unit", metavar="N", type=amount,
        help="splits folders of more bytes than this, as 200G, into what stands in them")
    add("--limit", metavar="[MNT=]N|OUT,IN", action="append", default=[],
        help="transfers of a disk at once, or those that leave it and those that reach it; 1 where it is left out")
    add("--slots", metavar="[MNT=]N", action="append", default=[],
        help="how many items a disk may have at once; all there are where it is left out")
    add("--into", metavar="FOLDER", default=".", help="where the files are written")
    given = reader.parse_args()
    for word in (it for it in given.move if "=" not in it):
        reader.error(f"--move {word}: write --move {word}=MNT")
    if given.balance and given.spread:
        reader.error("--spread and --balance are two wishes: say one")
    if given.size and not given.balance:
        reader.error("--size goes with --balance")
    return given


def one_of(word: str, paths: Iterable[str], what: str) -> str:
    """The path that is this, or whose last part is this."""
    paths = list(paths)
    found = [it for it in paths if it == (word.rstrip("/") or "/")]
    found = found or [it for it in paths if os.path.basename(os.path.abspath(it)) == word]
    if not found:
        raise Wrong(f"there is no {what} {word}")
    if len(found) > 1:
        raise Wrong(f"there are several {what}s {word}: {', '.join(found)}")
    return found[0]


def read_moves(words_: Iterable[str], disks: Sequence[str], items: Mapping[Spot, Item],
               empty: set[str]) -> dict[str, str]:
    """The disk that is wished for each path. A folder that is split stands for all of its parts."""
    split, moves = collections.defaultdict(list), {}
    for at, it in items.items():
        for folder in folders_above(it.inside):
            split[os.path.join(at[0], folder)].append(it.volume)
    paths = [it.volume for it in items.values()]
    for item, _, disk in (word.rpartition("=") for word in words_):
        item, disk = one_of(item, [*paths, *split], "item"), one_of(disk, disks, "disk")
        for path in split.get(item, [item]):
            if path in moves:
                raise Wrong(f"--move is given twice for {path}")
            if disk in empty:
                raise Wrong(f"{path} is to go to {disk}, which is to be emptied")
            moves[path] = disk
    return moves


def size_of(text: str) -> int:
    try:
        return amount(text)
    except ValueError:
        raise Wrong(f"--size: '{text}' is no number of bytes, as 2T") from None


def balance_of(given: argparse.Namespace, nodes: Nodes, items: Mapping[Spot, Item]) -> Balance | None:
    """The wish of --balance: the size of each disk, and what is in use there by nothing that is listed."""
    if not given.balance:
        return None
    names = {(at[0], it.inside) for at, it in items.items()}
    split = {(at[0], folder) for at, it in items.items() for folder in folders_above(it.inside)}
    sizes, other, disks = {}, {}, list(nodes.values())
    rooms, used = bytes_of(disks)
    find = functools.partial(one_of, paths=disks, what="disk")
    for (device, _), (disk, size) in zip(nodes, given_to(disks, given.size, "--size", find, size_of).items()):
        same = next((it for (its, _), it in nodes.items() if its == device and it != disk), None)
        if same and size is None:
            raise Wrong(f"{disk} and {same} are on one file system: say by --size how many bytes each may have")
        sizes[disk] = used[disk] + rooms[disk] if size is None else size
        if size is None:
            other[disk] = max(0, used[disk] - sum(it.bulk for at, it in items.items() if at[0] == disk))

    def fits(at: Spot, disk: str) -> bool:
        inside = items[at].inside
        return not {(disk, it) for it in [*folders_above(inside), inside]} & names and (disk, inside) not in split

    return Balance(given.balance, sizes, other, rooms, fits)


@command
def main() -> None:
    given = read_words()
    nodes = read_disks(given.mounts, given.mounted)
    disks = list(nodes.values())
    found = {disk: read_items(disk, node[0], nodes) for node, disk in nodes.items()}
    found = in_units(found, given.unit, nodes) if given.unit else found
    items = {(disk, slot): it for disk in disks for slot, it in enumerate(found[disk])}
    if len(items) > MOST_ITEMS:
        raise Wrong(f"there are {len(items)} items, more than {MOST_ITEMS}")
    for it in items.values():
        if it.fixed:
            note(f"{it.volume} stays where it is: {it.fixed}")
        if it.special:
            note(f"{it.special} is a fifo, a socket or a device: cp -a makes it anew, diff and others stop at it; end "
                 "what uses it first")
    wholes, stand = {at: [it] for at, it in items.items()}, {it.volume: (at[0], it.inside) for at, it in items.items()}

    find = functools.partial(one_of, paths=disks, what="disk")
    limits = given_to(disks, given.limit, "--limit", find, lambda text: limits_of(text.split(","), "--limit"))
    most = given_to(disks, given.slots, "--slots", find, lambda text: number(text, 1, MOST_SLOTS, "--slots"))
    slots = {disk: count or max(1, len(items)) for disk, count in most.items()}
    empty = {one_of(word, disks, "disk") for word in given.empty}
    moves = read_moves(given.move, disks, items, empty)
    wishes = Wishes(moves, empty, given.spread, set(), balance_of(given, nodes, items))
    next_ = carry_out(wholes, slots, wishes)
    going = [(it, next_[at]) for at, it in items.items() if next_[at] != at[0]]
    check_targets([(it.volume, disk) for it, disk in going], stand)
    rooms, used = bytes_of(disks)
    check_bytes(going, rooms)
    form = form_of(wholes, next_, slots)

    disk_names = short_names(dict.fromkeys(disks, ""))
    names = short_names({path: inside for path, (_, inside) in stand.items()})
    stands: list[list[object]] = [[*HEADER.split(",")]]
    stands += [["disk", disk_names[disk], disk, ""] for disk in disks]
    stands += [["item", names[it.volume], it.volume, it.bulk] for it in items.values()]
    save_case(given.into, {at: names[it.volume] for at, it in items.items()}, disk_names, limits, slots, next_,
              {at: it.bulk for at, it in items.items()}, stands)
    least = f"; {wishes.balance.least} at least have to" if wishes.balance else ""
    note(f"{len(items)} items on {len(disks)} disks, {len(going)} of them go to another disk{least}")
    for text in form.said(), said_of_bytes(going, rooms, used), warning_of(form, wholes, next_, slots, rooms):
        if text:
            note(text)

"""What tests/session tries with the three files, row by row: what is refused (status 3), with the file, the row and the
cause, and what is not. In the tables a stroke is the end of a line."""
from session_inputs import cluster, names, table
from session_plans import PLAN
from session_rooms import Count, Room

ONE_DISK, ONE_ITEM = "disk,limit,slots/a,2,4/", "item,disk,slot/x,a,0/"
NO_ITEM, NO_WAY = "item,disk,slot/", "item,disk/"
TWO_DISKS = "disk,limit,slots/a,1,2/b,1,2/"

# disks files, each beside files without an item
DISKS = """
     | disks row 0: bad header
    / | disks row 0: bad header
    disk,limit/ | disks row 0: bad header
    disk,slots,limit/ | disks row 0: bad header
    disk,limit,slots |
    \ufeff\ufeffdisk,limit,slots/ | disks row 0: bad header
    disk,limit,slots/a,1/ | disks row 1: bad width
    disk,limit,slots/a,1,4,/ | disks row 1: bad width
    disk,limit,slots/a b,1,4/ | disks row 1: bad name
    disk,limit,slots/,1,4/ | disks row 1: bad name
    disk,limit,slots/d2345678901234567890123456789012,1,4/ |
    disk,limit,slots/d23456789012345678901234567890123,1,4/ | disks row 1: bad name
    disk,limit,slots/a,12345678901,4/ | disks row 1: bad number
    disk,limit,slots/a,,4/ | disks row 1: bad number
    disk,limit,slots/a,1,+4/ | disks row 1: bad number
    disk,limit,slots/a,0,4/ | disks row 1: out of range
    disk,limit,slots/a,1025,4/ | disks row 1: out of range
    disk,limit,slots/a,1,0/b,1/ | disks row 1: out of range
    disk,limit,slots/a,1,65537/ | disks row 1: out of range
    disk,limit,slots/a,1024,65536/b,1,1/ |
    disk,limit,slots/a,0002,4/b,0000000001,1/ |
    disk,limit,slots/a,2,4/a,2,4/ | disks row 2: disk listed twice
"""
# now files of one disk, each beside a next file that keeps x there
NOW = """
    item,disk/ | now row 0: bad header
    item,disk,slot/x,a/ | now row 1: bad width
    item,disk,slot/x y,a,0/ | now row 1: bad name
    item,disk,slot/x,,0/ | now row 1: bad name
    item,disk,slot/x,a,-1/ | now row 1: bad number
    item,disk,slot/x,a,0/x,a,1/ | now row 2: item listed twice
    item,disk,slot/x,q,0/ | now row 1: unknown disk
    item,disk,slot/x,a,4/ | now row 1: slot too high
    item,disk,slot/x,a,0/y,a,00/ | now row 2: slot taken
    item,disk,slot/x,q,4/x,a,4/ | now row 1: unknown disk
    item,disk,slot/x,a,0/x,q,0/ | now row 2: item listed twice
    item,disk,slot/x,a,0/ |
    item,disk,slot/x,a,3/ |
    item,disk,slot/x,a,0000000003/ |
"""
# next files, each beside one disk and one item
NEXT = """
    item,disk,slot/ | next row 0: bad header
    item,disk/x,a,0/ | next row 1: bad width
    item,disk/x,a b/ | next row 1: bad name
    item,disk/x,a/x,a/ | next row 2: item listed twice
    item,disk/x,a/x,q/ | next row 2: item listed twice
    item,disk/y,q/ | next row 1: unknown disk
    item,disk/y,a/ | next row 1: item not in now
    item,disk/ | now row 1: item not in next
    item,disk/x,a/ |
"""
NO_ROOM = "disks row 2: no room on b, needs 3, has 2"
# the three files, and how `plan` ends; `plan-tight` reads them without asking for room, and `fill` no next file
FILES = [
    (TWO_DISKS, "item,disk,slot/x,a,0/y,b,0/", "item,disk/x,b/y,b/", ""),
    # the first of the two items that no row of the next file lists
    (TWO_DISKS, "item,disk,slot/x,a,0/y,b,0/w,a,1/", "item,disk/x,b/", "now row 2: item not in next"),
    # a fault in each file: the disks file's is told, and then the now file's
    ("disk,limit,slots/a,0,4/", "item,disk,slot/x,q,0/", "item,disk/x,q/", "disks row 1: out of range"),
    (ONE_DISK, "item,disk,slot/x,q,0/", "item,disk/x,q/", "now row 1: unknown disk"),
    (TWO_DISKS, "item,disk,slot/x,a,0/y,b,0/w,a,1/", "item,disk/x,b/y,b/w,b/", NO_ROOM),
    # an item that leaves a disk keeps its slot there
    (TWO_DISKS, "item,disk,slot/x,a,0/y,b,0/w,b,1/", "item,disk/x,b/y,a/w,b/", NO_ROOM),
]
SWAPPED = ("disk,limit,slots/a,1,1/b,1,1/", "item,disk,slot/x,a,0/y,b,0/", "item,disk/x,b/y,a/")
TIGHT = [
    (*SWAPPED, "13 no free slot"),
    ("disk,limit,slots/a,0,1/", *SWAPPED[1:], "3 refused disks row 1: out of range"),
    (SWAPPED[0], "item,disk,slot/x,a,1/", SWAPPED[2], "3 refused now row 1: slot too high"),
    (*SWAPPED[:2], "item,disk/x,q/", "3 refused next row 1: unknown disk"),
    (*SWAPPED[:2], "item,disk/x,b/", "3 refused now row 2: item not in next"),
]


def rows_of(text):
    return [[it.strip() for it in line.split("|")] for line in text.strip().split("\n")]


def refused(program):
    """What `plan` says of each file."""
    cases = [*((file, NO_ITEM, NO_WAY, text) for file, text in rows_of(DISKS)),
             *((ONE_DISK, file, "item,disk/x,a/", text) for file, text in rows_of(NOW)),
             *((ONE_DISK, ONE_ITEM, file, text) for file, text in rows_of(NEXT)), *FILES]
    with Room(program) as room:
        for *files, text in cases:
            names(room, [it.replace("/", "\n") for it in files])
            says(room, f"{files}", PLAN, f"3 refused {text}" if text else None)
        for *files, text in TIGHT:
            names(room, [it.replace("/", "\n") for it in files])
            says(room, f"{files}", "plan-tight D N X P", text)
        for item, status in ("x1,b,1/x2,a,1/", "0 filled 2"), ("x1,b,1/x2,b,1/", "3 refused now row 2: slot taken"):
            names(room, [TWO_DISKS.replace("/", "\n"), f"item,disk,slot/{item}".replace("/", "\n")])
            says(room, item, "fill D N", status)


def says(room, name, line, end):
    """The line ends so, or well where nothing is given."""
    ran = room.run(*line.split())
    status, _, text = (end or "0 ").partition(" ")
    begins = ran.out.decode().startswith(f"{text}\n" if end else "migration-certificate ")
    Count.that(f"{line} of {name[:300]}", ran.status == int(status) and begins, ran)


def largest(program):
    """As many disks and items as there may be, as long files, and one more; a fault of an earlier file comes before the
    length of a later one."""
    numbered = lambda head, count, row: table(head, [row.format(n) for n in range(count)])
    no_item, no_way, one_disk, one_item = (it.replace("/", "\n") for it in (NO_ITEM, NO_WAY, ONE_DISK, ONE_ITEM))
    disks = lambda count: numbered("disk,limit,slots", count, "i{},1,1")
    items = lambda count: numbered("item,disk,slot", count, "i{0},a,{0}")
    listed = lambda count: numbered("item,disk", count, "i{},b")
    two, wrong = "disk,limit,slots\na,1,65536\nb,1,65536\n", "item,disk,slot\nx,q,0\n"
    most, more = (one_disk.ljust(it, "\n") for it in (16777216, 16777217))
    cases = [
        ([disks(1024), no_item, no_way], None),
        ([disks(1025), no_item, no_way], "disks row 1025: too many rows"),
        ([two, items(65536), listed(65537)], "next row 65537: too many rows"),
        ([two, items(65537), listed(65536)], "now row 65537: too many rows"),
        ([most, one_item, "item,disk\nx,a\n"], None),
        ([more, no_item, no_way], "disks row 0: file too long"),
        ([one_disk, more, no_way], "now row 0: file too long"),
        ([one_disk, wrong, more], "now row 1: unknown disk"),
    ]
    with Room(program) as room:
        for files, end in cases:
            names(room, files)
            says(room, f"{end}", PLAN, end and f"3 refused {end}")


CASES = [refused, largest]

"""libmigrate from Python: plans, checks, and says where items are, over the bytes of the tables (docs/FORMATS.md).

    library = migrate.Library()                     # or Library("/a/folder/libmigrate.so")
    plan, certificate = library.plan(disks, now, next)
    verdict = library.check(disks, now, next, plan, certificate)
    made = library.plan_numbers([(2, 0, 9), (2, 0, 9)], [(0, 0, 1)])    # disks, and items on them, as numbers

What is wrong is an Error with the status and the text of the command of the same name. Any number of threads may call at once."""
from __future__ import annotations

import ctypes
import ctypes.util
import itertools
import operator
import os
import sys
from collections.abc import Iterable, Sequence
from typing import Any, NamedTuple

SHARED = "libmigrate.so.1"


class Error(Exception):
    """A call that isn't done: its status (migrate.h lists them) and its text."""

    def __init__(self, status: int, text: str) -> None:
        super().__init__(text.rstrip("\n"))
        self.status = status
        self.text = text


class Refused(Error):
    """Numbers of which nothing can be made: the cause, the disk or item where it is, and how many slots a disk needs and has."""

    CAUSES = ("no memory", "too many disks", "too many items", "out of range", "unknown disk", "slot too high",
              "slot taken", "unknown next disk", "no room", "too many are to come", "no free slot")

    def __init__(self, status: int, cause: int, place: int, needs: int, has: int) -> None:
        lacks = f", needs {needs}, has {has}" if cause in (8, 9) else ""
        super().__init__(status, f"{self.CAUSES[cause]} at {place}{lacks}")
        self.cause, self.place, self.needs, self.has = cause, place, needs, has


class Found(NamedTuple):
    """As `struct migrate_found` of migrate.h."""

    rounds: int
    quotient: int
    limits: int
    bound: int
    disk: int
    side: int
    load: int
    value: int


class Verdict(NamedTuple):
    """As `struct migrate_verdict` of migrate.h."""

    what: int
    round: int
    place: int
    kept: int
    counted: int


class Numbers(NamedTuple):
    rows: memoryview  # of a plan (item, to_disk, to_slot, round) each, of a schedule the round of each pair; numpy.asarray takes it as it is
    found: Found
    set: list[int]  # the disks of a bound that is a set


class TightNumbers(NamedTuple):
    rows: memoryview  # (item, to_disk, to_slot, round) each, one for each round
    parked: int


class DrainNumbers(NamedTuple):
    """As `struct migrate_drained` of migrate.h, with the next disk of each item."""

    next: list[int]
    rounds: int
    shown: int
    count: int
    limit: int


class Plan(NamedTuple):
    plan: bytes
    certificate: bytes


class TightPlan(NamedTuple):
    plan: bytes
    text: str  # `rounds R, parked N`


class Drain(NamedTuple):
    next: bytes  # where each item goes: a table for `plan`
    text: str  # the number of rounds, and what shows that no fewer are enough


class Library:
    """The shared library at this path: else the one that MIGRATE_LIBRARY in the environment names, or the system finds."""

    def __init__(self, path: str | os.PathLike[str] | None = None) -> None:
        found = path or os.environ.get("MIGRATE_LIBRARY") or ctypes.util.find_library("migrate") or SHARED
        self._library = ctypes.CDLL(os.fspath(found))
        self._library.migrate_version.restype = ctypes.c_char_p

    @property
    def version(self) -> str:
        told: bytes = self._library.migrate_version()
        return told.decode()

    def call(self, name: str, given: Sequence[bytes | int], texts: int) -> tuple[int, list[bytes]]:
        """Calls a function with these bytes and numbers, and as much room for so many texts as they need: its status, and the texts."""
        function = getattr(self._library, f"migrate_{name}")
        function.restype = ctypes.c_uint32
        rooms = [256] * texts
        while True:
            words = [word for it in given for word in ((it, ctypes.c_size_t(len(it))) if isinstance(it, bytes) else (ctypes.c_uint32.from_buffer_copy(it.to_bytes(4, sys.byteorder)),))]
            into = [ctypes.create_string_buffer(room) for room in rooms]
            sizes = [ctypes.c_size_t() for _ in rooms]
            for text, room, size in zip(into, rooms, sizes):
                words += [text, ctypes.c_size_t(room), ctypes.byref(size)]
            status: int = function(*words)
            rooms_needed = [size.value for size in sizes]
            if all(size <= room for size, room in zip(rooms_needed, rooms)):
                return status, [text.raw[:size] for text, size in zip(into, rooms_needed)]
            rooms = [max(it) for it in zip(rooms, rooms_needed)]

    def _done(self, name: str, *given: bytes | int, texts: int = 1) -> list[bytes]:
        status, found = self.call(name, given, texts)
        if status != 0:
            raise Error(status, found[-1].decode(errors="replace"))
        return found

    def plan(self, disks: bytes, now: bytes, next: bytes) -> Plan:
        """A plan of the fewest rounds that are found, and the certificate that says how good it is."""
        return Plan(*self._done("plan", disks, now, next, texts=2))

    def check(self, disks: bytes, now: bytes, next: bytes, plan: bytes, certificate: bytes) -> str:
        """Judges a plan and its certificate: `optimal` or `bounded`."""
        return self._done("check", disks, now, next, plan, certificate)[0].decode().rstrip("\n")

    def after(self, disks: bytes, now: bytes, next: bytes, plan: bytes) -> bytes:
        """Where the items are after a plan, as a table `now`."""
        return self._done("after", disks, now, next, plan)[0]

    def plan_tight(self, disks: bytes, now: bytes, next: bytes) -> TightPlan:
        """A plan where disks are too full for old and incoming items together."""
        plan, text = self._done("plan_tight", disks, now, next, texts=2)
        return TightPlan(plan, text.decode())

    def after_tight(self, disks: bytes, now: bytes, next: bytes, plan: bytes) -> bytes:
        """As `after`, for plans of `plan_tight`."""
        return self._done("after_tight", disks, now, next, plan)[0]

    def after_rounds(self, disks: bytes, now: bytes, next: bytes, plan: bytes, rounds: int) -> bytes:
        """As `after_tight`, after the first rounds of a plan, or after all where it has no more."""
        return self._done("after_rounds", disks, now, next, plan, rounds)[0]

    def drain(self, disks: bytes, now: bytes, name: str) -> Drain:
        """Next disks that empty the disk of this name in the fewest rounds."""
        next, text = self._done("drain", disks, now, name.encode(), texts=2)
        return Drain(next, text.decode())

    def plan_numbers(self, disks: Iterable[Sequence[int]], items: Iterable[Sequence[int]], split: bool = False) -> Numbers:
        """Plans over rows (out_limit, in_limit, slots) and (disk, slot, next_disk), or arrays of them with 32 bits a number."""
        return self._numbers("plan_numbers", split, _table(disks, 3), _table(items, 3), 4)

    def check_numbers(self, disks: Iterable[Sequence[int]], items: Iterable[Sequence[int]], numbers: Numbers, split: bool = False) -> tuple[int, Verdict]:
        """Judges what `plan_numbers` gives, or shifts and a bound like them: the status, 0, 1 or 10, and the verdict."""
        shifts, members = _table(numbers.rows if len(numbers.rows) else [], 4), _table(zip(numbers.set), 1)
        found, verdict = (ctypes.c_uint32 * 8)(*numbers.found), (ctypes.c_uint32 * 5)()
        tables = [_table(disks, 3), _table(items, 3), shifts, members]
        return self._over("check_numbers", split, tables, found, verdict), Verdict(*verdict)

    def plan_tight_numbers(
        self, disks: Iterable[Sequence[int]], items: Iterable[Sequence[int]], split: bool = False
    ) -> TightNumbers:
        """As `plan_numbers`, by single shifts, where disks are too full for old and incoming items together."""
        tables, count = [_table(disks, 3), _table(items, 3)], ctypes.c_size_t()
        rows = (ctypes.c_uint32 * (8 * tables[1].rows))()
        self._over("plan_tight_numbers", split, tables, rows, ctypes.c_size_t(2 * tables[1].rows), ctypes.byref(count))
        moves = sum(map(operator.ne, tables[1].numbers[::3], tables[1].numbers[2::3]))
        return TightNumbers(_shaped(rows, count.value, 4), count.value - moves)

    def drain_numbers(
        self, disks: Iterable[Sequence[int]], items: Iterable[Sequence[int]], disk: int, split: bool = False
    ) -> DrainNumbers:
        """Next disks that empty a disk in the fewest rounds. Those that items have must be there, and don't matter."""
        tables, drained = [_table(disks, 3), _table(items, 3)], (ctypes.c_uint32 * 4)()
        next = (ctypes.c_uint32 * tables[1].rows)()
        self._over("drain_numbers", split, tables, ctypes.c_uint32(disk), next, ctypes.c_size_t(len(next)), drained)
        return DrainNumbers(next[:], *drained)

    def schedule(self, limits: Iterable[Sequence[int]], pairs: Iterable[Sequence[int]], split: bool = False) -> Numbers:
        """A round for each pair of disks, over rows (out_limit, in_limit) and (from, to)."""
        return self._numbers("schedule", split, _table(limits, 2), _table(pairs, 2), 1)

    def _numbers(self, name: str, split: bool, disks: _Table, items: _Table, width: int) -> Numbers:
        rows, members = (ctypes.c_uint32 * (width * items.rows))(), (ctypes.c_uint32 * 1024)()
        found, size = (ctypes.c_uint32 * 8)(), ctypes.c_size_t
        row_count, member_count = size(items.rows), size()
        handed = [rows, size(items.rows), *([ctypes.byref(row_count)] if width == 4 else [])]
        self._over(name, split, [disks, items], *handed, members, size(1024), ctypes.byref(member_count), found)
        return Numbers(_shaped(rows, row_count.value, width), Found(*found), members[: member_count.value])

    def _over(self, name: str, split: bool, tables: Sequence[_Table], *more: Any) -> int:
        """Calls a function over numbers, with room for a refusal at the end: its status, where nothing is refused."""
        function, refused = getattr(self._library, f"migrate_{name}"), (ctypes.c_uint32 * 4)()
        function.restype = ctypes.c_uint32
        given = (word for it in tables for word in (it.numbers, ctypes.c_size_t(it.rows)))
        status: int = function(ctypes.c_bool(split), *given, *more, refused)
        if status not in (0, 1, 10):
            raise Refused(status, *refused)
        return status


class _Table(NamedTuple):
    numbers: ctypes.Array[ctypes.c_uint32]
    rows: int


def _shaped(rows: ctypes.Array[ctypes.c_uint32], count: int, width: int) -> memoryview:
    """The first of these rows."""
    flat = memoryview(rows).cast("B")[: 4 * width * count]
    return flat.cast("I", [count, width]) if width > 1 and count > 0 else flat.cast("I")


def _table(rows: Iterable[Sequence[int]], width: int) -> _Table:
    """Rows of so many numbers each, as C has them."""
    try:
        view = memoryview(rows)  # type: ignore[arg-type]
    except TypeError:
        flat = list(itertools.chain.from_iterable(rows))
        return _Table((ctypes.c_uint32 * len(flat))(*flat), len(flat) // width)
    if view.itemsize != 4 or not view.c_contiguous or view.ndim != 2 or view.shape is None or view.shape[1] != width:
        raise ValueError(f"an array of {width} numbers of 32 bits in each row is wanted")
    return _Table((ctypes.c_uint32 * (view.nbytes // 4)).from_buffer_copy(view.cast("B")), view.shape[0])

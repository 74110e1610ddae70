"""What commands read: plans, and CSV files."""
import csv, hashlib, io, re
from collections.abc import Iterable
from dataclasses import dataclass
from typing import NamedTuple, NoReturn
from .command import Wrong, read_bytes, read_text

NAME = re.compile(r"[A-Za-z0-9_.-]{1,32}", re.ASCII)
NUMBER = re.compile(r"[0-9]{1,10}", re.ASCII)
SHIFT = re.compile("({0}) ({0}) ([0-9]+) ({0}) ([0-9]+)".format(NAME.pattern), re.ASCII)
MOST_BYTES, MOST_DISKS, MOST_ITEMS, MOST_SLOTS, MOST_LIMIT = 1 << 24, 1024, 65536, 65536, 1024


class Shift(NamedTuple):
    """An item goes from a slot of a disk to a slot of a disk. Slots count from 0."""
    item: str
    source: str
    source_slot: int
    target: str
    target_slot: int


@dataclass(frozen=True)
class Plan:
    """The rounds of a plan, and SHA-256 of its text."""
    rounds: list[list[Shift]]
    digest: bytes

    def shifts(self) -> list[Shift]:
        return [shift for round_ in self.rounds for shift in round_]

    def parked(self) -> int:
        """How many shifts go on from where an item was parked by an earlier one."""
        return len(self.shifts()) - len({it.item for it in self.shifts()})


def read_rows(path: str, *headers: str) -> list[tuple[int, list[str]]]:
    """The rows of a CSV file, whose header must be one of these, with their numbers. Each has as many fields as the
    header."""
    text = read_text(path)
    if len(text) > MOST_BYTES:
        raise Wrong(f"has more than {MOST_BYTES} bytes", path)
    rows = [row for row in csv.reader(io.StringIO(text, newline="")) if row]
    if not rows or rows[0] not in [it.split(",") for it in headers]:
        raise Wrong(f"does not begin with the row {' or '.join(headers)}", path)
    for at, row in enumerate(rows[1:], 1):
        if len(row) != len(rows[0]):
            raise Wrong(f"{len(row)} fields where the header has {len(rows[0])}", path, at)
    return list(enumerate(rows[1:], 1))


def table(rows: Iterable[Iterable[object]]) -> str:
    """The text of a CSV file with these rows."""
    text = io.StringIO()
    csv.writer(text, lineterminator="\n").writerows(rows)
    return text.getvalue()


def number(text: str, least: int, most: int, where: str, row: int = 0) -> int:
    if not (NUMBER.fullmatch(text) and least <= int(text) <= most):
        raise Wrong(f"{where}{f' row {row}' * (row > 0)}: '{text}' is no number from {least} to {most}")
    return int(text)


def plan_text(rounds: Iterable[Iterable[Shift]]) -> str:
    """The text of a plan of these rounds."""
    all_ = [list(it) for it in rounds]
    lines = ["migration-plan 1", f"rounds {len(all_)}"]
    for at, shifts in enumerate(all_, 1):
        lines += [f"round {at} {len(shifts)}", *("%s %s %s %s %s" % it for it in shifts)]
    return "\n".join([*lines, "end", ""])


def read_plan(path: str) -> Plan:
    """The plan of a plan text. What it does is for `check` and `after` to judge; its form is judged here."""
    data, at = read_bytes(path), 0
    lines = data.decode("utf-8", "replace").split("\n")

    def bad() -> NoReturn:
        raise Wrong(f"line {at} does not fit a plan; `migrate plan` writes one", path)

    def line(pattern: str | re.Pattern[str]) -> tuple[str, ...]:
        """What the groups of the pattern are in the next line."""
        nonlocal at
        at += 1
        found = at <= len(lines) and re.compile(pattern).fullmatch(lines[at - 1])
        return found.groups() if found else bad()

    def number(text: str, most: int) -> int:
        is_number = len(text) <= 10 and (text[0] != "0" or text == "0") and int(text) <= most
        return int(text) if is_number else bad()

    def each(what: str, most: int) -> range:
        """As many as the next line says of these."""
        return range(number(line(rf"{what} ([0-9]+)")[0], most))

    def shift() -> Shift:
        item, source, slot, target, to = line(SHIFT)
        return Shift(item, source, number(slot, MOST_SLOTS - 1), target, number(to, MOST_SLOTS - 1))

    if len(data) > MOST_BYTES:
        bad()
    line("migration-plan 1")
    rounds = [[shift() for _ in each(f"round {round_ + 1}", MOST_BYTES)] for round_ in each("rounds", 131072)]
    line("end")
    line("")
    if at < len(lines):
        at += 1
        bad()
    return Plan(rounds, hashlib.sha256(data).digest())

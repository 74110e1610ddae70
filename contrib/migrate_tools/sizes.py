"""Sizes: bytes.csv, which has the bytes of each item beside now.csv, and how an amount of bytes is written and read."""
import re
from collections.abc import Mapping
from .command import Wrong
from .plans import NAME, Plan, read_rows

HEADER, MOST_SIZE = "item,bytes", 1 << 60


def amount(text: str) -> int:
    """A number of bytes, as 4G."""
    found = re.fullmatch(r"([0-9]{1,15})([KMGT]?)", text, re.ASCII)
    if not found or int(found[1]) == 0:
        raise ValueError(text)
    return int(found[1]) << 10 * " KMGT".index(found[2] or " ")


def said(bytes_: float) -> str:
    """An amount of bytes as a person reads it."""
    power = min(4, max(0, (int(bytes_).bit_length() - 1) // 10))
    return f"{bytes_ / 1024 ** power:.1f} {'KMGT'[power - 1]}iB" if power else f"{bytes_:.0f} bytes"


def read_sizes(path: str | None, plan: Plan) -> dict[str, int] | None:
    """The bytes of each item of a plan by bytes.csv; None without such a file. The file may list more items."""
    if path is None:
        return None
    sizes: dict[str, int] = {}
    for at, (item, text) in read_rows(path, HEADER):
        is_size = re.fullmatch(r"[0-9]{1,18}", text, re.ASCII) and int(text) <= MOST_SIZE
        if not NAME.fullmatch(item) or item in sizes or not is_size:
            raise Wrong(f"'{item}' is no name or is listed twice, or '{text}' is no number of bytes", path, at)
        sizes[item] = int(text)
    for it in plan.shifts():
        if it.item not in sizes:
            raise Wrong(f"does not list {it.item}; it is of another plan", path)
    return sizes


def size_rows(sizes: Mapping[str, int]) -> list[list[object]]:
    """The rows of bytes.csv, its header first."""
    return [[*HEADER.split(",")], *([item, bytes_] for item, bytes_ in sizes.items())]

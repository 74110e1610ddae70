"""picture PLAN DISKS [--cert CERT] [--out FILE]: draws a plan as an SVG: a row for each disk, a column for each round.

Where the disks have an outgoing and an incoming limit, each has a row for what leaves it and one for what reaches it. A
field is filled from below by the part of the limit that is in use in the round; where there is room the transfers and
the limit stand in it. With --cert the rows of the bound that CERT names are marked; without it those that need the most
rounds for their own transfers. Where the rounds are more than the columns that can be seen, a column is the mean of
several."""
import collections
from collections.abc import Mapping, Sequence
from dataclasses import dataclass
from ..certs import read_cert
from ..command import Wrong, command, put, words
from ..disks import Disks, Side, limits_by_side, read_disks, sides_of
from ..plans import Plan, read_plan

MOST_COLUMNS = 300
Uses = Mapping[Side, Mapping[int, int]]  # the transfers of each round that count at a limit
BLUE, FULL, PALE, RED, INK = "#8db9e2", "#1f4e8c", "#eef1f5", "#c0392b", "#222222"


def uses(plan: Plan, disks: Disks) -> dict[Side, collections.Counter[int]]:
    """For each disk, or each side of one, the transfers of each round that count there."""
    found: dict[Side, collections.Counter[int]] = {side: collections.Counter() for side in limits_by_side(disks)}
    for at, shifts in enumerate(plan.rounds):
        for side in (side for it in shifts for side in sides_of(it, disks)):
            found[side][at] += 1
    return found


def needing(found: Uses, limits: Mapping[Side, int]) -> tuple[list[Side], str]:
    """Those that need the most rounds, and the sentence about them."""
    needs = {side: -(-sum(counts.values()) // limits[side]) for side, counts in found.items()}
    most = max(needs.values(), default=0)
    sides = [side for side in needs if needs[side] == most > 0]
    whom = f"{len(sides)} {'sides of ' * any(it.way for it in sides)}disks: each needs"
    whom = f"{sides[0]}: it needs" if len(sides) == 1 else whom
    return sides, f"{whom} {most} round{'s' * (most > 1)} for its own transfers, the most of all"


def marked(disks: Disks, cert: str) -> tuple[list[Side], str]:
    """Those that the bound of a certificate names, and the sentence about them."""
    bound = read_cert(cert, disks).bound
    return (bound.sides, f"the bound{':' if bound.is_set else ','} {bound.said()}") if bound else ([], "")


def text(x: float, y: float, size: float, words_: object, anchor: str = "start", colour: str = INK,
         bold: bool = False) -> str:
    weight = ' font-weight="bold"' * bold
    form = f'font-size="{size:g}" text-anchor="{anchor}" fill="{colour}"{weight}'
    return f'<text x="{x:g}" y="{y:g}" {form}>{words_}</text>'


def rect(x: float, y: float, width: float, height: float, colour: str, more: str = "") -> str:
    return f'<rect x="{x:g}" y="{y:g}" width="{width:g}" height="{height:g}" fill="{colour}"{more}/>'


@dataclass(frozen=True)
class Sheet:
    """Where things stand: rows of `high` from `top` on, columns of `wide` from `left` on, each of `each` rounds."""
    rounds: int
    each: int
    columns: int
    high: int
    wide: float
    size: float
    left: float
    top: float
    bottom: float


def sheet_of(plan: Plan, names: Sequence[str]) -> Sheet:
    rounds = len(plan.rounds)
    each = max(1, -(-rounds // MOST_COLUMNS))
    columns = -(-rounds // each)
    high, top = 30 if len(names) <= 16 else 18 if len(names) <= 60 else 14, 64 if len(names) <= 60 else 120
    size = high * 0.5 if high == 30 else high * 0.75
    wide = max(3.0, min(60.0, 900 / max(1, columns)))
    left = 26 + size * 0.66 * max(map(len, names))
    return Sheet(rounds, each, columns, high, wide, size, left, top, top + high * len(names))


def row(sheet: Sheet, y: float, name: Side, limit: int, counts: Mapping[int, int], mark: bool) -> list[str]:
    """The row of a disk, or of a side of one: its name, and a field for each column with a transfer."""
    left, high, wide, each = sheet.left, sheet.high, sheet.wide, sheet.each
    out = [text(left - 8, y + high / 2 + sheet.size * 0.36, sheet.size, name, "end", RED if mark else INK, mark),
           rect(left, y + 1, sheet.columns * wide, high - 2, PALE)]
    sums: collections.Counter[int] = collections.Counter()
    for at, count in counts.items():
        sums[at // each] += count
    for column, count in sorted(sums.items()):
        most = limit * min(each, sheet.rounds - column * each)
        part, gap = min(1.0, count / most), 1 if wide >= 6 else 0
        tall = max(1.0, (high - 2) * part)
        x, top, across = left + column * wide + gap, y + high - 1 - tall, wide - 2 * gap
        colour = RED if count > most else FULL if part == 1.0 else BLUE
        out.append(rect(round(x, 2), round(top, 2), round(across, 2), round(tall, 2), colour))
        if high == 30 and wide >= 30 and each == 1:
            colour = "#ffffff" if part >= 0.75 else INK
            out.append(text(left + (column + 0.5) * wide, y + high / 2 + 4, 11, f"{count}/{limit}", "middle", colour))
    if mark:
        frame = rect(left, y + 1, sheet.columns * wide, high - 2, "none", f' stroke="{RED}" stroke-width="1.5"')
        out += [rect(4, y + 1, 6, high - 2, RED), frame]
    return out


def legend(y: float, marks: Sequence[Side], sentence: str) -> list[str]:
    out, x = [], 12.0
    for colour, said in ((PALE, "not in use"), (BLUE, "a part of the limit in use"), (FULL, "the whole limit in use")):
        out += [rect(x, y, 14, 12, colour, ' stroke="#999999" stroke-width="0.5"'), text(x + 20, y + 10, 11, said)]
        x += 36 + 6.2 * len(said)
    return out + [rect(12, y + 22, 6, 12, RED), text(24, y + 32, 11, sentence, colour=RED)] * bool(marks)


def draw(plan: Plan, disks: Disks, found: Uses, marks: Sequence[Side], sentence: str) -> str:
    sheet, limits = sheet_of(plan, [str(it) for it in found]), limits_by_side(disks)
    width, height = max(sheet.left + sheet.columns * sheet.wide + 16, 640), sheet.bottom + 68
    title = f"{len(plan.shifts())} transfers in {sheet.rounds} rounds on {len(disks)} disks"
    heading = "round" if sheet.each == 1 else f"first round of each column of {sheet.each} rounds"
    out = [f'<svg xmlns="http://www.w3.org/2000/svg" width="{width:g}" height="{height:g}" '
           f'viewBox="0 0 {width:g} {height:g}" font-family="sans-serif">', rect(0, 0, width, height, "#ffffff"),
           text(12, 24, 16, title, bold=True), text(sheet.left, sheet.top - 24, 11, heading)]
    lines = [sheet.top - 8, sheet.bottom + 12] if len(found) > 60 else [sheet.top - 8]
    for column in range(0, sheet.columns, max(1, -(-28 // int(sheet.wide)))):
        out += [text(sheet.left + (column + 0.5) * sheet.wide, y, 11, column * sheet.each + 1, "middle") for y in lines]
    for at, (side, counts) in enumerate(found.items()):
        out += row(sheet, sheet.top + at * sheet.high, side, limits[side], counts, side in marks)
    return "\n".join([*out, *legend(sheet.bottom + 20 if sheet.top == 64 else 40, marks, sentence), "</svg>", ""])


@command
def main() -> None:
    reader = words(__doc__, "plan", "disks")
    reader.add_argument("--cert", metavar="CERT", help="the certificate, whose bound is marked")
    reader.add_argument("--out", metavar="FILE", help="where the SVG is saved; it is printed where this is left out")
    given = reader.parse_args()
    plan = read_plan(given.plan)
    disks = read_disks(given.disks, plan)
    if not disks:
        raise Wrong("has no disks", given.disks)
    found = uses(plan, disks)
    marks, sentence = marked(disks, given.cert) if given.cert else needing(found, limits_by_side(disks))
    put(draw(plan, disks, found, marks, sentence), given.out,
        [it for it in (given.plan, given.disks, given.cert) if it])

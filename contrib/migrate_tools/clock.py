"""When nothing more is to begin: while the file `pause` is there, outside of each --window, and once the time of
--until has come. And the times of what was done."""
import argparse, datetime, os, re, time
from collections.abc import Callable, Iterable, Sequence
from dataclasses import dataclass
from .command import note, put

PAUSE, ENDED = "pause", 3  # the file, of the working folder; the status of a run that --until ended before all was done
DAYS = ("mon", "tue", "wed", "thu", "fri", "sat", "sun")


def time_of_day(text: str) -> float:
    """The next moment at which a clock shows this time, as 06:00."""
    now = datetime.datetime.fromtimestamp(time.time())
    found = datetime.datetime.combine(now, datetime.datetime.strptime(text, "%H:%M").time())
    return (found if found > now else found + datetime.timedelta(days=1)).timestamp()


@dataclass(frozen=True)
class Window:
    """From one minute of a day to another, which may be of the day after; and the days on which it begins, 0 for
    Monday."""
    text: str
    first: int
    end: int
    days: frozenset[int]

    def is_open(self, now: datetime.datetime) -> bool:
        at, day, long = now.hour * 60 + now.minute, now.weekday(), self.end <= self.first
        if day in self.days and self.first <= at and (long or at < self.end):
            return True
        return long and (day - 1) % 7 in self.days and at < self.end


def window(text: str) -> Window:
    """What `22:00-06:00`, `mon-fri 22:00-06:00` or `sat,sun 00:00-24:00` says."""
    time_ = r"([01]\d|2[0-3]):([0-5]\d)"
    found = re.fullmatch(rf"(?:([a-z,-]+) )?{time_}-(?:{time_}|24:00)", text, re.ASCII)
    if not found:
        raise ValueError(text)
    days: set[int] = set()
    for part in found[1].split(",") if found[1] else ["mon-sun"]:
        one, _, two = part.partition("-")
        first, last = DAYS.index(one), DAYS.index(two or one)
        days |= {it % 7 for it in range(first, last + 1 + 7 * (last < first))}
    end = int(found[4]) * 60 + int(found[5]) if found[4] else 24 * 60
    return Window(text, int(found[2]) * 60 + int(found[3]), end, frozenset(days))


def add_times(reader: argparse.ArgumentParser, what: str) -> None:
    """The words that say when something, `what`, may begin; `Clock(given.until, .., given.window)` reads them."""
    reader.add_argument("--until", metavar="HH:MM", type=time_of_day,
                        help=f"no {what} begins once the clock shows this; where one is left the status is {ENDED}")
    reader.add_argument("--window", metavar="'[DAYS] HH:MM-HH:MM'", type=window, action="append", default=[],
                        help=f"{what}s begin within these times alone, as 22:00-06:00 or 'mon-fri 22:00-06:00'")


def round_of(reader: argparse.ArgumentParser, words: Sequence[str], first: int, last: int) -> int:
    """The round that these words name; the first one where there are none."""
    if len(words) > 1 or not all(re.fullmatch("[0-9]{1,9}", it) for it in words):
        reader.error(f"{' '.join(words)} is no round")
    found = int(words[0]) if words else first
    if not first <= found <= last:
        reader.error(f"there is no round {found}, but {first} to {last}")
    return found


def tell(text: str) -> None:
    """A line of a script's log, for `progress`."""
    put(f"time {time.time():.0f} {text}\n")


class Clock:
    """Says whether something may begin now, and tells once that it may not, and that it may again."""

    def __init__(self, until: float | None = None, tell: Callable[[str], None] = lambda text: None,
                 windows: Sequence[Window] = ()) -> None:
        self.until, self.tell, self.windows, self.said = until, tell, windows, ""

    def is_over(self) -> bool:
        return self.until is not None and time.time() >= self.until

    def why_held(self) -> str:
        """What nothing may begin for, up to --until; empty where it may."""
        if self.is_over():
            return ""
        if os.path.lexists(PAUSE):
            return f"paused: nothing more begins until the file {PAUSE} of this folder is removed"
        now = datetime.datetime.fromtimestamp(time.time())
        if self.windows and not any(it.is_open(now) for it in self.windows):
            return f"paused: nothing more begins outside of --window {' or '.join(it.text for it in self.windows)}"
        return ""

    def holds(self) -> bool:
        """Whether nothing may begin now."""
        why, before = self.why_held(), self.said
        if why != before:
            self.said = why
            note(why or "the pause is over")
            if not (why and before):
                self.tell("paused" if why else "goes on")
        return why != "" or self.is_over()

    def wait(self, is_stopped: Callable[[], bool] = lambda: False) -> bool:
        """Waits while a pause lasts. Answers whether something may begin then."""
        while self.holds() and not self.is_over() and not is_stopped():
            time.sleep(0.2)
        return not self.holds()


class Times:
    """A file beside the place, with the time of each thing that begins or ends. It only serves `progress`: where it
    cannot be written nothing is said, and nothing of a run depends on it."""

    def __init__(self, path: str, is_new: bool) -> None:
        try:
            self.file = open(path, "w" if is_new else "a", encoding="ascii")
        except OSError:
            self.file = open(os.devnull, "w", encoding="ascii")

    def tell(self, *texts: str) -> None:
        try:
            self.file.write("".join(f"{time.time():.3f} {text}\n" for text in texts))
            self.file.flush()
        except OSError:
            self.file = open(os.devnull, "w", encoding="ascii")


Event = tuple[float, str]


def read_times(lines: Iterable[str]) -> list[Event]:
    """The events of lines 'TIME WORD..', as time and words; other lines are none."""
    found = []
    for line in lines:
        time_, _, text = line.partition(" ")
        if time_.replace(".", "", 1).isdecimal() and text:
            found.append((float(time_), text))
    return found


def at_work(events: Sequence[Event], now: float | None) -> tuple[float, bool]:
    """How long a run was at work by these events, up to `now`, or up to the last one where that is None; and whether it
    is paused. What lies between the last event of a run and the 'begins' of the next one does not count."""
    total, last, paused = 0.0, 0.0, False
    since: float | None = None
    for at, text in events:
        word = text.split()[0]
        if word in ("begins", "paused", "ends"):
            if since is not None:
                total += max(0.0, (last if word == "begins" else at) - since)
            since, paused = at if word == "begins" else None, word == "paused"
        elif text == "goes on":
            since, paused = at, False
        last = at
    if since is not None:
        total += max(0.0, (last if now is None else now) - since)
    return total, paused

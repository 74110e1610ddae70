"""The place of run-plan: the file that keeps what ended well, and what is seen where there is no such file."""
import fcntl, os
from collections.abc import Iterable, Sequence
from ..clock import Times
from ..command import Wrong
from ..plans import Plan


def count(done: set[str], lines: Iterable[str]) -> set[str]:
    """Counts these lines with what ended well. One that begins with 'not' takes an earlier one back."""
    for line in lines:
        if line.startswith("not "):
            done.discard(line[4:])
        else:
            done.add(line)
    return done


class Place:
    """The file that keeps what ended well, a line for each. It is locked while this process or a command of it runs."""

    def __init__(self, path: str, plan: Plan) -> None:
        try:
            self.file = open(path, "a+b")
        except OSError as error:
            raise Wrong(f"cannot be written: {error.strerror}", path) from None
        try:
            fcntl.flock(self.file, fcntl.LOCK_EX | fcntl.LOCK_NB)
        except OSError:
            raise Wrong(f"another run-plan, or a command that one began, is still at work with {path}") from None
        os.set_inheritable(self.file.fileno(), True)
        self.file.seek(0)
        *lines, cut_off = self.file.read().split(b"\n")
        self.file.truncate(self.file.tell() - len(cut_off))
        kept, head = [line.decode("ascii", "replace") for line in lines], f"plan {plan.digest.hex()}"
        if kept[:1] not in ([], [head]):
            raise Wrong("keeps the place of another plan; carry that one out, or name another file by --place", path)
        self.done: set[str] = set()
        count(self.done, kept)
        self.times = Times(f"{path}.times", not kept)
        if not kept:
            self.add(head)
            folder = os.open(os.path.dirname(os.path.realpath(path)), os.O_RDONLY | os.O_DIRECTORY)
            os.fsync(folder)  # which keeps its name
            os.close(folder)

    def add(self, *lines: str) -> None:
        try:
            self.file.write("".join(f"{line}\n" for line in lines).encode())
            self.file.flush()
            os.fsync(self.file.fileno())
        except OSError as error:
            raise Wrong(f"the place cannot be kept: {error.strerror}") from None
        count(self.done, lines)

    def has(self, *lines: str) -> bool:
        return not self.done.isdisjoint(lines)


def look(path: str, ends: Sequence[Sequence[str]]) -> None:
    """Where no place is kept, nothing may stand at a target. `ends` has where each item stands, and where it is to
    stand."""
    if os.path.exists(path) and os.path.getsize(path):
        return
    there = [(os.path.lexists(source), target) for source, target in ends if os.path.lexists(target)]
    if there:
        done = sum(not source for source, _ in there)
        raise Wrong(f"no place is kept in {path}, but {len(there)} of {len(ends)} items are at their target, the first "
                    f"one as {there[0][1]}; {done} of them have left their source. Put that file back, if it was lost. "
                    "Else compare where an item is at both, remove what is not whole, and make the files and the plan "
                    "anew: what has left needs no move any more")

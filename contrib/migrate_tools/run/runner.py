"""How run-plan runs commands side by side, and what of them counts."""
import collections, ctypes, os, shlex, signal, time
from collections.abc import Callable, Mapping, Sequence
from dataclasses import dataclass
from typing import NoReturn
from ..clock import Clock
from ..command import Wrong, note
from ..calls import call
from .compare import check_since, compare
from .place import Place

LIBC = ctypes.CDLL(None, use_errno=True)
BUFFER, NO = 1 << 10, b"no"  # what a process of its own tells, where it has said what is wrong
LOOKS = ("verified", "compared")  # what is so for this run alone: the next one looks again


@dataclass(frozen=True)
class Job:
    """A command for one transfer: what it is to be (copied, verified, compared, erased), its round and item, its two
    disks, its words. What is to be compared has two paths instead, and run-plan itself does it."""
    kind: str
    line: str
    disks: tuple[str, str]
    words: list[str]

    def disk(self) -> str:
        """The disk to which it writes."""
        return self.disks[self.kind == "copied"]


def spawn(words: Sequence[str]) -> int:
    """Begins a command without input, and answers its process."""
    no_input = [(os.POSIX_SPAWN_OPEN, 0, os.devnull, os.O_RDONLY, 0)]
    return os.posix_spawnp(words[0], tuple(words), os.environ, file_actions=no_input, setsigdef=[signal.SIGPIPE])


def has_ended() -> bool:
    """Whether a command has ended that was not waited for yet."""
    return os.waitid(os.P_ALL, 0, os.WEXITED | os.WNOHANG | os.WNOWAIT) is not None


class Runner:
    """Runs commands side by side, at most so many, and waits for each that it began. More begin as long as `status` is
    0. Where one fails, those that were handed over with it begin all the same, unless `is_strict`: then no copy begins
    either while `clock` holds."""
    place: Place
    hook: Sequence[str] = ()
    name = ""  # of the plan, for the hook

    def __init__(self, most: int, guards: Mapping[str, Sequence[str]], is_strict: bool = False) -> None:
        self.most, self.guards, self.is_strict, self.status, self.clock = most, guards, is_strict, 0, Clock()
        self.handles: dict[str, int] = {}
        self.broken: set[str] = set()
        self.running: dict[int, tuple[Job, int]] = {}
        self.compared: dict[str, tuple[str, str]] = {}  # by a job's line its source, and what was seen there
        signal.signal(signal.SIGINT, self.stop)
        signal.signal(signal.SIGTERM, self.stop)

    def stop(self, *_: object) -> None:
        self.status = 130
        note("stopping: waiting for the transfers that run")

    def open(self, folders: Mapping[str, str]) -> None:
        """Opens a folder of each of these disks that is here, so that what is written from now on and does not reach it
        is told."""
        for disk, folder in folders.items():
            try:
                if os.path.isdir(folder):
                    self.handles[disk] = os.open(folder, os.O_RDONLY | os.O_DIRECTORY)
            except OSError as error:
                raise Wrong(f"{folder} of disk {disk} cannot be opened: {error.strerror}") from None

    def guarded(self, *disks: str) -> bool:
        """Whether the guards of these disks, where there are any, end well. Where one does not, nothing more begins."""
        for disk in disks if self.guards else ():
            try:
                code: object = os.waitstatus_to_exitcode(os.waitpid(spawn(self.guards[disk]), 0)[1])
            except OSError as error:
                code = error.strerror
            if code:
                note(f"disk {disk} is not as --guard asks: {shlex.join(self.guards[disk])}: status {code}")
                call(self.hook, "failed", f"{self.name}: disk {disk} is not as --guard asks")
                self.status = self.status or 1
                return False
        return True

    def run(self, jobs: Sequence[Job], then: Callable[[list[Job]], list[Job]] = lambda kept: []) -> bool:
        """Runs these jobs, and those that `then` answers to some that ended well; keeps which end well. Answers whether
        all do."""
        waiting, left = collections.deque(jobs), len(jobs)
        fresh: list[Job] = []
        while waiting and not self.status or self.running:
            if waiting and not self.status and len(self.running) < self.most:
                holds = self.is_strict and self.clock.holds()  # then no copy begins; what was copied is carried on
                if job := next((it for it in waiting if not holds or it.kind != "copied"), None):
                    if self.guarded(*job.disks):
                        waiting.remove(job)
                        self.begin(job)
                    continue
                if not self.running and self.clock.is_over():
                    break
                if not (self.running and has_ended()):
                    time.sleep(0.2)
                    continue
            pid, status = os.wait()
            ended = self.running.pop(pid, None)  # none of these where whoever began run-plan had begun it
            if ended and self.ends_well(*ended, os.waitstatus_to_exitcode(status)):
                fresh.append(ended[0])
            if not (self.running and has_ended()):  # what ended at once is kept at once
                kept, fresh = self.keep(fresh), []
                more = then(kept)
                waiting.extendleft(reversed(more))
                left += len(more) - len(kept)
        if waiting and not self.is_strict:
            note(f"not begun: {len(waiting)} more")
        return left == 0

    def failed(self, text: str) -> None:
        note(text)
        self.status = self.status or int(self.is_strict)

    def begin(self, job: Job) -> None:
        if job.kind == "compared" or job.line in self.compared:
            told, tells = os.pipe()
            pid = os.fork()
            if not pid:
                self.by_itself(job, tells)
            os.close(tells)
            self.running[pid] = job, told
            return
        if job.kind == "erased":
            self.place.add(f"erasing {job.line}")
        if job.kind == "copied":
            self.place.times.tell(f"copying {job.line}")
        try:
            self.running[spawn(job.words)] = job, -1
        except OSError as error:
            self.failed(f"not {job.kind} {job.line}: {error.strerror}: {shlex.join(job.words)}")

    def by_itself(self, job: Job, tells: int) -> NoReturn:
        """In a process of its own: compares a copy with its source; or looks once more whether the source is as it was
        then, and becomes the command that removes it."""
        for it in (signal.SIGINT, signal.SIGTERM, signal.SIGPIPE):
            signal.signal(it, signal.SIG_DFL)
        try:
            if job.kind == "compared":
                os.write(tells, compare(job.words[0], job.words[1]).encode())
                os._exit(0)
            check_since(*self.compared[job.line])
            self.place.add(f"erasing {job.line}")
            os.dup2(os.open(os.devnull, os.O_RDONLY), 0)
            os.execvp(job.words[0], job.words)
        except Wrong as wrong:
            note(f"not {job.kind} {job.line}: {wrong}")
            os.write(tells, NO)
        except OSError as error:
            note(f"not {job.kind} {job.line}: {error.strerror}: {shlex.join(job.words)}")
        finally:
            os._exit(1)

    def ends_well(self, job: Job, told: int, code: int) -> bool:
        """Whether what ended counts: its disks are still as they should be, and its status is 0. A copy that fails
        --verify, or is not as its source, counts no more. Then nothing more begins."""
        said = b""
        if told >= 0:
            said = os.read(told, BUFFER)
            os.close(told)
        if not self.guarded(*job.disks):
            return False
        if code and said != NO:
            self.failed(f"not {job.kind} {job.line}: status {code}: {shlex.join(job.words)}")
        if code and (said == NO or job.kind in LOOKS):
            call(self.hook, "failed", f"{self.name}: not {job.kind} {job.line}")
            self.place.add(f"not copied {job.line}", f"not erasing {job.line}")
        if job.kind == "compared":
            self.compared[job.line] = job.words[0], said.decode()
        if code and told >= 0:
            self.status = self.status or 1
        return not code

    def keep(self, jobs: Sequence[Job]) -> list[Job]:
        """Keeps those of these that ended well and whose disks have what they wrote."""
        if not self.handles.keys() >= {it.disk() for it in jobs if it.kind not in LOOKS}:
            os.sync()
        kept = [it for it in jobs if it.kind in LOOKS or self.reached(it.disk())]
        if lines := [f"{it.kind} {it.line}" for it in kept if it.kind not in LOOKS]:
            self.place.add(*lines)
            self.place.times.tell(*lines)
        return kept

    def reached(self, disk: str) -> bool:
        """Whether all that was written to a disk reached it. A copy ends with status 0 before that, and what is read is
        memory."""
        if disk in self.handles and disk not in self.broken and LIBC.syncfs(self.handles[disk]):
            note(f"what was written to disk {disk} did not reach it: {os.strerror(ctypes.get_errno())}. Unmount it, "
                 "check it and mount it again first")
            self.broken.add(disk)
            self.status = self.status or 1
        return disk not in self.broken

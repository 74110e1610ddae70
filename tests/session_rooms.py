"""What the tests of the program share: an empty folder with the program in it, what a run of it gave, and what is counted."""
import contextlib, os, resource, select, shutil, signal, subprocess, sys, tempfile, time
from waiting import LIMIT, ended, in_vain

TOP = os.path.dirname(os.path.dirname(os.path.realpath(__file__)))
NOBODY = 65534
ENV = {"PATH": "/usr/local/bin:/usr/bin:/bin", "LANG": "C.UTF-8"}
resource.setrlimit(resource.RLIMIT_CORE, (0, 0))

sys.dont_write_bytecode = True
sys.path.insert(0, f"{TOP}/bench")


def page(name):
    with open(f"{TOP}/{name}", encoding="utf-8") as file:
        return file.read()


def in_memory():
    """From now on folders are made in memory, where that can be."""
    if os.access("/dev/shm", os.W_OK | os.X_OK):
        tempfile.tempdir = "/dev/shm"


def bytes_of(path):
    with open(path, "rb", buffering=0) as file:
        return file.read()


# What is run, and where

class Ran:
    """What a run printed, what it said on standard error, and its status."""

    def __init__(self, status, out, err):
        self.status, self.out, self.err = status, out, err

    def __str__(self):
        return f"status {self.status}, printed {self.out[:200]!r}, said {self.err[-200:]!r}"


@contextlib.contextmanager
def as_nobody():
    """What is started meanwhile is nobody's. Root takes nobody's part for so long: a child that gave up being root by itself would have to be a
    copy of this whole process first."""
    os.setgroups([])
    os.setresgid(NOBODY, NOBODY, 0)
    os.setresuid(NOBODY, NOBODY, 0)
    try:
        yield
    finally:
        os.setresuid(0, 0, 0)
        os.setresgid(0, 0, 0)


class Room:
    """An empty folder of a user who is not root, with the program in it as ./migrate."""

    def __init__(self, program):
        self.at = tempfile.mkdtemp(prefix="migrate-session-")
        shutil.copyfile(program, f"{self.at}/migrate")
        os.chmod(f"{self.at}/migrate", 0o755)
        os.chmod(self.at, 0o755)
        self.user = {"user": NOBODY, "group": NOBODY, "extra_groups": []} if os.geteuid() == 0 else {}
        self.own(self.at)

    def __enter__(self):
        return self

    def __exit__(self, *_):
        for folder, _, _ in os.walk(self.at):
            os.chmod(folder, 0o755)
        shutil.rmtree(self.at)

    def own(self, path):
        if self.user:
            os.chown(path, NOBODY, NOBODY, follow_symlinks=False)

    def path(self, name):
        return f"{self.at}/{name}"

    def write(self, name, text, mode=0o644):
        with open(self.path(name), "wb") as file:
            file.write(text if isinstance(text, bytes) else text.encode())
        os.chmod(self.path(name), mode)
        self.own(self.path(name))

    def mkdir(self, name):
        os.mkdir(self.path(name))
        self.own(self.path(name))

    def read(self, name):
        """The bytes of a file; None where it is not there."""
        try:
            return bytes_of(self.path(name))
        except FileNotFoundError:
            return None

    def files(self):
        return {name: self.read(name) for name in os.listdir(self.at) if os.path.isfile(self.path(name))}

    def start(self, words, stdout=subprocess.PIPE, limits=()):
        def prepare():
            signal.signal(signal.SIGXFSZ, signal.SIG_IGN)
            for which, most in limits:
                resource.setrlimit(which, (most, most))

        with as_nobody() if self.user else contextlib.nullcontext():
            return subprocess.Popen(words, cwd=self.at, env=ENV, stdin=subprocess.DEVNULL, stdout=stdout,
                                    stderr=subprocess.PIPE, preexec_fn=prepare if limits else None, start_new_session=True)

    def run(self, *words, **how):
        """Runs ./migrate with these words, or the whole command `words[0]` of a shell where `shell` is set."""
        words = ["/bin/sh", "-c", words[0]] if how.pop("shell", False) else [self.path("migrate"), *words]
        if not how:
            return Spawned(words, self.at, bool(self.user)).ended(words)
        started = self.start(words, **how)
        out, err = ended(started, words)
        return Ran(started.returncode, out or b"", err)


class Spawned:
    """A process with nothing to read, and pipes for what it prints. It takes less than half of the time that `subprocess` needs for one."""

    def __init__(self, words, folder, is_nobodys):
        self.pipes, ends = zip(os.pipe(), os.pipe())
        actions = [(os.POSIX_SPAWN_OPEN, 0, os.devnull, os.O_RDONLY, 0), *((os.POSIX_SPAWN_DUP2, end, n) for n, end in enumerate(ends, 1))]
        here = os.open(".", os.O_PATH)
        os.chdir(folder)
        try:
            with as_nobody() if is_nobodys else contextlib.nullcontext():
                self.id = os.posix_spawn(words[0], words, ENV, file_actions=actions, setsid=True, setsigdef=[signal.SIGPIPE, signal.SIGXFSZ])
        finally:
            os.fchdir(here)
            for it in (here, *ends):
                os.close(it)

    def ended(self, words):
        """What it has printed and its status, once it has ended and nobody prints for it any more."""
        held, left = {it: b"" for it in self.pipes}, set(self.pipes)
        poll, end = select.poll(), time.monotonic() + LIMIT
        for it in left:
            poll.register(it)
        while left:
            found = poll.poll(1000 * max(0, end - time.monotonic()))
            if not found:
                os.killpg(self.id, signal.SIGKILL)
                raise in_vain(f"{words} to end")
            for it, _ in found:
                more = os.read(it, 1 << 16)
                held[it] += more
                if not more:
                    poll.unregister(it)
                    left.remove(it)
                    os.close(it)
        _, status = os.waitpid(self.id, 0)
        return Ran(os.waitstatus_to_exitcode(status), *held.values())


# What is counted

class Count:
    passed = failed = 0
    program = ""

    @classmethod
    def that(cls, name, holds, found=""):
        """Where it doesn't hold, what was found is said; a call that gives it is made only then."""
        if holds:
            cls.passed += 1
            return
        cls.failed += 1
        print(f"FAILED {cls.program}: {name}: {str(found() if callable(found) else found)[:600]}", flush=True)

    @classmethod
    def ended(cls, name, ran, status, out):
        """The run ended with this status and printed just these bytes."""
        out = out if isinstance(out, bytes) else out.encode()
        cls.that(name, (ran.status, ran.out) == (status, out), lambda: f"{ran}; wanted status {status}, printed {out[:200]!r}")

    @classmethod
    def same(cls, name, found, wanted):
        cls.that(name, found == wanted, lambda: f"{str(found)[:200]}; wanted {str(wanted)[:200]}")


def says(ran, *parts):
    """Standard error has each of these, whatever the case of its letters."""
    return all(part.lower() in ran.err.decode(errors="replace").lower() for part in parts)

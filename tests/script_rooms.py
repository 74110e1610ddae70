"""What the tests of the repository's scripts share: a copy of a part of it, with stand-ins for the commands that its scripts call."""
import os, shutil, subprocess, sys
from session_rooms import TOP, Count, Ran, Room, says
from waiting import ended

PROGRAM = os.path.realpath(sys.argv[1])
SYSTEM = "/usr/local/sbin:/usr/sbin:/usr/bin:/sbin:/bin"
COMMANDS = "ar awk bash cat cc chmod cmp cp dirname find grep head install mkdir mktemp mv readlink realpath rm sed sh sha256sum sort touch uname xargs".split()
EXAMPLE = [f"examples/{it}.csv" for it in ("disks", "now", "next")]
MAIN, BUILT = "crates/migrate/src/main.rt", "built/migrate"
RT = """#!/bin/sh
echo "$1" >>"$KIT/calls"
case $1 in
    all) eval "$BUILDING"; test -z "$FAILING" || { echo "error: not proved"; exit 1; };;
    run) mkdir -p out && cp "$KIT/program" out/migrate; exit 2;;
esac
"""


class Tree(Room):
    """A copy of parts of the repository, in a folder with blanks in its name, and stand-ins for commands beside it, in kit/, where each
    stand-in may write down its calls."""

    def __init__(self, *parts, as_nobody=False):
        super().__init__(PROGRAM)
        self.user = self.user if as_nobody else {}
        self.top, self.kit = self.path("a clone"), self.path("kit")
        self.mkdir("kit")
        self.stand_in("kit/python3", f'exec {os.path.realpath(sys.executable)} -S "$@"')
        for it in parts:
            copy = shutil.copytree if os.path.isdir(f"{TOP}/{it}") else shutil.copy
            os.makedirs(os.path.dirname(f"{self.top}/{it}"), exist_ok=True)
            copy(f"{TOP}/{it}", f"{self.top}/{it}")

    def stand_in(self, path, text):
        """Puts a script in this place of the room."""
        os.makedirs(os.path.dirname(self.path(path)), exist_ok=True)
        self.write(path, f"#!/bin/sh\n{text}\n", 0o755)

    def change(self, name, at=10):
        """Changes one byte of a file."""
        with open(f"{self.top}/{name}", "r+b") as file:
            byte = os.pread(file.fileno(), 1, at)[0]
            os.pwrite(file.fileno(), bytes([byte ^ 1]), at)

    def remove(self, name):
        os.remove(f"{self.top}/{name}")

    def keep(self):
        """Keeps the copy and the kit as they are, for `restore`."""
        self.mkdir("kept")
        subprocess.run(["cp", "-a", self.top, self.kit, self.path("kept")], check=True)

    def restore(self):
        for it in (self.top, self.kit):
            shutil.rmtree(it)
            subprocess.run(["cp", "-a", f"{self.path('kept')}/{os.path.basename(it)}", self.at], check=True)

    def begin(self, *words, kit=True, cwd=None, **env):
        env = {"PATH": f"{self.kit}:{SYSTEM}" if kit else SYSTEM, "KIT": self.kit, "TOP": self.top, "LANG": "C.UTF-8", "TMPDIR": self.at, **env}
        words = [os.path.join(self.top, words[0]), *words[1:]]
        return subprocess.Popen(words, cwd=cwd or self.top, env=env, stdin=subprocess.DEVNULL, stdout=subprocess.PIPE, stderr=subprocess.PIPE,
                                start_new_session=True, **self.user)

    def run(self, *words, **how):
        begun = self.begin(*words, **how)
        out, err = ended(begun, words[0])
        return Ran(begun.returncode, out, err)

    def without(self, *names):
        """A path with the commands that scripts call but for these."""
        to = self.path(f"without {' '.join(names)}")
        os.mkdir(to)
        for it in COMMANDS:
            if it not in names:
                os.symlink(shutil.which(it, path=SYSTEM) or "none", f"{to}/{it}")
        return to

    def calls(self):
        """What the stand-ins wrote down since this was last asked."""
        found = (self.read("kit/calls") or b"").decode().splitlines()
        if found:
            os.remove(self.path("kit/calls"))
        return found

    def took(self, name, *calls):
        """These are the calls since they were last asked for."""
        Count.same(f"{name}: the calls of rt", self.calls(), list(calls))


def refused(name, ran, *parts):
    """The script ended with a failing status, and said this on either output."""
    text = (ran.out + ran.err).decode(errors="replace")
    Count.that(name, ran.status != 0 and all(part in text for part in parts), f"{ran}; wanted a failing status and {parts}")


class Clone(Tree):
    """A copy of what `migrate` needs, of a user who is not root; built/migrate was renewed there."""

    def __init__(self, is_renewed=True):
        super().__init__("migrate", "crates.txt", "HANDLES", "built/building", "built/program", "built/check", "built/renew", "examples", "crates/migrate/src",
                         as_nobody=True)
        self.write("kit/rt", RT, 0o755)
        os.rename(self.path("migrate"), f"{self.kit}/program")
        for folder, _, names in os.walk(self.top):
            for it in [folder, *(f"{folder}/{name}" for name in names)]:
                self.own(it)
        if is_renewed:
            Count.ended("built/renew", self.run("built/renew"), 0, "")
            self.took("built/renew", "all", "run")
            shutil.rmtree(f"{self.top}/out")

    def runs(self, name, program, *calls, **how):
        """The script runs this program, after these calls of rt, and after none the next time."""
        Count.ended(f"{name}: it runs", self.run("migrate", "check", *EXAMPLE, "no plan", "cert", **how), 16, "no file no plan\n")
        self.took(name, *calls)
        Count.ended(f"{name}: its place", self.run("built/program", **how), 0, f"{self.top}/{program}\n")
        self.took(f"{name} again")

    def refuses(self, name, part, *calls, command="migrate", **how):
        """The script runs no program, and says this."""
        ran = self.run(command, **how)
        Count.ended(name, ran, 70, "")
        Count.that(f"{name}: it is said", says(ran, part), ran)
        self.took(name, *calls)

"""What the tests of contrib/ share: a folder with the program, the commands and stand-ins for the tools; the recorded
outputs, read here for themselves; what is counted."""
import collections, csv, functools, json, os, re, shlex, shutil, subprocess, sys, tempfile
import server
from ceph_model import exceptions_in, groups_in
from limits_model import Case, misses, plan_text, shifts_of
from waiting import LIMIT

HERE = os.path.dirname(os.path.realpath(__file__))
TOP = os.path.dirname(os.path.dirname(HERE))
SAMPLES = f"{TOP}/contrib/samples"
SCRIPTS = list(server.COMMANDS)
FILES = ["disks.csv", "now.csv", "next.csv"]
PROGRAM = os.path.realpath(sys.argv[1] if len(sys.argv) > 1 else f"{TOP}/crates/migrate/out/migrate")
SHARED = os.path.join(tempfile.gettempdir(), f"migrate-contrib-{os.getpid()}")  # what server.py makes

# a command that is to a shell what its words are: no file is named that is one of this process
PLAIN = re.compile(r"(?!.*/(?:dev|proc)/)(?=\./|(?:alone|contrib)/|(?:ceph|cp|diff|mkdir|rm|sh) )"
                   r"(?:[\w@%+=:,./ -]|'[^']*')+", re.S)


def page(name):
    with open(f"{TOP}/{name}", encoding="utf-8") as file:
        return file.read()


class Count:
    passed = failed = 0

    @classmethod
    def that(cls, name, holds, found=""):
        if holds:
            cls.passed += 1
        else:
            cls.failed += 1
            print(f"FAILED {name}: {str(found)[:1500]}", flush=True)
        return holds

    @classmethod
    def same(cls, name, found, wanted):
        return cls.that(name, found == wanted, f"{str(found)[:600]}; wanted {str(wanted)[:600]}")


that, same = Count.that, Count.same


@functools.cache
def states():
    """What the stand-ins begin with, as it was recorded."""
    raw = {it: chosen for it, (chosen, _) in groups_in(page("contrib/samples/ceph/before")).items()}
    ceph = {"raw": raw, "balancer": False, "pairs": exceptions_in(page("contrib/samples/ceph/dump")), "acting": {},
            "late": {}, "dropped": ""}
    lvm = {"devices": sizes_of(), "volumes": volumes_of(), "moving": {}}
    return ("lvm", json.dumps(lvm)), ("ceph", json.dumps(ceph))


class Room:
    """A folder with the program, the commands, the examples and stand-ins for the tools. What is below `contrib` runs
    in a warm interpreter, and what is below `alone` by itself."""

    def __init__(self):
        self.at = tempfile.mkdtemp(prefix="migrate-contrib-")
        for name, to in (("migrate", PROGRAM), ("contrib", f"{SHARED}/contrib"), ("alone", f"{SHARED}/alone")):
            os.symlink(to, self.path(name))
        shutil.copytree(f"{TOP}/examples", self.path("examples"))
        os.mkdir(self.path("bin"))
        os.mkdir(self.path("state"))
        # the standard library alone, which takes less time
        self.write("bin/python3", f'#!/bin/sh\nexec {os.path.realpath(sys.executable)} -S "$@"\n')
        os.chmod(self.path("bin/python3"), 0o755)
        for name in server.STAND_INS:
            os.symlink(f"{SHARED}/tools/{name}", self.path(f"bin/{name}"))
        for name in ("mount", "umount", "mountpoint"):
            os.symlink(f"{HERE}/stand-in-mount", self.path(f"bin/{name}"))
        for name, text in states():
            self.write(f"state/{name}.json", text)
        self.env = {**os.environ, "PATH": f"{self.path('bin')}:{os.environ['PATH']}", "STAND_IN": self.path("state"),
                    "PAUSE": "0", "COLUMNS": "200", "LANG": "C.UTF-8", "LVM_SUPPRESS_FD_WARNINGS": "1"}

    def __enter__(self):
        return self

    def __exit__(self, *_):
        shutil.rmtree(self.at)

    def path(self, name):
        return f"{self.at}/{name}"

    def write(self, name, text):
        with open(self.path(name), "wb") as file:
            file.write(text if isinstance(text, bytes) else text.encode())

    def keep(self, name, value):
        self.write(name, json.dumps(value))

    def read(self, name):
        try:
            with open(self.path(name), "rb") as file:
                return file.read().decode(errors="replace")
        except FileNotFoundError:
            return None

    def rows(self, name):
        return rows_of(self.read(name))

    def shifts(self, name="plan.txt"):
        return shifts_of(self.read(name))

    def state(self, name):
        return json.loads(self.read(f"state/{name}"))

    def files(self):
        """Each file below the folder beside the fixed ones, with its bytes."""
        found = {}
        for folder, inner, names in os.walk(self.at):
            inner[:] = [it for it in inner if it not in ("bin", "state", "examples")]
            for path in (f"{folder}/{it}" for it in names if it != "migrate" and os.path.exists(f"{folder}/{it}")):
                with open(path, "rb") as file:
                    found[os.path.relpath(path, self.at)] = file.read()
        return found

    def run(self, command):
        """Runs a command of a shell; without one, where all that it has are words."""
        parts = command.split(" && ")
        if not all(map(PLAIN.fullmatch, parts)):
            return self.ran(["bash", "-c", command])
        out = err = ""
        for words in map(shlex.split, parts):
            name = words[0].removeprefix("contrib/")
            ran = self.called(name, words) if name in server.READERS else self.ran(words)
            out, err = out + ran.stdout, err + ran.stderr
            if ran.returncode:
                break
        return subprocess.CompletedProcess(command, ran.returncode, out, err)

    def ran(self, words):
        return subprocess.run(words, cwd=self.at, env=self.env, stdin=subprocess.DEVNULL, capture_output=True,
                              text=True, errors="replace", timeout=LIMIT, check=False)

    def called(self, name, words):
        """Runs a command within this process."""
        before = os.getcwd()
        os.chdir(self.at)
        try:
            texts, status = server.said(server.MAINS[name], words, self.env)
        finally:
            os.chdir(before)
        return subprocess.CompletedProcess(words, status, *(it.decode(errors="replace") for it in texts))

    def begin(self, command, **env):
        """Begins a command of a shell, which goes on."""
        return subprocess.Popen(["bash", "-c", command], cwd=self.at, env={**self.env, **env})

    def good(self, name, command):
        """Runs a command that has to succeed, and gives what it printed."""
        ran = self.run(command)
        that(f"{name}: {command}", ran.returncode == 0,
             f"status {ran.returncode}, {ran.stdout[-300:]!r}, {ran.stderr[-600:]!r}")
        return ran.stdout

    def says(self, name, command, *texts, status=0):
        """Runs a command that ends with this status and prints or says each of these texts, and gives the run."""
        ran = self.run(command)
        that(f"{name}: {command}", ran.returncode == status and all(it in ran.stdout + ran.stderr for it in texts),
             (texts, ran))
        return ran

    def example(self):
        """Plans the README's example here."""
        self.good("example", "cp examples/*.csv . && ./migrate plan disks.csv now.csv next.csv plan.txt cert.txt")

    def planned(self, name):
        """Plans, checks and follows the three files; gives the last layout: item, disk and slot. A plan for two limits
        of each disk is always optimal, and counted again by limits_model.py."""
        case = Case(self.read)
        self.good(name, "./migrate plan disks.csv now.csv next.csv plan.txt cert.txt")
        verdict = self.good(name, "./migrate check disks.csv now.csv next.csv plan.txt cert.txt")
        that(f"{name}: the verdict", verdict == "optimal\n" or verdict == "bounded\n" and not case.is_split, verdict)
        if case.is_split:
            same(f"{name}: what the plan misses", misses(case, self.read("plan.txt"), self.read("cert.txt")), {})
        last = self.good(name, "./migrate after disks.csv now.csv next.csv plan.txt")
        return {item: (disk, int(slot)) for item, disk, slot in list(csv.reader(last.splitlines()))[1:]}

    def planned_tight(self, name):
        """Plans and follows the three files where space is tight; gives the last layout, in which each item is on its
        next disk."""
        self.good(name, "./migrate plan-tight disks.csv now.csv next.csv plan.txt")
        last = self.good(name, "./migrate after-tight disks.csv now.csv next.csv plan.txt")
        found = {item: (disk, int(slot)) for item, disk, slot in list(csv.reader(last.splitlines()))[1:]}
        same(f"{name}: each is on its next disk", {item: disk for item, (disk, _) in found.items()},
             dict(self.rows("next.csv")))
        return found


# The recorded outputs, read here for themselves

def sizes_of(name="pvs.json"):
    with open(f"{SAMPLES}/lvm/{name}", encoding="ascii") as file:
        return {row["pv_name"]: int(row["pv_pe_count"]) for row in json.load(file)["report"][0]["pv"]}


def volumes_of(report="lvs.json"):
    """Each volume's extents in the order of its data, device and number: of a report, or of a recorded one. Those of
    volumes over volumes are none."""
    if isinstance(report, str):
        with open(f"{SAMPLES}/lvm/{report}", encoding="ascii") as file:
            report = json.load(file)
    volumes = collections.defaultdict(list)
    for row in report["report"][0]["seg"]:
        ranges = re.findall(r"(/\S+):(\d+)-(\d+)", row["seg_pe_ranges"])
        for at in zip(*(range(int(first), int(last) + 1) for _, first, last in ranges)):
            volumes[row["lv_name"].strip("[]")] += [[device, extent] for (device, _, _), extent in zip(ranges, at)]
    return volumes


def rows_of(text):
    return list(csv.reader(text.splitlines()))[1:]


def cases(text):
    """The rows of a table of cases, whose fields stand apart by ' | '; a field of digits is a number."""
    rows = (re.split(r"(?<= )\|(?= )", f" {line.strip()} ") for line in text.strip("\n").split("\n"))
    return [[int(it) if it.strip().isdecimal() else re.sub(" +", " ", it.strip()) for it in row] for row in rows]


def all_refused(room, name, command, path, rows):
    """The command refuses each of these texts of a file: a row has what it is, the text, and what is said."""
    for what, text, said in rows:
        room.write(path, text)
        refused(room, f"{name}, {what}", command, said)


def wrong(work, *words):
    """The sentence of what is wrong by a function of the package; empty where nothing is."""
    try:
        work(*words)
        return ""
    except sys.modules["migrate_tools.command"].Wrong as why:
        return str(why)


def plan_of(*rounds):
    """The text of a plan: each round has its shifts, apart by commas."""
    return plan_text([[it.split() for it in shifts.split(", ")] if shifts else [] for shifts in rounds])


def refused(room, name, command, said, status=1):
    """The command fails with a sentence that has this, and no file is there that was not, or is another."""
    before = room.files()
    ran = room.run(command)
    that(f"{name}: {command}", ran.returncode == status and said in ran.stderr and "Traceback" not in ran.stderr
         and not ran.stdout, f"status {ran.returncode}, {ran.stdout[-200:]!r}, {ran.stderr[-700:]!r}; wanted {said!r}")
    after = room.files()
    that(f"{name}: no file", after == before, set(after) ^ set(before))

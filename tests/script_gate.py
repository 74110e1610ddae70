"""The gate: what .ci/run and tests/all make of each thing that they start, where it passes, fails, says nothing or is gone."""
import os, re
from script_rooms import Tree, refused
from session_rooms import TOP, Count

PROGRAM, LIBRARY = "crates/migrate/out/migrate", "crates/mig_c/out/libmig_c.a"
SUITES = ["session", "damage", "power", "contrib", "script", "library", "pages"]
TOOLS = ["audit"]


# .ci/run

RT = """
case $1 in
    ci) find . >"$KIT/found"; at=crates/migrate/out/; names="$CI_LEAVES"; status=0;;
    run) at=out/; names="$RUN_LEAVES"; status=2;;
esac
mkdir -p $at
for name in $names; do touch $at$name; chmod +x $at$name; done
eval "$THEN"
exit $status"""


class Gate(Tree):
    """The gate over stand-ins for all that it calls. Each writes down its words; the one that FAILING names does nothing and ends with 3."""
    LINES = ["rt ci", "tests/audit --check", "mypy --strict contrib/migrate_tools", f"built/check {PROGRAM}", f"lib/build {LIBRARY}", f"lib/check {LIBRARY}", f"tests/all {PROGRAM} {PROGRAM}.by-rattle"]

    def __init__(self):
        super().__init__(".ci/run")
        os.makedirs(f"{self.top}/crates/migrate")
        own = 'echo "$NAME $*" >>"$KIT/calls"; test "$NAME $1" != "$FAILING" || { echo "$NAME fails"; exit 3; }'
        for path, name, then in (
            ("kit/rt", "rt", RT), ("kit/mypy", "mypy", ""),
            *((f"a clone/{it}", it, "") for it in ("tests/audit", "built/check", "lib/build", "lib/check")),
            ("a clone/tests/all", "tests/all", "echo first; echo '7 passed, 0 failed'"),
        ):
            self.stand_in(path, f"NAME={name}; {own}; {then}")

    def lines(self, CI_LEAVES="migrate migrate.by-rattle", **how):
        """How the gate ended, and what it printed, line by line."""
        ran = self.run(".ci/run", CI_LEAVES=CI_LEAVES, **how)
        return ran, ran.out.decode().splitlines()


def took(line, what):
    """The minutes by the clock and of the processors that a line tells."""
    found = re.fullmatch(rf"note: {what} took (\d+\.\d\d) minutes by the clock, (\d+\.\d\d) of processor time", line)
    return [float(it) for it in found.groups()] if found else None


def the_gate_passes():
    with Gate() as gate:
        gate.write("a clone/kept", "not to be touched")
        before = sorted(os.path.relpath(f"{folder}/{name}", gate.top) for folder, folders, names in os.walk(gate.top) for name in folders + names)
        ran, lines = gate.lines(THEN="n=0; while [ $n -lt 600000 ]; do n=$((n + 1)); done")
        Count.that("a gate whose lines pass: status 0, and the last line is that of tests/all", ran.status == 0 and lines[-1:] == ["7 passed, 0 failed"], ran)
        Count.same("a gate whose lines pass: its calls", gate.calls(), gate.LINES)
        Count.same("a gate: nothing is made, moved or removed before rt ci", sorted(os.path.relpath(it, ".") for it in gate.read("kit/found").decode().splitlines())[1:], before)
        Count.that("a gate says what rt ci took, with the processor time of what it starts", lines and took(lines[0], "rt ci") and took(lines[0], "rt ci")[1] > 0, ran)
        Count.that("a gate says what it took, before the line of tests/all", len(lines) > 2 and lines[-3] == "first" and took(lines[-2], "the gate"), ran)
        with open(f"{TOP}/.ci/run", encoding="utf-8") as file:
            Count.that("a gate has a plain line rt ci", "\nrt ci\n" in file.read())
        gate.lines(cwd="/")
        Count.same("a gate from another folder: its calls", gate.calls(), gate.LINES)


def the_gate_fails():
    """Each line in turn fails: nothing after it is called, and its status is that of the gate."""
    with Gate() as gate:
        for number, line in enumerate(gate.LINES):
            ran, lines = gate.lines(FAILING=" ".join(line.split()[:2]))
            if line == "tests/audit --check":
                Count.that(f".ci/run whose line {line} fails: it is noted, and fails nothing", ran.status == 0 and "note: that fails nothing" in lines and lines[-1] == "7 passed, 0 failed", ran)
                Count.same(f".ci/run whose line {line} fails: its calls", gate.calls(), gate.LINES)
                continue
            refused(f".ci/run whose line {line} fails", ran, "FAILED: lib/build" if number == 4 else f"{line.split()[0]} fails")
            Count.same(f".ci/run whose line {line} fails: nothing comes after it", gate.calls(), gate.LINES[: number + 1])
            if number in (0, 6):
                Count.same(f".ci/run whose line {line} fails: its status", ran.status, 3)
        refused(".ci/run whose rt is stopped by a signal", gate.lines(THEN="kill -KILL $$")[0])
        Count.same(".ci/run whose rt is stopped by a signal: nothing comes after it", gate.calls(), ["rt ci"])
    with Gate() as gate:
        refused(".ci/run whose rt leaves no program", gate.lines(CI_LEAVES="")[0], "rt left no program")
        Count.same(".ci/run whose rt leaves no program: nothing comes after it", gate.calls(), [*gate.LINES[:3], "rt run"])
        Count.same(".ci/run whose rt ci leaves no program, and rt run does", gate.lines(CI_LEAVES="", RUN_LEAVES="migrate")[0].status, 0)
        Count.same(".ci/run whose rt ci leaves no program, and rt run does: its calls", gate.calls(), [*gate.LINES[:3], "rt run", *gate.LINES[3:6], f"tests/all {PROGRAM}"])
        os.remove(f"{gate.kit}/mypy")
        Count.same(".ci/run where there is no mypy", gate.lines(PATH=f"{gate.kit}:{gate.without('mypy')}")[0].status, 0)
        Count.same(".ci/run where there is no mypy: its calls", gate.calls(), [*gate.LINES[:2], *gate.LINES[3:]])


# tests/all

class Suites(Tree):
    """tests/all beside stand-ins for the suites. Each writes down its words and passes two checks, or does what THEN_ and its name say."""

    def __init__(self):
        super().__init__("tests/all", "tests/usage.py")
        for it in (*SUITES, *TOOLS):
            self.stand_in(f"a clone/tests/{it}", f'echo "{it} $*" >>"$KIT/calls"; eval "${{THEN_{it}:-echo 2 passed, 0 failed}}"' if it in SUITES else "")
        self.programs = [self.path("migrate"), self.path("migrate.by-rattle")]
        self.write("migrate.by-rattle", "")

    def all(self, **how):
        return self.run("tests/all", *self.programs, **how)


def suites_that_fail():
    with Suites() as suites:
        ran = suites.all()
        Count.that("tests/all whose suites pass", ran.status == 0 and ran.out.endswith(b"\n16 passed, 0 failed\n"), ran)
        wanted = [f"{it} {suites.programs[0]}" for it in SUITES] + [f"session {suites.programs[1]}"]
        Count.same("tests/all: each suite is called, and tests/session with each program", sorted(suites.calls()), sorted(wanted))
        no_line = "FAILED: power migrate ended with status 0, and no line that says how many passed\n"
        for name, then, said, passed in (
            ("ends with status 1", "echo 2 passed, 0 failed; exit 1", "FAILED: power migrate ended with status 1, and 2 passed, 0 failed\n", 16),
            ("says '2 passed, 1 failed'", "echo 2 passed, 1 failed", "\n2 passed, 1 failed\n", 16),
            ("says no such line", "echo all is well", no_line, 14), ("says nothing", ":", no_line, 14),
            ("says more after that line", "echo 2 passed, 0 failed; echo more", no_line, 14),
            ("says '0 passed, 0 failed'", "echo 0 passed, 0 failed", "FAILED: power migrate ended with status 0, and 0 passed, 0 failed\n", 14),
            ("is stopped by a signal", "echo 2 passed, 0 failed; kill -KILL $$", "FAILED: power migrate ended with status -9, and 2 passed, 0 failed\n", 16),
        ):
            refused(f"a suite {name}", suites.all(cwd=suites.at, THEN_power=then), said, f"\n{passed} passed, 1 failed\n")
    with Tree("lib", "tests", "bench") as tree:
        ran = tree.run("tests/library", tree.path("migrate"), PATH=f"{tree.kit}:{tree.without('cc')}")
        Count.that("tests/library without a compiler tries the header", ran.status == 0 and ran.out.endswith(b"\n24 passed, 0 failed\n"), ran)


def suites_without_a_name():
    """A suite that tests/all has no longer, or never had, or that can't be run."""
    with open(f"{TOP}/tests/all", encoding="utf-8") as file:
        text = file.read()
    other = "what can be run in tests/ is not what tests/all names: {}\n"
    with Suites() as suites:
        for it in SUITES:
            suites.write("a clone/tests/all", re.sub(f'"{it}", |, "{it}"(?=])', "", text, count=1), 0o755)
            refused(f"tests/all names tests/{it} no longer", suites.all(), other.format(it))
        suites.write("a clone/tests/all", text, 0o755)
        suites.stand_in("a clone/tests/another", "echo 2 passed, 0 failed")
        refused("tests/all never named tests/another", suites.all(), other.format("another"))
        suites.remove("tests/another")
        os.chmod(f"{suites.top}/tests/damage", 0o644)
        refused("tests/damage can't be run", suites.all(), other.format("damage"))
        suites.remove("tests/damage")
        refused("tests/damage is gone", suites.all(), other.format("damage"))
        Count.same("tests/all with other suites than it names calls none", suites.calls(), [])


CASES = [the_gate_passes, the_gate_fails, suites_that_fail, suites_without_a_name]

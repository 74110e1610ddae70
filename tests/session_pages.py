"""What tests/session follows byte by byte: the sessions of README.md and docs/SESSION.md, the first table of docs/MEASURED.md, and the
example of docs/FORMATS.md. So no page can say what the program doesn't do.

A session is read from its page: in a block of the kind 'console' a line '$ COMMAND', and under it what COMMAND prints."""
import os, re
from session_inputs import AFTER, CERT_TEXT, CHECK, DISKS, LAYOUT_TEXT, PLAN, PLAN_TEXT, SMALL, put
from session_rooms import Count, Room, page
from cases import moves_between
from first_come import of_moves

COMMANDS = ("plan", "check", "after", "fill", "audit", "move", "resume", "halt", "drill", "plan-tight", "move-tight", "after-tight", "drain", "live", "rehearse")
# the session of the README, and that of docs/SESSION.md, which goes on where it ends: each with the commands that it has to show, the files
# that it shows whole, and the other ones that it makes
SESSIONS = [
    ("README.md", ("plan", "check", "fill", "move", "resume", "after", "audit"), ["cert.txt"], ["plan.txt", "later.csv"]),
    ("docs/SESSION.md", COMMANDS, ["plan.txt"],
     ["layout.csv", "back.csv", "back.txt", "back-cert.txt", "there.csv", "layout2.csv", "rest.txt", "rest-cert.txt", "end.csv",
      "tight.csv", "tight.txt", "tight-end.csv", "empty.csv", "out.txt", "out-cert.txt", "script.txt"]),
]


# The sessions

def steps_of(text):
    """The commands of a page, each with what it prints."""
    blocks = re.findall(r"^```console\n(.*?)^```$", text, re.M | re.S)
    steps = [step.partition("\n") for block in blocks for step in re.split(r"^\$ ", block, flags=re.M)[1:]]
    return [(command, printed) for command, _, printed in steps]


def follow(room, name, steps, folder="."):
    """Runs the commands of a page, from this folder on, and gives the one where they end."""
    for command, printed in steps:
        ran = room.run(f"cd {folder} && {command}", shell=True)
        Count.that(f"{name}: {command}", (ran.status, ran.out.decode(errors="replace")) == (0, printed), f"{ran}; the page has {printed!r}")
        folder = os.path.normpath(f"{folder}/{re.fullmatch(r'(?:.* && cd (.*))?.*', command)[1] or '.'}")
    return folder


def the_sessions(program):
    """The sessions, one after the other and byte by byte, in a folder of their own; nothing is made beside it."""
    tables = ("disks.csv", "now.csv", "next.csv")
    disks = [f"{row.split(',')[0]}.disk" for row in page("examples/disks.csv").split("\n")[1:-1]]
    with Room(program) as room:
        room.mkdir("examples")
        for it in tables:
            room.write(f"examples/{it}", page(f"examples/{it}"))
        folder, wanted = ".", {*tables, *disks, "journal.mig"}
        for name, commands, shown, made in SESSIONS:
            steps = steps_of(page(name))
            printed, said = dict(steps).values(), " ".join(command for command, _ in steps)
            for word in commands:
                Count.that(f"a session shows {word}", f"../migrate {word} " in (said if name == "README.md" else page("README.md") + said))
            folder = follow(room, name, steps, folder)
            wanted |= {*shown, *made}
            Count.same(f"{name}: files of the folder", (folder, sorted(os.listdir(room.path(folder)))), ("try", sorted(wanted)))
            Count.same(f"{name}: files beside it", sorted(os.listdir(room.at)), ["examples", "migrate", "try"])
            for it in shown:
                held = (room.read(f"try/{it}") or b"").decode(errors="replace")
                Count.that(f"{name}: {it} is shown as it was saved", held and held in printed, repr(held[:300]))
        for it in tables:
            Count.same(f"{it} stays", (room.read(f"examples/{it}"), room.read(f"try/{it}")), (page(f"examples/{it}").encode(),) * 2)


# The numbers, and the example of the formats

# rounds of plans and of first come, first served that the README names, as docs/MEASURED.md has them
NAMED = ["| 170 | 210 | 173 |", "| 1859 | 2732 | 1883 |", "74,084 in all beside 74,253"]


def the_measured(program):
    """The rounds of docs/MEASURED.md's first table, which `rehearse` and bench/first_come.py count again, and what the README has of it."""
    measured = page("docs/MEASURED.md")
    rows = re.findall(r"^" + r"\| (\d+) " * 8 + r"\| [\d.]+ \| \d+ \|$", measured, re.M)
    Count.that("MEASURED has its cases of one limit", len(rows) == 8, rows)
    with Room(program) as room:
        for disks, per_pair, limit, *wanted in rows:
            told = dict(line.split(" ", 1) for line in room.run("rehearse", disks, per_pair, limit).out.decode().splitlines())
            queues = of_moves(dict.fromkeys(range(int(disks)), int(limit)), moves_between(int(disks), int(per_pair)))
            found = [told.get("quotient"), told.get("bound"), told.get("rounds"), *map(str, queues)]
            Count.same(f"MEASURED: {disks} disks, {per_pair} items, limit {limit}", found, wanted)
    told = page("README.md").partition("measured](docs/MEASURED.md)")
    told = told[0].rpartition("\n\n")[2] + told[2].partition("\n\n")[0]
    for numbers in NAMED:
        Count.that("the README names rounds of MEASURED", numbers in measured and all(f"{int(n):,}" in told for n in re.findall(r"\d+", numbers.replace(",", ""))), numbers)


def the_example_of_formats(program):
    """docs/FORMATS.md shows the small inputs, and the program makes of them what it shows."""
    formats = page("docs/FORMATS.md")
    for text in (*SMALL, PLAN_TEXT, CERT_TEXT, LAYOUT_TEXT):
        Count.that("FORMATS shows the example", f"```\n{text}```" in formats, text)
    with Room(program) as room:
        put(room, DISKS, PLAN_TEXT, CERT_TEXT)
        Count.ended("check of FORMATS' plan", room.run(*CHECK), 0, "optimal\n")
        Count.ended("after of FORMATS' plan", room.run(*AFTER), 0, LAYOUT_TEXT)
        Count.ended("plan for FORMATS' files", room.run(*PLAN), 0, CERT_TEXT)
        Count.same("the certificate is saved as it is printed", room.read("cert.txt"), CERT_TEXT.encode())
        Count.ended("check of its own plan", room.run(*CHECK), 0, "optimal\n")


def the_example_of_the_crates(program):
    """README.md shows the example of the crates, without its contract."""
    source = page("crates/mig_test_mover/src/example.rt").partition("\npub fn ")
    shown = "".join(line for line in (source[1] + source[2])[1:].splitlines(True) if not line.startswith(("    requires", "    ensures")))
    Count.that("README shows the example of the crates", f"```rust\n{shown}```" in page("README.md"), shown)


CASES = [the_sessions, the_example_of_formats]
# the rounds, and the example, are the same for each build of the program
ONCE = [the_measured, the_example_of_the_crates]

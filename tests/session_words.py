"""What tests/session tries with the words of the command line: words that are no listed form (status 2), and the numbers of a rehearsal."""
import itertools, re
from session_cells import digest
from session_hints import tells
from session_inputs import AFTER, AUDIT, CERT_TEXT, CHECK, DISKS, FILES, HALT, LIVE, MOVE, PLAN, PLAN_TEXT, put
from session_rooms import Count, Room, page
from cases import write_case

LONG = "a" * 256
DRAIN = ["drain", *FILES[:2], "left", "next.csv"]
NO_NUMBERS = ["", "64 16", "64 16 2 2", "1 1 1", "1024 0 1", "2 32769 1", "257 1 3", "2 1 0", "2 1 1025", "2 00000000001 1", "+2 1 1", "2 -1 1"]
NO_FORMS = [
    [], ["--help"], ["-h"], ["plann", *PLAN[1:]], ["PLAN", *PLAN[1:]], PLAN[:5], [*PLAN, "more"], [*CHECK, "more"], [*AFTER, "more"], AFTER[:4], [""],
    ["plan", *FILES, LONG, "cert.txt"], ["after", LONG, *FILES[1:], "plan.txt"], ["plan", *FILES, "", "cert.txt"],
    ["plan", *FILES, "a.disk", "cert.txt"], ["plan", *FILES, "plan.txt", "a.mig"], ["check", "a.mig", *CHECK[2:]],
    ["plan", *FILES, "same", "same"], ["plan", *FILES, "now.csv", "cert.txt"], ["plan", *FILES, "plan.txt", "next.csv"],
    HALT[:5], [*HALT, "more"], *([*HALT[:5], layout] for layout in (*FILES, "plan.txt", "a.disk", "a.mig", "", LONG)),
    LIVE[:5], [*LIVE, "more"], *([*LIVE[:5], script] for script in ("a.disk", "a.mig", "", LONG)), ["live-tight", *LIVE[1:]],
    ["plan-tight", *FILES], *(["plan-tight", *FILES, plan] for plan in (*FILES, "a.disk", "a.mig", "", LONG)), ["plan-tight", *FILES, "plan.txt", "cert.txt"],
    ["check-tight", *CHECK[1:]], ["drill-tight", *AFTER[1:]], ["after-tight", *AFTER[1:4]], ["halt-tight", *HALT[1:5], "now.csv"],
    *(["rehearse", *numbers.split()] for numbers in NO_NUMBERS),
    DRAIN[:4], [*DRAIN, "more"], *([*DRAIN[:3], name, "next.csv"] for name in ("", "a b", "a,b", "n" * 33)), *([*DRAIN[:4], word] for word in (*FILES[:2], "a.disk", "a.mig", "", LONG)),
]
# words, and what the reason has, which is the first line of standard error
REASONS = [
    (["plan", *FILES, "same", "same"], ["PLAN", "CERT", "differ"]),
    (["plan", *FILES, LONG, "c"], ["255"]),
    (["plan", *FILES, "p.mig", "c"], [".mig"]),
    ([*HALT[:5], "now.csv"], ["LAYOUT", "differ"]),
]

# words, and how the reason on standard error begins
FIRST_LINES = [
    ([], "no word is given, and a command is wanted"),
    (["plann", *PLAN[1:]], "`plann` is no command; is it `plan`?"),
    (["MOVE", *MOVE[1:]], "`MOVE` is no command; is it `move`?"),
    (["what"], "`what` is no command\n"),
    (PLAN[:5], "`plan` is followed by 5 words, and here by 4: CERT is missing"),
    ([*AUDIT, "--verbose"], "there are no options; `--verbose` is one\n"),
    ([*AUDIT, "more"], "`audit` is followed by 2 words, and here by 3: `more` is too many"),
    (["fill", "disks.csv", ""], "the word for NOW is empty"),
    (["plan", *FILES, "a" * 256, "c"], "the word for PLAN has 256 bytes, and a file's name at most 255"),
    (["plan", *FILES, "a.disk", "c"], "`a.disk`, the word for PLAN, is named as a disk's file or the journal"),
    (["check", "journal.mig", *CHECK[2:]], "`journal.mig`, the word for DISKS, is named as"),
    (["plan", *FILES, "same", "same"], "`same` is the word for PLAN and for CERT, and PLAN is saved: the two must differ"),
    (["plan", *FILES, "p", "next.csv"], "`next.csv` is the word for CERT and for NEXT, and CERT is saved"),
    ([*HALT[:5], "now.csv"], "`now.csv` is the word for LAYOUT and for NOW, and LAYOUT is saved"),
    (["halt-tight", *HALT[1:5], "plan.txt"], "`plan.txt` is the word for LAYOUT and for PLAN, and LAYOUT is saved"),
    (["plan-tight", *FILES, "now.csv"], "`now.csv` is the word for PLAN and for NOW, and PLAN is saved"),
    (["plan-tihgt", *FILES, "p"], "`plan-tihgt` is no command; is it `plan-tight`?"),
    (DRAIN[:4], "`drain` is followed by 4 words, and here by 3: NEXT is missing"),
    ([*DRAIN[:4], "now.csv"], "`now.csv` is the word for NEXT and for NOW, and NEXT is saved"),
    ([*DRAIN[:3], "a b", "next.csv"], "byte 2 of `a b`, the name of the disk, is a blank"),
    ([*DRAIN[:3], "", "next.csv"], "the name of the disk is empty"),
    (["move-tight", *FILES], "`move-tight` is followed by 4 words, and here by 3: PLAN is missing"),
    (LIVE[:5], "`live` is followed by 5 words, and here by 4: SCRIPT is missing"),
    (["rehearse", "1", "1", "1"], "N is 1, and must be 2 to 1024"),
    (["rehearse", "2", "1", "0"], "LIMIT is 0, and must be 1 to 1024"),
    (["rehearse", "+2", "1", "1"], "N is `+2`, and must be 1 to 10 digits"),
    (["rehearse", "257", "1", "3"], "N times N - 1 times PERPAIR is 65792, and must be 1 to 65536"),
    (["paln", *FILES], "`paln` is no command; is it `plan`?\n"),
    (["--help"], "`--help` is no command, and there are no options\n"),
    (["plan", "-v", *PLAN[1:]], "there are no options; `-v` is one\n"),
    (["rehearse", "64", "16"], "`rehearse` is followed by 3 words, and here by 2: LIMIT is missing"),
]


def says_forms(ran, forms):
    """Standard error has a line for each form, and no other command's."""
    said = re.findall(r"^  migrate ([a-z-]+(?: [A-Z]+)+)  ", ran.err.decode(errors="replace"), re.M)
    return said == forms


def no_forms(program):
    """Status 2, in an empty folder and beside the three files. Nothing is loaded, so no missing file is told; nothing is saved."""
    forms = re.findall(r"^    ([a-z-]+(?: [A-Z]+)+)$", page("docs/FORMATS.md"), re.M)
    for files in ([], DISKS):
        with Room(program) as room:
            put(room, files)
            before = room.files()
            for case in NO_FORMS:
                ran = room.run(*case)
                Count.ended(f"words {case}", ran, 2, "words not understood\n")
                Count.that(f"words {case}: the forms are said", len(forms) == 17 and says_forms(ran, forms), ran)
            ran = room.run(*PLAN[:5], b"\xff")
            Count.ended("a word that is not UTF-8", ran, 2, "")
            Count.same("wrong words change no file", room.files(), before)


def the_rows(program):
    """Each row that describes a command is read as it stands: with as many words, no fewer and no more. A word that is only saved
    stands alone among those of files, and of the others two may be the same."""
    rows = re.findall(r'^    "([a-z-]+)"((?: [A-Z]+)*) =>((?: [A-Z]+)*): ', page("crates/mig_words/src/words.rt"), re.M)
    Count.same("the rows", len(rows), 17)
    with Room(program) as room:
        is_read = lambda *words: room.run(*words).status != 2
        for command, read, saved in rows:
            roles = f"{read}{saved}".split()
            words = ["2", "1", "1"] if command == "rehearse" else [it.lower() for it in roles]
            Count.that(f"{command} is read", is_read(command, *words))
            Count.that(f"{command} with a word too few", not is_read(command, *words[:-1]))
            Count.that(f"{command} with a word too many", not is_read(command, *words, "more"))
            for one, other in itertools.combinations(() if command == "rehearse" else roles, 2):
                alone = {one, other} & {*saved.split()} and "NAME" not in (one, other)
                same = [other.lower() if it == one else word for it, word in zip(roles, words)]
                Count.same(f"{command} whose {one} is its {other}", is_read(command, *same), not alone)


def reasons(program):
    """Status 2 comes with a reason on standard error."""
    with Room(program) as room:
        put(room, DISKS)
        for case, parts in REASONS:
            ran = room.run(*case)
            first = ran.err.decode(errors="replace").split("\n")[0]
            Count.that(f"words {case}: the reason is said", all(part in first for part in parts), ran)


def first_lines(program):
    """The reason comes first, and then the forms."""
    with Room(program) as room:
        put(room, DISKS, PLAN_TEXT, CERT_TEXT)
        for words, reason in FIRST_LINES:
            ran = room.run(*words)
            tells(f"{words}", ran, 2, "words not understood\n", [reason, "\nThe commands:\n  migrate plan "])
            Count.that(f"{words}: the reason comes first", ran.err.decode().split("\n")[0].startswith(f"migrate: {reason}".rstrip("\n")), ran)


def rehearsals(program):
    """Each line of a rehearsal. Its digest is that of the plan which is saved for the same case, written as three files."""
    # disks, items for each pair and limit; moves, quotient, rounds and the bound's value
    table = [((16, 8, 2), 1920, 120, 120, 120), ((3, 100, 1), 600, 400, 600, 600), ((2, 1, 1), 2, 2, 2, 2), ((4, 6, 6), 72, 6, 6, 6)]
    for numbers, moves, quotient, rounds, bound in table:
        with Room(program) as room:
            write_case(room.at, *numbers)
            Count.same(f"plan of {numbers}", room.run(*PLAN).status, 0)
            kept = room.files()
            text = f"disks {numbers[0]}\nitems {moves}\nmoves {moves}\nquotient {quotient}\nrounds {rounds}\nbound {bound}\nverdict optimal\n"
            plan = f"plan {digest(room.read('plan.txt') or b'')}\n"
            Count.ended(f"rehearse {numbers}", room.run("rehearse", *map(str, numbers)), 0, text + plan)
            Count.same("a rehearsal changes no file", room.files(), kept)


CASES = [no_forms, the_rows, reasons, first_lines, rehearsals]

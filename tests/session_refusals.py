"""What tests/session tries with the texts of the files that are loaded: each refusal of the three files (status 3), each line of a text
that doesn't fit (status 10), and each blame of a plan or a certificate (status 1). What is printed is looked up in docs/FORMATS.md."""
import re
from session_inputs import AFTER, CERT_TEXT, CHECK, DISKS, FIRST, HEAD, LAYOUT_TEXT, PLAN, PLAN_TEXT, SECOND, SMALL, put
from session_rooms import Count, Room, page

disks, now, next_ = SMALL
MORE = "item,disk,slot\nmail,ssd,0\nweb,ssd,1\nold,hdd,0\n"
# the three files, and what is printed
CAUSES = [
    ("", now, next_, "refused disks row 0: bad header"),
    (disks.replace(",", ";"), now, next_, "refused disks row 0: bad header"),
    (disks.replace("ssd,2,4", "ssd,2"), now, next_, "refused disks row 1: bad width"),
    (disks.replace("ssd,2", "my disk,2"), now, next_, "refused disks row 1: bad name"),
    (disks.replace("2,4", "two,4"), now, next_, "refused disks row 1: bad number"),
    (disks.replace("2,4", ",4"), now, next_, "refused disks row 1: bad number"),
    (disks.replace("2,4", "12345678901,4"), now, next_, "refused disks row 1: bad number"),
    (disks.replace("2,4", "0,4"), now, next_, "refused disks row 1: out of range"),
    (disks.replace("2,4", "1025,4"), now, next_, "refused disks row 1: out of range"),
    (disks + "ssd,1,1\n", now, next_, "refused disks row 3: disk listed twice"),
    (disks, now + "mail,hdd,0\n", next_, "refused now row 3: item listed twice"),
    (disks, now.replace("mail,ssd", "mail,SSD"), next_, "refused now row 1: unknown disk"),
    (disks, now.replace("ssd,0", "ssd,4"), next_, "refused now row 1: slot too high"),
    (disks, now.replace("ssd,1", "ssd,0"), next_, "refused now row 2: slot taken"),
    ("disk,limit,slots\n" + "".join(f"d{i},1,1\n" for i in range(1025)), now, next_, "refused disks row 1025: too many rows"),
    (disks, now + "\n" * (1 << 24), next_, "refused now row 0: file too long"),
    (disks, now, next_ + "ftp,hdd\n", "refused next row 3: item not in now"),
    (disks, now, next_.replace("web,ssd\n", ""), "refused now row 2: item not in next"),
    (disks.replace("ssd,2,4", "ssd,2,2"), MORE, next_ + "old,ssd\n", "refused disks row 1: no room on ssd, needs 3, has 2"),
]


def refusals(program):
    """Status 3: each cause, by the example that docs/FORMATS.md has of it."""
    formats = page("docs/FORMATS.md")
    for *files, text in CAUSES:
        Count.that(f"FORMATS has `{text}`", f"`{text}`" in formats)
        with Room(program) as room:
            put(room, files)
            before = room.files()
            Count.ended(text, room.run(*PLAN), 3, text + "\n")
            Count.same(f"{text}: nothing is saved", room.files(), before)


def spreadsheets(program):
    """What a spreadsheet saves is read: a mark, CR LF and quotes; and what it should not save is refused: UTF-16."""
    with Room(program) as room:
        put(room, ["\ufeff" + re.sub(r"\w+", r'"\g<0>"', text).replace("\n", "\r\n") for text in DISKS], PLAN_TEXT, CERT_TEXT)
        Count.ended("a mark, CR LF and quotes", room.run(*CHECK), 0, "optimal\n")
        room.write("disks.csv", DISKS[0].encode("utf-16"))
        Count.ended("UTF-16", room.run(*PLAN), 3, "refused disks row 0: bad header\n")


def texts(program):
    """Status 10: the lines that docs/FORMATS.md tells."""
    cut = PLAN_TEXT.index(" 2\np")
    plans = [("", 1), (PLAN_TEXT[:cut], 3), (PLAN_TEXT.replace("round 1 2", "round 01 2"), 3), (PLAN_TEXT.replace("r left", "s left"), 7),
             (PLAN_TEXT[:-1], 9), (PLAN_TEXT + "\n", 10), (PLAN_TEXT + "x" * (1 << 24), 0)]
    with Room(program) as room:
        for text, line in plans:
            put(room, DISKS, text, CERT_TEXT)
            Count.ended(f"check of {text[-30:]!r}", room.run(*CHECK), 10, f"refused plan line {line}\n")
            Count.ended(f"after of {text[-30:]!r}", room.run(*AFTER), 10, f"refused plan line {line}\n")
        put(room, DISKS, PLAN_TEXT, CERT_TEXT.replace("3 2 2", "3 3 2"))
        Count.ended("a limit that is another", room.run(*CHECK), 10, "refused certificate line 5\n")


# the plan and the certificate, each changed or as it is, and the blame
BLAMES = [
    (HEAD + "round 1 0\nround 2 0\nend\n", None, "empty round 1"),
    (PLAN_TEXT.replace("q left 1", "q left 2"), None, "not here round 1 item q"),
    (HEAD.replace("2", "1") + "round 1 2\np left 0 right 0\np left 0 right 1\nend\n", None, "twice in round 1 item p"),
    (PLAN_TEXT.replace("right 1", "right 0"), None, "slot not free round 1 item q"),
    (PLAN_TEXT.replace("right 2", "right 4"), None, "slot not free round 2 item r"),
    (HEAD + "round 1 3\np left 0 right 0\nq left 1 right 1\nr left 2 right 2\nround 2 0\nend\n", None, "over limit round 1 disk left count 3"),
    (HEAD.replace("2", "1") + FIRST + "end\n", None, "wrong end item r"),
    (HEAD.replace("rounds 2", "rounds 3") + FIRST + SECOND + "round 3 1\np right 0 right 3\nend\n", None, "moved too often item p count 2"),
    (None, CERT_TEXT.replace("rounds 2", "rounds 3"), "rounds differ kept 3 counted 2"),
    (None, CERT_TEXT.replace("quotient 2", "quotient 1"), "quotient differs kept 1 counted 2"),
    (None, CERT_TEXT.replace("even", "general"), "class differs"),
    (None, CERT_TEXT.replace("3 2 2", "2 2 2"), "load differs kept 2 counted 3"),
    (None, CERT_TEXT.replace("3 2 2", "3 2 3"), "value differs kept 3 counted 2"),
]


def has_form(formats, blame):
    """Whether a row of docs/FORMATS.md's table of blames has the form of this one: its words in capitals stand for names and numbers."""
    rows = re.findall(r"^\| `([a-z ]+ [A-Z][^`]*|class differs)` \|", formats[formats.index("### The blames"):], re.M)
    return any(re.fullmatch(re.sub(r"[A-Z]+", r"\\w+", row), blame) for row in rows)


def blames(program):
    """Status 1: each blame, by one change of docs/FORMATS.md's plan or certificate. `after` tells the first six alone, or else the layout."""
    formats = page("docs/FORMATS.md")
    with Room(program) as room:
        for plan, cert, text in BLAMES:
            put(room, DISKS, plan or PLAN_TEXT, cert or CERT_TEXT)
            wanted = text if has_form(formats, text) else "a text of docs/FORMATS.md's table"
            Count.ended(f"check: {text}", room.run(*CHECK), 1, wanted + "\n")
            if text.startswith("moved"):
                Count.ended(f"after: {text}", room.run(*AFTER), 0, LAYOUT_TEXT.replace("p,right,0", "p,right,3"))
            elif plan:
                Count.ended(f"after: {text}", room.run(*AFTER), 1, text + "\n")
            else:
                Count.ended(f"after: {text}", room.run(*AFTER), 0, LAYOUT_TEXT)


CASES = [refusals, spreadsheets, texts, blames]

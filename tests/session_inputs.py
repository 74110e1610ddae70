"""What the tests of the program hand to it: the words of its commands, and small and large inputs."""

FILES = ["disks.csv", "now.csv", "next.csv"]
PLAN = ["plan", *FILES, "plan.txt", "cert.txt"]
CHECK = ["check", *FILES, "plan.txt", "cert.txt"]
AFTER = ["after", *FILES, "plan.txt"]
FILL, AUDIT = ["fill", *FILES[:2]], ["audit", *FILES[:2]]
MOVE, RESUME = ["move", *FILES, "plan.txt"], ["resume", *FILES, "plan.txt"]
DRILL = ["drill", *FILES, "plan.txt"]
HALT = ["halt", *FILES, "plan.txt", "layout.csv"]
LIVE = ["live", *FILES, "plan.txt", "script.txt"]

# docs/FORMATS.md's example of the three files, and that of the two texts
SMALL = ["disk,limit,slots\nssd,2,4\nhdd,1,8\n", "item,disk,slot\nmail,ssd,0\nweb,ssd,1\n", "item,disk\nmail,hdd\nweb,ssd\n"]
DISKS = ["disk,limit,slots\nleft,2,4\nright,2,4\n", "item,disk,slot\np,left,0\nq,left,1\nr,left,2\n", "item,disk\np,right\nq,right\nr,right\n"]
HEAD = "migration-plan 1\nrounds 2\n"
FIRST, SECOND = "round 1 2\np left 0 right 0\nq left 1 right 1\n", "round 2 1\nr left 2 right 2\n"
PLAN_TEXT = f"{HEAD}{FIRST}{SECOND}end\n"
CERT_TEXT = "migration-certificate 1\nrounds 2\nquotient 2\nclass even\nbound disk left 3 2 2\nend\n"
LAYOUT_TEXT = "item,disk,slot\np,right,0\nq,right,1\nr,right,2\n"
HALF_TEXT = "item,disk,slot\np,right,0\nq,right,1\nr,left,2\n"
# its example of certificate text 2: the same three items go from left, whose outgoing limit is 2, to right, whose incoming limit is 1
APART = ["disk,out,in,slots\nleft,2,2,4\nright,2,1,4\n", *DISKS[1:]]
THREE = "migration-plan 1\nrounds 3\nround 1 1\np left 0 right 0\nround 2 1\nq left 1 right 1\nround 3 1\nr left 2 right 2\nend\n"
AT_ONCE = "migration-plan 1\nrounds 1\nround 1 3\np left 0 right 0\nq left 1 right 1\nr left 2 right 2\nend\n"
TEXT_2 = "migration-certificate 2\nrounds 3\nquotient 3\nclass duplex\nbound side right in 3 1 3\nend\n"


def put(room, files, plan=None, cert=None):
    for name, text in zip([*FILES, "plan.txt", "cert.txt"], [*files, plan, cert]):
        if text is not None:
            room.write(name, text)


def many(count):
    """So many items that go from one disk to another, two in each round."""
    names = [f"item{i}" for i in range(count)]
    return [f"disk,limit,slots\na,2,{count}\nb,2,{count}\n",
            "item,disk,slot\n" + "".join(f"{name},a,{i}\n" for i, name in enumerate(names)),
            "item,disk\n" + "".join(f"{name},b\n" for name in names)]


def many_saved(count):
    """The certificate of their plan, and their last layout."""
    cert = f"migration-certificate 1\nrounds {count // 2}\nquotient {count // 2}\nclass even\nbound disk a {count} 2 {count // 2}\nend\n"
    return cert, "item,disk,slot\n" + "".join(f"item{i},b,{i}\n" for i in range(count))


# Small clusters, plans and certificates by their rows

def cluster(disks, items):
    """The three files of a cluster. An item is its name and its spot, and where it goes its target, as in `x a 0 b`; what
    follows is not read."""
    rows = [it.split() for it in items.split(", ") if it]
    head = "disk,out,in,slots" if disks.split(" ")[0].count(",") == 3 else "disk,limit,slots"
    return [table(head, disks.split()), table("item,disk,slot", [",".join(row[:3]) for row in rows]),
            table("item,disk", [f"{row[0]},{row[3] if len(row) > 3 else row[1]}" for row in rows])]


def table(head, rows):
    return "".join(f"{row}\n" for row in [head, *rows])


def names(room, files, plan=None, cert=None):
    """Writes them as D, N and X, and what is planned as P and C."""
    for name, text in zip("DNXPC", [*files, plan, cert]):
        if text is not None:
            room.write(name, text)


def layout_text(items):
    """Where the items are in the end, which of each are the last two words."""
    rows = (it.split() for it in items.split(", ") if it)
    return table("item,disk,slot", [",".join((row[0], *row[-2:])) for row in rows])


def plan_text(rounds):
    """A plan by its rounds, and each round by its shifts, as in `x a 0 b 0, y a 1 b 1 / z a 2 b 2`."""
    rounds = [[it for it in shifts.strip().split(", ") if it] for shifts in rounds.split("/")] if rounds else []
    lines = [line for at, shifts in enumerate(rounds, 1) for line in (f"round {at} {len(shifts)}", *shifts)]
    return table("migration-plan 1", [f"rounds {len(rounds)}", *lines, "end"])


def cert_text(words):
    """A certificate by the rounds, the quotient, the class and the bound, where the disks of a set come last."""
    rounds, quotient, class_, *bound = words.split()
    many = 4 if bound[0] == "set" else len(bound)
    lines = [f"rounds {rounds}", f"quotient {quotient}", f"class {class_}", " ".join(["bound", *bound[:many]])]
    return table(f"migration-certificate {2 if class_ == 'duplex' else 1}", [*lines, *bound[many:], "end"])

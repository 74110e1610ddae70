"""What tests/session tries with the saving of files: over old ones, through links and into devices; saves that fail (status 4), after which
the old file stands; and files that were loaded or saved in the same run, which are not saved over, whatever their spelling."""
import os, resource, stat
from session_inputs import CERT_TEXT, CHECK, DISKS, FILES, PLAN, many, put
from session_rooms import Count, Room, says


# Saves that succeed

def over_old_files(program):
    """A save is whole over an old file, keeps its mode, and leaves nothing over, also where a run was cut off before."""
    with Room(program) as room:
        put(room, DISKS)
        Count.ended("a new plan", room.run(*PLAN), 0, CERT_TEXT)
        plan = room.read("plan.txt")
        room.write("plan.txt", "old\n" * 100000, 0o640)
        room.write("cert.txt.new.mig", "left by a run that was cut off")
        Count.ended("over an old file", room.run(*PLAN), 0, CERT_TEXT)
        Count.same("over an old file: PLAN", room.read("plan.txt"), plan)
        Count.same("over an old file: its mode", stat.S_IMODE(os.stat(room.path("plan.txt")).st_mode), 0o640)
        Count.same("nothing is left over", sorted(room.files()), sorted([*FILES, "cert.txt", "plan.txt", "migrate"]))


def other_places(program):
    """A save goes through a link and into a device in place, under a long name, and into a folder."""
    with Room(program) as room:
        put(room, DISKS)
        room.run(*PLAN)
        plan = room.read("plan.txt")
        room.write("elsewhere", "old\n" * 1000)
        os.symlink("elsewhere", room.path("to-elsewhere"))
        Count.ended("through a link", room.run("plan", *FILES, "to-elsewhere", "/dev/null"), 0, CERT_TEXT)
        Count.same("through a link: its file", room.read("elsewhere"), plan)
        Count.that("through a link: the link stays", os.path.islink(room.path("to-elsewhere")))
        Count.ended("a long name", room.run("plan", *FILES, "p" * 255, "cert.txt"), 0, CERT_TEXT)
        Count.same("a long name: PLAN", room.read("p" * 255), plan)
        room.mkdir("sub")
        Count.ended("into a folder", room.run("plan", *FILES, "sub/plan.txt", "sub/../sub/cert.txt"), 0, CERT_TEXT)
        held = (room.read("sub/plan.txt"), sorted(os.listdir(room.path("sub"))))
        Count.same("into a folder: files", held, (plan, ["cert.txt", "plan.txt"]))


def links_to_nothing(program):
    """A save makes the file that a link leads to, and the link stays; but not a disk or a journal."""
    with Room(program) as room:
        put(room, DISKS)
        room.run(*PLAN)
        plan = room.read("plan.txt")
        for word, target, status in (("one", "new", 0), ("two", "new.disk", 4), ("three", "new.mig", 4)):
            os.symlink(target, room.path(word))
            ran = room.run("plan", *FILES, word, "cert.txt")
            Count.same(f"through a link to nothing, {target}", (ran.status, room.read(target)), (status, None if status else plan))
            Count.that(f"through a link to nothing, {target}: the link stays", os.path.islink(room.path(word)))


# Saves that fail

def failing_saves(program):
    """Status 4 where PLAN or CERT can't be saved, with the file and the reason on standard error."""
    reasons = [("no/plan.txt", "no such file"), ("folder", "is a directory"), ("/dev/full", "no space left"), ("read-only", "permission denied")]
    with Room(program) as room:
        put(room, DISKS)
        room.mkdir("folder")
        room.write("read-only", "old", 0o444)
        for word, why in reasons:
            for case in (["plan", *FILES, word, "cert.txt"], ["plan", *FILES, "plan.txt", word]):
                ran = room.run(*case)
                Count.ended(f"{case}", ran, 4, "folder fault\n")
                Count.that(f"{case} is said", says(ran, f"migrate: cannot save {word}: ", why), ran)
        Count.same("a file that may not be written stays", room.read("read-only"), b"old")
        Count.same("after PLAN failed CERT is not saved", room.run("plan", *FILES, "no/p", "cert.new").status == 4 and room.read("cert.new"), None)
        os.chmod(room.path("folder"), 0o555)
        Count.ended("a folder that may not be written", room.run("plan", *FILES, "folder/plan.txt", "cert.txt"), 4, "folder fault\n")


def saves_cut_short(program):
    """A save that fails in the middle leaves the old file, and nothing beside it."""
    with Room(program) as room:
        put(room, many(2000))
        room.write("plan.txt", "old")
        ran = room.run(*PLAN, limits=[(resource.RLIMIT_FSIZE, 10000)])
        Count.ended("a save that fails in the middle", ran, 4, "folder fault\n")
        Count.same("a save that fails in the middle: the old file stands", room.read("plan.txt"), b"old")
        Count.that("a save that fails in the middle is said", says(ran, "migrate: cannot save plan.txt: "), ran)
        Count.same("nothing is left over", [name for name in os.listdir(room.at) if name.endswith(".mig")], [])


def places_in_use(program):
    """What stands at a word with .new.mig behind is nothing that a save left: it stays. So does an empty disk that a link leads to."""
    with Room(program) as room:
        put(room, DISKS)
        for make in (os.mkfifo, os.mkdir, lambda path: os.symlink("now.csv", path), lambda path: os.link(room.path("now.csv"), path)):
            make(room.path("plan.txt.new.mig"))
            room.own(room.path("plan.txt.new.mig"))
            before = os.lstat(room.path("plan.txt.new.mig")).st_ino
            ran = room.run(*PLAN)
            Count.ended("a save whose new file's name is in use", ran, 4, "folder fault\n")
            Count.that("a save whose new file's name is in use is said", says(ran, "migrate: cannot save plan.txt: ", "in the way"), ran)
            Count.same("what has the name stays", os.lstat(room.path("plan.txt.new.mig")).st_ino, before)
            (os.rmdir if os.path.isdir(room.path("plan.txt.new.mig")) and not os.path.islink(room.path("plan.txt.new.mig")) else os.remove)(room.path("plan.txt.new.mig"))
        for name in ("empty.disk", "empty.mig"):
            room.write(name, b"")
            os.symlink(name, room.path("plan.txt"))
            Count.ended(f"through a link to {name}", room.run(*PLAN), 4, "folder fault\n")
            Count.same(f"through a link to {name}: it stays", (room.read(name), os.path.islink(room.path("plan.txt"))), (b"", True))
            os.remove(room.path("plan.txt"))


# Spellings

def loaded_files(program):
    """A file that was loaded is not saved over, by any path or link of it."""
    with Room(program) as room:
        put(room, DISKS)
        os.symlink("now.csv", room.path("link"))
        os.link(room.path("now.csv"), room.path("hard"))
        before = room.files()
        for word in ("./now.csv", room.path("now.csv"), "link", "hard"):
            for case in (["plan", *FILES, word, "cert.txt"], ["plan", *FILES, "plan.txt", word], ["plan", FILES[0], "link", FILES[2], word, "cert.txt"]):
                if len(set(case)) < len(case):
                    continue
                ran = room.run(*case)
                Count.ended(f"{case}", ran, 4, "folder fault\n")
                Count.that(f"{case} is said", says(ran, f"migrate: cannot save {word}: "), ran)
                Count.same(f"{case}: now.csv", room.read("now.csv"), DISKS[1].encode())
        after = {name: held for name, held in room.files().items() if name != "plan.txt"}
        Count.same("no other file is made", after, before)
        Count.that("the link stays", os.path.islink(room.path("link")))


def the_plan_itself(program):
    """The certificate is not saved over the plan of the same run, but over an older name of it."""
    with Room(program) as room:
        put(room, DISKS)
        Count.ended("a plan beside its certificate", room.run(*PLAN), 0, CERT_TEXT)
        os.symlink("plan.txt", room.path("to-plan"))
        os.link(room.path("plan.txt"), room.path("hard-plan"))
        for word in ("./plan.txt", room.path("plan.txt"), "to-plan"):
            ran = room.run("plan", *FILES, "plan.txt", word)
            Count.ended(f"the certificate over the plan as {word}", ran, 4, "folder fault\n")
            Count.that(f"the certificate over the plan as {word} is said", says(ran, f"migrate: cannot save {word}: "), ran)
            Count.ended(f"the plan stands beside {word}", room.run(*CHECK), 0, "optimal\n")
        plan = room.read("plan.txt")
        ran = room.run("plan", *FILES, "to-plan", "plan.txt")
        Count.same("the plan through a link, and over it", (ran.status, ran.out, room.read("plan.txt")), (4, b"folder fault\n", plan))
        ran = room.run("plan", *FILES, "plan.txt", "hard-plan")
        held = (ran.status, ran.out, room.read("plan.txt"), room.read("hard-plan"))
        Count.same("the plan, and an older name of it", held, (0, CERT_TEXT.encode(), plan, CERT_TEXT.encode()))


CASES = [over_old_files, other_places, links_to_nothing, failing_saves, saves_cut_short, places_in_use, loaded_files, the_plan_itself]

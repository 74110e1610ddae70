"""What tests/session tries with the loading of files: one that isn't there (status 16), one that can't be read (status 4), files of many
pieces, and files that come through a pipe."""
import os, threading
from session_inputs import AFTER, CERT_TEXT, CHECK, DISKS, FILES, PLAN, PLAN_TEXT, many, many_saved, put
from session_rooms import Count, Room, says
from waiting import until


def missing(program):
    """Status 16: the first word whose file is not there, as it was given."""
    with Room(program) as room:
        put(room, DISKS, PLAN_TEXT, CERT_TEXT)
        for command in (PLAN, CHECK, AFTER):
            loaded = command[1:4] if command is PLAN else command[1:]
            for at, word in enumerate(loaded, 1):
                case = [*command[:at], f"./no-{word}", *command[at + 1 :]]
                Count.ended(f"{case}", room.run(*case), 16, f"no file ./no-{word}\n")
                case = [*case[: at + 1], *(f"no-{it}" for it in case[at + 1 :])]
                Count.ended(f"{case}", room.run(*case), 16, f"no file ./no-{word}\n")
        room.write("disks.csv", "bad")
        Count.ended("a missing file is told before a bad one", room.run("check", *FILES, "plan.txt", "no"), 16, "no file no\n")
        Count.same("what is missing is not made", sorted(room.files()), sorted([*FILES, "plan.txt", "cert.txt", "migrate"]))


def folders(program):
    """Status 4 where a folder stands for a file, or a file for a folder, with the file and the reason on standard error."""
    with Room(program) as room:
        put(room, DISKS, PLAN_TEXT, CERT_TEXT)
        room.mkdir("folder")
        for at in range(1, 6):
            ran = room.run(*CHECK[:at], "folder", *CHECK[at + 1 :])
            Count.ended(f"a folder as word {at}", ran, 4, "folder fault\n")
            Count.that(f"a folder as word {at} is said", says(ran, "migrate: cannot ", " folder: ", "is a directory"), ran)
        Count.ended("a file as a folder", room.run("check", "now.csv/x", *CHECK[2:]), 4, "folder fault\n")


def permissions(program):
    """Status 4 where a file may not be read, with the file and the reason on standard error."""
    with Room(program) as room:
        put(room, DISKS, PLAN_TEXT, CERT_TEXT)
        for word in CHECK[1:]:
            os.chmod(room.path(word), 0)
            ran = room.run(*CHECK)
            Count.ended(f"{word} may not be read", ran, 4, "folder fault\n")
            Count.that(f"{word} may not be read is said", says(ran, "migrate: cannot ", f" {word}: ", "permission denied"), ran)
            os.chmod(room.path(word), 0o644)
        Count.ended("all may be read again", room.run(*CHECK), 0, "optimal\n")


def feed(path, text):
    """Writes a text into a pipe, a piece at a time."""
    try:
        with open(path, "wb", buffering=0) as pipe:
            for at in range(0, len(text), 1000):
                pipe.write(text[at : at + 1000])
    except BrokenPipeError:
        pass


def has_let_go(feeder, pipe):
    """Whether who writes to a pipe has ended. One whom nobody read is let go, once it has begun."""
    if feeder.is_alive():
        os.close(os.open(pipe, os.O_RDONLY | os.O_NONBLOCK))
    return not feeder.is_alive()


def pipes(program):
    """Each word of `after` by a pipe, which gives what was written, however little."""
    files, (_, layout) = many(5000), many_saved(5000)
    with Room(program) as room:
        put(room, files)
        room.run(*PLAN)
        os.mkfifo(room.path("pipe"))
        room.own(room.path("pipe"))
        for word in range(1, 5):
            feeder = threading.Thread(target=feed, args=(room.path("pipe"), room.read(AFTER[word])), daemon=True)
            feeder.start()
            Count.ended(f"word {word} from a pipe", room.run(*AFTER[:word], "pipe", *AFTER[word + 1 :]), 0, layout)
            until(lambda: has_let_go(feeder, room.path("pipe")), f"the writer of word {word} to end")


CASES = [missing, folders, permissions, pipes]

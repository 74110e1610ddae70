"""What run-plan sees before it removes a source: copies that lack something, sources that change, over real file
systems where this is root; and, by a record of the system's calls, what a power cut leaves after each of them."""
import contextlib, itertools, os, re, shutil, socket, struct, subprocess, time
from unittest import mock
from migrate_tools.run import compare
from limits_model import plan_text
from rooms import Room, plan_of, refused, same, that, wrong
from waiting import until

ONE = plan_of("x a 0 b 0")
RUN = "contrib/run-plan --erase 'rm -rf mnt/{from}/{item}' plan.txt"
KINDS = {"ext4": ("8M", "-qF"), "xfs": ("300M", "-qf"),
         "btrfs": ("128M", "-qf")}  # the least sizes, and options of mkfs


def disk_at(room, name, image, kind="ext4"):
    """A file system over a loop device, mounted below mnt. None where there is none to be had."""
    size, options = KINDS[kind]
    room.good("real disks", f"mkdir -p mnt/{name} && truncate -s {size} {image} && mkfs.{kind} {options} {image}")
    ran = room.run(f"losetup -f --show {image}")
    if ran.returncode or room.run(f"/usr/bin/mount {ran.stdout.strip()} mnt/{name}").returncode:
        return print(f"note: folders are tried without mounts alone: {ran.stderr.strip() or 'nothing can be mounted'}")
    return ran.stdout.strip()


@contextlib.contextmanager
def disks_of(room, kinds):
    """The disks a, b, .. of these kinds, and their loop devices; folders, and none, where nothing can be mounted."""
    loops, names = [], "abc"[:len(kinds)]
    can = not os.geteuid() and shutil.which("losetup") and all(shutil.which(f"mkfs.{it}") for it in kinds)
    room.good("disks", f"mkdir -p {' '.join(f'mnt/{it}' for it in names)}; rm -f bin/mount bin/umount bin/mountpoint")
    if not can:
        print(f"note: {' and '.join(kinds)} are tried as folders: this is not root, or there is no losetup or mkfs")
    try:
        for name, kind in zip(names, kinds if can else ()):
            loops.append(disk_at(room, name, f"state/{name}.img", kind))
        yield loops
    finally:
        room.run("umount -l mnt/*")
        for loop in filter(None, loops):
            subprocess.run(["losetup", "-d", loop], check=False)


def make_all_kinds(room):
    """An item on disk a with all that a copy can lose."""
    room.good("all kinds", """cd mnt/a && mkdir -p x/sub/empty && echo data >x/file && ln x/file x/sub/again
        ln -s file x/link && truncate -s 4M x/holes && echo end >>x/holes && mkfifo x/pipe && chmod 4751 x/file
        chmod 1770 x/sub && date >x/'two  words'""")
    with socket.socket(socket.AF_UNIX) as made, contextlib.chdir(room.path("mnt/a/x")):
        made.bind("socket")
    os.setxattr(room.path("mnt/a/x/file"), "user.note", b"text")
    acl = struct.pack("<I", 2) + b"".join(struct.pack("<HHI", *it) for it in (
        (1, 6, 2**32 - 1), (2, 4, 77), (4, 4, 2**32 - 1), (16, 4, 2**32 - 1), (32, 0, 2**32 - 1)))
    os.setxattr(room.path("mnt/a/x/two  words"), "system.posix_acl_access", acl)
    if not os.geteuid():
        room.good("all kinds", "cd mnt/a/x && mknod device c 1 3 && chown -h 1234:5678 sub link")
    room.good("all kinds", "find mnt/a/x -depth -exec touch -h -d '2001-02-03 04:05:06.123456789' {} +")


def by_os(call):
    """A command of a shell that makes this call of the system."""
    return f'python3 -c "import os; os.{call}"'


# what is done to a whole copy, and what run-plan then says of it
LACKS = [("rm -r sub/empty", "mnt/a/x/sub/empty has no copy"),
         ("touch -d @0 more", "mnt/b/x/more is in the copy alone"),
         ("rm link; touch link", "mnt/b/x/link is of another kind than mnt/a/x/link"),
         ("rm pipe; touch pipe", "mnt/b/x/pipe is of another kind"),
         ("rm socket; mkfifo socket", "mnt/b/x/socket is of another kind"),
         ("rm device; mknod device c 1 5", "mnt/b/x/device is of another kind"),
         ("chown -h 7 link", "mnt/b/x/link has another owner"), ("chgrp 7 sub", "mnt/b/x/sub has another owner"),
         ("chmod u-s file", "has another mode than mnt/a/x/"), ("chmod -t sub", "mnt/b/x/sub has another mode"),
         ("touch -h -d @5 link", "mnt/b/x/link has another time"),
         ("touch -d '2001-02-03 04:05:06.123456788' file", "has another time"),
         ("touch sub", "mnt/b/x/sub has another time than mnt/a/x/sub"),
         (by_os("removexattr('file', 'user.note')"), "mnt/b/x/file has other attributes or ACLs (user.note)"),
         (by_os("setxattr('file', 'user.note', b'texT')"), "has other attributes or ACLs (user.note)"),
         (by_os("removexattr('two  words', 'system.posix_acl_access')") + "; chmod --reference=../../a/x/two* two*",
          "two  words has other attributes or ACLs (system.posix_acl_access)"),
         ("rm link; ln -s holes link; touch -hr ../../a/x/link link; chown -h 1234:5678 link",
          "mnt/b/x/link leads elsewhere"),
         ("echo >>file; touch -r ../../a/x/file file", "has another size than mnt/a/x/"),
         ("echo datA >file; touch -r ../../a/x/file file", "has other bytes than mnt/a/x/"),
         ("rm sub/again; cp -a file sub/again; touch -r ../../a/x/sub sub", "does not have the hard links of mnt/a/x/"),
         ("ln 'two  words' third", "mnt/b/x/third is in the copy alone"),
         ("dd if=holes of=more bs=1M status=none; mv more holes; chmod 644 holes; touch -r ../../a/x/holes holes",
          "mnt/b/x/holes has fewer holes"), ("cd ..; rm -r x", "mnt/b/x cannot be read: No such file or directory")]
WHOLE = ["cp -a {from} {to}", "rsync -aHAXS --numeric-ids {from} {to}"]
LOSSY = ["cp -r {from} {to}", "cp -dR --preserve=mode,ownership,timestamps,links {from} {to}", "rsync -a {from} {to}",
         "rsync -aHAX {from} {to}", "rclone copy -q --links --metadata {from} {to}{{item}}"]


def what_a_copy_lacks(room):
    with disks_of(room, ("ext4", "xfs", "btrfs")):
        make_all_kinds(room)
        start = compare.state_of(compare.tree_of(room.path("mnt/a")))
        room.write("plan.txt", ONE)
        if not shutil.which("rsync"):
            print("note: what a copy lacks is tried in part: there is no rsync")
        for spoil, said in LACKS:
            if not os.geteuid() or not {*spoil.replace(";", "").split()} & {"chown", "chgrp", "mknod"}:
                copy = f"cp -a mnt/a/x mnt/b/; (cd mnt/b/x; {spoil}); [ ! -e mnt/b/x ] || touch -r mnt/a/x mnt/b/x"
                room.write("copy", copy)
                room.says(f"a copy that lacks something: {spoil}",
                          f"rm -rf mnt/b/x; {RUN} sh copy {{item}}; rm plan.txt.place", said, "not compared 1 x: ",
                          "stopped in round 1 of 1")
        for copy in (it for it in LOSSY if shutil.which(it.split()[0])):
            words = copy.format(**{"from": "mnt/{from}/{item}", "to": "mnt/{to}/"})
            ran = room.run(f"rm -rf mnt/b/x; {RUN} {words}; echo $?; rm plan.txt.place")
            that(f"a command that loses something: {copy}",
                 ran.stdout.endswith("\n1\n") and "not compared 1 x: " in ran.stderr, ran)
        same("nothing of the source was touched", compare.state_of(compare.tree_of(room.path("mnt/a"))), start)
        ran = room.run(f"rm -rf mnt/b/x; {RUN.replace(' --', ' --unverified --')} sh -c 'mkdir -p $1' sh "
                       f"mnt/{{to}}/{{item}}; rm plan.txt.place; ls mnt/a")
        that("--unverified looks at nothing", ran.returncode == 0 and "x" not in ran.stdout.split(), ran)
        make_all_kinds(room)
        room.good("the item, kept", "mkdir kept && cp -a mnt/a/x kept/")
        # from each kind of file system to each other one, by the commands that the pages name
        pairs = [("a", "b"), ("b", "c"), ("c", "a"), ("a", "c"), ("c", "b"), ("b", "a")]
        for (one, two), copy in zip(pairs, itertools.cycle(it for it in WHOLE if shutil.which(it.split()[0]))):
            room.good("whole copies", "rm -rf mnt/b/x" if (one, two) == ("a", "b") else "true")
            room.write("plan.txt", plan_text([[["x", one, "0", two, "0"]]]))
            words = copy.format(**{"from": "mnt/{from}/{item}", "to": "mnt/{to}/"})
            room.good("whole copies", f"rm -f plan.txt.place; {RUN} {words}")
            same(f"{copy}, {one} to {two}: all is there",
                 (os.listdir(room.path("mnt/b")).count("x"), os.path.lexists(room.path(f"mnt/{one}/x"))),
                 (int(two == "b"), False))
            why = wrong(compare.compare, room.path("kept/x"), room.path(f"mnt/{two}/x"))
            same(f"{copy}, {one} to {two}: nothing is lacking", why, "")


def a_source_that_changes():
    """What is written to a source once its copy is being compared is never removed: while it is compared, or up to the
    erase."""
    for name, how in (("a new file", "echo 1 >new"), ("other bytes", "echo 2 >one"), ("the same bytes", "echo 1 >one"),
                      ("a mode", "chmod 600 two"), ("an old time", "echo 2 >one; touch -d @5 one"),
                      ("a folder's file", "rm sub/three"), ("another name", "mv two four")):
        with Room() as room:
            room.write("plan.txt", ONE)
            room.good(name, "mkdir -p mnt/b mnt/a/x/sub; cd mnt/a/x; echo 1 >one; echo 2 >two; echo 3 >sub/three")
            # a guard is what runs last before the erase: here it writes, once
            room.write("guard", f"echo >>looks; [ $1 != a ] || [ $(wc -l <looks) -lt 9 ] || [ -e done ] || "
                                f"{{ touch done; cd mnt/a/x && {how}; }}")
            ran = room.run(f"{RUN.replace(' --', ' --guard ' + chr(39) + 'sh guard {disk}' + chr(39) + ' --', 1)} cp "
                           f"-a mnt/{{from}}/{{item}} mnt/{{to}}/")
            that(f"a source that changes before its erase: {name}",
                 ran.returncode == 1 and "was changed since its copy was compared: stop what writes there" in ran.stderr
                 and "not erased 1 x: mnt/a/x" in ran.stderr and os.path.exists(room.path("mnt/a/x")),
                 (ran, room.read("looks")))
            lines = room.read("plan.txt.place").splitlines()
            that(f"the place never said that it is being removed: {name}",
                 "erasing 1 x" not in lines and lines[-2:] == ["not copied 1 x", "not erasing 1 x"], lines)
            with contextlib.chdir(room.at):
                room.good(name, "rm -rf mnt/?/*; mkdir -p mnt/a/x/sub; cd mnt/a/x; echo 1 >one; echo 2 >two; echo 3 "
                                ">sub/three; cd ../../..; cp -a mnt/a/x mnt/b/")
                real, done = compare.bytes_differ, []

                def write(*words):
                    if not done:
                        done.append(room.good(name, f"cd mnt/a/x; {how}"))
                    return real(*words)

                with mock.patch.object(compare, "bytes_differ", write):
                    said = wrong(compare.compare, "mnt/a/x", "mnt/b/x")
                that(f"a source that changes while it is compared: {name}",
                     "mnt/a/x" in said and " " in said and not said[0].isdigit(), said)
    with Room() as room, contextlib.chdir(room.at):  # as it begins: all is as before, and only newer
        room.good("as it begins", "mkdir -p mnt/a/x; echo 1 >mnt/a/x/one; cp -a mnt/a mnt/b")
        until(lambda: time.clock_gettime_ns(compare.COARSE) > os.stat("mnt/a/x").st_ctime_ns,
              "the clock of files to go on")
        real, done = compare.tree_of, []

        def look(top):
            if not done:
                done.append(os.chmod("mnt/a/x/one", os.stat("mnt/a/x/one").st_mode))
            return real(top)

        with mock.patch.object(compare, "tree_of", look):
            said = wrong(compare.compare, "mnt/a/x", "mnt/b/x")
        that("a source that changes as the comparison begins", said.startswith("mnt/a/x/one was changed"), said)


def nothing_more(room):
    """Where one copy of a round lacks something, no other source of the round is removed after it."""
    room.write("plan.txt", plan_of("x a 0 b 0, y a 1 b 1"))
    room.good("nothing more", "mkdir -p mnt/a/x mnt/a/y mnt/b; touch -d @5 mnt/a/x mnt/a/y")
    copy = "sh -c 'cp -a mnt/a/$1 mnt/b/; [ $1 = y ] || touch mnt/b/x' sh {item}"
    for eager in ("", "--eager disks.csv"):
        room.write("disks.csv", "disk,limit,slots\na,1,9\nb,1,9\n")
        room.says(f"nothing more is removed {eager}",
                  f"rm -rf mnt/b/* plan.txt.place*; contrib/run-plan {eager} --jobs 1 --erase 'rm -rf "
                  f"mnt/{{from}}/{{item}}' plan.txt {copy}", "not compared 1 x: mnt/b/x has another time", status=1)
        that(f"nothing more is removed {eager}", sorted(os.listdir(room.path("mnt/a"))) == ["x", "y"])


def links_and_pipes(room):
    room.good("links", """mkdir -p mnt/a/x mnt/a/y mnt/a/z mnt/b; echo 1 >mnt/a/x/one
        ln mnt/a/x/one mnt/a/y/two; echo 3 >mnt/a/z/three; ln mnt/a/z/three mnt/a/z/four""")
    said = "mnt/a/x: mnt/a/x/one has another name outside of it (a hard link), which a copy would not keep"
    for wish in ("--empty a", "--move mnt/a/x=b"):
        refused(room, "a hard link between two items", f"contrib/from-folders mnt/* {wish}", said)
    ran = room.run("mkfifo mnt/a/z/pipe; contrib/from-folders mnt/* --spread --slots 9")
    that("they stay, and it is said", ran.returncode == 0 and all(it in ran.stderr for it in (
        "mnt/a/x stays where it is: mnt/a/x/one has", "mnt/a/y stays where it is: mnt/a/y/two has",
        "mnt/a/z/pipe is a fifo, a socket or a device")), ran)
    same("those that share no file may go", room.read("next.csv"), "item,disk\nx,a\ny,a\nz,b\n")
    room.planned("links")
    room.good("what has a fifo goes", "contrib/run-plan --names names.csv --erase 'rm -rf {from}/{item}' plan.txt "
                                      "cp -a {from}/{item} {to}/")
    room.write("plan.txt", ONE)
    room.says("run-plan does not break a hard link either",
              f"rm plan.txt.place; {RUN} cp -a mnt/{{from}}/{{item}} mnt/{{to}}/",
              "mnt/a/x/one has another name outside of mnt/a/x, a hard link", status=1)
    that("run-plan does not break a hard link either", os.path.exists(room.path("mnt/a/x/one")))


# Calls, and power cuts

CALL = re.compile(r"^(\d+) +(\w+)\((.*)\) += (-?\d+)")
CHANGES = ("mkdir", "mkdirat", "openat", "write", "copy_file_range", "utimensat", "fchownat", "fchmod", "unlinkat",
           "syncfs", "sync", "fsync")


def record_of(room, words):
    """The calls of a run that change or sync something, in order: a disk and an item, or the place, and what is done
    there."""
    log, events = room.path("calls"), []
    env = {**room.env, "PATH": f"/usr/bin:{room.env['PATH']}"}
    ran = subprocess.run(["strace", "-f", "-y", "-s", "99", "-o", log, "-e", f"trace={','.join(CHANGES)}",
                          "alone/run-plan", *words], cwd=room.at, env=env, capture_output=True, text=True, check=False)
    that("a run under strace", ran.returncode == 0, ran)
    top = os.path.realpath(room.at)
    with open(log, errors="replace") as file:
        calls = [it.groups() for it in map(CALL.match, file) if it]
    for _, call, rest, result in calls:
        found = re.match(r'(?:\S+?<([^>]*)>)?(?:, )?(?:"((?:[^"\\]|\\.)*)")?', rest)
        folder, name = found[1] or top, found[2] or ""
        path = os.path.relpath(folder if call in ("write", "syncfs", "fsync", "fchmod") else os.path.join(folder, name),
                               top)
        if call == "copy_file_range":
            path = os.path.relpath(re.findall(r"<([^>]*)>", rest)[1], top)
        if int(result) < 0 or call == "openat" and "O_CREAT" not in rest:
            continue
        disk, _, inside = path.removeprefix("mnt/").partition("/")
        if path.startswith("mnt/"):
            events.append((call, disk, inside))
        elif path == "plan.txt.place" and call in ("write",
                                                   "fsync") or call == "sync" or path == "." and call == "fsync":
            events.append((call, os.path.basename(path), name.replace("\\n", "\n")))
    return events


def order_of(events, items):
    """For each item the order of what is done, each kind of call once in a row."""
    kinds = []
    for call, where, what in events:
        item = what.split("/")[0]
        kind = (f"fsync {where}" if call == "fsync" else f"place {what.strip()}" if where == "plan.txt.place"
                else "sync" if call in ("sync", "syncfs") and not what
                else f"{'erase' if call == 'unlinkat' else 'copy'} {item}" if item in items else None)
        kind = f"sync {where}" if call == "syncfs" else kind
        if kind and kinds[-1:] != [kind]:
            kinds.append(kind)
    return kinds


TWO = plan_of("x a 0 b 0", "y b 1 a 1")


def two_items(room):
    room.good("two items", """mkdir -p mnt/a/x mnt/b/y kept
        for it in a/x b/y; do echo 1 $it >mnt/$it/one; echo 2 $it >mnt/$it/two; done
        cp -a mnt/a/x mnt/b/y kept/""")
    room.write("plan.txt", TWO)


def order_of_a_move():
    """A record of the calls: for each item its copy, then the sync of its disk, then the place, synced, and only then
    what removes its source."""
    if not shutil.which("strace"):
        return print("note: the calls of a move are not recorded: there is no strace")
    own, remote = ["--erase", "rm -rf mnt/{from}/{item}"], ["--unverified", "--erase",
                                                            "sh -c 'rm -rf mnt/$1/$2' sh {from} {item}"]
    copies = ["cp", "-a", "mnt/{from}/{item}", "mnt/{to}/"], ["sh", "-c", "cp -a mnt/$1/$2 mnt/$3/", "sh", "{from}",
                                                              "{item}", "{to}"]
    for name, words, local in (("by rounds", [*own, "plan.txt", *copies[0]], True),
                               ("without rounds", ["--eager", "disks.csv", *own, "plan.txt", *copies[0]], True),
                               ("with disks that its words do not say, as by ssh", [*remote, "plan.txt", *copies[1]],
                                False)):
        with Room() as room:
            two_items(room)
            room.write("disks.csv", "disk,limit,slots\na,1,9\nb,1,9\n")
            events, wanted = record_of(room, words), []
            for number, (item, source, target) in enumerate((("x", "a", "b"), ("y", "b", "a")), 1):
                for kind, disk in (("copy", target), ("erase", source)):
                    wanted += [f"place erasing {number} {item}", "fsync plan.txt.place"] * (kind == "erase")
                    wanted += [f"{kind} {item}", f"sync {disk}" if local else "sync",
                               f"place {'copied' if kind == 'copy' else 'erased'} {number} {item}",
                               "fsync plan.txt.place"]
            found = order_of(events, "xy")
            same(f"the order of a move, {name}", found[3:], wanted)
            same(f"the place has its name before anything is copied, {name}",
                 ([it.split()[:2] for it in found[:1]], found[1:3]),
                 ([["place", "plan"]], ["fsync plan.txt.place", "fsync ."]))


def worlds(events, moves):
    """What a power cut may leave after each of these calls, each state once: for each item how it stands at its target
    (nothing, the first name without bytes, all names without bytes, whole) and what is left at its source; and the text
    of the place."""
    names, found = ["one", "two"], {}
    for cut in range(len(events) + 1):
        place, synced, stands = "", "", {}
        named = any(it[:2] == ("fsync", ".") for it in events[:cut])
        for call, where, what in events[:cut]:
            if where == "plan.txt.place":
                place, synced = place + (what if call == "write" else ""), place if call == "fsync" else synced
        for item, source, target in moves:
            own = [n for n, (call, where, what) in enumerate(events[:cut]) if where == target
                   and what.split("/")[0] == item and call != "unlinkat"]
            is_synced = own and any(n > own[-1] and it[:2] in (("syncfs", target), ("sync", "."))
                                    for n, it in enumerate(events[:cut]))
            gone = [what for call, where, what in events[:cut] if call == "unlinkat" and (where,
                what.split("/")[0]) == (source, item)]
            gone = [it.split("/")[-1] for it in gone]
            kept = any(n > max(m for m, it in enumerate(events[:cut]) if it[0] == "unlinkat" and it[1] == source)
                       and it[:2] in (("syncfs", source), ("sync", "."))
                       for n, it in enumerate(events[:cut])) if gone else False
            there = ["whole"] if is_synced else ["nothing", "first", "empty", "whole"] if own else ["nothing"]
            left = [tuple(gone)] if kept else sorted({(), tuple(gone[:1]), tuple(gone)})
            stands[item] = list(itertools.product(there, left))
        tails = {"", place[len(synced):], place[len(synced):][:-4]} if named else {None, place}
        for tail, *states in itertools.product(sorted(tails, key=str), *stands.values()):
            text = None if tail is None else (synced + tail if named else tail)
            found.setdefault((text, *zip(stands, states)), cut)
    return found, names


def put_world(room, moves, text, states):
    """Makes what a power cut left."""
    room.good("power", "rm -rf mnt plan.txt.place*; mkdir -p mnt/a mnt/b")
    if text is not None:
        room.write("plan.txt.place", text)
    for (item, source, target), (_, (there, gone)) in zip(moves, states):
        if item not in gone:
            room.good("power", f"cp -a kept/{item} mnt/{source}/; rm -f "
                               f"{' '.join(f'mnt/{source}/{item}/{it}' for it in gone) or 'none'}")
        if there == "whole":
            room.good("power", f"cp -a kept/{item} mnt/{target}/")
        elif there != "nothing":
            room.good("power", f"mkdir -p mnt/{target}/{item}; touch mnt/{target}/{item}/one "
                               f"{f'mnt/{target}/{item}/two' if there == 'empty' else ''}")


def power_cuts():
    """After each call of a small plan the power goes: what was not synced is there or not, in part or whole. The same
    words go on, and each item ends whole at its target and nowhere else."""
    if not shutil.which("strace"):
        return print("note: power cuts are not tried: there is no strace")
    moves = [("x", "a", "b"), ("y", "b", "a")]
    with Room() as room:
        two_items(room)
        events = record_of(room, ["--erase", "rm -rf mnt/{from}/{item}", "plan.txt", "cp", "-a", "mnt/{from}/{item}",
                                  "mnt/{to}/"])
        found, _ = worlds(events, moves)
        that("a power cut has many ends", len(found) > 20, len(found))
        for (text, *states), cut in found.items():
            put_world(room, moves, text, states)
            ran = room.run(f"{RUN} cp -a mnt/{{from}}/{{item}} mnt/{{to}}/")
            stands = {f"{disk}/{item}": room.run(f"diff -r kept/{item} mnt/{disk}/{item}").returncode
                      for item in "xy" for disk in "ab"}
            if not that(f"a power cut after {events[cut - 1] if cut else 'nothing'}", ran.returncode == 0 and stands
                        == {"b/x": 0, "a/x": 2, "a/y": 0, "b/y": 2}, (text, states, ran, stands)):
                return


# what copies, and what removes, x or y in two steps; after each the disks are as a power cut would leave them
SNAP = "to=cuts/$(ls cuts | wc -l); mkdir $to; cp state/?.img $to/"
STEPS = {"snap": SNAP, "copy": "mkdir -p $2/$3; cp -a $1/one $2/$3/; sync -f $2; sh snap; cp -a $1 $2/; sh snap",
         "erase": "rm $1/one; sync -f $1; sh snap; rm -r $1; sh snap"}


def power_cuts_on_disks(room):
    """The same over loop devices: what they hold before, within and after each command is what a power cut leaves.
    There each file system repairs itself, the same words go on, and each item ends whole and nowhere else."""
    two_items(room)
    words = "--jobs 1 --place mnt/c/place --erase 'rm -rf mnt/{from}/{item}' plan.txt cp -a mnt/{from}/{item} mnt/{to}/"
    cut = words.replace("cp -a mnt/{from}/{item} mnt/{to}/", "sh copy mnt/{from}/{item} mnt/{to} {item}").replace(
        "rm -rf", "sh erase")
    with disks_of(room, ("ext4", "ext4", "ext4")) as loops:
        if not loops:
            return
        for name, text in STEPS.items():
            room.write(name, text)
        room.good("cuts", f"mkdir cuts; cp -a kept/x mnt/a/; cp -a kept/y mnt/b/; sync; contrib/run-plan --guard 'sh "
                          f"snap {{disk}}' {cut} && umount -l mnt/*")
        states = {room.good("cuts", f"cat cuts/{it}/*.img | cksum"): it
                  for it in sorted(os.listdir(room.path("cuts")), key=int)}
        that("a power cut has many ends", len(states) > 9, len(states))
        for cut in states.values():
            ran = room.run(f"for it in a b c; do mount -o loop cuts/{cut}/$it.img mnt/$it || exit 9; done; "
                           f"contrib/run-plan {words}; status=$?; diff -r kept/x mnt/b/x && diff -r kept/y mnt/a/y "
                           "&& ls mnt/a mnt/b; umount -l mnt/*; exit $status")
            that(f"a power cut over disks, {cut}",
                 ran.returncode == 0 and ran.stdout.endswith("mnt/a:\nlost+found\ny\n\nmnt/b:\nlost+found\nx\n"), ran)


def half_erased():
    """What removes a source is cut off half way through, by an error or with run-plan itself: no later run copies what
    is left over the whole one."""
    for how in ("exit 1", "kill -9 $PPID $$"):
        with Room() as room:
            room.write("plan.txt", ONE)
            room.good("half erased", "mkdir -p mnt/a/x mnt/b; echo 1 >mnt/a/x/one; echo 2 >mnt/a/x/two; cp -a mnt/a/x "
                                     "kept")
            room.write("erase", f"[ -e begun ] || {{ touch begun; rm $1/one; {how}; }}; rm -r $1")
            room.write("copy", "echo copy >>log; rm -rf mnt/b/x; cp -a $1 mnt/b/")
            words = "--erase 'sh erase mnt/{from}/{item}' plan.txt sh copy mnt/{from}/{item}"
            ran = room.run(f"alone/run-plan {words}")
            that(f"half erased, {how}: it stops", ran.returncode == (1 if how == "exit 1" else -9), ran)
            that(f"half erased, {how}: the place says so", room.read("plan.txt.place").endswith("\nerasing 1 x\n"),
                 room.read("plan.txt.place"))
            room.good(f"half erased, {how}", f"contrib/run-plan {words}; diff -r kept mnt/b/x")
            same(f"half erased, {how}: it was copied once, and is gone",
                 (room.read("log"), os.path.exists(room.path("mnt/a/x"))), ("copy\n", False))


CASES = (what_a_copy_lacks, nothing_more, a_source_that_changes, links_and_pipes, order_of_a_move, power_cuts,
         power_cuts_on_disks, half_erased)

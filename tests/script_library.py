"""lib/: what is made of each thing that goes wrong, over stand-ins for the kit and the compiler, and the real `ar`."""
import os, re, shutil, subprocess
from script_rooms import SYSTEM, Tree, refused
from session_rooms import TOP, Count

PROVED, KEPT = "crates/mig_c/out/libmig_c.a", "lib/libmigrate.a"
with open(f"{TOP}/lib/migrate.h") as file:
    VERSION = re.search(r'^#define MIGRATE_VERSION "(.*)"$', file.read(), re.M)[1]
# Each stand-in stops all that were started together with it, where STOP names it, and fails where FAILS does, though it leaves what it makes.
STAND_IN = """test "$STOP" != {0} || kill -KILL 0
{1}
test "$FAILS" != {0} || {{ echo "{0} fails" >&2; exit 1; }}"""
STAND_INS = {
    "rt": 'echo "rt $*" >>"$KIT/calls"; test "$1" != doc || echo "$KIT/START-HERE.md"',
    "rattle": 'while [ "$1" != -o ]; do shift; done; cp "$KIT/proved.a" "$2"',
    "cc": """echo "cc $*" >>"$KIT/calls"
if [ "$1" = --version ]; then echo "cc of a test ${VERSION:-1}"; exit; fi
for word; do
    test "$before" != -o || to=$word
    case $word in *.[ac]) from=$word;; esac
    before=$word
done
text=$(cat "$from") || exit
echo "made by ${VERSION:-1}: $text" >"$to\"""",
}
# cp, and mv from another folder, are stopped with half the file written, and only where they write to lib/
HALF = """for to; do test "$from" || test "$to" = -f || from=$to; done
test "$STOP" != {0} || test "${{to#"$TOP/lib/"}}" = "$to" || {{
    test {0} = mv && test "$(dirname "$from")" = "$(dirname "$to")" || head -c 20 "$from" >"$to"
    kill -KILL 0
}}
exec {1} "$@\""""
AR, CP, MV = (shutil.which(it, path=SYSTEM) for it in ("ar", "cp", "mv"))
# the kit's own tools; its clang is called as llvm-objcopy
TOOLS = {"llvm-ar": f'{AR} "$@" || exit', "ld.lld": 'echo "ld.lld $*" >>"$KIT/calls"; cat mig_c.o heap.o >"$3" || exit', "clang": 'echo "objcopy $*" >>"$KIT/calls"'}


class Library(Tree):
    """lib/ with a library that was renewed there."""

    def __init__(self):
        super().__init__("lib", "built/building", "crates.txt")
        os.makedirs(f"{self.top}/crates/mig_c")
        self.put({**STAND_INS, **TOOLS})
        self.pack("kit/proved.a", ("mig_c.o", "the code"))
        Count.ended("lib/renew", self.run("lib/renew"), 0, "")
        self.calls()

    def put(self, stand_ins):
        for name, text in stand_ins.items():
            place = "bin/" if name == "rattle" else "toolchain/bin/" * (name in TOOLS)
            self.stand_in(f"kit/{place}{name}", text if "kill" in text else STAND_IN.format(name, text))

    def pack(self, archive, *parts):
        """Makes an archive of these parts anew."""
        for name, text in parts:
            self.write(name, text)
        if os.path.exists(self.path(archive)):
            os.remove(self.path(archive))
        self.ar("rcD", self.path(archive), *(self.path(name) for name, _ in parts))

    def ar(self, *words):
        subprocess.run(["ar", *words], check=True)

    def kept(self):
        return self.read(f"a clone/{KEPT}")


# What is compared

def another_heap(library):
    """Another heap.o, with its sum."""
    library.write("a clone/lib/heap.o", "another heap")
    said = subprocess.run(["sha256sum", "heap.o"], cwd=f"{library.top}/lib", stdout=subprocess.PIPE, text=True).stdout
    lines = library.read(f"a clone/{KEPT}.sources").decode().splitlines()
    library.write(f"a clone/{KEPT}.sources", "".join(f"{it}\n" for it in (*lines[:2], said.rstrip(), *lines[3:])))


def packed_with(library):
    """And put together with it."""
    another_heap(library)
    library.pack(f"a clone/{KEPT}", ("libmigrate.o", "the codeanother heap"))


def change_at(text, name=KEPT):
    """Changes the first byte of this text in a file."""
    return lambda library: library.change(name, library.read(f"a clone/{name}").index(text))


OTHER, HEAP, UNREAD = "is not what was proved and built from these sources", "lib/heap.o is not what was made", "that is mig_c.o alone"
CHANGES = [
    ("a byte of the code in the kept file is another", change_at(b"the code"), OTHER), ("a byte of a header in the kept file is another", change_at(b"644"), OTHER),
    ("a byte of heap.o in the kept file is another", change_at(b"made by"), OTHER), ("a byte of heap.o is another", change_at(b"made by", "lib/heap.o"), OTHER),
    ("heap.o is another, with its sum", another_heap, OTHER), ("heap.o is another, with its sum, in the kept file too", packed_with, "lib/heap.o is not what cc makes"),
    ("there is no heap.o", lambda it: it.remove("lib/heap.o"), "there is no lib/heap.o"), ("there is no kept file", lambda it: it.remove(KEPT), OTHER),
    ("lib/heap.c has changed", lambda it: it.change("lib/heap.c"), HEAP), ("lib/migrate.h has changed", lambda it: it.change("lib/migrate.h"), HEAP),
    ("there are no sums beside the kept file", lambda it: it.remove(f"{KEPT}.sources"), HEAP),
    ("it is handed a file with one byte changed", change_at(b"the code", PROVED), OTHER), ("it is handed a file with one byte of a header changed", change_at(b"mig_c", PROVED), UNREAD),
    ("nothing was proved", lambda it: it.remove(PROVED), UNREAD),
]


def checked(name, library, *parts, given=PROVED, **how):
    """lib/check refuses what it is handed and says these parts; without any it passes it."""
    ran = library.run("lib/check", given, **how)
    if parts:
        refused(f"lib/check: {name}", ran, *parts, "\n0 passed, 1 failed\n")
    else:
        Count.that(f"lib/check: {name}", ran.status == 0 and ran.out.endswith(b"\n1 passed, 0 failed\n"), ran)
    return ran


def the_comparison():
    """lib/check passes what lib/renew left, beside what was proved, and nothing else."""
    with Library() as library:
        library.keep()
        checked("what lib/renew left", library)
        for name, change, part in CHANGES:
            change(library)
            checked(name, library, part)
            library.restore()
        library.pack("another.a", ("mig_c.o", "other code"))
        library.pack("packed.a", ("mig_c.o", "the code"), ("heap.o", "another heap"))
        shutil.copy(f"{library.top}/{KEPT}", library.path("copy.a"))
        os.symlink(f"{library.top}/{KEPT}", library.path("link.a"))
        for name, given, part in (("another file", "lib/heap.c", UNREAD), ("another archive", "../another.a", OTHER), ("no file", "none", UNREAD),
                                  ("an archive with another heap.o", "../packed.a", UNREAD), ("the kept file itself", KEPT, UNREAD),
                                  ("a link to the kept file", "../link.a", UNREAD), ("a copy of the kept file", "../copy.a", UNREAD)):
            checked(f"it is handed {name}", library, part, given=given)
        bare = library.without("cc")
        checked("the kit isn't on the path", library, UNREAD, PATH=bare)
        os.symlink(f"{library.kit}/rt", f"{bare}/rt")
        for tool in TOOLS:
            checked(f"the kit's {tool} fails", library, UNREAD, FAILS=tool)
        for name, how in (("another cc is on the path", {"VERSION": "2"}), ("no cc is on the path", {"PATH": bare})):
            ran = checked(f"{name}: the library passes", library, **how)
            Count.that(f"lib/check: {name}: it is said that heap.o is held to its sum", b"is held to its sum" in ran.out, ran)
            library.change("lib/heap.o")
            library.pack(f"a clone/{KEPT}", ("libmigrate.o", "the code" + library.read("a clone/lib/heap.o").decode()))
            checked(f"{name}, and heap.o is another", library, HEAP, **how)
            library.restore()


# What is built

def builds_that_fail():
    """A build that fails, or is stopped, leaves the library before it as it was, lib/check refuses it beside what is proved then, and the next build goes on."""
    with Library() as library:
        refused("lib/build whose rattle fails", library.run("lib/build", "here.a", FAILS="rattle"), "rattle fails")
        refused("lib/build whose rt fails", library.run("lib/build", "here.a", FAILS="rt"), "rt fails")
        Count.same("lib/build to a relative place", (library.run("lib/build", "here.a", cwd=library.at).status, library.read("here.a")), (0, library.read("kit/proved.a")))
        library.put({"cp": HALF.format("cp", CP), "mv": HALF.format("mv", MV)})
        for way, name in [("FAILS", it) for it in ("rt", "rattle", "cc", *TOOLS)] + [("STOP", it) for it in ("rt", "rattle", "cc", *TOOLS, "cp", "mv")]:
            what = f"lib/renew whose {name} fails" if way == "FAILS" else f"lib/renew that is stopped at {name}"
            before = library.kept()
            library.pack("kit/proved.a", ("mig_c.o", what))
            refused(what, library.run("lib/renew", **{way: name}), *["could not be"] * (way == "FAILS"))
            Count.same(f"{what}: the library before it stands", library.kept(), before)
            if way == "STOP":
                checked(f"{what}: lib/check refuses that one", library, OTHER, given="../kit/proved.a")
                Count.that(f"{what}: the next one ends", library.run("lib/renew").status == 0 and what.encode() in library.kept())
            Count.same(f"{what}: nothing else is left", sorted(set(os.listdir(f"{library.top}/lib")) - set(os.listdir(f"{TOP}/lib"))), [])


# What is installed

def installed(name, library, folder, prefix, *words, archive=KEPT, **how):
    """lib/install with these words leaves in this folder the header, both libraries and the file for pkg-config, for this prefix, and nothing else."""
    read = lambda path: open(os.path.join(library.top, path), "rb").read()
    ran = library.run("lib/install", *words, **how)
    Count.that(name, ran.status == 0 and not ran.err and f"after `ldconfig`, if the system looks there, or by -Wl,-rpath,{prefix}/lib.\n".encode() in ran.out, ran)
    found = sorted(os.path.relpath(f"{at}/{it}", folder) for at, _, names in os.walk(folder) for it in names)
    major, version = VERSION.split(".")[0], VERSION
    files = ["include/migrate.h", "lib/libmigrate.a", "lib/libmigrate.so", f"lib/libmigrate.so.{major}", f"lib/libmigrate.so.{version}", "lib/pkgconfig/libmigrate.pc"]
    Count.same(f"{name}: what is installed", found, files)
    if ran.status == 0 and found == files:
        header, one, shared, _, _, told = (read(f"{folder}/{it}") for it in found)
        Count.same(f"{name}: the header, the archive and the shared library of it", (header, one, shared), (read("lib/migrate.h"), read(archive), b"made by 1: " + read(archive).rstrip(b"\n") + b"\n"))
        Count.same(f"{name}: the file for pkg-config", told.decode(), read("lib/libmigrate.pc.in").decode().replace("@PREFIX@", prefix).replace("@VERSION@", version))
    return library.calls()


def what_is_installed():
    """lib/install to each kind of prefix; and where something is left out it fails, and installs nothing."""
    with Library() as library:
        at = library.path("there")
        library.mkdir("there")
        library.pack("own.a", ("mig_c.o", "code of its own"), ("heap.o", "a heap"))
        calls = installed("lib/install to an absolute prefix", library, f"{at}/1", f"{at}/1", f"{at}/1")
        Count.that("lib/install gives the names of the map alone", len(calls) == 1 and f"-Wl,-soname,libmigrate.so.{VERSION.split('.')[0]} -Wl,--version-script={library.top}/lib/libmigrate.map" in calls[0], calls)
        installed("lib/install to a relative prefix", library, f"{at}/2/a", f"{at}/2/a", "2/a", cwd=at)
        installed("lib/install to a prefix with a blank in it", library, f"{at}/a b&c", f"{at}/a b&c", f"{at}/a b&c")
        installed("lib/install of an archive of its own", library, f"{at}/3", f"{at}/3", f"{at}/3", "../own.a", cwd=at, archive=library.path("own.a"))
        ran = library.run("lib/install", f"{at}/7", PYTHON=f"{at}/7/py")
        Count.that("lib/install with PYTHON: the module", ran.status == 0 and library.read("there/7/py/migrate.py") == library.read("a clone/lib/migrate.py"), ran)
        library.calls()
        installed("lib/install with DESTDIR", library, f"{library.at}/stage{at}/4", f"{at}/4", f"{at}/4", DESTDIR=library.path("stage"))
        Count.that("lib/install with DESTDIR: the prefix itself is not made", not os.path.exists(f"{at}/4"))
        library.stand_in("kit/other", 'echo "other $*" >>"$KIT/calls"; exec cc "$@"')
        calls = installed("lib/install with CC and CFLAGS", library, f"{at}/5", f"{at}/5", f"{at}/5", CC="other -m64", CFLAGS="-O1 -g")
        Count.that("lib/install with CC and CFLAGS: they are called", calls and calls[0].startswith("other -m64 -O1 -g -shared "), calls)
        bare = library.without("cc")
        for name, part, how in (("no cc on the path", "cc: command not found", {"PATH": bare}), ("a cc that fails", "cc fails", {"FAILS": "cc"}), ("a CC that is none", "nocc: command not found", {"CC": "nocc"})):
            refused(f"lib/install with {name}", library.run("lib/install", f"{at}/6", **how), part)
        refused("lib/install of an archive that isn't there", library.run("lib/install", f"{at}/6", "none.a"), "none.a")
        library.remove("lib/migrate.h")
        refused("lib/install with the header left out", library.run("lib/install", f"{at}/6"), "migrate.h")
        Count.same("lib/install that fails installs nothing", [names for _, _, names in os.walk(f"{at}/6") if names], [])


CASES = [the_comparison, builds_that_fail, what_is_installed] if shutil.which("ar") else []
if not CASES:
    print("note: there is no ar, so lib/ is not tried")

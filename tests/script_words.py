"""What each script says of its use and of words that it doesn't know; and that it does nothing else then."""
import os
from script_rooms import Tree
from session_rooms import Count

# each with the words that it doesn't know
SCRIPTS = {
    "built/program": ["typo"], "built/renew": ["typo"], "built/check": ["", "a b"],
    "lib/build": ["", "a b"], "lib/renew": ["typo", "-n"], "lib/check": ["", "a b"], "lib/install": ["", "to an archive more", "--prefix to"],
    "tests/all": ["typo", "PROGRAM --fast"], "tests/session": ["typo"], "tests/damage": ["PROGRAM typo"],
    "tests/power": ["", "PROGRAM typo", "--more PROGRAM"], "tests/contrib/run": ["typo", "PROGRAM typo"],
    "tests/script": ["", "typo"], "tests/audit": ["typo", "--check more", "--definitions two files"], "tests/pages": ["typo"], "tests/library": ["typo", "PROGRAM PROGRAM PROGRAM"],
}


def words():
    with Tree("built", "lib", "tests", "bench", "contrib", "crates.txt") as tree:
        for it in ("rt", "cc", "ar"):
            tree.stand_in(f"kit/{it}", f'echo "{it} $*" >>"$KIT/calls"')
        files = lambda: sorted((f"{at}/{it}", os.stat(f"{at}/{it}").st_mtime_ns) for at, _, names in os.walk(tree.at) for it in names)
        for script, unknown in SCRIPTS.items():
            before = files()
            ran = tree.run(script, "--help")
            use = f"usage: {os.path.basename(script)}".encode()
            Count.that(f"{script} --help", ran.status == 0 and ran.out.startswith(use) and not ran.err, ran)
            for it in unknown:
                ran = tree.run(script, *it.replace("PROGRAM", tree.path("migrate")).split())
                Count.that(f"{script} {it or 'without words'}", ran.status == 2 and use in ran.err and not ran.out, ran)
            Count.same(f"{script}: nothing is called then, and no file is written", (tree.calls(), files()), ([], before))


CASES = [words]

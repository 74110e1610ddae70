"""The pages: what tests/pages and tests/audit --check make of each thing that they must refuse."""
import os
from script_rooms import Tree, refused
from session_rooms import Count

PAGES = {
    "README.md": "# a\n\nVersion 1.2. [man](docs/migrate.1)\n\n[map](docs/MAP.md), [changes](docs/CHANGES.md), [part](docs/MAP.md#the-parts-of-a-b), ![p](docs/p.svg), [here](#two), [web](https://none.example)\n## Two\n`[no](link)`\n## Commands\n| `plan IN OUT` | x |\n| `a-b`, `c` | y |\n",
    "docs/MAP.md": "# For a reader: map\n\n## The parts of `A`, b\n\n| mig_a | this |\n| migrate | that |\n\n[next](next.md#x-1) [f](FORMATS.md)\n```\n[no](link)\n## no heading\n```\n",
    "docs/next.md": "# Next\n\nFor another.\n\n[up](../README.md)\n## x\n## x\n", "docs/p.svg": "", "docs/FORMATS.md": "# Forms\n\nFor all.\n\n    plan IN OUT\n    a-b IN\n    c IN\n",
    "docs/migrate.1": '.TH MIGRATE 1 "" "migrate 1.2"\n\\fBmigrate plan\\fR \\fIIN OUT\\fR\n\\fBmigrate a-b\\fR \\fIIN\\fR\n\\fBmigrate c\\fR \\fIIN\\fR\n.SH VERSION\n1.2. x\n', "crates/mig_words/src/words.rt": '    "plan" IN => OUT: "plans";\n    "a-b" IN =>: "reads";\n    "c" IN =>: "reads";\n', "lib/migrate.h": '#define MIGRATE_VERSION "1.2"\n', "docs/CHANGES.md": "# Changes\n\nFor x.\n\n## 1.2\n\n## 1.1\n", "crates.txt": "mig_a:\nmigrate staticlib: mig_a\n",
    "crates/mig_a/specs/Ones.antt": "-- x\nabbrev pub One : Type 0\nOne = ℕ\n\npub record Two : Type 0 where\n  pub x : ℕ\n\nabbrev pub two_of : ℕ\n",
    "crates/mig_a/specs/low/More.antt": "pub data Four : Type 0 where\n  Two : Four\n\nabbrev pub spot : ℕ\n", "crates/mig_a/src/ones.rt": "pub struct One;\nimpl One {\n    type Two = One;\n}\nenum Five {}\n",
    "crates/mig_b/specs/Bs.antt": "unfoldable pub six : ℕ\nabbrev pub spot : ℕ\n", "crates/mig_b/src/deep/bs.rt": "pub(crate) trait Seven {}\n", "crates/mig_test_a/src/lib.rt": "struct Two;\n",
}
PAGES["docs/MAP.md"] += "\n## Words\n\n- **one**, `One`: a thing.\n- **two**, `Two`, `two_of` and `Five`: a word of `three` names.\n\n## Last\n\n- no word\n"
ONES, MORE, BS, BS_CODE = "crates/mig_a/specs/Ones.antt", "crates/mig_a/specs/low/More.antt", "crates/mig_b/specs/Bs.antt", "crates/mig_b/src/deep/bs.rt"
MAP, README, NEXT, ROWS = "docs/MAP.md", "README.md", "docs/next.md", "crates/mig_words/src/words.rt"
# what is changed: the page, what stands there, what takes its place, and what is said of it
CHANGES = [
    ("a link to no file", README, "(docs/MAP.md)", "(docs/NAP.md)", "README.md: the link docs/NAP.md leads to no file"),
    ("a link from the wrong folder", NEXT, "../README.md", "README.md", "docs/next.md: the link README.md leads to no file"),
    ("a picture that is none", README, "(docs/p.svg)", "(docs/q.svg)", "README.md: the link docs/q.svg leads to no file"),
    ("a link to no heading", README, "#the-parts", "#parts", "README.md: the link docs/MAP.md#parts-of-a-b leads to no heading"),
    ("a link to no heading of its own page", README, "(#two)", "(#three)", "README.md: the link #three leads to no heading"),
    ("a heading in a block", MAP, "x-1", "x-2", "docs/MAP.md: the link next.md#x-2 leads to no heading"),
    ("a link to a heading of a block", README, "(#two)", "(docs/MAP.md#no-heading)", "README.md: the link docs/MAP.md#no-heading leads to no heading"),
    ("an anchor in what is no page", README, "(docs/p.svg)", "(docs/p.svg#two)", "README.md: the link docs/p.svg#two leads to no heading"),
    ("a page that only itself links to", MAP, "(next.md#x-1)", "(#for-a-reader-map)", "docs/next.md: no link leads there from the README"),
    ("a picture that nobody shows", README, "![p](docs/p.svg)", "", "docs/p.svg: no link leads there from the README"),
    ("a page for nobody", NEXT, "For another", "Of another", "docs/next.md: its title or first line doesn't say for whom it is"),
    ("a page whose third line says for whom it is", NEXT, "For another", "Of all\nFor another", "docs/next.md: its title or first line doesn't say for whom it is"),
    ("a page without a title", NEXT, "# Next", "Next", "docs/next.md: its title or first line doesn't say for whom it is"),
    ("too many words in the README", README, "## Two", "## Two\n" + "word " * 2472, "README.md has 2501 words, more than 2500"),
    ("too many lines in the README", README, "## Two", "## Two" + "\n" * 191, "README.md has 201 lines, more than 200"),
    ("too many words in docs", NEXT, "## x\n##", "word " * 39921 + "\n## x\n##", "docs/ has 40001 words, more than 40000"),
    ("a crate without a row", MAP, "| mig_a | this |", "", "docs/MAP.md: 0 rows of its table say what mig_a does"),
    ("a crate of two rows", MAP, "| migrate |", "| mig_a | more |\n| migrate |", "docs/MAP.md: 2 rows of its table say what mig_a does"),
    ("a row of no crate", MAP, "| migrate |", "| mig_b | more |\n| migrate |", "docs/MAP.md: 1 rows of its table say what mig_b does, which stands 0 times"),
    ("a command that no page has", ROWS, '    "c"', '    "d" IN =>: "reads";\n    "c"', "docs/FORMATS.md: its forms are not those"),
    ("a row with other words", ROWS, "IN => OUT", "OUT => IN", "docs/FORMATS.md: its forms are not those"),
    ("no rows", ROWS, '    "', '"', "docs/FORMATS.md: its forms are not those"),
    ("a form that the manual page lacks", "docs/migrate.1", "\\fBmigrate c\\fR \\fIIN\\fR\n", "", "docs/migrate.1: its forms are not those"),
    ("a form with other words", "docs/migrate.1", "\\fIIN OUT", "\\fIOUT IN", "docs/migrate.1: its forms are not those"),
    ("a form that FORMATS lacks", "docs/FORMATS.md", "    c IN\n", "", "docs/FORMATS.md: its forms are not those"),
    ("a command that the README lacks", README, ", `c`", "", "README.md: its table of commands does not have"),
    ("another command", README, "`c`", "`d`", "README.md: its table of commands does not have"),
    ("a command that is none", README, "`a-b`", "`a-b`, `d`", "README.md: its table of commands does not have"),
    ("another version of the README", README, "1.2", "1.3", "the version is another"), ("another version of the library", "lib/migrate.h", "1.2", "1.3", "the version is another"), ("another version of the changes", "docs/CHANGES.md", "## 1.2", "## 1.3", "the version is another"),
    ("another version of the manual page", "docs/migrate.1", "migrate 1.2", "migrate 1.3", "the version is another"),
    ("another version at its end", "docs/migrate.1", "\n1.2", "\n1.3", "the version is another"), ("no version", README, "Version 1.2", "Version", "the version is another"),
    ("a definition of two crates", BS, "six", "Two", f"the name Two means two things: {ONES}, {BS}"), ("a definition of two files of one crate", MORE, "data Four", "data Two", f"the name Two means two things: {ONES}, {MORE}"),
    ("a type and a definition of another crate", BS_CODE, "Seven", "two_of", f"the name two_of means two things: {ONES}, {BS_CODE}"), ("a type of two crates", BS_CODE, "Seven", "Five", f"the name Five means two things: crates/mig_a/src/ones.rt, {BS_CODE}"),
    ("a type and two definitions", BS, "six", "One", "the name One means two things"), ("a word that is gone", BS, "six", "six_trips", f"the name six_trips has the word trip, for which transfer is said: {BS}"),
    ("another such word", BS_CODE, "Seven", "SevenEnding", "the name SevenEnding has the word ending"),
    ("a word whose name nothing defines", MAP, "`two_of`", "`two_in`", "docs/MAP.md: its page of words says that two is two_in, which nothing defines"), ("a word that is said twice", MAP, "**two**", "**one**", "docs/MAP.md: its page of words says twice what one means"),
    ("a word without a name", MAP, ", `One`:", ":", "docs/MAP.md: 1 of the 2 rows of its page of words have a word"), ("a word without a meaning", MAP, " a thing.", "", "docs/MAP.md: 1 of the 2 rows of its page of words have a word"), ("no page of words", MAP, "## Words", "## Rows", "docs/MAP.md: 0 of the 0 rows of its page of words have a word"),
    ("too many words", MAP, "- **one**", "".join(f"- **{n}**, `One`: x\n" for n in range(39)) + "- **one**", "docs/MAP.md: its page of words has 41 words, more than 40"),
    ("a row that says nothing", MAP, "| mig_a | this |", "| mig_a | |", "docs/MAP.md: 0 rows of its table say what mig_a does"),
]


def the_pages():
    with Tree("tests/pages", "tests/usage.py", "tests/pages_words.py") as tree:
        [os.makedirs(f"{tree.top}/{os.path.dirname(it)}", exist_ok=True) for it in PAGES]
        put = lambda: [tree.write(f"a clone/{name}", text) for name, text in PAGES.items()]
        put()
        ran = tree.run("tests/pages")
        Count.that("pages that are right", ran.status == 0 and ran.out == b"40 passed, 0 failed\n", ran)
        for name, page, old, new, said in CHANGES:
            Count.that(f"{name}: the page has what is changed", old in PAGES[page])
            tree.write(f"a clone/{page}", PAGES[page].replace(old, new, 1))
            refused(name, tree.run("tests/pages"), f"FAILED: {said}")
            put()
        for name, page, old, new in (
            ("as many words as the README may have", README, "## Two", "## Two\n" + "word " * 2471), ("as many lines", README, "## Two", "## Two" + "\n" * 190),
            ("as many words as docs may have", NEXT, "## x\n##", "word " * 39920 + "\n## x\n##"),
        ):
            tree.write(f"a clone/{page}", PAGES[page].replace(old, new, 1))
            Count.same(name, tree.run("tests/pages").status, 0)
            put()
        tree.write(f"a clone/{ROWS}", PAGES[ROWS].replace("IN => OUT", "OUT IN => IN"))
        Count.same("tests/pages --write", tree.run("tests/pages", "--write").status, 0)
        for page, old, new in (("docs/FORMATS.md", "plan IN OUT", "plan OUT IN IN"), ("docs/migrate.1", "IN OUT", "OUT IN IN")):
            written = tree.read(f"a clone/{page}").decode()
            Count.same(f"{page}: the forms that are put there", written, PAGES[page].replace(old, new))
        Count.same("pages with the forms that are put there", tree.run("tests/pages").status, 0)


def the_reading_list():
    """docs/AUDIT.md is what the sources say, or it is refused."""
    with Tree("tests/audit", "tests/usage.py", "crates.txt", "crates", "docs/AUDIT.md") as tree:
        Count.same("tests/audit --check", tree.run("tests/audit", "--check").status, 0)
        text = tree.read("a clone/docs/AUDIT.md").decode()
        spec = "a clone/crates/mig_base/specs/Schedules.antt"
        held = tree.read(spec).decode()
        for name, path, changed in (
            ("a row of docs/AUDIT.md is gone", "a clone/docs/AUDIT.md", "".join(it for it in text.splitlines(True) if "Schedules.antt" not in it)),
            ("a total of docs/AUDIT.md is another", "a clone/docs/AUDIT.md", text.replace("Together ", "Together 1", 1)),
            ("a definition has one line more", spec, held.replace("abbrev pub Obeys :", "abbrev pub Obeys :\n   ", 1)),
        ):
            tree.write(path, changed)
            refused(f"tests/audit --check: {name}", tree.run("tests/audit", "--check"), "docs/AUDIT.md is not what the sources say")
            tree.write("a clone/docs/AUDIT.md", text)
            tree.write(spec, held)
        ran = tree.run("tests/audit", "--definitions", tree.path("words.md"))
        words = tree.read("words.md") or b""
        Count.that("tests/audit --definitions FILE", ran.status == 0 and not ran.out and b"- `IsName`: 1 to 32 bytes" in words and b"(a clone/crates/mig_base/specs/" in words, ran)
        Count.that("tests/audit --definitions", b"- `IsName`: 1 to 32 bytes" in tree.run("tests/audit", "--definitions").out)
        Count.that("tests/audit --crates", b"\nmig_sides\n    stands on: mig_base, mig_graph\n    used by: mig_plan, mig_test_calls\n" in tree.run("tests/audit", "--crates").out)


CASES = [the_pages, the_reading_list]

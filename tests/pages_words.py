"""Words: which names of the crates mean two things, and whether docs/MAP.md's page of words names what is there.

A word is the name of a public definition of specs/, or of a struct, an enum, a trait or a type of src/ that stands in
no other item. The crates of tests alone have words of their own, which aren't read, nor are names of proofs. A name
means two things where two files define it; but a type and a definition of one crate are one thing, told twice."""
import collections, glob, os, re

DEFINITION = re.compile(r"^(?:abbrev pub|unfoldable pub|pub record|pub data) (\S+)", re.M)
TYPE = re.compile(r"^(?:pub(?:\([a-z]+\))? )?(?:struct|enum|trait|type) (\w+)", re.M)
PAGE, TITLE, MOST = "docs/MAP.md", "\n## Words\n", 40
ROW = re.compile(r"^- \*\*([^*]+)\*\*, ((?:`[^`]+`(?:, | and )?)+): \S", re.M)
# what a type and a definition of two crates tell alike, or two crates of which neither stands on the other
SAME = {"SinkFailed", "StoreFailed", "count_line", "layout_of", "same_spot", "spot"}
# words that another has taken the place of, as parts of names
GONE = {"trip": "transfer", "ending": "outcome", "finding": "refusal"}


def defined(top):
    """Where each word is defined: the crate, the file, and whether it is a type."""
    found = collections.defaultdict(list)
    sources = [(False, DEFINITION, "crates/*/specs/**/*.antt"), (True, TYPE, "crates/*/src/**/*.rt")]
    for kind, pattern, places in sources:
        for path in sorted(glob.glob(places, root_dir=top, recursive=True)):
            crate = path.split("/")[1]
            if not crate.startswith("mig_test_"):
                with open(f"{top}/{path}", encoding="utf-8") as file:
                    for name in pattern.findall(file.read()):
                        found[name].append((crate, path, kind))
    return found


def means_two(places):
    """Whether these are more than one thing."""
    kinds = [kind for _, _, kind in places]
    return len(places) > 1 and not (sorted(kinds) == [False, True] and places[0][0] == places[1][0])


def parts_of(name):
    """A name's words, each without an s at its end."""
    return {it.lower().removesuffix("s") for it in re.findall(r"[A-Z]?[a-z]+|[A-Z]+(?![a-z])", name)}


def wrong(top):
    """The names that aren't one word for one thing, each with what is said of it."""
    said = {}
    for name, places in defined(top).items():
        if means_two(places) and name not in SAME:
            said[name] = f"means two things: {', '.join(sorted({path for _, path, _ in places}))}"
        for word in sorted(parts_of(name) & set(GONE)):
            said.setdefault(name, f"has the word {word}, for which {GONE[word]} is said: {places[0][1]}")
    return said


def look(top, that):
    """Says of each word whether it holds."""
    found, names = wrong(top), defined(top)
    that(names, "no name is found in the crates")
    for name in sorted(found):
        that(False, f"the name {name} {found[name]}")
    with open(f"{top}/{PAGE}", encoding="utf-8") as file:
        page = file.read().partition(TITLE)[2].partition("\n## ")[0]
    rows = ROW.findall(page)
    words = [word for word, _ in rows]
    all_rows = len(re.findall(r"^- ", page, re.M))
    said = "rows of its page of words have a word, its name and its meaning"
    that(rows and len(rows) == all_rows, f"{PAGE}: {len(rows)} of the {all_rows} {said}")
    that(len(rows) <= MOST, f"{PAGE}: its page of words has {len(rows)} words, more than {MOST}")
    for word in sorted({*words}):
        that(words.count(word) == 1, f"{PAGE}: its page of words says twice what {word} means")
    for word, shown in rows:
        for name in re.findall(r"`([^`]+)`", shown):
            that(name in names, f"{PAGE}: its page of words says that {word} is {name}, which nothing defines")

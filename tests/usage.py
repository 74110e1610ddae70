"""How a suite is called: it says its use where it is asked for it (--help), or where it doesn't understand its words, and does nothing else."""
import os, sys


def refuse(doc, why):
    print(f"{why}\nusage: {doc}", file=sys.stderr)
    sys.exit(2)


def files(doc, least=0, most=sys.maxsize, words=sys.argv[1:]):
    """The words, where they name so many files."""
    if words[:1] == ["--help"]:
        print(f"usage: {doc}")
        sys.exit(0)
    for word in words:
        if not os.path.isfile(word):
            refuse(doc, f"there is no file {word}")
    if not least <= len(words) <= most:
        refuse(doc, f"{len(words)} words are not as many as it takes")
    return words

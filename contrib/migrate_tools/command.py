"""What all commands share: their words, what they say where something is wrong, and files that are read and saved
whole."""
import argparse, functools, os, sys, tempfile
from collections.abc import Callable, Iterable, Mapping


class Wrong(Exception):
    """What is wrong, in a sentence. It begins with the file that has it, and its row, where these are known."""

    def __init__(self, said: object, path: str = "", row: int = 0) -> None:
        super().__init__(f"{path} row {row}: {said}" if row else f"{path} {said}" if path else said)
        self.path, self.row = path, row


def tool() -> str:
    return os.path.basename(sys.argv[0])


def here() -> str:
    """The folder of this command, in which the others are too."""
    return os.path.dirname(os.path.abspath(sys.argv[0]))


def note(text: object) -> None:
    print(f"{tool()}: {text}", file=sys.stderr)


def command(work: Callable[[], None]) -> Callable[[], None]:
    """Makes a command. Where something is wrong it says so, and ends with status 1. No file has been written then."""
    @functools.wraps(work)
    def main() -> None:
        try:
            work()
        except Wrong as wrong:
            note(wrong)
            sys.exit(1)
    return main


def words(doc: str | None, *names: str) -> argparse.ArgumentParser:
    """A reader of the words of a command, with its own text as its help; these come first."""
    reader = argparse.ArgumentParser(prog=tool(), description=doc, allow_abbrev=False,
                                     formatter_class=argparse.RawDescriptionHelpFormatter)
    for name in names:
        reader.add_argument(name, metavar=name.upper())
    return reader


def read_bytes(path: str) -> bytes:
    try:
        with open(path, "rb") as file:
            return file.read()
    except OSError as error:
        raise Wrong(f"cannot be read: {error.strerror}", path) from None


def read_text(path: str) -> str:
    """The text of a file, without a byte order mark."""
    try:
        return read_bytes(path).decode("utf-8-sig")
    except UnicodeDecodeError as error:
        raise Wrong(f"is no text in UTF-8: byte {error.start} does not fit", path) from None


def save_all(files: Mapping[str, str], inputs: Iterable[str] = (), mode: int = 0o644) -> None:
    """Saves all of these texts, by their paths, each whole, or none where one cannot be written."""
    for path in files:
        if os.path.exists(path) and not os.path.isfile(path) or os.path.abspath(path).startswith(("/dev/", "/proc/")):
            raise Wrong("is there and is no plain file, so it is not replaced", path)
        if any(os.path.exists(path) and os.path.exists(other) and os.path.samefile(path, other) for other in inputs):
            raise Wrong("was read, and is not written over", path)
    ready: dict[str, str] = {}
    files = {os.path.realpath(path): text for path, text in files.items()}  # what a link leads to is replaced
    try:
        for path, text in files.items():
            handle, ready[path] = tempfile.mkstemp(".new", os.path.basename(path) + ".", os.path.dirname(path) or ".")
            with open(handle, "w", encoding="utf-8", newline="") as file:
                file.write(text)
                file.flush()
                os.fchmod(handle, mode)
                os.fsync(handle)
        for path in files:
            os.replace(ready[path], path)
            del ready[path]
    except OSError as error:
        for left in filter(os.path.exists, ready.values()):
            os.unlink(left)
        raise Wrong(f"cannot be written: {error.strerror}", path) from None


def put(text: str, out: str | None = None, inputs: Iterable[str] = (), mode: int = 0o644) -> None:
    """Saves a text, or prints it where there is no path. Where its reader has gone, as `head` goes, nothing is said."""
    if out is not None:
        return save_all({out: text}, inputs, mode)
    if sys.stdout is None:
        raise Wrong("standard output is closed")
    try:
        sys.stdout.buffer.write(text.encode("utf-8", "surrogateescape"))
        sys.stdout.flush()
    except OSError as error:
        os.dup2(os.open(os.devnull, os.O_WRONLY), 1)
        if not isinstance(error, BrokenPipeError):
            raise Wrong(f"standard output cannot be written: {error.strerror}") from None
    return None

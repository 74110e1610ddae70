"""What is called: a program whose output is read, and --hook, where something fails or a run ends; how it ends."""
import argparse, shlex, subprocess, sys
from collections.abc import Sequence
from dataclasses import dataclass
from typing import NoReturn
from .clock import ENDED
from .command import Wrong, note, put


def output(*words: str, folder: str = ".", passes: bool = False) -> str:
    """What a program prints, which has to end well. What it says besides is passed on where it `passes`."""
    try:
        ran = subprocess.run(words, cwd=folder, capture_output=True, text=True, check=False, stdin=subprocess.DEVNULL)
    except OSError as error:
        raise Wrong(f"there is no command {words[0]}: {error.strerror}") from None
    if ran.returncode:
        said = (ran.stderr or ran.stdout).strip()[-1000:]
        raise Wrong(f"{' '.join(words)} ended with status {ran.returncode}: {said}")
    if passes:
        sys.stderr.write(ran.stderr)
    return ran.stdout


def add_hook(reader: argparse.ArgumentParser) -> None:
    reader.add_argument("--hook", metavar="'COMMAND WORD..'", type=shlex.split, default=[],
                        help="called with two more words where a check fails (failed), where it stops (stopped), where "
                        "--until ends it (ended), and where all is done (done): this, and what is said of it")


def call(hook: Sequence[str], what: str, text: str) -> None:
    """Calls it, and waits for it. What it does changes nothing of the run."""
    try:
        if hook and (ran := subprocess.run([*hook, what, text], stdin=subprocess.DEVNULL, check=False)).returncode:
            note(f"--hook ended with status {ran.returncode}: {shlex.join(hook)}")
    except OSError as error:
        note(f"--hook cannot be called: {error.strerror}: {shlex.join(hook)}")


@dataclass
class Ending:
    """How a run of this name ends: what is said, and what its hook is told. `again` says how to begin it again."""
    name: str
    again: str
    hook: Sequence[str] = ()

    def end(self, what: str, where: str, more: str = "", status: int = ENDED) -> NoReturn:
        """`what` is ended, as --until says, or stopped; `more` says what that leaves."""
        text = f"{what} {where}" + ", as --until says" * (what == "ended")
        note(f"{text}{more}; {self.again}")
        call(self.hook, what, f"{self.name}: {text}")
        sys.exit(status)

    def done(self, text: str = "all rounds are carried out") -> None:
        call(self.hook, "done", f"{self.name}: {text}")
        put(f"{text}\n")

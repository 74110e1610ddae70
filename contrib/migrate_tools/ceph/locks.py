"""One script at a time, where nobody else would keep a second one away: who is at work stands in a key of the cluster,
which all of them see."""
import datetime, json, os, socket, time, uuid
from ..command import Wrong
from .cluster import Key


def began(process: int) -> str:
    """When a process of this machine began, in ticks since it was switched on; empty where there is none."""
    try:
        with open(f"/proc/{process}/stat", encoding="ascii", errors="replace") as file:
            return file.read().rpartition(") ")[2].split()[19]
    except OSError:
        return ""


class Lock:
    """Keeps others away from the cluster, from `take` to `release`. Whoever takes it over by force says
    so there, and the one before finds it out by `check`. The two that take it in the same moment find it out too."""

    def __init__(self, store: Key, what: str) -> None:
        """`what` is at work, in words, as the path of a script."""
        self.store = store
        self.text = json.dumps({"what": what, "host": socket.gethostname(), "process": os.getpid(),
                                "began": began(os.getpid()), "since": time.time(), "key": uuid.uuid4().hex})

    def holder(self) -> str:
        """Who is at work, in words; empty where nobody is, or who was has ended on this machine."""
        text = self.store.get().strip()
        try:
            it = json.loads(text) if text and text != self.text else None
            if not it or it["host"] == socket.gethostname() and it["began"] != began(it["process"]):
                return ""
            since = datetime.datetime.fromtimestamp(it["since"]).strftime("%Y-%m-%d %H:%M:%S")
            return f"{it['what']}, process {it['process']} of {it['host']}, since {since}"
        except (ValueError, LookupError, TypeError):
            return f"someone who says of it '{text[:80]}'"

    def take(self, force: bool) -> None:
        holder = self.holder()
        if holder and not force:
            raise Wrong(f"{holder} is at work already, so nothing was begun; --force takes its place, and stops it")
        self.store.set(self.text)
        self.check()

    def check(self) -> None:
        if self.store.get().strip() != self.text:
            raise Wrong(f"{self.holder() or 'someone who has ended'} took the place of this script by --force")

    def release(self) -> None:
        if self.store.get().strip() == self.text:
            self.store.remove()

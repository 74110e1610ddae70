"""What a cluster says of itself, by `ceph --format json`, and what it is told."""
import json, re
from collections.abc import Sequence
from concurrent.futures import ThreadPoolExecutor
from dataclasses import dataclass
from typing import Any
from ..calls import output
from ..command import Wrong
from .crush import Pairs

LOCK = "migrate/ceph-step"  # the key that says which script is at work
AT_ONCE = 8  # so many commands side by side: each takes about a second, most of it to begin


class Silent(Exception):
    """The cluster did not answer, why in a sentence."""


def ceph(*words: str) -> str:
    """What a command of `ceph` prints."""
    try:
        return output("ceph", *words)
    except Wrong as why:
        raise Silent(why) from None


def asked(words: Sequence[str]) -> Any:
    """What a command of `ceph` prints as JSON."""
    said = ceph(*words, "--format", "json")
    try:
        return json.loads(said)
    except ValueError:
        raise Silent(f"ceph {' '.join(words)} printed what is no JSON: {said[:80]!r}") from None


def all_of(*words: Sequence[str]) -> list[Any]:
    """What these print, called side by side."""
    with ThreadPoolExecutor(AT_ONCE) as pool:
        return list(pool.map(asked, words))


def backfills_of(osds: Sequence[int]) -> dict[int, int]:
    """osd_max_backfills of each of these OSDs, as it says itself: of all by one command, and of those of which that
    said nothing, as where another OSD is down, one by one."""
    words = ["config", "get", "osd_max_backfills"]
    try:
        said = ceph("tell", "osd.*", *words, "--format", "json")
    except Silent:
        said = ""
    found = {int(osd): int(most) for osd, most
             in re.findall(r'^osd\.([0-9]+): \{\s*"osd_max_backfills": *"?([0-9]+)"?\s*\}', said, re.ASCII | re.M)}
    left = [it for it in osds if it not in found]
    found |= {osd: int(it["osd_max_backfills"])
              for osd, it in zip(left, all_of(*(["tell", f"osd.{it}", *words] for it in left)))}
    return {it: found[it] for it in osds}


class Key:
    """The store of the lock: a key in the monitors' store, which all machines see."""

    def get(self) -> str:
        try:
            return ceph("config-key", "get", LOCK)
        except Silent as why:
            if "ENOENT" in str(why):
                return ""
            raise

    def set(self, text: str) -> None:
        ceph("config-key", "set", LOCK, text)

    def remove(self) -> None:
        ceph("config-key", "rm", LOCK)


@dataclass(frozen=True)
class Placed:
    """A placement group: the words of its state, and its OSDs, wanted and at work."""
    state: frozenset[str]
    up: list[int]
    acting: list[int]

    def is_clean(self) -> bool:
        return {"active", "clean"} <= self.state and self.up == self.acting

    def is_ill(self) -> bool:
        """Whether copies of it are missing, or it can't be used. What is only remapped has them all, and what is
        peering tells soon."""
        return not (self.is_peering() or "active" in self.state and self.state.isdisjoint({"degraded", "undersized"}))

    def is_peering(self) -> bool:
        return not self.state.isdisjoint({"peering", "activating", "creating"})


@dataclass(frozen=True)
class View:
    """The cluster at a look: the exceptions, None for a whole one; its flags, its groups, and what HEALTH_ERR says."""
    pairs: dict[str, Pairs | None]
    flags: set[str]
    groups: dict[str, Placed]
    error: str


def view() -> View:
    """One look at all of it, its parts side by side."""
    dump, brief, health = all_of(["osd", "dump"], ["pg", "dump", "pgs_brief"], ["health"])
    try:
        rows = brief["pg_stats"] if isinstance(brief, dict) else brief
        pairs: dict[str, Pairs | None] = {it["pgid"]: [(pair["from"], pair["to"]) for pair in it["mappings"]]
                                          for it in dump["pg_upmap_items"]}
        pairs |= {it["pgid"]: None for it in dump.get("pg_upmap", [])}
        groups = {it["pgid"]: Placed(frozenset(it["state"].split("+")), it["up"], it["acting"]) for it in rows}
        checks = "; ".join(f"{name}, {it['summary']['message']}" for name, it in health["checks"].items()
                           if it["severity"] == "HEALTH_ERR")
        error = checks or "HEALTH_ERR" if health["status"] == "HEALTH_ERR" else ""
        return View(pairs, set(dump["flags"].split(",")), groups, error)
    except (LookupError, TypeError, AttributeError) as error:
        raise Silent(f"ceph printed JSON of another form: {error!r}") from None


def is_balancing() -> bool:
    try:
        return bool(asked(["balancer", "status"]).get("active"))
    except (Silent, AttributeError) as why:
        raise Wrong(f"{why}; nothing was begun") from None

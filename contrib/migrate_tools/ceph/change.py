"""Makes a planned change of a cluster itself, after its moves, where nothing that the plan moves would move for it."""
import json, os, re, tempfile, time
from ..command import Wrong, note, put, read_text
from .cluster import asked, ceph, view
from .groups import read_groups, read_pools
from .maps import DUMP, Change, Maps


def moved(maps: Maps) -> list[str]:
    """The groups that are elsewhere in `after` than in `before`."""
    pools, (before, after) = read_pools(f"{maps.folder}/dump", f"{maps.folder}/crush")[0], (
        read_groups(f"{maps.folder}/{name}", False) for name in ("before", "after"))
    return [name for name, (_, up) in before.items()
            if (up != after[name][1] if pools[name.partition(".")[0]].shards else set(up) != set(after[name][1]))]


def commands_of(change: Change, version: str, crush: str) -> list[list[str]]:
    """What makes the change: one command, and so one epoch, where one can say it. Several weights are a tree of their
    own. Else groups may go and come back from one epoch to the next, so nothing is copied meanwhile."""
    weights = [["osd", "crush", "reweight", f"osd.{osd}", weight] for osd, weight in change.weights.items()]
    weights = [["osd", "setcrushmap", "-i", crush, version]] if len(weights) > 1 else weights
    outs = [["osd", "out", *map(str, change.out)]] if change.out else []
    if weights and outs:
        return [["osd", "set", "norebalance"], *weights, *outs, ["osd", "unset", "norebalance"]]
    return weights + outs


def settled() -> None:
    """Waits until the groups have found each other, at most a minute."""
    for _ in range(60):
        if not any(it.is_peering() for it in view().groups.values()):
            return
        time.sleep(min(1.0, float(os.environ.get("PAUSE", "1"))))


def make(folder: str, only_print: bool) -> None:
    """Looks by the map as it is now which groups would move, and makes the change where the plan names each of them as
    left out."""
    try:
        it = json.loads(read_text(os.path.join(folder, "change.json")))
        change = Change(it["out"], {int(osd): weight for osd, weight in it["weights"].items()})
        left_out = set(it["left_out"])
    except (ValueError, LookupError, TypeError, AttributeError):
        raise Wrong("does not hold what plan-ceph writes", os.path.join(folder, "change.json")) from None
    with tempfile.TemporaryDirectory() as scratch:
        maps = Maps(scratch)
        ceph("osd", "getmap", "-o", f"{scratch}/map")
        maps.save("dump", maps.osdmaptool("map", "--print"))
        maps.save("before", maps.osdmaptool("map", *DUMP.split()))
        crush = maps.crush("map")
        maps.changed("map", "next", change, crush)
        maps.placed("next", "after")
        groups = moved(maps)
        bad = [it for it in groups if it not in left_out]
        put(f"{len(groups)} placement groups would move for the change, {len(groups) - len(bad)} of them left out of "
            "the plan\n")
        if bad:
            raise Wrong(f"{' '.join(bad[:20])}{' ..' * (len(bad) > 20)} would move: move.sh has not brought them where "
                        "they are to be, or the cluster has changed since; nothing was changed")
        maps.changed("map", "then", Change([], change.weights), crush)
        maps.osdmaptool("then", "--export-crush", "new.bin")
        osds = asked(["osd", "dump"])
        commands = commands_of(change, str(osds.get("crush_version", "")), f"{scratch}/new.bin")
        if only_print:
            return put("".join(f"ceph {' '.join(it)}\n" for it in commands))
        if not re.search(rf"^epoch {osds['epoch']}$", read_text(f"{scratch}/dump"), re.M):
            raise Wrong("the map has changed while this looked, and nothing was changed: begin again")
        for words in commands:
            if words[1] == "unset":
                settled()
            ceph(*words)
    note("the change is made")
    return None

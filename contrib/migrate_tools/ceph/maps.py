"""Maps of a cluster in files, changed by osdmaptool, which is looked at before it is believed."""
import json, os, re, shutil
from collections.abc import Mapping, Sequence
from dataclasses import dataclass
from typing import Any
from ..calls import output
from ..command import Wrong, read_text

DUMP = "--clear-temp --test-map-pgs-dump-all"


@dataclass(frozen=True)
class Change:
    """OSDs that go out, and new crush weights, as they were written."""
    out: Sequence[int]
    weights: Mapping[int, str]

    def said(self) -> str:
        """In words of ceph."""
        weights = [f"ceph osd crush reweight osd.{osd} {weight}" for osd, weight in self.weights.items()]
        return "; ".join(weights + [f"ceph osd out {' '.join(map(str, self.out))}"] * bool(self.out))


class Maps:
    """A folder with maps."""

    def __init__(self, folder: str) -> None:
        self.folder = folder

    def osdmaptool(self, *words: str) -> str:
        return output("osdmaptool", *words, folder=self.folder)

    def save(self, name: str, text: str) -> None:
        with open(os.path.join(self.folder, name), "w", encoding="utf-8") as file:
            file.write(text)

    def placed(self, map_: str, name: str) -> None:
        """Saves where each group is by a map; exceptions that Ceph drops are dropped first."""
        self.save(name, self.osdmaptool(map_, "--upmap-cleanup", "cleanup", *DUMP.split()))

    def crush(self, map_: str) -> Any:
        """Saves the tree and the rules of a map in `crush`."""
        self.osdmaptool(map_, "--export-crush", "crush.bin")
        self.save("crush", output("crushtool", "-i", "crush.bin", "--dump", folder=self.folder))
        return json.loads(read_text(os.path.join(self.folder, "crush")))

    def changed(self, map_: str, new: str, change: Change, crush: Any) -> None:
        """Makes the map of a change in a file. osdmaptool keeps what --mark-out says only where a weight is set too, so
        one is set to what it is; and of several it takes the last alone, so they come one after the other."""
        shutil.copy(os.path.join(self.folder, map_), os.path.join(self.folder, new))
        weights = {it["id"]: it["weight"] for bucket in crush["buckets"] for it in bucket["items"]
                   if it["id"] >= 0 and "~" not in bucket["name"]}
        for osd in (it for it in [*change.out, *change.weights] if it not in weights):
            raise Wrong(f"osd.{osd} is not in the tree of the cluster")
        same = min(weights)
        exact = f"{weights[same] / 65536:.16f}".rstrip("0") + "0"
        for osd in change.out:
            self.osdmaptool(new, "--mark-out", str(osd), "--adjust-crush-weight", f"{same}:{exact}", "--save")
        if change.weights:
            pairs = ",".join(f"{osd}:{weight}" for osd, weight in change.weights.items())
            self.osdmaptool(new, "--adjust-crush-weight", pairs, "--save")
        found = self.osdmaptool(new, "--print")
        for osd in change.out:
            if not re.search(rf"^osd\.{osd} +\S+ +out ", found, re.M):
                raise Wrong(f"osdmaptool did not keep osd.{osd} as out in its map, so nothing is planned")

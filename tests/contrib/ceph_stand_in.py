"""Does what `ceph` does, over a state of its own, ceph.json: it drops exceptions as Ceph does, and backfills groups by
reservations.

A group that is to be elsewhere takes a local reservation at its acting primary and a remote one at each OSD that is
filled, `max` of each kind at an OSD; it waits until it has all, and then takes `slow` looks at the groups. Where `odd`
is set its end is seen in other states too. An OSD of `full` has no room. `ill` has groups that are in another state,
from a look to another one; from the look `error` on the cluster says HEALTH_ERR."""
import functools, json, os, re, sys
from ceph_model import Cluster, filling, groups_in, up_of

SAMPLES = f"{os.path.dirname(os.path.realpath(__file__))}/../../contrib/samples/ceph"


def sample(name):
    with open(f"{SAMPLES}/{name}", encoding="ascii") as file:
        return file.read()


@functools.cache
def cluster():
    return Cluster(sample("crush"), sample("dump"))


def raws(out, weights):
    """What CRUSH chooses, where that was recorded: as it was, and with osd.5 out and half of the weight of osd.3."""
    key = sorted(out), {osd: float(it) for osd, it in weights.items() if float(it) != 1}
    name = {"([], {})": "before", "([5], {'3': 0.5})": "after"}.get(str(key))
    return name and {it: chosen for it, (chosen, _) in groups_in(sample(name)).items()}


def osdmaptool(words):
    """On a map that holds who is out, the weights that were changed, and the exceptions. As the real one it keeps what
    --mark-out says only where a weight is set too, and takes the last alone."""
    with open(words[0], encoding="ascii") as file:
        now = json.load(file)
    said = dict(zip(words, [*words[1:], ""]))
    if "--mark-out" in said and not os.path.exists(f"{os.environ['STAND_IN']}/forgets"):
        now["out"].append(int([two for one, two in zip(words, words[1:]) if one == "--mark-out"][-1]))
    weights = said.get("--adjust-crush-weight", "")
    now["weights"].update(it.split(":") for it in weights.split(",") if it)
    if "--upmap" in said:  # what balances is the test's; how it was asked for is kept
        with open(f"{os.environ['STAND_IN']}/balance", encoding="ascii") as file:
            now["pairs"].update(json.load(file))
        with open(f"{os.environ['STAND_IN']}/balanced", "w", encoding="ascii") as file:
            print(*words[3:], file=file)
    if "--export-crush" in said:
        return print("osdmaptool: exported crush map", file=open(said["--export-crush"], "w", encoding="ascii"))
    if "--upmap-cleanup" in said:
        judge, raw = Cluster(sample("crush"), sample("dump")), raws(now["out"], now["weights"])
        judge.out = {*now["out"]}
        for name, pairs in now["pairs"].items():
            now["pairs"][name] = judge.kept(name, raw[name], [tuple(it) for it in pairs])
        print("checking for upmap cleanups")
    if "--print" in said:
        text = re.sub(r"^pg_upmap_items .*\n", "", sample("dump"), flags=re.M)
        for osd in now["out"]:
            text = re.sub(rf"^(osd\.{osd} +\S+ +)in  weight 1 ", r"\1out weight 0 ", text, flags=re.M)
        print(text + "".join(f"pg_upmap_items {name} [{','.join(str(it) for pair in pairs for it in pair)}]\n"
                             for name, pairs in now["pairs"].items() if pairs), end="")
    if "--test-map-pgs-dump-all" in said:
        for name, raw in raws(now["out"], now["weights"]).items():
            lists = [f"([{','.join(map(str, it))}], p{it[0]})" for it in (raw, up_of(raw, now["pairs"].get(name, [])))]
            print(f"{name} raw {lists[0]} up {lists[1]} acting {lists[1]}")
    if "--save" in said and (weights or "--upmap" in said):
        with open(words[0], "w", encoding="ascii") as file:
            json.dump(now, file)
    return None


class Ceph:
    """One call. `happened` writes down what happens to groups, `log` which commands changed something."""

    def __init__(self, state, words, happened, log):
        self.is_json, self.state, self.happened, self.log = words[-2:] == ["--format", "json"], state, happened, log
        self.words = words[:-2] if self.is_json else words
        self.kept = {group: [tuple(it) for it in pairs] for group, pairs in state["pairs"].items() if pairs}

    def called(self):
        state, words = self.state, self.words
        if words[0] == "config-key":
            return self.key(*words[1:])
        if words[:3] == ["osd", "getmap", "-o"]:
            with open(words[3], "w", encoding="ascii") as file:
                return json.dump({"out": state.get("out", []), "weights": state.get("weights", {}),
                                  "pairs": self.kept}, file)
        if words[0] == "tell" and words[2:] == ["config", "get", "osd_max_backfills"]:
            asked = [f"osd.{it}" for it in range(32)] if words[1] == "osd.*" else [words[1]]
            state.setdefault("told", []).append(words[1])
            for osd in (it for it in asked if it not in state.get("down", [])):
                said = json.dumps({"osd_max_backfills": str(state.get("most", {}).get(osd, 1))})
                print(f"\n{osd}: {said}" if words[1] == "osd.*" else said)
            return self.refused(6, "ENXIO: problem getting command descriptions from an OSD in") \
                if {*asked} & {*state.get("down", [])} else None
        if words == ["osd", "df"]:
            used = state.get("used", {})
            rows = [(it, int(used.get(str(it), 0.5) * (100 << 20))) for it in range(32)]
            return print(json.dumps({"nodes": [{"id": it, "kb": 100 << 20, "kb_used": kb} for it, kb in rows]}))
        if words == ["pg", "dump"]:
            stats = [{**it, "stat_sum": {"num_bytes": 1 << 30}} for it in json.loads(self.look())["pg_stats"]]
            return print(json.dumps({"pg_ready": True, "pg_map": {"pg_stats": stats}}))
        if words in (["osd", "dump"], ["pg", "dump", "pgs_brief"], ["health"], ["balancer", "status"]):
            return print({"osd": self.dump, "pg": self.look, "health": self.health, "balancer": lambda: json.dumps(
                {"active": state["balancer"], "mode": "upmap"}, indent=4)}[words[0]](), end="")
        if words[0] != "osd":
            return self.refused(22)
        if words[1:] in (["set", "norebalance"], ["unset", "norebalance"]):
            state["flags"] = ["sortbitwise", "norebalance"][: 2 - (words[1] == "unset")]
        elif words[1] == "out" or words[1:3] == ["crush", "reweight"]:
            state.setdefault("out", []).extend(map(int, words[2:] if words[1] == "out" else ()))
            state.setdefault("weights", {}).update([(words[3][4:], words[4])] if words[1] == "crush" else ())
            state["raw"] = raws(state["out"], state["weights"]) or state["raw"]
        elif words[2] not in state["raw"]:
            return self.refused(22)
        elif words[1] == "pg-upmap-items" and len(words) > 4 and len(words) % 2:
            pairs = [(int(one), int(two)) for one, two in zip(words[3::2], words[4::2])]
            self.change(words[2], cluster().kept(words[2], state["raw"][words[2]], pairs))
        elif words[1] == "rm-pg-upmap-items" and len(words) == 3:
            self.change(words[2], [])
        else:
            return self.refused(22)
        return self.log(f"ceph {' '.join(words)}")

    def refused(self, status, said="EINVAL: invalid command"):
        print(f"Error {said} {' '.join(self.words)}", file=sys.stderr)
        sys.exit(status)

    def key(self, word, name, value=""):
        keys = self.state.setdefault("keys", {})
        if word == "get" and name in keys:
            print(keys[name], end="")
        elif word == "set":
            keys[name] = value
            print(f"set {name}", file=sys.stderr)
        elif word == "rm" and name in keys:
            del keys[name]
        else:
            self.refused(2, f"ENOENT: key '{name}' doesn't exist")

    def change(self, group, pairs):
        state = self.state
        state["late"][group] = up = up_of(state["raw"][group], self.kept.get(group, []))
        state["acting"].setdefault(group, up)
        state["pairs"][group] = pairs if group != state["dropped"] else []
        state.setdefault("left", {})[group] = state.get("slow", {}).get(group, 0)
        to = up_of(state["raw"][group], state["pairs"][group])
        ends = [it for it in to if it not in state["acting"][group]]
        first = filling(cluster().pool(group)[0], to, state["acting"][group])
        self.happened(f"set {group} {first} {','.join(map(str, ends)) or '-'}")

    def dump(self):
        flags = ",".join(self.state.get("flags", ["sortbitwise"]))
        if self.is_json:
            items = [{"pgid": group, "mappings": [{"from": one, "to": two} for one, two in pairs]}
                     for group, pairs in self.kept.items()]
            epoch = int(re.search(r"^epoch (\d+)", sample("dump"))[1])
            return json.dumps({"epoch": self.state.get("epoch", epoch), "flags": flags, "pg_upmap": [],
                               "pg_upmap_items": items, "nearfull_ratio": 0.85, "crush_version": 3})
        lines = (f"pg_upmap_items {group} [{','.join(str(it) for pair in pairs for it in pair)}]\n"
                 for group, pairs in self.kept.items())
        text = re.sub(r"^pg_upmap_items .*\n", "", sample("dump"), flags=re.M)
        return re.sub(r"^flags .*", f"flags {flags}", text, flags=re.M) + "".join(lines)

    def health(self):
        error = self.state.get("looks", 0) >= self.state.get("error", 1 << 30)
        check = {"OSD_FULL": {"severity": "HEALTH_ERR", "summary": {"message": "1 full osd(s)", "count": 1}}}
        return json.dumps({"status": "HEALTH_ERR" if error else "HEALTH_OK", "checks": check if error else {}})

    def look(self):
        state, rows = self.state, []
        self.happened("look")
        state["looks"] = state.get("looks", 0) + 1
        for group, raw in state["raw"].items():
            up = state["late"].pop(group, None) or up_of(raw, self.kept.get(group, []))  # the manager is late
            acting = state["acting"].get(group, up)
            name = self.state_of(group, up, acting)
            first, last, ill = state.get("ill", {}).get(group, (0, -1, ""))
            rows.append((group, ill if first <= state["looks"] <= last else name, up, acting))
        if self.is_json:
            names = ("pgid", "state", "up", "acting", "up_primary", "acting_primary")
            stats = [dict(zip(names, (*it, it[2][0], it[3][0]))) for it in rows]
            return json.dumps({"pg_ready": True, "pg_stats": stats})
        shown = (f"{group}  {name}  {up}  {up[0]}  {acting}  {acting[0]}\n".replace(", ", ",")
                 for group, name, up, acting in rows)
        return "PG_STAT  STATE  UP  UP_PRIMARY  ACTING  ACTING_PRIMARY\n" + "".join(shown)

    def state_of(self, group, up, acting):
        """The state of a group at this look, and what it has become by the next one."""
        state = self.state
        if group in state.get("recovering", ()):
            state["recovering"].remove(group)
            self.happened(f"clean {group}")
            return "active+recovering"
        if acting == up:
            return "active+clean"
        if (set(up) - set(acting)) & set(state.get("full", ())):
            return "active+remapped+backfill_toofull"
        if group not in state.setdefault("reserved", {}) and not self.reserve(group, up, acting):
            return "active+remapped+backfill_wait"
        left = state.get("left", {}).get(group, 0)  # what was copied is there at the next look, or so many looks later
        if left:
            state["left"][group] = left - 1
        else:
            state["acting"][group] = up
            del state["reserved"][group]
            self.happened(f"free {group}")
            if state.get("odd"):
                state.setdefault("recovering", []).append(group)
            else:
                self.happened(f"clean {group}")
        return "active+clean+remapped" if state.get("odd") else "active+remapped+backfilling"

    def reserve(self, group, up, acting):
        """Takes its reservations, where each is free."""
        state, used = self.state, [it for its in self.state["reserved"].values() for it in its]
        first = filling(cluster().pool(group)[0], up, acting)
        mine = [f"local {first}", *(f"remote {it}" for it in up if it not in acting)]
        if any(used.count(it) >= state.get("max", 1 << 30) for it in mine):
            return False
        state["reserved"][group] = mine
        self.happened(f"reserve {group} {first}")
        return True

"""What Ceph does with exceptions, written for the tests after OSDMap::_apply_upmap, OSDMap::check_pg_upmaps and
CrushWrapper::verify_upmap of Ceph 16.2.15, and compared with a monitor's recorded answers; and made clusters, with a
plain CRUSH of their own."""
import hashlib, json, math, re

OSDS = r"\(\[([0-9,]*)\], p-?\d+\)"
ALL = re.compile(rf"^(\d+\.[0-9a-f]+) raw {OSDS} up {OSDS} acting {OSDS}$", re.M)
NO_OSD = 2147483647


def numbers(text):
    return [int(it) for it in text.split(",") if it]


def groups_in(text):
    """What CRUSH chooses for each placement group, and where it is."""
    return {name: (numbers(chosen), numbers(up)) for name, chosen, up, _ in ALL.findall(text)}


def exceptions_in(text):
    found = re.findall(r"^pg_upmap_items (\S+) \[([0-9,]+)\]", text, re.M)
    return {name: list(zip(numbers(osds)[::2], numbers(osds)[1::2])) for name, osds in found}


def up_of(chosen, pairs, out=()):
    """Each pair in turn, where its second is not there yet."""
    up = list(chosen)
    for one, two in pairs:
        if two not in up and one in up and two not in out:
            up[up.index(one)] = two
    return up


def filling(shards, up, acting):
    """The acting primary of a group whose copies or shards go to `up` while it is on `acting`: of shards it is the
    first; of copies the first of `up` that has the data, else the lowest number of those that have it."""
    if shards:
        return next(it for it in acting if it != NO_OSD)
    return up[0] if up[0] in acting else min(acting)


class Cluster:
    """The tree, the rules and the weights of a cluster: from what `ceph osd crush dump` and `ceph osd dump` print."""

    def __init__(self, crush, dump):
        self.crush, self.buckets = json.loads(crush), {}
        for bucket in self.crush["buckets"]:
            self.buckets[bucket["id"]] = bucket
        self.rules = {it["rule_id"]: it["steps"] for it in self.crush["rules"]}
        self.out = {int(it) for it in re.findall(r"^osd\.(\d+) +\S+ +out ", dump, re.M)}
        form = r"^pool (\d+) '\w+' (replicated|erasure) .*?size (\d+) min_size \d+ crush_rule (\d+)"
        self.pools = {name: (kind == "erasure", int(size), int(rule))
                      for name, kind, size, rule in re.findall(form, dump, re.M)}

    def pool(self, name):
        return self.pools[name.split(".")[0]]

    def same(self, name, one, two):
        """Whether a group is on the same OSDs: in the same order where the order is the data."""
        return one == two if self.pool(name)[0] else sorted(one) == sorted(two)

    def below(self, bucket, kind=None):
        """The OSDs below a bucket with their weights, or the buckets of a kind."""
        found = {}
        for item in self.buckets[bucket]["items"]:
            if item["id"] >= 0:
                found.update({item["id"]: item["weight"]} if kind is None else {})
            else:
                is_it = self.buckets[item["id"]]["type_name"] == kind
                found.update({item["id"]: 0} if is_it else self.below(item["id"], kind))
        return found

    def keeps(self, name, up):
        """Whether the pool's rule lets a group be there."""
        _, size, rule = self.pool(name)
        at, root, counts, weights = 0, None, [], {}
        for step in self.rules[rule]:
            if step["op"] == "take":
                root, counts = step["item"], []
                weights.update(self.below(root))
            elif step["op"].startswith("choose"):
                most = step["num"] if step["num"] > 0 else step["num"] + size
                counts.append(most)
                if step["type"] != "osd":
                    held = [sum(osd in self.below(it) for osd in up) for it in self.below(root, step["type"])]
                    if max(held) > 1 if "leaf" in step["op"] else sum(it > 0 for it in held) > most:
                        return False
            elif step["op"] == "emit":
                if any(osd not in self.below(root) for osd in up[at : at + math.prod(counts)]):
                    return False
                at += math.prod(counts)
        return all(weights.get(osd, 0) > 0 and osd not in self.out for osd in up)

    def kept(self, name, chosen, pairs):
        """What Ceph keeps of a group's exceptions."""
        if not self.keeps(name, up_of(chosen, pairs, self.out)):
            return []
        return [(one, two) for one, two in pairs if one in chosen and two not in self.out]


def draw(*words):
    return (int.from_bytes(hashlib.blake2b(repr(words).encode(), digest_size=6).digest(), "big") + 1) / 2**48


class Made:
    """A made cluster: racks of hosts of OSDs, and pools, each group dealt to OSDs by weights as CRUSH does it."""
    RULES = (("replicated", 3, "firstn", "host"), ("erasure", 4, "indep", "host"), ("erasure", 4, "indep", "osd"),
             ("replicated", 2, "firstn", "rack"))

    def __init__(self, rnd, hosts):
        each, racks = rnd.choice([1, 2, 3]), rnd.choice([1, 2, 4])
        self.host = {osd: osd // each for osd in range(hosts * each)}
        self.rack = {osd: host % racks for osd, host in self.host.items()}
        self.weight = {osd: rnd.choice([1, 1, 1, 0.5, 2]) for osd in self.host}
        self.out, self.pairs, self.key = set(), {}, rnd.random()
        self.pools = {str(at): it for at, it in enumerate(self.RULES, 1) if it[3] != "rack" or racks > 1}

    def straw(self, weight, *words):
        return math.log(draw(self.key, *words)) / (weight or 1e-9)

    def choose(self, name):
        """The OSDs of a group. A list that fills up from the front leaves a place of an OSD that it cannot have to the
        next one."""
        _, size, order, kind = self.pools[name.split(".")[0]]
        area = {"host": self.host, "rack": self.rack, "osd": {it: it for it in self.host}}[kind]
        weights = {it: sum(self.weight[osd] for osd in area if area[osd] == it) for it in set(area.values())}
        found = [NO_OSD] * size
        for attempt in range(60):
            for at in [it for it in range(size) if found[it] == NO_OSD]:
                turn = at + size * attempt if order == "indep" else at + attempt
                place = max(weights, key=lambda it: self.straw(weights[it], name, turn, kind, it))
                its = [it for it in area if area[it] == place]
                osd = max(its, key=lambda it: self.straw(self.weight[it], name, turn, it))
                if osd in self.out or self.weight[osd] == 0 or any(it != NO_OSD and area[it] == place for it in found):
                    if order == "firstn":
                        break
                    continue
                found[at] = osd
        return found

    def crush(self):
        """What `ceph osd crush dump` prints."""
        def bucket(id_, kind, name, items):
            rows = [{"id": it, "weight": int(weight * 65536), "pos": 0} for it, weight in items]
            return {"id": id_, "name": name, "type_name": kind, "items": rows}
        of = lambda area, it: sum(self.weight[osd] for osd in area if area[osd] == it)
        hosts = {it: self.rack[osd] for osd, it in self.host.items()}
        buckets = [bucket(-1, "root", "default", [(-1000 - it, of(self.rack, it)) for it in set(hosts.values())])]
        for rack in set(hosts.values()):
            its = [(-2 - host, of(self.host, host)) for host in hosts if hosts[host] == rack]
            buckets.append(bucket(-1000 - rack, "rack", f"rack{rack}", its))
        for host in hosts:
            its = [(osd, self.weight[osd]) for osd in self.host if self.host[osd] == host]
            buckets.append(bucket(-2 - host, "host", f"host{host}", its))
        take, emit = {"op": "take", "item": -1, "item_name": "default"}, {"op": "emit"}
        rules = [{"rule_id": int(pool), "steps": [take, {"op": f"chooseleaf_{order}", "num": 0, "type": kind}, emit]}
                 for pool, (_, _, order, kind) in self.pools.items()]
        types = [{"type_id": at, "name": it} for at, it in enumerate(("osd", "host", "rack", "root"))]
        return json.dumps({"types": types, "buckets": buckets, "rules": rules})

    def dump(self):
        """What `ceph osd dump` prints."""
        pools = [f"pool {pool} 'p{pool}' {kind}{' profile x' * (kind == 'erasure')} size {size} min_size 2 "
                 f"crush_rule {pool} object_hash rjenkins\n" for pool, (kind, size, _, _) in self.pools.items()]
        osds = [f"osd.{it} up   {'out weight 0' if it in self.out else 'in  weight 1'} up_from 0\n" for it in self.host]
        pairs = [f"pg_upmap_items {name} [{','.join(str(it) for pair in found for it in pair)}]\n"
                 for name, found in self.pairs.items() if found]
        return "".join(["epoch 9\n", *pools, f"max_osd {len(self.host)}\n", *osds, *pairs])

    def cluster(self):
        return Cluster(self.crush(), self.dump())

    def clean(self):
        """Drops the exceptions that Ceph would drop, now and with its next maps."""
        cluster = self.cluster()
        for name in self.pairs:
            before = None
            while before != self.pairs[name]:
                before, self.pairs[name] = self.pairs[name], cluster.kept(name, self.choose(name), self.pairs[name])

    def groups(self, count):
        """What osdmaptool prints of all groups, cleaned."""
        lines = ["checking for upmap cleanups\n"]
        for name in (f"{pool}.{it:x}" for pool in self.pools for it in range(count)):
            chosen = [it for it in self.choose(name) if it != NO_OSD or self.pools[name.split(".")[0]][2] == "indep"]
            up = up_of(chosen, self.pairs.get(name, []))
            show = [f"([{','.join(map(str, osds))}], p{osds[0]})" for osds in (chosen, up)]
            lines.append(f"{name} raw {show[0]} up {show[1]} acting {show[1]}\n")
        return "".join(lines)

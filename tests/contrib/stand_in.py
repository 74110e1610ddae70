#!/usr/bin/env python3
"""Called under the name of a tool, does what the tool did when contrib/samples were recorded, over a state of its own.

lvs, pvs and pvmove work on lvm.json in the folder $STAND_IN; pvmove moves extents there, and keeps LVM's rules: from
one physical volume, and of one volume, it moves once at a time; a second call for a source goes on with the first one
alone, with status 0; without --alloc anywhere no part of a raid or a mirror comes to where another part of it is. ceph,
osdmaptool and crushtool are in ceph_stand_in.py."""
import fcntl, json, os, re, sys, time
from ceph_stand_in import Ceph, cluster, osdmaptool, sample

HOME, WORDS = "", []  # the folder with the state, and the words of this call


class State:
    """A file of JSON, which one process has at a time. What is only read is not parsed again while it is the same."""
    read = "", None  # what was read last, and what it says

    def __init__(self, name, is_read=False):
        self.path, self.is_read = f"{HOME}/{name}", is_read

    def __enter__(self):
        self.file = open(self.path, "r+", encoding="ascii")
        fcntl.flock(self.file, fcntl.LOCK_EX)
        self.text = self.file.read()
        if State.read[0] != self.text or not self.is_read:
            State.read = self.text if self.is_read else "", json.loads(self.text)
        self.now = State.read[1]
        return self.now

    def __exit__(self, *_):
        text = self.text if self.is_read else json.dumps(self.now)  # at once, in a fifth of the time of json.dump
        if text != self.text:
            self.file.seek(0)
            self.file.write(text)
            self.file.truncate()  # afterwards, which takes less time than before
        self.file.close()


def stop(text, status=5):
    print(text, file=sys.stderr)
    sys.exit(status)


def log(text):
    with open(f"{HOME}/log", "a", encoding="ascii") as file:
        file.write(text + "\n")


def happened(text):
    """Writes down what happened to placement groups, in order."""
    with open(f"{HOME}/events", "a", encoding="ascii") as file:
        file.write(text + "\n")


def print_report(key, rows):
    print('  {\n      "report": [\n          {\n              "%s": [' % key)
    print(",\n".join("                  {" + ", ".join(f'"{name}":"{value}"' for name, value in row.items()) + "}"
                     for row in rows))
    print("              ]\n          }\n      ]\n  }")


def runs(extents):
    """An LV's extents, a list of device and number, as runs."""
    found = []
    for device, at in extents:
        if found and found[-1][0] == device and found[-1][2] + 1 == at:
            found[-1][2] = at
        else:
            found.append([device, at, at])
    return found


def lvs(state):
    if WORDS != "-a --segments --reportformat json -o vg_name,lv_name,lv_role,segtype,seg_pe_ranges data".split():
        stop(f"lvs was not recorded with {' '.join(WORDS)}", 3)
    print_report("seg", [{"vg_name": "data", "lv_name": volume, "lv_role": "public", "segtype": "linear",
                          "seg_pe_ranges": f"{device}:{first}-{last}"} for volume, extents in state["volumes"].items()
                         for device, first, last in runs(extents)])


def pvs(state):
    columns = "vg_name,pv_name,pv_attr,pv_pe_count,vg_extent_size"
    if WORDS == f"--reportformat json --units b -o {columns} -S vg_name=data".split():
        row = {"vg_name": "data", "pv_attr": "a--", "vg_extent_size": "4194304B"}
        return print_report("pv", [{**row, "pv_name": device, "pv_pe_count": size} for device,
                                   size in state["devices"].items()])
    if WORDS[:-1] == "--noheadings -o pv_name".split():
        if WORDS[-1] not in state["devices"]:
            stop(f"  Failed to find physical volume \"{WORDS[-1]}\".")
        return print(f"  {WORDS[-1]}")
    is_json = WORDS[:-1] == "--segments --reportformat json -o lv_name,pvseg_start,pvseg_size".split()
    is_plain = WORDS[:-1] == "--noheadings --segments -o lv_name,pvseg_start,pvseg_size".split()
    if not (is_json or is_plain) or WORDS[-1] not in state["devices"]:
        stop(f"pvs was not recorded with {' '.join(WORDS)}", 3)
    rows = [(first, last, f"[{volume}]" if family(volume) else volume) for volume, extents in state["volumes"].items()
            for device, first, last in runs(sorted(extents)) if device == WORDS[-1]]
    at, segments = 0, []
    for first, last, volume in [*sorted(rows), (state["devices"][WORDS[-1]], -1, "")]:
        segments += [("", at, first - at)] * (at < first) + [(volume, first, last - first + 1)] * bool(volume)
        at = last + 1
    if is_json:
        return print_report("pvseg", [dict(zip(("lv_name", "pvseg_start", "pvseg_size"), it)) for it in segments])
    return [print(f"  {volume:9} {first:5} {size:5}") for volume, first, size in segments]


def family(volume):
    """The raid, mirror or pool of which this is a part."""
    found = re.fullmatch(r"(.+)_(?:rimage_\d+|rmeta_\d+|mimage_\d+|mlog|tdata|tmeta|pmspare)", volume)
    return found and found[1]


def pvmove():
    found = re.fullmatch(r"-i 3 (--alloc anywhere )?-n (\S+) (\S+):(\d+)-(\d+) (\S+):(\d+)-(\d+)",
                         " ".join(WORDS)) or stop(f"pvmove was not recorded with {WORDS}", 3)
    anywhere, name, source, first, last, target, to, end = (int(it) if it and it.isdecimal() else it
                                                            for it in found.groups())
    wanted = [[source, at] for at in range(first, last + 1)]
    with State("lvm.json") as state:
        if source in state["moving"]:
            print(f"  Detected pvmove in progress for {source}.\n  WARNING: Ignoring remaining command line arguments.")
            return
        if "_rmeta_" in name:
            stop(f"  Can't find sub LV {family(name)}_rimage__.")
        volume = next((it
                       for it, extents in state["volumes"].items()
                       if name in (it, family(it)) and all(at in extents for at in wanted)), None)
        if volume in state["moving"].values():
            stop(f"  Skipping locked LV {volume}\n  No data to move for data.")
        if volume is None:
            stop("  No data to move for data.")
        used = {tuple(at): it for it, extents in state["volumes"].items() for at in extents}
        near = {at[0]
                for at, it in used.items() if re.search(r"_[rm](image|meta)_", volume) and family(it) == family(volume)}
        if target in near and not anywhere:
            stop(f"  Insufficient free space: {last - first + 1} extents needed, but only 0 available")
        if last - first != end - to or any((target, at) in used for at in range(to, end + 1)) or end >= state[
            "devices"][target]:
            stop("  Insufficient suitable allocatable extents for logical volume : more required")
        state["moving"][source] = volume
    log(f"begin {' '.join(WORDS)}")
    fails = f"{HOME}/fail-{volume}-{first}"
    broken = os.path.exists(fails)
    time.sleep(0.02)
    with State("lvm.json") as state:
        del state["moving"][source]
        if broken:
            os.unlink(fails)
            stop(f"  {source}: Moved: 0.00%\n  ABORTING: Mirror percentage check failed.")
        state["volumes"][volume] = [[target, at - first + to] if device == source and first <= at <= last
                                    else [device, at] for device, at in state["volumes"][volume]]
    log(f"end {' '.join(WORDS)}")
    print(f"  {source}: Moved: 100.00%")


def ceph(state):
    Ceph(state, WORDS, happened, log).called()


def main():
    global HOME, WORDS
    HOME, WORDS = os.environ["STAND_IN"], sys.argv[1:]
    name = os.path.basename(sys.argv[0])
    if name == "pvmove":
        return pvmove()
    if name == "osdmaptool":
        return osdmaptool(WORDS)
    if name == "crushtool":
        return print(sample("crush"), end="")
    if name in ("lvs", "pvs"):
        with State("lvm.json", True) as found:
            return {"lvs": lvs, "pvs": pvs}[name](found)
    with State("ceph.json", WORDS[:2] in (["osd", "dump"], ["balancer", "status"], ["health", "--format"])) as found:
        return ceph(found)


if __name__ == "__main__":
    main()

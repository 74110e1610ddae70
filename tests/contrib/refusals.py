"""What the scripts of contrib/ refuse: each with a sentence, a status other than 0, and no file."""
import json, os, re
from limits_model import plan_text
from rooms import FILES, SAMPLES, Room, all_refused, cases, page, plan_of, refused, same, shifts_of, that
from tight import segment


def without(text, *columns):
    """A report without these columns."""
    report = json.loads(text)
    for rows in report["report"][0].values():
        for row in rows:
            for it in columns:
                del row[it]
    return json.dumps(report)


def reports_of_lvm(room, lvs, pvs):
    """Reports that are not what from-lvm asks for, or of a group that it plans nothing for."""
    for name in os.listdir(f"{SAMPLES}/lvm/odd"):
        room.write(name, page(f"contrib/samples/lvm/odd/{name}"))
    for name, text in (("empty", ""), ("nothing", '{"report": [{"seg": [], "pv": []}]}'), ("list", "[]"),
                       ("bytes", b"\xff\xfe{"), ("old", without(lvs, "vg_name", "lv_role")),
                       ("oldpvs", without(pvs, "pv_attr")), ("free", pvs.replace('"data"', '""')),
                       ("exported", pvs.replace('"a--"', '"ax-"', 1)), ("twin", pvs.replace('"a--"', '"d--"', 1)),
                       ("size", pvs.replace('"255"', '"1.00g"', 1)), ("double", pvs.replace("loop1", "loop0"))):
        room.write(name, text)
    for words, said in cases("""
            empty pvs.json | does not hold what this prints: lvs -a --segments
            list pvs.json | does not hold what this prints: lvs
            pvs.json pvs.json | does not hold what this prints: lvs
            bytes pvs.json | is no text in UTF-8
            none pvs.json | No such file or directory
            . pvs.json | Is a directory
            nothing pvs.json | lists nothing; is the volume group's name right
            lvs.json empty | does not hold what this prints: pvs --reportformat
            lvs.json lvs.json | does not hold what this prints: pvs
            lvs.json nothing | lists nothing
            old pvs.json | old lacks the columns vg_name, lv_role; this prints all that is needed: lvs -a --segments
            lvs.json oldpvs | oldpvs lacks the column pv_attr; this prints
            lvs.json free | free has no physical volume that is in a volume group
            lvs.json size | '1.00g' is no number of extents of /dev/loop0
            lvs.json double | double has /dev/loop0 twice
            both-lvs.json pvs.json | both-lvs.json has the volume groups data and other, and a plan is for one: lvs
            lvs.json both-pvs.json | both-pvs.json has the volume groups data and other, and a plan is for one: pvs
            lvs.json other-pvs.json | lvs.json is of the volume group data, and other-pvs.json of other: make both \
                for one
            missing-lvs.json missing-pvs.json | missing-pvs.json: the physical volume [unknown] is missing (pv_attr \
                a-m); on it mail, web has extents
            lvs.json exported | /dev/loop0 is exported (pv_attr ax-): call vgimport first
            lvs.json twin | /dev/loop0 has the pv_attr 'd--', which is that of no sound physical volume
            lvs.json closed-pvs.json | /dev/loop1 is not allocatable, so nothing can come to it: call pvchange -x y \
                /dev/loop1 first, or --empty it too"""):
        refused(room, "from-lvm, reports", f"contrib/from-lvm {words} --spread", said)
    for wish, said in (("--move db=loop1", "/dev/loop1 is not allocatable, so nothing can come to it"),
                       ("--empty loop0 --empty loop2",
                        "there is no room: 230 items are to be dealt out, and the disks that can have them have 0")):
        refused(room, "from-lvm, not allocatable", f"contrib/from-lvm lvs.json closed-pvs.json {wish}", said)
    room.good("from-lvm, what is not allocatable gets nothing",
              "contrib/from-lvm lvs.json closed-pvs.json --empty loop0")
    same("nothing goes there",
         [it for it in room.rows("next.csv") if it[1] == "loop1" and not it[0].startswith("web.")], [])
    room.good("from-lvm, what is not allocatable is emptied",
              "contrib/from-lvm lvs.json closed-pvs.json --spread --empty loop1")
    for wish, said in cases("""
            --empty loop0 | hold origin: a snapshot, what has one, a part of a cache
            --empty loop1 | hold snap: a snapshot
            --move snap=loop0 | hold snap: a snapshot
            --move slow_corig=loop1 | hold slow_corig: a snapshot
            --move fast_cpool_cdata=loop0 | hold fast_cpool_cdata: a snapshot
            --move plain=loop1 --move origin=loop1 | hold origin: a snapshot"""):
        refused(room, "from-lvm, snapshots and caches", f"contrib/from-lvm stacks-lvs.json stacks-pvs.json {wish}",
                said)
    room.good("from-lvm, beside snapshots and caches",
              "contrib/from-lvm stacks-lvs.json stacks-pvs.json --move plain=loop1 --unit 1")
    for name in (*FILES, "names.csv"):
        os.unlink(room.path(name))


def refusals_of_lvm():
    lvs, pvs = page("contrib/samples/lvm/lvs.json"), page("contrib/samples/lvm/pvs.json")
    with Room() as room:
        room.write("pvs.json", pvs)
        room.write("lvs.json", lvs)
        reports_of_lvm(room, lvs, pvs)
        for wish, said, status in cases("""
                | a wish is needed | 2
                --move dbb=loop1 | there is no volume 'dbb' with extents; there are db, log, web, mail | 1
                --move db=loop9 | there is no physical volume loop9; there are /dev/loop0, /dev/loop1, /dev/loop2 | 1
                --move db | write --move db=PV | 2
                --empty /dev/sda | there is no physical volume /dev/sda | 1
                --move db=loop1 --empty loop1 | db is to go to /dev/loop1, which is to be emptied | 1
                --spread --unit 3 | --unit 3 is no power of two | 2
                --spread --unit 0 | --unit 0 is no power of two | 2
                --spread --unit x | invalid int value | 2
                --spread --limit 0 | '0' is no number from 1 to 1024 | 1
                --spread --limit loop7=2 | there is no physical volume loop7 | 1
                --move db=loop1 --move db=loop2 | --move is given twice for db | 1
                --move db=loop1 --move log=loop2 --move db=loop1 | --move is given twice for db | 1
                --spread --limit 2 --limit 3 | --limit is given twice | 1
                --spread --limit loop1=2 --limit 4 --limit /dev/loop1=2 | --limit is given twice for /dev/loop1 | 1
                --move db=loop1 --unit 16 | extents 96 to 111 of /dev/loop0 hold db and log, which are not to go to \
                    one place: take a smaller --unit | 1
                --empty loop1 --empty loop2 --unit 32 | there is no room | 1
                --move log=loop2 --move db=loop2 --move web=loop2 | there is no room on /dev/loop2: it needs 290 \
                    slots, and has 255 | 1
                --empty loop0 --into nowhere | nowhere/disks.csv cannot be written: No such file or directory | 1"""):
            refused(room, "from-lvm", f"contrib/from-lvm lvs.json pvs.json {wish}", said, status)
        rows = json.loads(lvs)["report"][0]["seg"]
        for name, more, said in (("a pvmove", segment("x", "pvmove0:0-3"), "x is being moved: let `pvmove` end it"),
                                 ("a hidden pvmove", segment("[pvmove0]", "/dev/loop0:250-251 /dev/loop1:250-251"),
                                  "pvmove0 is being moved"),
                                 ("a raid without -a", segment("r", "r_rimage_0:0-3 r_rimage_1:0-3", kind="raid1"),
                                  "r lies on r_rimage_0, which neither report has: call lvs with -a"),
                                 ("another group's disk", segment("x", "/dev/sdz:0-3"),
                                  "x lies on /dev/sdz, which neither report has"),
                                 ("past the end", segment("x", "/dev/loop1:250-255"),
                                  "x has /dev/loop1:250-255, and /dev/loop1 has 255 extents"),
                                 ("two in one place", segment("x", "/dev/loop0:99-99"),
                                  "extent 99 of /dev/loop0 is in db and in x"),
                                 ("no range", segment("x", "/dev/loop0"), "'/dev/loop0' of x is no range of extents")):
            room.keep("odd.json", {"report": [{"seg": [*rows, more]}]})
            refused(room, f"from-lvm, {name}", "contrib/from-lvm odd.json pvs.json --spread", said)
        # a raid that is itself a part of a cache, stripes of an unknown kind, a part with an unknown role
        for name, more in (("of a cache",
                            [segment("[c_corig]", "c_corig_rimage_0:0-3", "private,cache,origin,cacheorigin", "raid1"),
                             segment("[c_corig_rimage_0]", "/dev/loop2:210-213", "private,raid,image")]),
                           ("of a kind that is not known", [segment("c", "/dev/loop2:210-213", kind="vdo")]),
                           ("of a role that is not known",
                            [segment("[c]", "/dev/loop2:210-213", "private,vdo,pool,data")])):
            room.keep("odd.json", {"report": [{"seg": [*rows, *more]}]})
            refused(room, f"from-lvm, a part {name}", "contrib/from-lvm odd.json pvs.json --empty loop2",
                    f"hold {more[-1]['lv_name'].strip('[]')}: a snapshot")
        room.keep("long.json", {"report": [{"seg": [segment("huge", "/dev/loop0:0-149999")]}]})
        room.write("longpvs.json", pvs.replace("255", "200000"))
        refused(room, "from-lvm, too many items", "contrib/from-lvm long.json longpvs.json --spread --unit 2",
                "a unit of 2 extents gives more than 65536 items")
        row = json.loads(pvs)["report"][0]["pv"][0]
        room.keep("manypvs.json", {"report": [{"pv": [{**row, "pv_name": f"/dev/loop{it}"} for it in range(1025)]}]})
        refused(room, "from-lvm, too many disks", "contrib/from-lvm lvs.json manypvs.json --empty loop0 --unit 1",
                "has 1025 physical volumes, more than 1024")
        os.mkdir(room.path("f"))
        room.write("f/now.csv", lvs)
        refused(room, "from-lvm, over what it read", "contrib/from-lvm f/now.csv pvs.json --spread --into f",
                "f/now.csv was read, and is not written over")


def legs_of_lvm(room):
    """Legs and stripes: what would bring two of them onto one disk is refused, in what order ever they would go."""
    room.good("legs", "cp contrib/samples/lvm/parts/*.json .")
    for wish, said in cases("""
            --move r_rimage_0=loop1 | /dev/loop1 has or gets another leg or stripe of it, which LVM keeps apart
            --move r_rmeta_0=loop1 | /dev/loop1 has or gets
            --move five_rimage_2=loop0 | /dev/loop0 has or gets
            --move m_mimage_1=loop0 | /dev/loop0 has or gets
            --move pool_tdata_rmeta_1=loop0 | /dev/loop0 has or gets
            --move stripes=loop2 | /dev/loop2 has or gets
            --move r_rimage_0=loop3 --move r_rimage_1=loop3 | /dev/loop3 has or gets
            --move r_rimage_0=loop1 --move r_rimage_1=loop0 | has or gets another leg
            --move r_rimage_1=loop0 --empty loop0 | which is to be emptied
            --empty loop1 --empty loop3 --empty loop4 | no disk is left for it that has room and none of its \
                other legs or stripes
            --move r=loop2 | there is no volume 'r' with extents"""):
        refused(room, "from-lvm, legs", f"contrib/from-lvm lvs.json pvs.json {wish} --unit 1", said)
    room.good("legs", "contrib/from-lvm lvs.json pvs.json --move r_rimage_0=loop3 --unit 1 && cp next.csv first.csv")
    for leg, to in cases("""
            r_rimage_0 | loop1
            r_rmeta_1 | loop3
            m_mimage_0 | loop1"""):  # the next file is written by hand
        room.write("next.csv", re.sub(rf"^({leg}\.\d+),\S+$", rf"\1,{to}", room.read("first.csv"), flags=re.M))
        room.planned("legs")
        refused(room, "to-lvm, legs", "contrib/to-lvm plan.txt names.csv",
                f"goes to /dev/{to}, where another leg of {leg[0]} is or is to be")
        refused(room, "summary, legs", "contrib/summary plan.txt --names names.csv", "where another leg of")


def odd_names_of_lvm():
    """Names that are no names get short ones: each is one of its own, and the table says what it stands for."""
    devices = {"/dev/disk/by-id/" + "w" * 40: 40, "/dev/mapper/" + "w" * 40: 40, "/dev/sda1": 40,
               "/dev/mapper/sda1": 40, "Ab12Cd-34Ef-56Gh-78Ij-90Kl-12Mn-34Op56": 40}
    volumes = ["a+b", "a_b.0", "a_b", "v" * 60, "v" * 61]
    with Room() as room:
        room.keep("pvs.json", {"report": [{"pv": [{"vg_name": "data", "pv_name": name, "pv_attr": "a--",
                                                   "pv_pe_count": str(size)} for name, size in devices.items()]}]})
        room.keep("lvs.json", {"report": [{"seg": [segment(volume, f"/dev/sda1:{4 * at}-{4 * at + 3}") for at,
                                                   volume in enumerate(volumes)]}]})
        room.good("odd names", "contrib/from-lvm lvs.json pvs.json --spread")
        room.planned("odd names")
        rows = room.rows("names.csv")
        for kind in ("disk", "item"):
            names = [name for it, name, *_ in rows if it == kind]
            that(f"names of a {kind}", len(set(names)) == len(names) and all(re.fullmatch(r"[A-Za-z0-9_.-]{1,32}", it,
                                                                                          re.A) for it in names), names)
        same("what the disks stand for", [device for kind, _, device, _ in rows if kind == "disk"], list(devices))
        room.good("odd names", "contrib/to-lvm plan.txt names.csv --out moves.sh && sh moves.sh -n")
        refused(room, "two devices of one short name", "contrib/from-lvm lvs.json pvs.json --empty sda1",
                "there is no physical volume sda1")


def refusals_of_plans(room):
    """Plans and tables that do not fit, for each script that reads them."""
    room.good("refusals",
              "cp contrib/samples/lvm/*.json . && contrib/from-lvm lvs.json pvs.json --empty loop0 --unit 32")
    room.planned("refusals")
    plan = room.read("plan.txt")
    room.write("d", room.read("disks.csv"))
    room.write("names", room.read("names.csv"))
    for name, text, line in (("empty", "", 1), ("cut", plan[: plan.index("round 1 ") + 7], 3),
                             ("zero", plan.replace("round 1 ", "round 01 "), 3),
                             ("end", plan[:-1], plan.count("\n") + 1), ("more", plan + "\n", plan.count("\n") + 2),
                             ("odd in a shift", plan.replace("\nround 2", "x\nround 2"),
                              plan[: plan.index("\nround 2")].count("\n") + 1)):
        room.write("p", text)
        for script, words in cases("""
                to-lvm | names
                to-ceph | names
                picture | d
                summary | d
                progress |
                run-plan | true {item}"""):
            if script != "to-ceph":
                refused(room, f"{script}, a plan that is {name}", f"contrib/{script} p {words}",
                        f"p line {line} does not fit a plan")
    item, source, slot, target, to = shifts_of(plan)[0][0]
    rows = room.read("names.csv").splitlines()
    all_refused(room, "to-lvm, names", "contrib/to-lvm plan.txt n --out s", "n",
                (("empty", "", "does not begin with the row kind,name,device,extents"),
                 ("of another plan", "\n".join(it for it in rows if f",{item}," not in it), f"does not name {item}"),
                 ("odd", "\n".join([*rows, "item,x,/dev/loop0,db"]), f"row {len(rows)} is none that from-lvm writes"),
                 ("no unit", "\n".join(it for it in rows if not it.startswith("unit")), "names no unit"),
                 ("another spot", room.read("names.csv").replace("loop0,db:0-31", "loop0,db:32-63"), "is not in slot")))
    room.write("p", plan.replace(f"{item} {source} {slot} {target} {to}", f"{item} {source} {slot} {target} 7"))
    refused(room, "to-lvm, past the end", "contrib/to-lvm p names.csv --out s", "does not fit at the end of")
    refused(room, "to-lvm, over the plan", "contrib/to-lvm plan.txt names.csv --out plan.txt",
            "plan.txt was read, and is not written over")
    refused(room, "to-lvm, into no folder", "contrib/to-lvm plan.txt names.csv --out no/s",
            "no/s cannot be written: No such file or directory")
    for out in ("/dev/null", "/dev/stdout", "."):
        refused(room, "to-lvm, over what is no plain file", f"contrib/to-lvm plan.txt names.csv --out {out}",
                f"{out} is there and is no plain file")
    room.good("to-lvm, through a link",
              "touch real && chmod 600 real && ln -s real link && contrib/to-lvm plan.txt names.csv --out link && "
              "test -L link && cmp real <(contrib/to-lvm plan.txt names.csv)")
    for where, said in ((">/dev/full", "No space left on device"), (">&-", "standard output is closed")):
        for words in ("to-lvm plan.txt names.csv", "picture plan.txt d", "summary plan.txt d",
                      "run-plan --dry-run plan.txt true {item}"):
            refused(room, "no output", f"alone/{words} {where}", said)
    room.write("p", plan_of())
    refused(room, "to-lvm, nothing moves", "contrib/to-lvm p names.csv --out s", "p moves nothing")
    refused(room, "to-ceph, a plan of LVM",
            "contrib/to-ceph plan.txt "
            + " ".join(f"contrib/samples/ceph/{it}" for it in ("before", "after", "dump", "crush")),
            "is no move of a plan for from-ceph's files")
    for script in ("picture", "summary"):
        all_refused(room, f"{script}, disks", f"contrib/{script} plan.txt odd", "odd",
                    (("empty", "", "does not begin with the row disk,limit,slots"),
                     ("of another plan", "disk,limit,slots\na,1,1\n", "is of another plan"),
                     ("odd", room.read("d").replace(",1,", ",x,", 1), "row 1: 'x' is no number from 1 to 1024"),
                     ("wide", room.read("d") + "a,1\n", "row 4: 2 fields where the header has 3"),
                     ("twice", room.read("d") + "loop0,1,1\n", "row 4: 'loop0' is no name or is listed twice")))
    refused(room, "picture, a certificate", "contrib/picture plan.txt d --cert plan.txt --out s.svg",
            "plan.txt is no certificate")
    room.write("c", room.read("cert.txt").replace("loop0", "loop9"))
    refused(room, "picture, another certificate", "contrib/picture plan.txt d --cert c --out s.svg",
            "c names loop9, which is no disk")
    for words, said, status in cases("""
            plan.txt --bytes 3G | --bytes and --rate go together | 2
            plan.txt --bytes 3X --rate 1M | invalid amount value | 2
            plan.txt --bytes 0 --rate 1 | invalid amount value | 2
            plan.txt --queue now.csv | --queue needs DISKS | 2
            plan.txt d --queue d | does not begin with the row item,disk,slot | 1"""):
        refused(room, "summary", f"contrib/summary {words}", said, status)
    for words, said, status in (("--since noon", "invalid read_time value", 2),
                                ("--every 0", "--every is greater than 0", 2)):
        refused(room, "progress", f"contrib/progress plan.txt {words}", said, status)


SMALL = {"epoch":
         "epoch 3\npool 1 'c' replicated size 3 min_size 2 crush_rule 0 object_hash x\npool 2 's' erasure profile x "
         "size 4 min_size 3 crush_rule 1 object_hash x\n" "osd.6 up   out weight 0 up_from 0\n", "crush": json.dumps(
             {"types": [{"type_id": 0, "name": "osd"}, {"type_id": 1, "name": "host"}, {"type_id": 11, "name": "root"}],
              "buckets":
                  [{"id": -1, "type_name": "root", "name": "default",
                    "items": [{"id": it - 9, "weight": 1} for it in range(6)]},
                   *({"id": host - 9, "type_name": "host", "name": f"h{host}",
                      "items": [{"id": 2 * host, "weight": 1}, {"id": 2 * host + 1, "weight": int(host < 5)}]}
                     for host in range(6))],
              "rules":
                  [{"rule_id": it,
                    "steps":
                    [{"op": "take", "item": -1, "item_name": "default"},
                     {"op": f"chooseleaf_{kind}", "num": 0, "type": "host"}, {"op": "emit"}]}
                   for it, kind in enumerate(("firstn", "indep"))]})}

NONE = "2147483647"  # no OSD, as Ceph writes it


def lists(*groups):
    """What osdmaptool prints of groups: their names, what CRUSH chooses, where they are, and who has their data."""
    rows = ((*it, *it[-1:] * (4 - len(it))) for it in groups)
    return "checking for upmap cleanups\n" + "".join(
        f"{name} raw ([{chosen}], p1) up ([{up}], p1) acting ([{acting}], p1)\n" for name, chosen, up, acting in rows)


def refusals_of_groups():
    """Placement groups on six hosts with two OSDs each, osd.0 and osd.1 on h0 and so on. osd.6 is out, osd.11 has no
    weight."""
    unlike = "would change places, which exceptions cannot say"
    rows = cases(f"""
        a copy less | 1.0/0,2 | 1.0/0,2,4 | | | placement group 1.0 has 2 OSDs before the change, where its pool's \
            size is 3
        no OSD up | 1.0/0,2,4/ | 1.0/0,2,4/ | | | 1.0 has 0 OSDs before
        a copy less after | 1.0/0,2,4 | 1.0/0,2 | | | 1.0 has 2 OSDs after the change
        a hole | 2.0/0,{NONE},4,8 | 2.0/0,2,4,8 | | | 2.0 has 3 OSDs before the change, where its pool's size is 4
        a hole after | 2.0/0,2,4,8 | 2.0/0,2,4,{NONE} | | | 2.0 has 3 OSDs after
        a backfill | 1.0/0,2,4/0,2,4/0,2,9 | 1.0/0,2,4 | | | placement group 1.0 is on [0, 2, 9] still, and goes to \
            [0, 2, 4]: let its backfill end, and add --clear-temp
        a backfill after | 1.0/0,2,4 | 1.0/0,2,4/0,2,4/0,2,9 | | | after: placement group 1.0 is on [0, 2, 9] still
        places swapped | 2.0/0,2,4,8 | 2.0/2,0,4,8 | | | its shards on osd.0 and osd.2 {unlike}
        places in a ring | 2.0/0,2,4,8 | 2.0/2,4,0,8 | | | its shards on osd.0 and osd.2 and osd.4 {unlike}
        places swapped, held | 2.0/0,2,4,8 | 2.0/2,0,4,8 | | --hold | cannot be held on [0, 2, 4, 8] by exceptions: \
            its \
            shards on osd.2 and osd.0 {unlike}
        two copies on a host | 1.0/0,2,4 | 1.0/0,2,3 | | | cannot be held on [0, 2, 3] by exceptions: osd.2 and osd.3 \
            would be in one host, h1
        two shards on a host | 2.0/0,2,4,8 | 2.0/0,2,3,8 | | | osd.2 and osd.3 would be in one host, h1
        to an OSD that is out | 1.0/0,2,4 | 1.0/0,2,6 | | | osd.6 is out, or has no weight below default
        to an OSD without weight | 2.0/0,2,4,8 | 2.0/0,2,11,8 | | | osd.11 is out, or has no weight below default
        held where it is out | 1.0/0,2,6 | 1.0/0,2,4 | | --hold | cannot be held on [0, 2, 6] by exceptions: osd.6 is \
            out
        a whole exception | 1.0/0,2,4 | 1.0/0,2,8 | pg_upmap 1.0 [0,2,4] | | placement group 1.0 has a whole exception \
            (pg_upmap); remove it first: ceph osd rm-pg-upmap 1.0
        elsewhere once the change is made | 2.0/0,2,4,8/10,2,4,8 | 2.0/7,0,4,8/7,10,4,8 | pg_upmap_items 2.0 [0,10] | \
            | \
            2.0 would be on [7, 0, 4, 8] with its exceptions once the change is made
        exceptions that have gone | 1.0/0,2,4/0,2,5 | 1.0/0,2,4 | | | dump is not of the map of before: its exceptions \
            put placement group 1.0 elsewhere than on [0, 2, 5]
        a dump of another map | 1.0/0,2,4 | 1.0/0,2,4 | pg_upmap_items 1.0 [4,5] | --hold | dump is not of the map of \
            after
        no such pool | 7.0/0,2,4 | 7.0/0,2,4 | | | dump has no pool for placement group 7.0""")
    with Room() as room:
        room.write("crush", SMALL["crush"])
        for at, (name, before, after, exceptions, words, said) in enumerate(rows):
            for path, text in (("before", lists(before.split("/"))), ("after", lists(after.split("/"))),
                               ("dump", f"{SMALL['epoch']}{exceptions}\n")):
                room.write(path, text)
            refused(room, f"from-ceph, {name}", f"contrib/from-ceph before after dump crush {words}", said)
            room.write("plan.txt", plan_of("1.0-0 osd.0 0 osd.8 0"))
            if at % 4 == 0:  # it reads the same files by the same calls
                refused(room, f"to-ceph, {name}", f"contrib/to-ceph plan.txt before after dump crush {words} --out s",
                        said)
        room.write("dump", SMALL["epoch"])
        room.write("before", lists(("1.0", "0,2,4"), ("2.0", "0,2,4,8")))
        room.write("after", lists(("1.0", "0,2,8"), ("2.0", "2,0,4,8")))
        refused(room, "from-ceph, one of two", "contrib/from-ceph before after dump crush",
                "1 of 2 placement groups cannot be carried out; --leave-out leaves them where they are, and plans the "
                "others")
        room.says("--leave-out names the group", "contrib/from-ceph before after dump crush --leave-out",
                  "placement group 2.0 cannot be held")
        that("--leave-out names the group", "2.0" not in room.read("next.csv"))
        for name in FILES:
            os.unlink(room.path(name))
        room.write("after", lists(("1.0", "0,2,4", "0,2,9"), ("2.0", "0,2,4,8")).partition("\n")[2])
        refused(room, "from-ceph, exceptions that were not cleaned", "contrib/from-ceph before after dump crush",
                "after has exceptions that Ceph may drop with the change: add --upmap-cleanup COMMANDS")


def refusals_of_ceph():
    before = page("contrib/samples/ceph/before")
    with Room() as room:
        room.good("refusals", "cp contrib/samples/ceph/{before,after,dump,crush} .")
        for name, text, said in (("empty", "",
                                  "lists no placement group; this prints them: osdmaptool MAP --clear-temp "
                                  "--test-map-pgs-dump-all"),
                                 ("a dump", page("contrib/samples/ceph/dump"), "lists no placement group"),
                                 ("twice", before + before, "lists placement group 3.0 twice"),
                                 ("a group less", before[before.index("\n3.1 "):],
                                  "placement group 3.0 is in after alone"),
                                 ("the list of those that have it",
                                  re.sub(r"^(\S+) raw .* acting \((\[.*\]), p(\d+)\)", "\\1\t\\2\t\\3", before,
                                         flags=re.M), "lists no placement group")):
            room.write("odd", text)
            that(f"the case '{name}' differs", text != before)
            refused(room, f"from-ceph, {name}", "contrib/from-ceph odd after dump crush", said)
        crush = json.loads(page("contrib/samples/ceph/crush"))
        all_refused(room, "from-ceph, DUMP", "contrib/from-ceph before after odd crush", "odd",
                    (("empty", "", "does not hold what `ceph osd dump`"),
                     ("no pools", "epoch 3\n", "does not hold what `ceph osd dump`"),
                     ("the groups", before, "does not hold what `ceph osd dump`")))
        all_refused(room, "from-ceph, CRUSH", "contrib/from-ceph before after dump odd", "odd",
                    (("empty", "", "does not hold what `ceph osd crush dump` prints"),
                     ("a list", "[]", "does not hold what `ceph osd crush dump` prints"),
                     ("another object", '{"rules": [{}]}', "does not hold what"),
                     ("without a rule", json.dumps({**crush, "rules": crush["rules"][:2]}),
                      "odd has no rule 7, which pool 5 of dump has")))
        for words, said in cases("""
                --backfills 0 | '0' is no number from 1 to 1024
                --backfills osd.99=2 | osd.99 has no copy before or after
                --into nowhere | nowhere/disks.csv cannot be written"""):
            refused(room, "from-ceph", f"contrib/from-ceph before after dump crush {words}", said)
        room.write("many", lists(*((f"1.{it:x}", f"{2 * (it % 5)},{2 * (it % 5 + 1) % 10},{2 * (it % 5 + 2) % 10}")
                                   for it in range(22000))))
        room.write("crush2", SMALL["crush"])
        room.write("dump2", SMALL["epoch"])
        refused(room, "from-ceph, too many items", "contrib/from-ceph many many dump2 crush2",
                "there are 66000 copies, more than 65536: --moving leaves out those that stay")
        room.good("from-ceph, too many", "contrib/from-ceph many many dump2 crush2 --moving --into .")
        for name in FILES:
            os.unlink(room.path(name))
        room.write("wide", lists(*((f"1.{it:x}", f"{3 * it},{3 * it + 1},{3 * it + 2}") for it in range(342))))
        refused(room, "from-ceph, too many disks", "contrib/from-ceph wide wide dump2 crush2",
                "there are 1026 OSDs with copies, more than 1024")
        room.good("refusals", "contrib/from-ceph before after dump crush --backfills 2")
        room.planned("refusals")
        plan, four = room.read("plan.txt"), "before after dump crush --out s"
        shift = shifts_of(plan)[0][0]
        other = next(it for it in sum(shifts_of(plan), []) if it[0] != shift[0])
        all_refused(room, "to-ceph", f"contrib/to-ceph p {four}", "p",
                    (("nothing", plan_of(), "p moves nothing"),
                     ("another target", plan.replace(" ".join(shift), " ".join([*shift[:3], other[1], shift[4]])),
                      f"p round 1: {shift[0]} from {shift[1]} to {other[1]} is no move"),
                     ("an item that is none", plan.replace(shift[0], "4.7s9"), "4.7s9 from"),
                     ("LVM's", plan.replace(shift[0], "db.0"), "db.0 from")))
        refused(room, "to-ceph, over what it read", "contrib/to-ceph plan.txt before after dump crush --out dump",
                "dump was read, and is not written over")
        half = shifts_of(plan)
        twice = next(group for group in (it[0].split("s")[0] for it in sum(half, []) if "s" in it[0])
                     if sum(it[0].startswith(f"{group}s") for it in sum(half, [])) > 1)
        gone = next(it for it in sum(half, []) if it[0].startswith(f"{twice}s"))
        rounds = [[it for it in shifts if it != gone] for shifts in half]
        rounds = [it for it in rounds if it]
        room.write("p", plan_text(rounds))
        refused(room, "to-ceph, half a group", f"contrib/to-ceph p {four}",
                f"p moves others of placement group {twice}, and not {gone[0]}")


# what is made first, the words of the script, what it says, its status
OF_FOLDERS = cases("""
    |  | the following arguments are required: MNT | 2
    | mnt/none | mnt/none is no folder | 1
    touch mnt/file | mnt/file | mnt/file is no folder | 1
    | mnt/a mnt/a/ | mnt/a and mnt/a are one folder | 1
    ln -s a mnt/link | mnt/a mnt/b mnt/link | mnt/a and mnt/link are one folder | 1
    mkdir -p mnt/a/x/y | mnt/a mnt/b mnt/a/x | mnt/a/x is inside mnt/a, as mnt/a/x | 1
    mkdir -p mnt/a/x/y; ln -s a/x/y mnt/link | mnt/link mnt/a | mnt/link is inside mnt/a, as mnt/a/x/y | 1
    | mnt/a --mounted | nothing is mounted at mnt/a | 1
    mkdir $'mnt/a/two\\nlines' | mnt/a | 'mnt/a/two\\nlines' has a line break, another control character or a byte \
        that is no UTF-8 in its name: rename it first | 1
    mkdir $'mnt/a/\\xfcber' | mnt/a | 'mnt/a/\\udcfcber' has a line break, another control character or a byte that \
        is no UTF-8 | 1
    mkdir mnt/{a,b}/x | mnt/a mnt/b --empty a | mnt/a/x and mnt/b/x have one name, and mnt/b/x can only be one of \
        them | 1
    mkdir mnt/{a,b}/x | mnt/a mnt/b mnt/c --move mnt/a/x=c --move mnt/b/x=c | mnt/b/x and mnt/a/x have one name, and \
        mnt/c/x can only be one of them | 1
    mkdir mnt/{a,b}/x | mnt/a mnt/b mnt/c --move mnt/a/x=b --move mnt/b/x=c | mnt/a/x and mnt/b/x have one name, and \
        mnt/b/x can only be one of them | 1
    mkdir mnt/{a,b}/x | mnt/a mnt/b mnt/c --move x=c | there are several items x: mnt/a/x, mnt/b/x | 1
    mkdir mnt/a/x | mnt/a mnt/b --move y=b | there is no item y | 1
    mkdir mnt/a/x | mnt/a mnt/b --move x=c | there is no disk c | 1
    mkdir mnt/a/x | mnt/a mnt/b --move x | --move x: write --move x=MNT | 2
    mkdir mnt/a/x | mnt/a mnt/b --move x=b --move mnt/a/x=a | --move is given twice for mnt/a/x | 1
    mkdir mnt/a/x | mnt/a mnt/b --move x=b --empty b | mnt/a/x is to go to mnt/b, which is to be emptied | 1
    mkdir mnt/a/x | mnt/a mnt/b --empty c | there is no disk c | 1
    mkdir mnt/a/x | mnt/a mnt/b --empty a --empty b | there is no room: 1 items are to be dealt out | 1
    | mnt/a --limit 0 | --limit: '0' is no number from 1 to 1024 | 1
    | mnt/a --limit 2 --limit 3 | --limit is given twice for all disks | 1
    | mnt/a --limit a=2 --limit mnt/a=3 | --limit is given twice for mnt/a | 1
    | mnt/a --slots a=65537 | --slots: '65537' is no number from 1 to 65536 | 1
    mkdir mnt/a/{x,y} | mnt/a mnt/b --slots a=1 | there is no room on mnt/a: it needs 2 slots, and has 1 | 1
    mkdir mnt/a/{x,y} | mnt/a mnt/b --move x=b --move y=b --slots b=1 | there is no room on mnt/b: it needs 2 slots, \
        and has 1 | 1
    | mnt/a --into nowhere | nowhere/disks.csv cannot be written: No such file or directory | 1
    mkdir more; (cd more; xargs -a <(seq 1025) mkdir) | more/* | there are 1025 disks, more than 1024 | 1""")


def refusals_of_folders(room):
    for first, words, said, status in OF_FOLDERS:
        room.good("from-folders", f"rm -rf mnt; mkdir -p mnt/{{a,b,c}}; {first}")
        refused(room, "from-folders", f"contrib/from-folders {words}", said, status)


# the words of run-plan for x from a to b, what it says, its status
OF_RUNS = cases("""
    p | a COMMAND is needed | 2
    p cp a b | COMMAND has no {item}, so it would be the same for each transfer | 1
    p cp {itm} {item} | {itm} is none of {item} {from} | 1
    p cp {disk}/{item} {to} | {disk} is none of {item} {from} | 1
    p no-such-command {item} | COMMAND: there is no command no-such-command | 1
    --jobs 0 p cp {item} | --jobs is at least 1 | 2
    --erase "rm '" p cp {item} | invalid split value | 2
    --guard 'test -e {disk}' --guard 'test -d {disk}' p cp {item} | --guard is given twice, or has no command | 2
    --guard '' p cp {item} | --guard is given twice, or has no command | 2
    --erase 'rm x' p cp {item} | --erase has no {item} | 1
    --verify 'diff {item} x' p cp {item} | --verify and --unverified go with --erase | 2
    --erase 'rm {item}' p cp {item} | no word says where an item stands | 1
    --verify 'diff x y' --erase 'rm {item}' p cp {item} | --verify has no {item} | 1
    --guard 'mountpoint -q mnt' p cp {item} | --guard has no {disk}, so it would be the same for each disk | 1
    --guard 'test -e {disk}/{item}' p cp {item} | --guard: {item} is none of {disk} | 1
    --guard 'no-such-command {disk}' p cp {item} | --guard: there is no command no-such-command | 1
    --place no/place p cp {item} | no/place cannot be written: No such file or directory | 1
    none.txt cp {item} | none.txt cannot be read: No such file | 1
    --names none p cp {item} | none cannot be read: No such file or directory | 1
    --names p p cp {item} | p does not begin with the row kind,name,path,bytes | 1""")
# the shifts of the round, the words, what it says
OF_SHIFTS = cases("""
    x a 0 a 1 | --erase 'rm -rf {from}/{item}' p cp {from}/{item} {to}/ | an item moves twice in it, or stays on its \
        disk
    .. .. 0 b 1 | p cp mnt/{from}/{item} mnt/{to}/ | may take such a name for another folder or an option
    .. . 0 b 1 | p cp mnt/{from}/{item} mnt/{to}/ | may take such a name for another folder or an option
    x a 0 -b 1 | p cp {from}/{item} {to}/ | x from a to -b: a command may take such a name for another folder or an \
        option
    x a 0 -b 1 | --guard 'test -e {disk}' p cp mnt/{from}/{item} mnt/{to}/ | x from a to -b: a command may take such \
        a name
    x a 0 here 0 | p cp {from}/{item} {to}/ | no place is kept in p.place, but 1 of 1 items are at their target, the \
        first one as here/x; 1 of them have left their source""")
# the shifts, the path of x in names.csv, a row more there, the words after --names, what it says
OF_NAMES = cases("""
    x a 0 b 0 | it 1 | item,x,mnt/b/y,0 | p cp {item} | two rows for one name
    x a 0 b 0 | it 1 | unit,y,mnt/b/y,0 | p cp {item} | a row that is neither of a disk nor of an item
    y a 0 b 0 | it 1 | | p cp {item} | names.csv does not have y, a and b, so it is not of this plan
    x a 0 c 0 | it 1 | | p cp {item} | names.csv does not have x, a and c, so it is not of this plan
    x b 0 a 0 | it 1 | | p cp {item} | names.csv has x at mnt/a/it 1, which is not on mnt/b, from where the plan \
        moves it
    x a 0 b 0 | | | p cp {item} | names.csv has x at mnt/a/, which is not on mnt/a
    x a 0 b 0 | .. | | p cp {item} | names.csv has x at mnt/a/.., which is not on mnt/a
    x a 0 b 0 | -rf | | p cp {item} {to} | -rf from mnt/a to mnt/b: a command may take such a name
    x a 0 b 0 | it 1 | item,y,mnt/b/it 1,0 | p cp {from}/{item} {to}/ | mnt/a/it 1 and mnt/b/it 1 have one name, and \
        mnt/b/it 1 can only be one of them
    x a 0 b 0 | it 1 | | p sh -c 'cp -a {from}/{item} {to}/' | a shell would take a name with a blank for two
    x a 0 b 0 | it 1 | | --erase '/usr/bin/ssh host rm -rf {from}/{item}' p cp -a {from}/{item} {to}/ | ssh reads its \
        words by a shell, which takes the name it 1 for something else""")


def refusals_of_runs():
    def tries(shifts, words, said, status=1):
        room.write("p", plan_of(shifts))
        refused(room, "run-plan", f"contrib/run-plan {words}", said, status)

    with Room() as room:
        room.good("run-plan", "mkdir -p here/x mnt/a mnt/b")
        for words, said, status in OF_RUNS:
            tries("x a 0 b 0", words, said, status)
        for shifts, words, said in OF_SHIFTS:
            tries(shifts, words, said)
        tries("x a 0 b 1, x a 0 c 1", "p cp {from}/{item} {to}/", "an item moves twice in it, or stays on its disk")
        tries("x a 0 b 0", "--guard 'test -e {disk}/here' p cp {from}/{item} {to}/",
              "disk a is not as --guard asks: test -e a/here: status 1\nrun-plan: nothing was begun")
        for shifts, path, more, words, said in OF_NAMES:
            room.write("names.csv",
                       f"kind,name,path,bytes\ndisk,a,mnt/a,\ndisk,b,mnt/b,\nitem,x,mnt/a/{path},0\n{more}\n")
            tries(shifts, f"--names names.csv {words}", said)


CASES = (refusals_of_lvm, refusals_of_plans, refusals_of_runs, refusals_of_folders, refusals_of_ceph,
         refusals_of_groups, legs_of_lvm, odd_names_of_lvm)

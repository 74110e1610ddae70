"""Tries report: that its page needs no network, and that what it says of disks, rounds and the bound is what is counted
here. Where there is a Chromium, pages of 3 and of 300 disks are opened in it too, and the slider is moved."""
import collections, contextlib, html.parser, itertools, json, random, re
from browser import Browser
from limits import made_case
from witness import write_case
from limits_model import Case
from rooms import Room, cases, refused, same, that

FILES = "plan.txt disks.csv now.csv cert.txt"


class Page(html.parser.HTMLParser):
    """What a page has: what it leads to, its data, its text without styles and scripts."""

    def __init__(self, text):
        super().__init__()
        self.inside, self.told, self.data, self.links = "", "", None, []
        self.feed(text)

    def handle_starttag(self, tag, attrs):
        self.inside = dict(attrs).get("id") if tag == "script" else tag if tag == "style" else ""
        self.links += [value
                       for name, value in attrs if name in ("src", "href", "srcset", "action", "background", "data")]

    def handle_endtag(self, tag):
        self.inside = ""

    def handle_data(self, text):
        if self.inside == "data":
            self.data = json.loads(text)
        elif self.inside == "":
            self.told += text

    def has(self, *words):
        return all(it in re.sub(r"\s+", " ", self.told) for it in words)


def judge(room, name):
    """Compares the data of a page with the files of its folder, and gives the page."""
    text = room.good(name, f"contrib/report {FILES}")
    found, case = Page(text), Case(room.read)
    that(f"{name}: no network", not found.links
         and not re.search(r"https?:|//[a-z]|@import|url\(|fetch\(|XMLHttp|import\(", text), found.links)
    used = collections.Counter(disk for disk, _ in case.spots.values())
    loads = case.loads(it[1:] for it in case.moves)
    needs = {disk: max(-(-loads[disk, way] // limit) for way, limit in limits.items())
             for disk, limits in case.limits.items()}
    bound = room.read("cert.txt").split("\nbound ")[1].split("\nend\n")[0].split()
    marked = set(bound[4:] if bound[0] == "set" else bound[1:2])
    same(f"{name}: disks", found.data["disks"], [[it, used[it], case.slots[it], list(limits.values()), needs[it],
                                                  it in marked] for it, limits in case.limits.items()])
    numbers = {it: at for at, it in enumerate(case.limits)}
    same(f"{name}: rounds", found.data["rounds"],
         [[[it[0], numbers[it[1]], numbers[it[3]]] for it in shifts] for shifts in room.shifts()])
    same(f"{name}: the kind of limits", found.data["split"], case.is_split)
    return found


def the_report(room):
    room.example()
    found = judge(room, "report, the README's plan")
    that("its bound",
         found.has("11 transfers in 3 rounds on 6 disks",
                   "Why no schedule is shorter hdd1 takes part in 5 transfers, in at most 2 at once. That "
                   "needs 3 rounds: 5 / 2, rounded up. The plan has 3. No schedule is shorter."), found.told)
    that("its busiest disks", found.has("hdd1523", "tape313", "ssd1441") and not re.search(r"and \d+ more", found.told),
         found.told)
    room.good("report", f"contrib/report {FILES} --out page.html")
    same("--out saves the same", room.read("page.html"), room.good("report", f"contrib/report {FILES}"))
    for words, said in cases(f"""
            plan.txt disks.csv examples/next.csv cert.txt | does not begin with the row item,disk,slot
            plan.txt disks.csv now.csv plan.txt | plan.txt is no certificate
            plan.txt disks.csv later.csv cert.txt | is not at slot 0 of hdd2 by later.csv; it is of another plan
            plan.txt disks.csv now.csv other.txt | other.txt is the certificate of another plan
            {FILES} --out plan.txt | plan.txt was read, and is not written over"""):
        room.write("later.csv", "item,disk,slot\n" + "".join(f"{item},{disk},{int(slot) + 1}\n" for item, disk,
                                                             slot in room.rows("now.csv") if disk != "tape"))
        room.write("other.txt", room.read("cert.txt").replace("rounds 3", "rounds 4"))
        refused(room, "report", f"contrib/report {words}", said)
    # a set, of which a better bound is found; and nothing to move
    write_case(room, [1] * 7, [(a, b) for a in range(5) for b in range(a)] * 6 + [(4, 5), (5, 6), (6, 0)])
    room.good("report", "./migrate plan disks.csv now.csv next.csv plan.txt cert.txt")
    that("a bound that is less",
         judge(room, "report, bounded").has("How short a schedule can be",
                                            "No schedule has fewer than 25 rounds. Whether one has fewer than 30 is "
                                            "not known; contrib/witness looks"))
    room.good("report",
              "contrib/witness plan.txt disks.csv cert.txt --seconds 1e9 --out best.txt && mv best.txt cert.txt")
    that("a set",
         judge(room, "report, a set").has("Among 5 disks are 60 transfers.",
                                          "together they have 5 places in a round, so at most 2 of these transfers can "
                                          "run at once. That needs 30 rounds", "No schedule is shorter.",
                                          "d0 d1 d2 d3 d4"))
    room.good("report", "cut -d, -f1,2 now.csv >next.csv; ./migrate plan disks.csv now.csv next.csv plan.txt cert.txt")
    found = Page(room.good("report", f"contrib/report {FILES}"))
    that("nothing to move", found.has("0 transfers in 0 rounds on 7 disks", "Nothing is to be moved.")
         and found.data["rounds"] == [], found.told)
    # both kinds of limits
    for seed in range(4):
        made_case(room, random.Random(seed), is_split=seed % 2 == 1)
        case = Case(room.read)
        room.planned(f"report, made case {seed}")
        if case.is_split:
            bound = case.bound()
            told = {"out": f"{bound.load} transfers leave {bound.disk}, at most {bound.limit} at once.",
                    "in": f"{bound.load} transfers reach {bound.disk}, at most {bound.limit} at once."}[bound.way]
            that(f"report, made case {seed}: its side", judge(room, f"report, made case {seed}").has(told), told)
        else:
            judge(room, f"report, made case {seed}")


ROWS = """[...document.querySelectorAll("#rows tbody tr")].map(it => [0, 1, 2].map(at => it.cells[at].textContent))"""
STEP = """new Promise(done => {
  const changed = new Set(), near = it => (it.nodeType === 1 ? it : it.parentElement).closest("tr");
  const note = row => row && changed.add(row.cells[0].textContent);
  const observer = new MutationObserver(seen => seen.forEach(it => note(near(it.target))));
  const all = {subtree: true, childList: true, characterData: true, attributes: true};
  observer.observe(document.getElementById("rows"), all);
  const slider = document.getElementById("round");
  slider.value = %d;
  slider.dispatchEvent(new Event("input"));
  requestAnimationFrame(() => requestAnimationFrame(() => { observer.disconnect(); done([...changed]); }));
})"""
MOVES = """[...document.querySelectorAll("#moves > span")].map(it => it.textContent)"""
FITS = """[document.documentElement.scrollWidth, document.documentElement.clientWidth]"""


def rows_at(case, rounds, at):
    """What the rows say after so many rounds: by each disk's name, its slots in use and the transfers at its limits."""
    ends = [it for shifts in rounds[:at] for it in shifts]
    used = collections.Counter(disk for disk, _ in case.spots.values())
    used.update(it[3] for it in ends)
    used.subtract(it[1] for it in ends)
    busy = case.loads((it[1], it[3]) for it in (rounds[at - 1] if at else []))
    return {disk: [f"{used[disk]} / {case.slots[disk]}", "  ".join(f"{busy[disk, way]}/{limit}" for way,
                                                                   limit in limits.items())] for disk,
            limits in case.limits.items()}


def look(room, browser, name, wide, dark):
    """Opens a page, goes to some rounds by the slider, and compares what stands there then."""
    case, rounds = Case(room.read), room.shifts()
    browser.open(f"file://{room.path('page.html')}#round=2", wide, 1000, dark)
    fetched = [it["params"]["request"]["url"] for it in browser.seen if it["method"] == "Network.requestWillBeSent"]
    that(f"{name}: one file and no fault",
         len(fetched) == 1 and not {"Runtime.exceptionThrown", "Log.entryAdded"} & set(browser.methods()),
         (fetched, browser.methods()))
    that(f"{name}: nothing stands out at its sides", len(set(browser.value(FITS))) == 1, browser.value(FITS))
    before = 2
    for at in (2, 3, 2, len(rounds), 0, 1):
        changed = browser.value(STEP % at)
        same(f"{name}: the rows at round {at}", {row[0]: row[1:] for row in browser.value(ROWS)},
             rows_at(case, rounds, at))
        same(f"{name}: the transfers of round {at}", browser.value(MOVES)[:200],
             [f"{it[0]} {it[1]} → {it[3]}" for it in rounds[at - 1]][:200] if at
             else ["nothing is transferred yet: this is how it stands now"])
        # a step is no more work than its transfers are: other rows stay as they are
        passed = {disk for shifts in rounds[max(0, min(before, at) - 1):max(before, at)] for it in shifts
                  for disk in (it[1], it[3])}
        that(f"{name}: the rows that change from round {before} to {at}", set(changed) <= passed, set(changed) - passed)
        before = at


def in_a_browser():
    """Pages of 3 and of 300 disks as Chromium shows them, light and dark, narrow and wide."""
    if not Browser.found():
        return print("note: report is tried without a browser: there is no chromium")
    with Room() as room, contextlib.ExitStack() as opened:
        try:
            browser = opened.enter_context(Browser())
        except (EOFError, OSError) as error:
            return print(f"note: report is tried without a browser: {Browser.found()} does not run here: {error}")
        for disks, count, is_split in ((3, 12, False), (300, 3000, False), (300, 1500, True)):
            rnd = random.Random(disks)
            write_case(room, [rnd.choice([1, 2, 3]) for _ in range(disks)],
                       [tuple(rnd.sample(range(disks), 2)) for _ in range(count)])
            if is_split:
                room.write("disks.csv", "disk,out,in,slots\n" + "".join(f"{name},{limit},{rnd.randint(1, 3)},{slots}\n"
                                                                        for name, limit,
                                                                        slots in room.rows("disks.csv")))
            room.good("report",
                      f"./migrate plan disks.csv now.csv next.csv plan.txt cert.txt; contrib/report {FILES} --out "
                      f"page.html")
            looks = itertools.product((400, 1600), (False, True)) if not is_split else [(1600, False)]
            for wide, dark in looks:
                look(room, browser, f"report in a browser, {disks} disks, {wide} pixels, {'dark' if dark else 'light'}",
                     wide, dark)


CASES = (the_report, in_a_browser)

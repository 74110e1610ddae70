"""The calls over numbers, for tests/library: on made clusters they give the plans, the bounds and the refusals of the calls over texts, spelled out."""
import random
from session_rooms import Count
import migrate

CLASSES, SIDES = ("even", "general", "duplex"), ("out", "in")


def made(chance):
    """Disks, items and whether limits are split, with a fault now and then."""
    count, split, kind = chance.randint(1, 12 if chance.random() < 0.8 else 60), chance.random() < 0.5, chance.randrange(3)
    if chance.random() < 0.15:  # three disks that share their items alone: a set is the bound
        count, split, kind = chance.randint(3, 6), False, 3
    limit = lambda: (2 * chance.randint(1, 4), chance.randint(1, 7), 1 + 2 * chance.randrange(3), 1)[kind]
    near = lambda: chance.randrange(3 if kind == 3 else count)
    used, comes, items = [0] * count, [0] * count, []
    for _ in range(chance.randrange(60 if chance.random() < 0.8 else 1500)):
        disk, next_disk = near(), near()
        items.append([disk, used[disk], next_disk])
        used[disk] += 1
        comes[next_disk] += disk != next_disk
    disks = [[limit(), limit(), max(1, a + b + chance.choice([0, 0, 1, 4]))] for a, b in zip(used, comes)]
    for item in items:
        if item[0] % 3 == 1:
            item[1] = disks[item[0]][2] - 1 - item[1]
    fault = chance.randrange(20)
    if fault == 0:
        chance.choice(disks)[chance.choice([0, 2])] = chance.choice([0, 65537])
    elif fault == 1 and items:
        chance.choice(items)[2] = count + chance.randrange(3)
    elif fault == 2 and items:
        chance.choice(items)[0] = count
    elif fault == 3 and items:
        item = chance.choice(items)
        item[1] = disks[item[0]][2]
    elif fault == 4 and len(items) > 1:
        items[-1][:2] = items[0][:2]
    elif fault == 5:
        disk = chance.randrange(count)
        disks[disk][2] = max([1] + [slot + 1 for at, slot, _ in items if at == disk])
    return disks, items, split


def tables(disks, items, split):
    lines = lambda head, rows: "".join(f"{it}\n" for it in [head, *rows]).encode()
    return (lines("disk,out,in,slots" if split else "disk,limit,slots", (f"d{k},{a},{b},{slots}" if split else f"d{k},{a},{slots}" for k, (a, b, slots) in enumerate(disks))),
            lines("item,disk,slot", (f"i{k},d{disk},{slot}" for k, (disk, slot, _) in enumerate(items))), lines("item,disk", (f"i{k},d{to}" for k, (_, _, to) in enumerate(items))))


def spelled(disks, items, split, numbers):
    """The plan and the certificate that the numbers are."""
    found, rows, plan = numbers.found, getattr(numbers.rows, "tolist", lambda: numbers.rows)(), [f"migration-plan 1", f"rounds {numbers.found.rounds}"]
    for round in range(1, found.rounds + 1):
        these = [it for it in rows if it[3] == round]
        plan += [f"round {round} {len(these)}"] + [f"i{item} d{items[item][0]} {items[item][1]} d{disk} {slot}" for item, disk, slot, _ in these]
    bound = {0: "nothing", 1: f"disk d{found.disk} {found.load} {disks[found.disk][0]} {found.value}", 3: f"set {len(numbers.set)} {found.load} {found.value}",
             2: f"side d{found.disk} {SIDES[found.side]} {found.load} {disks[found.disk][found.side]} {found.value}"}[found.bound]
    cert = [f"migration-certificate {1 + split}", f"rounds {found.rounds}", f"quotient {found.quotient}", f"class {CLASSES[found.limits]}", f"bound {bound}", *(f"d{it}" for it in numbers.set)]
    return tuple("".join(f"{it}\n" for it in [*lines, "end"]).encode() for lines in (plan, cert))


def why(refused):
    """The text of a refusal over numbers."""
    lacks = f"needs {refused.needs}, has {refused.has}"
    place, named = refused.place + 1, {3: "disks row {}: out of range", 4: "now row {}: unknown disk", 5: "now row {}: slot too high", 6: "now row {}: slot taken", 7: "next row {}: unknown disk",
                                       8: f"disks row {{}}: no room on d{refused.place}, {lacks}"}
    if refused.status == 13:
        return f"too many for d{refused.place}, {lacks}\n" if refused.cause == 9 else "no free slot\n"
    if refused.status == 14:
        full = f"no room, {refused.needs} items, {refused.has} free"
        return f"no disk d{refused.place}\n" if refused.cause == 4 else f"{full}\n"
    return f"refused {named[refused.cause]}\n".format(place)


def verdict(found):
    """The text of a verdict over numbers."""
    forms = ["optimal", "bounded", "empty round {0}", "not here round {0} item i{1}", "twice in round {0} item i{1}", "slot not free round {0} item i{1}", "over limit round {0} disk d{1} count {3}",
             "wrong end item i{1}", "moved too often item i{1} count {3}", "rounds differ kept {2} counted {3}", "quotient differs kept {2} counted {3}", "class differs",
             "load differs kept {2} counted {3}", "value differs kept {2} counted {3}"]
    return forms[found.what].format(found.round, found.place, found.kept, found.counted)


def the_check(library, chance, it, disks, items, split, made):
    """The plan is judged as its text is, and so is one that was changed, where it has a text."""
    rows, found, changed = made.rows.tolist(), list(made.found), chance.randrange(8)
    if rows and changed > 2:
        row = chance.choice(rows)
        at, to = chance.choice([(0, len(items)), (1, len(disks)), (2, 70000), (3, found[0] + 1)])
        row[at] = chance.randrange(to) if changed > 3 else to + chance.randrange(2)
        chance.shuffle(rows)
    elif changed:
        found[chance.choice([1, 2, 6, 7])] += 1
    if changed == 7 and len(rows) > 1:
        rows[chance.randrange(len(rows))] = list(rows[0])
    return judged_as_text(library, f"cluster {it}", disks, items, split, migrate.Numbers(rows, migrate.Found(*found), made.set))


def judged_as_text(library, what, disks, items, split, numbers):
    """The verdict over numbers, which is that of the text that they spell."""
    status, judged = library.check_numbers(disks, items, numbers, split)
    if status == 10:
        rows, rounds = numbers.rows, numbers.found.rounds
        bad = [k for k, (item, disk, slot, round) in enumerate(rows) if item >= len(items) or disk >= len(disks) or slot >= 65536 or not 1 <= round <= rounds]
        Count.same(f"check_numbers of {what}: what is not spelled", judged, (14, 0, bad[0], 0, 0) if bad else (15, 0, 0, 0, 0))
    else:
        text = answer(lambda: library.check(*tables(disks, items, split), *spelled(disks, items, split, numbers)))
        Count.same(f"check_numbers of {what}", (status, f"{verdict(judged)}\n"), text if isinstance(text, tuple) else (0, f"{text}\n"))
    return judged.what


def answer(call):
    try:
        return call()
    except migrate.Refused as refused:
        return refused.status, why(refused)
    except migrate.Error as error:
        return error.status, error.text


def the_numbers(library, clusters):
    chance, bounds, causes, verdicts = random.Random(60), set(), set(), set()
    for it in range(clusters):
        disks, items, split = made(chance)
        texts = answer(lambda: tuple(library.plan(*tables(disks, items, split))))
        numbers = answer(lambda: library.plan_numbers(disks, items, split))
        if isinstance(numbers, migrate.Numbers):
            bounds.add(numbers.found.bound)
            verdicts.add(the_check(library, chance, it, disks, items, split, numbers))
            numbers = spelled(disks, items, split, numbers)
        else:
            causes.add(numbers[1].split(":")[1].split(" on ")[0])
        Count.same(f"plan_numbers of cluster {it}", numbers, texts)
        the_schedule(library, it, disks, items, split)
    # a plan with a round more than it needs, and an item that stays and is shifted within its disk
    disks, items = [(2, 2, 4), (2, 2, 4)], [(0, 0, 1), (1, 0, 0), (0, 1, 0)]
    plan = library.plan_numbers(disks, items, 0)
    for rows, rounds in (([[0, 1, 1, 1], [1, 0, 2, 2]], 2), ([[0, 1, 1, 1], [1, 0, 2, 1], [2, 0, 3, 2]], 2)):
        verdicts.add(judged_as_text(library, f"{len(rows)} shifts", disks, items, 0, migrate.Numbers(rows, plan.found._replace(rounds=rounds), plan.set)))
    Count.same("each kind of bound, each cause, and each verdict", (bounds, len(causes), verdicts), ({0, 1, 2, 3}, 5, set(range(16)) - {9}))
    for name, call, refused in (
        ("too many disks", lambda: library.plan_numbers([(1, 1, 1)] * 1025, []), (3, 1, 0)),
        ("too many items", lambda: library.plan_numbers([(1, 1, 1)], [(0, 0, 0)] * 65537), (3, 2, 0)),
        ("a pair of no disk", lambda: library.schedule([(1, 1)], [(0, 0), (0, 1)]), (3, 7, 1)),
        ("a limit of 0", lambda: library.schedule([(1, 1), (0, 1)], [(0, 1)]), (3, 3, 1)),
    ):
        try:
            found = call()
        except migrate.Refused as error:
            found = error.status, error.cause, error.place
        Count.same(f"over numbers: {name}", found, refused)
    the_tight(library, clusters // 2)
    the_drain(library, clusters // 2)


def full(chance):
    """Disks with few free slots, and items of which too many are to be on one disk now and then."""
    slots = [chance.randint(1, 6) for _ in range(chance.randint(1, 6))]
    spots = [(disk, slot) for disk, count in enumerate(slots) for slot in range(count)]
    ends = [disk for disk, _ in spots] if chance.randrange(8) else [chance.randrange(len(slots)) for _ in spots]
    chance.shuffle(spots)
    chance.shuffle(ends)
    kept = spots[chance.choice([0, 1, 1, 2, 3]):]
    disks = [(chance.randint(1, 2), chance.randint(1, 2), count) for count in slots]
    return disks, [(*spot, end) for spot, end in zip(kept, ends)], chance.random() < 0.5


def the_tight(library, clusters):
    """A plan for tight space is that of the texts, spelled out, and so is why there is none."""
    chance, ends, parked = random.Random(61), set(), 0
    for it in range(clusters):
        disks, items, split = full(chance) if it % 4 else made(chance)
        numbers = answer(lambda: library.plan_tight_numbers(disks, items, split))
        if isinstance(numbers, migrate.TightNumbers):
            at, count = [tuple(row[:2]) for row in items], len(numbers.rows)
            lines = ["migration-plan 1", f"rounds {count}"]
            for item, disk, slot, round in numbers.rows.tolist():
                lines += [f"round {round} 1", f"i{item} d{at[item][0]} {at[item][1]} d{disk} {slot}"]
                at[item] = disk, slot
            parked += numbers.parked
            lines = "".join(f"{line}\n" for line in [*lines, "end"]).encode()
            numbers = lines, f"rounds {count}, parked {numbers.parked}\n"
        else:
            ends.add((numbers[0], numbers[1].split()[0]))
        texts = answer(lambda: tuple(library.plan_tight(*tables(disks, items, split))))
        Count.same(f"plan_tight_numbers of cluster {it}", numbers, texts)
    wanted = {(13, "too"), (13, "no"), (3, "refused")}
    some = parked > clusters // 20 and wanted <= ends
    Count.that("items are parked, and plans refused in each way", some, (parked, ends))


def the_drain(library, clusters):
    """Next disks that empty a disk are those of the texts, and so are what shows it and why there are none."""
    chance, ends = random.Random(62), set()
    for it in range(clusters):
        disks, items, split = full(chance) if it % 4 else made(chance)
        disk = chance.randrange(len(disks)) if chance.randrange(20) else len(disks)
        items = [(at, slot, 0) for at, slot, _ in items]
        numbers = answer(lambda: library.drain_numbers(disks, items, disk, split))
        if isinstance(numbers, migrate.DrainNumbers):
            load = sum(at == disk for at, _, _ in items)
            shown = ["nothing", f"own {numbers.count} {numbers.limit}", f"others {numbers.count} of {load}"]
            next = tables(disks, [(*row[:2], to) for row, to in zip(items, numbers.next)], split)[2]
            ends.add(numbers.shown)
            numbers = next, f"rounds {numbers.rounds}\nshown {shown[numbers.shown]}\n"
        else:
            ends.add(" ".join(numbers[1].split(",")[0].split()[:2]))
        texts = answer(lambda: tuple(library.drain(*tables(disks, items, split)[:2], f"d{disk}")))
        Count.same(f"drain_numbers of cluster {it}", numbers, texts)
    Count.that("each is shown, and a drain refused in each way", {0, 1, 2, "no disk", "no room"} <= ends, ends)


def the_schedule(library, it, disks, items, split):
    """The rounds of the pairs keep each limit, and are as many as they say; slots and room don't matter."""
    try:
        made = library.schedule([row[:2] for row in disks], [(a, b) for a, _, b in items], split)
    except migrate.Refused as refused:
        Count.that(f"schedule of cluster {it} is refused for limits or disks", refused.cause in (3, 4, 7), refused)
        return
    rounds, counts = made.rows.tolist(), {}
    for round, (a, _, b) in zip(rounds, items):
        for key in ([("out", a, round), ("in", b, round)] if split else [(None, a, round), (None, b, round)]) if a != b else []:
            counts[key] = counts.get(key, 0) + 1
    kept = all(count <= disks[disk][side == "in"] for (side, disk, _), count in counts.items())
    Count.that(f"schedule of cluster {it}", kept and all((round > 0) == (a != b) for round, (a, _, b) in zip(rounds, items)) and max([0, *rounds]) == made.found.rounds >= made.found.value)

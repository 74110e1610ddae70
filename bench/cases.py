"""Cases of migrations, as three files. A limit is a number, or the outgoing and the incoming one as a pair of numbers; all limits of
a case are of one kind."""
import os


def write_case(folder, disks, per_pair, limits):
    """The case of so many disks and items per ordered pair of disks. `limits` is one limit, or a list of one for each disk."""
    each = (disks - 1) * per_pair
    write_disks(folder, limits if isinstance(limits, list) else [limits] * disks, [2 * each] * disks)
    moves = list(enumerate(moves_between(disks, per_pair)))
    write_items(folder, ["item,disk,slot\n"] + [f"i{item},d{source},{item % each}\n" for item, (source, _) in moves],
                ["item,disk\n"] + [f"i{item},d{target}\n" for item, (_, target) in moves])


def moves_between(disks, per_pair):
    """So many moves from each disk to each other one."""
    return [(source, target) for source in range(disks) for target in range(disks) if target != source for _ in range(per_pair)]


def write_random(folder, disks, items, limits, seed):
    """As above, with so many items on random disks that go to random disks. The limits are those of the list, again and again."""
    state = seed

    def draw(n):
        nonlocal state
        state = (state * 6364136223846793005 + 1442695040888963407) % 2**64
        return (state >> 33) % n

    write_disks(folder, [limits[v % len(limits)] for v in range(disks)], [65536] * disks)
    used = [0] * disks
    now, next_ = ["item,disk,slot\n"], ["item,disk\n"]
    for item in range(items):
        source, target = draw(disks), draw(disks)
        now.append(f"i{item},d{source},{used[source]}\n")
        next_.append(f"i{item},d{target}\n")
        used[source] += 1
    write_items(folder, now, next_)


def write_moves(folder, limits, moves):
    """As above, with these limits and a relocated item for each of these moves from disk to disk."""
    arriving = [0] * len(limits)
    used = [0] * len(limits)
    now, next_ = ["item,disk,slot\n"], ["item,disk\n"]
    for item, (source, target) in enumerate(moves):
        now.append(f"i{item},d{source},{used[source]}\n")
        next_.append(f"i{item},d{target}\n")
        used[source] += 1
        arriving[target] += 1
    write_disks(folder, limits, [max(1, used[v] + arriving[v]) for v in range(len(limits))])
    write_items(folder, now, next_)


def write_disks(folder, limits, slots):
    """A row for each disk, below the header for joint limits, or that for an outgoing and an incoming one."""
    pairs = [limit if isinstance(limit, tuple) else (limit,) for limit in limits]
    header = {1: "disk,limit,slots", 2: "disk,out,in,slots"}[max(map(len, pairs))]
    with open(os.path.join(folder, "disks.csv"), "w") as f:
        f.write(f"{header}\n")
        f.writelines(f"d{v},{','.join(map(str, limit))},{most}\n" for v, (limit, most) in enumerate(zip(pairs, slots)))


def write_items(folder, now, next_):
    for name, lines in (("now.csv", now), ("next.csv", next_)):
        with open(os.path.join(folder, name), "w") as f:
            f.writelines(lines)

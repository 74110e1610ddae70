"""The words of run-plan's commands: what is put in their places for each transfer, and what would do harm there."""
import re, shlex, shutil
from collections.abc import Mapping, Sequence
from ..command import Wrong
from ..plans import Plan, Shift

PLACES = ("item", "from", "from_slot", "to", "to_slot", "round")
Values = Mapping[str, str]  # what is put in these places


def check_words(words_: Sequence[str], what: str, places: Sequence[str], named: bool) -> None:
    """The command is there, and each of its places has a meaning; one of them tells the transfers, or the disks,
    apart."""
    found = re.findall(r"\{(\w+)\}", " ".join(words_))
    for place in (it for it in found if it not in places):
        raise Wrong(f"{what}: {{{place}}} is none of {' '.join(f'{{{it}}}' for it in places)}")
    if places[0] not in found:
        each = "disk" if len(places) == 1 else "transfer"
        raise Wrong(f"{what} has no {{{places[0]}}}, so it would be the same for each {each}: {shlex.join(words_)}")
    if not shutil.which(words_[0]):
        raise Wrong(f"{what}: there is no command {words_[0]}")
    for word in words_ if named else ():
        if re.search(r"\{\w+\}.*\s|\s.*\{\w+\}", word, re.S):
            raise Wrong(f"{what}: in '{word}' a shell would take a name with a blank for two: write \"$1\" there, and "
                        "the place as a word of its own after it")


def check_inside(words_: Sequence[str], items: Sequence[str]) -> None:
    """Refuses a copy command that would bring what stands inside a folder of a disk to the top of the other one."""
    deep = next((it for it in items if "/" in it), None)
    copies, to_top = (any(re.fullmatch(form, word) for word in words_)
                      for form in (r"\{from\}/+\{item\}/*", r"\{to\}/*"))
    if deep and copies and to_top:
        raise Wrong(f"COMMAND would bring {deep} to the top of a disk, and not into its folder: write rsync -aHAXSR "
                    "--numeric-ids {from}/./{item} {to}/, or a command of a shell that makes the folder")


def filled(words_: Sequence[str], values: Values) -> list[str]:
    return [re.sub(r"\{(\w+)\}", lambda it: values[str(it[1])], word) for word in words_]


def fill_in(plan: Plan, disks: Values, items: Values, all_words: Sequence[str]) -> list[list[Values]]:
    """What is put in the places of words, for each transfer of each round. Refuses what `migrate check` refuses too and
    would do harm here, and names that a command takes for something else."""
    first = [word.replace("{disk}", end) for word in all_words if word[:1] == "{" for end in ("{from}", "{to}")]
    where: dict[str, tuple[str, int]] = {}

    def values_of(at: int, it: Shift) -> Values:
        spot = where.get(it.item, (it.source, it.source_slot))
        if spot != (it.source, it.source_slot):
            raise Wrong(f"round {at}: {it.item} goes from slot {it.source_slot} of {it.source}, and is in slot "
                        f"{spot[1]} of {spot[0]} since its last move")
        where[it.item] = it.target, it.target_slot
        words_ = items[it.item], disks[it.source], str(it.source_slot), disks[it.target], str(it.target_slot), str(at)
        return dict(zip(PLACES, words_))

    rounds = []
    for at, shifts in enumerate(plan.rounds, 1):
        if len({it.item for it in shifts}) < len(shifts) or any(it.source == it.target for it in shifts):
            raise Wrong(f"round {at}: an item moves twice in it, or stays on its disk, which no plan of `migrate plan` "
                        "or `plan-tight` does")
        rounds.append([values_of(at, it) for it in shifts])
        for it in rounds[-1]:
            if {it["item"], it["from"], it["to"]} & {".", ".."} or any(word[:1] == "-" for word in filled(first, it)):
                raise Wrong(f"round {at}: {it['item']} from {it['from']} to {it['to']}: a command may take such a name "
                            "for another folder or an option")
    return rounds


def ends_in(all_words: Sequence[str]) -> list[str]:
    """The words for where an item stands, and where it is to stand, as far as these words tell: two, or none."""
    found = re.search(r"(?<![^\s'\"=])[^\s{}'\"=]*\{from\}[^\s{}'\"]*\{item\}", "\n".join(all_words))
    return [found[0], found[0].replace("{from}", "{to}")] if found else []


# by what it is to be: the step's name and its words, none where it is left out
Steps = Mapping[str, tuple[str, Sequence[str]]]


def commands(rounds: Sequence[Sequence[Values]], steps: Steps, guards: Mapping[str, Sequence[str]]) -> str:
    """What is run, as text."""
    lines = ["# guard"] * bool(guards) + [shlex.join(it) for it in guards.values()]
    for at, values in enumerate(rounds, 1):
        for name, words_ in (it for it in steps.values() if it[1]):
            lines += [f"# round {at}, {name}", *(shlex.join(filled(words_, it)) for it in values)]
    return "".join(f"{line}\n" for line in lines)

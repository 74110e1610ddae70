"""The scripts of a shell that carry plans out: of steps, which a command reads, and plain ones, by rounds, which do
without Python."""
import re, shlex
from collections.abc import Mapping
from .command import here

STEPS = r"""#!/bin/sh
# Carries out a plan by WHAT: TITLE.
# sh THIS [-n] [--until HH:MM] [--window '[DAYS] HH:MM-HH:MM'] [MORE] [ROUND]: begins at a round, the first where none
# is named; -n prints the commands alone. While the file `pause` is in this folder, outside of each --window, and once
# it is HH:MM, nothing more begins; ended so the status is 3. Begin it again after a stop: what is done is passed over.
# Each line below is a step, which can be run by hand too.
PATH=$PATH:FOLDER
exec COMMAND --script "$0" --plan WORDS "$@"

"""

PLAIN = r"""#!/bin/sh
# Carries out a plan by WHAT: TITLE.
# sh THIS [-n] [--until HH:MM] [ROUND]: begins at a round, the first where none is named; -n prints the commands alone.
# While the file `pause` is in this folder, and once it is HH:MM, no further round begins; ended so the status is 3.
# Begin it again after a stop: what is done is passed over. It keeps no second script away.
set -u
only_print='' first=FIRST round='' until='' end=''
while [ $# -gt 0 ]; do
    case $1 in
    -n) only_print=yes; shift ;;
    --until) until=${2:-nothing}; shift; [ $# -eq 0 ] || shift ;;
    *) break ;;
    esac
done
[ $# -gt 0 ] && first=$1
case $first in '' | *[!0-9]*) echo "$0: $first is no round; say: sh $0 [-n] [--until HH:MM] [ROUND]" >&2; exit 2 ;; esac
{ [ "$first" -ge FIRST ] && [ "$first" -le LAST ]; } ||
    { echo "$0: there is no round $first, but FIRST to LAST" >&2; exit 2; }
case $until in
'') ;;
[01][0-9]:[0-5][0-9] | 2[0-3]:[0-5][0-9])
    end=$(date -d "$until" +%s) &&
        { [ "$end" -gt "$(date +%s)" ] || end=$(date -d "tomorrow $until" +%s); } || exit 2 ;;
*) echo "$0: --until $until is no time of day, as 06:00" >&2; exit 2 ;;
esac
clock() { echo "time $(date +%s) $*"; } # for contrib/progress
over() {
    { [ "$end" ] && [ "$(date +%s)" -ge "$end" ]; } || return 0
    clock ends
    echo "$0: ended before round $round, as --until says; begin again with: sh $0 $round" >&2
    exit 3
}
hold() { # waits while the file `pause` is in this folder; ends where the time of --until has come
    over
    if [ -e pause ]; then
        clock paused
        echo "$0: paused before round $round, until the file pause of this folder is removed" >&2
        while [ -e pause ]; do over; sleep 1; done
        clock goes on
    fi
    clock round "$round"
}
trap 'echo "$0: stopped in round $round; GOES begin again with: sh $0 $round" >&2; exit 130' INT TERM

"""

# its own words come before: `ready` is called before anything begins, `look_first` before each round
BEGINS = r"""begins() {
    round=$1
    [ "$round" -ge "$first" ] || return
    if [ "$only_print" ]; then echo "# round $round"; else hold; look_first; fi
}
[ "$only_print" ] || { ready; clock begins DIGEST; }

"""


def filled(text: str, **words: str) -> str:
    """A text with these words in their places."""
    return re.sub(rf"\b({'|'.join(words)})\b", lambda it: words[str(it[0])], text)


def steps_head(what: str, title: str, words: str, command: str, more: str) -> str:
    """The head of a script of steps, which this command reads with these words, the plan's digest first; `more` is a
    word that it knows besides."""
    return filled(STEPS, WHAT=what, TITLE=f"{title}, plan {words.partition(' ')[0]}", WORDS=words, COMMAND=command,
                  MORE=more, FOLDER=shlex.quote(here()))


def plain(what: str, title: str, digest: str, own: str, goes: str, rounds: Mapping[int, str]) -> str:
    """A plain script with words of its own, and what it does in each round. `goes` says what goes on after a stop."""
    head = filled(PLAIN, WHAT=what, TITLE=f"{title}, plan {digest}", FIRST=str(min(rounds)), LAST=str(max(rounds)),
                  GOES=goes)
    bodies = (f"if begins {at}; then\n{body}fi\n" for at, body in rounds.items())
    end = '[ "$only_print" ] || echo "all rounds are carried out"\n'
    return "".join([head, own, filled(BEGINS, DIGEST=digest), *bodies, end])

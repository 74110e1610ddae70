"""The bugs that tests/power must find. Each is made in the calls of a run of the program: a call is not made, though the program
is told that it was; or it fails, and the program is told that it did not; or it is made on something else."""
from power_rooms import CLOSE, JOURNAL, NOTE, OPEN, SYNC, WRITE


# What a call is

def is_disk(path):
    return path.endswith(".disk")


def is_sync_of_disk(run, call):
    return call.kind == SYNC and is_disk(call.path or "")


def is_sync_of_journal(run, call):
    return call.kind == SYNC and call.path == JOURNAL


def is_sync_of_folder(run, call):
    return call.kind == SYNC and call.path is not None and call.path not in run.world.names


def is_sync_of_saved(run, call):
    return call.kind == SYNC and call.path in run.world.names and not is_disk(call.path) and call.path not in (JOURNAL, NOTE)


def was_synced(run, call):
    return any(it.kind == SYNC and it.path == call.path and not it.drops for it in run.calls)


def was_written(run, call):
    """Whether this run has written the file since it last synced it."""
    last = next((it.kind for it in reversed(run.calls) if it.path == call.path and it.kind in (WRITE, SYNC) and not it.drops), None)
    return last == WRITE


def is_made(run, call, which):
    """Whether a name of this kind was made or renamed in the folder since its last sync."""
    return any(map(which, run.world.unsettled_names(call.path)))


def is_closing(run, call):
    """Whether a disk is synced since another one is to be opened in its place."""
    opened = next((it.path for it in reversed(run.calls) if it.kind == OPEN), "")
    return bool(run.calls) and run.calls[-1].kind in (OPEN, CLOSE) and is_disk(opened) and opened != call.path


# What the bugs do

def drop(*conditions):
    def bug(run, call):
        call.drops = all(holds(run, call) for holds in conditions)
    return bug


def let_pass(condition):
    def bug(run, call):
        call.passes = call.fails and condition(run, call)
    return bug


def sync_another_folder(run, call):
    if is_sync_of_folder(run, call):
        call.path = "." if call.path != "." else "sub"


def keep_no_note(run, call):
    """That a sync failed is noted nowhere."""
    call.is_hidden = call.path == NOTE


MOVING = ["moves", "moves_what_fill_left"]

# each bug, what it does, and the cases that are to find it
BUGS = [
    ("`written` is not set: the journal is synced once", drop(is_sync_of_journal, was_synced), MOVING),
    ("`written` is asked the wrong way round", drop(is_sync_of_journal, was_written), MOVING),
    ("the journal is not synced", drop(is_sync_of_journal), MOVING),
    ("the journal's failed sync is passed over", let_pass(is_sync_of_journal), MOVING),
    ("a sync that failed is not noted", keep_no_note, MOVING),
    ("no disk is synced", drop(is_sync_of_disk), MOVING),
    ("a disk's failed sync is passed over", let_pass(is_sync_of_disk), MOVING),
    ("a disk that was synced once is not synced again", drop(is_sync_of_disk, was_synced), MOVING),
    ("one disk is synced at a time", drop(is_sync_of_disk, lambda run, call: any(it.kind == SYNC and is_disk(it.path or "") for it in run.calls[-1:])), MOVING),
    ("what a killed run left counts as synced", drop(is_sync_of_disk, lambda run, call: not was_written(run, call)), ["moves_what_fill_left"]),
    ("a file that was written is closed without a sync", drop(is_sync_of_disk, is_closing), ["moves_with_few_files"]),
    ("the folder is not synced after a disk was made", drop(is_sync_of_folder, lambda run, call: is_made(run, call, is_disk)), MOVING),
    ("the folder is not synced after the journal was made", drop(is_sync_of_folder, lambda run, call: is_made(run, call, JOURNAL.__eq__)), MOVING),
    ("the folder is synced only for what the run made itself", drop(is_sync_of_folder, lambda run, call: not any(it.made for it in run.calls)), MOVING),
    ("the folder's failed sync is passed over", let_pass(is_sync_of_folder), MOVING),
    ("a saved file is not synced: PLAN", drop(is_sync_of_saved), ["plans"]),
    ("a saved file is not synced: LAYOUT", drop(is_sync_of_saved), ["halts"]),
    ("a saved file's failed sync is passed over: PLAN", let_pass(is_sync_of_saved), ["plans"]),
    ("a saved file's failed sync is passed over: LAYOUT", let_pass(is_sync_of_saved), ["halts"]),
    ("a saved file's folder is not synced: PLAN", drop(is_sync_of_folder), ["plans"]),
    ("a saved file's folder is not synced: LAYOUT", drop(is_sync_of_folder, lambda run, call: is_made(run, call, "layout.csv".__eq__)), ["halts"]),
    ("another folder than the saved file's is synced", sync_another_folder, ["plans"]),
]

"""Runs of run-plan by a clock that a test hands in: each copy ends when the test says, so that nothing depends on how
busy the machine is."""
import errno, os, re
from waiting import until

START = 1700000000  # the time at which a run begins by that clock


def set_clock(room, seconds):
    """Sets the clock to so many seconds after START."""
    room.write("clock.new", f"{START + seconds:.3f}")
    os.replace(room.path("clock.new"), room.path("clock"))


def let_go(room, item):
    """Lets a copy end, once it has begun."""
    def opened():
        try:
            return os.open(room.path(f"go-{item}"), os.O_WRONLY | os.O_NONBLOCK)
        except OSError as error:
            if error.errno != errno.ENXIO:
                raise
            return None

    pipe = until(opened, f"{item} to begin")
    os.write(pipe, b"go\n")
    os.close(pipe)


def told(room, word):
    return set(re.findall(rf"^\S+ {word} \d+ (\S+)$", room.read("plan.txt.place.times") or "", re.M))


def carried_out(room, options, spans, look=lambda now: None, looks=()):
    """Carries plan.txt out by copies that do nothing, and end at their times: `spans` has when each begins and ends.
    The run only goes on where just these begin then. `look` is called at each of the times `looks`. Gives the
    status."""
    set_clock(room, 0)
    room.write("job", "#!/bin/sh\nread go <go-$1\n")
    for item in spans:
        if not os.path.exists(room.path(f'go-{item}')):
            os.mkfifo(room.path(f"go-{item}"))
    command = f"CLOCK=clock exec contrib/run-plan {options} plan.txt sh job {{item}} >said 2>notes"
    ran = room.begin(command)
    try:
        for now in sorted({at for span in spans.values() for at in span} | set(looks)):
            set_clock(room, now)
            for item in [it for it, (_, end) in spans.items() if end == now]:
                let_go(room, item)
                until(lambda: item in told(room, "copied"), f"{item} to be kept at {now}")
            begun = {it for it, (begin, _) in spans.items() if begin <= now}
            until(lambda: told(room, "copying") == begun, f"just {begun} to have begun at {now}")
            if now in looks:
                look(now)
        return until(lambda: None if ran.poll() is None else (ran.returncode,), "run-plan to end")[0]
    finally:
        ran.kill()
        ran.wait()

"""How long a test waits for what has to happen: until it happens, and two minutes at most, or as many seconds as LIMIT in the environment
says. Then it says what it waited for."""
import contextlib, os, signal, subprocess, time

LIMIT = int(os.environ.get("LIMIT", "120"))


def in_vain(what):
    return TimeoutError(f"waited {LIMIT} seconds in vain for {what}")


def until(holds, what, pause=0.005):
    """Waits until something holds that has to, and gives it. It is looked at again after so many seconds."""
    end = time.monotonic() + LIMIT
    while not (found := holds()):
        if time.monotonic() > end:
            raise in_vain(what)
        time.sleep(pause)
    return found


def ended(process, what):
    """Waits for a process to end, and gives what it printed, and what it said on standard error."""
    try:
        return process.communicate(timeout=LIMIT)
    except subprocess.TimeoutExpired:
        process.kill()
        process.wait()
        raise in_vain(f"{what} to end") from None


@contextlib.contextmanager
def at_work(what):
    """What is done meanwhile in this process may take as much of a processor's time, and no more."""
    def stop(*_):
        raise in_vain(f"{what} to end, which is at work")

    signal.signal(signal.SIGVTALRM, stop)
    signal.setitimer(signal.ITIMER_VIRTUAL, LIMIT)
    try:
        yield
    finally:
        signal.setitimer(signal.ITIMER_VIRTUAL, 0)

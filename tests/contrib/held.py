"""Tries when nothing may begin, by the days and times of --window, and the lock that lets one script at a time work."""
import datetime, os, subprocess, time
from unittest import mock
from migrate_tools import clock, command
from migrate_tools.ceph import locks
from rooms import same, that

# 2026-03-10 is a Tuesday: a window, moments at which it is open, moments at which it is closed
WINDOWS = (("22:00-06:00", ("10 22:00", "11 05:59"), ("10 21:59", "11 06:00")),
           ("09:00-17:30", ("10 09:00", "10 17:29"), ("10 08:59", "10 17:30")),
           ("mon,tue 22:00-06:00", ("09 23:00", "11 01:00"), ("09 05:00", "11 22:00")),
           ("sat-mon 00:00-24:00", ("07 00:00", "09 23:59"), ("06 23:59", "10 00:00")))


def windows():
    for text, *moments in WINDOWS:
        for now, is_open in ((it, these is moments[0]) for these in moments for it in these):
            at = datetime.datetime.strptime(f"2026-03-{now}", "%Y-%m-%d %H:%M").timestamp()
            with mock.patch.object(time, "time", lambda: at):
                why = clock.Clock(windows=[clock.window(text)]).why_held()
            same(f"--window '{text}' at {now}", why,
                 "" if is_open else f"paused: nothing more begins outside of --window {text}")
    for text in ("6:00-7:00", "22:00-25:00", "22:00", "someday 22:00-23:00", "24:00-06:00"):
        try:
            found = clock.window(text)
        except ValueError:
            found = None
        same(f"--window '{text}' is none", found, None)


class Store:
    """Keeps one text for all, as a key of a cluster does."""
    text = ""

    def get(self):
        return self.text

    def set(self, text):
        self.text = text

    def remove(self):
        self.text = ""


def locked_out():
    """One at a time; who has ended keeps nobody away, who is there is taken over by force alone, and finds it out."""
    store = Store()
    one, two = locks.Lock(store, "one.sh"), locks.Lock(store, "two.sh")
    one.take(False)
    for name, what, said in (("a second one", lambda: two.take(False), f"one.sh, process {os.getpid()} of "),
                             ("force", lambda: two.take(True), ""),
                             ("the one before", one.check, "two.sh, process"),
                             ("the first again", lambda: one.take(False), "two.sh, process")):
        try:
            what()
            same(f"a lock: {name}", "", said)
        except command.Wrong as why:
            that(f"a lock: {name}", said and str(why).startswith(said), why)
    one.release()
    same("what another has is not released", store.get(), two.text)
    two.release()
    same("what is released is gone", store.get(), "")
    with subprocess.Popen(["true"]) as ended:
        store.set(two.text.replace(f'"process": {os.getpid()}', f'"process": {ended.pid}'))
    one.take(False)
    same("who has ended keeps nobody away", store.get(), one.text)


CASES = (windows, locked_out)

"""A Chromium without a window, where there is one: by its pipe for debugging, with the standard library alone."""
import fcntl, json, os, select, shutil, subprocess, tempfile, time
from waiting import LIMIT


class Browser:
    """A page of a given width, light or dark. `seen` has what the browser tells besides, as errors and what is
    fetched."""

    @staticmethod
    def found():
        return next(filter(shutil.which, ("chromium", "chromium-browser", "google-chrome")), None)

    def __init__(self):
        self.seen, self.text, self.count, self.session = [], b"", 0, {}
        self.profile = tempfile.mkdtemp(prefix="migrate-browser-")
        ends = [*os.pipe(), *os.pipe()]
        # beside 3 and 4, which the browser has for its own
        pipes = [fcntl.fcntl(it, fcntl.F_DUPFD_CLOEXEC, 10) for it in ends]
        for it in ends:
            os.close(it)
        words = [self.found(), "--headless", "--no-sandbox", "--disable-gpu", "--disable-gpu-watchdog",
                 "--disable-hang-monitor", f"--user-data-dir={self.profile}", "--remote-debugging-pipe", "about:blank"]
        shell = ["bash", "-c", f'exec 3<&{pipes[0]} 4>&{pipes[3]} {pipes[0]}<&- {pipes[3]}>&-; exec "$@"', "bash",
                 *words]
        self.process = subprocess.Popen(shell, pass_fds=(pipes[0], pipes[3]), stdin=subprocess.DEVNULL,
                                        stdout=subprocess.DEVNULL, stderr=subprocess.DEVNULL)
        os.close(pipes[0])
        os.close(pipes[3])
        self.out, self.in_ = pipes[1], pipes[2]

    def __enter__(self):
        try:
            target = self.ask("Target.createTarget", url="about:blank")["targetId"]
            self.session = {"sessionId": self.ask("Target.attachToTarget", targetId=target, flatten=True)["sessionId"]}
            for name in ("Page", "Runtime", "Log", "Network"):
                self.ask(f"{name}.enable")
        except (EOFError, OSError):
            self.__exit__()
            raise
        return self

    def __exit__(self, *_):
        self.process.kill()
        self.process.wait()
        os.close(self.out)
        os.close(self.in_)
        shutil.rmtree(self.profile, ignore_errors=True)

    def hear(self):
        end = time.monotonic() + LIMIT
        while b"\0" not in self.text:
            ready = select.select([self.in_], [], [], max(0, end - time.monotonic()))[0]
            more = os.read(self.in_, 1 << 20) if ready else b""
            if not more:
                raise EOFError("the browser says nothing more")
            self.text += more
        one, _, self.text = self.text.partition(b"\0")
        return json.loads(one)

    def ask(self, method, **words):
        self.count += 1
        os.write(self.out,
                 json.dumps({"id": self.count, "method": method, "params": words, **self.session}).encode() + b"\0")
        while (it := self.hear()).get("id") != self.count:
            self.seen.append(it)
        if "error" in it:
            raise ValueError(it["error"])
        return it["result"]

    def open(self, url, wide=1600, high=1000, dark=False):
        """Opens a page, and waits until it stands."""
        self.ask("Emulation.setDeviceMetricsOverride", width=wide, height=high, deviceScaleFactor=1, mobile=wide < 600)
        self.ask("Emulation.setEmulatedMedia",
                 features=[{"name": "prefers-color-scheme", "value": "dark" if dark else "light"}])
        for it in ("about:blank", url):  # to another place in the same page would be no new page
            self.seen.clear()
            self.ask("Page.navigate", url=it)
            while "Page.loadEventFired" not in self.methods():
                self.seen.append(self.hear())
        # what the page puts off to its next frame stands once that one is over
        self.value("new Promise(done => requestAnimationFrame(() => requestAnimationFrame(done)))")

    def methods(self):
        return [it.get("method") for it in self.seen]

    def value(self, text):
        """What an expression of the page is, once it is there."""
        found = self.ask("Runtime.evaluate", expression=text, awaitPromise=True, returnByValue=True)
        if "exceptionDetails" in found:
            raise ValueError(found["exceptionDetails"])
        return found["result"].get("value")

"""A headless Chromium that is driven over a pipe: no port is opened, and only 127.0.0.1 is reached."""
import base64
import json
import os
import subprocess
import tempfile

WORDS = ["--headless=new", "--no-sandbox", "--disable-gpu", "--no-first-run", "--disable-background-networking", "--disable-component-update",
         "--disable-sync", "--disable-default-apps", "--disable-dev-shm-usage", "--host-resolver-rules=MAP * ~NOTFOUND , EXCLUDE 127.0.0.1",
         "--enable-precise-memory-info"]
WAIT = """new Promise(done => { const look = () => document.readyState === 'complete'
    && (document.documentElement.dataset.ready || document.documentElement.dataset.cannot) ? done() : setTimeout(look, 5); look(); })"""


class Browser:
    def __init__(self):
        self.profile = tempfile.TemporaryDirectory(ignore_cleanup_errors=True)
        to_browser, ours_out = os.pipe()
        ours_in, from_browser = os.pipe()
        os.set_inheritable(to_browser, True)
        os.set_inheritable(from_browser, True)

        def place():
            # Chromium reads from 3 and writes to 4.
            a, b = os.dup(to_browser), os.dup(from_browser)
            os.dup2(a, 3)
            os.dup2(b, 4)

        words = ["chromium", *WORDS, f"--user-data-dir={self.profile.name}", "--remote-debugging-pipe", "about:blank"]
        self.process = subprocess.Popen(words, preexec_fn=place, close_fds=False, stdout=subprocess.DEVNULL, stderr=subprocess.DEVNULL)
        os.close(to_browser)
        os.close(from_browser)
        self.out, self.inp = os.fdopen(ours_out, "wb", 0), os.fdopen(ours_in, "rb", 0)
        self.rest, self.next, self.events, self.session = b"", 0, [], None
        target = self.call("Target.createTarget", url="about:blank")["targetId"]
        self.session = self.call("Target.attachToTarget", targetId=target, flatten=True)["sessionId"]
        for name in ("Page", "Runtime", "Network", "Log", "DOM", "Accessibility"):
            self.call(f"{name}.enable")

    def message(self):
        while b"\0" not in self.rest:
            piece = self.inp.read(1 << 20)
            if not piece:
                raise EOFError("the browser ended")
            self.rest += piece
        one, _, self.rest = self.rest.partition(b"\0")
        return json.loads(one)

    def call(self, method, **params):
        self.next += 1
        said = {"id": self.next, "method": method, "params": params}
        if self.session:
            said["sessionId"] = self.session
        self.out.write(json.dumps(said).encode() + b"\0")
        while True:
            it = self.message()
            if it.get("id") == self.next:
                if "error" in it:
                    raise RuntimeError(f"{method}: {it['error']}")
                return it["result"]
            self.events.append(it)

    def run(self, text):
        it = self.call("Runtime.evaluate", expression=text, awaitPromise=True, returnByValue=True, userGesture=True)
        if "exceptionDetails" in it:
            raise RuntimeError(json.dumps(it["exceptionDetails"])[:2000])
        return it["result"].get("value")

    def go(self, url):
        self.call("Page.navigate", url="about:blank")
        self.call("Page.navigate", url=url)
        self.run(WAIT)

    def choose(self, selector, path):
        """Chooses a file in an input of the page."""
        root = self.call("DOM.getDocument")["root"]["nodeId"]
        node = self.call("DOM.querySelector", nodeId=root, selector=selector)["nodeId"]
        self.call("DOM.setFileInputFiles", files=[os.path.abspath(path)], nodeId=node)

    def open_file(self, path):
        """Opens a file in the page, and returns what the page says of its explanation."""
        self.run("delete document.documentElement.dataset.done; 0")
        self.choose("#file", path)
        return self.done()

    def done(self):
        text = "new Promise(done => { const look = () => { const it = document.documentElement.dataset.done; it ? done(it) : setTimeout(look, 5); }; look(); })"
        return json.loads(self.run(text))

    def urls(self):
        """The addresses that were asked for."""
        return [it["params"]["request"]["url"] for it in self.events if it.get("method") == "Network.requestWillBeSent"]

    def faults(self):
        """Uncaught exceptions."""
        return [it["params"] for it in self.events if it.get("method") == "Runtime.exceptionThrown"]

    def picture(self, file, width=1100, height=1000, dark=False):
        self.call("Emulation.setDeviceMetricsOverride", width=width, height=height, deviceScaleFactor=1, mobile=False)
        self.call("Emulation.setEmulatedMedia", features=[{"name": "prefers-color-scheme", "value": "dark" if dark else "light"}])
        with open(file, "wb") as it:
            it.write(base64.b64decode(self.call("Page.captureScreenshot", format="png")["data"]))

    def close(self):
        try:
            self.session = None
            self.call("Browser.close")
        except (EOFError, OSError, RuntimeError):
            pass
        self.process.wait(20)
        self.profile.cleanup()

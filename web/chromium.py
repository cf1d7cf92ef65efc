"""A browser without a window that is driven over two pipes, and the page in a tab of it."""
import base64
import fcntl
import json
import os
import select
import subprocess
import sys
import time

WEB = os.path.dirname(os.path.abspath(__file__))
PICTURES = os.path.join(os.path.dirname(WEB), "target", "web")
PAGE = os.path.join(PICTURES, "zibrotka.html")
# Nothing on the page takes this long, so what is not there by then will not come.
PATIENCE = 60

# A process gets the two pipes as descriptors 3 and 4, wherever they were here.
START = "import os, sys; os.dup2(int(sys.argv[1]), 3); os.dup2(int(sys.argv[2]), 4); os.execvp(sys.argv[3], sys.argv[3:])"


class Browser:
    """A browser that is driven over two pipes: JSON messages, each ended by a zero byte."""

    def __init__(self, program, folder):
        self.number = 0
        self.read = b""
        self.events = []
        self.session = None
        (hear, self.out), (self.into, tell) = os.pipe(), os.pipe()
        hear, tell = (fcntl.fcntl(end, fcntl.F_DUPFD, 10) for end in (hear, tell))
        options = ["--headless=new", "--no-sandbox", f"--user-data-dir={folder}", "--remote-debugging-pipe", "--no-first-run", "--disable-gpu",
                   "--disable-background-networking", "--disable-component-update", "--disable-sync", "--disable-dev-shm-usage", "about:blank"]
        with open(os.path.join(folder, "browser.log"), "wb") as log:
            self.process = subprocess.Popen([sys.executable, "-c", START, str(hear), str(tell), program, *options], stdin=subprocess.DEVNULL,
                                            stdout=log, stderr=log, pass_fds=(hear, tell))
        os.close(hear)
        os.close(tell)

    def receive(self, until):
        """The next message, or None where none came in time."""
        while b"\0" not in self.read:
            if not select.select([self.into], [], [], max(0, until - time.monotonic()))[0]:
                return None
            got = os.read(self.into, 1 << 20)
            if not got:
                raise SystemExit("browser: the browser ended")
            self.read += got
        message, self.read = self.read.split(b"\0", 1)
        return json.loads(message)

    def ask(self, method, **parameters):
        """One command and its answer. Events that come before it are kept."""
        self.number += 1
        message = {"id": self.number, "method": method, "params": parameters}
        if self.session:
            message["sessionId"] = self.session
        os.write(self.out, json.dumps(message).encode() + b"\0")
        until = time.monotonic() + PATIENCE
        while True:
            answer = self.receive(until)
            if answer is None:
                raise SystemExit(f"browser: no answer to {method}")
            if answer.get("id") == self.number:
                if "error" in answer:
                    raise SystemExit(f"browser: {method}: {answer['error']}")
                return answer["result"]
            self.events.append(answer)

    def wait(self, method, fits=lambda event: True):
        """The first event of a kind that fits, kept or still to come."""
        until = time.monotonic() + PATIENCE
        at = 0
        while True:
            while at < len(self.events):
                event = self.events[at]
                if event.get("method") == method and fits(event["params"]):
                    return self.events.pop(at)["params"]
                at += 1
            event = self.receive(until)
            if event is None:
                raise SystemExit(f"browser: {method} did not come")
            self.events.append(event)

    def close(self):
        try:
            self.ask("Browser.close")
            self.process.wait(10)
        except (SystemExit, OSError, subprocess.TimeoutExpired):
            self.process.kill()
            self.process.wait()


class Page:
    """The page in a tab, and what a person does on it."""

    def __init__(self, browser, downloads):
        self.browser = browser
        self.downloads = downloads
        target = browser.ask("Target.createTarget", url="about:blank")["targetId"]
        session = browser.ask("Target.attachToTarget", targetId=target, flatten=True)["sessionId"]
        browser.ask("Browser.setDownloadBehavior", behavior="allowAndName", downloadPath=downloads, eventsEnabled=True)
        browser.session = session
        for domain in ("Page", "Runtime", "Network", "Log", "DOM"):
            browser.ask(f"{domain}.enable")
        self.size(1280, 900)

    def size(self, width, height, scheme="light", media=""):
        self.browser.ask("Emulation.setDeviceMetricsOverride", width=width, height=height, deviceScaleFactor=1, mobile=width < 600)
        self.browser.ask("Emulation.setEmulatedMedia", media=media, features=[{"name": "prefers-color-scheme", "value": scheme}])
        # The page hears of a new scheme before the frame that first has it; a frame may be under way already.
        self.run(f"""(async () => {{ const frame = () => new Promise((done) => requestAnimationFrame(done));
            do await frame(); while (!matchMedia('(prefers-color-scheme: {scheme})').matches); await frame(); }})()""")

    def open(self, hash_=""):
        # Two addresses that differ in the hash alone would not load the page anew.
        self.browser.ask("Page.navigate", url="about:blank")
        self.browser.wait("Page.loadEventFired")
        self.browser.ask("Page.navigate", url=f"file://{PAGE}{hash_}")
        self.browser.wait("Page.loadEventFired")
        self.settle()

    def run(self, script):
        """The value of an expression, worked out on the page."""
        answer = self.browser.ask("Runtime.evaluate", expression=script, returnByValue=True, awaitPromise=True)
        if "exceptionDetails" in answer:
            raise SystemExit(f"browser: {script[:200]}: {answer['exceptionDetails'].get('exception', {}).get('description')}")
        return answer["result"].get("value")

    def settle(self):
        """Waits until the page has done all that it was asked."""
        self.run("""(async () => { const busy = () => document.querySelector('main').getAttribute('aria-busy') !== 'false';
            do await new Promise((done) => setTimeout(done, 5)); while (busy()); })()""")

    def text(self, name):
        return self.run(f"document.getElementById({json.dumps(name)}).innerText")

    def shows(self, name):
        return self.run(f"document.getElementById({json.dumps(name)}).checkVisibility()")

    def type(self, name, text):
        """Sets a field's text as a person would leave it."""
        self.run(f"""(() => {{ const field = document.getElementById({json.dumps(name)}); field.value = {json.dumps(text)};
            field.dispatchEvent(new Event('input', {{ bubbles: true }})); field.dispatchEvent(new Event('change', {{ bubbles: true }})); }})()""")

    def click(self, *selectors):
        """Presses buttons one after the other, without waiting between them for what they ask for."""
        self.run(f"for (const one of {json.dumps(selectors)}) document.querySelector(one).click()")
        self.settle()

    def press(self, key, shift=False):
        code = {"ArrowDown": 40, "ArrowRight": 39, "Enter": 13, "Tab": 9}[key]
        for kind in ("keyDown", "keyUp"):
            self.browser.ask("Input.dispatchKeyEvent", type=kind, key=key, code=key, windowsVirtualKeyCode=code, modifiers=8 if shift else 0)

    def point(self, selector, across=0.5, down=0.5):
        """Moves the mouse over a part of an element."""
        box = self.run(f"""(() => {{ const it = document.querySelector({json.dumps(selector)}); it.scrollIntoView({{ block: 'center' }});
            const {{ left, top, width, height }} = it.getBoundingClientRect(); return [left, top, width, height]; }})()""")
        self.browser.ask("Input.dispatchMouseEvent", type="mouseMoved", x=box[0] + across * box[2], y=box[1] + down * box[3])

    def file(self, path):
        """Opens a file by the page's own file field."""
        root = self.browser.ask("DOM.getDocument", depth=0)["root"]["nodeId"]
        field = self.browser.ask("DOM.querySelector", nodeId=root, selector="#file")["nodeId"]
        self.browser.ask("DOM.setFileInputFiles", files=[path], nodeId=field)
        self.settle()

    def drop(self, path):
        """Drops a file or folder on the page, as from a window beside it."""
        data = {"items": [], "files": [path], "dragOperationsMask": 1}
        for kind in ("dragEnter", "dragOver", "drop"):
            self.browser.ask("Input.dispatchDragEvent", type=kind, x=200, y=200, data=data)
        self.settle()

    def saved(self, selector):
        """What a button saves: the name it gives, and the file."""
        self.run(f"document.querySelector({json.dumps(selector)}).click()")
        begun = self.browser.wait("Browser.downloadWillBegin")
        self.browser.wait("Browser.downloadProgress", lambda told: told["guid"] == begun["guid"] and told["state"] == "completed")
        return begun["suggestedFilename"], os.path.join(self.downloads, begun["guid"])

    def picture(self, name):
        height = self.run("Math.ceil(document.documentElement.getBoundingClientRect().height)")
        width = self.run("innerWidth")
        clip = {"x": 0, "y": 0, "width": width, "height": height, "scale": 1}
        shot = self.browser.ask("Page.captureScreenshot", format="png", captureBeyondViewport=True, clip=clip)
        with open(os.path.join(PICTURES, f"{name}.png"), "wb") as file:
            file.write(base64.b64decode(shot["data"]))

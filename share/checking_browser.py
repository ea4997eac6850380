"""Chromium without a window, spoken to over two pipes by its own protocol: pages are opened, clicked, typed into and pictured."""
import base64
import json
import os
import select
import shutil
import subprocess
import tempfile
import time

NAMES = ("chromium", "chromium-browser", "google-chrome")
PROGRAM = next(filter(None, map(shutil.which, NAMES)), None)
KEYS = {"ArrowLeft": 37, "ArrowRight": 39, "Enter": 13, "Escape": 27}


class Failed(Exception):
    """The browser didn't do what it was told."""


class Browser:
    """A browser with one page; `said` is what its console and its faults say."""

    def __init__(self, wide=1280, high=900):
        self.folder = tempfile.TemporaryDirectory()
        (their_in, self.to), (self.back, their_out) = os.pipe(), os.pipe()
        words = [PROGRAM, "--headless=new", "--no-sandbox", "--disable-gpu", "--disable-dev-shm-usage", "--hide-scrollbars", "--no-first-run",
                 "--remote-debugging-pipe", f"--user-data-dir={self.folder.name}", f"--window-size={wide},{high}", "about:blank"]
        # the browser reads its descriptor 3, and writes 4
        self.process = subprocess.Popen(["sh", "-c", f'exec 3<&{their_in} 4>&{their_out} "$@"', "sh", *words], pass_fds=(their_in, their_out),
                                        stdin=subprocess.DEVNULL, stdout=subprocess.DEVNULL, stderr=subprocess.DEVNULL)
        os.close(their_in)
        os.close(their_out)
        self.left, self.number, self.session, self.said = b"", 0, None, []
        target = next(one for one in self.call("Target.getTargets")["targetInfos"] if one["type"] == "page")
        self.session = self.call("Target.attachToTarget", targetId=target["targetId"], flatten=True)["sessionId"]
        for name in ("Page", "Runtime", "Log"):
            self.call(f"{name}.enable")
        self.size(wide, high)

    def __enter__(self):
        return self

    def __exit__(self, *_):
        self.close()

    def close(self):
        """Ends it."""
        self.process.terminate()
        self.process.wait(20)
        os.close(self.to)
        os.close(self.back)
        self.folder.cleanup()

    # ---- messages

    def call(self, method, **words):
        """What a method answers."""
        self.number += 1
        message = {"id": self.number, "method": method, "params": words, **({"sessionId": self.session} if self.session else {})}
        content = json.dumps(message).encode() + b"\0"
        while content:
            content = content[os.write(self.to, content):]
        while True:
            got = self.next()
            if got.get("id") == self.number:
                if "error" in got:
                    raise Failed(f"{method}: {got['error']['message']}")
                return got["result"]

    def next(self):
        """The next message; what it says of faults is kept."""
        deadline = time.monotonic() + 60
        while b"\0" not in self.left:
            if not select.select([self.back], [], [], max(0, deadline - time.monotonic()))[0]:
                raise Failed("it says nothing for a minute")
            block = os.read(self.back, 1 << 16)
            if not block:
                raise Failed("it has ended")
            self.left += block
        content, _, self.left = self.left.partition(b"\0")
        got = json.loads(content)
        method, words = got.get("method"), got.get("params", {})
        if method == "Runtime.exceptionThrown":
            self.said.append(words["exceptionDetails"].get("exception", {}).get("description") or words["exceptionDetails"]["text"])
        elif method == "Runtime.consoleAPICalled":
            self.said.append(" ".join(str(one.get("value", one.get("description"))) for one in words["args"]))
        elif method == "Log.entryAdded":
            self.said.append(words["entry"]["text"])
        return got

    # ---- pages

    def open(self, file):
        """Opens a file, and waits until the page says that it is drawn; how many milliseconds that took, from the start of its loading on."""
        self.said.clear()
        self.call("Page.navigate", url=file.resolve().as_uri())
        deadline = time.monotonic() + 60
        while time.monotonic() < deadline:
            drawn = self.value("document.documentElement && document.documentElement.dataset.drawn || ''")
            if drawn or self.said:
                return float(drawn or -1)
            time.sleep(.02)
        raise Failed("the page isn't drawn within a minute")

    def value(self, expression):
        """The value of an expression of the page."""
        got = self.call("Runtime.evaluate", expression=expression, returnByValue=True, awaitPromise=True)
        if "exceptionDetails" in got:
            raise Failed(f"{expression}: {got['exceptionDetails']['exception'].get('description')}")
        return got["result"].get("value")

    def key(self, key, shift=False):
        """Presses a key."""
        words = {"key": key, "modifiers": 8 if shift else 0, "windowsVirtualKeyCode": KEYS.get(key, ord(key[0].upper()))}
        text = {"text": key} if len(key) == 1 else {}
        self.call("Input.dispatchKeyEvent", type="keyDown", **words, **text)
        self.call("Input.dispatchKeyEvent", type="keyUp", **words)

    def click(self, x, y):
        """Clicks at a place of the window."""
        for kind in ("mouseMoved", "mousePressed", "mouseReleased"):
            self.call("Input.dispatchMouseEvent", type=kind, x=x, y=y, button="left", buttons=int(kind == "mousePressed"), clickCount=1)

    def middle(self, selector):
        """Where the middle of an element is in the window, after it is scrolled there."""
        x, y = self.value(f"(() => {{ const one = document.querySelector({json.dumps(selector)}); one.scrollIntoView({{block: 'center'}});"
                          " const box = one.getBoundingClientRect(); return [box.x + box.width / 2, box.y + box.height / 2]; })()")
        return x, y

    # ---- how it looks

    def size(self, wide, high):
        """The size of the window."""
        self.call("Emulation.setDeviceMetricsOverride", width=wide, height=high, deviceScaleFactor=1, mobile=False)

    def look(self, scheme="light", grey=False):
        """Light or dark, in colours or grey."""
        self.call("Emulation.setEmulatedMedia", features=[{"name": "prefers-color-scheme", "value": scheme}])
        self.call("Emulation.setEmulatedVisionDeficiency", type="achromatopsia" if grey else "none")

    def pictured(self, selector):
        """A picture of an element, as PNG."""
        box = self.value(f"(() => {{ const box = document.querySelector({json.dumps(selector)}).getBoundingClientRect();"
                         " return [box.x + scrollX, box.y + scrollY, box.width, box.height]; })()")
        clip = dict(zip(("x", "y", "width", "height"), box), scale=1)
        return base64.b64decode(self.call("Page.captureScreenshot", format="png", clip=clip, captureBeyondViewport=True)["data"])

    def window(self):
        """A picture of what the window shows, as PNG."""
        return base64.b64decode(self.call("Page.captureScreenshot", format="png")["data"])

    def different(self, one, other):
        """Of two pictures as PNG the part of their squares of eight by eight pixels that are clearly of another colour; 1 where sizes differ."""
        texts = json.dumps([base64.b64encode(content).decode() for content in (one, other)])
        return self.value(f"""(async () => {{
            const pictures = await Promise.all({texts}.map(text => createImageBitmap(new Blob([Uint8Array.from(atob(text), letter => letter.charCodeAt(0))]))));
            const [wide, high] = ["width", "height"].map(side => pictures[0][side]), squares = Math.floor(wide / 8) * Math.floor(high / 8);
            if (pictures[1].width !== wide || pictures[1].height !== high) return 1;
            const [first, second] = pictures.map(picture => {{
              const pen = new OffscreenCanvas(wide / 8, high / 8).getContext("2d");
              pen.imageSmoothingQuality = "high";
              pen.drawImage(picture, 0, 0, wide / 8, high / 8);
              return pen.getImageData(0, 0, wide / 8, high / 8).data;
            }});
            let count = 0;
            for (let at = 0; at < 4 * squares; at += 4) if ([0, 1, 2].some(part => Math.abs(first[at + part] - second[at + part]) > 40)) count++;
            return count / squares; }})()""")

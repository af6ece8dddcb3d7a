"""Opens pages in headless Chromium, and prints what a reader would complain of.

    browser.py DIRECTORY PAGE..

Each page is shown in windows of 1280 and of 400 pixels, in the light and in the dark setting, with
its tables unfolded. Nothing may be printed on the console or asked of a network, and look.js must
find nothing that is cut, too wide, too small or too pale. Each page as Chromium understood it is
left in DIRECTORY, and so are pictures of it if PICTURES is set. Status 1 if there is a fault.
"""

import base64
import collections
import json
import os
import pathlib
import subprocess
import sys
import tempfile

LOOK = pathlib.Path(__file__).with_name("look.js").read_text(encoding="utf-8")
WINDOWS = [(width, scheme) for width in (1280, 400) for scheme in ("light", "dark")]
OPTIONS = ("--headless=new", "--no-sandbox", "--disable-gpu", "--hide-scrollbars", "--remote-debugging-pipe")
MOST_LINES = 8  # of one window
FOLD = "for (const part of document.querySelectorAll('details')) part.open = {}"


class Chromium:
    """A browser, which takes commands of its DevTools protocol and sends events: each is one object
    of JSON, ended by a byte 0."""

    def __init__(self, profile):
        theirs_in, self.writing = os.pipe()
        self.reading, theirs_out = os.pipe()
        # It reads from descriptor 3 and writes to 4.
        command = f'exec chromium {" ".join(OPTIONS)} --user-data-dir="$1" about:blank 3<&{theirs_in} 4>&{theirs_out} 2> "$1.said"'
        self.process = subprocess.Popen(["bash", "-c", command, "bash", profile], pass_fds=(theirs_in, theirs_out), stdout=subprocess.DEVNULL)
        os.close(theirs_in)
        os.close(theirs_out)
        self.number, self.rest, self.events, self.session = 0, b"", collections.deque(), None

    def receive(self):
        while b"\0" not in self.rest:
            more = os.read(self.reading, 1 << 20)
            if not more:
                raise SystemExit("browser: Chromium ended")
            self.rest += more
        message, self.rest = self.rest.split(b"\0", 1)
        return json.loads(message.decode("utf-8"))

    def ask(self, method, **arguments):
        """The answer to a command. Events that come before it are kept."""
        self.number += 1
        message = {"id": self.number, "method": method, "params": arguments}
        if self.session:
            message["sessionId"] = self.session
        os.write(self.writing, json.dumps(message).encode("utf-8") + b"\0")
        while True:
            answer = self.receive()
            if answer.get("id") == self.number:
                if "error" in answer:
                    raise SystemExit(f"browser: {method}: {answer['error']}")
                return answer["result"]
            self.events.append(answer)

    def open_tab(self):
        target = self.ask("Target.createTarget", url="about:blank")["targetId"]
        self.session = self.ask("Target.attachToTarget", targetId=target, flatten=True)["sessionId"]
        for domain in "Page", "Runtime", "Log", "Network":
            self.ask(f"{domain}.enable")

    def value_of(self, expression):
        answer = self.ask("Runtime.evaluate", expression=expression, returnByValue=True)
        if "exceptionDetails" in answer:
            raise SystemExit(f"browser: {answer['exceptionDetails']}")
        return answer["result"].get("value")

    def wait_for(self, method):
        """The events up to the next one of this kind."""
        seen = []
        while True:
            event = self.events.popleft() if self.events else self.receive()
            seen.append(event)
            if event.get("method") == method:
                return seen

    def load(self, address):
        self.events.clear()
        self.ask("Page.navigate", url=address)
        return self.wait_for("Page.loadEventFired")

    def end(self):
        self.session = None
        try:
            self.ask("Browser.close")
        except (SystemExit, OSError):
            pass
        self.process.wait()


def complaint(event, address):
    """What an event says against a page, or nothing."""
    told = event.get("params", {})
    if event.get("method") == "Network.requestWillBeSent":
        asked = told["request"]["url"]
        return None if asked == address or asked.startswith("data:") else f"it asks for {asked}"
    if event.get("method") in ("Runtime.consoleAPICalled", "Runtime.exceptionThrown", "Log.entryAdded"):
        return f"the console has {json.dumps(told)[:300]}"
    return None


def picture(browser, path):
    height = browser.value_of("document.documentElement.scrollHeight")
    clip = {"x": 0, "y": 0, "width": browser.value_of("innerWidth"), "height": height, "scale": 1}
    image = browser.ask("Page.captureScreenshot", captureBeyondViewport=True, clip=clip)["data"]
    pathlib.Path(path).write_bytes(base64.b64decode(image))


def look_at(browser, page, folder):
    """The faults of a page in all windows. Leaves the page there as Chromium understood it."""
    address, name = page.resolve().as_uri(), page.stem
    events = browser.load(address)
    content = "<!DOCTYPE html>\n" + browser.value_of("document.documentElement.outerHTML") + "\n"
    pathlib.Path(folder, page.name).write_text(content, encoding="utf-8")
    found = []
    for width, scheme in WINDOWS:
        browser.ask("Emulation.setDeviceMetricsOverride", width=width, height=900, deviceScaleFactor=1, mobile=False)
        browser.ask("Emulation.setEmulatedMedia", features=[{"name": "prefers-color-scheme", "value": scheme}])
        if "PICTURES" in os.environ:
            browser.value_of(FOLD.format("false"))
            picture(browser, os.path.join(folder, f"{name}.{width}.{scheme}.png"))
        browser.value_of(FOLD.format("true"))
        found += [f"{width} pixels, {scheme}: {fault}" for fault in browser.value_of(LOOK)[:MOST_LINES]]
    events += browser.events
    return [told for told in (complaint(event, address) for event in events) if told] + found


def main(folder, *pages):
    status = 0
    with tempfile.TemporaryDirectory(dir=folder) as profile:
        browser = Chromium(os.path.join(profile, "profile"))
        browser.open_tab()
        for page in map(pathlib.Path, pages):
            for fault in look_at(browser, page, folder):
                print(f"{page.name}: {fault}")
                status = 1
        browser.end()
    return status


if __name__ == "__main__":
    sys.exit(main(*sys.argv[1:]))

"""Drives a headless Chromium by the DevTools protocol, over a pipe: no packages are needed beside Python 3.8."""
import base64
import json
import os
import queue
import shutil
import subprocess
import sys
import threading
import time

# Seconds by the clock after which what does not come is a fault; a busy machine takes minutes
PATIENCE = 900
NAMES = ("chromium", "chromium-browser", "google-chrome", "google-chrome-stable", "chrome")


def found():
    """Returns where a Chromium is on this machine, or nothing."""
    return next((it for it in map(shutil.which, NAMES) if it), None)


class Fault(Exception):
    """The browser refused a call, or a script in the page failed."""


class Browser:
    """A Chromium of its own, with a profile in `folder`; `words` are further words of its command line."""

    def __init__(self, folder, *words):
        to_browser, self.write_end = os.pipe()
        self.read_end, from_browser = os.pipe()
        command = [found(), "--headless=new", "--remote-debugging-pipe", f"--user-data-dir={folder}", "--no-sandbox",
                   "--disable-gpu", "--disable-dev-shm-usage", "--hide-scrollbars", "--no-first-run",
                   "--disable-background-networking", "--disable-background-timer-throttling",
                   "--disable-renderer-backgrounding", "--disable-component-update", "--lang=en-GB", *words,
                   "about:blank"]
        # The browser reads from 3 and writes to 4. Either may be an end of a pipe by now, so both are copied first.
        give = ("import fcntl, os, sys; ends = [fcntl.fcntl(int(it), fcntl.F_DUPFD, 5) for it in sys.argv[1:3]];"
                "os.dup2(ends[0], 3); os.dup2(ends[1], 4); os.execv(sys.argv[3], sys.argv[3:])")
        words = [sys.executable, "-c", give, str(to_browser), str(from_browser), *command]
        self.child = subprocess.Popen(words, pass_fds=(to_browser, from_browser), stdin=subprocess.DEVNULL,
                                      stdout=subprocess.DEVNULL, stderr=subprocess.DEVNULL)
        os.close(to_browser)
        os.close(from_browser)
        self.number, self.waiting, self.tabs, self.lock = 0, {}, {}, threading.Lock()
        self.traces = queue.Queue()
        threading.Thread(target=self._listen, daemon=True).start()

    def _listen(self):
        with os.fdopen(self.read_end, "rb", buffering=0) as pipe:
            rest = b""
            while True:
                got = pipe.read(1 << 16)
                if not got:
                    return
                *whole, rest = (rest + got).split(b"\0")
                for one in whole:
                    message = json.loads(one)
                    if "id" in message:
                        self.waiting.pop(message["id"]).put(message)
                    elif message["method"] == "Tracing.tracingComplete":
                        self.traces.put(message["params"]["stream"])
                    elif message.get("sessionId") in self.tabs:
                        self.tabs[message["sessionId"]].heard(message["method"], message["params"])

    def call(self, method, session=None, seconds=PATIENCE, **values):
        """Calls the browser, or the tab of a session, and returns the result."""
        answer = queue.Queue()
        with self.lock:
            self.number += 1
            message = {"id": self.number, "method": method, "params": values}
            if session:
                message["sessionId"] = session
            self.waiting[self.number] = answer
            os.write(self.write_end, json.dumps(message).encode() + b"\0")
        reply = answer.get(timeout=seconds)
        if "error" in reply:
            raise Fault(f"{method}: {reply['error']}")
        return reply["result"]

    def context(self):
        """Makes a place of its own, with other passwords and nothing that was kept."""
        return self.call("Target.createBrowserContext")["browserContextId"]

    def tab(self, context=None):
        """Opens a new tab, in a context of its own if one is named."""
        values = {"browserContextId": context} if context else {}
        target = self.call("Target.createTarget", url="about:blank", **values)["targetId"]
        session = self.call("Target.attachToTarget", targetId=target, flatten=True)["sessionId"]
        self.tabs[session] = tab = Tab(self, session, target)
        for part in ("Page", "Runtime", "Network", "Log"):
            tab.call(part + ".enable")
        # (keys reach a tab whatever window the system has in front)
        tab.call("Emulation.setFocusEmulationEnabled", enabled=True)
        return tab

    def longest_task(self, act):
        """Does something; returns the longest task of a page meanwhile, in milliseconds of the processor's time, which
        other programs on this machine do not take."""
        self.call("Tracing.start", transferMode="ReturnAsStream", traceConfig={"includedCategories": ["toplevel"]})
        act()
        self.call("Tracing.end")
        stream, text, is_whole = self.traces.get(timeout=PATIENCE), "", False
        while not is_whole:
            part = self.call("IO.read", handle=stream)
            text, is_whole = text + part["data"], part["eof"]
        self.call("IO.close", handle=stream)
        events = json.loads(text)["traceEvents"]
        pages = {(one["pid"], one["tid"]) for one in events
                 if one.get("name") == "thread_name" and one["args"]["name"] == "CrRendererMain"}
        return max((one["tdur"] for one in events if (one["pid"], one["tid"]) in pages and "tdur" in one),
                   default=0) / 1000

    def close(self):
        """Ends the browser."""
        try:
            self.call("Browser.close", seconds=10)
            self.child.wait(10)
        except (Fault, OSError, queue.Empty, subprocess.TimeoutExpired):
            self.child.kill()
        os.close(self.write_end)


class Tab:
    """A tab: what is done in it as a person would, and what its page holds."""

    def __init__(self, browser, session, target):
        self.browser, self.session, self.target = browser, session, target
        self.errors, self.loads = [], 0

    def heard(self, method, values):
        """Keeps what the page reports by itself."""
        if method == "Runtime.exceptionThrown":
            details = values["exceptionDetails"]
            self.errors.append(details.get("exception", {}).get("description") or details["text"])
        elif method == "Log.entryAdded" and values["entry"]["level"] == "error":
            self.errors.append(values["entry"]["text"])
        elif method == "Page.loadEventFired":
            self.loads += 1
        elif method == "Page.javascriptDialogOpening":
            threading.Thread(target=self.call, args=("Page.handleJavaScriptDialog",), kwargs={"accept": True}).start()

    def call(self, method, **values):
        """Calls a method for this tab."""
        return self.browser.call(method, session=self.session, **values)

    def run(self, script):
        """Runs the body of an async function in the page and returns what it returns."""
        reply = self.call("Runtime.evaluate", expression=f"(async () => {{ {script} }})()", awaitPromise=True,
                          returnByValue=True, userGesture=True)
        if "exceptionDetails" in reply:
            raise Fault(reply["exceptionDetails"].get("exception", {}).get("description", script))
        return reply["result"].get("value")

    def visit(self, address):
        """Loads an address."""
        loads = self.loads
        self.call("Page.navigate", url=address)
        self.until(lambda: self.loads > loads, f"{address} is loaded")

    def reload(self):
        """Loads the same page again."""
        loads = self.loads
        self.call("Page.reload")
        self.until(lambda: self.loads > loads, "the page is loaded again")

    def until(self, holds, what, seconds=PATIENCE):
        """Waits until something holds."""
        ends = time.monotonic() + seconds
        while not holds():
            if time.monotonic() > ends:
                raise Fault(f"this did not come: {what}")
            time.sleep(0.03)

    def press(self, key, hold=1):
        """Presses a key, `hold` times as if it was held down."""
        codes = {"Enter": 13, "Tab": 9, "Escape": 27, " ": 32}
        for at in range(hold):
            self.call("Input.dispatchKeyEvent", type="keyDown", key=key, windowsVirtualKeyCode=codes[key],
                      autoRepeat=at > 0, **({"text": "\r"} if key == "Enter" else {"text": " "} if key == " " else {}))
        self.call("Input.dispatchKeyEvent", type="keyUp", key=key, windowsVirtualKeyCode=codes[key])

    def keys(self, text):
        """Presses the keys of a text, as in a field for a day or a list of choices."""
        for one in text:
            for kind in ("keyDown", "keyUp"):
                self.call("Input.dispatchKeyEvent", type=kind, key=one, **({"text": one} if kind == "keyDown" else {}))

    def click(self, selector, times=1):
        """Clicks an element with the mouse, `times` times in a row."""
        self.run(f"document.querySelector({json.dumps(selector)}).scrollIntoView({{block: 'center'}})")
        box = self.run(f"const b = document.querySelector({json.dumps(selector)}).getBoundingClientRect();"
                       "return [b.x + b.width / 2, b.y + b.height / 2]")
        for count in range(1, times + 1):
            for kind in ("mousePressed", "mouseReleased"):
                self.call("Input.dispatchMouseEvent", type=kind, x=box[0], y=box[1], button="left", clickCount=count)

    def type(self, text):
        """Types a text into what has the focus."""
        self.call("Input.insertText", text=text)

    def files(self, selector, *paths):
        """Chooses files in a field for them."""
        root = self.call("DOM.getDocument")["root"]["nodeId"]
        node = self.call("DOM.querySelector", nodeId=root, selector=selector)["nodeId"]
        self.call("DOM.setFileInputFiles", nodeId=node, files=[str(path) for path in paths])

    def size(self, width, height, is_mobile=False):
        """Makes the window so large."""
        self.call("Emulation.setDeviceMetricsOverride", width=width, height=height, deviceScaleFactor=1,
                  mobile=is_mobile)

    def media(self, kind="", **features):
        """Shows the page as on `print`, or with features such as prefers_color_scheme='dark'."""
        listed = [{"name": name.replace("_", "-"), "value": value} for name, value in features.items()]
        self.call("Emulation.setEmulatedMedia", media=kind, features=listed)

    def offline(self, is_off):
        """Cuts the browser's network, or mends it."""
        self.call("Network.emulateNetworkConditions", offline=is_off, latency=0, downloadThroughput=-1,
                  uploadThroughput=-1)

    def picture(self, path):
        """Writes what the window shows to a PNG file."""
        path.write_bytes(base64.b64decode(self.call("Page.captureScreenshot", format="png")["data"]))

    def close(self):
        """Closes the tab."""
        self.browser.call("Target.closeTarget", targetId=self.target)
        self.browser.tabs.pop(self.session, None)

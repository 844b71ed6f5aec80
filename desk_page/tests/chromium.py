"""A headless Chromium, driven by its own protocol over a websocket (RFC 6455), with nothing but Python's own library."""
import base64
import json
import os
import secrets
import shutil
import signal
import socket
import subprocess
import tempfile
import time
import urllib.request


# in a container, too: as root, without a display, with little shared memory; and no request of its own but to this machine
ALONE = ["--headless=new", "--no-sandbox", "--disable-gpu", "--disable-dev-shm-usage", "--ignore-certificate-errors", "--no-first-run",
         "--no-default-browser-check", "--disable-background-networking", "--disable-component-update", "--disable-sync",
         "--disable-extensions", "--no-proxy-server", "--host-resolver-rules=MAP * ~NOTFOUND, EXCLUDE 127.0.0.1"]


# what is told where a page is left while something is asked of it
LEFT = ("Inspected target navigated or closed", "Execution context was destroyed", "Cannot find context")


# the keys of a keyboard of the United States by what they write, or by their names, and what Shift has them write
CODES = {"Backspace": 8, "Tab": 9, "Enter": 13, "Escape": 27, " ": 32, "PageUp": 33, "PageDown": 34, "End": 35, "Home": 36,
         "ArrowLeft": 37, "ArrowUp": 38, "ArrowRight": 39, "ArrowDown": 40, "Delete": 46,
         ";": 186, "=": 187, ",": 188, "-": 189, ".": 190, "/": 191, "`": 192, "[": 219, "\\": 220, "]": 221, "'": 222}
SHIFTED = dict(zip('_+{}|:"<>?~!@#$%^&*()', "-=[]\\;',./`1234567890"))
SHIFT = 8


def pressed(key, modifiers=0):
    """The events of a key that is pressed and let go."""
    text = {"Enter": "\r"}.get(key, key if len(key) == 1 else "")
    plain = SHIFTED.get(key, key)
    shift = SHIFT if plain != key or (len(key) == 1 and key.isupper()) else 0
    same = dict(key=key, modifiers=modifiers | shift, windowsVirtualKeyCode=CODES.get(plain, ord(plain[0].upper())))
    down = {"text": text} if text and modifiers != 2 else {}
    method = "Input.dispatchKeyEvent"
    return [(method, dict(type="keyDown", **same, **down)), (method, dict(type="keyUp", **same))]


class Left(RuntimeError):
    """The page was left, or is loaded anew."""


class Socket:
    """As much of a websocket as the protocol needs: texts both ways."""

    def __init__(self, url):
        host, _, path = url.removeprefix("ws://").partition("/")
        name, port = host.split(":")
        # an answer may take minutes where others have the processors
        self.peer = socket.create_connection((name, int(port)), timeout=600)
        key = base64.b64encode(secrets.token_bytes(16)).decode()
        self.peer.sendall(
            f"GET /{path} HTTP/1.1\r\nHost: {host}\r\nUpgrade: websocket\r\nConnection: Upgrade\r\n"
            f"Sec-WebSocket-Key: {key}\r\nSec-WebSocket-Version: 13\r\n\r\n".encode())
        self.came = b""
        while b"\r\n\r\n" not in self.came:
            self.more()
        head, _, self.came = self.came.partition(b"\r\n\r\n")
        if not head.startswith(b"HTTP/1.1 101"):
            raise RuntimeError(head.decode())

    def more(self):
        piece = self.peer.recv(1 << 20)
        if not piece:
            raise RuntimeError("Chromium hung up")
        self.came += piece

    def take(self, count):
        while len(self.came) < count:
            self.more()
        taken, self.came = self.came[:count], self.came[count:]
        return taken

    def send(self, text):
        data, mask = text.encode(), secrets.token_bytes(4)
        size = bytes([0x80 | len(data)]) if len(data) < 126 else b"\xff" + len(data).to_bytes(8, "big")
        pattern = (mask * (len(data) // 4 + 1))[: len(data)]
        masked = (int.from_bytes(data, "big") ^ int.from_bytes(pattern, "big")).to_bytes(len(data), "big")
        self.peer.sendall(b"\x81" + size + mask + masked)

    def receive(self):
        text = b""
        while True:
            first, size = self.take(2)
            size = int.from_bytes(self.take({126: 2, 127: 8}[size]), "big") if size > 125 else size
            data = self.take(size)
            if first & 15 in (0, 1):
                text += data
                if first & 0x80:
                    return text.decode()


class Chromium:
    """One window. `log` has what the page complained of."""

    def __init__(self, folder, size=(1500, 1000), points=1):
        self.home = tempfile.mkdtemp(prefix="chromium-", dir=folder)
        words = [*ALONE, "--remote-debugging-port=0", "--hide-scrollbars=false", f"--user-data-dir={self.home}",
                 f"--window-size={size[0]},{size[1]}", f"--force-device-scale-factor={points}", "about:blank"]
        around = {**os.environ, "HOME": self.home}  # what Debian's script and the browser keep beside the profile goes there, too
        with open(os.path.join(self.home, "errors"), "w", encoding="utf-8") as errors:
            self.process = subprocess.Popen([shutil.which("chromium"), *words], stdout=errors, stderr=errors, env=around,
                                            start_new_session=True)
        try:
            self.socket = Socket(self.tab())
        except BaseException:
            self.close()
            raise
        self.count, self.log, self.requests, self.under_way = 0, [], [], set()
        for part in ("Page", "Runtime", "Log", "Network"):
            self(part + ".enable")
        self("Emulation.setDeviceMetricsOverride", width=size[0], height=size[1], deviceScaleFactor=points, mobile=False)

    def tab(self):
        for _ in range(600):
            if self.process.poll() is not None:
                break
            try:
                with open(os.path.join(self.home, "DevToolsActivePort"), encoding="utf-8") as file:
                    port = file.readline().strip()
                with urllib.request.urlopen(f"http://127.0.0.1:{port}/json", timeout=10) as answer:
                    return next(tab for tab in json.load(answer) if tab["type"] == "page")["webSocketDebuggerUrl"]
            except (OSError, StopIteration):
                time.sleep(0.2)
        with open(os.path.join(self.home, "errors"), encoding="utf-8", errors="replace") as errors:
            raise RuntimeError(f"Chromium didn't start: {errors.read()[-2000:]}")

    def __call__(self, method, **params):
        return self.all((method, params))[0]

    def all(self, *calls):
        """Calls that are sent one after another, before the first one is answered; their results."""
        first = self.count + 1
        for method, params in calls:
            self.count += 1
            self.socket.send(json.dumps({"id": self.count, "method": method, "params": params}))
        results = {}
        while len(results) < len(calls):
            told = json.loads(self.socket.receive())
            if "id" not in told:
                self.note(told)
                continue
            if told["id"] < first:
                continue  # of calls of which one was refused
            if "error" in told:
                kind = Left if told["error"]["message"].startswith(LEFT) else RuntimeError
                raise kind(told["error"])
            results[told["id"]] = told["result"]
        return [results[first + k] for k in range(len(calls))]

    def note(self, event):
        if event["method"] == "Runtime.exceptionThrown":
            self.log.append(json.dumps(event["params"]["exceptionDetails"]))
        elif event["method"] == "Log.entryAdded":
            entry = event["params"]["entry"]
            # a desk that refuses is no fault of the page, and the advice on reading a canvas is for the test
            if entry["source"] != "network" and "willReadFrequently" not in entry["text"]:
                self.log.append(entry["text"])
        elif event["method"] == "Runtime.consoleAPICalled":
            self.log.append(json.dumps(event["params"]["args"]))
        elif event["method"] == "Network.requestWillBeSent":
            self.requests.append(event["params"]["request"])
            # of a worker's own scripts the page isn't told the answer
            if event["params"].get("type") == "Fetch":
                self.under_way.add(event["params"]["requestId"])
        elif event["method"] in ("Network.responseReceived", "Network.loadingFailed"):
            # the end of an answer that the page doesn't read, as of a 502, is never told
            self.under_way.discard(event["params"]["requestId"])
        elif event["method"] == "Page.frameNavigated":
            self.under_way.clear()  # what a page that was left had asked for gets no answer

    def js(self, text):
        """The value of an expression; a promise is waited for."""
        told = self("Runtime.evaluate", expression=text, awaitPromise=True, returnByValue=True)
        if "exceptionDetails" in told:
            raise RuntimeError(json.dumps(told["exceptionDetails"]))
        return told["result"].get("value")

    def until(self, text, seconds=60):
        """Waits until an expression holds; a page may be loaded anew meanwhile."""
        end, pause = time.time() + seconds, 0.05
        while time.time() < end:
            try:
                if self.js(text):
                    return
            except Left:
                pass
            time.sleep(pause)
            pause = min(1.3 * pause, 0.4)  # where it takes long, others have the processors
        raise RuntimeError(f"never: {text}")

    def rest(self, seconds=1):
        """Waits until each request has its answer, and the page has asked for nothing for so long."""
        end, asked, since = time.time() + 60, -1, 0
        while time.time() < end:
            self.js("0")  # events come with an answer
            if self.under_way or len(self.requests) != asked:
                asked, since = len(self.requests), time.time()
            elif time.time() - since >= seconds:
                return
            time.sleep(0.05)
        raise RuntimeError(f"never at rest: {self.requests[-1]['url']}, {len(self.under_way)} under way")

    def go(self, url):
        self.js("window.is_left = true")
        self.under_way.clear()
        self("Page.navigate", url=url)
        self.until("window.is_left === undefined && document.readyState === 'complete'")

    def key(self, key, modifiers=0):
        """A key pressed and let go. Modifiers: 1 Alt, 2 Ctrl, 8 Shift."""
        self.all(*pressed(key, modifiers))

    def keys(self, *keys, modifiers=0):
        """Keys pressed one after another."""
        if keys:
            self.all(*(event for key in keys for event in pressed(key, modifiers)))

    def type(self, text):
        self("Input.insertText", text=text)

    def mouse(self, kind, x, y):
        self("Input.dispatchMouseEvent", type=kind, x=x, y=y, button="left", buttons=int(kind != "mouseReleased"), clickCount=1)

    def drag(self, start, end):
        self.mouse("mousePressed", *start)
        self.mouse("mouseMoved", (start[0] + end[0]) / 2, (start[1] + end[1]) / 2)
        self.mouse("mouseMoved", *end)
        self.mouse("mouseReleased", *end)

    def click(self, selector):
        """The mouse pressed in the middle of an element, which is scrolled into sight."""
        place = self.js(
            f"(() => {{ const it = document.querySelector({json.dumps(selector)}); it.scrollIntoView({{ block: 'nearest' }});"
            " const on = it.getBoundingClientRect(); return [on.left + on.width / 2, on.top + on.height / 2] })()")
        self.mouse("mousePressed", *place)
        self.mouse("mouseReleased", *place)

    def shot(self, path, selector="body"):
        """A picture of an element."""
        left, top, width, height = self.js(
            f"(() => {{ const on = document.querySelector({json.dumps(selector)}).getBoundingClientRect();"
            " return [on.left, on.top, on.width, on.height] })()")
        clip = dict(x=left, y=top, width=width, height=height, scale=1)
        with open(path, "wb") as file:
            file.write(base64.b64decode(self("Page.captureScreenshot", format="png", clip=clip)["data"]))

    def close(self):
        """Ends the browser with all its processes, and takes its folders away: its own, and the one of its socket, which stands beside."""
        link = os.path.join(self.home, "SingletonSocket")
        beside = os.path.dirname(os.readlink(link)) if os.path.islink(link) else self.home
        for ending in (signal.SIGTERM, signal.SIGKILL):
            try:
                os.killpg(self.process.pid, ending)
                self.process.wait(20)
            except (ProcessLookupError, subprocess.TimeoutExpired):
                pass
        for folder in (beside, self.home):
            shutil.rmtree(folder, ignore_errors=True)

"""A headless Chromium, driven over its pipe: pages opened, keys pressed, values read, pictures taken. Nothing but the browser is needed."""
import base64
import fcntl
import json
import os
import select
import shutil
import subprocess
import tempfile
import time

# Running as root needs --no-sandbox; the rest keeps the browser from reaching out.
FLAGS = ["--headless", "--no-sandbox", "--disable-gpu", "--disable-dev-shm-usage", "--no-first-run", "--disable-extensions", "--disable-background-networking",
         "--disable-component-update", "--hide-scrollbars", "--remote-debugging-pipe"]

# Seconds that the browser may be silent, or a page take to open.
PATIENCE = 60


class Wrong(Exception):
    """What the browser said was wrong."""


def installed():
    """The browser's command, installed from Debian's package where it is missing; none where that fails."""
    if not shutil.which("chromium"):
        subprocess.run("apt-get update -qq && apt-get install -y -qq --no-install-recommends chromium fonts-dejavu-core", shell=True, stdout=subprocess.DEVNULL, check=False)
    return shutil.which("chromium")


def high_pipe():
    """A pipe whose ends are above those that the browser is told to use."""
    ends = os.pipe()
    high = [fcntl.fcntl(end, fcntl.F_DUPFD, 10) for end in ends]
    for end in ends:
        os.close(end)
    return high


class Browser:
    def __init__(self, command):
        self.room = tempfile.mkdtemp()
        read, self.to_browser = high_pipe()
        self.from_browser, write = high_pipe()
        # The browser reads commands on 3 and writes on 4.
        script = f'exec "$@" 3<&{read} 4>&{write}'
        self.process = subprocess.Popen(["bash", "-c", script, "bash", command, *FLAGS, f"--user-data-dir={self.room}"], pass_fds=(read, write),
                                        stdin=subprocess.DEVNULL, stdout=subprocess.DEVNULL, stderr=subprocess.DEVNULL)
        os.close(read)
        os.close(write)
        self.count, self.buffer, self.session, self.complaints = 0, b"", None, []
        target = self.call("Target.createTarget", url="about:blank")["targetId"]
        self.session = self.call("Target.attachToTarget", targetId=target, flatten=True)["sessionId"]
        for domain in ["Page", "Runtime", "Log", "Network"]:
            self.call(f"{domain}.enable")
        self.requests = []

    def __enter__(self):
        return self

    def __exit__(self, *_):
        os.close(self.to_browser)
        try:
            self.process.wait(10)
        except subprocess.TimeoutExpired:
            self.process.kill()
            self.process.wait()
        os.close(self.from_browser)
        shutil.rmtree(self.room, ignore_errors=True)

    def message(self):
        """The next message of the browser."""
        while b"\0" not in self.buffer:
            ready, _, _ = select.select([self.from_browser], [], [], PATIENCE)
            chunk = os.read(self.from_browser, 1 << 20) if ready else b""
            if not chunk:
                raise Wrong("the browser ended" if ready else "the browser says nothing")
            self.buffer += chunk
        message, self.buffer = self.buffer.split(b"\0", 1)
        return json.loads(message)

    def note(self, message):
        """Keeps what the page complained of and what it asked the network for."""
        method, said = message.get("method"), message.get("params", {})
        if method == "Runtime.exceptionThrown":
            self.complaints.append(json.dumps(said["exceptionDetails"])[:500])
        elif method == "Log.entryAdded" and said["entry"]["level"] == "error":
            self.complaints.append(said["entry"]["text"])
        elif method == "Network.requestWillBeSent":
            self.requests.append(said["request"]["url"])

    def call(self, method, **params):
        self.count += 1
        command = {"id": self.count, "method": method, "params": params}
        if self.session:
            command["sessionId"] = self.session
        os.write(self.to_browser, json.dumps(command).encode() + b"\0")
        while (message := self.message()).get("id") != self.count:
            self.note(message)
        if "error" in message:
            raise Wrong(f"{method}: {message['error']['message']}")
        return message["result"]

    def open(self, address):
        """Opens a page and waits until it is loaded."""
        self.call("Page.navigate", url="about:blank")
        self.call("Page.navigate", url=address)
        end = time.monotonic() + PATIENCE
        while not self.is_at(address.split("#")[0]):
            if time.monotonic() > end:
                raise Wrong(f"{address} does not open")
            time.sleep(0.02)

    def is_at(self, address):
        """Whether a page is loaded; a page that is on its way cannot be asked."""
        try:
            return self.value("document.readyState === 'complete' && location.href.split('#')[0]") == address
        except Wrong:
            return False

    def value(self, expression):
        result = self.call("Runtime.evaluate", expression=expression, returnByValue=True, awaitPromise=True)
        if "exceptionDetails" in result:
            raise Wrong(f"{expression}: {result['exceptionDetails']}")
        return result["result"].get("value")

    def press(self, key):
        text = {"text": key} if len(key) == 1 else {}
        codes = {"ArrowLeft": 37, "ArrowRight": 39, "PageUp": 33, "PageDown": 34, "Home": 36, "End": 35}
        for kind in ["keyDown", "keyUp"]:
            self.call("Input.dispatchKeyEvent", type=kind, key=key, windowsVirtualKeyCode=codes.get(key, ord(key[0].upper())), **(text if kind == "keyDown" else {}))

    def window(self, width, height, scheme):
        """The window's size, and whether the reader prefers light or dark."""
        self.call("Emulation.setDeviceMetricsOverride", width=width, height=height, deviceScaleFactor=1, mobile=False)
        self.call("Emulation.setEmulatedMedia", features=[{"name": "prefers-color-scheme", "value": scheme}])

    def picture(self, file):
        file.write_bytes(base64.b64decode(self.call("Page.captureScreenshot", format="png")["data"]))

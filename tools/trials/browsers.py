"""Headless chromium and Firefox, whose pages are asked over a WebSocket: in the first by the DevTools protocol, in the second by WebDriver
BiDi. Nothing of them is left at the end."""
from __future__ import annotations

import base64
import contextlib
import json
import os
import re
import shutil
import socket
import subprocess
import tempfile
import time
from pathlib import Path
from typing import Any, Optional

from .companion_trials import PATIENT

CHROMIUM: Optional[str] = next(filter(None, map(shutil.which, ("chromium", "chromium-browser", "google-chrome"))), None)
FIREFOX: Optional[str] = next(filter(None, map(shutil.which, ("firefox-esr", "firefox"))), None)
MASKED = bytes(255 - byte for byte in range(256))
# The last two: a tab behind another one is no slower.
SETTINGS = {"browser.download.folderList": 2, "browser.shell.checkDefaultBrowser": False, "browser.startup.page": 0,
            "datareporting.policy.dataSubmissionEnabled": False, "dom.ipc.keepProcessesAlive.file": 4,
            "dom.min_background_timeout_value": 4, "dom.timeout.enable_budget_timer_throttling": False}
# The number of a key in chromium, and its letter in Firefox.
KEYS = {"Enter": (13, "\ue007"), "Tab": (9, "\ue004"), "Escape": (27, "\ue00c"), "Backspace": (8, "\ue003"), "ArrowLeft": (37, "\ue012"),
        "ArrowUp": (38, "\ue013"), "ArrowRight": (39, "\ue014"), "ArrowDown": (40, "\ue015")}
FEW, FEW_KEYS = 200, 16  # letters that are not pasted: in chromium as one text, in Firefox a key each
COPIES = """addEventListener('copy', event => { event.clipboardData.setData('text/plain', %s); event.preventDefault(); }, { once: true }),
document.execCommand('copy')"""


# Looks in a page until an expression is true, for some seconds, and ever less often.
LOOKS = """(async () => {
    for (let pause = 10, end = performance.now() + 5000; performance.now() < end; pause = Math.min(1.3 * pause, 200)) {
        const found = %s;
        if (found) return found;
        await new Promise(done => setTimeout(done, pause));
    }
})()"""


class Gone(RuntimeError):
    """A call that the browser did not carry out, as where the page has gone."""


class Socket:
    """A WebSocket, as far as it is needed: texts in both directions."""

    def __init__(self, port: int, path: str):
        self._socket, self._held = socket.create_connection(("127.0.0.1", port), PATIENT), b""
        key = base64.b64encode(b"sixteen letters.").decode()
        lines = [f"GET {path} HTTP/1.1", f"Host: 127.0.0.1:{port}", "Upgrade: websocket", "Connection: Upgrade",
                 f"Sec-WebSocket-Key: {key}", "Sec-WebSocket-Version: 13"]
        self._socket.sendall("".join(f"{line}\r\n" for line in [*lines, ""]).encode())
        while b"\r\n\r\n" not in self._held:
            self._more()
        self._held = self._held.partition(b"\r\n\r\n")[2]

    def _more(self) -> None:
        part = self._socket.recv(1 << 20)
        if not part:
            raise RuntimeError("the browser has ended")
        self._held += part

    def _take(self, count: int) -> bytes:
        while len(self._held) < count:
            self._more()
        taken, self._held = self._held[:count], self._held[count:]
        return taken

    def send(self, text: str) -> None:
        """Sends a text; each byte is masked by the same one."""
        data = text.encode()
        wide = 0 if len(data) < 126 else 2 if len(data) < 1 << 16 else 8
        size = bytes([128 | {0: len(data), 2: 126, 8: 127}[wide]]) + (len(data).to_bytes(wide, "big") if wide else b"")
        self._socket.sendall(b"\x81" + size + b"\xff" * 4 + data.translate(MASKED))

    def receive(self) -> str:
        """The next text, of one frame or more."""
        text = b""
        while True:
            head, size = self._take(2)
            if size >= 126:
                size = int.from_bytes(self._take(2 if size == 126 else 8), "big")
            part = self._take(size)
            text += part if head & 0x0f < 8 else b""
            if head & 0x80 and head & 0x0f < 8:
                return text.decode()

    def close(self) -> None:
        self._socket.close()


def is_fault(reply: Any) -> bool:
    """Whether what a browser tells is an error of a page."""
    given = reply.get("params", {})
    return reply.get("method") == "Runtime.exceptionThrown" or "error" in (given.get("level"), given.get("entry", {}).get("level"))


class Browser(contextlib.ExitStack):
    """A browser, until it is closed. `faults` has what its pages report as errors."""

    SAYS: str  # how it says where its socket is
    FIRST: dict[str, dict[str, Any]]  # the first calls

    def __init__(self) -> None:
        super().__init__()
        self.faults: list[str] = []
        self._number, self._folder = 0, tempfile.mkdtemp()
        self.callback(shutil.rmtree, self._folder, ignore_errors=True)
        said, env = Path(self._folder, "said"), {**os.environ, "HOME": self._folder}
        with open(said, "wb") as err:
            self._process = subprocess.Popen(self.words(), stdout=subprocess.DEVNULL, stderr=err, env=env)
        self.callback(self._process.wait)
        self.callback(self._process.kill)
        try:
            self._socket = Socket(*self._address(self._process, said))
            self.callback(self._socket.close)
            for method, given in self.FIRST.items():
                self.call(method, **given)
        except BaseException:
            self.close()
            raise

    def _address(self, process: subprocess.Popen[bytes], said: Path) -> tuple[int, str]:
        """The port and the path of the socket, which the browser says."""
        end = time.monotonic() + PATIENT
        while time.monotonic() < end and process.poll() is None:
            if found := re.search(rf"{self.SAYS} ws://127\.0\.0\.1:(\d+)(\S*)\s", said.read_text(errors="replace")):
                return int(found[1]), found[2] or "/session"
            time.sleep(0.05)
        raise RuntimeError("the browser says no address")

    def call(self, method: str, session: Optional[str] = None, **given: Any) -> Any:
        """A call of the protocol, and its result."""
        self._number += 1
        told = {"id": self._number, "method": method, "params": given, **({"sessionId": session} if session else {})}
        self._socket.send(json.dumps(told))
        while True:
            reply = json.loads(self._socket.receive())
            if is_fault(reply):
                self.faults.append(json.dumps(reply["params"])[:2000])
            if reply.get("id") == self._number:
                if "error" in reply:
                    raise Gone(f"{method}: {reply['error']}: {reply.get('message')}")
                return reply["result"]

    def processor_seconds(self) -> float:
        """The processor time of the browser and of the processes that it started."""
        return sum(map(seconds_of, tree_of(self._process.pid))) / os.sysconf("SC_CLK_TCK")

    def words(self) -> list[str]:
        """The command that starts it."""
        raise NotImplementedError


def tree_of(process: int) -> list[int]:
    """The numbers of a process and of those below it."""
    found = [process]
    for number in found:
        for task in Path(f"/proc/{number}/task").glob("*/children"):
            with contextlib.suppress(OSError):
                found += map(int, task.read_text().split())
    return found


def seconds_of(process: int) -> int:
    """The processor time of a process, in ticks of the system's clock; none where it has ended."""
    with contextlib.suppress(OSError):
        return sum(map(int, Path(f"/proc/{process}/stat").read_text().rpartition(")")[2].split()[11:13]))
    return 0


class Page:
    """A tab."""

    def ask(self, text: str) -> Any:
        """What an expression of JavaScript gives."""
        raise NotImplementedError

    def wait(self, text: str) -> Any:
        """Waits until an expression is true. The page itself looks: a question from here would take as long as a line of a script."""
        end = time.monotonic() + PATIENT
        while time.monotonic() < end:
            with contextlib.suppress(Gone):  # (another page takes its place)
                if found := self.ask(LOOKS % text):
                    return found
                continue
            time.sleep(0.05)
        raise TimeoutError(text)


class Chromium(Browser):
    SAYS, FIRST = "DevTools listening on", {"Browser.getVersion": {}}

    def words(self) -> list[str]:
        return [CHROMIUM or "chromium", "--headless=new", "--no-sandbox", "--disable-gpu", "--disable-dev-shm-usage",
                "--remote-debugging-port=0", f"--user-data-dir={self._folder}"]

    def open(self, url: str, width: int = 1280, height: int = 900, is_dark: bool = False, folder: Optional[Path] = None) -> ChromiumPage:
        """Opens a page in a tab of its own."""
        target = self.call("Target.createTarget", url="about:blank")["targetId"]
        page = ChromiumPage(self, target, self.call("Target.attachToTarget", targetId=target, flatten=True)["sessionId"])
        for domain in ("Runtime", "Log", "Page", "DOM"):
            page.call(f"{domain}.enable")
        page.call("Emulation.setDeviceMetricsOverride", width=width, height=height, deviceScaleFactor=1, mobile=width < 500)
        page.call("Emulation.setEmulatedMedia", features=[{"name": "prefers-color-scheme", "value": "dark" if is_dark else "light"}])
        page.call("Emulation.setFocusEmulationEnabled", enabled=True)
        if folder:
            self.call("Browser.setDownloadBehavior", behavior="allow", downloadPath=str(folder))
        page.call("Page.navigate", url=url)
        return page


class ChromiumPage(Page):
    def __init__(self, browser: Chromium, target: str, session: str):
        self.browser, self.target, self.session = browser, target, session

    def call(self, method: str, **given: Any) -> Any:
        return self.browser.call(method, self.session, **given)

    def ask(self, text: str) -> Any:
        words = {"returnByValue": True, "awaitPromise": True, "userGesture": True, "allowUnsafeEvalBlockedByCSP": False}
        told = self.call("Runtime.evaluate", expression=text, **words)
        if "exceptionDetails" in told:
            raise RuntimeError(told["exceptionDetails"]["exception"].get("description"))
        return told["result"].get("value")

    def key(self, key: str) -> None:
        given = {"key": key, "code": key, "windowsVirtualKeyCode": KEYS[key][0]}
        self.call("Input.dispatchKeyEvent", type="keyDown", **given, **({"text": "\r"} if key == "Enter" else {}))
        self.call("Input.dispatchKeyEvent", type="keyUp", **given)

    def type(self, text: str) -> None:
        """Types a text, a long one by Ctrl-V."""
        if len(text) < FEW:
            self.call("Input.insertText", text=text)
            return
        self.ask(COPIES % json.dumps(text))
        given = {"key": "v", "code": "KeyV", "windowsVirtualKeyCode": 86, "modifiers": 2}
        self.call("Input.dispatchKeyEvent", type="rawKeyDown", **given, commands=["paste"])
        self.call("Input.dispatchKeyEvent", type="keyUp", **given)

    def point(self, x: float, y: float) -> None:
        self.call("Input.dispatchMouseEvent", type="mouseMoved", x=x, y=y)

    def close(self) -> None:
        self.browser.call("Target.closeTarget", targetId=self.target)


class Firefox(Browser):
    """A light one, or a dark one."""

    SAYS, FIRST = "BiDi listening on", {"session.new": {"capabilities": {}}, "session.subscribe": {"events": ["log.entryAdded"]}}

    def __init__(self, is_dark: bool = False) -> None:
        self._is_dark = is_dark
        self._other: Optional[Firefox] = None
        super().__init__()

    def words(self) -> list[str]:
        looks = {**SETTINGS, "layout.css.prefers-color-scheme.content-override": 0 if self._is_dark else 1}
        lines = [f"user_pref({json.dumps(name)}, {json.dumps(value)});\n" for name, value in looks.items()]
        Path(self._folder, "user.js").write_text("".join(lines))
        return [FIREFOX or "firefox", "--headless", "--no-remote", "--profile", self._folder, "--remote-debugging-port=0"]

    def open(self, url: str, width: int = 1280, height: int = 900, is_dark: bool = False, folder: Optional[Path] = None) -> FirefoxPage:
        """Opens a page in a tab of its own; a dark one in a browser of its own."""
        if is_dark != self._is_dark:
            self._other = self._other or self.enter_context(Firefox(is_dark))
            self._other.faults = self.faults
            return self._other.open(url, width, height, is_dark, folder)
        page = FirefoxPage(self, self.call("browsingContext.create", type="tab")["context"])
        self.call("browsingContext.setViewport", context=page.context, viewport={"width": width, "height": height})
        if folder:
            self.call("browser.setDownloadBehavior", downloadBehavior={"type": "allowed", "destinationFolder": str(folder)})
        self.call("browsingContext.navigate", context=page.context, url=url, wait="complete")
        return page


class FirefoxPage(Page):
    def __init__(self, browser: Firefox, context: str):
        self.browser, self.context = browser, context

    def ask(self, text: str) -> Any:
        expression = f"(async () => JSON.stringify(await ({text}\n)))()"
        given: dict[str, Any] = {"target": {"context": self.context}, "awaitPromise": True, "userActivation": True}
        told = self.browser.call("script.evaluate", expression=expression, **given)
        if told["type"] == "exception":
            raise RuntimeError(told["exceptionDetails"]["text"])
        return json.loads(told["result"]["value"]) if "value" in told["result"] else None

    def _act(self, kind: str, actions: list[dict[str, Any]]) -> None:
        self.browser.call("input.performActions", context=self.context, actions=[{"type": kind, "id": kind, "actions": actions}])

    def key(self, key: str) -> None:
        self.type(KEYS[key][1])

    def type(self, text: str) -> None:
        """Types a text, a longer one as from the clipboard."""
        if len(text) < FEW_KEYS:
            keys = text.replace("\n", KEYS["Enter"][1])
            self._act("key", [{"type": kind, "value": key} for key in keys for kind in ("keyDown", "keyUp")])
        else:
            self.ask(f"document.execCommand('insertText', false, {json.dumps(text)})")

    def point(self, x: float, y: float) -> None:
        self._act("pointer", [{"type": "pointerMove", "x": round(x), "y": round(y)}])

    def close(self) -> None:
        self.browser.call("browsingContext.close", context=self.context)

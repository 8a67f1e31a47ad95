"""Drives real browsers for the tests by hand: chromium over two pipes, and firefox over its Marionette port. Needs nothing of Python's outside."""
from __future__ import annotations

import base64
import json
import os
import shutil
import socket
import subprocess
import time
from pathlib import Path
from typing import Any, Dict, List, Optional, Tuple, Type, Union

SECONDS = 60  # so long a page may take, also on a machine that proves beside
# Keys that have no letter, by their number in the messages of firefox.
FIREFOX_KEYS = {"ArrowUp": "\ue013", "ArrowLeft": "\ue012", "ArrowDown": "\ue015", "ArrowRight": "\ue014", "Home": "\ue011", "End": "\ue010", "Tab": "\ue004", "Enter": "\ue007",
                "Escape": "\ue00c", "Backspace": "\ue003"}


def program_of(*names: str) -> Optional[str]:
    return next(filter(None, map(shutil.which, names)), None)


class Browser:
    """What both browsers do. A script is an expression, whose value JSON can write."""

    def value(self, script: str) -> Any:
        raise NotImplementedError

    def go(self, address: str) -> None:
        raise NotImplementedError

    def forget(self) -> None:
        raise NotImplementedError

    def pointer(self, x: float, y: float, is_tap: bool = False) -> None:
        raise NotImplementedError

    def until(self, script: str, wanted: Any, seconds: float = SECONDS) -> Any:
        """Waits for a value of the page; the last one that it had."""
        value, end = self.value(script), time.monotonic() + seconds
        while value != wanted and time.monotonic() < end:
            time.sleep(0.02)
            value = self.value(script)
        return value

    def open(self, page: Union[str, Path], address: str = "", is_ready: str = "document.readyState === 'complete'") -> float:
        """Opens a page anew; the seconds until it is ready."""
        self.go("about:blank")
        self.forget()
        begin = time.monotonic()
        self.go(f"{page.as_uri() if isinstance(page, Path) else page}{address}")
        if self.until(is_ready, True) is not True:
            raise RuntimeError("the page did not open")
        return time.monotonic() - begin

    def point(self, element: str, across: float, down: float, is_tap: bool = False) -> None:
        """Moves the pointer over an element, by shares of its sides, and taps it where that is wanted."""
        box = self.value(f"(({{left, top, width, height}}) => [left, top, width, height])(document.getElementById('{element}').getBoundingClientRect())")
        self.pointer(box[0] + across * box[2], box[1] + down * box[3], is_tap)

    def click(self, selector: str) -> None:
        """Clicks the middle of the element that a selector finds."""
        box = self.value(f"((it) => {{ it.scrollIntoView({{block: 'nearest'}}); const {{left, top, width, height}} = it.getBoundingClientRect(); return [left, top, width, height]; }})"
                         f"(document.querySelector({json.dumps(selector)}))")
        self.pointer(box[0] + box[2] / 2, box[1] + box[3] / 2, True)


class Chromium(Browser):
    """Chromium, which is told what to do by messages that end with a nought."""

    name = "chromium"
    program = program_of("chromium", "chromium-browser", "google-chrome")
    words = ("--headless=new", "--no-sandbox", "--disable-gpu", "--no-first-run", "--remote-debugging-pipe", "--window-size=1280,760", "--hide-scrollbars")

    def __init__(self, room: str) -> None:
        assert self.program is not None
        (it_reads, self.output), (self.input, it_writes) = os.pipe(), os.pipe()
        words = [self.program, *self.words, f"--user-data-dir={room}/chromium", "about:blank"]
        # the browser reads from descriptor 3 and writes to 4
        command = ["sh", "-c", f'exec "$@" 3<&{it_reads} 4>&{it_writes}', "sh", *words]
        with open(f"{room}/chromium.log", "wb") as log:
            self.process = subprocess.Popen(command, pass_fds=(it_reads, it_writes), stdout=log, stderr=log)
        os.close(it_reads)
        os.close(it_writes)
        self.rest, self.count = b"", 0
        self.events: List[Any] = []
        self.session: Optional[str] = None
        page = next(it for it in self.call("Target.getTargets")["targetInfos"] if it["type"] == "page")
        self.attach(page["targetId"])
        self.size(1280, 760)

    def attach(self, target: str) -> None:
        self.session = None
        self.session = self.call("Target.attachToTarget", targetId=target, flatten=True)["sessionId"]
        for part in ("Page", "Network", "Runtime", "Log"):
            self.call(f"{part}.enable")

    def another_tab(self) -> Optional[str]:
        """Goes on in a new tab; what leads back by `to_tab`."""
        before, self.session = self.session, None
        self.attach(self.call("Target.createTarget", url="about:blank")["targetId"])
        return before

    def to_tab(self, tab: Optional[str]) -> Optional[str]:
        """Goes on in a tab; what leads back."""
        before, self.session = self.session, tab
        return before

    def front(self) -> None:
        """Shows the page of the tab: one that is behind another draws no frames."""
        self.call("Page.bringToFront")

    def message(self) -> Any:
        while b"\0" not in self.rest:
            data = os.read(self.input, 1 << 16)
            if not data:
                raise EOFError("the browser has ended")
            self.rest += data
        text, _, self.rest = self.rest.partition(b"\0")
        return json.loads(text)

    def call(self, method: str, **words: Any) -> Any:
        self.count += 1
        call = {"id": self.count, "method": method, "params": words, **({"sessionId": self.session} if self.session else {})}
        os.write(self.output, json.dumps(call).encode() + b"\0")
        while True:
            message = self.message()
            if message.get("id") == self.count:
                if "error" in message:
                    raise RuntimeError(f"{method}: {message['error']}")
                return message["result"]
            self.events.append(message)

    def value(self, script: str) -> Any:
        result = self.call("Runtime.evaluate", expression=script, returnByValue=True, awaitPromise=True)
        if "exceptionDetails" in result:
            raise RuntimeError(json.dumps(result["exceptionDetails"]))
        return result["result"].get("value")

    def go(self, address: str) -> None:
        self.call("Page.navigate", url=address)

    def forget(self) -> None:
        self.events = []

    def press(self, key: str, shift: bool = False) -> None:
        is_letter = len(key) == 1
        words = {"key": key, "code": {" ": "Space"}.get(key, f"Key{key.upper()}" if key.isalpha() and is_letter else key), "modifiers": 8 if shift else 0}
        virtual = {"Tab": 9, "Enter": 13, "ArrowLeft": 37, "ArrowUp": 38, "ArrowRight": 39, "ArrowDown": 40, "Home": 36, "End": 35, "Escape": 27, "Backspace": 8}
        words["windowsVirtualKeyCode"] = virtual.get(key, ord(key[0].upper()))
        text = {"Enter": "\r"}.get(key, key if is_letter else None)
        self.call("Input.dispatchKeyEvent", type="keyDown", **words, **({"text": text} if text else {}))
        self.call("Input.dispatchKeyEvent", type="keyUp", **words)

    def type(self, text: str) -> None:
        self.call("Input.insertText", text=text)

    def pointer(self, x: float, y: float, is_tap: bool = False) -> None:
        self.call("Input.dispatchMouseEvent", type="mouseMoved", x=x, y=y)
        for kind in ("mousePressed", "mouseReleased") if is_tap else ():
            self.call("Input.dispatchMouseEvent", type=kind, x=x, y=y, button="left", clickCount=1)

    def size(self, width: int, height: int) -> None:
        self.call("Emulation.setDeviceMetricsOverride", width=width, height=height, deviceScaleFactor=1, mobile=False)

    def scheme(self, name: str) -> None:
        """Wants the light or the dark scheme."""
        self.call("Emulation.setEmulatedMedia", features=[{"name": "prefers-color-scheme", "value": name}])

    def picture(self, path: Union[str, Path]) -> None:
        Path(path).write_bytes(base64.b64decode(self.call("Page.captureScreenshot", format="png")["data"]))

    def faults(self, room: Union[str, Path]) -> List[Any]:
        """What was asked of any network beside the files of a folder, and what went wrong in the page."""
        self.value("0")
        asked = [it["params"]["request"]["url"] for it in self.events if it.get("method") == "Network.requestWillBeSent"]
        wrong = [it for it in self.events if it.get("method") in ("Runtime.exceptionThrown", "Page.javascriptDialogOpening")]
        said = [it["params"]["entry"] for it in self.events if it.get("method") == "Log.entryAdded"]
        called = [it["params"] for it in self.events if it.get("method") == "Runtime.consoleAPICalled"]
        own = (Path(room).as_uri(), "about:", "data:", "blob:")
        return [*(it for it in asked if not it.startswith(own)), *wrong, *(it for it in said if it["level"] == "error"), *(it for it in called if it["type"] == "error")]

    def end(self) -> None:
        self.call("Browser.close")
        self.process.wait(20)
        os.close(self.input)
        os.close(self.output)


class Firefox(Browser):
    """Firefox, which is told what to do by messages with their lengths before them. What it asks of a network and what goes wrong in a page it tells
    only as far as the page itself sees it."""

    name = "firefox"
    program = program_of("firefox", "firefox-esr")
    wishes = {"marionette.port": 0, "toolkit.startup.max_resumed_crashes": -1, "browser.shell.checkDefaultBrowser": False, "datareporting.policy.dataSubmissionEnabled": False,
              "app.update.auto": False, "browser.tabs.remote.autostart": True, "dom.disable_open_during_load": False}

    def __init__(self, room: str) -> None:
        assert self.program is not None
        profile = Path(room) / "firefox"
        profile.mkdir()
        (profile / "user.js").write_text("".join(f"user_pref({json.dumps(name)}, {json.dumps(value)});\n" for name, value in self.wishes.items()))
        command: List[Union[str, Path]] = [self.program, "--headless", "--marionette", "--no-remote", "--width", "1280", "--height", "760", "--profile", profile]
        with open(f"{room}/firefox.log", "wb") as log:
            self.process = subprocess.Popen(command, stdout=log, stderr=log)
        self.socket, self.rest, self.count = self.connected(profile / "MarionetteActivePort"), b"", 0
        self.message()
        self.call("WebDriver:NewSession", capabilities={"alwaysMatch": {"unhandledPromptBehavior": "ignore"}})
        self.call("WebDriver:SetTimeouts", script=600_000)
        self.size(1280, 760)

    def another_tab(self) -> Optional[str]:
        """Goes on in a new tab; what leads back by `to_tab`."""
        return self.to_tab(self.call("WebDriver:NewWindow", type="tab")["handle"])

    def to_tab(self, tab: Optional[str]) -> Optional[str]:
        """Goes on in a tab; what leads back."""
        before: str = self.call("WebDriver:GetWindowHandle")["value"]
        self.call("WebDriver:SwitchToWindow", handle=tab)
        return before

    def connected(self, file: Path) -> socket.socket:
        end = time.monotonic() + 60
        while time.monotonic() < end:
            try:
                return socket.create_connection(("127.0.0.1", int(file.read_text())))
            except (OSError, ValueError):
                time.sleep(0.1)
        raise RuntimeError("firefox did not start")

    def message(self) -> Any:
        while b":" not in self.rest:
            self.rest += self.received()
        length, _, self.rest = self.rest.partition(b":")
        while len(self.rest) < int(length):
            self.rest += self.received()
        text, self.rest = self.rest[: int(length)], self.rest[int(length) :]
        return json.loads(text)

    def received(self) -> bytes:
        data = self.socket.recv(1 << 16)
        if not data:
            raise EOFError("the browser has ended")
        return data

    def call(self, method: str, **words: Any) -> Any:
        self.count += 1
        text = json.dumps([0, self.count, method, words]).encode()
        self.socket.sendall(b"%d:%s" % (len(text), text))
        _, _, error, result = self.message()
        if error:
            raise RuntimeError(f"{method}: {error['error']}: {error['message']}")
        return result

    def value(self, script: str) -> Any:
        return self.call("WebDriver:ExecuteScript", script=f"return {script}", args=[])["value"]

    def go(self, address: str) -> None:
        self.call("WebDriver:Navigate", url=address)

    def forget(self) -> None:
        pass

    def perform(self, kind: str, *actions: Dict[str, Any], **words: Any) -> None:
        self.call("WebDriver:PerformActions", actions=[{"type": kind, "id": kind, "actions": list(actions), **words}])

    def press(self, key: str, shift: bool = False) -> None:
        letter, held = FIREFOX_KEYS.get(key, key), ["\ue008"] if shift else []
        downs = [{"type": "keyDown", "value": it} for it in [*held, letter]]
        self.perform("key", *downs, *({"type": "keyUp", "value": it} for it in [letter, *held]))

    def type(self, text: str) -> None:
        self.perform("key", *(it for letter in text for it in ({"type": "keyDown", "value": letter}, {"type": "keyUp", "value": letter})))

    def pointer(self, x: float, y: float, is_tap: bool = False) -> None:
        taps = [{"type": "pointerDown", "button": 0}, {"type": "pointerUp", "button": 0}] if is_tap else []
        self.perform("pointer", {"type": "pointerMove", "x": round(x), "y": round(y), "duration": 0}, *taps, parameters={"pointerType": "mouse"})

    def front(self) -> None:
        """Each tab of a test draws its frames."""

    def size(self, width: int, height: int) -> None:
        """Gives the page this size. Firefox makes no window narrower than 450."""
        inner = self.value("[window.outerWidth - window.innerWidth, window.outerHeight - window.innerHeight]")
        self.call("WebDriver:SetWindowRect", width=width + inner[0], height=height + inner[1])

    def picture(self, path: Union[str, Path]) -> None:
        Path(path).write_bytes(base64.b64decode(self.call("WebDriver:TakeScreenshot", full=False)["value"]))

    def faults(self, room: Union[str, Path]) -> List[Any]:
        asked = self.value("performance.getEntriesByType('resource').map((it) => it.name)")
        own = (Path(room).as_uri(), "about:", "data:", "blob:")
        return [it for it in asked if not it.startswith(own)]

    def end(self) -> None:
        self.call("Marionette:Quit", flags=["eForceQuit"])
        self.process.wait(30)
        self.socket.close()


AnyBrowser = Union[Chromium, Firefox]
KINDS: Tuple[Type[AnyBrowser], ...] = (Chromium, Firefox)
BROWSERS = [it for it in KINDS if it.program]

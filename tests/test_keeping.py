"""What was worked on is there behind a reload of the page, in each browser that is there."""
from __future__ import annotations

import json
import subprocess
import sys
import tempfile
import unittest
from pathlib import Path
from typing import Any, Type

from tool import TOP, MixedIn

sys.path.append(str(TOP / "web" / "tests"))
from browsers import BROWSERS, AnyBrowser

MODULE = next((it for it in (TOP / "engine" / "out" / "saxtegun.wasm", TOP / "released" / "saxtegun.wasm") if it.is_file()), None)
CLEANING: Any = {"ignore_cleanup_errors": True} if sys.version_info >= (3, 10) else {}
READY, BUSY, LATE = "document.documentElement?.dataset.opened === 'true'", "document.documentElement.dataset.busy", "document.getElementById('promise').textContent.includes('has not kept')"
GAME = (TOP / "examples" / "day" / "game.txt").read_text(encoding="utf-8")
DAY = (TOP / "examples" / "day" / "recordings.json").read_text(encoding="utf-8")
SHOWN = """({ text: document.getElementById('source').value, name: document.getElementById('name').value, file: document.getElementById('file-name').textContent,
    inputs: [...document.querySelectorAll('#strip button')].map((it) => it.title), back: document.getElementById('put-back').title, said: document.getElementById('status').textContent })"""
# Whether what the browser kept last is what the page shows.
IS_KEPT = """new Promise((settle) => { const opening = indexedDB.open('saxtegun'); opening.onsuccess = () => {
    const request = opening.result.transaction('kept').objectStore('kept').index('kept').openCursor(null, 'prev');
    request.onsuccess = () => { opening.result.close(); const it = request.result?.value; settle(it !== undefined && it.text === document.getElementById('source').value
        && it.work.name === document.getElementById('name').value && it.work.inputs.length === document.querySelectorAll('#strip button').length); }; }; })"""
FORGET = """new Promise((settle) => { const opening = indexedDB.open('saxtegun'); opening.onsuccess = () => {
    const it = opening.result.transaction('kept', 'readwrite'); it.objectStore('kept').clear(); it.oncomplete = () => { opening.result.close(); settle(1); }; }; })"""
# Nothing else is written as long as the page stays, or window.isHeld is true: a transaction of its own goes on and on.
HOLD_DATABASE = """new Promise((settle) => { window.isHeld = true; const opening = indexedDB.open('saxtegun'); opening.onsuccess = () => {
    const store = opening.result.transaction('kept', 'readwrite').objectStore('kept'), go = () => { settle(1); if (window.isHeld) store.get('none').onsuccess = go; else opening.result.close(); }; go(); }; })"""


class Page:
    """The page in one browser."""

    def __init__(self, kind: Type[AnyBrowser], room: str) -> None:
        self.file = Path(room) / "saxtegun.html"
        subprocess.run([TOP / "dev" / "page", "--module", str(MODULE), "--output", self.file], stdout=subprocess.DEVNULL, check=True)
        self.browser = kind(room)

    def visit(self) -> None:
        self.browser.open(self.file, is_ready=READY)

    def begin(self) -> None:
        """Opens the page as one that nothing was kept for."""
        self.visit()
        self.wait_until_kept()
        self.value(FORGET)
        self.visit()

    def value(self, script: str) -> Any:
        return self.browser.value(script)

    def shown(self) -> Any:
        return self.value(SHOWN)

    def press(self, *keys: str) -> None:
        self.value(f"({json.dumps(keys)}.forEach((key) => document.getElementById('stage').dispatchEvent(new KeyboardEvent('keydown', {{ key, bubbles: true, cancelable: true }}))), 1)")

    def fill(self, name: str, text: str) -> None:
        self.value(f"((it) => {{ it.value = {json.dumps(text)}; it.dispatchEvent(new Event('input')); return 1; }})(document.getElementById('{name}'))")

    def hand(self, name: str, text: str) -> None:
        self.value(f"""((files, it) => {{ files.items.add(new File([{json.dumps(text)}], {json.dumps(name)})); it.files = files.files; it.dispatchEvent(new Event('change')); return 1; }})(
            new DataTransfer(), document.getElementById('file'))""")

    def wait(self) -> None:
        self.browser.until(BUSY, "false")

    def wait_until_kept(self) -> None:
        self.wait()
        self.browser.until(IS_KEPT, True)

    def work(self, name: str, *keys: str) -> None:
        """Does something that is lost where the page is left at once, and nothing keeps it."""
        self.fill("name", name)
        self.press(*keys)
        self.wait()


class KeepingTests(MixedIn):
    kind: Type[AnyBrowser]
    page: Page

    @classmethod
    def setUpClass(cls) -> None:
        room = tempfile.TemporaryDirectory(**CLEANING)
        cls.addClassCleanup(room.cleanup)
        cls.page = Page(cls.kind, room.name)
        cls.addClassCleanup(cls.page.browser.end)

    def setUp(self) -> None:
        self.page.begin()

    def assert_nothing_lost(self) -> None:
        self.page.wait()
        before = self.page.shown()
        self.page.visit()
        self.assertEqual(self.page.shown(), before)

    def test_a_recording_with_its_name_and_a_file_with_what_can_be_put_back(self) -> None:
        self.page.hand("mine.json", DAY)
        self.page.browser.until("document.getElementById('file-name').textContent === 'mine.json' && document.getElementById('played').textContent !== ''", True)
        # what differs is opened by then, and not beside the keys that come
        self.page.wait()
        self.page.value("(document.getElementById('new').click(), 1)")
        self.page.work("one", "ArrowLeft", "ArrowUp")
        self.page.value("(document.getElementById('new').click(), 1)")
        self.page.work("two", "ArrowUp")
        self.assertEqual([self.page.shown()[it] for it in ("file", "name")], ["mine.json", "two"])
        self.assertRegex(self.page.shown()["back"], "^Puts back a recording of 2 inputs")
        self.page.wait_until_kept()
        self.assert_nothing_lost()

    def test_keys_that_wait_to_be_played(self) -> None:
        self.page.press(*["ArrowLeft", "ArrowRight"] * 20)
        self.page.visit()
        self.assertEqual(self.page.browser.until("document.querySelectorAll('#strip button').length", 40), 40)

    def test_that_nothing_is_kept_yet_is_said(self) -> None:
        promised = self.page.value("document.getElementById('promise').textContent")
        self.page.wait_until_kept()
        self.page.value(HOLD_DATABASE)
        self.page.press("ArrowLeft")
        self.assertIs(self.page.browser.until(LATE, True), True)
        self.page.press("ArrowUp")
        self.page.value("(window.isHeld = false, 1)")
        self.assertIs(self.page.browser.until(LATE, False), False)
        self.assertEqual(self.page.value("document.getElementById('promise').textContent"), promised)
        self.page.wait_until_kept()

    def test_a_file_that_is_read_late_makes_the_page_busy(self) -> None:
        self.page.value("(Blob.prototype.arrayBuffer = ((read) => async function () { await new Promise((settle) => { window.go = settle; }); return read.call(this); })(Blob.prototype.arrayBuffer), File.prototype.arrayBuffer = Blob.prototype.arrayBuffer, 1)")
        self.page.hand("mine.json", DAY)
        self.page.fill("name", "two")
        self.assertEqual([self.page.value(BUSY), self.page.shown()["name"]], ["true", "two"])
        self.page.value("(window.go(), 1)")
        self.page.wait()
        self.assertEqual(self.page.shown()["file"], "mine.json")
        self.assert_nothing_lost()


class KeepingAnywhere(unittest.TestCase):
    def test_there_is_a_browser(self) -> None:
        if not (BROWSERS and MODULE):
            print("there is no browser or no module: what the page keeps was not tried in a browser", file=sys.stderr)
            self.skipTest("there is no browser, which dev/tools installs, or no module: engine/build")


for kind in BROWSERS if MODULE else []:
    globals()[f"Keeping{kind.name.title()}"] = type(f"Keeping{kind.name.title()}", (KeepingTests, unittest.TestCase), {"kind": kind})


if __name__ == "__main__":
    unittest.main()

"""Random acts on the playground in each browser that is there: nothing fails, nothing that was made is lost, also over a reload, and each close that
the page shows is that of the engine on the file as it would be saved. ACTS says how many acts (20,000 by hand), SEED with which seed they begin."""
from __future__ import annotations

import json
import os
import shutil
import subprocess
import sys
import tempfile
import time
import unittest
from concurrent.futures import ThreadPoolExecutor
from pathlib import Path
from typing import Any, List, Type

from tool import PROGRAM, TOP

sys.path.append(str(TOP / "web" / "tests"))
from browsers import BROWSERS, AnyBrowser

ACTS, SEED = int(os.environ.get("ACTS", "2000")), int(os.environ.get("SEED", "1"))
AT_ONCE = 100  # acts between two reloads
NODE = shutil.which("node")
MODULE = next((it for it in (TOP / "engine" / "out" / "saxtegun.wasm", TOP / "released" / "saxtegun.wasm") if it.is_file()), None)
CLEANING: Any = {"ignore_cleanup_errors": True} if sys.version_info >= (3, 10) else {}
READY = "document.documentElement?.dataset.opened === 'true'"
SCRIPT = (TOP / "web" / "tests" / "acts.js").read_text(encoding="utf-8").partition("\n(")[2].strip()
GAME = (TOP / "examples" / "day" / "game.txt").read_text(encoding="utf-8")
DAY = (TOP / "examples" / "day" / "recordings.json").read_text(encoding="utf-8")
OTHER = GAME.replace("title ", "title Another ")
PUSH, STAY = "[ > Player | Crate ] -> [ > Player | > Crate ]", "[ > Player ] -> [ Player ]"
MIXED = json.dumps([[f"mixed {name}", [OTHER if number % 2 else "", *body[1:]]] for number, (name, body) in enumerate(json.loads(DAY))])
TEXTS = {
    "example": GAME,
    "edits": [["[ > Player | Crate ] ->", "[ > Player | Crat ] ->"], ["[ > Player | Crat ] ->", "[ > Player | Crate ] ->"], [PUSH, STAY], [STAY, PUSH], ["All Target", "Some Target"], ["Some Target", "All Target"]],
    "files": [["game.txt", OTHER], ["recordings.json", DAY], ["block-pushing.json", (TOP / "examples" / "block-pushing.json").read_text(encoding="utf-8")], ["mixed.json", MIXED], ["empty.json", "[]"],
              ["notes.txt", ""], ["half.json", '[["a"'], ["strange.lines", '{"at":0}']],
}


def closes_of(entries: List[Any], order: str) -> List[str]:
    """How the program, or the engine in Node where it isn't there, says that each session closes."""
    command = [str(PROGRAM)] if os.access(PROGRAM, os.X_OK) else [str(NODE), str(TOP / "engine" / "replay.mjs")]
    with tempfile.NamedTemporaryFile("w", suffix=".json", encoding="utf-8") as file:
        json.dump(entries, file)
        file.flush()
        ran = subprocess.run([*command, "--order", order, file.name], stdout=subprocess.PIPE, stderr=subprocess.PIPE, env={**os.environ, "SAXTEGUN_MODULE": str(MODULE)}, check=False)
    return [line["close"] for line in map(json.loads, ran.stdout.decode().splitlines()) if "close" in line]


def played_over(found: Any) -> List[Any]:
    """The sessions that the page showed, with the text at hand in the place of empty ones."""
    return [[name, [source or found["text"], *body]] for name, (source, *body) in found["entries"]]


class Acts:
    """Random acts in one browser."""

    def __init__(self, test: unittest.TestCase, kind: Type[AnyBrowser], page: Path, room: str) -> None:
        self.test, self.kind, self.page = test, kind, page
        self.browser = kind(room)
        self.founds: List[Any] = []

    def visit(self) -> None:
        self.browser.open(self.page, is_ready=READY)
        # nothing is handed out: that would open a dialog
        self.browser.value("(HTMLAnchorElement.prototype.click = () => {}, 1)")

    def shown(self) -> Any:
        inputs = "[...document.querySelectorAll('#strip button')].map((it) => it.title.replace(/^input [0-9]+: /, ''))"
        return self.browser.value(f"({{ text: document.getElementById('source').value, inputs: {inputs}, name: document.getElementById('name').value }})")

    def act(self) -> None:
        """Acts, with a reload behind each hundred; what the page showed is there behind it."""
        before = None
        for number in range(0, ACTS, AT_ONCE):
            self.visit()
            self.test.assertIn(before, (None, self.shown()), f"{self.kind.name}: another state is there after a reload")
            answer = self.browser.value(f"(({SCRIPT}({SEED + number}, {min(AT_ONCE, ACTS - number)}, {json.dumps(TEXTS)}))")
            self.test.assertEqual(answer["wrong"], [], self.kind.name)
            before = answer["shown"]
            self.founds += answer["found"]

    def assert_closes(self) -> None:
        for order in ("columns", "rows"):
            some = [it for it in self.founds if it["order"] == order]
            entries = [entry for it in some for entry in played_over(it)]
            self.test.assertEqual([close for it in some for close in it["closes"]], closes_of(entries, order) if entries else [], self.kind.name)


class RandomPage(unittest.TestCase):
    def setUp(self) -> None:
        if not (BROWSERS and NODE and MODULE):
            print("there is no browser, no Node or no module: the page was not tried in a browser", file=sys.stderr)
            self.skipTest("there is no browser or no Node, which dev/tools installs, or no module: engine/build")

    def acts_in(self, kind: Type[AnyBrowser]) -> str:
        begun = time.monotonic()
        with tempfile.TemporaryDirectory(**CLEANING) as room:
            page = Path(room) / "saxtegun.html"
            subprocess.run([TOP / "dev" / "page", "--module", str(MODULE), "--output", page], stdout=subprocess.DEVNULL, check=True)
            acts = Acts(self, kind, page, room)
            try:
                acts.act()
            finally:
                acts.browser.end()
            acts.assert_closes()
        sessions = sum(len(it["entries"]) for it in acts.founds)
        return f"{kind.name}: {ACTS} random acts, {sessions} closes compared, {time.monotonic() - begun:.0f} s"

    def test_random_acts(self) -> None:
        # side by side, since most of the time a browser waits
        with ThreadPoolExecutor() as pool:
            for told in pool.map(self.acts_in, BROWSERS):
                print(told, file=sys.stderr)


if __name__ == "__main__":
    unittest.main()

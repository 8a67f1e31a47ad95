"""What an enemy, or a power cut, does from outside: a verb that is killed while it writes loses no file, and wrong calls of the bare module harm no other.

By hand in their long form: `KILLS=300 CALLS=10000 SEED=.. python3 -m unittest discover -s tests -k hostile`, and `node tests/engine/hostile.mjs SEED 10000` for the glue."""
from __future__ import annotations

import json
import os
import random
import shutil
import subprocess
import sys
import time
import unittest
from pathlib import Path
from typing import Any, List, Optional

from test_test import OfAGame
from tool import TOP, environment, plays, run

SEED, KILLS, CALLS = (int(os.environ.get(name, count)) for name, count in (("SEED", "75"), ("KILLS", "12"), ("CALLS", "500")))
NODE = shutil.which("node")
MODULE = next((it for it in (TOP / "engine/out/saxtegun.wasm", TOP / "released/saxtegun.wasm") if it.is_file()), None)
# Sessions that pass and are long, so that a file takes a while to be written.
LONG = "x" * 15_000
COUNT = 150


@plays
class DayOfKills(OfAGame):
    """Kills accept, add and play --save at a random moment of so long as they take."""

    def setUp(self) -> None:
        super().setUp()
        self.random = random.Random(SEED)
        self.console = self.write_entries([["new", [self.source, *self.entries[2][1][1:]]]], "console.txt")

    def suite(self) -> str:
        """A file of many sessions, of which one differs."""
        name, body = self.entries[4]
        return json.dumps([[name, body], *([f"{LONG} {it}", self.entries[3][1]] for it in range(COUNT))])

    def words(self, verb: str, path: Path) -> List[Any]:
        return {
            "accept": ["accept", path, "--game", self.game, "--in-place", "--only", "a recording*"],
            "add": ["add", path, self.console],
            "play": ["play", self.game, "--save", "mine", path],
        }[verb]  # fmt: skip

    def started(self, verb: str, path: Path) -> subprocess.Popen[bytes]:
        words = [sys.executable, "-B", TOP / "saxtegun", *self.words(verb, path)]
        return subprocess.Popen(list(map(str, words)), stdin=subprocess.PIPE, stdout=subprocess.DEVNULL, stderr=subprocess.DEVNULL, env={**environment(), "TMPDIR": str(self.room)}, start_new_session=True)

    def ended(self, verb: str, path: Path, after: Optional[float] = None) -> float:
        """Runs a verb, killed after so many seconds; how long it took."""
        begin = time.monotonic()
        with self.started(verb, path) as ran:
            assert ran.stdin is not None
            ran.stdin.write(b"dq")
            ran.stdin.flush()
            try:
                ran.wait(after)
            except subprocess.TimeoutExpired:
                ran.kill()
        return time.monotonic() - begin

    def test_no_file_is_lost(self) -> None:
        path, counts = self.room / "s.json", {"old": 0, "new": 0}
        for verb in ("accept", "add", "play"):
            old = self.suite()
            path.write_text(old)
            took = self.ended(verb, path)
            new = path.read_text(encoding="utf-8")
            self.assertNotEqual(new, old)
            for _ in range(KILLS // 3):
                path.write_text(old)
                # the write is the last of it
                self.ended(verb, path, took * self.random.uniform(0.3, 1.1))
                found = path.read_text(encoding="utf-8")
                self.assertIn(found, (old, new), f"{verb}: another file of {len(found)} letters")
                counts["old" if found == old else "new"] += 1
            path.write_text(old)
            self.ended(verb, path)
            self.assertEqual(path.read_text(encoding="utf-8"), new, f"{verb}: what was killed before keeps it from writing")
        self.assertEqual(sum(counts.values()), KILLS // 3 * 3)
        self.assertTrue(all(it.name.startswith(".saxtegun-") for it in self.room.iterdir() if it.name.startswith(".")))


@unittest.skipUnless(NODE and MODULE, "Node is not there, which dev/tools installs, or no module: engine/build")
class Bare(unittest.TestCase):
    def test_wrong_calls_of_the_bare_module_return_or_trap(self) -> None:
        words = [NODE, TOP / "tests/engine/bare.mjs", str(SEED), str(CALLS), MODULE]
        ran = subprocess.run(list(map(str, words)), stdout=subprocess.PIPE, stderr=subprocess.PIPE, timeout=60 + CALLS / 10)
        self.assertEqual((ran.returncode, ran.stderr.decode()), (0, ""))
        self.assertRegex(ran.stdout.decode(), r"^\{ returned: \d+, trapped: \d+ \}\n$")


if __name__ == "__main__":
    unittest.main()

"""Verbs at random over a folder of a game and its recordings: status 0 of `saxtegun test` only where the program alone passes each session over the text at
hand, status 1 only where some session fails, nothing lost by adding, and no traceback.

The verbs run in this process, which is what lets so many be called. By hand, with more of them:

    SAXTEGUN_PROGRAM=.. python3 tests/test_at_random.py SEED COUNT
"""
from __future__ import annotations

import io
import json
import os
import random
import signal
import subprocess
import sys
import tempfile
import unittest
from pathlib import Path
from typing import Any, Callable, List, Optional, Sequence

from tool import PROGRAM, TOP, plays
from saxtegun.command_line import main as call_verb
from saxtegun.commands import serve
from saxtegun.sessions import fits

GAME = (TOP / "examples/day/game.txt").read_text(encoding="utf-8")
RULE = "[ > Player | Crate ] -> [ > Player | > Crate ]"
# Texts of the game: the same in other lines, with levels that end elsewhere, and refused.
TEXTS = (
    GAME, GAME.replace("\n", "\r\n") + "\r\n", GAME.replace(RULE, f"{RULE} (a push)"), GAME.replace(RULE, "[ > Player | Crate ] -> [ Player | Crate ]"), GAME.replace(RULE, ""),
    GAME.replace(RULE, "[ > Player | Creat ] -> [ ]"), GAME.replace("#@P..#", "#@.P.#"), "", "no game\n",
)
KEYS = "wasdwasdzrx"
INPUTS = (0, 1, 2, 3, 0, 1, 2, 3, "undo", "restart", 4)
# So many are called in the gate, and ten times as many by hand.
COUNT = 2000
MOST_ENTRIES = 10


class Answer:
    def __init__(self, status: Any, out: str, errors: str) -> None:
        self.status, self.out, self.errors = status, out, errors


def called(words: Sequence[object], stdin: bytes = b"") -> Answer:
    """A verb called in this process, as the command calls it."""
    streams = sys.stdout, sys.stderr, sys.argv
    handlers = {it: signal.getsignal(it) for it in (signal.SIGINT, signal.SIGTERM, signal.SIGHUP)}
    sys.stdout, sys.stderr = (io.TextIOWrapper(io.BytesIO(), encoding="utf-8") for _ in range(2))
    sys.argv = ["saxtegun", *map(str, words)]
    keep = os.dup(0)
    with tempfile.TemporaryFile() as keys:
        keys.write(stdin)
        keys.seek(0)
        os.dup2(keys.fileno(), 0)
        try:
            serve(str(words[0]), call_verb)
        except SystemExit as end:
            status = end.code
        finally:
            os.dup2(keep, 0)
            os.close(keep)
            answers = sys.stdout.buffer, sys.stderr.buffer
            sys.stdout.flush()
            sys.stderr.flush()
            out, errors = (it.getvalue().decode() for it in answers)  # type: ignore[attr-defined]  # both keep what is written
            sys.stdout, sys.stderr, sys.argv = streams
            for number, handler in handlers.items():
                signal.signal(number, handler)
    return Answer(status, out, errors)


def closes_of(entries: List[Any]) -> Any:
    """How the program alone closes sessions."""
    ran = subprocess.run([str(PROGRAM)], input=json.dumps(entries).encode(), stdout=subprocess.PIPE, stderr=subprocess.PIPE)
    lines = [json.loads(it) for it in ran.stdout.decode().splitlines()]
    return [it["close"] for it in lines if "close" in it] if ran.returncode in (0, 1) else None


def reached(source: str, inputs: List[Any], index: int) -> Optional[str]:
    """The level that a session reaches, by the program alone, or None where it is not played."""
    ran = subprocess.run([str(PROGRAM)], input=json.dumps([["a", [source, inputs, "", index]]]).encode(), stdout=subprocess.PIPE)
    lines = [json.loads(it) for it in ran.stdout.decode().splitlines()]
    return lines[-2]["level"] if lines and lines[-1]["close"] in ("passed", "differs") else None


class Folder:
    """A folder with a game and two files of recordings, and what a hand or a verb does in it."""

    def __init__(self, room: Path, seed: int) -> None:
        self.random = random.Random(seed)
        self.room, self.game = room, room / "game.txt"
        self.suites = [room / "one.json", room / "other.json"]
        self.called: List[Any] = []
        self.game.write_text(GAME, encoding="utf-8")
        for suite in self.suites:
            suite.write_text("[]\n", encoding="utf-8")
        self.verbs = [self.edit, self.play, self.add, self.add, self.test, self.test, self.test, self.accept, self.follow, self.look, self.spoil, self.tidy]

    def run(self, *words: object, stdin: bytes = b"") -> Answer:
        answer = called(words, stdin)
        self.called.append((words, answer.status))
        assert answer.status in (0, 1, 2), words
        assert "Traceback" not in answer.errors, answer.errors
        assert answer.status != 2 or answer.errors, f"{words}: no word on status 2"
        return answer

    def entries(self, suite: Path) -> Any:
        """The entries of a file, or None where it is none."""
        try:
            return json.loads(suite.read_text(encoding="utf-8"))
        except ValueError:
            return None

    def text(self) -> str:
        return self.game.read_bytes().decode()

    def over(self, entries: List[Any], is_all: bool = False) -> List[Any]:
        """The entries over the text at hand: those of the empty source, or all."""
        return [[it[0], [self.text() if is_all or not it[1][0] else it[1][0], *it[1][1:4]]] for it in entries]

    def suite(self) -> Path:
        return self.random.choice(self.suites)

    def edit(self) -> None:
        self.game.write_bytes(self.random.choice(TEXTS).encode())

    def inputs(self) -> List[Any]:
        return [self.random.choice(INPUTS) for _ in range(self.random.randrange(9))]

    def keeps(self, suite: Path, before: List[Any], answer: Answer) -> None:
        """What was in a file stands in it still, and the status tells whether there is more."""
        after = self.entries(suite)
        if before is None or answer.status:
            assert after == before, f"{self.called[-1]} changed {before} to {after}"
        else:
            assert after[: len(before)] == before, f"{self.called[-1]} lost an entry"

    def play(self) -> None:
        suite = self.suite()
        before = self.entries(suite)
        keys = "".join(self.random.choice(KEYS) for _ in range(self.random.randrange(4)))
        answer = self.run("play", self.game, "--save", f"walk {self.random.randrange(99)}", suite, "--level", self.random.choice((1, 1, 2, 3)), stdin=f"{keys}q".encode())
        self.keeps(suite, before, answer)
        if answer.status == 0:
            entry = self.entries(suite)[-1]
            assert closes_of(self.over([entry])) == ["passed"], f"what was played doesn't pass: {entry}"

    def add(self) -> None:
        """A recording over the text at hand or another, which may hold or not."""
        suite, text, inputs = self.suite(), self.random.choice((self.text(), self.random.choice(TEXTS))), self.inputs()
        level = reached(text, inputs, 0) or "background:0,"
        if self.random.random() < 0.2:
            level = "background player:0,"
        name = f"recording {self.random.randrange(99)}"
        console = self.room / "console.txt"
        console.write_text(f"[\n{json.dumps(name)},\n{json.dumps([text, inputs, level, 0, '1.5'])}\n],\n", encoding="utf-8")
        before = self.entries(suite)
        words = self.random.choice(((), ("--game", self.game), ("--game", self.game), ("--anyway",)))
        self.keeps(suite, before, self.run("add", suite, console, *words))

    def test(self) -> None:
        """The one promise: green only where all pass by the program alone."""
        game = [self.game] * self.random.choice((0, 1, 1))
        suites = self.random.choice(([self.suites[0]], [self.suites[1]], self.suites))
        words: Sequence[str] = self.random.choice(((), (), ("--quiet",), ("--filter", "walk*"), ("--solved", "recording*"), ("--solved", "lvel*"), ("--filter", "recording 1*", "--filter", "walk*")))
        answer = self.run("test", *game, *suites, *words)
        entries = [self.entries(it) for it in suites]
        if answer.status == 2:
            return
        patterns = [it for word, it in zip(words[::2], words[1::2]) if word == "--filter"]
        wanted = [it for part in entries for it in part if not patterns or any(fits(it[0], pattern) for pattern in patterns)]
        at_hand = closes_of(self.over(wanted, is_all=True) if game else wanted)
        own = closes_of(self.over(wanted) if game else wanted)
        is_green = bool(wanted) and {*at_hand, *own} == {"passed"}
        if answer.status == 0:
            assert is_green, f"a false green: {self.called[-1]} where the program says {at_hand} and {own}"
            assert "--solved" not in words or any(fits(it[0], words[1]) for it in wanted), "a demand of nothing"
        else:
            assert not is_green or "--solved" in words, f"a false red: {self.called[-1]}: {answer.out}"

    def accept(self) -> None:
        suite = self.suite()
        before = self.entries(suite)
        answer = self.run("accept", suite, "--in-place", *self.random.choice(((), ("--game", self.game), ("--only", "walk*", "--game", self.game))))
        after = self.entries(suite)
        if answer.status == 2:
            assert after == before
        elif "--only" not in self.called[-1][0] and "--game" in self.called[-1][0]:
            assert "differs" not in closes_of(self.over(after)), "what was accepted differs"

    def follow(self) -> None:
        suite = self.suite()
        before = self.entries(suite)
        words = self.random.choice((("--follow",), ("--follow",), (), ("--only", "walk*"), ("--all",)))
        answer = self.run("source", self.game, suite, "--in-place", *words)
        after = self.entries(suite)
        if before is None or answer.status:
            assert after == before
        else:
            assert [[it[0], it[1][1:]] for it in after] == [[it[0], it[1][1:]] for it in before], "other things than the source were changed"

    def look(self) -> None:
        """What changes nothing."""
        suite = self.suite()
        before = suite.read_bytes()
        words = self.random.choice((
            ("explain", suite, "--game", self.game), ("explain", suite), ("lines", suite, "--game", self.game), ("report", suite, "--game", self.game),
            ("coverage", self.game, suite), ("compare", "--sources", self.game, self.game, suite), ("why", self.game, suite, "--session", "walk*"),
            ("why", self.game, suite, "--session", f"recording {self.random.randrange(99)}*", "--old", self.game),
        ))
        answer = self.run(*words)
        assert suite.read_bytes() == before
        if words[0] == "lines" and answer.status == 0:
            assert {*closes_of(self.over(self.entries(suite)))} <= {"passed"}, "lines are green"
        if words[0] == "coverage" and answer.status in (0, 1):
            assert {*closes_of(self.over(self.entries(suite)))} != {"refused"}, "coverage of nothing"

    def spoil(self) -> None:
        """A hand changes a level, takes an entry, writes a wrong demand or no JSON."""
        suite = self.suite()
        entries = self.entries(suite)
        if not entries or entries == [[1]] or self.random.random() < 0.1:
            suite.write_text(self.random.choice(("[]", "[\n", "", "[[1]]")), encoding="utf-8")
            return
        entry = self.random.choice(entries)
        acts: List[Callable[[], object]] = [
            lambda: entry[1].__setitem__(2, "background:0,"), lambda: entries.remove(entry), lambda: entry.append("slved"), lambda: entry[1].__setitem__(1, self.inputs()),
            lambda: entry[1].__setitem__(0, self.random.choice(TEXTS)),
        ]
        self.random.choice(acts)()
        suite.write_text(json.dumps(entries), encoding="utf-8")

    def tidy(self) -> None:
        """A hand brings a file that is too long, or none, to where verbs go on."""
        for suite in self.suites:
            entries = self.entries(suite)
            is_whole = isinstance(entries, list) and all(isinstance(it, list) and len(it) == 2 for it in entries)
            if not is_whole or len(entries) > MOST_ENTRIES:
                suite.write_text(json.dumps(entries[-3:] if is_whole else []), encoding="utf-8")
        if self.random.random() < 0.5:
            self.game.write_text(GAME, encoding="utf-8")

    def go(self, count: int) -> None:
        for _ in range(count):
            self.random.choice(self.verbs)()


def go(seed: int, count: int) -> List[Any]:
    """So many verbs of a seed; how many of each status the command had."""
    with tempfile.TemporaryDirectory() as room:
        folder = Folder(Path(room), seed)
        try:
            folder.go(count)
        except AssertionError as why:
            raise AssertionError(f"seed {seed}, behind {len(folder.called)} calls: {why}") from why
        return folder.called


@plays
class DayAtRandom(unittest.TestCase):
    def setUp(self) -> None:
        before = os.environ.get("SAXTEGUN_PROGRAM")
        os.environ["SAXTEGUN_PROGRAM"] = str(PROGRAM)
        self.addCleanup(lambda: os.environ.pop("SAXTEGUN_PROGRAM") if before is None else os.environ.__setitem__("SAXTEGUN_PROGRAM", before))

    def test_no_false_green_and_nothing_lost(self) -> None:
        statuses = [status for words, status in go(1, COUNT) if words[0] == "test"]
        # each answer was met often
        self.assertGreater(min(statuses.count(it) for it in (0, 1, 2)), COUNT / 200)


if __name__ == "__main__":
    seed, count = map(int, sys.argv[1:3])
    done = go(seed, count)
    print({f"{verb} {status}": sum(words[0] == verb and it == status for words, it in done) for verb, status in sorted({(words[0], it) for words, it in done})})

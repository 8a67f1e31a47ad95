"""adapters/javascript: an engine in JavaScript that is plugged in writes our lines, and takes our command line. Left out where node is not there."""
from __future__ import annotations

import json
import re
import shutil
import subprocess
import sys
import unittest
from typing import Tuple

from day import EXAMPLE, OnSessions
from tool import CASES, PROGRAM, TOP, plays, run
from saxtegun.cases import read_case
from saxtegun.stages import told_in

NODE = shutil.which("node") or ""
ADAPTER = TOP / "adapters/javascript"
ENGINE = ADAPTER / "example.js"
ANOTHER = TOP / "tests/another_engine"
# Cases of a player who walks and pushes one crate.
KNOWN = ("walk-two-steps-right-against-a-wall", "push-a-crate-against-a-wall-then-step-back", "undo-with-nothing-past-then-undo-of-two-moves", "a-push-rule-has-one-instance-for-each-direction")
# What hangs on how deep JSON nests and on how its numbers and texts are read, which JavaScript does otherwise.
OTHERWISE = {
    "brackets-nested-one-deeper", "brackets-nested-too-deep", "file-with-a-fraction", "file-with-a-lone-surrogate", "file-with-a-seed-that-no-float-holds",
    "file-with-an-exponent", "file-with-an-index-beyond-the-largest", "file-with-an-index-of-four-hundred-digits", "file-with-an-index-that-no-float-holds",
    "file-with-an-input-that-no-float-holds", "file-with-minus-nought", "file-with-a-number-that-rounds-beyond-the-largest-float",
    "file-with-a-whole-number-at-the-border-of-floats",
}
# A script writes lines by the module; what it prints was worked out by hand.
SCRIPT = r"""
const { Lines, readLevelText } = require(process.argv[1]);
const level = (width, height, cells) => ({ width, height, at: (column, row) => cells[row * width + column] });
const cells = [["Wall", "B"], [], ["b", "wall", "WALL"], ["\u{1F600}", "\uFF01", "Ä"]];
for (const order of ["columns", "rows"]) {
  const lines = new Lines((text) => process.stdout.write(text), order);
  lines.start("a\u0001\"\\/\u2028\n", "wall b:0,b  wall:1,\n:2,Ä \u{1F600} \uFF01:3,");
  lines.frame(0, "start", level(2, 2, cells));
  lines.close();
  lines.start("b", "b wall:0,:1,0,Ä \u{1F600} \uFF01:2,");
  lines.frame(0, "start", level(2, 2, cells));
  lines.close();
  lines.start("c", "");
  lines.close("refused", "BadRule:3");
  lines.start("d", "");
  lines.close();
}
"""
TEXTS = {"columns": "b wall:0,0,\n:1,Ä \uff01 \U0001f600:2,\n", "rows": "b wall:0,:1,\n0,Ä \uff01 \U0001f600:2,\n"}
CLOSES = {"columns": ["passed", "differs"], "rows": ["differs", "passed"]}
# What a session must not do, and what is said of it.
WRONG = {
    'lines.frame(0, "start", level)': "no session is started",
    "lines.close()": "no session is started",
    'lines.start("a", ""); lines.start("b", "")': "the session a is not closed",
    'lines.start("a", ""); lines.frame(0, "walk", level)': "there is no kind walk",
    'lines.start("a", ""); lines.close("stopped")': "a cause belongs to stopped and refused",
    'new Lines(() => {}, "diagonal")': "an order is rows or columns",
}


# An engine that plays a session so, behind its start.
PLAYS = r"""
const { serve } = require(process.argv[1]);
const level = { width: 1, height: 1, at: () => ["background"] };
serve((entry, frame) => { frame(0, "start", level); %s; }, process.argv.slice(2));
"""
# What an engine may do, of which its status must not say that sessions passed, or that some did not; and what is said of that.
FAILING = {
    "throw null": "null\nthe engine failed: null",
    'throw "no such game"': "the engine failed: no such game",
    "return new Promise(() => {})": "the engine failed: it ended without an answer",
    "process.exit(0)": "the engine failed: it ended without an answer",
    'setTimeout(() => { throw new Error("a timer") }); return new Promise(() => {})': "the engine failed: a timer",
    'Promise.reject(new Error("a promise"))': "the engine failed: a promise",
    'globalThis.first ??= frame; if (first !== frame) first(1, "move", level)': "the engine failed: a frame comes behind the close of its session",
}


# Tells a press of a level of two cells, a group that acts, and a stop.
STAGES = r"""
const { serveStages } = require(process.argv[1]);
const level = { width: 2, height: 1, at: (column) => [["Player", "background"], ["background"]][column] };
serveStages((entry, input, tell) => {
  if (entry.source === "broken") throw new Error("no such game");
  tell({ tick: 0, stage: "input", changed: true, commands: [], headings: [[0, 0, "player", "right"]], level });
  tell({ tick: 0, stage: "early", block: 1, lines: [7], changed: false, commands: ["again"], headings: [], level });
  tell({ tick: 1, stop: "loop-limit" });
}, process.argv.slice(2));
"""
TOLD = """\
{"changed":true,"commands":[],"headings":[[0,0,"player","right"]],"input":2,"level":"background player:0,background:1,\\n","stage":"input","tick":0}
{"block":1,"changed":false,"commands":["again"],"headings":[],"input":2,"level":"background player:0,background:1,\\n","lines":[7],"stage":"early","tick":0}
{"input":2,"stop":"loop-limit","tick":1}
"""


def node(*words: object, stdin: bytes = b"") -> subprocess.CompletedProcess[bytes]:
    return subprocess.run([NODE, *map(str, words)], input=stdin, stdout=subprocess.PIPE, stderr=subprocess.PIPE)


@unittest.skipUnless(NODE, "Node is not there: dev/tools installs it")
class Adapter(OnSessions):
    def test_the_example_is_played_as_by_hand(self) -> None:
        for words, stdin in (((EXAMPLE,), b""), (("--workers", "2", "--order=columns", "--", EXAMPLE), b""), ((), EXAMPLE.read_bytes())):
            ran = node(ENGINE, *words, stdin=stdin)
            self.assertEqual((ran.stdout, ran.stderr, ran.returncode), (self.lines.read_bytes(), b"", 1))

    def test_lines_are_spelt_as_the_program_spells_them(self) -> None:
        ran = node("-e", SCRIPT, ADAPTER / "lines.js")
        self.assertEqual(ran.stderr, b"")
        lines = iter(ran.stdout.decode().split("\n"))
        for order, text in TEXTS.items():
            for number, name in enumerate(('a\\u0001\\"\\\\/\u2028\\n', "b")):
                spelt = text.replace("\n", "\\n")
                self.assertEqual(next(lines), f'{{"at":0,"frame":0,"kind":"start","level":"{spelt}","session":{number}}}')
                self.assertEqual(next(lines), f'{{"close":"{CLOSES[order][number]}","frames":1,"name":"{name}","session":{number}}}')
            self.assertEqual(next(lines), '{"cause":"BadRule:3","close":"refused","frames":0,"name":"c","session":2}')
            self.assertEqual(next(lines), '{"close":"differs","frames":0,"name":"d","session":3}')

    def test_a_wrong_use_is_reported(self) -> None:
        for words, wanted in WRONG.items():
            script = 'const { Lines } = require(process.argv[1]); const level = { width: 1, height: 1, at: () => [] }; const lines = new Lines(() => {});\n'
            self.assertIn(wanted, node("-e", script + words, ADAPTER / "lines.js").stderr.decode())

    def test_a_file_is_refused_as_by_the_program(self) -> None:
        for case in map(read_case, sorted(CASES.glob("*.json"))):
            if case.status != 2 or case.name in OTHERWISE:
                continue
            with self.subTest(case.name):
                room = self.room / case.name
                room.mkdir()
                for path, data in case.room.items():
                    (room / path).parent.mkdir(exist_ok=True)
                    (room / path).write_bytes(data)
                ran = subprocess.run([NODE, ENGINE, *case.words], input=case.input, cwd=room, stdout=subprocess.PIPE, stderr=subprocess.PIPE)
                self.assertEqual((ran.stdout, ran.stderr, ran.returncode), (b"", case.stderr, 2))

    def test_an_engine_that_fails_in_any_way_has_no_answer(self) -> None:
        """Also one that ends in the midst of it: what it has shown by then is not all, and no status says that it is."""
        sessions = self.write("sessions.json", json.dumps([[name, ["", [], "background:0,"]] for name in "ab"]))
        for does, told in FAILING.items():
            with self.subTest(does):
                ran = node("-e", PLAYS % does, ADAPTER / "program.js", sessions)
                self.assertEqual(ran.returncode, 2, ran.stderr)
                self.assertTrue(ran.stderr.decode().endswith(f"{told}\n"), ran.stderr)
        self.assertEqual(node("-e", PLAYS % "return null", ADAPTER / "program.js", sessions).returncode, 0)

    def test_no_more_is_read_than_a_file_may_have(self) -> None:
        for file in (self.write("long.json", "[]".ljust(2**24 + 1)), "/dev/zero"):
            ran = node(ENGINE, file)
            self.assertEqual((ran.stdout, ran.stderr, ran.returncode), (b"", b"too-many\n", 2))
        self.assertEqual(node(ENGINE, stdin=b"[]".ljust(2**24)).returncode, 0)

    def test_an_engine_that_throws_has_no_answer(self) -> None:
        sessions = self.write("sessions.json", json.dumps([["another source", ["", [], ""]]]))
        answer = run("test", sessions, "--program", ENGINE)
        self.assertEqual((answer.status, answer.out), (2, ""))
        self.assertIn("sessions.json was not played: the engine failed: this engine plays one game alone", answer.errors.splitlines()[-1])


@unittest.skipUnless(NODE, "Node is not there: dev/tools installs it")
class AnotherEngine(OnSessions):
    """An engine that isn't ours in shape: rows of numbers, promises, exceptions."""

    def test_the_page_shows_how_it_is_plugged_in(self) -> None:
        quoted = re.findall(r"```js\n(serve\(.*?)```", (TOP / "docs/engine.md").read_text(encoding="utf-8"), re.S)[0]
        self.assertTrue((ANOTHER / "play.js").read_text(encoding="utf-8").endswith(quoted))

    def test_it_passes_the_cases_of_what_it_knows(self) -> None:
        ran = subprocess.run([sys.executable, TOP / "conformance/run", *(it for name in KNOWN for it in ("--only", name)), ANOTHER / "play.js"], stdout=subprocess.PIPE)
        self.assertEqual((ran.returncode, ran.stdout.decode()), (0, f"{len(KNOWN)} passed, 0 failed\n"))

    def test_a_source_that_it_refuses_by_an_exception_is_closed(self) -> None:
        file = self.write("sessions.json", json.dumps([["a", ["OBJECTS\n", [3], ""]], ["b", ["", [], ""]]]))
        ran = node(ANOTHER / "play.js", file)
        self.assertEqual([json.loads(it)["cause"] for it in ran.stdout.decode().splitlines()], ["Section:0", "Section:0"])
        self.assertEqual((ran.returncode, ran.stderr), (1, b""))

    def test_an_error_of_it_is_told_with_the_input(self) -> None:
        source = "OBJECTS\nBackground .\na\nPlayer p\na\nLEGEND\nCOLLISIONLAYERS\nBackground\nPlayer\nLEVELS\np.\n"
        file = self.write("sessions.json", json.dumps([["a", [source, [3], ""]], ["b", [source, [3, 1, "tick", 3], ""]], ["c", [source, [3], ""]]]))
        other = self.write("other", f"#!/bin/sh\nexec {sys.executable} -B {TOP}/tests/engine_by_the_book.py \"$@\"\n")
        other.chmod(0o755)
        answer = run("compare", "--engines", other, ANOTHER / "play.js", file)
        self.assertEqual(answer.out.splitlines(), [
            "session 1, b: play.js crashed after input 1 (left): ended with status 2: Error: there is no act tick",
            "3 sessions: 2 the same, 1 diverges",
        ])


@plays
@unittest.skipUnless(NODE, "Node is not there: dev/tools installs it")
class DayOfTheAdapter(OnSessions):
    def test_the_example_is_played_as_by_the_program(self) -> None:
        answer = run("compare", "--engines", PROGRAM, ENGINE, EXAMPLE)
        self.assertEqual((answer.status, answer.out, answer.errors), (0, "5 sessions: 5 the same, 0 diverge\n", ""))


@unittest.skipUnless(NODE, "Node is not on the path: dev/tools installs it")
class Stages(unittest.TestCase):
    def told(self, *words: object, source: str = "a game") -> Tuple[int, str, str]:
        file = json.dumps([["a", [source, [3, 3], ""]]]).encode()
        ran = node("-e", STAGES, ADAPTER / "program.js", *words, stdin=file)
        return ran.returncode, ran.stdout.decode(), ran.stderr.decode()

    def test_stages_are_written_as_their_lines_are_read(self) -> None:
        status, out, errors = self.told("0", "2", "columns")
        self.assertEqual((status, out, errors), (0, TOLD, ""))
        read = [told_in(it, 2) for it in out.splitlines()]
        self.assertEqual([(type(it).__name__, it and it.tick) for it in read], [("Stage", 0), ("Stage", 0), ("Stop", 1)])

    def test_a_session_that_is_not_there_has_none(self) -> None:
        self.assertEqual(self.told("1", "2"), (0, "", ""))

    def test_a_wrong_call_is_refused_and_an_engine_that_throws_fails(self) -> None:
        for words in ((), ("0",), ("0", "x"), ("0", "1", "rows"), ("0", "1", "columns", "x"), ("-1", "0")):
            with self.subTest(words):
                self.assertEqual(self.told(*words), (2, "", "bad command line\n"))
        status, out, errors = self.told("0", "0", source="broken")
        self.assertEqual((status, out, "no such game" in errors), (2, "", True))


if __name__ == "__main__":
    unittest.main()

"""Logs: what a stranger has named is no command of a CI's, in no verb and on neither stream."""
from __future__ import annotations

import json
import os
import random
import re
import subprocess
import sys
import unittest
from typing import List

from day import EXAMPLE, OnSessions
from tool import Answer, run
from saxtegun.commands import cut, printable
from saxtegun.failures import MOST_FAILURES, Failure, markdown
from saxtegun.logs import guarded

# By hand ten times as many, and with other seeds.
SEED, COUNT = (int(os.environ.get(name, count)) for name, count in (("SEED", "75"), ("TEXTS", "2000")))
# Commands of GitHub, Azure and TeamCity, with what may stand before them.
COMMANDS = ("::error::x", "::set-output name=x::y", "::add-mask::passed", "::stop-commands::x", "##[error]x", "##[set-output name=x;]y", "##[add-mask]passed", "##vso[task.setvariable variable=x]y", "##teamcity[buildProblem description='x']")
BEFORE = ("", " ", "\t", "\r", "\u00a0", "\u2028", "\u2029", "\x85", "\x0b", "\x0c", "\x1c", "\u200b", "\ufeff", "\u3000", "a\r", "a\n", "#", "##", "%0A", "::")
# A program that plays nothing: it writes the lines that lie beside it.
# Shows one level of each session, at its start and at each of its inputs, all of them undo.
WRITES = f"""#!{sys.executable}
import json, sys
for number, (name, (source, inputs, *more)) in enumerate(json.load(open(sys.argv[-1], encoding="utf-8"))):
    kinds = ["start", *inputs]
    for at, kind in enumerate(kinds):
        print(json.dumps({{"at": at, "frame": at, "kind": kind, "level": "background wall:0,", "session": number}}, separators=(",", ":")))
    print(json.dumps({{"close": "differs", "frames": len(kinds), "name": name, "session": number}}, separators=(",", ":")))
sys.exit(1)
"""


def is_command(line: str) -> bool:
    """Whether a CI may take a line for a command, as GitHub's runner and Azure's agent look for them."""
    return any(it.strip().strip("\u200b\ufeff").startswith("::") for it in re.split("[\r\x0b\x0c\x1c-\x1e\x85\u2028\u2029]", line)) or re.search(r"##[a-zA-Z]*\[", line) is not None


def texts(count: int) -> List[str]:
    """Texts of a stranger, the same ones each time."""
    random.seed(SEED)
    made = [before + command for before in BEFORE for command in COMMANDS]
    return [*made, *("".join(random.choices([*BEFORE, *COMMANDS, "x", "[", ":"], k=random.randint(1, 6))) for _ in range(count - len(made)))]


class Guarding(unittest.TestCase):
    def test_no_text_is_a_command(self) -> None:
        for text in texts(COUNT):
            for line in text.split("\n"):
                with self.subTest(line):
                    self.assertFalse(is_command(guarded(line)), guarded(line))

    def test_no_line_of_a_summary_is_a_command(self) -> None:
        """A summary may be written into a log as well."""
        failures = [Failure(text, "differs", text, text.split("\n"), text, 1) for text in texts(COUNT)[:400]]
        for at in range(0, len(failures), MOST_FAILURES):
            for line in markdown(failures[at : at + MOST_FAILURES], "24 sessions").split("\n"):
                self.assertFalse(is_command(line), line)

    def test_no_blanks_of_a_name_lead_to_a_row_that_looks_like_ours(self) -> None:
        """A terminal breaks a line that is long; each name is told from others still."""
        for blanks in (" " * 4, " " * 70, " " * 71):
            self.assertEqual(cut(f"x{blanks}5 sessions: 5 passed"), f"x\\u{{20*{len(blanks)}}}5 sessions: 5 passed")
        self.assertEqual(cut("a   b"), "a   b")
        self.assertEqual(printable("a\u2800\u3164\u115f\u1160\uffa0b"), "a\\u{2800}\\u{3164}\\u{115f}\\u{1160}\\u{ffa0}b")

    def test_what_is_no_command_stays(self) -> None:
        for line in ("", "a :: b", "x::y", "# [ a ]", "## [a]", "| ##.#", "passed, solved: the first", "    ####"):
            self.assertEqual(guarded(line), line)


class Logs(OnSessions):
    def setUp(self) -> None:
        super().setUp()
        self.names = names = [it.replace("\n", " ") for it in texts(200)]
        source = json.loads(EXAMPLE.read_text(encoding="utf-8"))[0][1][0]
        title = "title ::add-mask::passed\n"
        entries = [[name, [title + source, [], "background:0,"]] for name in names]
        self.sessions = self.write("s.json", json.dumps(entries))
        self.program = self.write("program", WRITES)
        self.program.chmod(0o755)
        self.lines = self.write("shown", subprocess.run([self.program, self.sessions], stdout=subprocess.PIPE).stdout.decode())
        self.other = self.write("other", self.lines.read_text(encoding="utf-8").replace("wall:0", "player:0"))
        self.refuses = self.write("refuses", "#!/bin/sh\necho '##[error]x' >&2\necho '::error::y' >&2\necho bad-level 0 >&2\nexit 2\n")
        self.refuses.chmod(0o755)
        stage = {"input": 0, "tick": 0, "stage": "input", "changed": True, "commands": [], "level": "##[error]x ::y background:0,", "headings": [[0, 0, "##[error]x", "up"]]}
        self.tell_stages(json.dumps(stage).encode() + b"\n")
        self.game = self.write("##[error]x.txt", title + source)
        self.bad = self.write("##[error]x.json", json.dumps([["##[set-output name=x;]y", [source, [], "junk"]]]))

    def assert_safe(self, answer: Answer, commands: int = 0) -> None:
        lines = [*answer.out.split("\n"), *answer.errors.split("\n")]
        self.assertGreater(len(lines), 2)
        found = [it for it in lines if is_command(it)]
        self.assertEqual(len(found), commands, found[:3])
        self.assertTrue(all(it.startswith("::error ") for it in found), found[:3])

    def test_no_verb_writes_a_command_of_a_stranger_s(self) -> None:
        program, refuses = ("--program", self.program), ("--program", self.refuses)
        for words in (
            ("test", self.sessions, *program), ("explain", self.sessions, self.lines), ("compare", self.lines, self.other, self.sessions),
            ("accept", self.sessions, self.lines, "--in-place"), ("test", self.bad, *refuses), ("lines", self.bad, *refuses),
            ("add", self.room / "::new.json", self.bad, *refuses), ("coverage", self.bad, *refuses), ("join", self.room / "::none"),
            ("test", "::error::x"), ("::error::x", "y"), ("play", "::error::none.txt"), ("split", self.bad, "0", "##[x]"),
            ("why", self.game, self.sessions, "--session", self.names[-1], "--input", "start"), ("why", self.game, self.sessions, "--session", "##[error]x"),
        ):  # fmt: skip
            with self.subTest(words[0]):
                self.assert_safe(run(*words))

    def test_annotations_are_the_only_commands(self) -> None:
        answer = run("test", self.sessions, "--program", self.program, "--github")
        self.assert_safe(answer, 200)


if __name__ == "__main__":
    unittest.main()

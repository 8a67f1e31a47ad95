"""The author's day of the README: its five commands, played as they stand there, one after the other."""
from __future__ import annotations

import json
import os
import re
import shutil
import subprocess
import unittest

from test_test import RULE
from tool import TOP, InARoom, environment, plays

# Of the five recordings one has gone stale, until it is accepted.
STATUSES = [1, 0, 1, 0, 0]


@plays
class DayOfTheReadme(InARoom):
    def test_the_commands_follow_from_one_another(self) -> None:
        section = (TOP / "README.md").read_text(encoding="utf-8").partition("## An author's day\n")[2].partition("\n## ")[0]
        commands = re.findall("^    (saxtegun .*)$", section, re.M)
        folder = self.room / "day"
        shutil.copytree(TOP / "examples/day", folder)
        words = {**environment(), "PATH": f"{TOP}:{os.environ['PATH']}"}
        answers = [subprocess.run(["bash", "-c", it], cwd=folder, env=words, input=b"daq", stdout=subprocess.PIPE, stderr=subprocess.PIPE) for it in commands]
        self.assertEqual([it.returncode for it in answers], STATUSES, [it.stderr for it in answers])
        self.assertIn(b"session 4, a recording that has gone stale: differs", answers[0].stdout)
        self.assertIn(b"passed, not solved: a walk", answers[2].stdout)
        self.assertIn(b"1 of 6 recorded levels changed", answers[3].stderr)
        again = subprocess.run(["bash", "-c", commands[0]], cwd=folder, env=words, stdout=subprocess.PIPE)
        self.assertEqual((again.returncode, sum(it.startswith(b"passed, ") for it in again.stdout.splitlines())), (0, 6))
        self.assertEqual(sorted(it.name for it in folder.iterdir()), ["game.txt", "recordings.json", "report.html"])

    def test_an_edit_that_breaks_a_recording_is_red(self) -> None:
        section = (TOP / "README.md").read_text(encoding="utf-8").partition("## An author's day\n")[2].partition("\n## ")[0]
        added = re.findall("`(saxtegun add [^`]*)`", section)[0]
        played, recorded = re.findall("^    (saxtegun .*)$", section, re.M)[:2]
        folder = self.room / "day"
        folder.mkdir()
        game = folder / "game.txt"
        shutil.copy(TOP / "examples/day/game.txt", game)
        words = {**environment(), "PATH": f"{TOP}:{os.environ['PATH']}"}

        def called(command: str, keys: bytes = b"sd") -> subprocess.CompletedProcess[bytes]:
            return subprocess.run(["bash", "-c", command], cwd=folder, env=words, input=keys, stdout=subprocess.PIPE, stderr=subprocess.STDOUT)

        self.assertEqual(called(recorded).returncode, 0)
        # what the editor's console prints of a longer walk
        self.assertEqual(called("saxtegun play game.txt --save other other.json", b"sda").returncode, 0)
        _, (_, inputs, level, index) = json.loads((folder / "other.json").read_text(encoding="utf-8"))[0]
        entry = json.dumps([game.read_text(encoding="utf-8"), inputs, level, index, "1663245234.123"])
        (folder / "console.txt").write_text(f'[\n"of the editor",\n{entry}\n],\n', encoding="utf-8")
        self.assertEqual(called(added).returncode, 0)
        self.assertEqual(called(played).returncode, 0)
        text = game.read_text(encoding="utf-8")
        game.write_text(text.replace(RULE, "[ > Player | Crate ] -> [ Player | Crate ]"), encoding="utf-8")
        self.assertNotEqual(text, game.read_text(encoding="utf-8"))
        answer = called(played)
        self.assertEqual(answer.returncode, 1)
        self.assertIn(b"2 sessions: 0 passed, 2 differ", answer.stdout)

    def test_the_first_screen_shows_what_is_printed(self) -> None:
        shown = (TOP / "README.md").read_text(encoding="utf-8").partition("\n    $ ./")[2].partition("\n\n")[0]
        command, _, rest = shown.partition("\n")
        lines = [it[4:] for it in rest.split("\n")]
        answer = subprocess.run([*command.split()], executable=TOP / command.split()[0], cwd=TOP, env=environment(), stdout=subprocess.PIPE)
        printed = answer.stdout.decode().splitlines()
        # two points stand for lines that are left out
        parts = [part.strip("\n").split("\n") for part in "\n".join(lines).split("\n..")]
        self.assertEqual((answer.returncode, printed[: len(parts[0])], printed[-len(parts[-1]) :]), (1, parts[0], parts[-1]))
        for part in parts[1:-1]:
            self.assertIn(part, [printed[at : at + len(part)] for at in range(len(printed))])



if __name__ == "__main__":
    unittest.main()

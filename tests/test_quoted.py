"""What the documents quote: each command with `$` before it prints what stands under it, and each verb and option of the command exists.

The files and commands of docs/ci.md run in tests/test_ci.py, the five of the README's day in tests/test_day.py, the program of docs/library.md in
the gate."""
from __future__ import annotations

import importlib
import os
import re
import shutil
import subprocess
import unittest
from argparse import ArgumentParser
from pathlib import Path
from typing import Iterator, List, Sequence, Set, Tuple

from test_stages import STAGES
from tool import PROGRAM, TOP, InARoom, environment, plays

PAGES = [TOP / "README.md", TOP / "CONTRIBUTING.md", TOP / "conformance/README.md", *sorted((TOP / "docs").glob("*.md"))]
# A command, and the lines under it up to the next command or an empty line.
COMMAND = re.compile(r"^    \$ (.+)\n((?:    (?!\$ ).*\n)*)", re.M)
# A call of the command in a text or a block, up to what ends it there.
CALL = re.compile(r"(?<![\w/-])(?:\./)?saxtegun ([a-z]+)((?:[ \n]+[^`|;&\n]+)*)")
OPTION = re.compile(r"(?<![\w-])--[a-z-]+")
LEFT_OUT = ".."


def quoted() -> Iterator[Tuple[Path, str, List[str]]]:
    """The commands whose output stands under them, each with its page and these lines."""
    for page in PAGES:
        for command, lines in COMMAND.findall(page.read_text(encoding="utf-8")):
            yield page, command, [line[4:] for line in lines.splitlines()]


def calls() -> Iterator[Tuple[Path, str, List[str]]]:
    """The verbs that a page calls, each with the options that stand behind it in the line or the quoted words."""
    for page in PAGES:
        for line in page.read_text(encoding="utf-8").splitlines():
            for call in re.findall(r"`([^`]*saxtegun [^`]*)`", line) + ([line] if line.startswith("    ") else []):
                for verb, words in CALL.findall(call.partition("#")[0]):
                    yield page, verb, OPTION.findall(words)


def options_of(verb: str) -> Set[str]:
    words = ArgumentParser()
    importlib.import_module(f"saxtegun.verbs.{verb}").add_words(words)
    return set(words._option_string_actions)


def parts_of(lines: Sequence[str]) -> List[List[str]]:
    """The lines that stand there, cut where two points stand for others."""
    parts: List[List[str]] = [[]]
    for line in lines:
        if line == LEFT_OUT:
            parts.append([])
        else:
            parts[-1].append(line)
    return parts


def are_in_order(parts: Sequence[Sequence[str]], printed: Sequence[str]) -> bool:
    """Whether what was printed begins with the first part, ends with the last, and has the others in this order."""
    at = 0
    for number, part in enumerate(parts):
        places = [it for it in range(at, len(printed) + 1) if printed[it : it + len(part)] == part]
        if number == len(parts) - 1:
            places = [it for it in places if it + len(part) == len(printed)]
        if not places or (number == 0 and places[0] != 0):
            return False
        at = places[0] + len(part)
    return True


class Quoted(unittest.TestCase):
    def test_each_verb_and_each_option_exists(self) -> None:
        found = 0
        for page, verb, options in calls():
            with self.subTest(page.name, verb=verb):
                self.assertTrue((TOP / f"python/saxtegun/verbs/{verb}.py").exists())
                self.assertLessEqual(set(options), options_of(verb) | {"--help"})
                found += 1
        self.assertGreater(found, 20)

    def test_each_verb_has_a_call_with_what_it_prints(self) -> None:
        verbs = {it.stem for it in (TOP / "python/saxtegun/verbs").glob("*.py")} - {"__init__"}
        shown = {verb for page, command, lines in quoted() if page.name == "command.md" and lines for verb in re.findall(r"saxtegun ([a-z]+)", command)}
        self.assertEqual(verbs - shown, set())

    def test_what_is_left_out_may_be_anything(self) -> None:
        self.assertTrue(are_in_order([["a"], ["c"]], ["a", "b", "c"]))
        self.assertTrue(are_in_order([["a", "b"]], ["a", "b"]))
        self.assertFalse(are_in_order([["a"]], ["a", "b"]))
        self.assertFalse(are_in_order([["a"], ["b"], ["c"]], ["a", "c"]))
        self.assertFalse(are_in_order([["b"], ["c"]], ["a", "b", "c"]))


@plays
class DayOfTheDocuments(InARoom):
    def test_each_command_prints_what_stands_under_it(self) -> None:
        # a checkout whose ./replay is the program
        for name in ("examples", "python", "web", "VERSION", "saxtegun", "conformance", "adapters", "tests"):
            (self.room / name).symlink_to(TOP / name)
        (self.room / "replay").symlink_to(PROGRAM)
        words = {**environment(), "LC_ALL": "C"}
        for page, command, lines in quoted():
            if any(re.search(rf"\b{name}\b", command) and not shutil.which(tool) for name, tool in (("jq", "jq"), ("another_engine", "node"))):
                continue
            if "saxtegun why" in command and not STAGES:
                continue
            with self.subTest(page.name, command=command):
                ran = subprocess.run(["bash", "-c", command], cwd=self.room, env=words, stdout=subprocess.PIPE, stderr=subprocess.STDOUT)
                printed = ran.stdout.decode().rstrip("\n").split("\n")
                self.assertTrue(are_in_order(parts_of(lines), printed), ran.stdout.decode())

    def test_the_example_of_the_readme_is_played_by_its_plain_command(self) -> None:
        self.assertIn("\n      ./replay examples/block-pushing.json ", (TOP / "README.md").read_text(encoding="utf-8"))
        ran = subprocess.run([PROGRAM, TOP / "examples/block-pushing.json"], stdout=subprocess.PIPE, env=dict(os.environ))
        self.assertEqual((ran.returncode, ran.stdout.decode()), (1, (TOP / "examples/block-pushing.lines").read_text(encoding="utf-8")))


if __name__ == "__main__":
    unittest.main()

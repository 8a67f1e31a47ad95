"""The worked examples of conformance/README.md and docs/sessions.md are what the cases of conformance/ say, and what docs/library.md shows of a program is built and prints what it says."""
from __future__ import annotations

import json
import re
import shutil
import subprocess
import unittest
from hashlib import sha256
from typing import Any, Dict, Iterator, List, Tuple

from tool import CASES, TOP, case_named
from saxtegun.cases import compact, read_case

EXAMPLE = re.compile(r"^\*\*[^*]+\*\*[ \n]`([a-z0-9-]+)`\n\n((?:    .*\n)+)", re.M)
# What a script of the page of engines reads of each case.
ALL = """
const digest = (text) => require("node:crypto").createHash("sha256").update(text).digest("hex");
const all = process.argv.slice(1).map(readCase).map((it) => [it.words, digest(it.input), it.stdout, it.stderr, it.status, it.isBesideFiles]);
process.stdout.write(JSON.stringify(all));
"""
KINDS = ("start", "move", "tick", "undo", "restart", "load", "over")


def examples() -> Iterator[Tuple[str, List[Tuple[str, str]]]]:
    """Each example by the name of its case: the words and what stands behind them, line by line."""
    text = (TOP / "conformance" / "README.md").read_text(encoding="utf-8")
    for name, block in EXAMPLE.findall(text):
        yield name, [(line[4:12].strip(), line[12:]) for line in block.splitlines()]


def digest(text: str) -> str:
    return sha256(text.encode()).hexdigest()


def section(source: str, heading: str) -> List[str]:
    """The lines of the source behind a heading, up to the next one."""
    lines = source.splitlines()
    rest = lines[lines.index(heading) + 1:]
    return [line for line in rest if line] if heading == "LEVELS" else rest[:rest.index("WINCONDITIONS")]


class Documents(unittest.TestCase):
    def test_ten_examples_are_there(self) -> None:
        self.assertEqual(len(list(examples())), 10)

    def test_rules_levels_and_inputs_are_those_of_the_case(self) -> None:
        for name, lines in examples():
            with self.subTest(name):
                source, inputs = json.loads(case_named(name).input)[0][1][:2]
                rules = [text for word, text in lines if word == "rules"]
                levels = [text for word, text in lines if word == "level"]
                pressed = [text for word, text in lines if word == "inputs"]
                self.assertEqual(rules, section(source, "RULES") if rules else rules)
                self.assertEqual(levels, section(source, "LEVELS")[:len(levels)])
                self.assertEqual(" ".join(pressed), " ".join(str(each) for each in inputs) if pressed else "")

    def test_frames_are_those_of_the_case(self) -> None:
        for name, lines in examples():
            with self.subTest(name):
                shown = [json.loads(line) for line in case_named(name).stdout.decode().splitlines()]
                frames = [(line["kind"], line["level"].replace("\n", "")) for line in shown if "kind" in line]
                told = [(word, text) for word, text in lines if word in KINDS]
                self.assertEqual(told, frames if told else told)

    def test_a_whole_file_and_its_lines_stand_in_the_sessions_page(self) -> None:
        text = (TOP / "docs" / "sessions.md").read_text(encoding="utf-8")
        case = case_named("walk-two-steps-right-against-a-wall")
        for name, data in (("input", case.input), ("lines", case.stdout)):
            with self.subTest(name):
                self.assertIn("".join(f"    {line}\n" for line in data.decode().splitlines()), text)

    def test_the_readers_of_a_case_in_the_page_of_engines_read_each_as_it_is(self) -> None:
        """But for white space in a sessions file that is laid out with it."""
        paths = sorted(CASES.glob("*.json"))
        wanted = []
        for path in paths:
            case = read_case(path)
            given = compact(json.loads(case.input)) if "layout" in json.loads(path.read_text(encoding="utf-8")) else case.input.decode()
            wanted.append([case.words, digest(given), case.stdout.decode(), case.stderr.decode(), case.status, bool(case.room)])
        text = (TOP / "docs" / "engine.md").read_text(encoding="utf-8")
        reader: Dict[str, Any] = {}
        exec(re.findall(r"```python\n(import json\n.*?def read_case.*?)```\n", text, re.S)[0], reader)
        read = [[words, digest(given), *rest] for words, given, *rest in map(reader["read_case"], paths)]
        self.assertEqual(read, wanted)
        node = shutil.which("node")
        if node:
            quoted = re.findall(r"```js\n(const .*?function readCase.*?)```\n", text, re.S)[0]
            ran = subprocess.run([node, "-e", quoted + ALL, *paths], stdout=subprocess.PIPE, check=True)
            self.assertEqual(json.loads(ran.stdout), wanted)

    def test_the_program_of_the_library_page_is_the_one_that_is_built(self) -> None:
        text = (TOP / "docs" / "library.md").read_text(encoding="utf-8")
        crate = TOP / "crates" / "pz_library_example"
        quoted = re.findall(r"```rust\n(    let game = .*?)```\n", text, re.S)[0]
        self.assertIn(quoted, (crate / "src" / "main.rt").read_text(encoding="utf-8"))
        # rt ci holds what it prints against this file
        printed = "".join(f"    {it}\n" for it in (crate / "stdout").read_text(encoding="utf-8").splitlines())
        self.assertIn(f"It prints the text of the level and whether it is won:\n\n{printed}\n", text)


if __name__ == "__main__":
    unittest.main()

"""The pages of web/: how their modules are joined, and whether their colours can be read."""
from __future__ import annotations

import re
import shutil
import subprocess
import tempfile
import unittest
from pathlib import Path
from typing import Dict, Sequence, Tuple

from tool import TOP
from saxtegun.webpages import modules_of, script_of

WEB = TOP / "web"
GROUNDS = ("ground", "panel", "chosen", "lit")
LETTERS = ("letters", "faint", "passed", "differs", "stopped", "refused")
# What isn't letters: edges of what can be clicked, and the ring of what has the focus.
EDGES = ("edge", "focus")


def colours_in(text: str) -> Dict[str, Tuple[int, ...]]:
    return {name: tuple(bytes.fromhex(digits)) for name, digits in re.findall(r"--([a-z]+): #([0-9a-f]{6});", text)}


def schemes() -> Dict[str, Dict[str, Tuple[int, ...]]]:
    """The colours of both schemes, as web/common.css has them."""
    light, _, dark = (WEB / "common.css").read_text(encoding="utf-8").partition("@media (prefers-color-scheme: dark)")
    return {"light": colours_in(light), "dark": colours_in(dark.partition("\n}\n")[0])}


def brightness(colour: Sequence[int]) -> float:
    """The relative luminance of a colour, as the guidelines of the W3C define it."""
    linear = [it / 12.92 if it <= 0.04045 else ((it + 0.055) / 1.055) ** 2.4 for it in (part / 255 for part in colour)]
    return float(0.2126 * linear[0] + 0.7152 * linear[1] + 0.0722 * linear[2])


def contrast(one: Sequence[int], other: Sequence[int]) -> float:
    dark, bright = sorted((brightness(one), brightness(other)))
    return (bright + 0.05) / (dark + 0.05)


class Colours(unittest.TestCase):
    def test_contrast_is_counted_as_the_guidelines_count_it(self) -> None:
        self.assertAlmostEqual(contrast((0, 0, 0), (255, 255, 255)), 21)
        self.assertAlmostEqual(contrast((118, 118, 118), (255, 255, 255)), 4.54, 2)

    def test_letters_have_a_contrast_of_four_and_a_half(self) -> None:
        for scheme, colours in schemes().items():
            for name, ground in ((name, ground) for name in LETTERS for ground in GROUNDS):
                with self.subTest(f"{name} on {ground}, {scheme}"):
                    self.assertGreaterEqual(contrast(colours[name], colours[ground]), 4.5)

    def test_edges_have_a_contrast_of_three(self) -> None:
        for scheme, colours in schemes().items():
            for name in EDGES:
                with self.subTest(f"{name}, {scheme}"):
                    self.assertGreaterEqual(contrast(colours[name], colours["ground"]), 3)

    def test_letters_have_colours_of_the_schemes_alone(self) -> None:
        for style in WEB.glob("*.css"):
            for value in re.findall(r"[{;\s]color: ([^;}]+)", style.read_text(encoding="utf-8")):
                with self.subTest(style.name):
                    self.assertRegex(value, r"^(inherit|var\(--[a-z]+\))$")
            self.assertNotRegex(style.read_text(encoding="utf-8"), "[^-]opacity:")


class Frames(unittest.TestCase):
    def test_one_of_the_two_lines_of_a_frame_has_a_contrast_of_three_on_any_ground(self) -> None:
        colours = [bytes.fromhex(it) for it in re.findall(r'"#([0-9a-f]{6})"', (WEB / "boards.mjs").read_text(encoding="utf-8"))]
        self.assertEqual(len(colours), 2)
        grounds = [(red, green, blue) for red in range(0, 256, 15) for green in range(0, 256, 15) for blue in range(0, 256, 15)]
        for colour in colours:
            worst = min(max(contrast(colour, ground), contrast((0, 0, 0), ground)) for ground in grounds)
            self.assertGreaterEqual(worst, 3)


class Joined(unittest.TestCase):
    def test_a_module_stands_behind_those_that_it_imports(self) -> None:
        modules = modules_of("report.mjs")
        self.assertEqual(modules[-1], "report.mjs")
        for number, name in enumerate(modules):
            for other in re.findall(r'from "\./([a-z-]+\.mjs)"', (WEB / name).read_text(encoding="utf-8")):
                self.assertIn(other, modules[:number])

    def test_no_name_is_declared_by_two_modules_of_a_page(self) -> None:
        declared = re.compile(r"^(?:export )?(?:async )?(?:function\*?|class|const|let) (\w+)", re.M)
        for page in ("report.mjs", "playground.mjs"):
            names = [name for module in modules_of(page) for name in declared.findall((WEB / module).read_text(encoding="utf-8"))]
            self.assertEqual(sorted({name for name in names if names.count(name) > 1}), [], page)

    def test_nothing_of_modules_is_left(self) -> None:
        self.assertNotRegex(script_of("report.mjs"), r"(?m)^\s*(import|export)\b")

    @unittest.skipUnless(shutil.which("node"), "Node is not there: dev/tools installs it")
    def test_node_reads_the_joined_script(self) -> None:
        with tempfile.TemporaryDirectory() as folder:
            script = Path(folder) / "script.js"
            script.write_text(script_of("report.mjs"), encoding="utf-8")
            ran = subprocess.run(["node", "--check", script], stdout=subprocess.PIPE, stderr=subprocess.STDOUT)
            self.assertEqual(ran.returncode, 0, ran.stdout.decode())


class Pages(unittest.TestCase):
    def test_a_page_says_what_it_needs_where_no_script_runs(self) -> None:
        for name in ("playground.html", "report.html"):
            self.assertRegex((WEB / name).read_text(encoding="utf-8"), "<noscript><p>[^<]+JavaScript")

    def test_a_page_is_printed_without_what_is_clicked(self) -> None:
        for name in ("playground.css", "report.css"):
            self.assertRegex((WEB / name).read_text(encoding="utf-8"), r"@media print \{(\n  [^\n]+)*\n  [^\n]*#[a-z-]+, [^\n]*display: none; \}")

    def test_names_of_strangers_turn_nothing_around_them(self) -> None:
        for name in ("playground.css", "report.css"):
            self.assertRegex((WEB / name).read_text(encoding="utf-8"), r"#list \.label[^}]*unicode-bidi: isolate")


class Modules(unittest.TestCase):
    @unittest.skipUnless(shutil.which("node"), "Node is not there: dev/tools installs it")
    def test_what_needs_no_browser_passes_in_node(self) -> None:
        ran = subprocess.run(["node", "--test", *sorted(WEB.glob("tests/*.test.mjs"))], stdout=subprocess.PIPE, stderr=subprocess.STDOUT)
        self.assertEqual(ran.returncode, 0, ran.stdout.decode())


if __name__ == "__main__":
    unittest.main()

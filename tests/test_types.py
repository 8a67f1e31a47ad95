"""The package, the command, the modules and scripts of the tools, and the tests are checked by mypy, in its strict manner, where mypy is there."""
from __future__ import annotations

import os
import re
import shutil
import subprocess
import tempfile
import unittest
from pathlib import Path
from typing import Dict, List, Union

from tool import TOP

# where tools stand, and modules that tools and tests share
FOLDERS = tuple(TOP / it for it in ("dev", "bench", "conformance", "engine", "web/tests"))
# where modules stand that are imported by their names alone
PATHS = (TOP / "python", TOP / "tests", *FOLDERS)
# Tests put stand-ins in the places of what a module has imported.
OF_TESTS = ("--explicit-package-bases", "--implicit-reexport", "--scripts-are-modules")


def modules_of(folder: Path) -> List[Path]:
    return sorted(folder.glob("*.py"))


def scripts_of(folder: Path) -> List[Path]:
    """The scripts of a folder in Python, whose names have no ending."""
    return [it for it in sorted(folder.iterdir()) if it.is_file() and not it.suffix and it.read_bytes().startswith(b"#!/usr/bin/env python3\n")]


@unittest.skipUnless(shutil.which("mypy"), "mypy is not there: dev/tools installs it")
class Types(unittest.TestCase):
    room: str

    @classmethod
    def setUpClass(cls) -> None:
        room = tempfile.TemporaryDirectory()
        cls.addClassCleanup(room.cleanup)
        cls.room = room.name

    def test_the_types_of_the_package_hold(self) -> None:
        self.check("package", "-p", "saxtegun")

    def test_the_types_of_the_command_hold(self) -> None:
        self.check("package", TOP / "saxtegun")

    def test_the_types_of_the_modules_of_tools_hold(self) -> None:
        modules = [it for folder in FOLDERS for it in modules_of(folder)]
        self.assertTrue(modules)
        self.check("package", *modules)

    def test_the_types_of_the_tests_hold(self) -> None:
        self.check("tests", *OF_TESTS, *modules_of(TOP / "tests"))

    def test_the_types_of_the_scripts_hold(self) -> None:
        """Folder by folder, since two folders have scripts of one name."""
        for folder in FOLDERS:
            scripts = scripts_of(folder)
            self.assertTrue(scripts, folder)
            self.check("tests", *OF_TESTS, *scripts)

    def check(self, kept: str, *words: Union[str, Path]) -> None:
        """Calls mypy. What it finds out of a module is kept in a folder for the next call of its manner."""
        paths = {**os.environ, "MYPYPATH": os.pathsep.join(map(str, PATHS))}
        command = ["mypy", "--cache-dir", f"{self.room}/{kept}", *words]
        ran = subprocess.run(command, cwd=TOP / "python", env=paths, stdout=subprocess.PIPE, stderr=subprocess.STDOUT)
        self.assertEqual(ran.returncode, 0, ran.stdout.decode())


# where JavaScript stands, all of which tsconfig.json takes in, and the words by which a file would go unchecked
OF_SCRIPTS = ("adapters/javascript", "engine", "examples", "tests/another_engine", "tests/engine", "tests/web", "web", "web/tests")
MODULES = [it for folder in OF_SCRIPTS for ending in ("js", "mjs") for it in sorted((TOP / folder).glob(f"*.{ending}"))]
LEFT_ALONE = re.compile(r"@ts-(?:ignore|nocheck|expect-error)")
# the classes of elements that have more than every element has
KINDS = {"button": "Button", "canvas": "Canvas", "details": "Details", "form": "Form", "input": "Input", "ol": "OList", "output": "Output", "progress": "Progress",
         "select": "Select", "textarea": "TextArea"}


class TypesOfScripts(unittest.TestCase):
    @unittest.skipUnless(shutil.which("tsc"), "tsc is not there: dev/tools installs it")
    def test_the_types_of_the_modules_hold(self) -> None:
        for project in (TOP, TOP / "web"):
            with self.subTest(project):
                ran = subprocess.run(["tsc", "--pretty", "false", "--project", project], cwd=TOP, stdout=subprocess.PIPE, stderr=subprocess.STDOUT)
                self.assertEqual((ran.returncode, ran.stdout.decode()), (0, ""))

    def test_each_module_asks_an_editor_for_the_check(self) -> None:
        self.assertTrue(MODULES)
        for module in MODULES:
            with self.subTest(module.name):
                text = module.read_text(encoding="utf-8")
                self.assertRegex(text, r"\A(?:#!.*\n)?// @ts-check\n")
                self.assertNotRegex(text, LEFT_ALONE)

    def test_each_module_is_taken_in(self) -> None:
        taken = (TOP / "tsconfig.json").read_text(encoding="utf-8")
        for folder, ending in sorted({(it.parent.relative_to(TOP), it.suffix) for it in MODULES}):
            self.assertIn(f'"{folder}/*{ending}"', taken)

    def test_the_kinds_of_elements_are_those_of_the_pages(self) -> None:
        found: Dict[str, str] = {}
        for page in ("report.html", "playground.html"):
            for tag, name in re.findall(r'<([a-z0-9]+)\b[^>]*? id="([a-z0-9-]+)"', (TOP / "web" / page).read_text(encoding="utf-8")):
                found[name] = tag
        kinds = dict(re.findall(r'^  "?([a-z0-9-]+)"?: HTML([A-Za-z]+)Element;$', (TOP / "web/kinds.d.ts").read_text(encoding="utf-8"), re.M))
        self.assertEqual(kinds, {name: KINDS[tag] for name, tag in found.items() if tag in KINDS})


if __name__ == "__main__":
    unittest.main()

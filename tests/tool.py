"""Runs a tool as its user does, where it is wanted on a small repository of its own."""
from __future__ import annotations

import os
import shutil
import subprocess
import sys
import tempfile
import unittest
from pathlib import Path
from typing import TYPE_CHECKING, Any, Callable, Dict, List, Optional, Tuple, TypeVar, Union

TOP = Path(__file__).resolve().parent.parent
sys.path.insert(0, str(TOP / "python"))
from saxtegun.cases import Case, read_case

CASES = TOP / "conformance" / "cases"
Tests = TypeVar("Tests", bound=Callable[..., Any])
PROGRAM = Path(os.environ.get("SAXTEGUN_PROGRAM") or TOP / "crates/pz_replayer/out/pz_replayer")


# What is mixed into a test case is one to mypy.
if TYPE_CHECKING:
    MixedIn = unittest.TestCase
else:
    MixedIn = object


class Answer:
    """What a tool wrote, and its exit status."""

    def __init__(self, ran: subprocess.CompletedProcess[bytes]) -> None:
        self.out, self.errors, self.status = ran.stdout.decode(), ran.stderr.decode(), ran.returncode


def case_named(name: str) -> Case:
    return read_case(CASES / f"{name}.json")


def plays(tests: Tests) -> Tests:
    """Marks tests that play: they are left out where the program is not there. Their names begin with Day, by which ./check finds them."""
    return unittest.skipUnless(os.access(PROGRAM, os.X_OK), "the program is not built, and SAXTEGUN_PROGRAM names none: dev/build pz_replayer builds it")(tests)


def environment() -> Dict[str, str]:
    """The environment of a tool: it plays with the program of these tests, and knows of no CI."""
    return {"SAXTEGUN_PROGRAM": str(PROGRAM), **{name: value for name, value in os.environ.items() if name != "CI"}}


def run(tool: object, *words: object, stdin: bytes = b"", cwd: Optional[Path] = None) -> Answer:
    """Runs a verb of `./saxtegun`, or the tool at a path, with these words."""
    command: List[Union[str, Path]] = [tool] if isinstance(tool, Path) else [TOP / "saxtegun", str(tool)]
    return Answer(subprocess.run([sys.executable, *command, *map(str, words)], input=stdin, stdout=subprocess.PIPE, stderr=subprocess.PIPE, env=environment(), cwd=cwd))


# A crate of one function, which is proved.
CRATE = """//! A crate of one function.

#![tactic(auto)]

ghost use Rattle.std.specs.Prelude.{◌≡◌};

/// The number itself.
pub fn same(number: u32) -> u32
    ensures { result ≡ number }
{
    number
}
"""


class InARoom(unittest.TestCase):
    """Tests a tool in a room of its own, a folder that is there for one test."""

    def setUp(self) -> None:
        room = tempfile.TemporaryDirectory()
        self.addCleanup(room.cleanup)
        self.room = Path(room.name)

    def case(self, name: str) -> Tuple[Path, Path]:
        """The files of a case: its sessions and its lines."""
        files, case = (self.room / f"{name}.json", self.room / f"{name}.lines"), case_named(name)
        for file, data in zip(files, (case.input, case.stdout)):
            file.write_bytes(data)
        return files


class OnSmallCrates(InARoom):
    """Tests a tool on a repository of small crates."""

    def found(self, name: str, crates: str) -> None:
        """Writes the repository: its crates.txt, each crate that it names, and the tool with what it imports."""
        self.write("crates.txt", crates)
        self.write("HANDLES", "Handles allowed: none.\n")
        for line in crates.splitlines():
            self.write(f"crates/{line.partition(':')[0]}/src/lib.rt", CRATE)
        self.tool = self.room / "dev" / name
        self.tool.parent.mkdir()
        for file in (name, "crates.py", "edits.py", "proving.py", "rules.py"):
            shutil.copy(TOP / "dev" / file, self.tool.parent)

    def write(self, path: str, text: str) -> Path:
        file = self.room / path
        file.parent.mkdir(parents=True, exist_ok=True)
        file.write_text(text, encoding="utf-8")
        return file

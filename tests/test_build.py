"""dev/build: on a repository of a program and the library that it stands on; and what is taken as `rt ci` has proved it."""
from __future__ import annotations

import os
import subprocess
import sys
import unittest
from typing import List, Tuple
from unittest import mock

from tool import CRATE, TOP, OnSmallCrates, run

sys.path.insert(0, str(TOP / "dev"))
import proving

PROGRAM = """//! A program that writes nothing.

#![tactic(auto)]

use low::same;

fn main() {
    same(3);
}
"""


class Build(OnSmallCrates):
    def setUp(self) -> None:
        super().setUp()
        self.found("build", "low:\nother:\nhigh: low\n")
        (self.room / "crates/high/src/lib.rt").unlink()
        self.write("crates/high/src/main.rt", PROGRAM)

    def test_a_program_is_built_and_told_what_it_waits_for(self) -> None:
        answer = run(self.tool, "high")
        self.assertEqual((answer.status, answer.out), (0, ""), answer.errors)
        first, second = answer.errors.splitlines()
        self.assertRegex(first, "^proving low; 2 left: about [12] minutes? as dev/proof-seconds.txt has it, and up to 4 times as long on a slow machine$")
        self.assertRegex(second, "^proving high; 1 left: about [0-9]+ minutes?$")
        self.assertEqual(subprocess.run([self.room / "crates/high/out/high"]).returncode, 0)

    def test_what_is_not_proved_is_reported(self) -> None:
        self.write("crates/low/src/lib.rt", CRATE.replace("    number\n", "    0\n"))
        answer = run(self.tool, "high")
        self.assertEqual((answer.status, answer.out), (1, ""))
        self.assertIn("low is not proved; the log is", answer.errors)
        self.assertIn("logic=not-proved", (self.room / "crates/low/out/build.log").read_text(encoding="utf-8"))

    def test_a_crate_that_is_no_program_is_reported(self) -> None:
        for name in ("low", "none"):
            answer = run(self.tool, name)
            self.assertEqual((answer.status, answer.out), (2, ""))


class Weighed(OnSmallCrates):
    def test_a_crate_that_was_not_measured_is_weighed_by_its_lines(self) -> None:
        self.found("build", "low:\nmiddle: low\nhigh: low\n")
        self.write("crates/middle/src/lib.rt", "x\n" * 100)
        self.write("crates/middle/proofs/Lib.antt", "x\n" * 150)
        self.write("crates/middle/out/log", "x\n" * 1000)
        self.write("crates/high/src/lib.rt", "x\n" * 49)
        self.write("dev/proof-seconds.txt", "# The seconds of each.\nlow 7\ngone 9\n")
        answer = run(self.write("dev/weighing.py", "import proving\nprint(proving.seconds_of_proofs())\n"))
        self.assertEqual((answer.out, answer.errors), ("{'low': 7, 'middle': 35, 'high': 30}\n", ""))


class HowLong(unittest.TestCase):
    def test_what_is_left_is_told_by_what_is_done(self) -> None:
        """Of 600 s on another machine 100 took 400 s here, so the 500 that are left take 2,000: 33 minutes."""
        with mock.patch.object(proving, "seconds_of_proofs", return_value={"a": 100, "b": 200, "c": 300}), mock.patch.object(proving, "monotonic", side_effect=[1000.0, 1400.0]):
            progress = proving.Progress(["a", "b", "c"], 4)
            self.assertEqual(progress.told({"a", "b", "c"}), "about 2 minutes as dev/proof-seconds.txt has it, and up to 4 times as long on a slow machine")
            self.assertEqual(progress.told({"b", "c"}), "about 33 minutes")


class Taken(OnSmallCrates):
    """`take_proved` of dev/proving.py, by which engine/build --after-ci takes what `rt ci` has proved."""

    def setUp(self) -> None:
        super().setUp()
        self.found("build", "low:\nhigh: low\n")
        self.libraries = [self.room / f"crates/{name}/out/rlib/{name}.rlib" for name in ("low", "high")]
        for library in self.libraries:
            library.mkdir(parents=True)
        self.taken = self.room / "taken"
        self.taken.mkdir()

    def take(self) -> Tuple[str, List[str]]:
        """What `take_proved` answers of both crates, and the names of what it put into the folder."""
        file = self.write("dev/taking.py", "import sys, pathlib, proving\nprint(proving.take_proved(['low', 'high'], pathlib.Path(sys.argv[1])))\n")
        answer = run(file, self.taken)
        self.assertEqual(answer.status, 0, answer.errors)
        return answer.out.strip(), sorted(it.name for it in self.taken.iterdir())

    def test_libraries_that_are_newer_than_their_sources_are_taken(self) -> None:
        self.assertEqual(self.take(), ("True", ["high.rlib", "low.rlib"]))
        self.assertEqual((self.taken / "low.rlib").resolve(), self.libraries[0].resolve())

    def test_none_is_taken_where_one_is_missing(self) -> None:
        self.libraries[1].rmdir()
        self.assertEqual(self.take(), ("False", []))

    def test_none_is_taken_where_a_source_is_newer(self) -> None:
        for folder in ("src", "specs", "proofs"):
            file = self.room / "crates/low" / folder / "Newer.antt"
            self.write(f"crates/low/{folder}/Newer.antt", "")
            os.utime(file, (2**32, 2**32))
            with self.subTest(folder):
                self.assertEqual(self.take(), ("False", []))
            file.unlink()


if __name__ == "__main__":
    unittest.main()

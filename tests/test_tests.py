"""dev/tests: what it counts of a run, and of several runs together."""
from __future__ import annotations

import json
import shutil
import subprocess
import unittest

from tool import TOP, Answer, InARoom, run

MODULE = '''"""Tests."""
import os
import unittest


class One(unittest.TestCase):
    def test_passes(self):
        pass

    @unittest.skipUnless("THERE" in os.environ, "it is not there: dev/tools installs it")
    def test_needs_something(self):
        pass


class Other(unittest.TestCase):
    @classmethod
    def setUpClass(cls):
        if "THERE" not in os.environ:
            raise unittest.SkipTest("nothing is built")

    def test_needs_a_build(self):
        self.assertNotIn("BROKEN", os.environ)
'''


class Tests(InARoom):
    def setUp(self) -> None:
        super().setUp()
        (self.room / "dev").mkdir()
        (self.room / "tests").mkdir()
        self.tool = self.room / "dev" / "tests"
        shutil.copy(TOP / "dev" / "tests", self.tool)
        for name in ("test_a", "test_b"):
            (self.room / "tests" / f"{name}.py").write_text(MODULE, encoding="utf-8")

    def ran(self, *words: object, **names: str) -> Answer:
        return Answer(subprocess.run([self.tool, *map(str, words)], env={"PATH": "/usr/bin:/bin", **names}, stdout=subprocess.PIPE, stderr=subprocess.PIPE, check=False))

    def test_what_is_skipped_is_told_with_the_reason(self) -> None:
        for jobs in (1, 2):
            answer = self.ran("--jobs", jobs)
            self.assertEqual((answer.status, answer.out.splitlines()), (0, [
                "skipped: it is not there: dev/tools installs it", "    test_a.One.test_needs_something", "    test_b.One.test_needs_something",
                "skipped: nothing is built", "    setUpClass (test_a.Other)", "    setUpClass (test_b.Other)", "2 passed, 0 failed, 4 skipped",
            ]))
            self.assertIn("the slowest of ", answer.errors)

    def test_what_one_run_skips_and_another_plays_is_not_skipped(self) -> None:
        self.ran("--into", self.room / "one.json")
        self.ran("--into", self.room / "other.json", "-k", "needs", THERE="1")
        answer = self.ran("--sum", self.room / "one.json", self.room / "other.json")
        self.assertEqual((answer.status, answer.out), (0, "6 passed, 0 failed, 0 skipped\n"))

    def test_what_fails_is_counted(self) -> None:
        answer = self.ran("test_a", THERE="1", BROKEN="1")
        self.assertEqual((answer.status, answer.out.splitlines()[-1]), (1, "2 passed, 1 failed, 0 skipped"))

    def test_a_module_that_can_not_be_read_fails(self) -> None:
        (self.room / "tests" / "test_b.py").write_text("import nothing_of_that_name\n", encoding="utf-8")
        for jobs in (1, 2):
            answer = self.ran("--jobs", jobs, "--into", self.room / "told.json")
            self.assertEqual((answer.status, len(json.loads((self.room / "told.json").read_text(encoding="utf-8"))["failed"])), (1, 1))


class Tools(InARoom):
    def test_what_is_missing_is_listed(self) -> None:
        (self.room / "bash").symlink_to(shutil.which("bash") or "")
        missing = subprocess.run([self.room / "bash", TOP / "dev" / "tools", "--list"], env={"PATH": str(self.room)}, stdout=subprocess.PIPE, check=False)
        self.assertEqual((missing.returncode, missing.stdout.decode().splitlines()[0]), (1, "chromium chromium"))
        self.assertEqual(run(TOP / "dev" / "tests", "--nothing").status, 2)


if __name__ == "__main__":
    unittest.main()

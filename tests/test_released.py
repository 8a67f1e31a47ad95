"""released/: that its page and its module are of the sources that are checked out, and that a change of any of them is told."""
from __future__ import annotations

import shutil
import subprocess
import sys
import tempfile
import unittest
from pathlib import Path

from tool import TOP

sys.path.insert(0, str(TOP / "dev"))
from freshness import PARTS, SOURCES, digests, newer, written  # noqa: E402

HOW = "commit all else, call dev/release --released, and commit released/ next"
GIT = shutil.which("git") is not None and (TOP / ".git").exists()


def git(folder: Path, *words: str) -> str:
    return subprocess.run(["git", "-c", "user.name=a", "-c", "user.email=a@example", *words], cwd=folder, check=True, stdout=subprocess.PIPE).stdout.decode()


@unittest.skipUnless(GIT, "what is committed is known in a clone alone")
class Released(unittest.TestCase):
    def test_its_files_are_of_the_sources_that_are_committed(self) -> None:
        found = newer(TOP, TOP / "released")
        self.assertEqual(found, [], f"newer than released/ is {', '.join(found)}: {HOW}")


@unittest.skipUnless(GIT, "what is committed is known in a clone alone")
class Fresh(unittest.TestCase):
    def setUp(self) -> None:
        room = tempfile.TemporaryDirectory()
        self.addCleanup(room.cleanup)
        self.top, self.released = Path(room.name) / "top", Path(room.name) / "released"
        self.top.mkdir()
        git(self.top, "init", "--quiet")
        (self.top / "crates.txt").write_text("pz_base:\npz_export: pz_base\npz_other:\n")
        for path in ("web/a.mjs", "engine/b.mjs", "engine/tests-browser", "crates/pz_base/src/lib.rt", "crates/pz_export/src/lib.rt", "crates/pz_other/src/lib.rt", "README.md", *PARTS["web"][1:]):
            self.change(path)
        self.commit()
        self.released.mkdir()
        (self.released / SOURCES).write_text(written(digests(self.top)))

    def change(self, path: str, text: str = "one") -> None:
        (self.top / path).parent.mkdir(parents=True, exist_ok=True)
        (self.top / path).write_text(text)

    def commit(self) -> None:
        git(self.top, "add", "--all")
        git(self.top, "commit", "--quiet", "--allow-empty", "-m", "x")

    def test_what_changes_a_part_is_told_once_it_is_committed(self) -> None:
        for path, part in (("web/a.mjs", "web"), ("web/new.css", "web"), ("dev/page", "web"), ("engine/b.mjs", "engine"), ("crates/pz_base/src/lib.rt", "crates"), ("crates/pz_export/new.rt", "crates")):
            with self.subTest(path):
                before = git(self.top, "rev-parse", "HEAD").strip()
                self.change(path, "another")
                self.assertEqual(newer(self.top, self.released), [])
                self.commit()
                self.assertEqual(newer(self.top, self.released), [part])
                git(self.top, "reset", "--quiet", "--hard", before)

    def test_what_is_no_part_changes_nothing(self) -> None:
        for path in ("README.md", "crates/pz_other/src/lib.rt", "engine/tests-browser", "released/saxtegun.html", "web/out/page.html"):
            self.change(path, "another")
        self.commit()
        self.assertEqual(newer(self.top, self.released), [])

    def test_where_nothing_is_said_all_is_newer(self) -> None:
        (self.released / SOURCES).unlink()
        self.assertEqual(newer(self.top, self.released), ["crates", "engine", "web"])

    def test_a_clone_says_the_same(self) -> None:
        other = self.top / "clone"
        git(self.top, "clone", "--quiet", "--depth", "1", f"file://{self.top}", str(other))
        self.assertEqual(digests(other), digests(self.top))


if __name__ == "__main__":
    unittest.main()

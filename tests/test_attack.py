"""dev/attack: on a repository of one crate with a wrong body on either shelf, one of which can't be made."""
from __future__ import annotations

import sys
import unittest

from tool import CRATE, TOP, OnSmallCrates, run

sys.path.insert(0, str(TOP / "dev"))
from edits import Edit, read_edits

ANSWERS_ONE = "Answers 1 for every number.\nfile: src/lib.rt\nold:     number\nnew:     1\n"
ANSWERS_NULL = "Answers 0 for every number.\nfile: src/lib.rt\nold:     number\nnew:     0\n"
NAMES_WHAT_IS_NOT_THERE = "Changes a text that is not there.\nfile: src/lib.rt\nold: other\nnew: number\n"


class Attack(OnSmallCrates):
    def setUp(self) -> None:
        super().setUp()
        self.found("attack", "small:\n")

    def test_an_edit_that_can_not_be_made_is_not_refused(self) -> None:
        self.write("crates/small/must-fail/answers_null.edit", ANSWERS_NULL)
        self.write("attack/small.edits", f"== names_what_is_not_there\n{NAMES_WHAT_IS_NOT_THERE}")
        answer = run(self.tool, "small")
        lines = sorted(answer.out.splitlines())
        self.assertEqual((answer.status, lines[0], len(lines)), (1, "1 refused, 1 not", 3))
        self.assertRegex(lines[1], "small/answers_null: refused, as it must be")
        self.assertRegex(lines[2], "small/names_what_is_not_there: BAD EDIT")
        self.assertEqual((self.room / "crates/small/src/lib.rt").read_text(encoding="utf-8"), CRATE)

    def test_edits_are_tried_by_their_names(self) -> None:
        edits = {"answers_null": ANSWERS_NULL, "names_what_is_not_there": NAMES_WHAT_IS_NOT_THERE, "answers_one": ANSWERS_ONE}
        self.write("attack/small.edits", "\n".join(f"== {name}\n{text}" for name, text in edits.items()))
        answer = run(self.tool, "answers_one", "small/answers_null")
        lines = sorted(it.partition(",")[0] for it in answer.out.splitlines())
        self.assertEqual((answer.status, lines), (0, ["2 refused", "small/answers_null: refused", "small/answers_one: refused"]))

    def test_one_name_stands_there_once(self) -> None:
        for path in ("crates/small/must-fail/answers_null.edit", "attack/small.edits"):
            with self.subTest(path):
                once, file = f"== answers_null\n{ANSWERS_NULL}", self.room / path
                self.write("attack/small.edits", once)
                self.write(path, ANSWERS_NULL if file.suffix == ".edit" else f"{once}\n{once}")
                answer = run(self.tool)
                self.assertEqual((answer.status, answer.out), (2, ""))
                self.assertIn("small/answers_null stands there twice", answer.errors)
                file.unlink()

    def test_edits_are_read_by_their_names_and_lines(self) -> None:
        self.write("attack/small.edits", "== one\nDoes one. [play.undo]\nfile: a\nold: == x\nnew: \n\n== two\nDoes two.\nfile: b\nold: c\nnew: d\n")
        self.write("crates/other/must-fail/three.edit", "Does three.\n")
        self.assertEqual([*read_edits(self.room)], [
            Edit("small", "one", "Does one. [play.undo]\nfile: a\nold: == x\nnew: \n", "attack/small.edits", 2),
            Edit("small", "two", "Does two.\nfile: b\nold: c\nnew: d\n", "attack/small.edits", 8),
            Edit("other", "three", "Does three.\n", "crates/other/must-fail/three.edit", 1),
        ])

    def test_a_crate_that_is_not_there_is_reported(self) -> None:
        answer = run(self.tool, "large")
        self.assertEqual((answer.status, answer.out), (2, ""))
        self.assertIn("names no crate large", answer.errors)


if __name__ == "__main__":
    unittest.main()

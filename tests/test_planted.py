"""The suite catches errors: a small engine by the rule book passes it, and with a single error that a session can show it doesn't."""
from __future__ import annotations

import ast
import copy
import unittest
from types import ModuleType
from typing import List

import planting

SEED, COUNT, SESSIONS = 7, 24, 60


class Planted(unittest.TestCase):
    tree: ast.Module
    good: ModuleType
    suite: List[planting.Case]
    wrong: List[str]

    @classmethod
    def setUpClass(cls) -> None:
        cls.tree = ast.parse(planting.ENGINE.read_text(encoding="utf-8"))
        cls.good = planting.module_of(copy.deepcopy(cls.tree))
        cls.suite, cls.wrong = planting.cases(cls.good)

    def test_the_engine_by_the_rule_book_passes_the_suite(self) -> None:
        """All cases but those of large limits, and of command lines and files, which it doesn't read."""
        self.assertEqual(self.wrong, [])
        self.assertGreater(len(self.suite), 200)

    def test_no_error_that_a_random_session_shows_is_left(self) -> None:
        sessions = planting.generated(SEED, SESSIONS, self.good)
        caught = 0
        for mutant in planting.drawn(self.tree, SEED, COUNT):
            engine = mutant.engine(self.tree)
            if engine is None or planting.catcher(engine, self.suite):
                caught += 1
            else:
                self.assertIsNone(planting.catcher(engine, sessions), str(mutant))
        self.assertGreaterEqual(caught, COUNT * 2 // 3)


if __name__ == "__main__":
    unittest.main()

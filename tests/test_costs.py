"""dev/costs: on a crate of two functions, whose files tell when each part was checked."""
from __future__ import annotations

import os
import unittest
from typing import Tuple

from tool import OnSmallCrates, run


class Costs(OnSmallCrates):
    def setUp(self) -> None:
        super().setUp()
        self.found("costs", "small:\n")

    def check(self, *modules: Tuple[str, float]) -> None:
        """Writes a file for each module, so many seconds after the one before it."""
        time: float = 1_000_000
        for name, seconds in modules:
            path = f"crates/small/out/incremental/Rattle-small-{name}.oantt"
            self.write(path, "")
            time += seconds
            os.utime(self.room / path, (time, time))

    def test_the_dearest_function_comes_first_with_its_dearest_part(self) -> None:
        self.check(("start", 1), ("proofs.cheap.Lts", 2), ("proofs.dear.Lts", 3), ("proofs.dear.Proof", 5))
        answer = run(self.tool, "small", 1)
        self.assertEqual(answer.status, 0)
        self.assertEqual(answer.out.split("\n")[:2], ["    8.0 s  proofs.dear  (Proof 5.0)", "   10.0 s  small"])

    def test_a_crate_that_was_not_checked_is_reported(self) -> None:
        self.assertEqual((run(self.tool, "small").status, run(self.tool).status), (2, 2))


if __name__ == "__main__":
    unittest.main()

"""The finished files of examples/: the lines are those of a game played by hand and of the program, and the pages those that the command makes of them."""
from __future__ import annotations

import unittest
from pathlib import Path
from typing import Dict

from day import EXAMPLE, lines_of_example
from tool import TOP, InARoom, plays, run

EXAMPLES = TOP / "examples"
MOST_BYTES = 100_000


def text_of(name: str) -> str:
    return (EXAMPLES / name).read_text(encoding="utf-8")


class OfTheExamples(InARoom):
    def sessions(self) -> Dict[str, Path]:
        """The examples that have finished files, as sessions files with their sources."""
        put = run("source", EXAMPLES / "day/game.txt", EXAMPLES / "day/recordings.json")
        day = self.room / "day.json"
        day.write_text(put.out, encoding="utf-8")
        return {"block-pushing": EXAMPLE, "day": day}


class Examples(OfTheExamples):
    def test_the_lines_are_those_of_the_game_played_by_hand(self) -> None:
        for name, sessions in self.sessions().items():
            self.assertEqual(text_of(f"{name}.lines"), lines_of_example(sessions.read_text(encoding="utf-8")), name)

    def test_the_pages_are_what_the_command_makes_of_the_lines(self) -> None:
        for name, sessions in self.sessions().items():
            made = run("report", sessions, EXAMPLES / f"{name}.lines")
            self.assertEqual((made.status, made.errors), (0, ""))
            self.assertEqual(text_of(f"{name}.html"), made.out, f"make examples/{name}.html anew by saxtegun report")

    def test_a_page_is_small(self) -> None:
        for page in EXAMPLES.glob("*.html"):
            self.assertLess(page.stat().st_size, MOST_BYTES, page.name)


@plays
class DayOfTheExamples(OfTheExamples):
    def test_the_lines_are_those_of_the_program(self) -> None:
        for name, sessions in self.sessions().items():
            self.assertEqual(text_of(f"{name}.lines"), run("lines", sessions).out, name)


if __name__ == "__main__":
    unittest.main()

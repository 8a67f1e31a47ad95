"""Engines of which each has one error, for tests of what plays two: the engine by the rule book, which does something wrong where an input meets a session.

    #!/usr/bin/env python3
    from wrong_engines import main
    main("crash")
"""
from __future__ import annotations

import json
import sys
import time
from typing import Any

import engine_by_the_book as book


class Session(book.Session):
    """A session that does nothing wrong. `last` is the input before."""

    last = None

    def take(self, given: Any) -> None:
        if given == "undo" and not self.past:
            self.undo_of_nothing()
        super().take(given)
        self.last = given

    def undo_of_nothing(self) -> None:
        pass


class Crashing(Session):
    def undo_of_nothing(self) -> None:
        sys.stdout.flush()
        raise ValueError(f"no level at {self.at}")


class Hanging(Session):
    def undo_of_nothing(self) -> None:
        sys.stdout.flush()
        time.sleep(600)


class Saying(Session):
    def undo_of_nothing(self) -> None:
        print("debug: nothing to take back, \x1b[2J", self.at)


class Restarting(Session):
    """A restart leaves the level as it is behind an undo that left one level to take back. So two presses less one undo meet it, and three less two."""

    def restart(self) -> bool:
        if self.last == "undo" and len(self.past) == 1:
            self.target = book.copy_of(self.level)
        return super().restart()


KINDS = {"none": Session, "crash": Crashing, "hang": Hanging, "say": Saying, "restart": Restarting}


def main(kind: str, holds_back: bool = False) -> None:
    """Plays the sessions file that the last word names. `holds_back`: no line is written before all are played."""
    book.Session = KINDS[kind]  # type: ignore[misc]  # a class in the place of another
    order = sys.argv[sys.argv.index("--order") + 1] if "--order" in sys.argv else "columns"
    with open(sys.argv[-1], encoding="utf-8") as file:
        entries = json.load(file)
    answers = (book.lines_of_entry(number, entry, order) for number, entry in enumerate(entries))
    all_passed = True
    for lines, passed in list(answers) if holds_back else answers:
        sys.stdout.write("".join(f"{it}\n" for it in lines))
        all_passed = all_passed and passed
    sys.exit(0 if all_passed else 1)

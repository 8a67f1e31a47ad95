"""How the longest beginning of a session is found that can be won: by answers out of a table, with no engine."""
from __future__ import annotations

import unittest
from typing import Collection, Dict, List, Optional, Sequence, Tuple

import tool  # noqa: F401
from saxtegun.keeping import Beginnings, Kept, longest, longest_of_all, steps_back
from saxtegun.solving import LATE, Answer, OnlyByRestart, OutOfBounds, Solved, Unasked, Unsolvable

FEW, MANY = OutOfBounds(20_000, 3), OutOfBounds(1_000_000, 5)


class Table:
    """Answers by counts of inputs: what is named, else solved up to a count, and lost behind it. What `hidden` has needs larger bounds, what `unknown` has tells
    nothing in any. Time may be over behind so many questions, and fewer be answered at once than are asked."""

    def __init__(self, won: int, hidden: Collection[int] = (), unknown: Collection[int] = (), questions: int = 1000, at_once: int = 1000, named: Optional[Dict[int, Answer]] = None) -> None:
        self.won, self.hidden, self.unknown, self.questions, self.at_once, self.named = won, hidden, unknown, questions, at_once, named or {}
        self.asked: List[Tuple[List[int], bool]] = []

    def answer(self, count: int, is_full: bool) -> Answer:
        if count in self.unknown or (count in self.hidden and not is_full):
            return MANY if is_full else FEW
        return self.named.get(count, Solved([0]) if count <= self.won else Unsolvable())

    def __call__(self, counts: Sequence[int], is_full: bool) -> List[Answer]:
        if len(self.asked) >= self.questions:
            return [Unasked(LATE)]
        self.asked.append(([*counts], is_full))
        return [self.answer(it, is_full) for it in counts[: self.at_once]]

    @property
    def full(self) -> List[int]:
        return [count for counts, is_full in self.asked if is_full for count in counts]


class LongestBeginning(unittest.TestCase):
    def test_steps_grow(self) -> None:
        self.assertEqual(steps_back(3, 20), [20, 19, 17, 13, 5, 3])
        self.assertEqual((steps_back(4, 4), steps_back(4, 5)), ([4], [5, 4]))

    def test_each_length_is_found_by_few_small_questions(self) -> None:
        for end in range(3, 40):
            for won in range(3, end + 1):
                table = Table(won)
                self.assertEqual(longest(Beginnings(table, 3, end)), Kept(Solved([0]), won), (end, won))
                self.assertEqual(table.full, [])
                self.assertLess(len(table.asked), 13)

    def test_a_level_that_is_lost_from_its_beginning_is_told_so(self) -> None:
        self.assertEqual(longest(Beginnings(Table(2), 3, 20)), Kept(Unsolvable(), 3))

    def test_the_last_inputs_are_mended_where_the_beginning_is_too_large(self) -> None:
        table = Table(83, unknown=range(71), hidden=[84])
        self.assertEqual(longest(Beginnings(table, 0, 86)), Kept(Solved([0]), 83))
        self.assertEqual(table.full, [84])
        # large bounds alone know of the last ones
        table = Table(83, unknown=range(71), hidden=range(87))
        self.assertEqual(longest(Beginnings(table, 0, 86)), Kept(Solved([0]), 83))

    def test_what_is_not_known_is_not_lost(self) -> None:
        self.assertEqual(longest(Beginnings(Table(4, unknown=[3, 4]), 0, 4)), Kept(Solved([0]), 2, MANY))
        self.assertEqual(longest(Beginnings(Table(4, unknown=[3, 4]), 0, 4, has_more=False)), Kept(Solved([0]), 2, FEW))
        self.assertEqual(longest(Beginnings(Table(4, hidden=[3, 4]), 0, 4)), Kept(Solved([0]), 4))
        self.assertEqual(longest(Beginnings(Table(4, unknown=range(5)), 0, 4)), Kept(MANY, 0))

    def test_what_was_lost_may_be_won_again_where_inputs_take_back(self) -> None:
        lost: Dict[int, Answer] = {it: Unsolvable() for it in range(30, 40)}
        table = Table(70, named=lost)
        self.assertEqual(longest_of_all(Beginnings(table, 0, 100)), Kept(Solved([0]), 70))
        self.assertEqual([len(counts) for counts, _ in table.asked], [1, 2, 4, 8, 16])
        self.assertEqual(longest_of_all(Beginnings(Table(25, named=lost, at_once=3), 0, 60)), Kept(Solved([0]), 25))
        self.assertEqual(longest_of_all(Beginnings(Table(-1), 0, 60)), Kept(Unsolvable(), 0))

    def test_larger_bounds_tell_of_longer_ones(self) -> None:
        table = Table(50, hidden=range(30, 61))
        self.assertEqual(longest_of_all(Beginnings(table, 0, 60)), Kept(Solved([0]), 50))
        self.assertEqual(table.full, [*range(60, 49, -1)])
        restarts: Dict[int, Answer] = {it: OnlyByRestart() for it in range(51, 61)}
        self.assertEqual(longest_of_all(Beginnings(Table(50, named=restarts), 0, 60)), Kept(Solved([0]), 50, OnlyByRestart()))

    def test_it_is_told_which_were_not_asked_about_in_time(self) -> None:
        for search, questions, left in ((longest_of_all, 3, "beginnings up to its 93rd input were"), (longest_of_all, 0, "beginnings up to its 100th input were"), (longest, 3, "beginnings up to its 93rd input were")):
            self.assertEqual(search(Beginnings(Table(-1, questions=questions), 0, 100)), Kept(Unasked(f"{LATE} before the {left} asked about"), None))
        self.assertEqual(longest(Beginnings(Table(-1, questions=1), 0, 1)), Kept(Unasked(f"{LATE} before its level's beginning was asked about"), None))
        self.assertEqual(longest(Beginnings(Table(90, questions=5), 0, 100)), Kept(Solved([0]), 85, Unasked(LATE)))


if __name__ == "__main__":
    unittest.main()

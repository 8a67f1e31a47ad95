"""Level texts: their cells, and which of them differ."""
from __future__ import annotations

import random
import unittest
from typing import Any

import tool  # puts the package on the path
from saxtegun.levels import Labels, differing, read_cells

# A text, and the names in its cells; None where it is no level text.
TEXTS = {
    "": [],
    "background wall:0,background:1,\n1,0,\n": [("background", "wall"), ("background",), ("background",), ("background", "wall")],
    ":0,0,": [(), ()],
    "B a:0,a b:1,": [("a", "b"), ("a", "b")],
    "a\r:0,\r\n0,": [("a",), ("a",)],
    "a:0,00,": [("a",), ("a",)],
    f"a:0,{'0' * 5000},b:{'0' * 5000}1,1,": [("a",), ("a",), ("b",), ("b",)],
    f"a:0,{'0' * 5000}1,": None,
    f"a:0,{'1' * 5000},": None,
    "a:0:0,": [("a:0",)],
    "a:0": None,
    "a,b:0,": None,
    "a:0,1,b:1,": None,
    "a:1,": None,
    "a:0,a:1:2,": None,
    "a:0,b:0,": None,
    "a:0,,": None,
}


def names_in(text: str) -> Any:
    labels = Labels()
    cells = read_cells(text, labels)
    return None if cells is None else [labels.names[it] for it in cells]


class Levels(unittest.TestCase):
    def test_a_text_is_read_as_its_names(self) -> None:
        for text, wanted in TEXTS.items():
            with self.subTest(text):
                self.assertEqual(names_in(text), wanted)

    def test_the_same_set_has_one_label_in_all_texts(self) -> None:
        labels = Labels()
        for text, wanted in (("a:0,b:1,\n1,0,\n", "abba"), ("b:0,a:1,\n1,0,\n", "baab")):
            self.assertEqual("".join(labels.names[it][0] for it in read_cells(text, labels) or []), wanted)
        self.assertEqual(labels.names, [("a",), ("b",)])

    def test_cells_that_differ_are_found(self) -> None:
        chance = random.Random(4)
        for count in (0, 1, 200):
            one = [chance.randrange(3) for _ in range(count)]
            other = [it if chance.random() < 0.9 else 5 for it in one]
            wanted = [number for number in range(count) if one[number] != other[number]]
            self.assertEqual(differing(one, other), wanted)


if __name__ == "__main__":
    unittest.main()

"""Level texts, read as docs/sessions.md has them: cells as sets of names, in the order of their text."""
from __future__ import annotations

import re
from itertools import compress
from operator import ne
from typing import Callable, Dict, List, Optional, Sequence, Tuple, TypeVar

from saxtegun.commands import fold

DIGITS = re.compile("[0-9]+")
# more cells than any level has, by digits
MOST_DIGITS = 9

Names = Tuple[str, ...]
Value = TypeVar("Value")


class Labels:
    """Numbers for sets of names, the same for the same set."""

    def __init__(self) -> None:
        self.names: List[Tuple[str, ...]] = []
        self.by_names: Dict[Tuple[str, ...], int] = {}
        self.by_text: Dict[str, int] = {}

    def of(self, text: str) -> int:
        """The number of the set of names that a text spells."""
        label = self.by_text.get(text)
        if label is None:
            names = tuple(sorted({fold(word) for word in text.split(" ") if word}))
            label = self.by_names.setdefault(names, len(self.names))
            if label == len(self.names):
                self.names.append(names)
            self.by_text[text] = label
        return label


def number_in(digits: str) -> Optional[int]:
    """The number that digits write, or None where they are none or too many."""
    if not DIGITS.fullmatch(digits):
        return None
    # Python reads no number of thousands of digits, even if they are zeros
    written = digits.lstrip("0")
    return int(written or "0") if len(written) <= MOST_DIGITS else None


def read_piece(piece: str, numbered: List[int], labels: Labels) -> Optional[int]:
    """The label of a piece that no earlier one was like, or None where it is no piece of a level text."""
    names, colon, digits = piece.rpartition(":")
    number = number_in(digits)
    if colon and number == len(numbered):
        numbered.append(labels.of(names))
        return numbered[-1]
    if colon or number is None or number >= len(numbered):
        return None
    return numbered[number]


def read_cells(text: str, labels: Labels) -> Optional[List[int]]:
    """The cells of a level text, each by its label, or None where it is no level text."""
    pieces = text.replace("\n", "").replace("\r", "").split(",")
    if pieces.pop():
        return None
    known: Dict[str, int] = {}
    numbered: List[int] = []
    cells: List[int] = []
    for piece in pieces:
        label = known.get(piece)
        if label is None:
            label = read_piece(piece, numbered, labels)
            if label is None:
                return None
            if ":" not in piece:
                known[piece] = label
        cells.append(label)
    return cells


def each_once(rows: Sequence[Sequence[Names]], told: Callable[[Names], Value]) -> List[List[Value]]:
    """What is told of each cell of these rows. The cells of a label share one tuple of names, and of each tuple it is told once: that a
    stranger's level has many cells of many names must not cost more than to read it."""
    known = {number: told(names) for number, names in {id(it): it for row in rows for it in row}.items()}
    return [[known[id(it)] for it in row] for row in rows]


def width_of(text: str, count: int) -> int:
    """The width of a level of so many cells, by the line breaks of its text; one row where they give none."""
    width = text.partition("\n")[0].count(",")
    return width if width and count % width == 0 else max(1, count)


def position(order: str, width: int, count: int, number: int) -> Tuple[int, int]:
    """The column and the row of a cell, both from 0."""
    if order == "rows":
        return number % width, number // width
    height = count // width
    return number // height, number % height


def in_rows(order: str, width: int, cells: List[int]) -> List[List[int]]:
    """The cells row by row."""
    if order == "rows":
        return [cells[at : at + width] for at in range(0, len(cells), width)]
    height = len(cells) // width
    return [cells[row::height] for row in range(height)]


def differing(cells: Sequence[int], others: Sequence[int]) -> List[int]:
    """The numbers of the cells that differ, where both levels have equally many."""
    return list(compress(range(len(cells)), map(ne, cells, others)))

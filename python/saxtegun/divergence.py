"""Where two runs of one session part: the first frame, after which input, which cells, both levels."""
from __future__ import annotations

from itertools import zip_longest
from typing import List, NamedTuple, Optional

from saxtegun.budget import EXPLAINING, NOT_LOOKED_AT, UsedUp
from saxtegun.commands import cut, plural
from saxtegun.descriptions import Undescribed
from saxtegun.explanations import CELLS_TOLD, cell_told, input_told
from saxtegun.games import game_of
from saxtegun.levels import Labels, differing, in_rows, position, read_cells, width_of
from saxtegun.lines import Frame, Run
from saxtegun.sessions import Entry


class Divergence(NamedTuple):
    """Where two runs part: the number of the frame (the one behind the last where only their closes differ), and each run's frame there, or
    None where it has no more."""

    frame: int
    one: Optional[Frame]
    other: Optional[Frame]

    @property
    def kind(self) -> str:
        """In which way they part: what shrinking a session must keep."""
        if self.one is None and self.other is None:
            return "close"
        if self.one is None or self.other is None:
            return "end"
        return "kind" if (self.one.at, self.one.kind) != (self.other.at, self.other.kind) else "level"


def is_same_frame(one: Optional[Frame], other: Optional[Frame]) -> bool:
    """Whether two frames are the same; where their texts differ, by the cells that they spell."""
    if one is None or other is None or (one.at, one.kind) != (other.at, other.kind):
        return False
    return is_same_level(one.level, other.level)


def is_same_level(one: str, other: str) -> bool:
    """Whether two level texts spell the same level."""
    if one == other:
        return True
    labels = Labels()
    cells = read_cells(one, labels)
    return cells is not None and cells == read_cells(other, labels) and cells_of_lines(one) == cells_of_lines(other)


def cells_of_lines(text: str) -> List[int]:
    """How many cells stand between the line feeds of a level text, of which the last may be missing."""
    return [it.count(",") for it in text.rstrip("\r\n").split("\n")]


def divergence_of(one: Run, other: Run) -> Optional[Divergence]:
    """Where two runs part, or None where they are the same."""
    for number, (left, right) in enumerate(zip_longest(one.frames, other.frames)):
        if not is_same_frame(left, right):
            return Divergence(number, left, right)
    return None if (one.close, one.cause) == (other.close, other.cause) else Divergence(len(one.frames), None, None)


def after_told(entry: Optional[Entry], at: int) -> str:
    """Behind which input a frame was shown."""
    if at == 0:
        return "at the start"
    name = f" ({input_told(entry.inputs[at - 1])})" if entry and at <= len(entry.inputs) else ""
    return f"after input {at - 1}{name}"


def close_told(run: Run) -> str:
    return f"{run.close} ({cut(run.cause)})" if run.cause else run.close


def sentence_of(divergence: Divergence, one: Run, other: Run, entry: Optional[Entry]) -> str:
    """Where two runs part, in a sentence without its end."""
    if divergence.kind == "close":
        return f"the same {plural(divergence.frame, 'frame')}, and then one is {close_told(one)}, the other {close_told(other)}"
    frames = [it for it in (divergence.one, divergence.other) if it is not None]
    where = f"frame {divergence.frame}, {after_told(entry, frames[0].at)}"
    if divergence.kind == "end":
        ended, name = (one, "one") if divergence.one is None else (other, "the other")
        return f"{where}: {name} has no more frames, and is {close_told(ended)}"
    if divergence.kind == "kind":
        return f"{where}: one shows {frames[0].kind} of {frames[0].at} inputs, the other {frames[1].kind} of {frames[1].at}"
    return where


def below_of(divergence: Divergence, entry: Optional[Entry], order: str) -> List[str]:
    """The cells that differ at a divergence and both levels, as lines."""
    if divergence.one is None or divergence.other is None:
        return []
    labels = Labels()
    read = [read_cells(it.level, labels) for it in (divergence.one, divergence.other)]
    one, other = read[0] or [], read[1] or []
    width = width_of(divergence.one.level, len(one))
    if read[0] is None or read[1] is None or len(one) != len(other) or width != width_of(divergence.other.level, len(other)):
        return [f"one has a level of {plural(len(one), 'cell')}, the other of {len(other)}"]
    numbers = differing(one, other)
    if not numbers and divergence.kind == "level":
        return ["the cells are the same, and the line feeds between them are not"]
    lines: List[str] = []
    for number in numbers[:CELLS_TOLD]:
        column, row = position(order, width, len(one), number)
        lines.append(f"column {column + 1}, row {row + 1}: {cell_told(labels.names[one[number]])}; the other: {cell_told(labels.names[other[number]])}")
    if len(numbers) > CELLS_TOLD:
        lines.append(f"and {plural(len(numbers) - CELLS_TOLD, 'more cell')}")
    return lines + (side_by_side(entry, labels, one, other, width, order) if entry else [])


def side_by_side(entry: Entry, labels: Labels, one: List[int], other: List[int], width: int, order: str) -> List[str]:
    """Two levels by the game's own letters, where each cell has one, and as long as there is time to explain."""
    try:
        with EXPLAINING.spent():
            EXPLAINING.look()
            game = game_of(entry.source)
            drawn = [game.drawing([[labels.names[it] for it in row] for row in in_rows(order, width, cells)]) for cells in (one, other)]
    except UsedUp:
        return [f"both levels: {NOT_LOOKED_AT}"]
    except Undescribed as why:
        return [f"both levels: {why}"]
    if drawn[0] is None or drawn[1] is None:
        return []
    room = max(width, len("one")) + 4
    return [f"| {it}" for it in ["one".ljust(room) + "the other", *(left.ljust(room) + right for left, right in zip(drawn[0], drawn[1]))]]

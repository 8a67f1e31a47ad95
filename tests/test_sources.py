"""How sources are read for pictures, held against the program's answers that were worked out by hand: on all sources of conformance/."""
from __future__ import annotations

import json
import unittest
from pathlib import Path
from tempfile import TemporaryDirectory
from typing import Any, Callable, FrozenSet, Iterator, List, Optional, Tuple

import tool  # puts the package on the path
from tool import CASES
from saxtegun.cases import plain_cases
from saxtegun.descriptions import description_of, expect
from saxtegun.games import Game, game_of
from saxtegun.levels import Labels, in_rows, read_cells, width_of
from saxtegun.levelsets import entries_of_levels, first_level
from saxtegun.lines import Run, runs_in
from saxtegun.sessions import Entry, sessions_in

# The faults of a source that name a line, by the sections in which they may.
SECTIONS = {
    "OutsideProfile": {"prelude", "rules"}, "BadObject": {"objects"}, "BadLegend": {"legend"}, "Mixed": {"legend", "collisionlayers", "rules", "winconditions"}, "NoLayer": {"objects"},
    "BadWin": {"winconditions"}, "BadGlyph": {"levels"}, "BadRule": {"rules"}, "Shape": {"rules"}, "LateMovement": {"rules"},
    "AmbiguousRight": {"rules"}, "TooManyRules": {"rules"}, "RightClash": {"rules"}, "Duplicate": {"objects", "legend"},
    "Unknown": {"legend", "collisionlayers", "rules", "winconditions"},
}


def sessions_of_cases(change: Callable[[Entry], List[str]] = lambda entry: [entry.source]) -> List[Any]:
    """Each session of the cases that are played, with its run and the order: the name of the case, the entry, the run, the order."""
    them = list(sessions_of_played_cases())
    expect(source for _, entry, _, _ in them for source in change(entry))
    return them


def sessions_of_played_cases() -> Iterator[Tuple[str, Entry, Run, str]]:
    with TemporaryDirectory() as room:
        lines = Path(room, "lines")
        for case in plain_cases(CASES):
            if case.status == 2:
                continue
            lines.write_bytes(case.stdout)
            sessions = sessions_in(case.name, case.input.decode())
            for _, run in runs_in(str(lines)):
                yield case.name, sessions.entries[run.number], run, "rows" if "rows" in case.words else "columns"


def beginnings(entry: Entry) -> List[str]:
    """Beginnings of a source of different lengths."""
    return [entry.source[:cut] for cut in range(0, len(entry.source), max(1, len(entry.source) // 7))]


def cells_of(text: str) -> Optional[List[FrozenSet[str]]]:
    labels = Labels()
    cells = read_cells(text, labels)
    return None if cells is None else [frozenset(labels.names[it]) for it in cells]


class Sources(unittest.TestCase):
    def test_every_object_of_a_frame_is_one_that_is_drawn_on_its_layer(self) -> None:
        for name, entry, run, _ in sessions_of_cases():
            layers = {it.name: it.layer for it in game_of(entry.source).objects}
            for cell in {cell for frame in run.frames for cell in cells_of(frame.level) or []}:
                with self.subTest(name):
                    self.assertEqual(cell - set(layers), set())
                    self.assertEqual(len({layers[it] for it in cell}), len(cell), "no two of a cell share a layer")

    def test_a_level_drawn_by_its_letters_is_the_level_again(self) -> None:
        for name, entry, run, order in sessions_of_cases():
            game = game_of(entry.source)
            layers = {it.name: it.layer for it in game.objects}
            for frame in run.frames:
                labels = Labels()
                cells = read_cells(frame.level, labels)
                rows = in_rows(order, width_of(frame.level, len(cells)), cells) if cells else []
                drawn = game.drawing([[labels.names[it] for it in row] for row in rows])
                for row, letters in zip(rows, drawn or []):
                    for label, letter in zip(row, letters):
                        with self.subTest(name):
                            # of two members in one layer the last named stands
                            standing = {layers[it]: it for it in game.members(letter.lower())}
                            self.assertEqual(set(labels.names[label]) - game.grounds, set(standing.values()) - game.grounds)

    def test_a_level_is_loaded_for_each_win_and_no_more_than_there_are(self) -> None:
        for name, entry, run, _ in sessions_of_cases():
            if run.frames:
                with self.subTest(name):
                    loads = sum(it.kind == "load" for it in run.frames)
                    self.assertLessEqual(first_level(entry) + loads, sum(1 for it in entries_of_levels(entry.source) if it.rows))

    def test_the_line_of_a_fault_stands_in_a_section_that_can_have_it(self) -> None:
        seen = set()
        for name, entry, run, _ in sessions_of_cases():
            code, _, number = (run.cause or "").partition(":")
            if code in SECTIONS and number != "0":
                seen.add(code)
                with self.subTest(name):
                    found = [it.section for it in description_of(entry.source).lines if it.number == int(number)]
                    self.assertTrue(found and found[0] in SECTIONS[code], found)
        self.assertGreater(len(seen), 12)

    def test_a_source_that_is_refused_is_read_as_far_as_it_goes(self) -> None:
        for name, entry, run, _ in sessions_of_cases(beginnings):
            for source in beginnings(entry):
                with self.subTest(name):
                    self.assertIsInstance(Game(source).title, str)


if __name__ == "__main__":
    unittest.main()

"""Sessions files with their lines, for the tests of the tools that show, explain and accept: the example, played by hand, and cases."""
from __future__ import annotations

import json
import os
from pathlib import Path
from typing import Any, Dict, Iterator, List, Sequence, Set, Tuple
from unittest import mock

from tool import CASES, TOP, Answer, InARoom
from saxtegun.cases import plain_cases

EXAMPLE = TOP / "examples/block-pushing.json"
STEPS = {0: (0, -1), 1: (-1, 0), 2: (0, 1), 3: (1, 0)}
# The columns of a level, each of cells, and these of the names that stand there.
Level = List[List[Set[str]]]
GLYPHS: Dict[str, Set[str]] = {".": set(), "#": {"wall"}, "P": {"player"}, "*": {"crate"}, "@": {"crate", "target"}, "O": {"target"}}


def levels_of(source: str) -> List[Level]:
    """The levels of the example's source, each a list of columns of cells."""
    blocks = source.partition("LEVELS\n=======\n")[2].strip("\n").split("\n\n")
    return [[[{"background"} | GLYPHS[letter] for letter in column] for column in zip(*block.split("\n"))] for block in blocks]


def text_of(level: Level) -> str:
    """A level's text in the order of columns."""
    numbers: Dict[str, int] = {}
    text = ""
    for place, cell in enumerate((cell for column in level for cell in column), 1):
        names = " ".join(sorted(cell))
        text += f"{numbers[names]}," if names in numbers else f"{names}:{numbers.setdefault(names, len(numbers))},"
        text += "\n" if place % len(level) == 0 else ""
    return text


def push(level: Level, across: int, down: int) -> Level:
    """The level after a step of the player, who pushes one crate; a crate pushes none."""
    level = [[set(cell) for cell in column] for column in level]
    column, row = next((column, row) for column, cells in enumerate(level) for row, cell in enumerate(cells) if "player" in cell)

    def move(name: str, column: int, row: int) -> None:
        target = level[column + across][row + down]
        if not target & {"wall", "crate", "player"}:
            level[column][row].remove(name)
            target.add(name)

    if "crate" in level[column + across][row + down]:
        move("crate", column + across, row + down)
    move("player", column, row)
    return level


def shown(levels: Sequence[Level], inputs: Sequence[Any]) -> Iterator[Tuple[int, str, Level]]:
    """What a session of the example shows: for each frame the inputs taken, its kind and its level."""
    levels = list(levels)
    past: List[Level] = []
    level = levels.pop(0)
    yield 0, "start", level
    for at, it in enumerate(inputs, 1):
        if it == "undo":
            level = past.pop() if past else level
            yield at, "undo", level
            continue
        before, level = level, push(level, *STEPS[it])
        past += [before] if level != before else []
        yield at, "move", level
        if levels and all("crate" in cell for column in level for cell in column if "target" in cell):
            level, past = levels.pop(0), []
            yield at, "load", level


def play(number: int, entry: Any) -> List[str]:
    """The lines of a session of the example, whose inputs are directions and undo."""
    name, (source, inputs, recorded, index) = entry
    lines, text = [], ""
    for frame, (at, kind, level) in enumerate(shown(levels_of(source)[index:], inputs)):
        text = text_of(level)
        lines.append({"at": at, "frame": frame, "kind": kind, "level": text, "session": number})
    close = {"close": "passed" if text == recorded else "differs", "frames": len(lines), "name": name, "session": number}
    return [json.dumps(line, separators=(",", ":")) for line in [*lines, close]]


def lines_of_example(text: str) -> str:
    return "".join(f"{line}\n" for number, entry in enumerate(json.loads(text)) for line in play(number, entry))

def cases_in_rows(is_named_by_case: bool = False) -> Tuple[str, str]:
    """All cases that were played by rows, as one sessions file and its lines, with the names of their sessions or of the cases."""
    entries: List[Any] = []
    lines = []
    for it in plain_cases(CASES):
        if it.words != ["--order", "rows"] or it.status == 2:
            continue
        first = len(entries)
        entries += json.loads(it.input)
        for line in map(json.loads, it.stdout.decode().split("\n")[:-1]):
            line["session"] += first
            if is_named_by_case and "close" in line:
                entries[line["session"]][0] = line["name"] = it.name
            lines.append(json.dumps(line))
    return json.dumps(entries), "".join(f"{line}\n" for line in lines)


class OnSessions(InARoom):
    """Tests a tool where the example lies with its lines."""

    def setUp(self) -> None:
        super().setUp()
        self.lines = self.write("example.lines", lines_of_example(EXAMPLE.read_text(encoding="utf-8")))

    def write(self, name: str, text: str) -> Path:
        file = self.room / name
        file.write_bytes(text.encode("utf-8"))
        return file

    def tell_stages(self, data: bytes) -> None:
        """Names, as what tells stages, a program that writes these bytes whatever it is asked for."""
        (self.room / "stages").write_bytes(data)
        program = self.write("stager", f"#!/bin/sh\ncat {self.room}/stages || exit 2\n")
        program.chmod(0o755)
        named = mock.patch.dict(os.environ, {"SAXTEGUN_STAGES": str(program)})
        named.start()
        self.addCleanup(named.stop)

    def assert_refused(self, answer: Answer, what: str) -> None:
        self.assertEqual((answer.status, answer.out), (2, ""))
        self.assertEqual(answer.errors.count("\n"), 1)
        self.assertIn(what, answer.errors)

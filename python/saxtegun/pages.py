"""The page of a report: what a run showed as JSON, put into web/report.html.

A session's levels are kept as differences to the one before. All that comes from games is JSON text in which no letter ends a script."""
from __future__ import annotations

import json
from functools import lru_cache
from pathlib import Path
from typing import Any, Callable, Dict, List, Optional, Sequence, Tuple, Union

from saxtegun.budget import EXPLAINING, NOT_LOOKED_AT, UsedUp
from saxtegun.commands import begin_of, plural
from saxtegun.culprits import repeated_in
from saxtegun.descriptions import Undescribed
from saxtegun.divergence import Divergence, close_told, sentence_of
from saxtegun.explanations import Ending, cause_told, culprit_told, ending_told, fault_in, stop_of, written_lines
from saxtegun.games import Game, game_of, unknown_game
from saxtegun.hangs import HUNG, Found
from saxtegun.levels import Labels, differing, read_cells, width_of
from saxtegun.levelsets import MOST_CELLS, still_in
from saxtegun.lines import CLOSES, KINDS, UNANSWERED, Run
from saxtegun.sessions import Entry, Sessions
from saxtegun.webpages import page_of, script_of, style_of

# What could end a script or begin one. No letter beyond ASCII is left as it is.
UNSAFE = {letter: f"\\u{ord(letter):04x}" for letter in "<>&"}
NEIGHBOURS = 3
MOST_LINES = 40
NUMBERS = {kind: number for number, kind in enumerate(KINDS)}
# So many frames are shown behind the one at which two runs part.
MORE_FRAMES = 20
GENERAL = "Colours by name are those of arnecolors. The whole level is drawn, also where the game shows a part of it."
MOST_NOTES = 50
# One letter stands for a label where there are few of them; these need no escape.
LETTERS = "".join(chr(code) for code in range(33, 127) if chr(code) not in "\"\\<>&")
# A change of so many cells is written as a whole level: a cell of it takes a letter, and one that changed takes its number too.
DEAR = 5
# A text that can't be read back is in the page if it has at most so many letters, as web/level-text.mjs has it.
MOST_OF_A_LEVEL = 2**20
# How a session stands in the page that passed, and is asked for more.
FAILED = "failed"


def safe(value: Any) -> str:
    """A value as JSON that can stand in a page."""
    text = json.dumps(value, ensure_ascii=True, separators=(",", ":"))
    for letter, number in UNSAFE.items():
        text = text.replace(letter, number)
    return text


def block(name: str, value: Any) -> str:
    return f'<script type="application/json" id="{name}">{safe(value)}</script>\n'


def packed(cells: Sequence[int]) -> Union[str, List[int]]:
    """The labels of cells, as letters where there are enough of these."""
    return "".join(map(LETTERS.__getitem__, cells)) if max(cells, default=0) < len(LETTERS) else list(cells)


class Levels:
    """The levels of a session, one after the other."""

    def __init__(self, labels: Labels) -> None:
        self.labels = labels
        self.text: Optional[str] = None
        self.cells: Optional[Sequence[int]] = None
        self.width = 0

    def change(self, text: str) -> Any:
        """What makes the next level of the one before: 0 nothing, a list of cells with their new labels, or a whole level. Of one that can't be read back
        that is its text, or the beginning of a long one, and of one with more cells than any that is played its sides: a browser would read it for long."""
        if text == self.text:
            return 0
        cells, before, width = read_cells(text, self.labels), self.cells, self.width
        self.text, self.cells = text, cells
        if cells is None:
            return {"text": text if len(text) <= MOST_OF_A_LEVEL else begin_of(text)}
        self.width = width_of(text, len(cells))
        if len(cells) > MOST_CELLS:
            return {"width": self.width, "height": len(cells) // self.width}
        if before is not None and len(before) == len(cells) and width == self.width:
            numbers = differing(cells, before)
            if DEAR * len(numbers) <= len(cells):
                return [it for number in numbers for it in (number, cells[number])]
        return {"width": self.width, "cells": packed(cells)}


# many sessions of one game may hang, or be refused
@lru_cache(maxsize=8)
def lines_meant(source: str, cause: str) -> Optional[Tuple[int, int]]:
    """The first and the last line of a source that a cause is about, where that is known."""
    fault = fault_in(cause)
    if fault is not None:
        return fault[1], fault[1]
    repeated = repeated_in(source) if cause == HUNG else []
    return (repeated[0].first, repeated[0].last) if len(repeated) == 1 else None


def source_lines(source: str, cause: str) -> List[List[Any]]:
    """The lines that a cause is about, with their neighbours."""
    meant, lines = lines_meant(source, cause), written_lines(source)
    if meant is None or not 1 <= meant[0] <= meant[1] <= len(lines):
        return []
    first, last = max(1, meant[0] - NEIGHBOURS), min(len(lines), meant[1] + NEIGHBOURS, meant[0] + MOST_LINES)
    return [[number, begin_of(lines[number - 1].rstrip("\r")), meant[0] <= number <= meant[1]] for number in range(first, last + 1)]


def frames_of(run: Run, labels: Labels) -> List[List[Any]]:
    """The frames of a run: the inputs taken, the number of the kind, and what makes the level of the one before."""
    change = Levels(labels).change
    return [[at, NUMBERS[kind], change(level)] for at, kind, level in run.frames]


def recorded_side(entry: Entry, ending: Ending) -> List[Any]:
    """The recorded level of a session that differs, as a run of one frame; nothing where it is no level text, or has more cells than any that is played,
    which a browser would read and draw for long."""
    if ending.recorded is None or len(ending.recorded) > MOST_CELLS:
        return []
    width = ending.width if ending.is_comparable else width_of(entry.level, len(ending.recorded))
    return [["recorded", [[0, 0, {"width": width, "cells": packed(ending.recorded)}]]]]


def told_of(entry: Entry, run: Run, ending: Optional[Ending], order: str, found: Optional[Found]) -> str:
    """How a session ended, in a sentence."""
    if run.close == UNANSWERED:
        return run.cause or ""
    try:
        with EXPLAINING.spent():
            EXPLAINING.look()
            return told_in_full(entry, run, ending, order, found)
    except UsedUp:
        return f"{cause_told(run.cause or run.close)}; {NOT_LOOKED_AT}"
    except Undescribed as why:
        return f"{cause_told(run.cause or run.close)}; {why}"


def told_in_full(entry: Entry, run: Run, ending: Optional[Ending], order: str, found: Optional[Found]) -> str:
    """How a session ended, however long it takes to say."""
    if run.cause is not None:
        return f"{cause_told(run.cause)}{found.told if found else culprit_told(entry, run)} ({run.cause})"
    if ending is None:
        return f"{plural(len(entry.inputs), 'input')} played, and the last level is the recorded one"
    elsewhere = still_in(entry, run, order) if ending.recorded is not None and not ending.is_turned_in(order) else None
    return elsewhere or ending_told(ending, order)


def session_of(entry: Entry, run: Run, game: Optional[int], order: str, found: Optional[Found] = None) -> Dict[str, Any]:
    """A session as the page's player reads it: `sides` are the runs that are shown beside one another, `opens` the frame that is shown first, `stop`
    the input at which it stopped."""
    labels = Labels()
    sides = [["played", frames_of(run, labels)]] if run.frames else []
    ending = Ending(entry, run, labels) if run.close == "differs" and run.cause is None else None
    return {
        "told": told_of(entry, run, ending, order, found),
        "source": [],
        "game": game,
        "inputs": entry.inputs,
        "sides": [*sides, *(recorded_side(entry, ending) if ending else [])],
        "beside": "the recorded level",
        "opens": 0 if run.close == "passed" else max(0, len(run.frames) - 1),
        "stop": found.number if found else stop_of(entry, run),
        "labels": labels.names,
    }


def pair_of(entry: Entry, divergence: Divergence, one: Run, other: Run, game: Optional[int], names: Sequence[str]) -> Dict[str, Any]:
    """A session of which two runs part, as the page's player reads it."""
    labels = Labels()
    kept = divergence.frame + MORE_FRAMES + 1
    runs = [it._replace(frames=it.frames[:kept]) for it in (one, other)]
    told = f"{sentence_of(divergence, one, other, entry)} ({names[0]}: {close_told(one)}; {names[1]}: {close_told(other)})"
    return {
        "told": told,
        "source": [],
        "game": game,
        "inputs": entry.inputs,
        "sides": [[name, frames_of(it, labels)] for name, it in zip(names, runs)] if all(it.frames for it in runs) else [],
        "beside": names[1],
        "opens": max(0, min(divergence.frame, max(len(it.frames) for it in runs) - 1)),
        "stop": None,
        "labels": labels.names,
    }


def look_of(game: Game) -> Dict[str, Any]:
    """A game as the page draws it. An object without a layer is drawn above all others."""
    above = 1 + max((it.layer for it in game.objects if it.layer is not None), default=0)
    return {"ground": game.ground, "objects": [[it.name, above if it.layer is None else it.layer, it.colours, it.sprite] for it in game.objects]}


def look_known(source: str) -> Game:
    """How a game looks; where the engine can't be asked for it, as nothing that is known, with a note that says why."""
    try:
        return game_of(source)
    except Undescribed as why:
        return unknown_game(str(why))


class Report:
    """A report while it is made, session by session. `origin` says where it comes from, and `hung` finds out in what a session hung."""

    def __init__(self, sessions: Sessions, order: str, origin: Sequence[str] = (), hung: Callable[[Entry, Run], Optional[Found]] = lambda entry, run: None) -> None:
        self.sessions, self.order, self.origin, self.hung = sessions, order, origin, hung
        self.rows: List[List[Any]] = []
        self.blocks: List[str] = []
        self.games: Dict[str, int] = {}
        # the first session of each source and cause, whose block has the lines
        self.lines: Dict[Tuple[str, str], int] = {}
        self.notes: Dict[str, None] = {}
        self.title, self.closes, self.result = "replay report", [*CLOSES, FAILED], ""

    def game(self, source: str) -> int:
        """The number of a source's game, whose look is in the page once."""
        if source not in self.games:
            number, game = len(self.games), look_known(source)
            self.games[source] = number
            self.blocks.append(block(f"game-{number}", look_of(game)))
            self.notes.update(dict.fromkeys(f"{game.title}: {begin_of(note)}." for note in game.notes))
        return self.games[source]

    def lines_of(self, source: str, cause: str) -> Union[int, List[List[Any]]]:
        """The lines that a cause is about, or the number of the session that has them: those of many sessions are in the page once."""
        first = self.lines.setdefault((source, cause), len(self.rows))
        return source_lines(source, cause) if first == len(self.rows) else first

    def put(self, name: str, close: str, frames: int, session: Dict[str, Any]) -> None:
        self.blocks.append(block(f"session-{len(self.rows)}", session))
        self.rows.append([name, close, frames])

    def add(self, run: Run, failure: Optional[str] = None) -> None:
        """Adds a session. `failure` is why one that passed counts as failed."""
        entry = self.sessions.entries[run.number]
        game = self.game(entry.source) if run.frames else None
        # the page has a word and a colour for each close of the program's, and none for what the command has stopped itself
        close = "stopped" if run.close == UNANSWERED else run.close
        session = session_of(entry, run, game, self.order, self.hung(entry, run))
        if run.cause:
            session["source"] = self.lines_of(entry.source, run.cause)
        if failure is not None and run.close == "passed":
            close, session["told"] = FAILED, f"passed: {failure}"
        self.put(run.name, close, len(run.frames), session)

    def add_pair(self, divergence: Divergence, one: Run, other: Run, names: Sequence[str], played: Optional[Entry] = None) -> None:
        """Adds a session of which two runs part, with the names of the two; `played` is the entry that they are of, where that has more inputs."""
        entry = played or self.sessions.entries[one.number]
        game = self.game(entry.source) if one.frames and other.frames else None
        self.put(f"session {one.number}: {one.name}", "diverges", max(len(one.frames), len(other.frames)), pair_of(entry, divergence, one, other, game, names))

    def page(self) -> str:
        more = len(self.notes) - MOST_NOTES
        notes = [GENERAL, *list(self.notes)[:MOST_NOTES], *([f"And {plural(more, 'more note')}."] if more > 0 else [])]
        index = {
            "file": Path(self.sessions.path).name, "title": self.title, "order": self.order, "letters": LETTERS, "closes": self.closes,
            "result": self.result, "origin": list(self.origin), "sessions": self.rows, "notes": notes,
        }  # fmt: skip
        return page_of("report.html", {"data": "".join([block("index", index), *self.blocks])}, script_of("report.mjs"), style_of("common.css", "report.css"))


def comparison(sessions: Sessions, order: str, origin: Sequence[str] = ()) -> Report:
    """A report of sessions of which two runs part."""
    report = Report(sessions, order, origin)
    report.title, report.closes = "two runs compared", ["diverges"]
    return report

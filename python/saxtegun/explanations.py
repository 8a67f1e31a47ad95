"""What the program's lines say of a session, in words."""
from __future__ import annotations

from collections import Counter
from functools import lru_cache
from typing import Iterable, List, Optional, Tuple, Union

from saxtegun import culprits, differences, levelsets, reasons
from saxtegun.budget import EXPLAINING, NOT_LOOKED_AT, UsedUp
from saxtegun.commands import cut, plural, printable
from saxtegun.descriptions import Undescribed
from saxtegun.games import Game, game_of
from saxtegun.levels import Labels, differing, in_rows, position, read_cells, width_of
from saxtegun.lines import UNANSWERED, Run
from saxtegun.processes import UNANSWERED_BEGIN
from saxtegun.sessions import Entry

# How many cells that differ are told.
CELLS_TOLD = 8
# So long a source is split into lines at once, again and again.
MOST_SHORT = 10_000
STOPS = {
    "loop-limit": "a group of rules or a loop still changed something in its 200th pass",
    "again-limit": "an input needed more than 500 ticks of `again`",
    "match-limit": "a rule had more than 1,048,576 places or combinations",
    "no-level": "no level is left from its index on",
}
# What is wrong with the line that a fault names; `{line}` is that line.
FAULTS = {
    "TooLong": "the source is longer than 1,048,576 bytes",
    "Section": "the heading on {line} is out of order, or is there twice",
    "OutsideProfile": "{line} has what is not played here: `random`, `randomdir`, `rigid`, `realtime_interval`, or a row with two `...`",
    "BadObject": "the object on {line} has no colours directly after its name, or a sprite that is not five rows of five",
    "Duplicate": "{line} defines a name that is there already",
    "TooLarge": "{line} is one too many, or too large: objects, names, layers, levels, the sides of a level and of a rule have limits",
    "BadLegend": "{line} is no definition of the legend, or defines a name in terms of itself",
    "Unknown": "{line} has a name that is not there",
    "Mixed": "{line} has an aggregate (a name joined by `and`) where none may stand, or a property (one joined by `or`) in an aggregate",
    "Missing": "`background` or `player` is not there, or is joined by `and`",
    "NoLayer": "the object on {line} is in no collision layer",
    "BadWin": "{line} is no win condition",
    "BadGlyph": "{line} is a row of a level with a letter that draws nothing",
    "NoLevel": "it has no level",
    "BadRule": "{line} is no rule",
    "Shape": "the two sides of the rule on {line} don't have the same shape",
    "LateMovement": "the late rule on {line} has a movement word",
    "AmbiguousRight": "the right of the rule on {line} doesn't say which choice of the left it means",
    "TooManyRules": "with {line} the rules have more than 65,536 pairs of a direction and a choice",
    "RightClash": "the right of the rule on {line} places in one cell what can't stand there together",
}
WHOLE = {"Section": "a section that must be there is missing"}

UNREADABLE = "the level that was reached can't be read back, since a name of an object in it holds a comma"


def fault_in(cause: str) -> Optional[Tuple[str, int]]:
    """The fault of a source and its line that a cause names, or None."""
    code, colon, line = cause.partition(":")
    return (code, int(line)) if colon and line.isascii() and line.isdecimal() and len(line) < 10 else None


def cause_told(cause: str) -> str:
    """A cause as a sentence without its end."""
    fault = fault_in(cause)
    if cause.startswith(UNANSWERED_BEGIN):
        return cause
    if fault is None or fault[0] not in FAULTS:
        return STOPS.get(cause, f"its cause is {cut(cause)}")
    code, number = fault
    if number == 0:
        return WHOLE.get(code, FAULTS[code].format(line="the source"))
    return FAULTS[code].format(line=f"line {number}")


NO_TEXT = "its source is the empty text, which stands for a game's, and no game's text is named: as in `saxtegun test GAME.txt SESSIONS.json`, or with --game"


def source_told(entry: Optional[Entry], cause: str) -> str:
    """A cause in words: a text that was forgotten is called that, and no fault of a game."""
    return NO_TEXT if entry is not None and not entry.source and fault_in(cause) else cause_told(cause)


def written_lines(source: str) -> List[str]:
    """The lines of a source as they stand there. Many are told of one source, and the long one of a game isn't forgotten for short ones between."""
    return kept_lines(source) if len(source) > MOST_SHORT else source.split("\n")


@lru_cache(maxsize=2)
def kept_lines(source: str) -> List[str]:
    return source.split("\n")


def source_line(source: str, number: int) -> Optional[str]:
    """A line of a source by its number, or None."""
    lines = written_lines(source)
    return lines[number - 1].rstrip("\r") if 1 <= number <= len(lines) else None


def cell_told(names: Iterable[str]) -> str:
    return cut(" ".join(names)) or "nothing"


class Ending:
    """The level that a session reached beside the recorded one. `reached` and `recorded` are their cells by labels, or None where a
    text is no level text; `cells` are the numbers of those that differ, where both levels have equally many."""

    def __init__(self, entry: Entry, run: Run, labels: Optional[Labels] = None) -> None:
        self.labels = labels or Labels()
        text = run.frames[-1].level
        self.reached, self.recorded = read_cells(text, self.labels), read_cells(entry.level, self.labels)
        self.width = width_of(text, len(self.reached or []))
        self.is_comparable, self.cells = False, []
        if self.reached is not None and self.recorded is not None and len(self.reached) == len(self.recorded):
            self.is_comparable, self.cells = True, differing(self.reached, self.recorded)

    def names(self, label: int) -> Tuple[str, ...]:
        return self.labels.names[label]

    def is_turned_in(self, order: str) -> bool:
        """Whether both levels can be compared, and the recorded one is the reached one in the other order."""
        return self.is_comparable and self.is_turned(order)

    def is_turned(self, order: str) -> bool:
        """Whether the recorded level is the reached one in the other order of cells."""
        assert self.reached is not None
        step = self.width if order == "rows" else len(self.reached) // self.width
        return bool(self.cells) and self.recorded == [label for first in range(step) for label in self.reached[first::step]]


def ending_told(ending: Ending, order: str) -> str:
    """What differs at the end, in a sentence without its end."""
    if ending.reached is None:
        return UNREADABLE
    if ending.recorded is None:
        return "the recorded level is no level text"
    if not ending.is_comparable:
        return f"the recorded level has {plural(len(ending.recorded), 'cell')}, and the one that was reached {len(ending.reached)}"
    columns, rows = ending.width, len(ending.reached) // ending.width
    differ = "differs" if len(ending.cells) == 1 else "differ"
    turned = f"; the recorded level is this one listed in the other order, not by {order}" if ending.is_turned(order) else ""
    return f"{len(ending.cells)} of {plural(len(ending.reached), 'cell')} ({columns} wide, {rows} high) {differ} from the recorded level{turned}"


def cells_told(ending: Ending, order: str) -> List[str]:
    """The first cells that differ, a line each. Columns and rows are counted from 1."""
    lines: List[str] = []
    if ending.reached is None or ending.recorded is None:
        return lines
    for number in ending.cells[:CELLS_TOLD]:
        column, row = position(order, ending.width, len(ending.reached), number)
        reached, recorded = (cell_told(ending.names(it[number])) for it in (ending.reached, ending.recorded))
        lines.append(f"column {column + 1}, row {row + 1}: {reached}; recorded: {recorded}")
    more = len(ending.cells) - CELLS_TOLD
    return [*lines, f"and {plural(more, 'more cell')}"] if more > 0 else lines


def drawings(ending: Ending, game: Game, order: str) -> List[str]:
    """The two levels by the game's own letters, side by side, where each cell has one."""
    drawn = []
    for cells in (ending.reached or [], ending.recorded or []):
        rows = in_rows(order, ending.width, cells)
        letters = game.drawing([[ending.names(label) for label in row] for row in rows])
        if letters is None:
            return []
        drawn.append(letters)
    room = max(ending.width, len("reached")) + 4
    # the mark before each keeps a game's letters from beginning a line, where a CI would read commands
    return [f"| {it}" for it in ["reached".ljust(room) + "recorded", *(one.ljust(room) + other for one, other in zip(*drawn))]]


def stop_of(entry: Entry, run: Run) -> Optional[int]:
    """The number of the input at which a session stopped, as its frames tell; None at the start, or where it did not stop at an input."""
    if run.cause not in ("loop-limit", "again-limit", "match-limit") or not run.frames:
        return None
    # ticks of an input are shown with it taken; another stop comes before anything of its input is shown
    at = run.frames[-1].at - (run.cause == "again-limit")
    return at if 0 <= at < len(entry.inputs) else None


def culprit_told(entry: Entry, run: Run) -> str:
    """What the cause of a session comes from, in words that go on behind its sentence, or nothing."""
    fault = fault_in(run.cause or "")
    if fault:
        return culprits.fault_told(fault[0], entry.source, fault[1])
    if run.cause in ("loop-limit", "again-limit", "match-limit"):
        at = stop_of(entry, run)
        where = " at the start" if at is None else f" at input {at} ({input_told(entry.inputs[at])})"
        return where + (culprits.loops_told(entry.source) if run.cause == "loop-limit" else "")
    return ""


def input_told(it: Union[int, str]) -> str:
    """An input by its word."""
    return it if isinstance(it, str) else ("up", "left", "down", "right", "action")[it]


def told(run: Run, entry: Optional[Entry] = None, order: str = "columns", game: str = "", hung: str = "") -> Tuple[str, List[str]]:
    """What a session that did not pass came to: a sentence, and lines below it. Without its entry only what its lines say, and so too where the time to
    explain is used up. `game` is the file of its source, where it has one, and `hung` tells where it hung, where that was found out by playing."""
    if run.close == UNANSWERED:
        return run.cause or "", []
    try:
        with EXPLAINING.spent():
            if entry is not None and run.close != "passed":
                EXPLAINING.look()
            return told_in_full(run, entry, order, game, hung)
    except UsedUp:
        return f"{told_in_full(run)[0]}; {NOT_LOOKED_AT}", []
    except Undescribed as why:
        return f"{told_in_full(run)[0]}; {why}", []


def told_in_full(run: Run, entry: Optional[Entry] = None, order: str = "columns", game: str = "", hung: str = "") -> Tuple[str, List[str]]:
    """What a session came to, however long it takes to say."""
    if run.cause is not None:
        fault = fault_in(run.cause)
        line = source_line(entry.source, fault[1]) if entry and fault else None
        place = f"{game}:{fault[1]}" if game and fault else f"line {fault[1]}" if fault else ""
        below = [f"{place}: {cut(line)}"] if line is not None else []
        culprit = hung or (culprit_told(entry, run) if entry else "")
        reason = reasons.reason_told(run.cause, entry.source) if entry else ""
        return f"{source_told(entry, run.cause)}{culprit}{reason} ({cut(run.cause)}); {plural(len(run.frames), 'frame')}", below
    if run.close == "passed":
        return plural(len(run.frames), "frame"), []
    if entry is None:
        return f"the level that was reached is not the recorded one; {plural(len(run.frames), 'frame')}", []
    ending = Ending(entry, run)
    elsewhere = levelsets.still_in(entry, run, order) if ending.recorded is not None and not ending.is_turned_in(order) else None
    below = [] if elsewhere else cells_told(ending, order)
    if ending.is_comparable:
        below += drawings(ending, game_of(entry.source), order)
    elsewhere_decided = differences.likely(entry, run)
    below += [elsewhere_decided] if elsewhere_decided else []
    return f"{plural(len(run.frames), 'frame')}, {plural(len(entry.inputs), 'input')}; {elsewhere or ending_told(ending, order)}", below


def summary(closes: Iterable[str]) -> str:
    """How many sessions closed in which way."""
    counts = Counter(closes)
    words = {"differs": "differs" if counts["differs"] == 1 else "differ", UNANSWERED: "not answered"}
    told_always = ("passed", "differs", "stopped", "refused")
    parts = [f"{counts[close]} {words.get(close, close)}" for close in (*told_always, *([UNANSWERED] if counts[UNANSWERED] else []))]
    return f"{plural(sum(counts.values()), 'session')}: {', '.join(parts)}"


def heading(run: Run) -> str:
    return printable(f"session {run.number}, {cut(run.name)}: {run.close}")

"""What explaining costs: not much more than twice as much for an input of twice the size, and with one budget of time for all of it."""
from __future__ import annotations

import gc
import io
import json
import random
import subprocess
import sys
import tempfile
import unittest
from contextlib import redirect_stderr
from pathlib import Path
from resource import RUSAGE_SELF, getrusage
from time import sleep
from typing import Any, Callable, Iterable, List, Sequence, Tuple

from day import OnSessions
from tool import TOP  # which puts the package on the path
from saxtegun import budget, differences, hangs
from saxtegun.culprits import fault_told, repeated_in
from saxtegun.explanations import told
from saxtegun.descriptions import description_of, expected
from saxtegun.games import Game
from saxtegun.hangs import Finder, source_from, things_of
from saxtegun.levelsets import level_of_recorded
from saxtegun.lines import Frame, Run
from saxtegun.pages import source_lines
from saxtegun.playing import Engine
from saxtegun.recording_search import find
from saxtegun.reductions import of_columns
from saxtegun.sessions import Entry, Sessions, sessions_in
from saxtegun.stage_descriptions import Text, block_told, drawn
from saxtegun.stage_divergence import Parted, Side, Telling
from saxtegun.stages import Stage
from saxtegun.terminal import Depth, lettered, painted
from saxtegun.texts import GameText, of_another_text
from saxtegun.verbs.add import add_to

HEAD = "OBJECTS\nBackground .\nblack\nPlayer p\nwhite\n"
TAIL = "WINCONDITIONS\nLEVELS\np.\n"
LETTERS = [chr(0x4E00 + it) for it in range(20_000)]
MOST = 2.3
# As many objects as the engine tells of a source, but for those of HEAD.
MOST_OBJECTS = 510
LEAST_SECONDS = 0.05
# What doesn't take so long for a size like this, of some megabytes, is no matter.
LARGE = 1_000_000


def legend_chain(count: int) -> str:
    return f"{HEAD}LEGEND\n" + "\n".join(f"a{it} = a{it + 1}" for it in range(count)) + "\nCOLLISIONLAYERS\n" + " ".join(f"a{it}" for it in range(count)) + "\n" + TAIL


def rules(count: int) -> str:
    return f"{HEAD}RULES\n" + "[ Player ] -> [ Player ]\n" * count + "startloop\n[ > Player ] -> [ Player ]\nendloop\n" * count + TAIL


def line_told(code: str, text: str, before: str = "RULES\n") -> str:
    source = f"{HEAD}{before}{text}\n"
    return fault_told(code, source, source.count("\n"))


def added(size: int) -> None:
    """Adds recordings to a file: as many of one name as this, and as many that are there already under other names."""
    name = "one name"
    there = [[f"{name} {it}", ["", [it % 5], "b:0,", it]] for it in range(size // 4)]
    new = [[name, body] for _, body in there] + [[name, ["", [], "", it]] for it in range(size)]
    with tempfile.TemporaryDirectory() as room, redirect_stderr(io.StringIO()):
        path = Path(room) / "sessions.json"
        path.write_text(json.dumps(there), encoding="utf-8")
        total = add_to(str(path), sessions_in("new", json.dumps(new)), None).total
    if total != size // 4 + size:
        raise AssertionError("other recordings are there")


def held_against(size: int) -> None:
    """Looks which of many texts is the one at hand."""
    entries = sessions_in("x", json.dumps([["a", [f"title {it}", [], ""]] for it in range(size // 100)])).entries
    if len(of_another_text(entries, GameText("game.txt", "title x\r\n" * (size // 10)))) != size // 100:
        raise AssertionError("a text is the one at hand")


def acts(*lines: int) -> Stage:
    return Stage(0, "early", 0, lines, True, (), (), "background:0,\n")


def led(size: int) -> None:
    """Tells where two texts part of which each has two groups, of as many rules as this: one acts in the one, one in the other, and behind it each rule alone."""
    first, behind = range(7, 7 + size), range(7 + size, 7 + 2 * size)
    source = f"{HEAD}RULES\n" + ("[ Player ] -> [ Player ]\n" + "+ [ Player ] -> [ Player ]\n" * (size - 1)) * 2 + TAIL
    entry = sessions_in("x", json.dumps([["a", [source, [], ""]]])).entries[0]
    sides = Side("one", entry, Text(source, "", "columns")), Side("the other", entry, Text(source, "", "columns"))
    parted = Parted(acts(*first), acts(*behind), None, ([acts(it) for it in first], [acts(it) for it in behind]))
    sentence = Telling(sides, 0, parted).told().sentence
    if ": acts in one, not in the other; " not in sentence:
        raise AssertionError(sentence)


def loops_told(size: int) -> None:
    """Tells that each loop of a game acts: its three lines are told by the two words around them."""
    source = f"{HEAD}RULES\n" + "startloop\n[ Player ] -> [ Player ]\nendloop\n" * size + TAIL
    told_of = [block_told(acts(it), source) for it in range(source.count("\n", 0, source.index("startloop")) + 2, 3 * size + 7, 3)]
    if len(set(told_of)) != size or told_of[-1] != f"early loop of lines {3 * size + 4} to {3 * size + 6}":
        raise AssertionError(told_of[-1])


def entry_of(source: str, level: str = "", index: int = 0) -> Entry:
    return sessions_in("x", json.dumps([["a", [source, [], level, index]]])).entries[0]


def level_of(names: int, cells: int) -> str:
    """A level text of so many cells of so many names each."""
    return " ".join(f"a{it}" for it in range(names)) + ":0," + "0," * (cells - 1)


def objects_in_layers(count: int) -> Tuple[str, str]:
    """OBJECTS with so many objects more, and the layers of all, each in one of its own."""
    names = [f"a{it}" for it in range(count)]
    return "OBJECTS\nBackground .\nblack\n\nPlayer p\nwhite\n\n" + "".join(f"{it}\nred\n\n" for it in names), "COLLISIONLAYERS\nBackground\nPlayer\n" + "\n".join(names) + "\n"


def rows_of_cells(size: int) -> List[List[Tuple[str, ...]]]:
    """A level of as many cells as each has names, as it is drawn."""
    return [[tuple(sorted(f"a{it}" for it in range(size)))] * size]


def likened(size: int) -> None:
    """Looks which level a recorded one is of, where as many have its size as it has names in a cell."""
    source = HEAD + TAIL + "\npp\n" * size + "\n..\n" * size
    level_of_recorded(entry_of(source, level_of(size, 2).replace("a0 ", "player ")), "columns")


def property_in_rules(size: int) -> None:
    """Looks at so many rules, with a property in them of as many objects as are told of a source."""
    objects, layers = objects_in_layers(MOST_OBJECTS)
    source = f"{objects}LEGEND\nall = {' or '.join(f'a{it}' for it in range(MOST_OBJECTS))}\n{layers}RULES\n" + "[ > Player | all ] -> [ > Player | > all ]\n" * size + TAIL
    if differences.placed_told.__wrapped__(source):
        raise AssertionError("a rule places what moves")


def inputs_heeded(size: int) -> None:
    """Looks whether a game has `noundo`, for as many sessions as it has lines."""
    entry = entry_of(rules(size))._replace(inputs=["undo"])
    if any(differences.input_told(entry) for _ in range(size)):
        raise AssertionError("it has")


def acted(size: int) -> None:
    """Tells what a stage did to a level of as many cells as each has names."""
    level = level_of(size, size)
    drawn(acts(7)._replace(level=level), acts(8)._replace(level=level), Text(HEAD + TAIL, "", "columns"), True)


def hung_from(size: int) -> None:
    """Draws a level of as many cells as each has names as the source of what is played."""
    run = Run(0, "a", "stopped", "loop-limit", [Frame(0, "start", level_of(size, size).replace("a0 ", "background "))])
    source = HEAD + "LEGEND\nCOLLISIONLAYERS\nBackground\nPlayer\n" + TAIL
    rows = hangs.rows_before(run, source, "columns")
    assert rows is not None
    source_from(source, rows, frozenset())


def shown_in_a_page(cause: str, size: int) -> None:
    """Shows of as many sessions of one game as it has rules the lines that their cause is about."""
    source = rules(size)
    for _ in range(size):
        source_lines(source, cause)


def read_behind(size: int) -> None:
    """Reads a session with as many texts behind it, each with the letters of the word that demands, in another order."""
    if len(sessions_in("x", f"""[["a",["",[],""]{',"devlos","lo"' * size}]]""").entries) != 1:
        raise AssertionError("it was not read")


def narrowed(size: int) -> None:
    """Takes the first column of each of many levels."""
    entry = sessions_in("x", json.dumps([["a", [HEAD + "LEVELS\n" + "p.\n\n" * size, [], ""]]])).entries[0]
    count, without = of_columns(entry)
    if "p." in without(set(range(0, count, 2))).source.split("LEVELS")[1]:
        raise AssertionError("a column is still there")


# What is read of an input of a size, each from a size on that takes long enough to be timed.
READINGS = {
    "blanks in a source": (200_000, lambda size: Game("title x" + " " * size + "x\n" + HEAD + TAIL)),
    "returns at the end of a line": (200_000, lambda size: told(Run(0, "a", "refused", "BadRule:1", []), sessions_in("x", json.dumps([["a", ["\r" * size + "x", [], ""]]])).entries[0])),
    "names that stand for one another": (2000, lambda size: Game(legend_chain(size))),
    "a name that is not there, of many letters": (20_000, lambda size: line_told("Unknown", "[ " + "ab" * size + " ]", f"{'ba' * size}\nred\nRULES\n")),
    "many names that are not there": (500, lambda size: line_told("Unknown", "[ " + " ".join(LETTERS[:size]) + " ]")),
    "many names that are": (2000, lambda size: line_told("Unknown", "[ playr ]", "".join(f"a{it}\nred\n\n" for it in range(size)) + "RULES\n")),
    "a name again and again": (5000, lambda size: line_told("Duplicate", " ".join(LETTERS[:2] * size) + "\nred", "")),
    "letters that draw nothing": (5000, lambda size: line_told("BadGlyph", "".join(LETTERS[:size]), "LEVELS\n")),
    "brackets": (20_000, lambda size: description_of("(" * size + ")" * size + "\n" + HEAD)),
    "rules": (2000, lambda size: repeated_in(rules(size))),
    "rules, and what is repeated of them": (1000, lambda size: things_of(rules(size))),
    "rules of groups at which two texts part": (1000, led),
    "loops that act": (1000, loops_told),
    "sessions of one game that hang": (200, lambda size: shown_in_a_page("loop-limit", size)),
    "sessions of one game that is refused": (2000, lambda size: shown_in_a_page("BadRule:9", size)),
    "rows of a level": (5000, lambda size: description_of(HEAD + "LEVELS\n" + "p.\n" * size)),
    "levels that lose a column": (1000, narrowed),
    "objects": (2000, lambda size: description_of(HEAD + "a\nred\n.....\n" * size)),
    "quotes": (50_000, lambda size: find("['a',['" + "\\n" * size + "',[],'']]")),
    "lists that begin": (20_000, lambda size: find('["' * size)),
    "lists that begin and are escaped": (20_000, lambda size: find('[\\"' * size)),
    "quotes that are escaped": (20_000, lambda size: find("`[" + "\\`[" * size)),
    "quotes that are escaped up to one that is not": (20_000, lambda size: find("`[" + "\\`[" * size + "`")),
    "quotes of a word processor": (20_000, lambda size: find("[\u201e" * size)),
    "lists that are cut off": (20_000, lambda size: find('["a"x' * size)),
    "recordings of one name": (2000, added),
    "texts that are held against one": (100_000, held_against),
    "names of a cell that is recorded": (2000, lambda size: level_of_recorded(entry_of(HEAD + TAIL, level_of(size, size)), "columns")),
    "names of a cell that is recorded, and levels": (1000, likened),
    "names of a cell that is painted": (1000, lambda size: painted(Game(objects_in_layers(size)[0]), rows_of_cells(size), Depth.ALL)),
    "names of a cell that is drawn by letters": (2000, lambda size: lettered(Game(HEAD + TAIL), rows_of_cells(size))),
    "names of a cell in which a stage acts": (1000, acted),
    "names of a cell in a level before it hung": (1000, hung_from),
    "objects of a property in rules": (500, property_in_rules),
    "sessions of one game with an undo": (500, inputs_heeded),
    "texts behind a session": (20_000, read_behind),
    "numbers": (50_000, lambda size: find("['a',[''," + "[" + "1," * size + "1],'']]")),
}


# Texts of one piece again and again, with what stands before and behind it: each piece is a round of a group of some pattern.
ROUNDS = {
    "breaks before a text": ("[", "<br>", ""),
    "breaks before a text of HTML": ("[", "&nbsp;", "&quot;"),
    "breaks that are escaped before a list": ('"', "\\n", ""),
    "breaks that are escaped before a text": ('"[', "\\n", ""),
    "breaks behind a text": ('["a",', "<br>", "1]"),
    "marks behind a text": ('["a",', "\ufeff", "1]"),
    "a text of JSON": ('[["a",["', "\\n", '",[],""]]]'),
    "a text in double quotes": ('[["a",["', "\\'", '",[],""]]]'),
    "a text in single quotes": ("[['a',['", "\\n", "',[],'']]]"),
    "a text in backquotes": ("[['a',[`", "$", "`,[],'']]]"),
    "a text of a word processor": ("[['a',[\u201c", "\\n", "\u201d,[],'']]]"),
    "a text that has lost its quotes": ('[\\"', "\\n", ""),
    "inputs": ('[["a",["",[', '"undo",', '1],""]]]'),
}
# Letters of such a text, and bytes that a process may take to read it. A round that is remembered takes 80 bytes or more.
LONG, MOST_BYTES = 4_000_000, 5 * 2**25
READ = f"""
import sys
from resource import RLIMIT_AS, setrlimit
from saxtegun.recording_search import find
setrlimit(RLIMIT_AS, ({MOST_BYTES}, {MOST_BYTES}))
read, before, piece, behind = sys.argv[1:]
text = before + piece * ({LONG} // len(piece)) + behind
find(text)
"""


def remembering() -> Iterable[Any]:
    """The functions of the package that remember what they told. An equal text of an earlier call would be compared with, letter by letter."""
    modules = [module for name, module in sys.modules.items() if name.startswith("saxtegun.")]
    return {id(it): it for module in modules for it in vars(module).values() if hasattr(it, "cache_clear") and not isinstance(it, type)}.values()


def seconds_of(act: Callable[[int], object], size: int) -> float:
    """What an act takes of a processor where nothing is remembered, and garbage isn't collected: that takes more from some size on, whatever the act."""
    for cached in remembering():
        cached.cache_clear()
    gc.collect()
    gc.disable()
    try:
        begin = getrusage(RUSAGE_SELF).ru_utime
        act(size)
        return getrusage(RUSAGE_SELF).ru_utime - begin
    finally:
        gc.enable()


def growth_of(act: Callable[[int], object], size: int) -> float:
    """How many times the time of a size the double takes, once a size takes long enough to be timed."""
    while seconds_of(act, size) < LEAST_SECONDS:
        if size > LARGE:
            return 0.0
        size *= 2
    return min(min(seconds_of(act, 2 * size) for _ in range(3)) / max(min(seconds_of(act, size) for _ in range(3)), 1e-9) for _ in range(2))


class Costs(unittest.TestCase):
    def test_twice_the_input_takes_about_twice_the_time(self) -> None:
        for what, (size, act) in READINGS.items():
            with self.subTest(what):
                # A larger size is tried where one doesn't fit into a processor's cache any more: what is quadratic grows too much at each.
                growth = next((it for it in (growth_of(act, size << it // 3) for it in range(9)) if it <= MOST), None)
                self.assertIsNotNone(growth, f"more than {MOST} times the time")


class Far(unittest.TestCase):
    def test_texts_behind_a_session_take_no_longer_than_reading_them(self) -> None:
        """A million of them take a second or so, where a comparison of each with a word would take ten."""
        self.assertLess(seconds_of(read_behind, 500_000), 5)


class Memory(unittest.TestCase):
    def assert_read(self, *words: str) -> None:
        ran = subprocess.run([sys.executable, "-B", "-X", "utf8", "-c", READ, *words], cwd=TOP / "python", stdout=subprocess.PIPE, stderr=subprocess.STDOUT)
        self.assertEqual((ran.returncode, ran.stdout.decode()), (0, ""))

    def test_no_round_is_remembered(self) -> None:
        for what, text in ROUNDS.items():
            with self.subTest(what):
                self.assert_read("find", *text)


class Counting(Finder):
    """Finds out in what a session hung by a player that counts: the step hangs with the rule of one line."""

    def __init__(self, sessions: Sessions, culprit: str) -> None:
        super().__init__(sessions, Engine())
        self.played: List[Entry] = []
        self.player = self  # type: ignore[assignment]  # it plays itself
        self.engine, self.culprit = Engine(), culprit

    def runs(self, entries: Sequence[Entry]) -> List[Run]:
        if not budget.EXPLAINING.is_left():
            raise hangs.Unanswered("no time is left")
        self.played += entries
        level = Frame(0, "start", "background player:0,background:1,\n")
        hung = [self.culprit in it.source and it.inputs != [] for it in entries]
        return [Run(0, "a", "stopped" if it else "differs", "loop-limit" if it else None, [level]) for it in hung]


class Budget(OnSessions):
    def setUp(self) -> None:
        super().setUp()
        left = budget.EXPLAINING.left
        self.addCleanup(lambda: setattr(budget.EXPLAINING, "left", left))

    def hung(self, count: int, culprit: int) -> Tuple[Any, ...]:
        text = "".join(f"[ Player ] -> [ Player ] sfx{it}\n" for it in range(count))
        source = f"{HEAD}LEGEND\nCOLLISIONLAYERS\nBackground\nPlayer\nRULES\n{text}{TAIL}"
        sessions = sessions_in("s.json", json.dumps([["a", [source, [3], ""]]]))
        run = Run(0, "a", "stopped", "loop-limit", [Frame(0, "start", "background player:0,background:1,\n")])
        return Counting(sessions, f"sfx{culprit}\n"), sessions.entries[0], run, source[: source.index(f"sfx{culprit}\n")].count("\n") + 1

    def test_where_a_session_hung_is_found_by_few_plays(self) -> None:
        """Half of the rules are asked for at a time: of 300 the one that hangs is found by ten plays or so."""
        for count, culprit, most in ((1, 0, 3), (300, 0, 12), (300, 137, 12), (300, 299, 12)):
            finder, entry, run, line = self.hung(count, culprit)
            self.assertEqual(finder.told(entry, run), f" at input 0 (right); it is the rule on line {line}")
            self.assertLessEqual(len(finder.played), most)
            played = len(finder.played)
            finder.told(entry, run)
            self.assertEqual(len(finder.played), played, "it is found out once")

    def test_where_no_time_is_left_it_is_said_that_nothing_was_looked_at(self) -> None:
        finder, entry, run, _ = self.hung(30, 7)
        budget.EXPLAINING.left = 0
        self.assertEqual(finder.told(entry, run), f"; where is {budget.NOT_LOOKED_AT}")
        self.assertEqual(told(run, entry), (f"{told(run)[0]}; {budget.NOT_LOOKED_AT}", []))
        self.assertEqual(finder.played, [])

    def test_time_that_ends_in_the_midst_of_a_session_is_heeded(self) -> None:
        """Of what takes many seconds to say only what was played is said, soon behind the end of the time."""
        _, entry, run, _ = self.hung(30, 7)
        behind, comments = run._replace(close="differs", cause=None), "(" * 1_000_000
        sources = {
            "comments": comments,
            "names": entry.source.replace("LEGEND\n", "LEGEND\n" + "".join(f"{one} = {other} and Player\n" for one, other in zip(LETTERS, LETTERS[1:])) * 2),
            "levels": entry.source + "\np.\n" * 260_000,
        }
        for what, source in sources.items():
            with self.subTest(what):
                # a source without a line is soon told
                budget.EXPLAINING.left = 0.001 if source == comments else 0.05
                sentence, below = told(behind, entry._replace(source=source, level="player background:0,background:1,\n"))
                self.assertTrue(sentence.endswith(budget.NOT_LOOKED_AT), sentence)
                self.assertEqual(below, [])
                self.assertLess(budget.EXPLAINING.left, 0)

    def test_what_explains_within_what_explains_is_taken_off_once(self) -> None:
        budget.EXPLAINING.left = 100
        with budget.EXPLAINING.spent(), budget.EXPLAINING.spent():
            sleep(0.2)
            self.assertLess(budget.EXPLAINING.seconds_left(), 100)
        self.assertAlmostEqual(budget.EXPLAINING.left, 99.8, 1)

    def test_what_explains_takes_from_the_budget(self) -> None:
        _, entry, run, _ = self.hung(30, 7)
        before = budget.EXPLAINING.left
        told(run, entry)
        self.assertLess(budget.EXPLAINING.left, before)


if __name__ == "__main__":
    unittest.main()

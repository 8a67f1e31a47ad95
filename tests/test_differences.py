"""docs/differences.md: each of its minimal games ends here as it says."""
from __future__ import annotations

import json
import re
import unittest
from typing import Any, Iterator, List, Tuple

from tool import TOP, InARoom, plays, run
from saxtegun.differences import placed_told, property_told, scan_told
from saxtegun.games import game_of
from saxtegun.levels import Labels, in_rows, read_cells, width_of
from saxtegun.lines import Frame, Run
from saxtegun.sessions import Entry

HEAD = """title Small
%s
OBJECTS

Background
black

Wall
grey

Player
white

Crate
orange

Box
red

Mark
blue

Dot
green

LEGEND

. = Background
# = Wall
p = Player
c = Crate
b = Box
m = Mark
d = Dot
Thing = Crate or Box
q = Player and Mark
x = Box and Mark

SOUNDS

COLLISIONLAYERS

Background
Mark
Dot
Player, Wall, Crate, Box

RULES

%s

WINCONDITIONS

%s

LEVELS

%s
"""
INPUTS = {"up": 0, "left": 1, "down": 2, "right": 3, "action": 4, "undo": "undo", "restart": "restart"}
WORDS = ("level", "inputs", "here", "there", "win")


def games() -> Iterator[Tuple[str, List[Any], str, str]]:
    """Each minimal game of the page: its source, its inputs, and how it ends here and there."""
    for block in re.findall(r"(?:^    .+\n)+", (TOP / "docs/differences.md").read_text(encoding="utf-8"), re.M):
        lines = [it.strip() for it in block.splitlines()]
        of = {word: [it.partition(": ")[2] for it in lines if it.startswith(f"{word}: ")] for word in WORDS}
        rest = [it for it in lines if it.partition(":")[0] not in WORDS]
        prelude = [it for it in rest if "[" not in it]
        levels = "\n\n".join(it.replace("/", "\n") for it in of["level"])
        source = HEAD % ("\n".join(prelude), "\n".join(it for it in rest if it not in prelude), "\n".join(of["win"]), levels)
        yield source, [INPUTS[it] for it in of["inputs"][0].split() if it != "none"], of["here"][0], of["there"][0]


def drawn(source: str, text: str) -> str:
    """A level by the letters of the game, a slash between its rows."""
    labels = Labels()
    cells = read_cells(text, labels) or []
    rows = in_rows("columns", width_of(text, len(cells)), cells)
    return "/".join(game_of(source).drawing([[labels.names[it] for it in row] for row in rows]) or [])


@plays
class DayOfDifferences(InARoom):
    def test_each_game_ends_as_the_page_says(self) -> None:
        count = 0
        for source, inputs, here, there in games():
            with self.subTest(source.partition("RULES\n\n")[2]):
                count += 1
                self.assertNotEqual(here, there)
                (self.room / "one.json").write_text(json.dumps([["a", [source, inputs, ""]]]), encoding="utf-8")
                lines = [json.loads(it) for it in run("lines", self.room / "one.json").out.splitlines()]
                if here == "loop-limit":
                    self.assertEqual(lines[-1]["cause"], here)
                elif here == "the next level":
                    self.assertIn(("load", 0), [(it["kind"], it["at"]) for it in lines[:-1]])
                else:
                    self.assertEqual((lines[-1]["close"], drawn(source, lines[-2]["level"])), ("differs", here))
        self.assertEqual(count, 11)

    def test_explaining_names_the_likely_one(self) -> None:
        wanted = {
            "[ action Player ] [ Thing ]": "`thing` in the rule on line {first} stands for objects of one layer: on the site the first place counts",
            "noundo": "the game has `noundo`: on the site the undo of this session does nothing",
            "norestart": "the game has `norestart`: on the site the restart of this session does nothing",
            "late [ Player Dot ]": "the rule on line {second} has `+` below a late rule: on the site it isn't late",
            "[ > Player ] [ Crate ]": "the rows of the rule on line {first} have one cell: on the site it takes places in its own direction",
            "run_rules_on_level_start": "a level was won by its first tick: on the site that tick wins nothing",
            "right [ Mark ] -> [ Crate ]": "the rule on line {second} places `crate`, which takes over what moves in its layer: on the site it is still",
            "(push) again": "a comment stands before a command on line {first}: on the site it ends the rule",
        }
        for form, told in wanted.items():
            [(source, inputs)] = [it[:2] for it in games() if form in it[0]]
            (self.room / "one.json").write_text(json.dumps([["a", [source, inputs, "background:0,"]]]), encoding="utf-8")
            first = 3 + source.partition("\nRULES\n")[0].count("\n") + 1
            with self.subTest(form):
                self.assertIn(f"    the site may decide otherwise: {told.format(first=first, second=first + 1)}", run("explain", self.room / "one.json").out)

    def test_what_only_looks_so_is_not_named(self) -> None:
        for rule in ("[ > Player ] -> [ Player ]", "[ Player ] [ Crate ] -> [ Player ] [ ]", "[ > Player | Crate ] [ Box ] -> [ | Player ] [ ]", "late right [ Player ] -> [ Player Mark ]"):
            self.assertEqual((scan_told(HEAD % ("", rule, "", "p.")), rule), ("", rule))
        for rule in ("late [ Mark ] -> [ Crate ]", "[ > Player | Mark ] -> [ > Player | Dot ]", "[ > Player | Crate ] -> [ > Player | Box ]", "[ > Player | Mark ] -> [ > Player | stationary Crate ]"):
            self.assertEqual((placed_told(HEAD % ("", rule, "", "p.")), rule), ("", rule))
        self.assertIn("places `crate`", placed_told(HEAD % ("", "[ > Player | Mark ] -> [ > Player | Crate ]", "", "p.")))

    def test_a_property_is_named_only_where_the_first_member_may_decide(self) -> None:
        """Behind `no` all members are absent, whichever comes first; and in a direction one player stands before one thing."""
        for rule, level, is_named in (
            ("[ Player | no Thing ] -> [ | Player ]", "pp.bc", False),
            ("[ > Player | Thing ] -> [ > Player | > Thing ]", "p.bc", False),
            ("[ > Player | Thing ] -> [ > Player | > Thing ]", "ppbc", True),
            ("[ > Player | ... | Thing ] -> [ > Player | ... | > Thing ]", "p.bc", True),
            ("[ > Player | Thing ] -> [ > Player | > Thing ]", "ppbb", False),
            ("[ > Player ] [ Thing ] -> [ > Player ] [ ]", "p.bc", True),
        ):
            source = HEAD % ("", rule, "", level)
            names = {"p": " player", "b": " box", "c": " crate", ".": ""}
            text = "".join(f"background{names[letter]}:{number},\n" for number, letter in enumerate(level))
            entry = Entry(0, "a", source, [], "", 0, {}, False)
            told = property_told(entry, Run(0, "a", "differs", None, [Frame(0, "start", text)]))
            self.assertEqual(bool(told), is_named, (rule, level))

    def test_a_game_without_such_a_form_is_told_nothing(self) -> None:
        self.assertNotIn("the site", run("explain", TOP / "examples/block-pushing.json").out)


if __name__ == "__main__":
    unittest.main()

"""What is wrong with a line that a fault names: which word and which bracket of a rule, by docs/language.md, and where a text breaks."""
from __future__ import annotations

import json
import os
import random
import unittest

from day import OnSessions
from tool import plays, run
from saxtegun.commands import Refused
from saxtegun.reasons import break_of, reason_told
from saxtegun.sessions import sessions_in

HEAD = "OBJECTS\nBackground .\nblack\n\nPlayer p\nwhite\n\nLEGEND\n\nCOLLISIONLAYERS\nBackground\nPlayer\n\nRULES\n"
TAIL = "\nLEVELS\np.\n"
# A rule behind the line `[ Player ] -> [ Player ]`, and what is wrong with it.
WRONG = {
    "[ > Player | -> [ Player | ]": "the row `[ > player | -> [ player | ]` has no `]`",
    "[ [ Player ] -> [ Player ]": "the row `[ [ player ] -> [ player ]` has no `]`",
    "[ Player ] -> [ Player": "the row `[ player` has no `]`",
    "[ > Player ] | Player ] -> [ ]": "the `|` before ` player ] -> [ ]` is in no row",
    "[ Player ] ] -> [ ]": "the `]` before ` -> [ ]` is in no row",
    "[ Player ] -> [ Player ] ]": "the last `]` is in no row",
    "riht [ Player ] -> [ ]": "`riht` stands before a row of the left (near: `right`)",
    "Player ] -> [ ]": "`player` stands before a row of the left",
    "[ Player ] Player [ ] -> [ ] [ ]": "`player` stands behind a row of the left",
    "[ Player ]": "it has no `->`",
    "right -> [ ]": "it has no row on its left",
    "[ Player ] -> [ ] -> [ ]": "it has two `->`",
    "[ Player ] -> [ ] agian": "`agian` is no command (near: `again`)",
    "[ Player ] -> again [ ]": "`again` stands before a row of the right",
    "[ ... Player | ] -> [ | ]": "`...` isn't alone in its cell",
    "[ no > Player ] -> [ ]": "`no` and `>` both stand before a name, of which one may",
    "[ Player > ] -> [ ]": "`>` stands before no name",
    "[ Player ] -> [ win ]": "`win` stands in a cell, and is no name there",
    "+ late [ Player ] -> [ ]": "`late` stands on a rule of the group of line 15, which isn't late",
    "startloop [ Player ] -> [ ]": "`startloop` isn't alone on its line",
    "startloop": "the next loop line is no `endloop`",
    "endloop": "no `startloop` is open before it",
}
# A text, and where it stops to be a level text: its line, its letter, and what stands there.
BREAKS = {
    "junk": (1, 1, "junk"),
    "background:0,0,\n0,background:3,": (2, 3, "background:3"),
    "a:0,\n\n1,": (3, 1, "1"),
    "a:0,0": (1, 5, "0"),
    "a:0,b:x,": (1, 5, "b:x"),
    "a:0,,": (1, 5, ","),
}


# By hand more of them, and with other seeds.
SEED, COUNT = (int(os.environ.get(name, count)) for name, count in (("SEED", "74"), ("RULES", "1500")))
WORDS = "[ ] | -> [_Player_] [_Player_|_] Player no > < ^ v late + right up horizontal moving stationary action parallel again win sfx3 sfx11 message cancel ... bogus (a) LATE [] [|] rigid - ->> x->y".split()
RULES = ("[ > Player | Player ] -> [ > Player | > Player ]", "late [ Player ] -> [ ] again", "right [ no Player ] [ Player ] -> [ ] [ Player ] win sfx1 message x", "+ [ Player | ... | Player ] -> [ | ... | ]")


def rule_by(chance: random.Random) -> str:
    """A line of a few words, or a rule with a few changes."""
    if chance.random() < 0.4:
        return " ".join(chance.choices(WORDS, k=chance.randint(1, 9))).replace("_", " ")
    words = chance.choice(RULES).split(" ")
    for _ in range(chance.randint(0, 2)):
        at = chance.randrange(len(words))
        words[at : at + chance.randint(0, 1)] = chance.choices(WORDS, k=chance.randint(0, 1))
        words = words or ["["]
    return chance.choice((" ", " ", "")).join(words).replace("_", " ")


class Reasons(unittest.TestCase):
    def test_the_word_or_the_bracket_is_named(self) -> None:
        for rule, told in WRONG.items():
            with self.subTest(rule):
                self.assertEqual(reason_told("BadRule:16", f"{HEAD}[ Player ] -> [ Player ]\n{rule}\n{TAIL}"), f": {told}")
        for rule, told in (("+ [ Player ] -> [ ]", "`+` stands on the first rule, which has no group above it"), ("startloop\n+ [ Player ] -> [ ]", "`+` stands behind `startloop`, where a group begins")):
            self.assertEqual(reason_told(f"BadRule:{15 + rule.count(chr(10))}", f"{HEAD}{rule}\n{TAIL}"), f": {told}")

    def test_what_is_a_rule_has_nothing_wrong(self) -> None:
        for rule in ("[ > Player | ... | Player ] -> [ | ... | ] again sfx3 message [ -> ]", "+ LATE right down [ no Player ] [ ] -> cancel", "[Player|]->[|Player]win"):
            self.assertEqual(reason_told("BadRule:16", f"{HEAD}late [ Player ] -> [ Player ]\n{rule}\n{TAIL}"), "", rule)
        for cause in ("BadRule:0", "BadRule:99", "BadRule:15", "loop-limit", "BadRule:x", "OutsideProfile:3"):
            self.assertEqual(reason_told(cause, f"{HEAD}[ Player ] -> [ Player ]\n{TAIL}"), "")

    def test_a_text_of_another_length_is_looked_at_in_time(self) -> None:
        self.assertNotEqual(reason_told("BadRule:15", f"{HEAD}{'[[' * 500_000}\n{TAIL}"), "")

    def test_where_a_level_text_breaks(self) -> None:
        for text, place in BREAKS.items():
            self.assertEqual(break_of(text), place, text)
        self.assertEqual(break_of(f"a:0,{'1' * 5000},"), (1, 5, "1" * 5000))
        for text in ("", "a:0,\n0,\n", "a b:0,:1,\r\n01,0,", "a:b:0,", f"a:0,{'0' * 5000},", "junk" * 1_000_000):
            self.assertIsNone(break_of(text), text)

    def test_a_comma_before_a_bracket_is_named_by_its_line(self) -> None:
        for text, place in (('[\n["a", ["", [], ""]],\n]', "line 2, letter 20"), ('[["a", ["", [0, ], ""]]]', "line 1, letter 15"), ('[["a", ["", [], "" ,\n\n]]]', "line 1, letter 20")):
            with self.assertRaises(Refused) as refused:
                sessions_in("s.json", text)
            self.assertIn(f"s.json, {place}: no JSON list of sessions (nothing follows the comma there", str(refused.exception))


@plays
class DayOfReasons(OnSessions):
    def test_the_program_refuses_each_of_these_rules(self) -> None:
        entries = [[rule, [f"{HEAD}[ Player ] -> [ Player ]\n{rule}\n{TAIL}", [], ""]] for rule in WRONG]
        answer = run("test", self.write("s.json", json.dumps(entries)))
        self.assertEqual(answer.out.count("(BadRule:16)"), len(WRONG))
        for rule, told in WRONG.items():
            self.assertIn(f"{rule}: refused: line 16 is no rule: {told} (BadRule:16)", answer.out)

    def test_a_reason_is_given_exactly_where_the_program_finds_no_rule(self) -> None:
        chance = random.Random(SEED)
        rules = [rule_by(chance) for _ in range(COUNT)]
        suite = self.write("s.json", json.dumps([["a", [f"{HEAD}late [ Player ] -> [ Player ]\n{it}\n{TAIL}", [], ""]] for it in rules]))
        closes = [it for it in map(json.loads, run("lines", suite).out.splitlines()) if "close" in it]
        for rule, close in zip(rules, closes):
            with self.subTest(rule):
                is_bad = close.get("cause") == "BadRule:16"
                told = reason_told("BadRule:16", f"{HEAD}late [ Player ] -> [ Player ]\n{rule}\n{TAIL}")
                self.assertTrue(bool(told) == is_bad or close.get("cause") == "OutsideProfile:16", f"{close.get('cause')}{told}")
        self.assertGreater(sum("cause" not in it for it in closes), COUNT // 50)

    def test_a_level_text_that_breaks_is_named_by_its_place(self) -> None:
        suite = self.write("s.json", json.dumps([["a", [HEAD + TAIL, [], "background:0,\njunk,"]]]))
        for verb in ("test", "lines"):
            self.assertIn("the recorded level of session 0 (a) is no level text: on line 2, letter 1 of it `junk` is no piece of one (bad-level 0)", run(verb, suite).errors)


if __name__ == "__main__":
    unittest.main()

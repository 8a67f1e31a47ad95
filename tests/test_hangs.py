"""In which input and in what a session hung: on small games, of which it was worked out by hand."""
from __future__ import annotations

import json
import unittest

from day import OnSessions
from tool import plays, run
from saxtegun.hangs import Finder, source_from, things_of
from saxtegun.lines import Frame, Run
from saxtegun.playing import Engine
from saxtegun.sessions import sessions_in

SOURCE = """title B
run_rules_on_level_start
OBJECTS
Background .
black
Player p
white
Crate c
brown
Spike s
red
Mark m
pink
LEGEND
COLLISIONLAYERS
Background
Player
Crate, Spike
Mark
RULES
%s
WINCONDITIONS
LEVELS
p.c
"""
# Rules from line 21 on, inputs, and where the session hangs.
HUNG = {
    # the mark goes to the crate at the end of the row, and makes of it a spike and a crate again
    "a group, behind a loop that comes to rest": (
        "[ > Player ] -> [ > Player Mark ]\nstartloop\nright [ Mark | ] -> [ | Mark ]\nendloop\n[ Mark Crate ] -> [ Mark Spike ]\n+ [ Mark Spike ] -> [ Mark Crate ]",
        [0, 3], "at input 0 (up); it is the group of lines 25 to 26 (loop-limit)",
    ),
    # only behind the step to the right the player stands beside the crate
    "a late group": (
        "late [ Player | Crate ] -> [ Player | Spike ]\n+ [ Player | Spike ] -> [ Player | Crate ]\n[ Crate ] -> [ Spike ]\n[ Spike ] -> [ Crate ]",
        [0, 3, 0], "at input 1 (right); it is the group of lines 21 to 22 (loop-limit)",
    ),
    # the player still heads right in the press, and is still in the tick behind it
    "a group in a tick by again": (
        "[ > Player ] -> [ > Player ] again\n[ stationary Player | Crate ] -> [ Player | Spike ]\n+ [ stationary Player | Spike ] -> [ Player | Crate ]",
        [0, 3, 0], "at input 1 (right), in a tick behind it; it is the group of lines 22 to 23 (loop-limit)",
    ),
    # each pass of the loop places the mark and takes it away
    "a loop": ("startloop\n[ > Player ] -> [ > Player Mark ]\n[ Mark ] -> [ ]\nendloop", [3], "at input 0 (right); it is in the loop of lines 21 to 24 (loop-limit)"),
    # the instance for left turns the player to the right, and the one for right back to the left
    "a rule by itself, in a loop": ("startloop\n[ > Player | Crate ] -> [ > Player | > Crate ]\n[ > Player ] -> [ < Player ]\nendloop", [3], "at input 0 (right); it is the rule on line 23 (loop-limit)"),
    "a rule at the start": ("[ Mark ] -> [ ]\n[ Crate ] -> [ Spike ]\n+ [ Spike ] -> [ Crate ]", [], "at the start; it is the group of lines 22 to 23 (loop-limit)"),
}


@plays
class DayOfHanging(OnSessions):
    def test_what_hung_is_found_out_by_playing(self) -> None:
        for title, (rules, inputs, wanted) in HUNG.items():
            with self.subTest(title):
                sessions = self.write("s.json", json.dumps([["a", [SOURCE % rules, inputs, "background:0,"]]]))
                self.assertIn(f"in its 200th pass {wanted}", run("test", sessions).out)


class Hanging(OnSessions):
    def test_a_program_that_has_no_answer_takes_none_away(self) -> None:
        program = self.write("program", "#!/bin/sh\nexit 2\n")
        program.chmod(0o755)
        sessions = sessions_in("s.json", json.dumps([["a", [SOURCE % "[ Crate ] -> [ ]", [3], ""]]]))
        hung = Run(0, "a", "stopped", "loop-limit", [Frame(0, "start", "background player:0,background:1,background crate:2,\n")])
        self.assertEqual(Finder(sessions, Engine(program=str(program))).told(sessions.entries[0], hung), "")

    def test_things_are_in_the_order_in_which_they_run(self) -> None:
        source = "RULES\nLATE [ a ] -> [ ]\n+ [ b ] -> [ ]\nstartloop\nlate up [ c ] -> [ ]\n[ late ] -> [ ]\nendloop\ndown [ d ] -> [ ]\n"
        found = [(it.name, sorted(it.lines), [sorted(inner.lines) for inner in it.inner]) for it in things_of(source)]
        self.assertEqual(found, [
            ("it is in the loop of lines 4 to 7", [4, 6, 7], [[6]]), ("it is the rule on line 8", [8], []),
            ("it is the group of lines 2 to 3", [2, 3], []), ("it is in the loop of lines 4 to 7", [4, 5, 7], [[5]]),
        ])

    def test_the_source_has_the_level_and_the_rules_that_are_kept(self) -> None:
        source = (SOURCE % "[ Mark ] -> [ ]\n(x) [ Crate ] -> [ ]").replace("LEGEND\n", "LEGEND\nb = Crate\n")
        made = source_from(source, [[("background", "player"), ("background",)]], {23})
        self.assertEqual(made, (SOURCE % "[ Crate ] -> [ ]").replace("run_rules_on_level_start\n", "").replace(
            "LEGEND\n", "LEGEND\nb = Crate\n\ue000 = background and player\n\ue001 = background\n").replace("p.c", "\ue000\ue001"))


if __name__ == "__main__":
    unittest.main()

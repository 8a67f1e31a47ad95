"""The cases of a rule decide it: for each error here, planted in the small engine by the rule book, a case of that rule fails."""
from __future__ import annotations

import ast
import unittest
from typing import Dict, List, Tuple

import planting
from tool import case_named

PLACED = 'cell[layer] = (name, kept if word is None else None if word == "stationary" else word)'
PLACES = 'placed = {layers[name]: (word, name) for word, name in right if word != "no"}'
UNNAMED = "cell.get(layer, (name,))[0] not in present | {name}"
STAYED = "before and set(before) <= set(self.players())"
MEMBERS = "items += [Item(it.word, member) for member in members]"
POSSIBLE = "if not all(self.is_possible(cell) for row in left for cell in row if cell != GAP):"
LOOSE = "any(row[0] == GAP or row[-1] == GAP for row in rows)"
MOVED = "self.move()"
EARLY, LATE = "self.run_all(game.early)", "self.run_all(game.late)"
BREAK = "\n        "
DEPTH = 'depth += {"(": 1, ")": -1}.get(letter, 0)'
UNCOMMENTED = "without_comments(section, depth, trimmed)"
GIVEN = 'elif given == "undo":'
KEPT = "if not self.has_loaded and self.level != before:"
ROUND = "to_rest(lambda: any([self.rest(group) for group in groups]))"
FROM_THE_FIRST = f"while groups:{BREAK}            did = [self.rest(it) for it in groups]{BREAK}            groups = groups[did.index(True):] if any(did) else []"
JOINED = '"orthogonal": CLASSES["orthogonal"], "horizontal": HORIZONTAL, "vertical": VERTICAL}'
TO = "to_x, to_y = x + STEPS[heading][0], y + STEPS[heading][1]"
CHANGED = "has_changed = level != self.level"
FREE = "layer not in self.level[to_x][to_y]"


def some_of(members: str, side: str) -> str:
    """Some members alone of a property under `no`, on one side."""
    return MEMBERS.replace("in members]", f'in (members[{members}] if it.word == "no" and any(cell is it for row in self.rule.{side} for it in row) else members)]')


def without(given: str, keyword: str) -> Tuple[str, str, str]:
    """An input that a keyword of the prelude switches off."""
    return f"`{keyword}` switches it off", GIVEN, f'elif given == {given} and "{keyword}" in self.game.options:{BREAK}    pass{BREAK}{GIVEN}'


# Of a rule and one of its cases: what an engine does, a text that stands once in the small engine, and what makes it do so.
ERRORS: Dict[Tuple[str, str], List[Tuple[str, str, str]]] = {
    ("match.placed", "a-placed-object-displaces-what-the-left-doesn-t-name"): [
        ("it stays beside what is placed", PLACED, PLACED.replace("[layer]", f"[-layer if {UNNAMED} else layer]")),
        ("nothing is placed where it stands", PLACED, PLACED.replace("= (", f"= cell[layer] if {UNNAMED} else (")),
    ],
    ("match.placed", "a-placed-object-is-still-where-the-left-has-a-movement-word"): [
        ("it heads as what stood there", "kept = None if layer in worded else before", "kept = before"),
    ],
    ("match.removed", "a-direction-that-a-removed-object-leaves-to-no-other-layer"): [
        ("nothing is removed but under `no`", "name in present or name in barred", "name in barred"),
    ],
    ("match.removed", "placed-and-under-no-on-the-right"): [
        ("it goes", PLACES, PLACES.replace('!= "no"', '!= "no" and name not in barred')),
    ],
    ("match.rest", "two-groups-that-undo-each-other-without-a-loop"): [
        ("all groups are run to rest as one", "                self.rest(part)", "                to_rest(lambda: any([self.rest(it) for it in parts if not isinstance(it, Loop)]))"),
    ],
    ("match.loop-limit", "two-rules-that-undo-each-other-stop-at-the-loop-limit"): [
        ("play goes on behind the limit", 'raise Stop("loop-limit")', "return True"),
    ],
    ("step.order", "early-groups-run-before-the-movement-and-late-ones-behind-it"): [
        ("late groups run before the movement", f"{MOVED}{BREAK}{LATE}", f"{LATE}{BREAK}{MOVED}"),
        ("early groups run behind it", f"{EARLY}{BREAK}{MOVED}", f"{MOVED}{BREAK}{EARLY}"),
    ],
    ("step.order", "loops-of-early-and-of-late-groups"): [
        ("late loops run before the movement", f"{MOVED}{BREAK}{LATE}", f"{LATE}{BREAK}{MOVED}"),
    ],
    ("step.order", "a-loop-with-an-early-and-a-late-group"): [
        ("late groups run before early ones", f"{EARLY}{BREAK}{MOVED}{BREAK}{LATE}", f"{LATE}{BREAK}{EARLY}{BREAK}{MOVED}"),
    ],
    ("step.player-moves", "a-press-that-moves-no-player-isn-t-kept-for-undo"): [
        ("nothing is cancelled", STAYED, "False"),
        ("a level that is the same is kept", "if not self.has_loaded and self.level != before:", "if not self.has_loaded:"),
    ],
    ("step.player-moves", "a-player-that-changes-in-place-hasn-t-moved"): [
        ("nothing is cancelled", STAYED, "False"),
    ],
    ("step.player-moves", "a-player-hasn-t-moved-if-another-stands-where-it-was"): [
        ("it has if another cell holds one too", STAYED, STAYED.replace("<=", "==")),
    ],
    ("step.player-moves", "one-of-two-players-that-moved-is-enough"): [
        ("a cell that still holds one is enough to cancel", STAYED, STAYED.replace("<=", "&")),
    ],
    ("step.player-moves", "a-tick-isn-t-subject-to-the-player-s-movement"): [
        ("it is", 'press is not None and "require_player_movement"', '"require_player_movement"'),
    ],
    ("step.player-moves", "without-any-player-a-step-isn-t-cancelled"): [
        ("it is", STAYED, STAYED.replace("before and ", "")),
    ],
    ("expand.no-property", "a-property-under-no-is-none-of-its-members"): [
        ("the first member alone is meant", MEMBERS, some_of(":1", "left")),
        ("the last member alone is meant", MEMBERS, some_of("-1:", "left")),
    ],
    ("expand.no-property", "what-a-rewriting-leaves-places-and-takes-away"): [
        ("the first member alone goes", MEMBERS, some_of(":1", "right")),
    ],
    ("expand.dropped", "a-right-is-not-asked-where-a-cell-of-its-left-can-t-be"): [
        ("none is dropped", POSSIBLE, "if False:"),
    ],
    ("checks.right-clash", "a-right-is-not-asked-where-a-cell-of-its-left-can-t-be"): [
        ("the right is asked first", POSSIBLE, f"self.check_clash(right){BREAK}        {POSSIBLE}"),
    ],
    ("rules.prefixes", "late-twice"): [
        ("it may stand there once", 'any(it != "late"', 'prefixes.count("late") > 1 or any(it != "late"'),
    ],
    ("rules.prefixes", "two-rules-that-undo-each-other-stop-at-the-loop-limit"): [
        ("a `+` rule is a group of its own", "if not joins:", "if True:"),
    ],
    ("expand.names", "each-member-of-an-aggregate-gets-the-word"): [
        ("the first alone gets it", MEMBERS, "items += [Item(None if number else it.word, member) for number, member in enumerate(members)]"),
    ],
    ("rules.class-words", "each-movement-word-on-the-left-fits-its-directions"): [
        ("action is no movement", '"moving": ("up", "down", "left", "right", "action")', '"moving": ("up", "down", "left", "right")'),
    ],
    ("legend.lines", "two-names-on-the-left"): [
        ("the first is defined", "len(left) != 1 or", "not left or"),
    ],
    ("wins.step", "without-win-lines-a-step-doesn-t-win"): [
        ("it does", "return bool(self.wins)", "return True"),
    ],
    ("wins.step", "a-tick-input-wins"): [
        ("a step doesn't win by the command", 'if "win" in given or self', "if self"),
    ],
    ("play.idle", "a-tick-input-wins"): [
        ("it is idle, as it changes nothing", '{"restart", "win"}', '{"restart"}'),
    ],
    ("play.commands", "a-restart-in-an-again-chain-ends-it"): [
        ("ticks follow", "            return self.restart()", "            return self.restart() or True"),
    ],
    ("play.checkpoint", "a-tick-that-sets-a-checkpoint"): [
        ("a press alone does", 'if "checkpoint" in given:', 'if "checkpoint" in given and kind == "move":'),
    ],
    ("play.checkpoint", "a-restart-command-goes-back-to-the-checkpoint"): [
        ("it is the level before the step", CHANGED, f'{CHANGED}{BREAK}if "checkpoint" in given:{BREAK}    self.target, given = copy_of(self.level), given - {{"checkpoint"}}'),
    ],
    ("play.start-ticks", "the-rules-run-at-the-start"): [
        ("they don't", "self.chain(self.starts())", "self.chain(False)"),
    ],
    ("play.past", "a-restart-command-can-be-undone"): [
        ("a restart is not kept", 'self.show("restart")', 'self.show("restart"); self.has_loaded = True'),
    ],
    ("play.restart-command", "a-restart-command-can-be-undone"): [
        ("the step is shown too", "            return self.restart()", f"            self.show(kind, level){BREAK}    return self.restart()"),
    ],
    ("play.undo", "undo-leaves-a-checkpoint-and-a-restart-can-be-undone"): [
        ("undo makes its level the target", 'self.show("undo")', 'self.show("undo"); self.target = copy_of(self.level)'),
    ],
    ("play.undo", "a-checkpoint-stays-when-the-step-that-set-it-is-undone"): [
        ("undo makes its level the target", 'self.show("undo")', 'self.show("undo"); self.target = copy_of(self.level)'),
    ],
    ("play.checkpoint", "a-checkpoint-stays-when-the-step-that-set-it-is-undone"): [
        ("it sets none", "self.target = copy_of(level)", "pass"),
    ],
    ("play.again-limit", "a-tick-input-counts-among-its-five-hundred-ticks"): [
        ("it doesn't", "self.chain(True)", "self.ticks = -1; self.chain(True)"),
    ],
    ("play.again-limit", "five-hundred-again-ticks-and-no-more"): [
        ("499 are run", "self.ticks == MOST_TICKS", "self.ticks == MOST_TICKS - 1"),
        ("501 are run", "self.ticks == MOST_TICKS", "self.ticks == MOST_TICKS + 1"),
    ],
    ("checks.gaps", "two-gaps-in-a-row"): [
        ("they are let through", "row.count(GAP) > 1", "row.count(GAP) > 2"),
    ],
    ("checks.gaps", "two-gaps-on-the-right-alone"): [
        ("the left alone is looked at", "any(row.count(GAP) > 1 for row in rows)", "any(row.count(GAP) > 1 for row in rule.left)"),
    ],
    ("checks.shape", "which-choice-a-right-takes-and-where-none-is-meant"): [
        ("a gap may come first", LOOSE, LOOSE.replace("row[0] == GAP or ", "")),
        ("a gap may come last", LOOSE, LOOSE.replace(" or row[-1] == GAP", "")),
    ],
    ("checks.shape", "a-gap-at-the-end-of-a-row"): [
        ("it is let through", LOOSE, LOOSE.replace(" or row[-1] == GAP", "")),
    ],
    ("checks.profile", "an-outside-word-as-a-name-in-a-cell"): [
        ("it is a name like others", '{"random", "randomdir", "rigid"}', '{"randomdir", "rigid"}'),
    ],
    ("play.undo", "undo-with-nothing-past-then-undo-of-two-moves"): [
        ("the past keeps the level", "self.past.pop() if", "self.past[-1] if"),
        ("the past is emptied", 'self.show("undo")', 'self.show("undo"); self.past = []'),
    ],
    ("play.past", "undo-leaves-a-checkpoint-and-a-restart-can-be-undone"): [
        ("a restart input isn't kept", KEPT, KEPT.replace(":", ' and given != "restart":')),
    ],
    ("play.past", "what-restart-and-undo-go-back-to-behind-loads-checkpoints-and-ticks"): [
        ("a restart input isn't kept", KEPT, KEPT.replace(":", ' and given != "restart":')),
        ("a tick input is", "self.chain(True)", "self.chain(True); self.past += [before] if self.level != before else []"),
    ],
    ("sections.options", "noaction-noundo-and-norestart-change-nothing"): [
        without("4", "noaction"),
        without('"undo"', "noundo"),
        without('"restart"', "norestart"),
        ("it makes the rules run at the start", '"run_rules_on_level_start" in self.game.options', "True"),
        ("it wants a player to move", 'press is not None and "require_player_movement" in game.options', "press is not None"),
    ],
    ("rules.directions", "directions-of-horizontal-are-left-and-right-alone"): [
        ("`horizontal` is left alone", JOINED, JOINED.replace("HORIZONTAL", "HORIZONTAL[:1]")),
        ("`horizontal` is right alone", JOINED, JOINED.replace("HORIZONTAL", "HORIZONTAL[1:]")),
        ("`horizontal` is all four", JOINED, JOINED.replace("HORIZONTAL", 'CLASSES["orthogonal"]')),
        ("`vertical` is up alone", JOINED, JOINED.replace("VERTICAL", "VERTICAL[:1]")),
        ("`vertical` is down alone", JOINED, JOINED.replace("VERTICAL", "VERTICAL[1:]")),
        ("`orthogonal` is horizontal", JOINED, JOINED.replace('CLASSES["orthogonal"]', "HORIZONTAL")),
    ],
    ("match.loops", "a-loop-goes-round-again-if-any-of-its-groups-changed-something"): [
        ("it does if the last did", ROUND, ROUND.replace("any(", "(").replace("])", "][-1])")),
        ("it begins again with the first that did", ROUND, FROM_THE_FIRST),
        ("it begins again as soon as one did", ROUND, ROUND.replace("[", "").replace("]", "")),
    ],
    ("text.comments", "a-comment-nests-to-any-depth"): [
        ("it nests once", DEPTH, f"{DEPTH}; depth = min(depth, 2)"),
        ("it nests three times", DEPTH, f"{DEPTH}; depth = min(depth, 4)"),
    ],
    ("text.comments", "an-unclosed-comment-hides-even-a-heading"): [
        ("it ends with its line", UNCOMMENTED, UNCOMMENTED.replace("depth", "0")),
        ("it ends at a heading", UNCOMMENTED, UNCOMMENTED.replace("depth", "0 if fold(trimmed) in SECTIONS else depth")),
        ("it is a fault", "return lines, headings", 'if depth: raise Fault("Section", 0)\n    return lines, headings'),
    ],
    ("move.passes", "movement-that-is-blocked-is-gone-in-the-tick-that-follows"): [
        ("what is blocked goes on heading", "cell[layer] = (name, None)", "pass"),
    ],
    ("move.object", "movement-stays-on-the-map-and-goes-over-targets"): [
        ("it comes in on the other side", TO, f"{TO}; to_x, to_y = to_x % self.width, to_y % self.height"),
        ("any object but the background stops it", FREE, "len(self.level[to_x][to_y]) == 1"),
    ],
}


class Decided(unittest.TestCase):
    def test_a_case_of_the_rule_fails_for_each_error(self) -> None:
        """By another answer, and not by none."""
        text = planting.ENGINE.read_text(encoding="utf-8")
        for (rule, name), errors in ERRORS.items():
            read = case_named(name)
            case = planting.played_case(read)
            assert case is not None
            self.assertIn(rule, read.rules)
            self.assertEqual(self.answer(text, case), case.wanted)
            for does, old, new in errors:
                with self.subTest(name, does=does):
                    self.assertEqual(text.count(old), 1)
                    answer = self.answer(text.replace(old, new), case)
                    self.assertIsInstance(answer, tuple)
                    self.assertNotEqual(answer, case.wanted)

    def answer(self, text: str, case: planting.Case) -> planting.Written:
        return planting.played(planting.module_of(ast.parse(text)), case.entries, case.order)


if __name__ == "__main__":
    unittest.main()

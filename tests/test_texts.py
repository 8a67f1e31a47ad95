"""Over which text a session is played: where it brings one of its own that isn't the one at hand, each answer says so, and no answer is green by it."""
from __future__ import annotations

import json
import re
import subprocess
import sys
import unittest
from difflib import get_close_matches
from pathlib import Path
from random import Random
from typing import Any, Callable, List, Sequence, Tuple
from xml.etree import ElementTree

from day import OnSessions
from test_test import RULE, OfAGame
from tool import TOP, environment, plays, run
from saxtegun.commands import Refused, cut
from saxtegun.sessions import Entry, fault_of, is_nearly_demand, sessions_in
from saxtegun.texts import GameText, remedy

STUCK = "[ > Player | Crate ] -> [ Player | Crate ]"


class OfTwoTexts(OfAGame):
    """Tests where a recording of the game has its own text, and another follows the game."""

    def setUp(self) -> None:
        super().setUp()
        name, body = self.entries[0]
        self.own: List[Any] = [f"own {name}", [self.source, *body[1:]]]
        self.mixed = self.write_entries([self.entries[0], self.own], "mixed.json")

    def remark(self, path: Path, word: str = "1 session has") -> str:
        return f"{path}: {word} another text than {self.game} ("

    def remedy(self, path: Path, it: str = "it") -> str:
        return f"`saxtegun source {self.game} {path} --follow --in-place` makes {it} follow {self.game}\n"


class Remedies(unittest.TestCase):
    def remedy(self, *sources: str, game: str = "title A\n") -> Any:
        return remedy("s.json", [Entry(it, "a", text, [], "", 0, {}, False) for it, text in enumerate(sources)], GameText("game.txt", game))

    def test_no_call_is_proposed_that_takes_the_text_of_another_game_away(self) -> None:
        call = "`saxtegun source game.txt s.json --follow --in-place`"
        self.assertEqual(self.remedy("title A\n\n", "title A\nrun\n"), f"{call} makes them follow game.txt")
        self.assertEqual(self.remedy("title B\n"), "by its title it is of another game")
        self.assertEqual(self.remedy("title B\n", "title C\n"), "by their titles they are of other games")
        alone = f"not all have its title: with --only NAME behind it {call} makes one follow that is of game.txt"
        self.assertEqual(self.remedy("title A\n\n", "title B\n"), alone)
        for texts in (("run\n",), ("run\n", "title B\n")):
            self.assertEqual(self.remedy(*texts), alone)
        self.assertEqual(self.remedy("run\n", game="walk\n"), alone.replace("not all have its title", "not all have a title"))


@plays
class DayOfTexts(OfTwoTexts):
    def test_the_same_text_is_no_other(self) -> None:
        self.game.write_bytes(self.source.replace("\n", "\r\n").encode() + b"\r\n\r\n")
        answer = run("test", self.game, self.mixed)
        self.assertEqual((answer.status, "another text" in answer.out), (0, False))

    def test_a_text_that_its_end_or_its_line_ends_make_too_long_is_another(self) -> None:
        """It is refused, so it is no text over which a recording passes, and none that it may follow."""
        longer = "(c)\n" * 210_000
        for own, text in ((self.source, self.source + "\n" * 2**20), (longer + self.source, (longer + self.source).replace("\n", "\r\n"))):
            self.own[1][0] = own
            alone = self.write_entries([self.own], "alone.json")
            self.game.write_bytes(text.encode())
            self.assertGreater(self.game.stat().st_size, 2**20)
            answer = run("test", self.game, alone)
            self.assertEqual(answer.status, 1, answer.out)
            self.assertIn(f"over its own text, but not over {self.game}: refused: the source is longer than 1,048,576 bytes", answer.out)
            (self.room / "new.json").unlink(missing_ok=True)
            answer = run("add", self.room / "new.json", alone, "--game", self.game)
            self.assertEqual((answer.status, json.loads((self.room / "new.json").read_text())[0][1][0]), (0, own))
            self.assertIn(self.remark(self.room / "new.json"), answer.errors)

    def test_what_passes_over_both_texts_is_green_with_a_remark(self) -> None:
        self.write("game.txt", self.source + "\nmessage the end\n")
        answer = run("test", self.game, self.mixed)
        self.assertEqual(answer.status, 0)
        self.assertIn(self.remark(self.mixed), answer.out)
        self.assertIn(self.remedy(self.mixed), answer.out)

    def test_what_passes_over_its_own_text_alone_is_red(self) -> None:
        self.with_rule(STUCK)
        alone = self.write_entries([self.own, self.own], "alone.json")
        answer = run("test", self.game, alone)
        self.assertEqual(answer.status, 1)
        self.assertIn(f"session 0, own both levels solved: passed: over its own text, but not over {self.game}: differs: ", answer.out)
        self.assertNotIn("passed, solved", answer.out)
        self.assertIn("2 sessions: 2 passed, 0 differ, 0 stopped, 0 refused, 2 only over its own text", answer.out)
        self.assertIn(self.remark(alone, "2 sessions have"), answer.out)
        self.assertIn(self.remedy(alone, "them"), answer.out)

    def test_a_report_lists_what_failed_over_the_game_alone(self) -> None:
        """The first passes over both texts, the others over their own; the last two must be solved, over both and over the game."""
        self.with_rule(STUCK)
        quiet: List[Any] = ["quiet", [self.source, [], self.entries[3][1][2]]]
        start = [it for it in self.lines.read_text(encoding="utf-8").splitlines() if '"session":0}' in it][0]
        quiet[1][2] = json.loads(start)["level"]
        suite = self.write_entries([quiet, self.own, [*quiet, "solved"], ["follows", ["", *quiet[1][1:]], "solved"]], "suite.json")
        page = self.room / "page.html"
        answer = run("test", self.game, suite, "--report", page)
        self.assertEqual(answer.status, 1)
        text = page.read_text(encoding="utf-8")
        rows = re.findall(r'\["([^"]*)","(passed|failed|differs)",\d+\]', text)
        self.assertEqual(rows, [("quiet", "passed"), (self.own[0], "failed"), ("quiet", "failed"), ("follows", "failed")])
        self.assertIn(f'"told":"passed: over its own text, but not over {self.game}: differs: ', text)
        self.assertIn(f'"told":"passed: over its own text, but over {self.game} no longer solved: not solved"', text)
        self.assertIn('"told":"passed: no longer solved: not solved"', text)

    def test_the_remedy_makes_them_follow(self) -> None:
        self.with_rule(STUCK)
        self.assertEqual(run("source", self.game, self.mixed, "--follow", "--in-place").status, 0)
        self.assertEqual([it[1][0] for it in json.loads(self.mixed.read_text(encoding="utf-8"))], ["", ""])
        answer = run("test", self.game, self.mixed)
        self.assertEqual((answer.status, "another text" in answer.out), (1, False))
        self.assertIn("2 sessions: 0 passed, 2 differ", answer.out)

    def test_every_verb_with_a_game_says_it(self) -> None:
        self.with_rule(STUCK)
        console = self.write("console.txt", json.dumps(self.own))
        calls = [
            ("accept", self.mixed, "--game", self.game), ("explain", self.mixed, "--game", self.game), ("report", self.mixed, "--game", self.game),
            ("lines", self.mixed, "--game", self.game), ("coverage", self.game, self.mixed), ("compare", "--sources", self.game, self.game, self.mixed),
            ("add", self.mixed, console, "--game", self.game),
        ]
        for words in calls:
            with self.subTest(words[0]):
                self.assertIn(self.remark(self.mixed), run(*words).errors)

    def test_what_passes_over_its_own_text_alone_fails_in_a_report_and_for_a_ci(self) -> None:
        self.with_rule(STUCK)
        why = f"over its own text, and was not played over {self.game}"
        page = run("report", self.mixed, "--game", self.game).out
        blocks = {name: json.loads(text) for name, text in re.findall('<script type="application/json" id="(index|session-1)">([^<]*)<', page)}
        self.assertEqual(([row[1] for row in blocks["index"]["sessions"]], blocks["session-1"]["told"]), (["differs", "failed"], f"passed: {why}"))
        lines = self.write("lines", run("lines", self.mixed, "--game", self.game).out)
        suite = ElementTree.fromstring(run("junit", self.mixed, lines, "--game", self.game).out)[0]
        self.assertEqual((suite.get("failures"), [it[0].get("message") for it in suite][1]), ("2", why))
        self.assertEqual(ElementTree.fromstring(run("junit", self.mixed, lines).out)[0].get("failures"), "1")
        told = run("explain", self.mixed, lines, "--game", self.game).out
        self.assertIn(f"session 1, {self.own[0]}: passed: {why}\n", told)
        self.assertEqual(told.splitlines()[-1], "2 sessions: 1 passed, 1 differs, 0 stopped, 0 refused, 1 only over its own text")

    def test_a_verb_that_is_asked_for_a_session_of_another_text_says_that_it_did_nothing(self) -> None:
        self.with_rule(STUCK)
        name = self.own[0]
        accepted = run("accept", self.mixed, "--game", self.game, "--only", name)
        self.assertEqual((accepted.status, accepted.out), (1, self.mixed.read_text(encoding="utf-8")))
        self.assertIn(f"accept: session 1, {name}: passed, not accepted: it was played over its own text, and not over {self.game}\n", accepted.errors)
        moved = run("accept", self.mixed, "--game", self.game, "--only", name, "--reindex")
        self.assertEqual((moved.status, moved.out), (1, accepted.out))
        self.assertIn(f"accept: session 1, {name}: its index 0 stays: it was played over its own text, and not over {self.game}\naccept: 0 of 2 indices changed\n", moved.errors)
        mended = run("mend", self.game, self.mixed, "--only", name)
        self.assertEqual((mended.status, mended.out), (1, f"session 1, {name}: not mended: it has another text than {self.game}\n0 of 2 recordings mended\n"))
        # two texts are compared, whatever the session's own is
        old = self.write("old.txt", self.source)
        self.assertEqual(run("why", self.game, self.mixed, "--number", "1", "--old", old).status, 1)

    def test_a_line_of_a_text_of_its_own_is_not_named_in_the_text_at_hand(self) -> None:
        number = self.source[: self.source.index(RULE)].count("\n") + 1
        own = [self.own[0], [self.source.replace(RULE, f"random {RULE}"), *self.own[1][1:]]]
        suite, console = self.write_entries([self.entries[0], own], "own.json"), self.write("console.txt", json.dumps(own))
        test = run("test", self.game, suite, "--github")
        self.assertEqual(test.status, 1)
        self.assertIn(f"::error file={suite},line=1,title=", test.out)
        for told in (test.out, run("explain", suite, "--game", self.game).out, run("add", self.room / "new.json", console, "--game", self.game).errors):
            self.assertIn(f"line {number} has what is not played here", told)
            self.assertNotIn(f"{self.game}:{number}", told)

    def test_an_added_recording_follows_the_text_at_hand(self) -> None:
        new = self.room / "new.json"
        answer = run("add", new, "--game", self.game, stdin=json.dumps(self.own).encode())
        self.assertEqual((answer.status, json.loads(new.read_text(encoding="utf-8"))[0][1][0]), (0, ""))
        self.with_rule(STUCK)
        self.assertEqual(run("test", self.game, new).status, 1)

    def test_a_forgotten_text_is_called_that(self) -> None:
        for verb in ("test", "explain", "accept"):
            answer = run(verb, self.recordings)
            self.assertIn("which stands for a game's, and no game's text is named", answer.out + answer.errors)
            self.assertNotIn("a section that must be there", answer.out + answer.errors)

    def test_explaining_and_lines_take_the_text(self) -> None:
        self.assertEqual(run("explain", self.recordings, "--game", self.game).out, run("explain", TOP / "examples/block-pushing.json").out)
        self.assertEqual(run("lines", self.recordings, "--game", self.game).out, run("lines", TOP / "examples/block-pushing.json").out)


@plays
class DayOfDemands(OfAGame):
    def test_a_pattern_that_fits_nothing_is_no_demand(self) -> None:
        for words in (("--solved", "lvel*"), ("--solved", "half*", "--solved", "lvel*"), ("--filter", "half*", "--filter", "lvel*")):
            self.assert_refused(run("test", self.game, self.recordings, *words), f"{words[-2]} fits no session (lvel*)")

    def test_a_demand_with_a_slip_is_refused(self) -> None:
        suite = self.write_entries([[*self.entries[0], "slved"]])
        self.assert_refused(run("test", self.game, suite), "session 0, line 1: its further element \"slved\" is nearly \"solved\", and would demand nothing")
        self.assertEqual(run("test", self.game, self.write_entries([[*self.entries[0], "by hand"]])).status, 0)


class Demands(unittest.TestCase):
    def test_what_is_meant_to_demand_and_does_not_is_refused(self) -> None:
        body = ["", [], ""]
        for it in ("solved", "Solved", ["solved"]):
            for within in ([None, it], [None, "1716.5", it]):
                self.assertEqual(fault_of(["a", [*body, *within]]), 'its second list holds "solved" or nearly that, which would demand nothing there: it stands behind that list')
        for it in ("slved", "Solved", "solve", "solevd", "soved", "xsolved", "must be solved", "to be solved", "SOLVED NOW", "\u2713solved", "solved " * 1000):
            self.assertEqual(fault_of(["a", body, 1, it]), f'its further element "{cut(it)}" is nearly "solved", and would demand nothing')
        demands: List[Any] = [["solved"], {"solved": True}, {"must": "be Solved"}, [[{"a": [1, "solved"]}]]]
        for demand in demands:
            told = "a list" if isinstance(demand, list) else "an object"
            self.assertEqual(fault_of(["a", body, demand]), f'its further element that is {told} holds "solved", and would demand nothing')
        ignored: List[Any] = ["solved", "by hand", "", "so", "salad", "1716.5", "love", "told you", True, None, 0, [], {}, [["slved"]], {"by": ["hand"]}]
        for element in ignored:
            self.assertIsNone(fault_of(["a", body, element]), element)

    def test_what_is_no_json_for_the_program_is_refused_where_it_is_ignored_too(self) -> None:
        """Two lists stand around what follows the body, and three around what follows the index; a member is read though another has its name."""
        half, deep = "a text of it holds half a letter", "its lists and objects are more than 127 deep"
        for text, what in (
            ('"\\ud800"', half), ('["\\udc00\\ud800"]', half), ('{"\\ud800":1}', half), ('{"a":"\\udc00"}', half), ('{"a":"\\udc00","a":1}', half), ('"\\ud83d\\ude00"', ""),
            ("[" * 124 + "]" * 124, ""), ('{"a":' * 124 + "1" + "}" * 124, ""), ("[" * 126 + "]" * 126, deep), ('{"a":' * 126 + "1" + "}" * 126, deep), ('{"a":' + "[" * 125 + "]" * 125 + ',"a":1}', deep),
        ):  # fmt: skip
            for entry in (f'["a",["",[],""],{text}]', f'["a",["",[],"",0,{text}]]'):
                if what:
                    self.assertRaisesRegex(Refused, f"^s.json, session 0, line 1: {what}", sessions_in, "s.json", f"[{entry}]")
                else:
                    self.assertEqual(len(sessions_in("s.json", f"[{entry}]").entries), 1)
        deepest = "[" * 125 + "]" * 125
        self.assertEqual(len(sessions_in("s.json", f'[["a",["",[],""],{deepest}]]').entries), 1)
        self.assertRaisesRegex(Refused, deep, sessions_in, "s.json", f'[["a",["",[],"",0,{deepest}]]]')

    def test_what_is_nearly_the_word_is_so_by_its_letters_in_their_order(self) -> None:
        """What difflib finds so alike, and not much else."""
        tried = Random(0)
        for _ in range(20_000):
            word = "".join(tried.choice("solvedxy") for _ in range(tried.randrange(3, 11)))
            is_alike = bool(get_close_matches(word, ["solved"], cutoff=0.8))
            self.assertTrue(is_nearly_demand(word) or not is_alike or word == "solved", word)


class Believed(OnSessions):
    """A program that lies, or says nothing."""

    def program(self, lines: Sequence[str], status: int = 0) -> Path:
        file = self.write("program", f"#!/bin/sh\ncat <<'END'\n{lines}END\nexit {status}\n")
        file.chmod(0o755)
        return file

    def test_a_close_that_its_level_denies_is_not_believed(self) -> None:
        lying = self.lines.read_text(encoding="utf-8").replace('"close":"differs"', '"close":"passed"')
        for verb in ("test", "explain", "accept"):
            answer = run(verb, TOP / "examples/block-pushing.json", "--program", self.program(lying))
            self.assert_refused(answer, "what the program wrote, line ")
            self.assertIn("session 4 is closed as passed, and its last level says otherwise", answer.errors)

    def test_a_program_that_says_nothing_has_not_played(self) -> None:
        for verb in ("test", "explain", "accept"):
            answer = run(verb, TOP / "examples/block-pushing.json", "--program", self.program(""))
            self.assertEqual((answer.status, answer.out), (2, ""))


# An engine that waits for a file, and so plays as long as a test wants.
WAITS = """#!/bin/sh
touch {room}/plays
while ! test -e {room}/go; do sleep 0.05; done
cat {lines}
exit 1
"""


class Meanwhile(OnSessions):
    """Where another command changes the file while one plays."""

    def setUp(self) -> None:
        super().setUp()
        self.suite = self.write("suite.json", (TOP / "examples/block-pushing.json").read_text(encoding="utf-8"))
        self.program = self.write("program", WAITS.format(room=self.room, lines=self.lines))
        self.program.chmod(0o755)

    def beside(self, *words: object, change: Callable[[], object]) -> Tuple[int, str]:
        """The answer of a call while whose play something is changed."""
        command = [sys.executable, TOP / "saxtegun", *words, "--program", self.program]
        with subprocess.Popen(list(map(str, command)), stdin=subprocess.DEVNULL, stdout=subprocess.PIPE, stderr=subprocess.PIPE, env=environment()) as ran:
            while not (self.room / "plays").exists() and ran.poll() is None:
                pass
            change()
            self.write("go", "")
            errors = ran.communicate()[1].decode()
        return ran.returncode, errors

    def test_accepting_refuses_to_overwrite(self) -> None:
        more = '[["other", ["", [], ""]]]'
        status, errors = self.beside("accept", self.suite, "--in-place", change=lambda: self.suite.write_text(more, encoding="utf-8"))
        self.assertEqual((status, self.suite.read_text(encoding="utf-8")), (2, more))
        self.assertIn("suite.json was changed since it was read: call this again", errors)

    def test_adding_keeps_what_another_has_added(self) -> None:
        entries = json.loads(self.suite.read_text(encoding="utf-8"))
        console = self.write("console.txt", json.dumps(entries))
        new = self.write("new.json", "[]")
        status, errors = self.beside("add", new, console, "--anyway", change=lambda: new.write_text('[["other", ["", [], ""]]]', encoding="utf-8"))
        self.assertEqual((status, [it[0] for it in json.loads(new.read_text(encoding="utf-8"))]), (0, ["other", *(it[0] for it in entries)]), errors)

    def test_a_place_that_can_not_be_written_is_told_before_the_play(self) -> None:
        for words in (("test", self.suite, "--report", self.room / "no/where"), ("add", self.room / "no/where.json", self.suite)):
            answer = run(*words, "--program", self.program)
            self.assertEqual((answer.status, (self.room / "plays").exists()), (2, False))
            self.assertIn("can't be written", answer.errors)


@plays
class DayOfManyHands(OfAGame):
    def test_six_who_add_at_once_add_six(self) -> None:
        new = self.room / "new.json"
        whole = json.loads((TOP / "examples/block-pushing.json").read_text(encoding="utf-8"))[0]
        ran = []
        for number in range(6):
            console = self.write(f"console{number}.txt", json.dumps([f"walk {number}", whole[1][:1] + [whole[1][1][:number]] + whole[1][2:]]))
            words = [sys.executable, TOP / "saxtegun", "add", new, console, "--anyway"]
            ran.append(subprocess.Popen(list(map(str, words)), stderr=subprocess.DEVNULL, env=environment()))
        self.assertEqual([it.wait() for it in ran], [0] * 6)
        self.assertEqual(sorted(it[0] for it in json.loads(new.read_text(encoding="utf-8"))), [f"walk {it}" for it in range(6)])


if __name__ == "__main__":
    unittest.main()

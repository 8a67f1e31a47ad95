"""Recordings in any text: each form of tests/forms gives the recordings that tests/forms/expected.json names, which were written down as the forms were made, and
skips what it names. The same files hold for whatever else looks for recordings, such as the page."""
from __future__ import annotations

import json
import time
import unittest
from typing import List, Tuple

from day import OnSessions
from test_test import OfAGame
from tool import TOP, Answer, InARoom, plays, run
from saxtegun.files import read_any_text
from saxtegun.commands import Refused
from saxtegun.recording_search import MOST_SKIPPED, find
from saxtegun.sessions import MOST_ENTRIES, sessions_in

FORMS = TOP / "tests/forms"
EXPECTED = json.loads((FORMS / "expected.json").read_text(encoding="utf-8"))
CODES = ("compiler", "cut-off")
# What is said of a form that has no recording.
SAID = {
    "empty": "it is empty: in PuzzleScript's editor play, press Ctrl+J, and copy all that the console prints then",
    "blank": "it is empty: ",
    "prose-alone": "it has no recording: in PuzzleScript's editor play, press Ctrl+J",
    "game": "it is a game's text: in PuzzleScript's editor play, press Ctrl+J",
    "objects": "it has objects in braces, and a recording is a list",
    "compiler-alone": "line 1: skipped what the compiler printed, which is no recording: one is printed below it, by Ctrl+J after you played",
    "cut-off-in-its-level": "line 1: skipped a recording that is cut off: copy it again, up to its last bracket",
    "cut-off-in-its-source": "line 1: skipped a recording that is cut off",
    "input-that-is-none": "line 1: skipped a recording with a fault: its input 2 is neither 0 to 4 nor undo, restart or tick",
}


class Bounds(OnSessions):
    """A text of short recordings takes a hundred times its size in memory, so no more are looked for than a sessions file takes."""

    def test_no_more_recordings_are_read_than_a_sessions_file_takes(self) -> None:
        text = '["n",["t",[],""]]\n'
        self.assertEqual(len(find(text * MOST_ENTRIES).found), MOST_ENTRIES)
        with self.assertRaisesRegex(Refused, "^it has more than 65,536 recordings, whole or not, which no sessions file takes$"):
            find(text * (MOST_ENTRIES + 1))
        for more in ("'[\"\",[\"\",[9],\"\"]]' ", "'[\"\",[\"\",[],\"\"]]' "):
            with self.assertRaisesRegex(Refused, "^it has more than 65,536 recordings, whole or not"):
                find(more * (MOST_SKIPPED + 1))
        path = self.room / "many.txt"
        path.write_text(text * (MOST_ENTRIES + 1))
        self.assert_refused(run("testdata", path), f"{path}: it has more than 65,536 recordings")

    def test_no_more_sessions_are_read_than_a_file_may_have(self) -> None:
        entry = '["",["",[],""]]'
        self.assertEqual(len(sessions_in("f", f"[{','.join([entry] * MOST_ENTRIES)}]").entries), MOST_ENTRIES)
        with self.assertRaisesRegex(Refused, "^f has more than 65,536 sessions: play it in parts, by saxtegun split$"):
            sessions_in("f", f"[{','.join([entry] * (MOST_ENTRIES + 1))}]")


class Forms(unittest.TestCase):
    def test_what_is_no_recording_is_passed_over(self) -> None:
        for text in ('["undo"]', 'x ["tick", 3]', '["a",["s",[1\u0663],"x"]]', '["a",["s",[\u0663],"x"]]'):
            with self.subTest(text):
                self.assertEqual(find(text), ([], []))

    def test_each_form_gives_its_recordings(self) -> None:
        self.assertEqual(sorted(it.stem for it in FORMS.glob("*.txt")), sorted(EXPECTED["forms"]))
        for form, expected in EXPECTED["forms"].items():
            with self.subTest(form):
                findings = find(read_any_text(str(FORMS / f"{form}.txt")))
                took = [[it.name, dict(zip(("source", "inputs", "level", "index"), json.loads(it.body)))] for it in findings.found]
                self.assertEqual(took, [[name, EXPECTED["recordings"][key]] for name, key in expected["took"]])
                self.assertEqual([it.what if it.what in CODES else "fault" for it in findings.skipped], expected["skipped"])

    def test_a_form_without_a_recording_says_what_to_do(self) -> None:
        self.assertEqual(sorted(SAID), sorted(form for form, it in EXPECTED["forms"].items() if not it["took"]))
        for form, said in SAID.items():
            for verb in ("add", "testdata"):
                with self.subTest(form, verb=verb):
                    answer = run(verb, *([TOP / "tests/none.json"] if verb == "add" else []), FORMS / f"{form}.txt")
                    self.assertEqual((answer.status, answer.out), (2, ""))
                    self.assertIn(said, answer.errors)

    def test_behind_what_is_escaped_in_vain_the_search_goes_on(self) -> None:
        body = '["title x",[1],"",0]'
        for before in ('[\\"a\\", ', '"[\\"a\\"]" ', "`['a\\`['` ", "[\\'a", "\u201e[\u201e "):
            with self.subTest(before):
                self.assertEqual([(it.name, it.body) for it in find(f'{before}["a", {body}]').found], [("a", body)])

    def test_a_number_that_is_too_long_to_be_one_is_passed_over(self) -> None:
        number, body = "1" * 5000, '["title x",[1],"",0]'
        for long in (f'["b",["title x",[1],"",{number}]]', f'["b",["title x",[1,{number}],"",0]]', f'["b",{number},["title x"]]', f'[{number}]'):
            with self.subTest(long[:20]):
                found = find(f'{long} ["a", {body}]')
                self.assertEqual([(it.name, it.body) for it in found.found], [("a", body)])

    def test_a_number_of_a_letter_in_html_may_be_too_long_to_be_one(self) -> None:
        for number, letter in (("1" * 5000, "\ufffd"), ("0" * 5000 + "65", "A")):
            found = find(f'[&quot;a&quot;, [&quot;title x&#{number};&quot;,[1],&quot;&quot;,0]]').found
            self.assertEqual([(it.name, json.loads(it.body)) for it in found], [("a", [f"title x{letter}", [1], "", 0])])

    def test_twice_the_text_takes_about_twice_the_time(self) -> None:
        text = (FORMS / "console-with-headings.txt").read_text(encoding="utf-8")
        for piece, each in ((text, 1), ("[ > Player | Crate ] -> [ > Player ]\n", 0)):
            count = 1_600_000 // len(piece)
            self.assertLess(self.seconds_for(piece, 2 * count, each), 3 * self.seconds_for(piece, count, each))

    def seconds_for(self, piece: str, count: int, each: int) -> float:
        """The least of the processor that a search takes in so many pieces, with so many recordings in each."""
        times = []
        for _ in range(3):
            began = time.process_time()
            self.assertEqual(len(find(piece * count).found), each * count)
            times.append(time.process_time() - began)
        return min(times)


class TestData(InARoom):
    def test_entries_are_written_as_they_are(self) -> None:
        answer = run("testdata", FORMS / "test-data.txt")
        entries = [["Two Steps", [*EXPECTED["recordings"]["walk"].values(), "1716.5"]], ["standing still", [*EXPECTED["recordings"]["stay"].values()]]]
        self.assertEqual((answer.status, json.loads(answer.out), answer.errors), (0, entries, "testdata: 2 entries\n"))

    def test_one_without_a_name_gets_its_title_and_level(self) -> None:
        self.assertEqual(json.loads(run("testdata", FORMS / "body-alone.txt").out)[0][0], "Two Steps, level 1")

    def test_what_stands_behind_the_body_stays_where_only_brackets_are_missing(self) -> None:
        whole = '["a",["title x\\nOBJECTS",[1],"b:0,",0],"solved",7'
        for end in ("]", "", "\n", "\nVM1: more", "] "):
            self.assertEqual([it.rest for it in find(whole + end).found], [('"solved"', "7")], end)
        for end in ('["a",["title x\\nOBJECTS",[1],"b:0,",0],"sol', "[\"a\",[\"title x\\nOBJECTS\",[1],\"b:0,\",0],'solved", '["a",["title x\\nOBJECTS",[1],"b:0,",0],7,"'):
            found = find(end)
            self.assertEqual((found.found, [it.what for it in found.skipped]), ([], ["cut-off"]), end)

    def test_what_is_cut_off_gives_status_1(self) -> None:
        answer = run("testdata", FORMS / "cut-off-and-then-whole.txt")
        self.assertEqual((answer.status, len(json.loads(answer.out))), (1, 1))
        self.assertIn("line 1: skipped a recording that is cut off", answer.errors)

    def test_what_can_not_be_read_is_reported_in_a_line(self) -> None:
        (self.room / "latin").write_bytes(b"['\xe4']")
        for words in ((self.room / "nothing",), (self.room,), (self.room / "latin",), ("-",), ()):
            answer = run("testdata", *words)
            self.assertEqual((answer.status, answer.out, answer.errors.count("\n")), (2, "", 1))
        self.assertEqual(run("testdata", "--help").status, 0)


@plays
class DayOfForms(OfAGame):
    def added(self, form: str, *words: object) -> Tuple[Answer, List[str]]:
        """The names in a file to which a form was added."""
        suite = self.room / "new.json"
        answer = run("add", suite, FORMS / f"{form}.txt", *words)
        return answer, [it[0] for it in json.loads(suite.read_text(encoding="utf-8"))] if suite.exists() else []

    def test_each_form_with_a_recording_is_added(self) -> None:
        for form, expected in EXPECTED["forms"].items():
            if not expected["took"]:
                continue
            with self.subTest(form):
                answer, names = self.added(form)
                self.assertEqual(answer.status, 1 if {"cut-off", "fault"} & set(expected["skipped"]) else 0, answer.errors)
                self.assertEqual(len(names), len({key for _, key in expected["took"]}))
                (self.room / "new.json").unlink()

    def test_no_two_names_are_alike(self) -> None:
        self.assertEqual(self.added("entries-in-a-row")[1], ["Two Steps, level 1", "standing still"])
        self.assertEqual(self.added("single-quotes-and-undefined")[1], ["Two Steps, level 1", "standing still"])
        suite = self.room / "new.json"
        entries = json.loads(suite.read_text(encoding="utf-8"))
        suite.write_text(json.dumps([["Two Steps, level 1", [*entries[1][1][:1], [3], *entries[1][1][2:]]]]), encoding="utf-8")
        self.assertEqual(self.added("entry")[1], ["Two Steps, level 1", "Two Steps, level 1 (2)"])
        suite.unlink()
        self.assertEqual(self.added("list-of-entries", "--name", "mine")[1], ["mine", "mine (2)"])

    def test_the_same_recording_is_not_added_again(self) -> None:
        self.added("entry")
        answer, names = self.added("html", "--name", "another")
        self.assertEqual((answer.status, names), (0, ["Two Steps, level 1"]))
        self.assertIn("add: Two Steps, level 1: is there already, as Two Steps, level 1: not added again\n", answer.errors)


if __name__ == "__main__":
    unittest.main()

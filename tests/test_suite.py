"""`saxtegun split` and `saxtegun join`: a suite that is played in parts gives the lines and the status of the whole.

The suites are conformance cases of several sessions, whose lines and status were worked out by hand. What a program writes for a part
are the lines of the part's sessions, numbered from 0.
"""
from __future__ import annotations

import json
import re
import unittest
from itertools import accumulate
from pathlib import Path
from typing import List

from tool import TOP, Answer, InARoom, case_named, run

SESSION = re.compile(r'"session":(\d+)}$')
SUITES = ("nine-sessions-with-workers-1", "the-second-of-three-sessions-has-a-refused-source")


def part_lines(whole: str, first: int, behind: int) -> str:
    """Of the lines of a whole file those of the sessions from the first to the one behind the last, numbered from 0."""
    lines = []
    for line in whole.splitlines(keepends=True):
        number = int(SESSION.findall(line.rstrip("\n"))[0])
        if first <= number < behind:
            lines.append(SESSION.sub(f'"session":{number - first}}}', line.rstrip("\n")) + "\n")
    return "".join(lines)


class Suite(InARoom):
    def setUp(self) -> None:
        super().setUp()
        self.parts = self.room / "parts"

    def split(self, count: object, text: str) -> Answer:
        file = self.room / "sessions.json"
        file.write_text(text, encoding="utf-8")
        return run("split", file, count, self.parts)

    def files(self) -> List[Path]:
        return sorted(self.parts.glob("*.json"))

    def play(self, whole: str) -> None:
        """Puts the lines of each part beside it."""
        for file in self.files():
            first = int(file.stem)
            lines = part_lines(whole, first, first + len(json.loads(file.read_text())))
            file.with_suffix(".lines").write_text(lines, encoding="utf-8")

    def split_and_play(self, name: str, count: int) -> str:
        case = case_named(name)
        whole = case.stdout.decode()
        self.assertEqual(self.split(count, case.input.decode()).status, 0)
        self.play(whole)
        return whole

    def assert_refused(self, answer: Answer, what: str) -> None:
        self.assertEqual(answer.status, 2)
        self.assertIn(what, answer.errors)

    def test_the_joined_lines_are_those_of_the_whole_file(self) -> None:
        for name in SUITES:
            for count in (1, 2, 3, 4, 100):
                with self.subTest(suite=name, parts=count):
                    self.parts = self.room / f"{name}-{count}"
                    whole = self.split_and_play(name, count)
                    joined = run("join", self.parts)
                    self.assertEqual(joined.out, whole)
                    self.assertEqual(joined.status, case_named(name).status)

    def split_a_day(self, parts: int, count: int = 5) -> str:
        """Splits recordings of a day, and puts their lines there; these, of which the last differs."""
        recordings = json.loads((TOP / "examples/day/recordings.json").read_text(encoding="utf-8"))[:count]
        whole = part_lines((TOP / "examples/day.lines").read_text(encoding="utf-8"), 0, count)
        self.assertEqual(self.split(parts, json.dumps(recordings)).status, 0)
        self.play(whole)
        return whole

    def test_the_status_is_0_where_all_sessions_passed(self) -> None:
        whole = self.split_a_day(2, 4)
        answer = run("join", self.parts)
        self.assertEqual((answer.status, answer.out, answer.errors), (0, whole, ""))

    def test_parts_are_consecutive(self) -> None:
        entries = json.loads(case_named(SUITES[0]).input)
        self.split_and_play(SUITES[0], 4)
        parts = [json.loads(file.read_text()) for file in self.files()]
        self.assertEqual([entry for part in parts for entry in part], entries)
        self.assertEqual([int(it.stem) for it in self.files()], [0, *accumulate(map(len, parts[:-1]))])

    def test_parts_have_about_as_many_inputs(self) -> None:
        # an entry costs its inputs and one, so two parts cost 103 each
        entries = [["long", ["", [0] * 100]], ["a", ["", []]], ["b", ["", []]], ["no entry"], ["c", ["", [0] * 50]], ["d", ["", [0] * 50]]]
        for count, firsts in ((1, [0]), (2, [0, 3]), (3, [0, 1, 5]), (5, [0, 1, 2, 4, 5]), (6, [0, 1, 2, 3, 4, 5]), (9, [0, 1, 2, 3, 4, 5])):
            with self.subTest(parts=count):
                self.parts = self.room / str(count)
                self.assertEqual(self.split(count, json.dumps(entries)).status, 0)
                self.assertEqual([int(it.stem) for it in self.files()], firsts)

    def test_an_entry_is_copied_letter_by_letter(self) -> None:
        entries = ['["a", [1.0, -0,  1e400]]', '{"\\u0041" :\t18446744073709551616}', '"(ä, ]"']
        self.assertEqual(self.split(3, "[ " + " ,\r\n".join(entries) + " ]\n").status, 0)
        self.assertEqual([file.read_text(encoding="utf-8") for file in self.files()], [f"[\n{entry}\n]\n" for entry in entries])

    def test_a_file_without_entries_is_one_part(self) -> None:
        self.assertEqual(self.split(3, "[]").status, 0)
        self.play("")
        joined = run("join", self.parts)
        self.assertEqual((len(self.files()), joined.out, joined.status), (1, "", 0))

    def test_what_has_more_behind_its_list_is_not_split(self) -> None:
        whole = json.dumps([["a", ["", [], ""]]])
        for text in (f"{whole}\n{whole}", "[]x", "[] []"):
            with self.subTest(text=text):
                self.assert_refused(self.split(1, text), "is no JSON list: Extra data")
        self.assertEqual(self.split(1, f" {whole} \n").status, 0)

    def test_what_is_no_list_is_not_split(self) -> None:
        for text in ("", "{}", "[1", "[1 2]", "[1,]", "[,]"):
            with self.subTest(text=text):
                self.assert_refused(self.split(2, text), "is no JSON list")
                self.assertFalse(self.parts.exists())

    def test_a_part_is_no_larger_than_a_file_may_be(self) -> None:
        self.assert_refused(self.split(1, f"[{','.join('0' * 65537)}]"), "the part from session 0 on is larger than a file may be: ask for more parts")
        entry = f'["{"x" * 10_000_000}"]'
        self.assert_refused(self.split(1, f"[{entry}, {entry}]"), "the part from session 0 on is larger than a file may be: ask for more parts")

    def test_a_folder_that_is_there_is_left_alone(self) -> None:
        self.parts.mkdir()
        self.assert_refused(self.split(2, "[1, 2]"), "is there already")
        self.assertEqual([*self.parts.iterdir()], [])

    def test_a_missing_part_is_reported(self) -> None:
        self.split_and_play(SUITES[0], 3)
        missing = self.files()[1].with_suffix(".lines")
        missing.unlink()
        self.assert_refused(run("join", self.parts), f"{missing.name} can't be read: No such file")

    def test_a_part_that_was_cut_off_is_reported(self) -> None:
        """Within its last session, or behind the one before."""
        self.split_and_play(SUITES[0], 3)
        part = self.files()[2]
        lines, sessions = part.with_suffix(".lines"), len(json.loads(part.read_text()))
        within = lines.read_text().splitlines(keepends=True)[:-1]
        before = [it for it in within if f'"session":{sessions - 1}}}' not in it]
        self.assertLess(len(before), len(within))
        for left, what in ((within, f"the lines end within session {sessions - 1}"), (before, "closes other sessions than")):
            lines.write_text("".join(left))
            self.assert_refused(run("join", self.parts), what)

    def test_the_lines_of_another_part_are_reported(self) -> None:
        self.split_and_play(SUITES[0], 9)
        self.files()[0].with_suffix(".lines").write_text('{"cause":"Missing:0","close":"refused","frames":0,"name":"","session":1}\n')
        self.assert_refused(run("join", self.parts), "line 1: session 1 where session 0 is wanted")

    def test_what_is_no_line_of_the_program_in_its_place_is_reported(self) -> None:
        """Lines of a part are torn, doubled, swapped or lost, and numbers are written in other digits than the program's."""
        whole = self.split_a_day(1)
        names = range(5)
        file = self.parts / "00000000.lines"
        file.write_text(whole, encoding="utf-8")
        self.assertEqual((run("join", self.parts).out, run("join", self.parts).status), (whole, 1))
        lines = whole.splitlines(keepends=True)
        torn = lines[2][:30] + lines[2][40:]
        for text, what in (
            ([*lines[:2], *lines[3:]], "line 3: not frame 2 of session 0"),
            ([*lines[:3], *lines[2:]], "line 4: not frame 3 of session 0"),
            ([*lines[:2], torn, *lines[3:]], "line 3: no line of the program"),
            ([*lines[:2], "\n", *lines[2:]], "line 3: no line of the program"),
            ([*lines[:2], lines[2].replace('"session":0', '"session":\u0660'), *lines[3:]], "line 3: no line of the program"),
            ([*lines[:2], lines[2].replace('"session":0}', '"session":0 }'), *lines[3:]], "line 3, doesn't end as a line of session 0"),
            ([re.sub('("close":"passed","frames":)[0-9]+', r"\g<1>0", it) for it in lines], "no close of a session of"),
            ([re.sub('("close":"passed","frames":[0-9]+)', r"\1.0", it) for it in lines], "no close of a session of"),
            ([it.replace('"close":"passed"', '"close":"well","kind":"start"') for it in lines], "no close of a session of"),
            ([*lines, lines[0].replace('"session":0', f'"session":{len(names)}').rstrip("\n")], f"doesn't end as a line of session {len(names)}"),
            ([*lines, lines[0].replace('"session":0', f'"session":{len(names)}')], "the lines end within session"),
        ):
            with self.subTest(what):
                file.write_text("".join(text), encoding="utf-8")
                self.assert_refused(run("join", self.parts), what)

    def test_a_part_that_is_gone_is_reported(self) -> None:
        self.split_and_play(SUITES[0], 9)
        (self.parts / "00000003.json").unlink()
        self.assert_refused(run("join", self.parts), "the part that begins with session 3 is missing: 00000004.json is there")

    def test_swapped_parts_are_reported(self) -> None:
        names = "[" + ",".join(json.dumps([name, ["", [], ""]]) for name in "abcd") + "]"
        self.assertEqual(self.split(2, names).status, 0)
        closes = "".join(f'{{"cause":"Section:0","close":"refused","frames":0,"name":"{name}","session":{it}}}\n' for it, name in enumerate("abcd"))
        self.play(closes)
        self.assertEqual(run("join", self.parts).out, closes)
        one, other = (self.parts / name for name in ("00000000.lines", "00000002.lines"))
        text = one.read_bytes()
        one.write_bytes(other.read_bytes())
        other.write_bytes(text)
        self.assert_refused(run("join", self.parts), "closes other sessions than 00000000.json has")

    def test_a_folder_without_parts_is_reported(self) -> None:
        self.parts.mkdir()
        self.assert_refused(run("join", self.parts), "has no parts")
        self.assert_refused(run("join", self.room / "nothing"), "has no parts")

    def test_what_can_not_be_split_is_reported_in_a_line(self) -> None:
        for words in ((self.room / "nothing", 2, self.parts), (self.room, 2, self.parts), (self.room, 0, self.parts), (self.room, "x", self.parts)):
            answer = run("split", *words)
            self.assertEqual((answer.status, answer.errors.count("\n")), (2, 1))


if __name__ == "__main__":
    unittest.main()

"""`saxtegun report`: the page is read back, and its levels are those of the lines. web/tests/report looks at it in a browser."""
from __future__ import annotations

import base64
import hashlib
import json
import os
import re
import unittest
from html.parser import HTMLParser
from typing import Any, Dict, Iterator, List

from day import EXAMPLE, OnSessions, cases_in_rows
from strangers import LETTERS, NAMES, sessions_and_lines
from tool import TOP, run
from saxtegun.webpages import script_of

PAGE = (TOP / "web/report.html").read_text(encoding="utf-8")


class Reader(HTMLParser):
    """The elements of a page, and what its scripts hold by their ids."""

    def __init__(self, text: str) -> None:
        super().__init__(convert_charrefs=True)
        self.tags: List[Any] = []
        self.policy = ""
        self.blocks: Dict[str, str] = {}
        self.open: Any = None
        self.feed(text)
        self.close()

    def handle_starttag(self, tag: str, attrs: Any) -> None:
        words = dict(attrs)
        if tag == "meta" and words.get("http-equiv") == "Content-Security-Policy":
            self.policy = words["content"]
        self.open = words.get("id", tag) if tag in ("script", "style") else None
        if self.open is None:
            self.tags.append((tag, tuple(sorted(words))))
        else:
            self.blocks[self.open] = ""

    def handle_endtag(self, tag: str) -> None:
        self.open = None

    def handle_data(self, data: str) -> None:
        if self.open is not None:
            self.blocks[self.open] += data

    def json(self, name: str) -> Any:
        return json.loads(self.blocks[name])


def levels_shown(session: Any, letters: Any) -> Iterator[List[Any]]:
    """The levels of a session of the page, each as the names in its cells."""

    def unpacked(level: Any) -> List[int]:
        return [letters.index(it) if isinstance(it, str) else it for it in level["cells"]]

    cells = []
    for _, _, change in session["sides"][0][1] if session["sides"] else []:
        if isinstance(change, dict):
            cells = unpacked(change)
        elif change:
            cells = list(cells)
            for number, label in zip(change[::2], change[1::2]):
                cells[number] = label
        yield [session["labels"][label] for label in cells]


def level_in(text: str) -> List[Any]:
    """The names in the cells of a level text that the program wrote."""
    sets, cells = [], []
    for piece in text.replace("\n", "").split(",")[:-1]:
        if ":" in piece:
            sets.append(piece.rpartition(":")[0].split())
        cells.append(sets[int(piece.rpartition(":")[2])])
    return cells


class Report(OnSessions):
    def page(self, *words: object) -> Reader:
        answer = run("report", *words)
        self.assertEqual((answer.status, answer.errors), (0, ""))
        return Reader(answer.out)

    def assert_shows(self, page: Reader, lines: str) -> None:
        """Every frame of these lines is in the page."""
        levels: Dict[int, List[Any]] = {}
        letters = page.json("index")["letters"]
        for line in map(json.loads, lines.split("\n")[:-1]):
            if "level" in line:
                levels.setdefault(line["session"], []).append(level_in(line["level"]))
        for number, wanted in levels.items():
            with self.subTest(session=number):
                self.assertEqual(list(levels_shown(page.json(f"session-{number}"), letters)), wanted)

    def test_the_example_is_shown_frame_by_frame(self) -> None:
        page = self.page(EXAMPLE, self.lines)
        index, stale = page.json("index"), page.json("session-4")
        self.assertEqual([row[1] for row in index["sessions"]], ["passed"] * 4 + ["differs"])
        self.assert_shows(page, self.lines.read_text(encoding="utf-8"))
        self.assertEqual(stale["told"], "5 of 42 cells (6 wide, 7 high) differ from the recorded level")
        (played, frames), (recorded, level) = stale["sides"]
        self.assertEqual((played, recorded, len(frames), frames[16][:2], stale["opens"], stale["game"]), ("played", "recorded", 17, [16, 1], 16, 0))
        self.assertEqual((len(level), level[0][2]["width"]), (1, 6))
        self.assertEqual((page.json("session-0")["opens"], len(page.json("session-0")["sides"])), (0, 1))
        crate = [it for it in page.json("game-0")["objects"] if it[0] == "crate"]
        self.assertEqual(crate, [["crate", 2, ["#eb8931"], "000000...00...00...000000"]])

    def test_every_case_is_shown(self) -> None:
        sessions, lines = cases_in_rows()
        page = self.page(self.write("sessions.json", sessions), self.write("lines", lines), "--order", "rows")
        self.assertEqual(len(page.json("index")["sessions"]), len(json.loads(sessions)))
        self.assert_shows(page, lines)
        for session in (page.json(f"session-{number}") for number in range(len(json.loads(sessions)))):
            if session["sides"]:
                drawn = {it[0] for it in page.json(f"game-{session['game']}")["objects"] if it[1] is not None}
                reached = {name for level in levels_shown(session, page.json("index")["letters"]) for names in level for name in names}
                self.assertEqual(reached - drawn, set())

    def test_a_page_says_where_it_comes_from_and_is_the_same_for_the_same_files(self) -> None:
        page = self.page(EXAMPLE, self.lines, "--date", "26 November <b>")
        content = hashlib.sha256(EXAMPLE.read_bytes()).hexdigest()[:16]
        version = (TOP / "VERSION").read_text().strip()
        wanted = ["Date: 26 November <b>.", f"Sessions: block-pushing.json (5 sessions; SHA-256 {content}).", f"Lines: {self.lines.name}, order columns.", f"Written by saxtegun {version}."]
        self.assertEqual(page.json("index")["origin"], wanted)
        self.assertEqual(run("report", EXAMPLE, self.lines).out, run("report", EXAMPLE, self.lines).out)

    def test_a_session_that_hung_shows_its_input_and_its_group(self) -> None:
        source = "OBJECTS\nBackground\nblack\nPlayer\nwhite\nLEGEND\n. = Background\np = Player\nCOLLISIONLAYERS\nBackground\nPlayer\nRULES\n[ Player ] -> [ > Player ]\n+ [ Player ] -> [ < Player ]\nWINCONDITIONS\nLEVELS\np.\n"
        sessions = self.write("sessions.json", json.dumps([["hung", [source, [3, 1, 1], "background:0,"]]]))
        frames = [{"at": at, "frame": at, "kind": "move" if at else "start", "level": f"background player:0,background:1,{chr(10)}", "session": 0} for at in (0, 1)]
        close = {"cause": "loop-limit", "close": "stopped", "frames": 2, "name": "hung", "session": 0}
        session = self.page(sessions, self.write("lines", "".join(json.dumps(it) + "\n" for it in [*frames, close]))).json("session-0")
        self.assertEqual((session["stop"], session["opens"]), (1, 1))
        self.assertIn(" at input 1 (left); it is the group of lines 13 to 14 (loop-limit)", session["told"])
        self.assertEqual([(number, is_here) for number, _, is_here in session["source"]], [(number, number in (13, 14)) for number in range(10, 18)])

    def test_a_recorded_level_that_is_larger_than_any_that_is_played_is_not_shown(self) -> None:
        source = f"color_palette {'x' * 1000}\nOBJECTS\nBackground .\nblack\nPlayer p\nwhite\nLEGEND\nCOLLISIONLAYERS\nBackground\nPlayer\nRULES\nWINCONDITIONS\nLEVELS\np.\n"
        frame = {"at": 0, "frame": 0, "kind": "start", "level": "background player:0,background:1,\n", "session": 0}
        lines = self.write("lines", "".join(json.dumps(it) + "\n" for it in (frame, {"close": "differs", "frames": 1, "name": "large", "session": 0})))
        for count, captions in ((16_384, ["played", "recorded"]), (16_385, ["played"])):
            page = self.page(self.write("sessions.json", json.dumps([["large", [source, [], f"background:0,{'0,' * (count - 1)}"]]])), lines)
            session = page.json("session-0")
            self.assertEqual(([caption for caption, _ in session["sides"]], session["told"]), (captions, f"the recorded level has {count} cells, and the one that was reached 2"))
            self.assertEqual(max(map(len, page.json("index")["notes"])), len("a game: ") + 200 + len("..") + len("."))

    def test_a_frame_that_a_browser_would_read_for_long_has_its_sides_or_its_beginning_alone(self) -> None:
        sessions = self.write("sessions.json", json.dumps([["large", ["", [0, 0, 0], "background:0,"]]]))
        names = "a,b" * 700_000
        levels = [f"background:0,{'0,' * 16_383}", f"background:0,{'0,' * 16_384}", "background:0,0,\n" + "0,0,\n" * 9_999, names, "a,b:0,"]
        frames = [{"at": min(at, 3), "frame": at, "kind": "move" if at else "start", "level": level, "session": 0} for at, level in enumerate(levels)]
        close = {"close": "differs", "frames": len(levels), "name": "large", "session": 0}
        session = self.page(sessions, self.write("lines", "".join(json.dumps(it) + "\n" for it in [*frames, close]))).json("session-0")
        (played, shown), *_ = session["sides"]
        changes = [change for _, _, change in shown]
        self.assertEqual((played, {**changes[0], "cells": len(changes[0]["cells"])}), ("played", {"width": 16_384, "cells": 16_384}))
        self.assertEqual(changes[1:], [{"width": 16_385, "height": 1}, {"width": 2, "height": 10_000}, {"text": f"{names[:200]}.."}, {"text": "a,b:0,"}])

    def test_a_session_in_another_level_is_reported_as_such(self) -> None:
        lines = self.lines.read_text(encoding="utf-8").split("\n")
        entries = json.loads(EXAMPLE.read_text(encoding="utf-8"))
        # the first session is cut behind its first input, and is still in the first level
        entries = [[entries[0][0], [entries[0][1][0], entries[0][1][1][:1], entries[0][1][2]]]]
        close = {"close": "differs", "frames": 2, "name": entries[0][0], "session": 0}
        page = self.page(self.write("sessions.json", json.dumps(entries)), self.write("lines", "\n".join([*lines[:2], json.dumps(close), ""])))
        self.assertEqual(page.json("session-0")["told"], "still in level 1, and the recorded level looks like level 2")

    def test_a_refused_source_is_shown_by_its_line_and_its_neighbours(self) -> None:
        session = self.page(*self.case("the-word-random-in-a-rule")).json("session-0")
        self.assertEqual([it[0] for it in session["source"]], list(range(23, 30)))
        self.assertEqual(session["source"][3], [26, "random [ Player ] -> [ Player ]", True])

    def test_lines_that_a_cause_is_about_are_in_the_page_once_for_each_source(self) -> None:
        source = json.loads(self.case("the-word-random-in-a-rule")[0].read_text(encoding="utf-8"))[0][1][0]
        sources = [source, f"(another)\n{source}", source, f"(another)\n{source}", source]
        causes = ["OutsideProfile:26", "OutsideProfile:27", "OutsideProfile:26", "OutsideProfile:27", "OutsideProfile:5"]
        closes = [{"cause": cause, "close": "refused", "frames": 0, "name": str(number), "session": number} for number, cause in enumerate(causes)]
        page = self.page(self.write("sessions.json", json.dumps([[str(number), [it, [], ""]] for number, it in enumerate(sources)])), self.write("lines", "".join(json.dumps(it) + "\n" for it in closes)))
        shown = [page.json(f"session-{number}")["source"] for number in range(len(sources))]
        self.assertEqual([it if isinstance(it, int) else [row[0] for row in it] for it in shown], [list(range(23, 30)), list(range(24, 31)), 0, 1, list(range(2, 9))])
        self.assertEqual(shown[0][3], [26, "random [ Player ] -> [ Player ]", True])

    def test_colours_and_sprites_are_read_as_the_language_has_them(self) -> None:
        source = (
            "color_palette gameboycolour\nbackground_color (not here) #123\nOBJECTS\nBackground\n#AbC transparent DarkGray\n01201\n.....\n00000\n00000\n00000\n"
            "Player (a p) P\nochre\n(x)\nLEGEND\nThing = Background or Player\nCOLLISIONLAYERS\nThing\n, Player\nRULES\nLEVELS\np"
        )
        sessions = self.write("sessions.json", json.dumps([["a", [source, [], "player:0,"]]]))
        frame = {"at": 0, "frame": 0, "kind": "start", "level": "background player:0,\n", "session": 0}
        lines = self.write("lines", json.dumps(frame) + '\n{"close":"differs","frames":1,"name":"a","session":0}\n')
        page = self.page(sessions, lines)
        objects = [["background", 0, ["#aabbcc", None, "#697175"], "01201.....000000000000000"], ["player", 1, ["#9d9d9d"], ""]]
        self.assertEqual(page.json("game-0")["objects"], objects)
        notes = " ".join(page.json("index")["notes"])
        self.assertIn("its palette gameboycolour is drawn by the colours of arnecolors", notes)
        self.assertIn("its colour ochre is drawn as grey", notes)

    def test_no_script_of_a_game_is_in_the_page(self) -> None:
        sessions, lines = sessions_and_lines(NAMES, LETTERS)
        page = self.page(self.write("sessions.json", sessions), self.write("lines", lines))
        self.assertEqual([row[0] for row in page.json("index")["sessions"]][::2], [*NAMES, LETTERS])
        self.assertEqual(page.tags, Reader(PAGE).tags)
        self.assertEqual(sorted(page.blocks), sorted(["index", "game-0", "script", "style", *(f"session-{number}" for number in range(13))]))
        self.assertFalse([name for _, names in page.tags for name in names if name.startswith("on")])
        for name in ("script", "style"):
            digest = base64.b64encode(hashlib.sha256(page.blocks[name].encode()).digest()).decode()
            self.assertIn(f"{name}-src 'sha256-{digest}'", page.policy)
        self.assertTrue(page.policy.startswith("default-src 'none'; "))

    def test_the_script_makes_no_elements_of_texts(self) -> None:
        script = script_of("report.mjs")
        self.assertIsNone(re.search(r"innerHTML|outerHTML|insertAdjacent|document\.write|eval|Function\(|setAttribute\(.on|fetch|XMLHttp|import", script))

    def test_without_lines_the_sessions_are_played(self) -> None:
        played = self.write("program", f'#!/bin/sh\n[ "$1 $2" = "--order columns" ] || {{ echo "open-fault" >&2; exit 2; }}\ncat {self.lines}\nexit 1\n')
        played.chmod(0o755)
        os.environ["SAXTEGUN_PROGRAM"], before = str(played), os.environ.get("SAXTEGUN_PROGRAM")
        try:
            answer, refused = run("report", EXAMPLE), run("report", EXAMPLE, "--order", "rows")
        finally:
            os.environ.pop("SAXTEGUN_PROGRAM")
            if before is not None:
                os.environ["SAXTEGUN_PROGRAM"] = before
        self.assertEqual((answer.status, answer.errors), (0, ""))
        shown, of_lines = Reader(answer.out), self.page(EXAMPLE, self.lines)
        origin = shown.json("index")["origin"]
        content = hashlib.sha256(played.read_bytes()).hexdigest()[:16]
        self.assertEqual(origin[1], f"Played by program (SHA-256 {content}), order columns.")
        self.assertEqual({name: text for name, text in shown.blocks.items() if name != "index"}, {name: text for name, text in of_lines.blocks.items() if name != "index"})
        self.assert_refused(refused, "block-pushing.json was not played: it can't be opened (open-fault)")


if __name__ == "__main__":
    unittest.main()

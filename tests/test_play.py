"""`saxtegun play`: keys on standard input, and what is saved of them; what a terminal is told is looked at by itself."""
from __future__ import annotations

import fcntl
import json
import os
import pty
import select
import shlex
import signal
import struct
import subprocess
import sys
import termios
import time
import unittest
from typing import Dict, List, Optional, Sequence, Tuple
from unittest import mock

from test_processes import hear_signals
from test_test import OfAGame
from tool import TOP, environment, plays, run
from saxtegun.games import Game
from saxtegun.verbs.play import in_plain_letters
from saxtegun.terminal import CLEAR, Depth, Screen, codes_of, depth_of, fitted, lettered, marked, painted, pixels_of, screen_now

START = "####..\n#.O#..\n#..###\n#@P..#\n#..*.#\n#..###\n####..\n"
ENDS = (signal.SIGINT, signal.SIGTERM, signal.SIGHUP)
RIGHT = START.replace("#@P..#", "#@.P.#")


@plays
class DayOfPlaying(OfAGame):
    def test_each_key_is_played_and_saved(self) -> None:
        suite = self.room / "mine.json"
        answer = run("play", self.game, "--save", "mine", suite, stdin=b"d\x1b[Dzq")
        self.assertEqual(answer.status, 0)
        title = "Simple Block Pushing Game"
        self.assertEqual(answer.out, "".join(f"{level}{title}: {count} \n" for level, count in ((START, "0 inputs"), (RIGHT, "1 input"), (START, "2 inputs"), (RIGHT, "3 inputs"))))
        self.assertEqual(json.loads(suite.read_text(encoding="utf-8"))[0][1][:2], ["", [3, 1, "undo"]])
        self.assertEqual(run("test", self.game, suite).status, 0)
        self.assertEqual(run("play", self.game, "--save", "more", suite, "--level", 2, stdin=b"").status, 0)
        self.assertEqual([(it[0], it[1][3]) for it in json.loads(suite.read_text(encoding="utf-8"))], [("mine", 0), ("more", 1)])

    def test_a_key_that_the_game_switches_off_is_left_out(self) -> None:
        self.game.write_text("noaction\n" + self.game.read_text(encoding="utf-8"), encoding="utf-8")
        answer = run("play", self.game, stdin=b"xd")
        self.assertEqual([line for line in answer.out.splitlines() if "input" in line], [f"Simple Block Pushing Game: {it}" for it in ("0 inputs ", "0 inputs the game has noaction: the key is left out", "1 input ")])

    def test_a_level_that_is_solved_is_reported(self) -> None:
        keys = "".join("wasd"[it] if it != "undo" else "z" for it in self.entries[0][1][1])
        answer = run("play", self.game, stdin=keys.encode())
        self.assertEqual(answer.out.count("the next level"), 1)

    def test_what_was_played_without_a_file_is_written_out(self) -> None:
        answer = run("play", self.game, "--level", 2, stdin=b"dq")
        name, (source, inputs, level, index) = json.loads(answer.out.splitlines()[-1])
        self.assertEqual((answer.status, name, source, inputs, index), (0, "level 2", "", [3], 1))
        self.assertEqual(answer.errors, "play: not saved: what was played stands on standard output: saxtegun add takes it\n")
        self.assertEqual(run("test", self.game, self.write_entries([[name, [source, inputs, level, index]]])).status, 0)
        self.assertEqual(run("play", self.game, stdin=b"q").errors, "")

    def test_what_is_interrupted_without_a_file_is_written_out(self) -> None:
        with self.playing() as ran:
            assert ran.stdin is not None
            ran.stdin.write(b"da")
            self.wait_for(ran, b"2 inputs")
            ran.send_signal(signal.SIGINT)
            out, _ = ran.communicate()
        self.assertEqual((ran.returncode, json.loads(out.splitlines()[-1])[1][1]), (0, [3, 1]))

    def test_what_wins_all_levels_must_be_solved(self) -> None:
        """The first two recordings do: from the first level on, and the second alone. Without its last key one ends before the win."""
        for number, level in ((0, 1), (1, 2)):
            keys = "".join("wasd"[it] if it != "undo" else "z" for it in self.entries[number][1][1])
            for pressed, demands in ((keys, ["solved"]), (keys + "d", ["solved"]), (keys[:-1], [])):
                suite = self.room / f"{number}-{len(pressed)}.json"
                self.assertEqual(run("play", self.game, "--level", level, "--save", "mine", suite, stdin=pressed.encode()).status, 0)
                self.assertEqual(json.loads(suite.read_text(encoding="utf-8"))[0][2:], demands)
                self.assertEqual(run("test", self.game, suite).status, 0)

    def test_a_game_that_is_refused_is_reported(self) -> None:
        self.with_rule("[ > Player | Create ] -> [ ]")
        self.assert_refused(run("play", self.game), "has a name that is not there: `Create` (near: `crate`)")
        self.assert_refused(run("play", self.game, "--level", 3), "has 2 levels, but no level 3")
        self.assert_refused(run("play", self.room / "nothing"), "can't be read")

    def test_a_place_that_can_not_be_written_is_reported_before_the_play(self) -> None:
        for place, what in ((self.room / "no/where.json", "can't be written: No such file"), (self.room, "can't be read: Is a directory")):
            self.assert_refused(run("play", self.game, "--save", "mine", place, stdin=b"d"), what)

    def test_what_can_not_be_saved_is_written_out(self) -> None:
        folder = self.room / "gone"
        folder.mkdir()
        with self.playing("--save", "mine", folder / "mine.json") as ran:
            assert ran.stdin is not None
            ran.stdin.write(b"d")
            self.wait_for(ran, b"1 input")
            folder.rmdir()
            out, errors = ran.communicate(b"q")
        self.assertEqual((ran.returncode, json.loads(out.splitlines()[-1])[1][:2]), (2, ["", [3]]))
        self.assertIn(b"what was played stands on standard output", errors)

    def playing(self, *words: object) -> subprocess.Popen[bytes]:
        command = [sys.executable, TOP / "saxtegun", "play", self.game, *words]
        return subprocess.Popen(list(map(str, command)), stdin=subprocess.PIPE, stdout=subprocess.PIPE, stderr=subprocess.PIPE, env=environment(), bufsize=0, preexec_fn=hear_signals)

    def wait_for(self, ran: subprocess.Popen[bytes], words: bytes) -> None:
        assert ran.stdout is not None
        shown = b""
        while words not in shown:
            line = ran.stdout.readline()
            self.assertTrue(line, shown)
            shown += line

    def test_what_ends_the_play_saves_it(self) -> None:
        suite = self.room / "mine.json"
        for number, it in enumerate(ENDS, 1):
            with self.playing("--save", "mine", suite) as ran:
                assert ran.stdin is not None
                ran.stdin.write(b"da")
                self.wait_for(ran, b"2 inputs")
                ran.send_signal(it)
                out, errors = ran.communicate()
            self.assertEqual((ran.returncode, errors.decode()), (0 if it == signal.SIGINT else -it, f"play: mine: 2 inputs saved in {suite}\n"))
            self.assertEqual([entry[1][1] for entry in json.loads(suite.read_text(encoding="utf-8"))], [[3, 1]] * number)


class Window:
    """A terminal of so many columns and rows, in which a shell with job control runs a command."""

    def __init__(self, columns: int, rows: int, command: Sequence[object], **changed: str) -> None:
        self.left = b""
        self.pid, self.end = pty.fork()
        if self.pid == 0:
            self.resize(columns, rows, 0)
            hear_signals()
            os.execvpe("bash", ["bash", "--norc", "-c", f"set -m; {command}"], {**environment(), "TERM": "xterm-256color", "COLORTERM": "", "NO_COLOR": "", **changed})

    def resize(self, columns: int, rows: int, end: Optional[int] = None) -> None:
        fcntl.ioctl(self.end if end is None else end, termios.TIOCSWINSZ, struct.pack("HHHH", rows, columns, 0, 0))

    def press(self, keys: bytes) -> None:
        os.write(self.end, keys)

    def until(self, words: str, seconds: int = 60) -> str:
        """What is shown up to these words, and behind what was looked at before."""
        end = time.monotonic() + seconds
        while words.encode() not in self.left:
            if time.monotonic() > end:
                raise AssertionError(f"not shown: {words!r}, but {self.left.decode()!r}")
            if select.select([self.end], [], [], 1)[0]:
                self.left += os.read(self.end, 65536)
        before, self.left = self.left.split(words.encode(), 1)
        return before.decode().replace("\r\n", "\n") + words

    def close(self) -> None:
        os.close(self.end)
        os.waitpid(self.pid, 0)


@plays
class DayOfTerminals(OfAGame):
    """In a real terminal: what is drawn there, and that it can be made larger, left and taken up again."""

    def window(self, columns: int, rows: int, behind: str = "", **changed: str) -> Window:
        window = Window(columns, rows, shlex.join([sys.executable, *map(str, (TOP / "saxtegun", "play", self.game))]) + behind, **changed)
        self.addCleanup(window.close)
        return window

    def test_what_fits_is_drawn_in_colours_and_what_does_not_by_letters(self) -> None:
        window = self.window(80, 30)
        self.assertIn("\x1b[38;5;", window.until("q ends"))
        window.resize(20, 12)
        self.assertEqual(window.until("acts,").lstrip(), f"{CLEAR}{START}Simple Block Pushing\narrows move, x acts,")
        window.press(b"d")
        self.assertIn(RIGHT, window.until("acts,"))

    def test_colours_are_those_that_the_terminal_has(self) -> None:
        for changed, code in (({"COLORTERM": "truecolor"}, "\x1b[38;2;"), ({"TERM": "xterm"}, "\x1b[33;"), ({"NO_COLOR": "1"}, f"{CLEAR}{START}"), ({"TERM": "dumb"}, f"{START}Simple")):
            with self.subTest(changed):
                shown = self.window(80, 30, **changed).until(": 0 inputs")
                self.assertIn(code, shown)
                self.assertEqual(CLEAR in shown, changed.get("TERM") != "dumb")

    def test_it_is_left_by_ctrl_z_and_taken_up_again(self) -> None:
        window = self.window(80, 30, "; stty -a; echo left; fg; stty -a; echo over", NO_COLOR="1")
        window.until("q ends")
        window.press(b"d")
        window.until("1 input")
        window.press(b"\x1a")
        self.assertIn(" icanon", window.until("left"))
        self.assertIn(f"{CLEAR}{RIGHT}", window.until("q ends"))
        window.press(b"z")
        self.assertEqual(window.until(": 2 inputs").split(CLEAR)[-1], f"{START}Simple Block Pushing Game: 2 inputs")
        window.press(b"q")
        window.until("press Enter: ")
        window.press(b"\r")
        self.assertIn(" icanon", window.until("over"))

    def test_what_was_played_without_a_file_may_be_saved_at_the_end(self) -> None:
        self.write("mine.json", '[["level 1", ["", [], "", 0]]]')
        window = self.window(80, 30, "; echo over", NO_COLOR="1")
        for keys, words in ((b"d", "1 input"), (b"q", "press Enter: "), (f"{self.game}\r".encode(), "press Enter: "), (f"{self.room}/mine.json\r".encode(), "1 input saved in ")):
            window.press(keys)
            self.assertNotIn("over", window.until(words))
        window.until("over")
        entries = json.loads((self.room / "mine.json").read_text(encoding="utf-8"))
        self.assertEqual([(name, body[1]) for name, body in entries], [("level 1", []), ("level 1 (2)", [3])])

    def test_a_window_that_is_closed_saves_what_was_played(self) -> None:
        suite, errors = self.room / "mine.json", self.room / "errors"
        words = shlex.join([*map(str, (sys.executable, TOP / "saxtegun", "play", self.game, "--save", "mine", suite))])
        window = Window(80, 30, f"exec {words} 2>'{errors}'")
        window.until("q ends")
        window.press(b"d")
        window.until("1 input")
        os.close(window.end)
        self.assertEqual(os.waitpid(window.pid, 0)[1], signal.SIGHUP)
        self.assertEqual(errors.read_text(), f"play: mine: 1 input saved in {suite}\n")

    def test_keys_that_come_with_a_larger_window_are_played(self) -> None:
        window = self.window(80, 30)
        window.until("q ends")
        window.resize(90, 30)
        window.press(b"da" * 10)
        window.until("20 inputs")


class HandedOut(unittest.TestCase):
    def test_a_recording_that_is_handed_out_has_no_letter_that_a_terminal_obeys(self) -> None:
        value = ["a", ["", [1, "undo"], "cr\x9b2Jate \u202e\x7f:0,\n", 0]]
        text = in_plain_letters(value)
        self.assertEqual((text.isascii() and text.isprintable(), json.loads(text)), (True, value))


class Terminal(OfAGame):
    LOOK = "OBJECTS\nBackground .\n#112233\n\nPlayer p\n#fff transparent\n0....\n.1...\n.....\n.....\n....0\n\nWall #\nred\n\nMark\nblue\n\nLEGEND\nCOLLISIONLAYERS\nBackground\nPlayer, Wall\nMark\nRULES\nWINCONDITIONS\nLEVELS\np.\n"

    def test_a_cell_is_drawn_layer_by_layer(self) -> None:
        game = Game(self.LOOK)
        pixels = pixels_of(game, ("player", "background"))
        self.assertEqual((pixels[0][0], pixels[1][1], pixels[4][4], pixels[2][2]), ("#ffffff", "#112233", "#ffffff", "#112233"))
        rows = painted(game, [[("background",), ("background", "player")]], Depth.ALL)
        self.assertEqual((len(rows), rows[0].startswith("\x1b[38;2;17;34;51;48;2;17;34;51m\u2580\u2580\u2580\u2580\u2580\x1b[38;2;255;255;255")), (3, True))

    def test_a_cell_without_a_letter_has_the_nearest_underlined(self) -> None:
        game, row = Game(self.LOOK), [("background", "mark", "player"), ("background", "mark"), ("mark",), ("nobody",), ("background", "player")]
        self.assertEqual(lettered(game, [row]), ["????p"])
        self.assertEqual(marked(game, [row]), ["\x1b[4mp\x1b[24m\x1b[4m.\x1b[24m??p"])

    def test_what_does_not_fit_is_drawn_around_the_player(self) -> None:
        game, row = Game(self.LOOK), [("background",)] * 30
        level = [row] * 10 + [[*row[:20], ("background", "player"), *row[21:]]] + [[("background", "wall")] * 30] * 2
        for rows, wanted in ((13, ["." * 30] * 10 + ["." * 20 + "p" + "." * 9] + ["#" * 30] * 2), (5, ["." * 30] * 2 + ["." * 20 + "p" + "." * 9] + ["#" * 30] * 2)):
            self.assertEqual(fitted(game, level, Screen(30, rows, Depth.ALL), False), wanted)
        self.assertEqual(fitted(game, level, Screen(10, 3, None), False), ["..........", ".....p....", "#" * 10])
        self.assertEqual(fitted(game, [[("background", "wall")] * 4], Screen(2, 1, None), False), ["##"])
        self.assertTrue(fitted(game, [row[:4]], Screen(20, 3, Depth.ALL), False)[0].startswith("\x1b[38;2;"))
        self.assertEqual(fitted(game, [row[:4]], Screen(20, 3, Depth.ALL), True), ["...."])
        self.assertEqual(fitted(game, [row[:4]], Screen(19, 3, Depth.ALL), False), ["...."])
        self.assertEqual(fitted(game, [row[:4]], Screen(20, 2, Depth.ALL), False), ["...."])

    def test_colours_are_told_as_terminals_number_them(self) -> None:
        self.assertEqual(codes_of("#102030", Depth.ALL), ("38;2;16;32;48", "48;2;16;32;48"))
        for colour, number in (("#000000", 16), ("#ffffff", 231), ("#ff0000", 196), ("#00005f", 17), ("#080808", 232), ("#eeeeee", 255), ("#808080", 244)):
            self.assertEqual(codes_of(colour, Depth.NUMBERED), (f"38;5;{number}", f"48;5;{number}"))
        for colour, codes in (("#000000", ("30", "40")), ("#cd0000", ("31", "41")), ("#ff0000", ("91", "101")), ("#ffffff", ("97", "107"))):
            self.assertEqual(codes_of(colour, Depth.FIRST), codes)

    def test_a_terminal_that_does_not_know_its_size_has_one(self) -> None:
        for told, size in (((0, 0), (80, 24)), ((0, 24), (80, 24)), ((100, 0), (80, 24)), ((100, 30), (100, 30))):
            with mock.patch("os.get_terminal_size", lambda number: os.terminal_size(told)), mock.patch("sys.stdout") as output, mock.patch.dict(os.environ, {"TERM": "xterm"}):
                output.isatty.return_value = True
                screen = screen_now()
                assert screen is not None
                self.assertEqual(screen[:2], size)

    def test_the_environment_says_how_many_colours_there_are(self) -> None:
        environments: List[Tuple[Dict[str, str], Optional[Depth]]] = [({}, Depth.FIRST), ({"TERM": "xterm"}, Depth.FIRST), ({"TERM": "screen-256color"}, Depth.NUMBERED), ({"TERM": "xterm-direct"}, Depth.ALL),
                            ({"TERM": "xterm-256color", "COLORTERM": "24bit"}, Depth.ALL), ({"COLORTERM": "truecolor", "NO_COLOR": "1"}, None), ({"COLORTERM": "truecolor", "NO_COLOR": ""}, Depth.ALL)]
        for told, depth in environments:
            with self.subTest(told):
                self.assertEqual(depth_of(told), depth)


if __name__ == "__main__":
    unittest.main()

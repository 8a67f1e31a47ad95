"""Streams that are full, closed or read no further: status 2, one sentence or none, and no traceback. And names and sources of strangers: nothing of
them ends a line, or moves a terminal's cursor."""
from __future__ import annotations

import json
import os
import re
import resource
import subprocess
import sys
import unittest
from pathlib import Path
from typing import Any, Dict, List, Sequence, Tuple
from xml.etree import ElementTree

from day import EXAMPLE, OnSessions
from strangers import NAMES
from tool import TOP, environment, run

LONG = "long " * 1000
STRANGE = [*NAMES, "a\rb\x1b[2J\x1b]0;title\x07", "\u0085\u2028\u2029\x0b\x0c", "::error::no ##[error]no", "see www.example.org", "| a | `b` | <b>", "\u202eright to left", LONG]
SOURCE = "OBJECTS\nBackground .\nred\nPlayer p\nred\nLEGEND\nCOLLISIONLAYERS\nBackground\nPlayer\nRULES\n%s\nLEVELS\np.\n"
# An engine that refuses the sessions that begin at entry 0, and shows one level of the others.
ENGINE = """#!%s
import json, sys
for number, (name, (source, inputs, level, index)) in enumerate(json.load(open(sys.argv[-1], encoding="utf-8"))):
    lines = [{"cause": "BadRule:11", "close": "refused", "frames": 0, "name": name}]
    if index:
        kinds = ["start", *inputs]
        lines = [{"at": at, "frame": at, "kind": kind, "level": "background player:0,background:1,\\n"} for at, kind in enumerate(kinds)]
        lines.append({"close": "differs", "frames": len(kinds), "name": name})
    for line in lines:
        print(json.dumps({**line, "session": number}))
sys.exit(1)
"""
# Plays the example, and says so as the program does where it can't write.
PLAYER = f"""#!{sys.executable}
import os, sys
sys.path.insert(0, "{Path(__file__).parent}")
from day import lines_of_example
try:
    sys.stdout.write(lines_of_example(open(sys.argv[-1], encoding="utf-8").read()))
    sys.stdout.flush()
except OSError:
    sys.stderr.write("write-fault 0\\n")
    sys.stderr.flush()
    os._exit(2)
sys.exit(1)
"""
# What may stand in a line of a terminal.
LINE = re.compile(r"[^\x00-\x1f\x7f-\x9f\u2028\u2029\u202e]*")
# So many bytes a file has where one takes only a part.
MOST_OF_A_FILE = 2**20


class OnStreams(OnSessions):
    def setUp(self) -> None:
        super().setUp()
        self.program = self.write("program", PLAYER)
        self.program.chmod(0o755)
        self.tell_stages(b'{"changed":false,"commands":[],"headings":[],"input":1,"level":"background:0,","stage":"end","tick":0}\n')
        parts = self.room / "parts"
        parts.mkdir()
        (parts / "00000000.lines").write_bytes(self.lines.read_bytes())
        (parts / "00000000.json").write_bytes(EXAMPLE.read_bytes())
        played = ["--program", self.program]
        self.calls: List[List[Any]] = [
            ["explain", EXAMPLE, self.lines], ["report", EXAMPLE, self.lines], ["junit", EXAMPLE, self.lines], ["accept", EXAMPLE, self.lines],
            ["testdata", EXAMPLE], ["source", "--all", self.lines, EXAMPLE], ["compare", self.lines, self.lines], ["join", parts], ["test", EXAMPLE, *played],
            ["lines", EXAMPLE, *played], ["--help"], ["test", "--help"], ["why", EXAMPLE, "--session", "both*", "--input", "0"],
            ["why", EXAMPLE, "--session", "both*", "--input", "0", "--json"],
        ]

    def ends(self, words: Sequence[object], **streams: Any) -> Tuple[int, str]:
        """The status and what is told of a call with these streams."""
        streams = {"stdin": subprocess.DEVNULL, "stdout": subprocess.PIPE, "stderr": subprocess.PIPE, "env": environment(), **streams}
        with subprocess.Popen([sys.executable, TOP / "saxtegun", *map(str, words)], **streams) as ran:
            errors = ran.stderr.read().decode() if ran.stderr else ""
            return ran.wait(), errors

    def test_a_full_device_is_reported(self) -> None:
        for words in self.calls:
            with self.subTest(words[0]), open("/dev/full", "wb") as full:
                status, errors = self.ends(words, stdout=full)
                self.assertEqual((status, "Traceback" in errors), (2, False), errors)
                self.assertTrue(errors.count("\n") >= 1 or "--help" in words)

    def test_files_that_cannot_be_written_are_reported(self) -> None:
        for option in ("--junit", "--report", "--markdown"):
            status, errors = self.ends(["test", EXAMPLE, "--program", self.program, option, "/dev/full"])
            self.assertEqual((status, errors), (2, "saxtegun test: /dev/full can't be written: No space left on device\n"))
        status, errors = self.ends(["compare", self.lines, self.write("other", ""), EXAMPLE, "--report", self.room / "no/page"])
        self.assertEqual((status, errors.count("\n")), (2, 1))

    def test_no_file_is_written_that_is_read_or_written_already(self) -> None:
        same = self.room / "same"
        wrong: List[Tuple[List[Any], str]] = [
            (["test", EXAMPLE, "--program", self.program, "--report", EXAMPLE], "block-pushing.json is read: write to another file"),
            (["test", EXAMPLE, "--program", self.program, "--report", same, "--junit", self.room / "x/../same"], "same is written already: write to another file"),
            (["compare", self.lines, self.lines, EXAMPLE, "--report", self.lines], "example.lines is read: write to another file"),
        ]
        for words, what in wrong:
            self.assert_refused(run(*words), what)
        self.assertFalse(same.exists())

    def test_numbers_of_workers_are_those_of_the_program(self) -> None:
        for number in ("0", "65", "-1", "two", "\u0662", "9" * 5000):
            answer = run("test", EXAMPLE, "--program", self.program, f"--workers={number}")
            self.assert_refused(answer, "argument --workers: must be a number from 1 to 64")

    def test_a_fault_of_its_own_is_no_answer_and_moves_no_cursor(self) -> None:
        script = "from saxtegun.commands import serve\ndef main():\n    raise ValueError('\\x1b[31m::error::x\\n##[error]y')\nserve('saxtegun test', main)"
        ran = subprocess.run([sys.executable, "-c", script], cwd=TOP / "python", stdout=subprocess.PIPE, stderr=subprocess.PIPE)
        lines = ran.stderr.decode().splitlines()
        self.assertEqual((ran.returncode, ran.stdout, lines[-1]), (2, b"", "saxtegun test: this is a fault of saxtegun's own, and no answer: please report it with the lines above"))
        self.assertIn("ValueError: \\u{1b}[31m::error::x", lines)
        self.assertFalse(any(it.startswith(("::", "##[")) or "\x1b" in it for it in lines))

    def test_a_pipe_that_nobody_reads_ends_quietly(self) -> None:
        for words in self.calls:
            with self.subTest(words[0]):
                reader, writer = os.pipe()
                os.close(reader)
                status, errors = self.ends(words, stdout=writer)
                os.close(writer)
                self.assertEqual((status, "Traceback" in errors), (2, False), errors)

    def of_data(self) -> List[Any]:
        """The calls that write data, each where Python holds output back, and where it is told not to."""
        words = [it for it in self.calls if it[0] in ("explain", "source", "accept", "report", "testdata", "junit", "join")]
        environments: List[Dict[str, str]] = [{}, {"PYTHONUNBUFFERED": "1"}]
        return [(it, {**environment(), **told}) for told in environments for it in words]

    def test_a_file_that_takes_only_a_part_is_reported(self) -> None:
        for words, env in self.of_data():
            with self.subTest(words[0], unbuffered="PYTHONUNBUFFERED" in env), open(self.room / "out", "wb") as out:
                # room for 500 bytes more, while what the engine is asked and tells finds room in files of its own
                out.truncate(MOST_OF_A_FILE - 500)
                out.seek(0, os.SEEK_END)
                status, errors = self.ends(words, stdout=out, env=env, preexec_fn=lambda: resource.setrlimit(resource.RLIMIT_FSIZE, (MOST_OF_A_FILE, MOST_OF_A_FILE)))
                self.assertEqual((status, (self.room / "out").stat().st_size), (2, MOST_OF_A_FILE))
                self.assertTrue(errors.endswith(f"saxtegun {words[0]}: writing failed: File too large\n"), errors)

    def test_a_full_pipe_that_lets_nobody_wait_is_reported(self) -> None:
        for words, env in self.of_data():
            with self.subTest(words[0], unbuffered="PYTHONUNBUFFERED" in env):
                reader, writer = os.pipe()
                os.set_blocking(writer, False)
                # the room that is left takes a part of a page, and nothing of what is short
                os.write(writer, bytes(2**20))
                os.read(reader, 4096 if words[0] == "report" else 1)
                status, errors = self.ends(words, stdout=writer, env=env)
                os.close(writer)
                os.close(reader)
                self.assertEqual(status, 2)
                self.assertTrue(errors.endswith(f"saxtegun {words[0]}: writing failed: write could not complete without blocking\n"), errors)

    def test_closed_streams_are_reported(self) -> None:
        for words in self.calls:
            for closed, wanted in ((">&-", (2, ": standard output is closed\n")), ("2>&-", (None, ""))):
                with self.subTest(words=words[0], closed=closed):
                    command = f'exec "$0" "$@" {closed}'
                    ran = subprocess.run(["sh", "-c", command, sys.executable, TOP / "saxtegun", *map(str, words)], env=environment(), stdout=subprocess.PIPE, stderr=subprocess.PIPE)
                    self.assertIn(ran.returncode, (0, 1, 2) if wanted[0] is None else (2,))
                    self.assertTrue(ran.stderr.decode().endswith(wanted[1]) and b"Traceback" not in ran.stderr + ran.stdout, ran.stderr)
        asking: List[List[Any]] = [["testdata", "-"], ["accept", EXAMPLE, self.lines, "--review"], ["play", EXAMPLE]]
        for words in asking:
            ran = subprocess.run(["sh", "-c", 'exec "$0" "$@" <&-', sys.executable, TOP / "saxtegun", *words], stdout=subprocess.PIPE, stderr=subprocess.PIPE)
            self.assertEqual((ran.returncode, ran.stderr.count(b"\n")), (2, 1))
            self.assertIn(b": standard input is closed", ran.stderr)


class OfStrangers(OnSessions):
    def setUp(self) -> None:
        super().setUp()
        entries = []
        for name in STRANGE:
            source = SOURCE % name.replace("\n", " ")
            entries += [[name, [source, [], "background:0,0,", 0]], [name, [source.replace("\np.\n", "\nmessage\np.\n"), [], "background:0,0,", 1]]]
        self.sessions = self.write("s.json", json.dumps(entries))
        self.program = self.write("program", ENGINE % sys.executable)
        self.program.chmod(0o755)
        self.shown = self.write("l", subprocess.run([self.program, self.sessions], stdout=subprocess.PIPE).stdout.decode())
        self.other = self.write("o", self.shown.read_text(encoding="utf-8").replace("background player:0,background:1,", "background:0,0,"))

    def assert_lines(self, text: str, most: int = 700) -> None:
        for line in text.split("\n"):
            self.assertTrue(LINE.fullmatch(line), repr(line[:200]))
            self.assertLess(len(line), most)

    def test_messages_are_lines_of_a_terminal(self) -> None:
        program = ["--program", self.program]
        for words in (["explain", self.sessions, self.shown], ["compare", self.shown, self.other, self.sessions], ["test", self.sessions, *program], ["accept", self.sessions, self.shown, "--in-place"]):
            with self.subTest(words[0]):
                answer = run(*words)
                self.assertIn(answer.status, (0, 1), answer.errors)
                self.assert_lines(answer.out)
                self.assert_lines(answer.errors)
                self.assertGreater(answer.out.count("\n") + answer.errors.count("\n"), 2 * len(STRANGE))

    def test_no_line_for_a_ci_is_a_command_of_a_stranger(self) -> None:
        answer = run("test", self.sessions, "--program", self.program, "--github", "--markdown", self.room / "md", "--junit", self.room / "xml", "--report", self.room / "page")
        self.assertEqual(answer.status, 1, answer.errors)
        self.assert_lines(answer.out, 6000)
        commands = [it for it in answer.out.splitlines() if it.lstrip().startswith("::") or "##[" in it]
        self.assertEqual(len(commands), 2 * len(STRANGE))
        self.assertTrue(all(it.startswith("::error ") for it in commands))
        # GitHub and Azure read these wherever they stand in a line, and so within a command too
        self.assertIsNone(re.search(r"##[a-zA-Z]*\[", answer.out))
        cases = list(ElementTree.parse(self.room / "xml").iter("testcase"))
        self.assertEqual(len(cases), 2 * len(STRANGE))
        markdown = (self.room / "md").read_text(encoding="utf-8")
        self.assert_lines(markdown, 6000)
        self.assertNotIn("www.", re.sub("(?s)````*text\n.*?\n````*\n", "", markdown))
        self.assertIsNone(re.search("<(script|img|b)", re.sub("(?s)````*text\n.*?\n````*\n", "", markdown)))

    def test_what_is_refused_names_a_stranger_in_one_line(self) -> None:
        renamed = json.loads(self.sessions.read_text(encoding="utf-8"))
        for number, name in enumerate(STRANGE):
            renamed[0][0] = name + "x"
            answer = run("explain", self.write("r.json", json.dumps(renamed)), self.shown)
            self.assertEqual((answer.status, answer.errors.count("\n")), (2, 1))
            self.assert_lines(answer.errors, 1500)


if __name__ == "__main__":
    unittest.main()

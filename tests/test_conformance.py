"""conformance/run: how it tells a case that differs, that hangs or that fails, with programs that answer wrong; and what the suite says of itself."""
from __future__ import annotations

import json
import os
import signal
import subprocess
import sys
import unittest
from concurrent.futures import ThreadPoolExecutor
from pathlib import Path
from time import monotonic, sleep
from types import ModuleType
from typing import Any, Callable, Dict, List, Tuple
from unittest import mock
from xml.etree import ElementTree

from test_logs import is_command
from test_processes import hear_signals
from tool import CASES, TOP, InARoom, case_named
from saxtegun.cases import Case, file_of, read_case, written_case

RUN, HOSTILE = TOP / "conformance/run", TOP / "conformance/hostile"
UNDO = "undo-with-nothing-past-then-undo-of-two-moves"


def loaded(path: Path) -> ModuleType:
    """A tool as a module."""
    module = ModuleType(path.name)
    module.__file__ = str(path)
    with mock.patch.object(sys, "path", [*sys.path]), mock.patch.dict(sys.modules, {path.name: module}):
        exec(compile(path.read_text(encoding="utf-8"), str(path), "exec"), module.__dict__)
    return module


class Runner(InARoom):
    def program(self, script: str) -> Path:
        return self.program_at("program", script)

    def program_at(self, name: str, script: str) -> Path:
        path = self.room / name
        path.write_text(f"#!/bin/sh\n{script}\n", encoding="utf-8")
        path.chmod(0o755)
        return path

    def answers(self, name: str, change: Callable[[str], str]) -> Path:
        """A program that writes what a case wants, changed."""
        self.room.joinpath("shown").write_text(change(case_named(name).stdout.decode()), encoding="utf-8")
        return self.program(f"cat '{self.room}/shown'")

    def ran(self, *words: object) -> Tuple[int, str, str]:
        ran = subprocess.run([sys.executable, RUN, *map(str, words)], stdout=subprocess.PIPE, stderr=subprocess.PIPE)
        return ran.returncode, ran.stdout.decode(), ran.stderr.decode()

    def test_a_case_that_passes_is_counted(self) -> None:
        self.assertEqual(self.ran("--only", UNDO, self.answers(UNDO, str)), (0, "1 passed, 0 failed\n", ""))

    def test_a_case_that_differs_is_told_by_its_first_line_and_by_boards(self) -> None:
        program = self.answers(UNDO, lambda it: it.replace('"undo","level":"background player:0,background:1,1', '"undo","level":"background:0,background player:1,0', 1))
        status, out, errors = self.ran("--only", UNDO, program)
        self.assertEqual((status, errors), (1, ""))
        self.assertEqual(out.splitlines()[:7], [
            f"case {UNDO} ... differs: stdout",
            '    line 2, wanted:   {"at":1,"frame":1,"kind":"undo","level":"background player:0,background:1,1,\\n","session":0}',
            '    line 2, answered: {"at":1,"frame":1,"kind":"undo","level":"background:0,background player:1,0,\\n","session":0}',
            "    session 0 (a), behind input 0 (undo):",
            "    | before      wanted      answered",
            "    | p..         p..         .p.",
            f"    more: conformance/run --unpack {UNDO} case; {program} --order rows <case/input.json | ./saxtegun compare case/lines - case/input.json --order rows",
        ])
        self.assertEqual(out.splitlines()[7:], ["play: 1 of 1 fail", "0 passed, 1 failed"])

    def test_a_line_that_is_none_is_told(self) -> None:
        for change, wanted in ((lambda it: "no line\n" + it, "answered: no line"), (lambda it: "", "answered: nothing"), (lambda it: it + "\x1b[2J\n", "answered: \\u{1b}[2J")):
            self.assertIn(wanted, self.ran("--only", UNDO, self.answers(UNDO, change))[1])

    def test_no_word_of_a_program_or_of_a_call_is_a_command_of_a_ci(self) -> None:
        program = self.program("echo '##[error]x'; echo '::error::y' >&2")
        for words in (("--only", UNDO, program), ("--both", program, self.program_at("other", "echo '##vso[task]'"), self.case(UNDO)[0]), ("##[group]none",)):
            status, out, errors = self.ran(*words)
            with self.subTest(words=words):
                self.assertEqual((status, [it for it in (out + errors).splitlines() if is_command(it)]), (2 if len(words) == 1 else 1, []))
                self.assertIn("#\\u{23}[", out + errors)

    def test_a_status_and_a_word_of_failure_are_told(self) -> None:
        status, out, _ = self.ran("--only", "file-with-a-fraction", self.program("echo memory >&2; exit 3"))
        self.assertEqual(status, 1)
        self.assertIn("    stderr, wanted: bad-entry 0; answered: memory\n    status, wanted: 2; answered: 3\nfile: 1 of 1 fail\n", out)

    def test_a_program_that_hangs_is_stopped_and_the_others_are_played(self) -> None:
        program = self.answers(UNDO, str)
        program.write_text(f"{program.read_text()}\ngrep -q undo || sleep 100\n")
        status, out, _ = self.ran("--limit", "1", "--jobs", "8", "--only", "undo-*", "--only", "walk-two*", "--only", "movement-goes-*", program)
        self.assertEqual((status, out.count("not answered in 1 s")), (1, 2))
        self.assertIn("1 passed, 3 failed\n", out)

    def test_no_line_of_an_engine_ends_the_suite(self) -> None:
        """Lists in lists, a session below 0, a number of too many digits, half a letter: the case fails, and the others are told."""
        movement, undo = case_named("movement-goes-column-by-column"), case_named(UNDO)
        (self.room / "good").write_bytes(movement.stdout)
        (self.room / "wanted").write_bytes(undo.stdout)
        surrogate = undo.stdout.decode().replace("background player", "\\ud800", 1)
        for line in ("[" * 100_000, '{"session":-500}', '{"session":-500,"level":"a:0,"}', f'{{"session":{"9" * 5_000}}}', '{"session":true,"level":[[]]}', surrogate.rstrip()):
            (self.room / "line").write_text(f"{line}\n", encoding="utf-8")
            for order in ("cat '{0}/line' '{0}/wanted'", "cat '{0}/wanted' '{0}/line'"):
                program = self.program(f"if grep -q undo; then {order.format(self.room)}; else cat '{self.room}/good'; fi")
                status, out, errors = self.ran("--only", UNDO, "--only", movement.name, "--junit", self.room / "x.xml", program)
                with self.subTest(line[:20], order=order):
                    self.assertEqual((status, errors, out.splitlines()[-1]), (1, "", "1 passed, 1 failed"))
                    self.assertEqual(len(ElementTree.parse(self.room / "x.xml").getroot()), 2)

    def test_what_writes_without_an_end_is_stopped(self) -> None:
        """No more of it is read than tells that: of one that writes on, and of one that wrote too much and ended."""
        for script in ("exec yes", "exec yes >&2", "head -c 5000000 /dev/zero"):
            status, out, errors = self.ran("--limit", "60", "--only", UNDO, self.program(script))
            self.assertEqual((status, errors), (1, ""))
            self.assertRegex(out, f"^case {UNDO} \\.\\.\\. stopped: it wrote more than 10[0-9]{{5}} bytes\n")

    def test_what_an_engine_leaves_behind_ends_with_it(self) -> None:
        program = self.answers(UNDO, str)
        program.write_text(f"{program.read_text()}\nsleep 1000 >&- 2>&- & echo $! >'{self.room}/left'\n")
        self.assertEqual(self.ran("--only", UNDO, program)[0], 0)
        self.wait_for_the_end_of(int((self.room / "left").read_text()))

    def test_who_ends_it_ends_what_plays(self) -> None:
        """Engines that would never end: several cases at once, of which more would follow, and two programs on a file."""
        program = self.program(f"echo $$ >>'{self.room}/numbers'; exec sleep 1000")
        numbers, folder = self.room / "numbers", self.room / "tmp"
        folder.mkdir()
        for number in (signal.SIGTERM, signal.SIGHUP, signal.SIGINT):
            for words, count in (("--limit", "1000", "--jobs", "2", program), 2), (("--both", program, program, self.case(UNDO)[0]), 1):
                numbers.write_text("")
                environment = {**os.environ, "TMPDIR": str(folder)}
                with self.subTest(number=number, words=words[0]):
                    ran = subprocess.Popen([sys.executable, RUN, *map(str, words)], env=environment, stdout=subprocess.PIPE, stderr=subprocess.PIPE, preexec_fn=hear_signals)
                    self.wait_for(lambda: len(numbers.read_text().split()) == count)
                    ran.send_signal(number)
                    try:
                        _, errors = ran.communicate(timeout=60)
                    finally:
                        ran.kill()
                    self.assertEqual((ran.returncode, errors), (2 if number == signal.SIGINT else -number, b""))
                    self.assertEqual([*folder.iterdir()], [])
                    for left in map(int, numbers.read_text().split()):
                        with self.assertRaises(ProcessLookupError):
                            os.kill(left, 0)

    def test_who_ends_it_while_it_begins_ends_what_plays(self) -> None:
        """Cases are played already while others are still handed out."""
        run = loaded(RUN)
        left = iter(range(3))

        class Hurried(ThreadPoolExecutor):
            def submit(self, *words: Any, **named: Any) -> Any:
                if next(left, None) is None:
                    raise KeyboardInterrupt
                return super().submit(*words, **named)

        with mock.patch.object(run, "ThreadPoolExecutor", Hurried), self.assertRaises(KeyboardInterrupt):
            run.run(run.Words([], 2, 600, None, [str(self.program(f"sleep 60; echo >'{self.room}/came-to-its-end'"))]))
        self.assertFalse((self.room / "came-to-its-end").exists())

    def test_what_plays_hostile_files_stops_what_writes_without_an_end(self) -> None:
        for script in ("exec yes", "exec yes >&2", "trap '' XFSZ; exec yes"):
            with self.subTest(script):
                ran = subprocess.run([sys.executable, HOSTILE, "--quick", self.program(script), "nothing-as-file"], stdout=subprocess.PIPE, stderr=subprocess.PIPE, timeout=120)
                self.assertEqual((ran.returncode, ran.stderr), (1, b""))
                self.assertRegex(ran.stdout.decode(), "^nothing-as-file .* differs: .*\n0 passed, 1 failed\n$")

    def test_who_ends_what_plays_hostile_files_ends_what_plays(self) -> None:
        program = self.program(f"sleep 1000 & echo $! $$ >'{self.room}/numbers'; exec sleep 1000")
        numbers, folder = self.room / "numbers", self.room / "tmp"
        folder.mkdir()
        for number in (signal.SIGTERM, signal.SIGHUP, signal.SIGINT):
            numbers.write_text("")
            with self.subTest(number=number):
                ran = subprocess.Popen([sys.executable, HOSTILE, "--quick", program, "nothing-as-file"], env={**os.environ, "TMPDIR": str(folder)}, stdout=subprocess.PIPE, stderr=subprocess.PIPE, preexec_fn=hear_signals)
                self.wait_for(lambda: numbers.read_text().split())
                ran.send_signal(number)
                try:
                    self.assertEqual(ran.communicate(timeout=60), (b"", b""))
                finally:
                    ran.kill()
                self.assertEqual((ran.returncode, [*folder.iterdir()]), (128 + number, []))
                for left in map(int, numbers.read_text().split()):
                    self.wait_for_the_end_of(left)

    def wait_for_the_end_of(self, number: int) -> None:
        """Of a process that is nobody's child here, so that it may stand in the list for long."""
        state = Path(f"/proc/{number}/stat")
        self.wait_for(lambda: not state.exists() or ") Z " in state.read_text())

    def wait_for(self, is_so: Callable[[], object]) -> None:
        until = monotonic() + 60
        while not is_so():
            self.assertLess(monotonic(), until, "it did not come")
            sleep(0.05)

    def test_a_junit_file_has_each_case(self) -> None:
        self.ran("--junit", self.room / "x.xml", "--only", UNDO, "--only", "movement-goes-*", self.answers(UNDO, str))
        suite = ElementTree.parse(self.room / "x.xml").getroot()
        self.assertEqual([(it.get("classname"), it.get("name"), len(it)) for it in suite], [("move", "movement-goes-column-by-column", 1), ("play", UNDO, 0)])

    def test_words_that_are_wrong_are_refused(self) -> None:
        for words, what in ((("--only", "none-*", RUN), "no case fits none-*"), (("--jobs", "0", RUN), "--jobs wants a number from 1 to 64"), (("--limit", "x", RUN), "--limit wants"), (("--only",), "wants a word behind it")):
            status, out, errors = self.ran(*words)
            self.assertEqual((status, out), (2, ""))
            self.assertIn(what, errors)

    def test_both_programs_are_compared(self) -> None:
        one, file = self.answers(UNDO, str), self.case(UNDO)[0]
        other = self.room / "other"
        other.write_text(f"#!/bin/sh\nsed 's/move/tick/' '{self.room}/shown'\n")
        other.chmod(0o755)
        self.assertEqual(self.ran("--both", one, one, file), (0, "1 passed, 0 failed\n", ""))
        status, out, _ = self.ran("--both", one, other, file)
        self.assertEqual((status, out.splitlines()[0], out.splitlines()[-1]), (1, f"file {file} ... differs: stdout", "0 passed, 1 failed"))


class Suite(unittest.TestCase):
    def names(self) -> List[str]:
        return [it.stem for it in CASES.glob("*.json")]

    def test_the_suite_says_how_many_cases_there_are(self) -> None:
        said = json.loads((TOP / "conformance/suite.json").read_text(encoding="utf-8"))
        self.assertEqual((said["cases"], sorted(said)), (len(self.names()), ["cases", "version"]))

    def test_each_case_is_laid_out_so_that_a_changed_frame_is_a_changed_line(self) -> None:
        for file in CASES.iterdir():
            with self.subTest(file.name):
                text = file.read_text(encoding="utf-8")
                self.assertEqual(text, written_case(json.loads(text)))

    def test_each_case_names_its_rules_first(self) -> None:
        for file in CASES.iterdir():
            with self.subTest(file.name):
                key, rules = next(iter(json.loads(file.read_text(encoding="utf-8")).items()))
                self.assertEqual((key, bool(rules), len(set(rules))), ("rules", True, len(rules)))


class Files(InARoom):
    """What a file of a case says of bytes: each worked out by hand."""

    def read(self, value: Dict[str, Any]) -> Case:
        file = self.room / "one.json"
        file.write_text(json.dumps({"words": [], "status": 0, **value}), encoding="utf-8")
        return read_case(file)

    def test_the_layouts_of_a_sessions_file(self) -> None:
        sessions = [["\u00e9", ["", [0, "undo"], ""]], ["b", ["", [], ""], {"a": 1}]]
        for layout, text in (
            ("compact", '[["\u00e9",["",[0,"undo"],""]],["b",["",[],""],{"a":1}]]'),
            ("spaces", '[["\u00e9", ["", [0, "undo"], ""]], ["b", ["", [], ""], {"a": 1}]]'),
            ("lines", '[["\u00e9",["",[0,"undo"],""]],\n["b",["",[],""],{"a":1}]]\n'),
        ):
            self.assertEqual(self.read({"layout": layout, "sessions": sessions}).input.decode(), text)
            self.assertEqual(file_of(text), {**({} if layout == "compact" else {"layout": layout}), "sessions": sessions})
        self.assertEqual(self.read({"sessions": []}).input, b"[]")

    def test_what_no_layout_gives_is_a_text(self) -> None:
        for text in ("[ ]", '[["a",["",[1e0],""]]]', '[["\\u0061",["",[],""]]]', '[["a",["",[-0],""]]]', '[["a",["",[],""],{"b":1,"b":1}]]'):
            self.assertEqual(file_of(text), {"text": text})
            self.assertEqual(self.read(file_of(text)).input.decode(), text)

    def test_a_file_is_filled_up_to_its_length(self) -> None:
        self.assertEqual(self.read({"text": "[]", "length": 5}).input, b"[]   ")

    def test_lines_a_message_and_files_beside(self) -> None:
        case = self.read({"text": "", "lines": [{"at": 0, "level": "\u00e9"}, {}], "message": "read-fault", "status": 2, "room": {"a/b.json": {"sessions": []}}})
        self.assertEqual((case.input, case.stdout.decode(), case.stderr, case.status, case.room), (b"", '{"at":0,"level":"\u00e9"}\n{}\n', b"read-fault\n", 2, {"a/b.json": b"[]"}))
        case = self.read({"text": ""})
        self.assertEqual((case.stdout, case.stderr, case.room), (b"", b"", {}))

    def test_what_can_not_be_seen_is_escaped_where_a_case_is_written(self) -> None:
        value = {"words": [], "sessions": [["\ufeff\u00e9\u00a0\u2028", ["", [], ""]], []], "lines": [{"at": 0}], "status": 0}
        self.assertEqual(written_case(value), '{\n  "words": [],\n  "sessions": [\n    ["\\ufeff\u00e9\\u00a0\\u2028",["",[],""]],\n    []\n  ],\n  "lines": [\n    {"at":0}\n  ],\n  "status": 0\n}\n')

    def test_entries_that_are_none_share_a_line(self) -> None:
        self.assertEqual(written_case({"sessions": [0, 0]}), '{\n  "sessions": [0, 0]\n}\n')

    def test_a_case_is_unpacked(self) -> None:
        for name, files in ((UNDO, ["input.json", "lines"]), ("a-file-in-a-folder", ["input.json", "lines", "room/rooms/walk.json"])):
            folder, case = self.room / name, case_named(name)
            self.assertEqual(subprocess.run([sys.executable, RUN, "--unpack", name, folder]).returncode, 0)
            self.assertEqual(sorted(str(it.relative_to(folder)) for it in folder.rglob("*") if it.is_file()), files)
            self.assertEqual([(folder / it).read_bytes() for it in files[:2]], [case.input, case.stdout])
        wrongs: List[Tuple[List[str], str]] = [(["none", str(self.room)], "no case is named 'none'"), ([UNDO], "--unpack wants the name of a case, and a folder")]
        for words, why in wrongs:
            ran = subprocess.run([sys.executable, RUN, "--unpack", *words], stdout=subprocess.PIPE, stderr=subprocess.PIPE)
            self.assertEqual((ran.returncode, ran.stdout, ran.stderr.decode()), (2, b"", f"conformance/run: {why} (conformance/run --help says how to call it)\n"))

    def test_each_case_starts_in_a_folder_with_its_own_files_alone(self) -> None:
        program = self.room / "program"
        program.write_text("#!/bin/sh\nfind . -type f >&2\n", encoding="utf-8")
        program.chmod(0o755)
        names = ("a-file-in-a-folder", UNDO)
        ran = subprocess.run([sys.executable, RUN, *(it for name in names for it in ("--only", name)), program], stdout=subprocess.PIPE)
        told = [line for line in ran.stdout.decode().splitlines() if "stderr, wanted" in line]
        self.assertEqual(told, ["    stderr, wanted: nothing; answered: ./rooms/walk.json"])


if __name__ == "__main__":
    unittest.main()

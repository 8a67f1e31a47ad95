"""How a program is run: in bounds that are told, and ended with the command; and wrong programs, which must not be believed."""
from __future__ import annotations

import json
import os
import re
import shutil
import signal
import subprocess
import sys
import tempfile
import threading
import time
import unittest
from pathlib import Path
from typing import Any, Callable, Dict, List, Sequence, Union
from unittest import mock

from day import EXAMPLE, OnSessions, lines_of_example
from tool import TOP, environment, run
from saxtegun import playing, processes
from saxtegun.commands import Refused
from saxtegun.lines import Run
from saxtegun.playing import Engine, batches, runs_of
from saxtegun.processes import Unanswered
from saxtegun.sessions import MOST_BYTES, Entry, Sessions, read_sessions, sessions_in

# Answers each session of its file at once, but for one that is named slow, whose answer takes as long as nobody waits.
PLAYER = f"""#!{sys.executable}
import json, sys, time
entries = json.load(open(sys.argv[-1], encoding="utf-8"))
with open(sys.argv[0] + ".log", "a") as log:
    log.write(f"{{len(entries)}}\\n")
for number, (name, (source, inputs, level, *more)) in enumerate(entries):
    time.sleep(1000 if name == "slow" else 0.001)
    kinds = ["start", *("move" if isinstance(it, int) else it for it in inputs)]
    for at, kind in enumerate(kinds):
        print(json.dumps({{"at": at, "frame": at, "kind": kind, "level": level, "session": number}}, separators=(",", ":")))
    print(json.dumps({{"close": "passed", "frames": len(kinds), "name": name, "session": number}}, separators=(",", ":")))
"""
# A limit in seconds within which PLAYER answers a quick session, also where other work takes nine tenths of the machine.
ENOUGH = "10"
# Takes half a second for each session, which differs.
SLOW = f"""#!{sys.executable}
import json, sys, time
for number, entry in enumerate(json.load(open(sys.argv[-1], encoding="utf-8"))):
    time.sleep(0.5)
    kinds = ["start", *("move" if isinstance(it, int) else it for it in entry[1][1])]
    for at, kind in enumerate(kinds):
        print(json.dumps({{"at": at, "frame": at, "kind": kind, "level": "b:0,", "session": number}}))
    print(json.dumps({{"close": "differs", "frames": len(kinds), "name": entry[0], "session": number}}))
sys.exit(1)
"""
LEVEL = "background:0,\n"
# What a program may do wrong that is called to play; `exec` keeps what it starts from being left behind.
WRONG = {
    "writes nothing": "exit 0",
    "writes nothing, and says that some did not pass": "exit 1",
    "fails without a word": "exit 2",
    "fails with another status": "exit 77",
    "is killed": "kill -9 $$",
    "is ended": "kill -15 $$",
    "has no memory": "kill -6 $$",
    "writes no lines": "echo hello",
    "writes an empty line": "echo",
    "writes half a line": "printf '{\"at\":0'",
    "writes zeros": "head -c 1000 /dev/zero",
    "writes no UTF-8": "printf '\\377\\376\\n'",
    "writes a list": "echo '[]'",
    "writes one line of all": "head -n 1 shown",
    "leaves the last line out": "head -n -1 shown",
    "writes a line twice": "sed '1p' shown",
    "writes another name": "sed 's/\"name\":\"/&x/' shown",
    "writes another number": "sed 's/\"session\":1/\"session\":7/' shown",
    "says that all passed": "sed 's/\"close\":\"differs\"/\"close\":\"passed\"/' shown",
    "says that none passed": "sed 's/\"close\":\"passed\"/\"close\":\"differs\"/' shown; exit 1",
    "says that play is over at the start": "sed '1s/\"start\"/\"over\"/' shown",
    "says much, and nothing else": "head -c 3000000 /dev/zero | tr '\\0' a >&2; exit 2",
}


class Programs(OnSessions):
    def program(self, text: str) -> Path:
        file = self.write("program", text if text.startswith("#!") else f"#!/bin/sh\ncd '{self.room}'\n{text}\n")
        file.chmod(0o755)
        return file

    def suite(self, names: Sequence[str]) -> Path:
        return self.write("s.json", json.dumps([[name, ["OBJECTS", [], LEVEL]] for name in names]))


class Wrong(Programs):
    def test_no_wrong_program_is_believed(self) -> None:
        self.write("shown", lines_of_example(EXAMPLE.read_text(encoding="utf-8")))
        self.assertEqual(len(WRONG), 22)
        for number, (what, script) in enumerate(WRONG.items()):
            for verb in ("test", "explain", "report")[: 1 if number % 7 else 3]:
                with self.subTest(f"{verb}: {what}"):
                    answer = run(verb, EXAMPLE, "--program", self.program(script))
                    self.assertEqual((answer.status, answer.out), (2, ""))
                    self.assertRegex(answer.errors, rf"(?s)\A(?!.*Traceback).{{1,6000}}saxtegun {verb}: .*\n\Z|\Asaxtegun {verb}: .*\n\Z")
                    self.assertLess(len(answer.errors), 6000)


class Time(Programs):
    def test_a_session_that_is_not_answered_is_told_and_no_other_is_lost(self) -> None:
        sessions = self.suite([*(f"quick {it}" for it in range(20)), "slow", *(f"late {it}" for it in range(10))])
        answer = run("test", sessions, "--program", self.program(PLAYER), "--timeout", ENOUGH)
        self.assertEqual((answer.status, answer.errors), (2, ""))
        self.assertEqual(answer.out.count("passed, not solved: "), 30)
        self.assertIn(f"session 20, slow: unanswered: not answered in {ENOUGH} s\n", answer.out)
        self.assertIn("31 sessions: 30 passed, 0 differ, 0 stopped, 0 refused, 1 not answered; 0 solved, 0 solved in part, 30 not solved\n", answer.out)

    def test_that_it_is_not_known_whether_a_session_is_solved_is_told(self) -> None:
        """With one more input, which shows that, it has no answer."""
        program = self.program(PLAYER.replace('name == "slow"', 'inputs[-1:] == ["undo"]'))
        suite = self.write("suite.json", json.dumps([["a", ["", [1], LEVEL, 0], "solved"]]))
        answer = run("test", suite, "--program", program, "--timeout", ENOUGH)
        counts = "1 session: 1 passed, 0 differ, 0 stopped, 0 refused, 1 of which it isn't known whether they are solved"
        told = f"session 0, a: passed: whether it is solved had no answer in its time\n{counts}; 0 solved, 0 solved in part, 0 not solved, 1 not answered\n"
        self.assertEqual((answer.status, answer.out), (2, told))
        explained = run("explain", suite, "--program", program, "--timeout", ENOUGH)
        self.assertEqual((explained.status, explained.out.splitlines()[-1]), (2, counts))

    def test_sessions_that_are_not_answered_take_about_their_limits(self) -> None:
        """Where none is answered only the first batch takes its time for nothing; else finding each takes its time some times more."""
        for names, most in (("ssss", 5), ("s" * 200, 201), ("qs" * 40, 82), ("q" * 63 + "s", 8), ("q" * 40 + "s" + "q" * 100, 9), ("q" * 300, 0)):
            with self.subTest(names):
                entries = sessions_in("s", json.dumps([[it, ["", [], ""]] for it in names])).entries
                waited = []

                def played(some: Sequence[Entry], of: Any, engine: Engine, seconds: float) -> List[Run]:
                    if any(it.name == "s" for it in some):
                        waited.append(seconds)
                        raise Unanswered("not answered")
                    return [Run(place, it.name, "passed", None, []) for place, it in enumerate(some)]

                with mock.patch.object(playing, "runs_within", played), mock.patch.object(playing, "monotonic", lambda: sum(waited)):
                    runs = list(playing.runs_in_time(entries, Sessions("", "", []), playing.Engine(seconds=1.0)))
                self.assertEqual([it.number for it in runs], list(range(len(names))))
                self.assertEqual([it.close for it in runs], ["unanswered" if it == "s" else "passed" for it in names])
                self.assertLessEqual(len(waited), most)

    def test_reports_have_what_is_not_answered(self) -> None:
        sessions = self.suite(["quick", "slow"])
        words = ["--program", self.program(PLAYER), "--timeout", "1"]
        answer = run("test", sessions, *words[:2], "--timeout", ENOUGH, "--junit", self.room / "xml", "--report", self.room / "page", "--markdown", self.room / "md")
        self.assertEqual(answer.status, 2, answer.errors)
        self.assertIn(f'<testcase classname="sessions" name="slow"><error message="not answered in {ENOUGH} s" type="unanswered">', (self.room / "xml").read_text())
        self.assertIn('["slow","stopped",0]', (self.room / "page").read_text())
        self.assertIn(f"| unanswered | not answered in {ENOUGH} s |", (self.room / "md").read_text())
        self.assertEqual(run("explain", sessions, *words).status, 2)
        self.assertEqual(run("coverage", sessions, *words).status, 2)
        self.assertEqual(run("report", sessions, *words).status, 2)
        lines = run("lines", sessions, *words)
        self.assertEqual((lines.status, lines.errors), (2, "saxtegun lines: not answered in 1 s\n"))

    def test_two_texts_over_which_nothing_is_answered_are_not_the_same(self) -> None:
        program, sessions = self.program(PLAYER), self.suite(["quick", "slow"])
        words = ["--sources", self.write("one", "OBJECTS"), self.write("other", "OBJECTS\n"), sessions, "--program", program, "--timeout", ENOUGH]
        answer = run("compare", *words)
        self.assertEqual(answer.status, 2)
        self.assertEqual(answer.out, f"session 1, slow: not answered in {ENOUGH} s over one and other\n2 sessions: 1 the same, 0 diverge, 1 not answered\n")

    def test_a_limit_is_a_number_of_seconds(self) -> None:
        for word in ("0", "-1", "x", "nan", "inf", "1e9"):
            self.assert_refused(run("test", EXAMPLE, "--timeout", word), "must be a number of seconds")


def hear_signals() -> None:
    """What is started hears each signal, whatever the tests were started by ignores, as nohup does."""
    for number in (signal.SIGTERM, signal.SIGHUP, signal.SIGINT):
        signal.signal(number, signal.SIG_DFL)


class Bounds(Programs):
    def watched(self, script: str, **bounds: Any) -> Any:
        with open(self.room / "lines", "wb") as lines:
            before = {name: getattr(processes, name) for name in bounds}
            try:
                for name, value in bounds.items():
                    setattr(processes, name, value)
                return processes.watched([str(self.program(script))], lines)
            finally:
                for name, value in before.items():
                    setattr(processes, name, value)

    def test_an_endless_program_is_cut_and_that_is_told(self) -> None:
        with self.assertRaisesRegex(Refused, "was stopped: it wrote more than 0 GiB of lines; play fewer sessions at once"):
            self.watched("exec yes", MOST_WRITTEN=2**20)
        with self.assertRaisesRegex(Refused, "was stopped: it said more than 1 MiB on standard error"):
            self.watched("exec 1>&2; exec head -c 500000000 /dev/zero", MOST_SAID=2**20)

    def test_no_thread_beside_writes_to_our_streams(self) -> None:
        """One that writes as this process ends would hold the stream, and Python aborts where it can't write that out."""
        by: List[threading.Thread] = []
        with mock.patch.object(processes, "say", lambda line: by.append(threading.current_thread())):
            self.assertEqual(self.watched("for it in a b c; do echo $it >&2; done").status, 0)
        self.assertEqual(by, [threading.main_thread()] * 3)

    def test_of_very_much_that_is_said_at_once_the_first_lines_are_handed_on(self) -> None:
        """And it is told how many more there were; whoever says them wouldn't look at the time for minutes."""
        said: List[str] = []
        with mock.patch.object(processes, "say", said.append), mock.patch.object(processes, "MOST_HELD", 10):
            self.assertEqual(self.watched("yes a | head -n 100000 >&2").status, 0)
        more = [int(it[1]) for it in (re.fullmatch("and ([0-9]+) lines? more", line) for line in said) if it]
        self.assertEqual((said[:10], said[-1]), (["a"] * 10, "a"))
        self.assertEqual(len(said) - len(more) + sum(more), 100_000)

    def test_what_a_program_leaves_behind_is_ended_with_it(self) -> None:
        self.assertEqual(self.watched(f"sleep 1000 & echo $! >'{self.room}/left'; exit 0").status, 0)
        self.assert_gone(int((self.room / "left").read_text()))

    def assert_gone(self, number: int) -> None:
        for _ in range(100):
            try:
                os.kill(number, 0)
            except ProcessLookupError:
                return
            time.sleep(0.05)
        self.fail(f"process {number} is left")

    def test_what_holds_only_the_lines_is_ended_too(self) -> None:
        """The program ends, and what it has started keeps standard output open, but not standard error."""
        program = self.program(f"(exec 2>/dev/null; echo $$ >left; exec sleep 1000) &\nwhile [ ! -s left ]; do :; done\ncat {self.lines}\nexit 1")
        answer = run("lines", EXAMPLE, "--program", program, "--timeout", "60")
        self.assertEqual((answer.status, answer.out), (1, self.lines.read_text(encoding="utf-8")))

    def test_the_command_takes_its_program_and_its_folders_with_it(self) -> None:
        script = f"echo $$ >'{self.room}/number'; exec sleep 1000"
        for number in (signal.SIGTERM, signal.SIGHUP, signal.SIGINT):
            folder = self.room / f"temp {number}"
            folder.mkdir()
            (self.room / "number").unlink(missing_ok=True)
            words: List[Union[str, Path]] = [sys.executable, TOP / "saxtegun", "test", EXAMPLE, "--program", self.program(script)]
            with subprocess.Popen(words, env={**environment(), "TMPDIR": str(folder)}, stdout=subprocess.DEVNULL, stderr=subprocess.PIPE, preexec_fn=hear_signals) as ran, self.subTest(number):
                while not (self.room / "number").exists() or not (self.room / "number").read_text():
                    time.sleep(0.02)
                self.assertNotEqual(list(folder.iterdir()), [])
                ran.send_signal(number)
                assert ran.stderr is not None
                self.assertNotIn(b"Traceback", ran.stderr.read())
                self.assertEqual(ran.wait(timeout=20), 2 if number == signal.SIGINT else -number)
                self.assertEqual(list(folder.iterdir()), [])
                self.assert_gone(int((self.room / "number").read_text()))


    def test_ctrl_c_ends_a_command_whose_output_nobody_reads(self) -> None:
        with subprocess.Popen([sys.executable, "-c", ENDLESS], env={**environment(), "PYTHONPATH": str(TOP / "python")}, stdout=subprocess.PIPE, preexec_fn=hear_signals) as ran:
            time.sleep(2)
            ran.send_signal(signal.SIGINT)
            self.assertEqual(ran.wait(timeout=20), 2)
            assert ran.stdout is not None
            ran.stdout.close()


class Ended(Exception):
    """What a signal raises here."""


# A command that writes more than a pipe holds.
ENDLESS = """
import sys
from saxtegun.commands import serve
def act():
    while True:
        sys.stdout.write("a line\\n" * 1000)
serve("endless", act)
"""


# A command that is done, and to which a signal comes as it ends.
DONE = """
import atexit, os, sys
from saxtegun.commands import serve
atexit.register(lambda: os.kill(os.getpid(), int(sys.argv[1])))
serve("done", lambda: 0)
"""


# Begins the command, to which Ctrl-C comes as the first part of the package is read.
BEGUN = """
import os, runpy, signal, sys
class Finder:
    def find_spec(self, name, path=None, target=None):
        if name == "saxtegun.command_line":
            os.kill(os.getpid(), signal.SIGINT)
sys.meta_path.insert(0, Finder())
sys.argv = ["saxtegun", "--version"]
sys.path.insert(0, "python")
runpy.run_path("saxtegun", run_name="__main__")
"""


class Done(unittest.TestCase):
    def test_a_signal_as_the_command_begins_ends_it_without_a_word(self) -> None:
        for ignores, status in ((hear_signals, -signal.SIGINT), (lambda: signal.signal(signal.SIGINT, signal.SIG_IGN), 0)):
            with self.subTest(status=status):
                ran = subprocess.run([sys.executable, "-B", "-c", BEGUN], cwd=TOP, stdin=subprocess.DEVNULL, capture_output=True, preexec_fn=ignores)
                self.assertEqual((ran.returncode, ran.stderr), (status, b""))

    def test_what_lies_beside_the_command_or_where_it_is_called_is_no_module_of_it(self) -> None:
        """Modules of the names of Python's own lie beside the command, and where it is called, beside a link to it."""
        with tempfile.TemporaryDirectory() as name:
            top, away = Path(name) / "top", Path(name) / "away"
            away.mkdir()
            shutil.copytree(TOP / "python", top / "python", ignore=shutil.ignore_patterns("__pycache__"))
            shutil.copy(TOP / "saxtegun", top / "saxtegun")
            (away / "saxtegun").symlink_to(top / "saxtegun")
            for module in ("argparse", "gc", "json", "os", "pathlib", "re", "saxtegun", "signal", "subprocess", "sys", "tempfile", "typing"):
                for folder in (top, away):
                    (folder / f"{module}.py").write_text("raise SystemExit('a stranger was run')\n")
            os.unlink(top / "saxtegun.py")
            for command, folder in ((top / "saxtegun", top), (top / "saxtegun", away), (away / "saxtegun", away)):
                with self.subTest(command=command, folder=folder):
                    ran = subprocess.run([sys.executable, "-B", str(command), "lines", "--help"], cwd=folder, stdin=subprocess.DEVNULL, capture_output=True)
                    self.assertEqual((ran.returncode, ran.stderr), (0, b""))

    def test_an_empty_entry_of_pythonpath_names_no_module_of_this_folder(self) -> None:
        """Those that Python itself reads as it begins aside: nobody is asked before."""
        with tempfile.TemporaryDirectory() as name:
            (Path(name) / "argparse.py").write_text("raise SystemExit('a stranger was run')\n")
            for path in (":/none", "/none:", "."):
                words = [sys.executable, "-B", str(TOP / "saxtegun"), "lines", "--help"]
                ran = subprocess.run(words, cwd=name, env={**os.environ, "PYTHONPATH": path}, stdin=subprocess.DEVNULL, capture_output=True)
                self.assertEqual((ran.returncode, ran.stderr), (0, b""))

    def test_a_signal_that_comes_behind_all_else_ends_it_without_a_word(self) -> None:
        for number in (signal.SIGTERM, signal.SIGHUP, signal.SIGINT):
            with self.subTest(number):
                words = [sys.executable, "-B", "-c", DONE, str(int(number))]
                ran = subprocess.run(words, cwd=TOP / "python", stdin=subprocess.DEVNULL, capture_output=True, preexec_fn=hear_signals)
                self.assertEqual((ran.returncode, ran.stdout, ran.stderr), (-number, b"", b""))


class Held(Programs):
    def setUp(self) -> None:
        super().setUp()
        for number in (signal.SIGTERM, signal.SIGINT):
            self.addCleanup(signal.signal, number, signal.signal(number, self.hear))

    def hear(self, number: int, frame: Any) -> None:
        raise Ended(number)

    def test_a_signal_comes_behind_what_is_not_left_halfway(self) -> None:
        done = []
        for number in (signal.SIGTERM, signal.SIGINT):
            with self.assertRaises(Ended), processes.held():
                os.kill(os.getpid(), number)
                done.append(number)
            self.assertEqual((done[-1], signal.getsignal(number)), (number, self.hear))

    def test_what_is_ignored_stays_ignored(self) -> None:
        signal.signal(signal.SIGTERM, signal.SIG_IGN)
        with processes.held():
            os.kill(os.getpid(), signal.SIGTERM)
        self.assertEqual(signal.getsignal(signal.SIGTERM), signal.SIG_IGN)

    def test_a_program_that_begins_as_a_signal_comes_is_ended(self) -> None:
        """The signal comes where the program runs already, and nobody has been told of it."""
        begun = subprocess.Popen
        ran: List[Any] = []

        def begin(*words: Any, **options: Any) -> Any:
            ran.append(begun(*words, **options))
            os.kill(os.getpid(), signal.SIGTERM)
            time.sleep(0.1)
            return ran[0]

        with mock.patch.object(subprocess, "Popen", begin), self.assertRaises(Ended), processes.started(["sleep", "1000"], None, subprocess.DEVNULL):
            self.fail("it goes on")
        self.assertEqual(ran[0].poll(), -signal.SIGTERM)
        ran[0].stderr.close()


# A program that hears neither TERM nor HUP, and notes its number.
DEAF = f"""#!{sys.executable}
import os, signal, time
for it in (signal.SIGTERM, signal.SIGHUP):
    signal.signal(it, signal.SIG_IGN)
with open("numbers", "a") as numbers:
    numbers.write(f"{{os.getpid()}}\\n")
time.sleep(1000)
"""


class Ends(Programs):
    """Each verb that plays ends with what it has started, and leaves no folder."""

    def setUp(self) -> None:
        super().setUp()
        self.deaf, self.folder = self.program(DEAF), self.room / "temp"
        self.folder.mkdir()
        self.addCleanup(self.kill_what_is_left)

    def kill_what_is_left(self) -> None:
        for it in self.numbers():
            if os.path.exists(f"/proc/{it}"):
                os.kill(it, signal.SIGKILL)

    def numbers(self) -> List[int]:
        path = self.room / "numbers"
        return [int(it) for it in path.read_text().split()] if path.exists() else []

    def wait_for(self, is_so: Callable[[], object]) -> None:
        for _ in range(600):
            if is_so():
                return
            time.sleep(0.05)
        self.fail("it did not come")

    def started(self, *words: object, **streams: Any) -> subprocess.Popen[bytes]:
        streams = {"stdin": subprocess.DEVNULL, "stdout": subprocess.DEVNULL, **streams}
        command: List[Union[str, Path]] = [sys.executable, "-B", TOP / "saxtegun", *map(str, words)]
        return subprocess.Popen(command, cwd=self.room, env={**environment(), "TMPDIR": str(self.folder)}, stderr=subprocess.PIPE, preexec_fn=hear_signals, **streams)

    def assert_ends(self, ran: subprocess.Popen[bytes], *signals: int) -> None:
        for number in signals:
            ran.send_signal(number)
            time.sleep(0.2)
        try:
            ran.wait(timeout=20)
        except subprocess.TimeoutExpired:
            ran.kill()
            self.fail("it doesn't end")
        assert ran.stderr is not None
        self.assertNotIn(b"Traceback", ran.stderr.read())
        self.assertEqual(list(self.folder.iterdir()), [])
        for number in self.numbers():
            with self.assertRaises(ProcessLookupError):
                os.kill(number, 0)

    def test_shrinking_ends_both_of_its_programs(self) -> None:
        for number in (signal.SIGTERM, signal.SIGHUP, signal.SIGINT):
            (self.room / "numbers").unlink(missing_ok=True)
            with self.subTest(number), self.started("shrink", self.deaf, self.deaf, EXAMPLE, "both*", self.room / "case.json", "--timeout", "100") as ran:
                self.wait_for(lambda: len(self.numbers()) == 2)
                self.assert_ends(ran, number)

    def test_a_review_that_is_ended_keeps_its_answers_and_leaves_no_folder(self) -> None:
        """It waits for an answer while the lines that it reads are held. Ctrl-C leaves the file as it was, and says so."""
        stale = json.loads(EXAMPLE.read_text(encoding="utf-8"))[-1]
        before = json.dumps([stale, stale])
        program = self.program(f"cat '{self.write('lines', lines_of_example(before))}'\nexit 1")
        for number in (signal.SIGTERM, signal.SIGHUP, signal.SIGINT):
            suite = self.write("stale.json", before)
            with self.subTest(number), self.started("accept", suite, "--review", "--in-place", "--program", program, stdin=subprocess.PIPE) as ran:
                told = self.told_up_to(ran, b"accept it?")
                assert ran.stdin is not None and ran.stderr is not None
                ran.stdin.write(b"y\n")
                ran.stdin.flush()
                told += self.told_up_to(ran, b"accept it?")
                ran.send_signal(number)
                told += ran.stderr.read()
                self.assertEqual(ran.wait(timeout=20), 2 if number == signal.SIGINT else -number)
                self.assertEqual((list(self.folder.iterdir()), b"Traceback" in told, b"nothing is changed" in told), ([], False, number == signal.SIGINT))
                first, second = json.loads(suite.read_text(encoding="utf-8"))
                self.assertEqual((first == stale, second == stale), (number == signal.SIGINT, True))

    def told_up_to(self, ran: subprocess.Popen[bytes], words: bytes) -> bytes:
        assert ran.stderr is not None
        told = b""
        while words not in told:
            told += os.read(ran.stderr.fileno(), 1) or self.fail(told)
        return told

    def test_a_comparison_of_two_texts_leaves_no_folder(self) -> None:
        """The lines of the first text are held while the second is played."""
        program = self.program(f"if [ -e '{self.room}/played' ]; then echo $$ >>numbers; exec sleep 1000; fi\ntouch '{self.room}/played'\ncat '{self.lines}'\nexit 1")
        texts = [self.write(name, "OBJECTS\n") for name in ("one.txt", "other.txt")]
        for number in (signal.SIGTERM, signal.SIGHUP, signal.SIGINT):
            for name in ("numbers", "played"):
                (self.room / name).unlink(missing_ok=True)
            with self.subTest(number), self.started("compare", "--sources", *texts, EXAMPLE, "--program", program) as ran:
                self.wait_for(self.numbers)
                self.assert_ends(ran, number)

    def test_whoever_is_impatient_leaves_no_program_behind(self) -> None:
        for words in (("test", EXAMPLE), ("coverage", EXAMPLE), ("lines", EXAMPLE)):
            (self.room / "numbers").unlink(missing_ok=True)
            with self.subTest(words[0]), self.started(*words, "--program", self.deaf) as ran:
                self.wait_for(self.numbers)
                self.assert_ends(ran, signal.SIGINT, signal.SIGINT)

    def test_whoever_stops_watching_while_it_plays_has_no_answer(self) -> None:
        program, sessions, log = self.program(PLAYER), self.suite(["quick"]), self.room / "program.log"
        with self.started("test", sessions, "--program", program, "--watch") as ran:
            assert ran.stderr is not None
            self.assertIn(b"waiting for a save", ran.stderr.readline())
            played = len(log.read_text().split())
            self.suite(["slow"])
            self.wait_for(lambda: len(log.read_text().split()) > played)
            self.assert_ends(ran, signal.SIGINT)
            self.assertEqual(ran.returncode, 2)

    def test_lines_that_nobody_reads_keep_nothing_from_ending(self) -> None:
        program = self.write("endless", "#!/bin/sh\nexec yes '{\"at\":0'\n")
        program.chmod(0o755)
        for number in (signal.SIGTERM, signal.SIGHUP, signal.SIGINT):
            reads, writes = os.pipe()
            try:
                with self.subTest(number), self.started("lines", EXAMPLE, "--program", program, stdout=writes) as ran:
                    os.close(writes)
                    self.assertNotEqual(os.read(reads, 1), b"")
                    time.sleep(0.5)
                    self.assert_ends(ran, number)
                    self.assertEqual(ran.returncode, 2 if number == signal.SIGINT else -number)
            finally:
                os.close(reads)


class Copies(Programs):
    def test_the_copies_of_a_game_count_against_no_limit(self) -> None:
        """18 KB of recordings over a game of 56 KB are more than a file may hold, where each has the game."""
        game = self.write("game.txt", "title x\n(" + "x" * 56_000 + ")\nOBJECTS\n")
        recordings = self.write("r.json", json.dumps([[f"session {it}", ["", [3], LEVEL]] for it in range(310)]))
        program = self.program(PLAYER)
        answer = run("test", game, recordings, "--program", program, "--quiet")
        self.assertEqual((answer.status, answer.errors), (0, ""))
        self.assertIn("310 sessions: 310 passed", answer.out)
        played = list(map(int, (self.room / "program.log").read_text().split()))
        self.assertEqual((sum(played), len(played) > 2), (2 * 310, True))

    def test_the_lines_of_a_suite_over_one_game_are_those_of_one_run(self) -> None:
        """`lines --game` plays it in batches, and numbers the sessions through."""
        text = "title x\n(" + "x" * 56_000 + ")\nOBJECTS\n"
        entries = [[f"session {it}", ["", [3], LEVEL]] for it in range(310)]
        game, recordings = self.write("game.txt", text), self.write("r.json", json.dumps(entries))
        answer = run("lines", recordings, "--game", game, "--program", self.program(PLAYER))
        self.assertEqual((answer.status, answer.errors), (0, ""))
        frames: List[Dict[str, Any]] = [{"at": at, "frame": at, "kind": kind, "level": LEVEL} for at, kind in enumerate(("start", "move"))]
        wanted = [line for it in range(310) for line in (*({**frame, "session": it} for frame in frames), {"close": "passed", "frames": 2, "name": f"session {it}", "session": it})]
        self.assertEqual([json.loads(it) for it in answer.out.splitlines()], wanted)
        self.assertGreater(len((self.room / "program.log").read_text().split()), 1)

    def test_batches_hold_all_entries_in_their_order_and_none_is_too_large(self) -> None:
        sessions = sessions_in("x", json.dumps([[str(it), ["x" * 3_000_000, [], ""]] for it in range(13)]))
        found = list(batches(sessions.entries))
        self.assertEqual([json.loads(it)[0] for batch in found for it in batch], [str(it) for it in range(13)])
        self.assertTrue(all(sum(map(len, it)) + len(it) + 1 <= MOST_BYTES for it in found))
        self.assertEqual([len(it) for it in found], [5, 5, 3])

    def test_sessions_are_numbered_through(self) -> None:
        sessions = read_sessions(str(self.suite([f"s{it}" for it in range(200)])))
        for seconds in (None, 20.0):
            runs = runs_of(sessions.entries, Sessions("s.json", "", []), Engine(program=str(self.program(PLAYER)), seconds=seconds))
            self.assertEqual([(it.number, it.name) for it in runs], [(it, f"s{it}") for it in range(200)])


if __name__ == "__main__":
    unittest.main()

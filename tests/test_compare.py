"""bench/compare: on small programs of the shell, that answer the same, or not, or not at all."""
from __future__ import annotations

import os
import re
import signal
import subprocess
import sys
import unittest
from pathlib import Path
from time import monotonic, sleep
from typing import Callable, List, Optional, Tuple

from test_processes import hear_signals
from tool import TOP, Answer, InARoom, run

COPIES = 'cat "$1"\n'
# Takes 64 MiB and half a second of the processor.
WORKS = """import sys, time
room = b"x" * (64 << 20)
while time.process_time() < 0.5:
    pass
sys.stdout.write(open(sys.argv[1]).read())
"""


def state_of(number: int) -> str:
    """The letter for what a process does; X where there is none."""
    try:
        return Path(f"/proc/{number}/stat").read_text().rpartition(")")[2].split()[0]
    except OSError:
        return "X"


class Compare(InARoom):
    def setUp(self) -> None:
        super().setUp()
        self.file = self.room / "sessions.json"
        self.file.write_text("[]\n", encoding="utf-8")

    def program(self, name: str, body: str, interpreter: str = "/bin/sh") -> Path:
        file = self.room / name
        file.write_text(f"#!{interpreter}\n{body}", encoding="utf-8")
        file.chmod(0o755)
        return file

    def noting(self, name: str) -> Path:
        """A program that copies, and notes in the log how it was called."""
        return self.program(name, f'echo {name} "$@" >>"{self.room}/log"\nfor file; do :; done; cat "$file"\n')

    def log(self) -> List[str]:
        return (self.room / "log").read_text(encoding="utf-8").splitlines()

    def compare(self, *words: object) -> Answer:
        return run(TOP / "bench" / "compare", *words)

    def row(self, answer: Answer, file: Optional[Path] = None) -> Tuple[List[float], str]:
        """What the line of a file says: nine numbers, and the answers."""
        lines = [line for line in answer.out.splitlines() if line.startswith(str(file or self.file))]
        self.assertEqual(len(lines), 1)
        words = lines[0].split()
        return [float(word.replace("-", "nan")) for word in words[1:10]], " ".join(words[10:])

    def assert_refused(self, answer: Answer, what: str) -> None:
        self.assertEqual(answer.status, 2)
        self.assertIn(what, answer.errors)
        self.assertNotIn("Traceback", answer.errors)

    def test_who_ends_it_ends_what_plays(self) -> None:
        program = self.program("waits", f'sleep 1000 & echo $! $$ >"{self.room}/numbers"; exec sleep 1000\n')
        numbers = self.room / "numbers"
        for number in (signal.SIGTERM, signal.SIGHUP, signal.SIGINT):
            numbers.write_text("")
            with self.subTest(number=number):
                ran = subprocess.Popen([TOP / "bench" / "compare", program, program, self.file], stdout=subprocess.DEVNULL, stderr=subprocess.PIPE, preexec_fn=hear_signals)
                self.wait_for(numbers.read_text)
                ran.send_signal(number)
                self.assertEqual(ran.communicate(timeout=60)[1], b"")
                self.assertEqual(ran.returncode, 2 if number == signal.SIGINT else -number)
                for it in map(int, numbers.read_text().split()):
                    self.wait_for(lambda: state_of(it) in "ZX")

    def wait_for(self, is_so: Callable[[], object]) -> None:
        until = monotonic() + 60
        while not is_so():
            self.assertLess(monotonic(), until, "it did not come")
            sleep(0.05)

    def test_equal_answers_and_what_each_took(self) -> None:
        works, copies = self.program("works", WORKS, sys.executable), self.program("copies", COPIES)
        answer = self.compare(works, copies, self.file, "--rounds", 2)
        (wall, _, _, processor, other_processor, times, memory, other_memory, ratio), said = self.row(answer)
        self.assertEqual((answer.status, answer.errors, said), (0, "", "equal"))
        self.assertGreaterEqual(wall, 0.5)
        self.assertGreaterEqual(processor, 0.5)
        self.assertGreaterEqual(memory, 64)
        # a small program is told as such, whatever the one that starts it takes
        self.assertLess(other_memory, 6)
        self.assertAlmostEqual(ratio / (memory / other_memory), 1, delta=0.1)
        self.assertTrue(times > 5 or other_processor == 0)
        self.assertEqual(answer.out.splitlines()[-1], "1 file, 0 with answers that differ")

    def test_other_bytes_give_status_1(self) -> None:
        same, other = self.room / "same.json", self.room / "other.json"
        same.write_text("[1]\n", encoding="utf-8")
        other.write_text("[2]\n", encoding="utf-8")
        copies, turns = self.program("copies", COPIES), self.program("turns", 'tr 2 3 <"$1"\n')
        answer = self.compare(copies, turns, same, other, "--rounds", 1)
        self.assertEqual((answer.status, self.row(answer, same)[1], self.row(answer, other)[1]), (1, "equal", "bytes differ"))
        self.assertEqual(answer.out.splitlines()[-1], "2 files, 1 with answers that differ")

    def test_bytes_that_change_from_round_to_round_differ(self) -> None:
        changes = self.program("changes", f'echo >>"{self.room}/log"\nwc -l <"{self.room}/log"\n')
        answer = self.compare(changes, changes, self.file, "--rounds", 1)
        self.assertEqual((answer.status, self.row(answer)[1]), (1, "bytes differ"))

    def test_another_status_is_another_answer(self) -> None:
        copies, fails = self.program("copies", COPIES), self.program("some-failed", COPIES + "exit 1\n")
        self.assertEqual(self.compare(fails, fails, self.file, "--rounds", 1).status, 0)
        answer = self.compare(copies, fails, self.file, "--rounds", 1)
        self.assertEqual((answer.status, self.row(answer)[1]), (1, "status differs"))

    def test_a_program_without_a_whole_output_is_reported(self) -> None:
        copies = self.program("copies", COPIES)
        refuses = self.program("refuses", "echo not-json >&2\nexit 2\n")
        answer = self.compare(copies, refuses, self.file)
        self.assert_refused(answer, f"{refuses} has no whole output of {self.file}: it ended with status 2")
        self.assertIn("not-json", answer.errors)
        killed = self.program("killed", "kill -9 $$\n")
        self.assert_refused(self.compare(killed, copies, self.file), f"{killed} has no whole output of {self.file}: it was ended by signal 9")

    def test_each_plays_five_times_in_turn(self) -> None:
        self.assertEqual(self.compare(self.noting("one"), self.noting("two"), self.file).status, 0)
        self.assertEqual(self.log(), [f"{name} {self.file}" for name in ("one", "two")] * 5)

    def test_workers_are_handed_on_and_a_file_is_no_option(self) -> None:
        file = self.room / "-n"
        file.write_text("[]\n", encoding="utf-8")
        words = [self.noting("one"), self.noting("two"), os.path.relpath(file), "--workers", 3, "--rounds", 2]
        self.assertEqual(self.compare(*words).status, 0)
        self.assertEqual(self.log(), [f"{name} --workers 3 {file}" for name in ("one", "two")] * 2)

    def test_a_call_that_is_wrong_is_refused_before_anything_runs(self) -> None:
        one, two, none = self.noting("one"), self.noting("two"), self.room / "none"
        for words, what in (((one, two), "required: FILE"), ((one, two, none), f"no file that can be read at '{none}'"), ((one, two, self.room), "no file that can be read"),
                            ((one, none, self.file), f"no program at '{none}'"), ((self.file, two, self.file), f"no program at '{self.file}'"),
                            ((one, two, self.file, "--rounds", "0"), "'0' is no whole number above 0"), ((one, two, self.file, "--workers", "x"), "'x' is no whole number above 0")):
            with self.subTest(what=what):
                answer = self.compare(*words)
                self.assert_refused(answer, what)
                self.assertEqual(answer.out, "")
        self.assertFalse((self.room / "log").exists())

    def test_help_says_what_it_does(self) -> None:
        answer = self.compare("--help")
        self.assertEqual((answer.status, answer.errors), (0, ""))
        self.assertTrue(re.search(r"PROGRAM OTHER FILE.*--rounds.*Exit status", answer.out, re.S))


if __name__ == "__main__":
    unittest.main()

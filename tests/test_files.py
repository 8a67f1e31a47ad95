"""Files that are too long, that change while they are written, or whose folder is gone."""
from __future__ import annotations

import html
import io
import json
import os
import re
import subprocess
import sys
import unittest
import unittest.mock
from contextlib import redirect_stdout
from pathlib import Path
from time import sleep
from typing import Callable, List, Union

from day import EXAMPLE, OnSessions
from tool import TOP, environment, run
from saxtegun import files
from saxtegun.commands import Refused
from saxtegun.failures import Failure, markdown
from saxtegun.files import Changed, locked, read_lines, read_text, write_again
from saxtegun.lines import Frame
from saxtegun.sessions import MOST_BYTES, sessions_in
from saxtegun.verbs import play
from saxtegun.verbs.add import add_to

ENTRY = '["n %d", ["OBJECTS", [3], "background:0,", %d]]'
# Answers each session at once, with the recorded level.
PLAYER = f"""#!{sys.executable}
import json, sys
for number, (name, (source, inputs, level, *more)) in enumerate(json.load(open(sys.argv[-1], encoding="utf-8"))):
    kinds = ["start", *("move" if isinstance(it, int) else it for it in inputs)]
    for at, kind in enumerate(kinds):
        print(json.dumps({{"at": at, "frame": at, "kind": kind, "level": level, "session": number}}, separators=(",", ":")))
    print(json.dumps({{"close": "passed", "frames": len(kinds), "name": name, "session": number}}, separators=(",", ":")))
"""

LETTERS = 8_000_000
# Says how many bytes more there are after a text has been read.
MEASURE = """
from resource import RUSAGE_SELF, getrusage
from saxtegun.recording_search import find
before = getrusage(RUSAGE_SELF).ru_maxrss
find(f"['a',[{text},[],'']]")
print((getrusage(RUSAGE_SELF).ru_maxrss - before) * 1024)
"""


class Sizes(OnSessions):
    def long(self, name: str, size: int) -> Path:
        """A file of this size that takes no room."""
        path = self.room / name
        with open(path, "wb") as file:
            file.truncate(size)
        return path

    def test_a_page_is_not_written_behind_the_text_of_the_game(self) -> None:
        game, sessions = self.write("game.txt", "title a\n"), self.write("s.json", "[]")
        for verb, words in (("report", [sessions]), ("explain", [sessions]), ("accept", [sessions]), ("junit", [sessions, sessions])):
            with open(game, "ab") as output:
                ran = subprocess.run([sys.executable, TOP / "saxtegun", verb, *words, "--game", game], stdout=output, stderr=subprocess.PIPE, env=environment())
            self.assertEqual((ran.returncode, game.read_text()), (2, "title a\n"), verb)
            self.assertIn(f"standard output is {game}, which is read".encode(), ran.stderr)

    def test_a_file_that_is_too_long_is_not_read(self) -> None:
        sessions, text, whole = self.long("s.json", MOST_BYTES + 1), self.long("t.txt", 2**26 + 1), self.long("w.json", 2**30 + 1)
        for verb, *words in (("test", sessions), ("explain", sessions), ("report", sessions), ("accept", sessions), ("coverage", sessions)):
            with self.subTest(verb):
                self.assert_refused(run(verb, *words), f"{sessions} has more than 16 MiB: play it in parts, by saxtegun split")
        for verb, words in (("testdata", [text]), ("add", [self.room / "new.json", text]), ("test", [text, EXAMPLE]), ("play", [text])):
            with self.subTest(verb):
                self.assert_refused(run(verb, *words), f"{text} has more than 64 MiB, and is not read")
        self.assert_refused(run("split", whole, "2", self.room / "parts"), "has more than 256 MiB, and is not read")

    def test_no_more_is_read_of_a_stream(self) -> None:
        self.assert_refused(run("test", "-", stdin=b" " * (MOST_BYTES + 1)), "- has more than 16 MiB: play it in parts, by saxtegun split")

    def test_a_file_that_is_as_long_as_it_may_be_is_read(self) -> None:
        self.assert_refused(run("explain", self.long("s.json", MOST_BYTES)), "no JSON list of sessions")

    def test_no_line_is_read_that_has_no_end(self) -> None:
        """Of lines that are read one by one each has a limit."""
        path = self.write("lines", "1234567\n12345678\n123456789012\n")
        with unittest.mock.patch.object(files, "MOST_OF_LINE", 8):
            with self.assertRaisesRegex(Refused, "lines, line 2: it has more than 0 MiB, and is not read"):
                list(read_lines(str(path)))
        with unittest.mock.patch.object(files, "MOST_OF_LINE", 13):
            self.assertEqual([len(it) for _, it in read_lines(str(path))], [8, 9, 13])

    def test_what_could_not_be_read_again_is_not_written(self) -> None:
        """By the largest file that is read, of one entry with a long name."""
        program, console, game = self.write("program", PLAYER), self.write("console.txt", ENTRY % (1, 7)), self.write("game.txt", "title A\n" * 100)
        program.chmod(0o755)
        begin, end = '[["', '",["OBJECTS",[],"background:0,"]]]'
        full = self.write("full.json", begin + "x" * (MOST_BYTES - len(begin + end)) + end)
        # a comma and two line feeds more, and three blanks of its body less
        size = MOST_BYTES + len(ENTRY % (1, 7))
        limit = f"{full} would have {size:,} bytes, and a sessions file has at most 16,777,216: nothing is written; "
        for words, told in (
            (("add", full, console, "--program", program), f"{limit}add them to another file, or name the game by --game, whose text isn't copied"),
            (("source", game, full, "--in-place", "--all"), "bytes, and a sessions file has at most 16,777,216: nothing is written; with --follow they need no copies of the text"),
        ):
            with self.subTest(words[0]):
                self.assert_refused(run(*words), told)
                self.assertEqual(full.stat().st_size, MOST_BYTES)
                self.assertTrue(full.read_bytes().endswith(f'x{end}'.encode()))

    def test_no_more_entries_are_written_than_a_file_has(self) -> None:
        path = self.write("three.json", f"[{','.join(ENTRY % (it, it) for it in range(3))}]")
        before, new = path.read_bytes(), sessions_in("new", f"[{ENTRY % (4, 4)}]")
        with unittest.mock.patch("saxtegun.sessions.MOST_ENTRIES", 3):
            acts: List[Callable[[], object]] = [lambda: add_to(str(path), new, None), lambda: play.append(str(path), ENTRY % (4, 4)), lambda: play.guard_saving("a", str(path))]
            for act in acts:
                with self.assertRaisesRegex(Refused, "three.json would have 4 sessions, and a sessions file has at most 3: nothing is written; "):
                    act()
        self.assertEqual(path.read_bytes(), before)

    def test_a_pipe_is_not_waited_for(self) -> None:
        pipe = self.room / "pipe.json"
        os.mkfifo(pipe)
        for words in (("test", pipe), ("test", pipe, EXAMPLE), ("add", self.room / "new.json", pipe), ("add", pipe, EXAMPLE), ("lines", pipe), ("explain", EXAMPLE, pipe), ("split", pipe, "2", self.room / "parts"),
                      ("compare", pipe, pipe), ("play", pipe), ("source", pipe, EXAMPLE), ("testdata", pipe), ("explain", "/dev/zero")):
            with self.subTest(str(words)):
                ran = subprocess.run([sys.executable, TOP / "saxtegun", *map(str, words)], stdin=subprocess.DEVNULL, stdout=subprocess.PIPE, stderr=subprocess.PIPE, env=environment(), timeout=20, check=False)
                self.assertEqual((ran.returncode, ran.stdout), (2, b""))
                self.assertIn("can't be read: it is a pipe or a device; name a file, or - for standard input", ran.stderr.decode())

    def test_what_is_no_utf_8_is_told_with_its_place(self) -> None:
        path = self.room / "x.json"
        path.write_bytes(b"[\n\n  \xff]")
        self.assert_refused(run("explain", path), "x.json, line 3: byte 2 of it is not UTF-8")


class Empty(OnSessions):
    def test_a_file_without_a_session_among_others_is_told(self) -> None:
        program, one, none = self.write("program", PLAYER), self.write("one.json", f"[{ENTRY % (1, 1)}]"), self.write("none.json", "[]\n")
        program.chmod(0o755)
        answer = run("test", one, none, "--program", program, "--quiet")
        self.assertEqual((answer.status, answer.errors), (0, ""))
        self.assertIn(f"{none} has no session, so nothing of it was played\n1 session: 1 passed", answer.out)
        self.assertNotIn("has no session", run("test", one, "--program", program).out)


class Memory(unittest.TestCase):
    @unittest.skipUnless(sys.platform == "linux", "memory is told in other units elsewhere")
    def test_a_text_in_quotes_takes_a_few_times_its_length(self) -> None:
        for quote in "\"'`":
            script = f"text = {{quote!r}} + 'x' * {LETTERS} + {{quote!r}}".format(quote=quote) + MEASURE
            ran = subprocess.run([sys.executable, "-c", script], cwd=TOP / "python", stdout=subprocess.PIPE, check=True)
            self.assertLess(int(ran.stdout), 20 * LETTERS, quote)


class Options(OnSessions):
    def test_behind_two_dashes_nothing_is_an_option(self) -> None:
        """Wherever other options and names stand."""
        whole = run("junit", EXAMPLE, self.lines).out
        for name in ("--refused=skipped", "--help", "-x"):
            (self.room / name).write_bytes(self.lines.read_bytes())
            for words in ((EXAMPLE, "--", name), ("--", EXAMPLE, name), (EXAMPLE, "--refused", "error", "--", name), ("--refused", "error", "--", EXAMPLE, name)):
                with self.subTest(words):
                    answer = run("junit", *words, cwd=self.room)
                    self.assertEqual((answer.status, answer.out, answer.errors), (0, whole, ""))
        self.assert_refused(run("junit", EXAMPLE, "--", "--refused", "skipped", cwd=self.room), "name one or two files")


class Changes(OnSessions):
    def test_recordings_that_are_added_at_the_same_time_are_all_there(self) -> None:
        sessions = self.write("s.json", "[]\n")
        program = self.write("program", PLAYER)
        program.chmod(0o755)
        words: List[Union[str, Path]] = [sys.executable, TOP / "saxtegun", "add", sessions]
        consoles = [self.write(f"{it}.txt", ENTRY % (it, it)) for it in range(6)]
        running = [subprocess.Popen([*words, it, "--program", program], env=environment(), stderr=subprocess.PIPE) for it in consoles]
        for it in running:
            self.assertIn(b"1 recording added", it.communicate()[1])
        self.assertEqual(sorted(it[0] for it in json.loads(sessions.read_text())), [f"n {it}" for it in range(6)])

    def test_nobody_waits_long_for_who_holds_a_folder(self) -> None:
        """What was played isn't lost by that."""
        path = self.write("s.json", "[]\n")
        held = play.Play.__new__(play.Play)
        held.source, held.inputs, held.last, held.index = "", [3], Frame(0, "start", "background:0,\n"), 0
        with unittest.mock.patch.object(files, "MOST_SECONDS_LOCKED", 0.1), unittest.mock.patch.object(held, "is_solved", lambda: False), locked(str(path)):
            with self.assertRaisesRegex(Refused, "s.json can't be written: another has held its folder for 0.1 s"):
                write_again(str(path), "[]\n", "x")
            shown = io.StringIO()
            with redirect_stdout(shown), self.assertRaisesRegex(Refused, "what was played stands on standard output"):
                held.save("mine", str(path))
        self.assertEqual(json.loads(shown.getvalue()), ["mine", ["", [3], "background:0,\n", 0]])
        self.assertEqual(path.read_text(), "[]\n")
        write_again(str(path), "[]\n", "x")

    def test_a_file_that_has_changed_is_not_written_over(self) -> None:
        path = self.write("s.json", "one")
        write_again(str(path), "one", "two")
        for was in ("one", None):
            with self.assertRaisesRegex(Changed, "was changed since it was read"):
                write_again(str(path), was, "three")
        self.assertEqual(read_text(str(path)), "two")
        self.assertEqual(sorted(it.name for it in self.room.iterdir() if it.name.startswith(".saxtegun")), [])

    def test_a_pipe_that_nobody_reads_is_not_waited_for(self) -> None:
        program, pipe = self.write("program", PLAYER), self.room / "pipe"
        program.chmod(0o755)
        os.mkfifo(pipe)
        words: List[Union[str, Path]] = [sys.executable, TOP / "saxtegun", "test", self.write("s.json", f"[{ENTRY % (0, 0)}]"), "--program", program, "--junit", pipe]
        ran = subprocess.run(words, stdin=subprocess.DEVNULL, stdout=subprocess.PIPE, stderr=subprocess.PIPE, env=environment(), timeout=20, check=False)
        self.assertEqual((ran.returncode, ran.stderr.decode()), (2, f"saxtegun test: {pipe} can't be written: nobody reads this pipe\n"))
        with subprocess.Popen(["cat", pipe], stdout=subprocess.PIPE) as reader:
            # it waits for who writes, and counts as a reader then
            sleep(0.5)
            ran = subprocess.run(words, stdin=subprocess.DEVNULL, stdout=subprocess.PIPE, stderr=subprocess.PIPE, env=environment(), timeout=20, check=False)
            self.assertEqual((ran.returncode, ran.stderr), (0, b""))
            assert reader.stdout is not None
            self.assertIn(b"<testsuite", reader.stdout.read())

    def test_a_file_of_the_system_that_has_nothing_yet_is_refused(self) -> None:
        """As /proc/kmsg is to root: nothing comes, and it is no end."""
        path = self.write("kmsg", "")
        file = unittest.mock.MagicMock()
        file.__enter__.return_value = file
        file.read.return_value = None
        with open(path, "rb") as real, unittest.mock.patch.object(files, "opened", lambda it: file):
            file.fileno.return_value = real.fileno()
            with self.assertRaisesRegex(Refused, "kmsg can't be read: it has no content yet"):
                read_text(str(path))

    def test_what_this_tells_is_not_written_over(self) -> None:
        for word in ("--markdown", "--junit", "--report"):
            for place in ("/dev/stdout", "/dev/fd/1", "/proc/self/fd/1"):
                with self.subTest(f"{word} {place}"):
                    log = self.write("log", "earlier lines\n")
                    with open(log, "ab") as output:
                        ran = subprocess.run([sys.executable, TOP / "saxtegun", "test", EXAMPLE, word, place], stdin=subprocess.DEVNULL, stdout=output, stderr=subprocess.PIPE, env=environment())
                    self.assertEqual((ran.returncode, log.read_text()), (2, "earlier lines\n"))
                    self.assertIn(f"{place} is where this tells what it does: write to another file", ran.stderr.decode())

    def test_a_pipe_of_a_shell_takes_what_is_written(self) -> None:
        program = self.write("program", PLAYER)
        program.chmod(0o755)
        answer = run("test", self.write("s.json", f"[{ENTRY % (0, 0)}]"), "--markdown", "/dev/stdout", "--program", program)
        self.assertEqual((answer.status, answer.errors), (0, ""))
        self.assertIn("**1 session&#58; 1 passed", answer.out)

    def test_a_program_is_not_written_over(self) -> None:
        program = self.write("program", PLAYER)
        program.chmod(0o755)
        self.assert_refused(run("test", EXAMPLE, "--program", program, "--junit", program), "is read: write to another file")
        self.assert_refused(run("compare", EXAMPLE, "--engines", program, "x", "--report", program), "is read: write to another file")
        self.assertEqual(program.read_text(), PLAYER)

    def test_standard_input_is_read_once(self) -> None:
        for verb in ("explain", "report", "accept", "junit", "source", "coverage"):
            with self.subTest(verb):
                answer = run(verb, "-", "-", stdin=EXAMPLE.read_bytes())
                self.assertEqual((answer.status, "Traceback" in answer.errors, answer.errors.count("\n")), (2, False, 1), answer.errors)

    def test_a_new_file_has_the_rights_that_are_wanted(self) -> None:
        for taken, rights in ((0o077, 0o600), (0o022, 0o644), (0o002, 0o664)):
            before = os.umask(taken)
            try:
                files.write_whole(str(self.room / f"new {taken}"), "x")
            finally:
                os.umask(before)
            self.assertEqual((self.room / f"new {taken}").stat().st_mode & 0o777, rights)

    def test_a_working_folder_that_is_gone_is_told(self) -> None:
        gone = self.room / "gone"
        gone.mkdir()
        script = f'cd "{gone}" && rmdir "{gone}" && exec "$0" "$@"'
        words: List[Union[str, Path]] = [sys.executable, TOP / "saxtegun", "test", EXAMPLE, "--report", "page"]
        ran = subprocess.run(["sh", "-c", script, *words], env=environment(), stdout=subprocess.PIPE, stderr=subprocess.PIPE)
        self.assertEqual((ran.returncode, ran.stdout), (2, b""))
        self.assertEqual(ran.stderr.decode(), "saxtegun test: the working folder isn't there any more\n")


class Marks(unittest.TestCase):
    def test_each_mark_of_a_summary_is_escaped_once(self) -> None:
        told = "it's \"quoted\" & <b> #1 &#x27;"
        [row] = [it for it in markdown([Failure("n", "differs", told, [], "", 1)], "1").splitlines() if it.startswith("| n |")]
        cell = row.split(" | ")[2].rstrip(" |")
        self.assertEqual(html.unescape(cell), told)
        self.assertIsNone(re.search(r"[<>\"'#*_`|]", re.sub(r"&#\d+;", "", cell)))


if __name__ == "__main__":
    unittest.main()

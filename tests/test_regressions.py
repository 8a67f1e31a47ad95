"""`saxtegun test` in a git folder: where a session that broke parts from the committed text, and that a hostile repository runs nothing."""
from __future__ import annotations

import json
import os
import shutil
import subprocess
import unittest
from pathlib import Path
from time import sleep
from typing import Any, Iterator, Sequence, Tuple
from unittest import mock

from test_test import RULE, OfAGame
from tool import plays, run
from saxtegun import regressions
from saxtegun.lines import Frame, Run
from saxtegun.playing import Engine
from saxtegun.regressions import committed_text
from saxtegun.sessions import Entry, Sessions, sessions_in

STUCK = "[ > Player | Crate ] -> [ Player | Crate ]"
SAYS = "over the committed game.txt it passed, and its frames first part at "


def git(folder: Path, *words: object) -> subprocess.CompletedProcess[bytes]:
    command = ["git", "-C", folder, "-c", "user.name=a", "-c", "user.email=a@example", "-c", "protocol.file.allow=always", *words]
    return subprocess.run(list(map(str, command)), check=False, stdin=subprocess.DEVNULL, stdout=subprocess.PIPE, stderr=subprocess.PIPE)


class InAGitFolder(OfAGame):
    def setUp(self) -> None:
        super().setUp()
        if shutil.which("git") is None:
            self.skipTest("git is not there: dev/tools installs it")
        git(self.room, "init", "--quiet")
        self.commit()

    def commit(self) -> None:
        git(self.room, "add", "--all")
        git(self.room, "commit", "--quiet", "--message", "a text")


@plays
class DayOfCommits(InAGitFolder):
    def test_a_session_that_broke_says_where_it_parts(self) -> None:
        """The first crate that is pushed: by the third input, up, in the first level; by the fourth, left, in the second."""
        self.with_rule(STUCK)
        answer = run("test", self.game, self.recordings)
        self.assertEqual(answer.status, 1)
        told = [it.strip() for it in answer.out.splitlines() if SAYS in it]
        self.assertEqual(told[:2], [f"{SAYS}frame 3, after input 2 (up)", f"{SAYS}frame 4, after input 3 (left)"])
        # the stale one had not passed over the committed text either
        self.assertNotIn(SAYS, answer.out.partition("a recording that has gone stale")[2])

    def test_of_what_passed_over_the_committed_text_no_difference_from_the_site_is_told(self) -> None:
        """The rule that has the form of one changes nothing. The last session had not passed."""
        self.source = self.source.replace("O = Target\n", "O = Target\nSolid = Wall or Crate\n").replace(RULE, f"{RULE}\nlate [ Solid ] [ Target ] -> [ Solid ] [ Target ]")
        self.write("game.txt", self.source)
        self.commit()
        self.with_rule(STUCK)
        told = run("test", self.game, self.recordings).out.partition("session 4, ")
        self.assertEqual(["the site may decide otherwise: `solid` in the rule" in it for it in (told[0], told[2])], [False, True])
        self.assertIn(SAYS, told[0])

    def test_a_session_that_passes_and_no_longer_wins_fails(self) -> None:
        """No frame shows the last win. Without crates on targets to win by, the second level is not won where it was; the first two sessions won it."""
        self.write("game.txt", self.source.replace("All Target on Crate", "No Target"))
        second = [it for it in self.entries if it[0] == "the second level alone"]
        recordings = self.write_entries(second, "second.json")
        answer = run("test", self.game, recordings, "--junit", self.room / "j.xml")
        told = "it won level 2 over the committed game.txt, and no longer does"
        self.assertEqual((answer.status, answer.out.splitlines()[0]), (1, f"session 0, the second level alone: passed: {told}"))
        self.assertIn("1 session: 1 passed, 0 differ, 0 stopped, 0 refused, 1 no longer solved; ", answer.out)
        self.assertIn(told, (self.room / "j.xml").read_text(encoding="utf-8"))
        self.commit()
        self.assertEqual(run("test", self.game, recordings).status, 0)

    def test_what_no_longer_wins_is_accepted_only_where_that_is_known(self) -> None:
        """Without pushes nothing is won any more; the first two sessions won the second level, which is the last, and the others none."""
        self.with_rule(STUCK)
        lost = "it won level 2 over the committed game.txt, and no longer does"
        for words, status, told in (((), 1, f"not accepted: {lost}: mend it by saxtegun mend, or accept it by --anyway"), (("--anyway",), 0, f"accepted, though {lost}")):
            answer = run("accept", self.recordings, "--game", self.game, *words)
            lines = answer.errors.splitlines()
            self.assertEqual((answer.status, lines[:2]), (status, [f"accept: session {it}, {self.entries[it][0]}: differs, {told}" for it in (0, 1)]))
            self.assertIn(f"accept: session 4, {self.entries[4][0]}: differs, accepted", lines)
            stays = [new[1][2] == old[1][2] for new, old in zip(json.loads(answer.out), self.entries)]
            self.assertEqual((stays[:2], stays[4]), ([not words] * 2, False))
        answer = run("accept", self.recordings, "--game", self.game, "--review", "--only", self.entries[0][0], stdin=b"y\n")
        self.assertEqual((answer.status, f"    {lost}\naccept it?" in answer.errors), (0, True))

    def test_what_must_be_solved_and_is_not_is_not_accepted(self) -> None:
        shutil.rmtree(self.room / ".git")
        self.with_rule(STUCK)
        recordings = self.write_entries([[*self.entries[1], "solved"]])
        answer = run("accept", recordings, "--game", self.game)
        self.assertEqual((answer.status, json.loads(answer.out)), (1, json.loads(recordings.read_text(encoding="utf-8"))))
        self.assertIn("differs, not accepted: no longer solved: not solved: mend it by", answer.errors)

    def test_what_no_longer_wins_the_level_before_its_recorded_one_is_not_accepted(self) -> None:
        """Nothing else says so: no text is committed, and nothing must be solved. What ends in the level where it was recorded is accepted."""
        solved = self.room / "solved.json"
        self.assertEqual(run("solve", self.game, "--level", 1, "--save", solved).status, 0)
        shutil.rmtree(self.room / ".git")
        self.with_rule(STUCK)
        answer = run("accept", solved, "--game", self.game)
        self.assertEqual((answer.status, json.loads(answer.out)), (1, json.loads(solved.read_text(encoding="utf-8"))))
        self.assertIn("differs, not accepted: still in level 1, and the recorded level looks like level 2: mend it by", answer.errors)
        answer = run("accept", self.recordings, "--game", self.game, "--only", "a recording*")
        self.assertEqual(answer.status, 0, answer.errors)

    def test_the_report_and_the_summary_are_of_the_same_run(self) -> None:
        self.with_rule(STUCK)
        run("test", self.game, self.recordings, "--markdown", self.room / "m.md")
        self.assertIn(f"{SAYS}frame 3", (self.room / "m.md").read_text(encoding="utf-8"))

    def test_where_nothing_is_committed_nothing_is_said(self) -> None:
        self.assertNotIn(SAYS, run("test", self.game, self.recordings).out)
        self.with_rule(STUCK)
        new = self.write("new.txt", self.game.read_text(encoding="utf-8"))
        self.assertNotIn("committed", run("test", new, self.recordings).out)
        shutil.rmtree(self.room / ".git")
        answer = run("test", self.game, self.recordings)
        self.assertEqual((answer.status, "committed" in answer.out + answer.errors, "git" in answer.errors), (1, False, False))
        git(self.room, "init", "--quiet")
        self.assertNotIn("committed", run("test", self.game, self.recordings).out)

    def test_where_no_time_is_left_nothing_is_said(self) -> None:
        left = regressions.EXPLAINING.left
        self.addCleanup(lambda: setattr(regressions.EXPLAINING, "left", left))
        regressions.EXPLAINING.left = 0
        self.assertEqual(regressions.divergences(None, [], [], Sessions("", "", []), Engine()), {})

    def test_the_time_is_that_of_all_batches(self) -> None:
        """A large text makes small batches, of which each may take nearly all of the time: 100 of them, a fiftieth of a second each, in a tenth."""
        sessions = sessions_in("x", json.dumps([["a", ["", [], ""]]] * 100))
        start, other = (Frame(0, "start", level) for level in ("background:0,\n", "background player:0,\n"))

        def played(entries: Sequence[Entry], of: Any, engine: Engine, seconds: float) -> Iterator[Run]:
            for number, _ in enumerate(entries):
                sleep(0.02)
                yield Run(number, "a", "passed", None, [start])

        runs = [Run(number, "a", "differs", None, [other]) for number in range(100)]
        with mock.patch.object(regressions.EXPLAINING, "left", 0.2), mock.patch.object(regressions, "runs_within", played):
            found = regressions.parted([(it, it) for it in sessions.entries], runs, sessions, Engine())
        self.assertLess(len(found), 10)


class UsedUpWithin(unittest.TestCase):
    def test_where_the_time_ends_in_the_midst_what_is_known_is_told(self) -> None:
        """As the committed text is read, to be played without its clock."""
        sessions = sessions_in("x", json.dumps([["a", ["title x\n" * 1_000, [], ""]]] * 2))
        with mock.patch.object(regressions.EXPLAINING, "left", -1.0), regressions.EXPLAINING.spent():
            self.assertEqual(regressions.parted([(it, it) for it in sessions.entries], [], sessions, Engine(has_ticks=True)), [])


class Hostile(InAGitFolder):
    def hacks(self, name: str) -> Tuple[Path, Path]:
        """A program that leaves a trace, and the trace."""
        trace = self.room / f"trace-{name}"
        program = self.write(f"hack-{name}", f"#!/bin/sh\ntouch '{trace}'\nexit 0\n")
        program.chmod(0o755)
        return program, trace

    def test_a_configuration_runs_nothing(self) -> None:
        program, trace = self.hacks("all")
        self.write(".gitattributes", "*.txt filter=evil diff=evil\n")
        self.commit()
        for name in (
            "core.fsmonitor", "core.pager", "pager.cat-file", "core.sshCommand", "core.editor", "core.askPass", "diff.external", "diff.evil.textconv",
            "diff.evil.command", "filter.evil.smudge", "filter.evil.clean", "filter.evil.process", "gpg.program", "credential.helper", "core.alternateRefsCommand", "core.gitProxy",
        ):  # fmt: skip
            git(self.room, "config", name, program)
        for name in ("alias.cat-file", "alias.rev-parse"):
            git(self.room, "config", name, f"!{program}")
        hooks = self.room / ".git/hooks"
        hooks.mkdir(exist_ok=True)
        for name in ("post-index-change", "reference-transaction", "post-checkout", "fsmonitor-watchman"):
            shutil.copy(program, hooks / name)
        self.game.write_text("another", encoding="utf-8")
        self.assertEqual(committed_text(str(self.game)), self.source)
        self.assertFalse(trace.exists())
        # that the traps are set: what looks at the folder as git does by itself runs one
        git(self.room, "status")
        self.assertTrue(trace.exists())

    def test_what_is_missing_is_not_fetched(self) -> None:
        """A partial clone says itself how its missing objects are fetched: by a command of its own."""
        program, trace = self.hacks("fetch")
        blob = git(self.room, "rev-parse", "HEAD:game.txt").stdout.decode().strip()
        self.assertTrue(blob)
        (self.room / ".git/objects" / blob[:2] / blob[2:]).unlink()
        git(self.room, "config", "core.repositoryFormatVersion", "1")
        git(self.room, "config", "extensions.partialClone", "origin")
        git(self.room, "config", "remote.origin.promisor", "true")
        git(self.room, "config", "remote.origin.uploadPack", program)
        git(self.room, "config", "protocol.ext.allow", "always")
        for address in (f"ext::{program}", str(self.room), f"file://{self.room}", f"ssh://host/{self.room}"):
            with self.subTest(address):
                git(self.room, "config", "remote.origin.url", address)
                git(self.room, "config", "core.sshCommand", program)
                self.assertIsNone(committed_text(str(self.game)))
                # a git that knows neither word finds nothing that it might run
                with mock.patch.dict(regressions.OFFLINE, GIT_ALLOW_PROTOCOL="ext:file:ssh", GIT_NO_LAZY_FETCH="0"):
                    self.assertIsNone(committed_text(str(self.game)))
                self.assertFalse(trace.exists())
                git(self.room, "cat-file", "blob", "HEAD:./game.txt")
                self.assertTrue(trace.exists(), "the trap isn't set")
                trace.unlink()

    def test_the_time_is_that_of_all_answers(self) -> None:
        self.write("git", f"#!/bin/sh\n{shutil.which('sleep')} 0.4\necho 5\n").chmod(0o755)
        with mock.patch.dict(regressions.os.environ, PATH=f"{self.room}:{os.environ['PATH']}"):
            for seconds, text in ((5, "5\n"), (0.6, None)):
                with mock.patch.object(regressions, "SECONDS", seconds):
                    self.assertEqual(committed_text(str(self.game)), text)

    def test_the_environment_names_no_other_repository(self) -> None:
        words = {"GIT_DIR": "/nowhere", "GIT_OBJECT_DIRECTORY": "/nowhere", "GIT_ALLOW_PROTOCOL": "ext"}
        before = dict(regressions.os.environ)
        self.addCleanup(regressions.os.environ.update, before)
        self.addCleanup(regressions.os.environ.clear)
        regressions.os.environ.update(words)
        self.assertEqual(committed_text(str(self.game)), self.source)

    def test_what_takes_long_or_is_too_long_is_left(self) -> None:
        self.write("long.txt", "x" * (regressions.MOST_BYTES + 1))
        self.write("latin.txt", "x")
        (self.room / "latin.txt").write_bytes(b"\xe4")
        self.commit()
        for name in ("long.txt", "latin.txt", "none.txt", "..", "a\nb", "-x", ":(glob)*"):
            self.assertIsNone(committed_text(str(self.room / name)), name)
        slow = self.write("git", "#!/bin/sh\nsleep 100\n")
        slow.chmod(0o755)
        before, seconds = regressions.os.environ["PATH"], regressions.SECONDS
        self.addCleanup(setattr, regressions, "SECONDS", seconds)
        self.addCleanup(regressions.os.environ.__setitem__, "PATH", before)
        regressions.os.environ["PATH"], regressions.SECONDS = f"{self.room}:{before}", 0.2
        self.assertIsNone(committed_text(str(self.game)))
        regressions.os.environ["PATH"] = f".:{self.room}"
        self.assertIsNone(committed_text(str(self.game)))


if __name__ == "__main__":
    unittest.main()

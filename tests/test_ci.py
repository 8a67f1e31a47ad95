"""action.yml, docs/ci.md and examples/ci: each shell step runs, in its order, against a release that is served from the disk."""
from __future__ import annotations

import functools
import json
import os
import re
import shlex
import shutil
import subprocess
import sys
import tempfile
import threading
import unittest
from http.server import SimpleHTTPRequestHandler, ThreadingHTTPServer
from pathlib import Path
from typing import Any, Dict, List, Mapping, Optional, Tuple

from day import lines_of_example
from test_release import BUILT, STAND_IN, clone, git, make, put, sum_of
from tool import TOP
from saxtegun.programs import describer_words, environment_of

EXAMPLE = TOP / "examples/block-pushing.json"
# Plays the example's sessions as tests/day.py does by hand.
PLAYER = f"""#!{sys.executable}
import json, sys
sys.path.insert(0, {str(TOP / "tests")!r})
from day import lines_of_example
lines = lines_of_example(open(sys.argv[-1], encoding="utf-8").read())
sys.stdout.write(lines)
sys.exit(any(json.loads(it).get("close", "passed") != "passed" for it in lines.splitlines()))
""".encode()
WORD = re.compile(r"\$\{\{ ([\w.]+) \}\}")


def describer() -> bytes:
    """What tells sources as here."""
    words = describer_words()
    module = (environment_of(words) or {}).get("SAXTEGUN_MODULE", "")
    return f'#!/bin/sh\nSAXTEGUN_MODULE={shlex.quote(module)} exec {shlex.join(words)} "$@"\n'.encode()


class Yaml:
    """The YAML of these files: mappings, lists, texts in blocks, and words. It knows nothing else, and refuses it."""

    def __init__(self, text: str) -> None:
        self.lines = [it for it in text.split("\n")]
        self.at = 0

    def indent(self) -> int:
        while self.at < len(self.lines) and not self.lines[self.at].strip():
            self.at += 1
        return len(self.lines[self.at]) - len(self.lines[self.at].lstrip()) if self.at < len(self.lines) else -1

    def value(self) -> Any:
        depth = self.indent()
        return self.items(depth) if self.lines[self.at].lstrip().startswith("- ") else self.mapping(depth)

    def items(self, depth: int) -> List[Any]:
        found = []
        while self.indent() == depth and self.lines[self.at].lstrip().startswith("- "):
            rest = self.lines[self.at][depth + 2 :]
            if rest == "|" or not re.match(r"[\w-]+:( |$)", rest):
                self.at += 1
                found.append(self.block(depth) if rest == "|" else self.word(rest))
            else:
                self.lines[self.at] = " " * (depth + 2) + rest
                found.append(self.mapping(depth + 2))
        return found

    def mapping(self, depth: int) -> Dict[str, Any]:
        found = {}
        while self.indent() == depth and not self.lines[self.at].lstrip().startswith("- "):
            key, mark, rest = self.lines[self.at].strip().partition(":")
            assert mark and re.fullmatch(r"[\w-]+", key) and key not in found, self.lines[self.at]
            self.at += 1
            found[key] = self.block(depth) if rest == " |" else self.word(rest.strip()) if rest.strip() else self.value()
        return found

    def block(self, depth: int) -> str:
        inner, taken = self.indent(), []
        assert inner > depth
        while self.at < len(self.lines) and (not self.lines[self.at].strip() or self.lines[self.at].startswith(" " * inner)):
            taken.append(self.lines[self.at][inner:])
            self.at += 1
        return "\n".join(taken).rstrip("\n") + "\n"

    def word(self, text: str) -> Any:
        if text.startswith("["):
            return [it.strip() for it in text[1:-1].split(",")]
        text = re.sub(r" # \S+$", "", text)
        return json.loads(text) if text.startswith('"') else {} if text == "{}" else text


def read_yaml(text: str) -> Any:
    reader = Yaml(re.sub(r"^#.*\n", "", text, flags=re.M))
    found = reader.value()
    assert reader.indent() == -1, reader.lines[reader.at]
    return found


def files_of_page() -> List[Any]:
    """The files of examples/ci that docs/ci.md names."""
    named = re.findall(r"`(examples/ci/[\w.]+)`", (TOP / "docs/ci.md").read_text(encoding="utf-8"))
    return [read_yaml((TOP / it).read_text(encoding="utf-8")) for it in named]


def commands_of_page() -> List[str]:
    """The commands that stand in docs/ci.md outside of its files: to compare closes, to play parts, and to play them on several hosts."""
    text = (TOP / "docs/ci.md").read_text(encoding="utf-8")
    return [re.sub("^    ", "", it, flags=re.M) for it in re.findall(r"(?:^    .*\n)+", text, re.M)]


class Runner:
    """A runner of GitHub's, as far as steps can tell: folders, the files that they write to, and what a word of an expression stands for."""

    def __init__(self, room: Path, values: Mapping[str, str], env: Mapping[str, str] = {}) -> None:
        self.room, self.values, self.temp = room, dict(values), room / "temp"
        self.work = room / "work"
        self.work.mkdir(parents=True)
        self.temp.mkdir()
        known = {name: value for name, value in os.environ.items() if name == "HOME" or name.startswith("LANG")}
        self.env = {**known, "PATH": f"{Path(sys.executable).parent}:/usr/bin:/bin", "GITHUB_WORKSPACE": str(self.work), "RUNNER_TEMP": str(self.temp), "TMPDIR": str(self.temp), **dict(env)}
        for name in ("GITHUB_PATH", "GITHUB_OUTPUT", "GITHUB_STEP_SUMMARY"):
            self.env[name] = str(room / name)
            (room / name).touch()
        shutil.copy(EXAMPLE, self.work / "sessions.json")

    def filled(self, text: str) -> str:
        return WORD.sub(lambda it: self.values[it[1]], text)

    def run(self, step: Dict[str, Any]) -> Tuple[int, str, str]:
        """Runs a step's shell as GitHub does; its status and what it wrote."""
        env = {**self.env, **{name: self.filled(value) for name, value in step.get("env", {}).items()}}
        added = (self.room / "GITHUB_PATH").read_text().splitlines()
        env["PATH"] = ":".join([*reversed(added), env["PATH"]])
        assert not WORD.search(step["run"]), "what a stranger may say belongs into the environment"
        # the release is served by HTTP here, and by HTTPS to all others
        words = ["bash", "--noprofile", "--norc", "-eo", "pipefail", "-c", step["run"].replace("--proto '=https'", "--proto '=http'")]
        ran = subprocess.run(words, cwd=self.work, env=env, stdin=subprocess.DEVNULL, stdout=subprocess.PIPE, stderr=subprocess.PIPE)
        for line in (self.room / "GITHUB_OUTPUT").read_text().splitlines():
            name, _, value = line.partition("=")
            self.values[f"steps.{step.get('id')}.outputs.{name}"] = value
        return ran.returncode, ran.stdout.decode(), ran.stderr.decode()


class Quiet(SimpleHTTPRequestHandler):
    def log_message(self, *words: Any) -> None:
        pass


@unittest.skipUnless((TOP / ".git").exists() and shutil.which("dpkg-deb") and shutil.which("curl"), "a release is made of a clone, with dpkg-deb, and fetched by curl")
class InACi(unittest.TestCase):
    kept: Path
    clone: Path
    version: str
    sum: str
    address: str
    action: Any

    @classmethod
    def setUpClass(cls) -> None:
        room = tempfile.TemporaryDirectory()
        cls.addClassCleanup(room.cleanup)
        cls.kept = Path(room.name)
        cls.clone = clone(cls.kept / "clone")
        cls.version = (cls.clone / "VERSION").read_text().strip()
        changes = cls.clone / "CHANGELOG.md"
        changes.write_text(changes.read_text() + f"\n## {cls.version}\n")
        git(cls.clone, "commit", "-qam", "Give the version its heading")
        make(cls.clone, cls.version, cls.kept / "served", STAND_IN._replace(program=PLAYER, describer=describer()))
        cls.sum = sum_of((cls.kept / f"served/saxtegun-{cls.version}-linux-x86_64.tar.gz").read_bytes())
        server = ThreadingHTTPServer(("127.0.0.1", 0), functools.partial(Quiet, directory=str(cls.kept / "served")))
        cls.addClassCleanup(server.server_close)
        cls.addClassCleanup(server.shutdown)
        threading.Thread(target=server.serve_forever, daemon=True).start()
        cls.address = f"http://127.0.0.1:{server.server_port}"
        cls.action = read_yaml((TOP / "action.yml").read_text(encoding="utf-8"))

    def runner(self, values: Mapping[str, str] = {}, env: Mapping[str, str] = {}) -> Runner:
        return Runner(Path(tempfile.mkdtemp(dir=self.kept)), values, env)

    def act(self, runner: Runner, **given: str) -> List[Tuple[int, str, str]]:
        """Runs the shell steps of the action that its conditions let run; the status of each."""
        inputs = {name: it.get("default") for name, it in self.action["inputs"].items()}
        inputs = {**inputs, "version": self.version, "from": self.address, **given}
        runner.values = {**runner.values, **{f"inputs.{name}": value for name, value in inputs.items()}}
        ended: List[Tuple[int, str, str]] = []
        for step in self.action["runs"]["steps"]:
            is_wanted = inputs["sessions"] or "inputs.sessions != ''" not in step.get("if", "")
            if "run" in step and is_wanted and (not any(it[0] for it in ended) or "always()" in step.get("if", "")):
                self.assertEqual(step["shell"], "bash")
                ended.append(runner.run(step))
        return ended

    def uploaded(self, runner: Runner) -> List[str]:
        return sorted(it.name for it in (runner.temp / "saxtegun/upload").iterdir())

    def test_the_action_plays_and_is_red_where_a_session_differs(self) -> None:
        runner = self.runner()
        (fetched, _, _), (played, out, errors), (gathered, _, _) = self.act(runner, sha256=self.sum)
        self.assertEqual((fetched, played, gathered), (0, 1, 0), errors)
        self.assertIn("5 sessions: 4 passed, 1 differs", out)
        self.assertIn("::error file=sessions.json,line=1,title=session 4%2C a recording that has gone stale::", out)
        self.assertEqual(self.uploaded(runner), ["junit.xml", "report.html"])
        self.assertIn("a recording that has gone stale", (runner.room / "GITHUB_STEP_SUMMARY").read_text(encoding="utf-8"))

    @unittest.skipUnless(shutil.which("node", path="/usr/bin:/bin"), "Node is not on the path of a runner: dev/tools installs it")
    def test_the_action_without_a_version_plays_by_its_own_module(self) -> None:
        runner = self.runner(env={"GITHUB_ACTION_PATH": str(self.clone)})
        (taken, _, _), (played, out, errors), (gathered, _, _) = self.act(runner, version="")
        self.assertEqual((taken, played, gathered), (0, 1, 0), errors)
        self.assertIn("5 sessions: 4 passed, 1 differs", out)
        self.assertRegex(errors, "^saxtegun: no program is built here; the module of Saxtegun .*, plays in Node .*\n$")
        self.assertEqual(self.uploaded(runner), ["junit.xml", "report.html"])
        # a sum can't be held against anything then
        self.assertEqual(self.act(self.runner(env={"GITHUB_ACTION_PATH": str(self.clone)}), version="", sha256=self.sum)[0][0], 2)
        self.assertEqual(self.act(self.runner(env={"GITHUB_ACTION_PATH": str(self.kept)}), version="")[0][0], 2)

    def test_the_action_plays_a_game_with_its_recordings_and_uploads_what_is_wanted(self) -> None:
        runner = self.runner()
        for name in ("game.txt", "recordings.json"):
            shutil.copy(TOP / "examples/day" / name, runner.work)
        recordings = runner.work / "recordings.json"
        recordings.write_text(json.dumps(json.loads(recordings.read_text(encoding="utf-8"))[:4]), encoding="utf-8")
        ended = self.act(runner, game="game.txt", sessions="recordings.json", upload="summary")
        self.assertEqual([it[0] for it in ended], [0, 0, 0], ended)
        self.assertEqual(self.uploaded(runner), ["summary.md"])
        self.assertEqual(self.act(self.runner(), upload="all")[-1][0], 2)
        # a name of a stranger's is no option
        for given, own in (("game", "game.txt"), ("sessions", "recordings.json")):
            shutil.copy(runner.work / own, runner.work / "--help")
            ended = self.act(runner, **{"game": "game.txt", "sessions": "recordings.json", given: "--help"})
            self.assertEqual((ended[1][0], ended[1][1].count("usage:")), (0, 0), ended)
            self.assertIn("4 sessions: 4 passed", ended[1][1])

    def test_the_action_used_twice_in_a_job_shows_nothing_of_the_first_again(self) -> None:
        runner = self.runner()
        self.assertEqual(self.act(runner)[1][0], 1)
        (runner.room / "GITHUB_STEP_SUMMARY").write_text("")
        (runner.work / "bad.json").write_text("[")
        self.assertEqual([it[0] for it in self.act(runner, sessions="bad.json", artifact="bad")], [0, 2, 0])
        self.assertEqual((self.uploaded(runner), (runner.room / "GITHUB_STEP_SUMMARY").read_text()), ([], ""))

    def test_each_file_to_copy_is_named(self) -> None:
        self.assertEqual(len(files_of_page()), len(list((TOP / "examples/ci").iterdir())))

    def test_what_is_fetched_is_pinned_and_keeps_no_credentials(self) -> None:
        steps = [step for file in files_of_page() for job in file.get("jobs", {}).values() for step in job["steps"]] + self.action["runs"]["steps"]
        for step in (it for it in steps if "uses" in it):
            self.assertRegex(step["uses"], "@[0-9a-f]{40}$")
            if step["uses"].startswith("actions/checkout"):
                self.assertEqual(step["with"]["persist-credentials"], "false")
        for path in ("action.yml", "docs/ci.md", "examples/ci/gitlab.yml"):
            text = (TOP / path).read_text(encoding="utf-8")
            self.assertEqual(text.count("curl "), text.count("curl --proto '=https' "))
        jobs = [job for file in files_of_page() for job in file.get("jobs", {}).values()]
        self.assertTrue(all("timeout-minutes" in it for it in jobs))

    def test_an_archive_with_another_sum_is_not_unpacked(self) -> None:
        for given in ({"sha256": "0" * 64}, {"version": "9.9.9"}, {"sha256": "x; echo run"}):
            runner = self.runner()
            with self.subTest(given):
                self.assertNotEqual(self.act(runner, **given)[0][0], 0)
                self.assertEqual(list((runner.temp / "saxtegun").glob("saxtegun-*")), [])

    def test_the_workflow_gives_the_action_inputs_that_it_has(self) -> None:
        steps = [step for file in files_of_page() for job in file.get("jobs", {}).values() for step in job["steps"]]
        given = [step["with"] for step in steps if step.get("uses", "").startswith("OWNER/saxtegun@")]
        self.assertEqual(len(given), 3)
        for it in given:
            self.assertEqual(set(it) - set(self.action["inputs"]), set())
            self.assertEqual((it["version"], len(it["sha256"])), (self.version, 64))

    @unittest.skipUnless(shutil.which("jq"), "jq is not there, which reads the closes: dev/tools installs it")
    def test_the_commands_that_compare_closes_are_red_where_one_changes(self) -> None:
        commands = next(it for it in commands_of_page() if "closes.expected" in it)
        runner = self.runner()
        self.act(runner, sessions="", sha256=self.sum)
        (runner.work / "closes.expected").touch()
        status, out, errors = runner.run({"run": commands})
        self.assertEqual(status, 1)
        closes = self.taken(runner.temp, "closes")
        self.assertIn(b'["a recording that has gone stale","differs",null]\n', closes)
        (runner.work / "closes.expected").write_bytes(closes)
        self.assertEqual(runner.run({"run": commands}), (0, "", ""))
        self.taken(runner.temp, "closes")
        # names that would be commands, or move a cursor: of what changes, and of what stands beside it
        names = ["::error file=README.md,line=1::forged", "x ##[error]forged", "\x1b]0;owned\x07\x9b2J", "##vso[task.complete]"]
        entries = json.loads((runner.work / "sessions.json").read_text(encoding="utf-8"))
        named = [[name, entry[1]] for name, entry in zip([*names, "last"], entries)]
        (runner.work / "sessions.json").write_text(json.dumps(named), encoding="utf-8")
        status, out, errors = runner.run({"run": commands})
        self.assertRegex(out, r"^closes\.expected \S+/closes differ: byte 3, line 1\n\Z")
        closes = self.taken(runner.temp, "closes")
        self.assertEqual((status, errors, closes.decode("ascii").replace("\n", "").isprintable(), closes.count(b"\n")), (1, "", True, 5))
        # a checkout whose links would make what is written what is expected, or the other way round
        for link, target in (("closes", "closes.expected"), ("closes.expected", "closes"), ("lines", "sessions.json")):
            runner = self.runner()
            self.act(runner, sessions="", sha256=self.sum)
            (runner.work / "closes.expected").write_text("[]\n")
            (runner.work / link).unlink(missing_ok=True)
            (runner.work / link).symlink_to(target)
            with self.subTest(link):
                self.assertNotEqual(runner.run({"run": commands})[0], 0)
                self.assertEqual((runner.work / "sessions.json").read_bytes(), EXAMPLE.read_bytes())

    def taken(self, folder: Path, name: str) -> bytes:
        """The bytes of the one file of this name in a folder of a folder, which is taken away."""
        [file] = folder.glob(f"*/{name}")
        content = file.read_bytes()
        shutil.rmtree(file.parent)
        return content

    def test_the_commands_that_play_parts_give_the_bytes_of_one_run(self) -> None:
        runner = self.runner()
        self.act(runner, sessions="", sha256=self.sum)
        commands = next(it for it in commands_of_page() if "xargs" in it)
        # the status is that of one run, also typed by hand, where no shell ends at a status
        self.assertEqual(runner.run({"run": commands}), (1, "", ""))
        self.assertEqual(runner.run({"run": f"set +e +o pipefail\n{commands}"}), (1, "", ""))
        self.assertEqual((runner.work / "lines").read_text(encoding="utf-8"), lines_of_example(EXAMPLE.read_text(encoding="utf-8")))

    def test_the_commands_that_play_parts_write_through_no_link_of_a_checkout(self) -> None:
        for commands in (it for it in commands_of_page() if "join" in it and "parallel" not in it):
            runner = self.runner()
            self.act(runner, sessions="", sha256=self.sum)
            for name in ("game.txt", "recordings.json"):
                shutil.copy(TOP / "examples/day" / name, runner.work)
            (runner.room / "kept").mkdir()
            for name in ("lines", "times", "parts"):
                (runner.room / "kept/file").write_text("kept")
                (runner.work / name).symlink_to(runner.room / "kept" / ("file" if name != "parts" else ""))
            with self.subTest(commands):
                runner.run({"run": f"set +e +o pipefail\n{commands}"})
                self.assertEqual([(it.name, it.read_text()) for it in (runner.room / "kept").iterdir()], [("file", "kept")])
                self.assertTrue((runner.work / "lines").stat().st_size)

    def test_the_commands_for_a_suite_over_one_game_give_its_lines_and_status(self) -> None:
        runner = self.runner()
        self.act(runner, sessions="", sha256=self.sum)
        for name in ("game.txt", "recordings.json"):
            shutil.copy(TOP / "examples/day" / name, runner.work)
        commands = next(it for it in commands_of_page() if "--game" in it)
        self.assertEqual(runner.run({"run": commands}), (1, "", ""))
        self.assertEqual((runner.work / "lines").read_text(encoding="utf-8"), (TOP / "examples/day.lines").read_text(encoding="utf-8"))
        [last] = [it for it in (runner.work / "parts").glob("*.xml") if "a recording that has gone stale" in it.read_text(encoding="utf-8")]
        self.assertIn('type="differs"', last.read_text(encoding="utf-8"))
        # and where all pass the status is that
        recordings = runner.work / "recordings.json"
        recordings.write_text(json.dumps(json.loads(recordings.read_text(encoding="utf-8"))[:4]), encoding="utf-8")
        self.assertEqual(runner.run({"run": commands}), (0, "", ""))
        # but not where one passes over a text of its own alone
        entries = json.loads(recordings.read_text(encoding="utf-8"))
        entries[1][1][0] = "(its own)\n" + (runner.work / "game.txt").read_text(encoding="utf-8")
        recordings.write_text(json.dumps(entries), encoding="utf-8")
        status, out, errors = runner.run({"run": commands})
        self.assertEqual((status, out), (1, ""), errors)
        self.assertIn("over its own text, and was not played over game.txt", (runner.work / "parts/00000001.json.xml").read_text(encoding="utf-8"))
        # lines of that run stand there no more where the next ends early
        self.assertTrue((runner.work / "parts/00000000.lines").exists())
        (runner.work / "game.txt").write_text("")
        self.assertNotEqual(runner.run({"run": commands})[0], 0)
        self.assertEqual([it for it in (runner.work / "parts").glob("*.lines") if it.stat().st_size], [])
        # nor is it green where it can't be told whether all are over the game, also where no shell ends at a status
        (runner.work / "game.txt").unlink()
        self.assertEqual(runner.run({"run": f"set +e +o pipefail\n{commands}"})[0], 2)

    def gitlab_job(self) -> Any:
        return next(it["replay"] for it in files_of_page() if "script" in it.get("replay", {}))

    def test_nothing_that_a_repository_has_takes_a_part_of_the_release(self) -> None:
        """A checkout has modules of Python's names, a package in the place of a module, a command, and a link by the name of what is fetched."""
        job, kept = self.gitlab_job(), self.kept / "kept"
        kept.write_text("kept")
        runners = [self.runner(env={**job["variables"], "FROM": self.address, "SHA256": self.sum}), self.runner()]
        for runner in runners:
            release = runner.work / f"saxtegun-{self.version}-linux-x86_64"
            for path in ("argparse.py", "python/argparse.py", "python/pathlib.py", "python/saxtegun/commands/__init__.py", "saxtegun"):
                put(release / path, b"#!/usr/bin/env python3\nraise SystemExit(0)\n", 0o755)
            shutil.copy(release / "argparse.py", runner.work)
            (runner.work / "archive.tar.gz").symlink_to(kept)
        by_script = runners[0].run({"run": "\n".join(job["script"])})
        _, by_action, _ = self.act(runners[1], sha256=self.sum)
        for status, out, errors in (by_script, by_action):
            self.assertEqual(status, 1, errors)
            self.assertIn("5 sessions: 4 passed, 1 differs", out)
        self.assertEqual(kept.read_text(), "kept")

    def test_the_job_for_gitlab_runs(self) -> None:
        job = self.gitlab_job()
        runner = self.runner(env={**job["variables"], "FROM": self.address, "SHA256": self.sum})
        status, out, errors = runner.run({"run": "\n".join(job["script"])})
        self.assertEqual((status, errors), (1, ""))
        self.assertIn("5 sessions: 4 passed, 1 differs", out)
        for path in job["artifacts"]["paths"]:
            self.assertTrue((runner.work / path).is_file(), path)
        # where it ends early nothing is kept that a repository has by these names, as if it were the result
        beside: List[Dict[str, str]] = [{}, {"SHA256": self.sum}]
        for variables in beside:
            runner = self.runner(env={**job["variables"], "FROM": self.address, **variables})
            for path in job["artifacts"]["paths"]:
                (runner.work / path).write_text("committed")
            (runner.work / "sessions.json").write_text("no sessions")
            self.assertNotEqual(runner.run({"run": "\n".join(job["script"])})[0], 0)
            self.assertEqual([it for it in job["artifacts"]["paths"] if (runner.work / it).exists()], [])

    def test_a_matrix_of_jobs_gives_the_bytes_of_one_run(self) -> None:
        jobs = next(it["jobs"] for it in files_of_page() if "part" in it.get("jobs", {}))
        kept = self.kept / "lines of parts"
        kept.mkdir()
        for part in jobs["part"]["strategy"]["matrix"]["part"]:
            runner = self.runner({"matrix.part": part})
            for step in jobs["part"]["steps"]:
                self.do(runner, step)
            for path in runner.work.glob(jobs["part"]["steps"][-1]["with"]["path"]):
                shutil.copy(path, kept)
        runner = self.runner()
        ended = [self.do(runner, step, kept) for step in jobs["replay"]["steps"]]
        self.assertEqual([it[0] for it in ended if it][-1], 1)
        self.assertEqual((runner.temp / "lines").read_text(encoding="utf-8"), lines_of_example(EXAMPLE.read_text(encoding="utf-8")))
        runner.values["runner.temp"] = str(runner.temp)
        for name in next(it["with"]["path"] for it in jobs["replay"]["steps"] if "upload" in it.get("uses", "")).splitlines():
            self.assertTrue(Path(runner.filled(name)).is_file(), name)
        # all passed, of which one must be solved and isn't
        for kind, status in (("unsolved", 1), ("none", 0)):
            runner.values["steps.join.outputs.status"] = "0"
            (runner.temp / "junit.xml").write_text(f'<failure message="" type="{kind}" />\n', encoding="utf-8")
            self.assertEqual(runner.run(jobs["replay"]["steps"][-1])[0], status)

    def do(self, runner: Runner, step: Dict[str, Any], kept: Optional[Path] = None) -> Optional[Tuple[int, str, str]]:
        """Does a step of the matrix: the action, its shell, or what a download puts there."""
        if "download-artifact" in step.get("uses", ""):
            assert kept is not None
            for path in kept.iterdir():
                shutil.copy(path, runner.work / step["with"]["path"])
        if step.get("uses", "").startswith("OWNER/"):
            self.assertEqual(self.act(runner, sessions=step["with"]["sessions"], sha256=self.sum)[-1][0], 0)
        return runner.run(step) if "run" in step else None

    def test_the_builder_makes_and_publishes_a_release(self) -> None:
        file = next(it for it in files_of_page() if it.get("name") == "release")
        runner = self.runner({"secrets.TARGET_TOKEN": "token"}, file["env"])
        top = clone(runner.work / "saxtegun", self.clone)
        for path, content in zip(BUILT, STAND_IN):
            put(top / path, content)
        sums = "".join(f"{sum_of(content)}  {path}\n" for path, content in zip(BUILT, STAND_IN))
        put(top / "out/gate-passed", f"commit {git(top, 'rev-parse', 'HEAD')}\n{sums}".encode())
        # what an earlier release left on the machine
        put(top / "release/saxtegun-0.0.1-linux-x86_64.tar.gz", b"old")
        put(runner.room / "bin/gh", b'#!/bin/sh\necho "$GH_TOKEN" "$@"\n', 0o755)
        runner.env["PATH"] = f"{runner.room}/bin:{runner.env['PATH']}"
        made, published = [runner.run(step) for step in file["jobs"]["release"]["steps"] if "run" in step]
        self.assertEqual((made[0], published[0]), (0, 0), made)
        self.assertIn(f"saxtegun_{self.version}_amd64.deb", made[1])
        self.assertTrue(published[1].startswith(f"token release create v{self.version} saxtegun/release/NOTICES saxtegun/release/SHA256SUMS saxtegun/release/saxtegun-"), published)
        self.assertNotIn("0.0.1", published[1])


if __name__ == "__main__":
    unittest.main()

"""The cases of conformance/stages, each worked out by hand, on what tells stages here."""
from __future__ import annotations

import json
import os
import subprocess
import unittest
from typing import Any, Dict, Iterable, Iterator, List, Mapping, Sequence, Tuple
from unittest import mock

from day import cases_in_rows
from tool import TOP, Tests
from saxtegun import programs
from saxtegun.commands import Refused

# Of so many inputs of a session the stages are held against its frames.
MOST_INPUTS = 12
CASES = sorted((TOP / "conformance/stages").glob("*.json"))


def what_tells_stages() -> Tuple[List[str], Dict[str, str]]:
    """How what tells stages is called here, and in which environment; nothing where there is none, or only one of before there were firings, or where no
    program is to play: ./check says so by SAXTEGUN_PROGRAM=none, as long as it proves those that will."""
    if os.environ.get("SAXTEGUN_PROGRAM") == "none":
        return [], {}
    with mock.patch.dict(os.environ), mock.patch.object(programs, "CHOSEN_FOR_STAGES", []):
        try:
            words = programs.stages_words()
            names = programs.environment_of(words) or dict(os.environ)
        except Refused:
            return [], {}
    ran = subprocess.run([*words, "0", "1", "firings"], input=b"[]", stdout=subprocess.DEVNULL, stderr=subprocess.DEVNULL, env=names)
    return (words, names) if ran.returncode == 0 else ([], {})


STAGES, ENVIRONMENT = what_tells_stages()


def tells_stages(tests: Tests) -> Tests:
    """Marks tests that ask for stages: they are left out where nothing tells these. Their names begin with Day, as those of tests that play."""
    return unittest.skipUnless(STAGES, "nothing here tells stages, or no program is to play: dev/build pz_stager, dev/build pz_replayer")(tests)


def compact(line: Any) -> str:
    return json.dumps(line, sort_keys=True, separators=(",", ":"), ensure_ascii=False) + "\n"


def shown(lines: Iterable[Any], is_press: bool) -> Iterator[str]:
    """The levels that the ends of steps show."""
    for end in (it for it in lines if it.get("stage") == "end"):
        is_cancelled = "cancel" in end["commands"]
        is_idle = not (is_press and end["tick"] == 0) and (is_cancelled or not (end["changed"] or "win" in end["commands"]))
        if not is_idle and (is_cancelled or "restart" not in end["commands"]):
            yield end["level"]


class OnCases(unittest.TestCase):
    """Holds what tells stages to the cases."""

    def hold_to_cases(self, words: Sequence[str], names: Mapping[str, str]) -> None:
        self.assertGreaterEqual(len(CASES), 20)
        for path in CASES:
            with self.subTest(path.stem):
                case = json.loads(path.read_text(encoding="utf-8"))
                asked = [str(case["session"]), str(case["input"]), *(["columns"] if case["order"] == "columns" else []), *(["firings"] if case.get("firings") else [])]
                ran = subprocess.run([*words, *asked], input=json.dumps(case["sessions"]).encode(), stdout=subprocess.PIPE, stderr=subprocess.PIPE, env=names)
                self.assertEqual((ran.returncode, ran.stderr), (0, b""))
                self.assertEqual(ran.stdout.decode(), "".join(map(compact, case["lines"])))


@tells_stages
class DayOfStages(OnCases):
    def test_each_case_is_told_as_it_was_worked_out(self) -> None:
        self.hold_to_cases(STAGES, ENVIRONMENT)

    def test_the_ends_of_steps_are_the_frames_of_all_cases(self) -> None:
        """A press shows the level of its end, and so does a tick that isn't idle; but a restart that it gives is shown in its place."""
        text, lines = cases_in_rows()
        entries = json.loads(text)
        frames: Dict[Tuple[int, int], List[str]] = {}
        for line in map(json.loads, lines.splitlines()):
            if line.get("kind") in ("move", "tick"):
                frames.setdefault((line["session"], line["at"]), []).append(line["level"])
        for number, entry in enumerate(entries):
            for at in range(min(len(entry[1][1]), MOST_INPUTS) + 1):
                with self.subTest(entry[0], session=number, at=at):
                    ran = subprocess.run([*STAGES, "0", str(at)], input=json.dumps([entry]).encode(), stdout=subprocess.PIPE, env=ENVIRONMENT)
                    is_press = at > 0 and isinstance(entry[1][1][at - 1], int)
                    self.assertEqual(list(shown(map(json.loads, ran.stdout.splitlines()), is_press)), frames.get((number, at), []))


if __name__ == "__main__":
    unittest.main()

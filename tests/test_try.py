"""dev/try: which cases it lays out, over a stand-in for `rt` that says how it was called and what it was given."""
from __future__ import annotations

import os
import subprocess
import sys
import unittest
from typing import Any

from tool import CASES, TOP, InARoom, case_named

# A case whose output is told to differ in its last frame.
DIFFERS = "a-restart-command-can-be-undone"
STAND_IN = f"""#!{sys.executable}
import os, sys
print(os.path.basename(os.getcwd()), *sys.argv[1:-1])
print(*sorted(os.listdir(sys.argv[-1])), sep="\\n", flush=True)
print("case=one run=ended status=0 runners=1 races=unchecked output=expected proved=no", file=sys.stderr)
print("case=two run=ended status=0 runners=1 races=unchecked output=differs proved=no", file=sys.stderr)
print("case=three run=fault status=1", file=sys.stderr)
print(r'the output differs from `{DIFFERS}.stdout`: at byte 427, expected ":0,background player:1,0,\\\\n\\",\\"session\\":0}}\\n{{\\"close\\":\\"pas" (200 of the 6915 bytes from there), found " player:0,background:1,1,\\\\n\\",\\"session\\":0}}\\n{{\\"close\\":\\"dif" (200 of the 6920 bytes from there)', file=sys.stderr)
print("case={DIFFERS} run=ended status=1 runners=1 races=unchecked output=differs proved=no", file=sys.stderr)
sys.exit(5)
"""
PUSHES = [it.stem for it in CASES.glob("push-*")]


class Try(InARoom):
    def tried(self, *words: str) -> Any:
        """What dev/try answers: its status, how it called, the names of the cases that it laid out, and what it says."""
        rt = self.room / "bin/rt"
        rt.parent.mkdir(exist_ok=True)
        rt.write_text(STAND_IN, encoding="utf-8")
        rt.chmod(0o755)
        path = {**os.environ, "PATH": f"{rt.parent}:{os.environ['PATH']}"}
        ran = subprocess.run([TOP / "dev/try", *words], env=path, capture_output=True, text=True)
        call, *files = ran.stdout.splitlines() or [""]
        return ran.returncode, call, [it for it in files if not set(it) & set(".=")], ran.stderr

    def test_cases_by_name(self) -> None:
        status, call, names, said = self.tried("push-*")
        self.assertEqual((status, call, names), (5, "pz_replayer try --seconds 120 --cases", sorted(PUSHES)))
        self.assertRegex(said, rf"^dev/try: {len(PUSHES)} of [0-9]+ cases, unproved\ndev/try: conformance/cases/two.json ends otherwise\ndev/try: conformance/cases/three.json ends otherwise\ndev/try: conformance/cases/{DIFFERS}.json ends otherwise\n")

    def test_of_a_case_that_differs_the_first_line_that_does_is_told(self) -> None:
        said = self.tried(DIFFERS)[3]
        wanted = case_named(DIFFERS).stdout.decode().splitlines()[4]
        came = r'{"at":4,"frame":4,"kind":"undo","level":"background player:0,background:1,1,\n","session":0}'
        self.assertTrue(said.endswith(f"dev/try: conformance/cases/{DIFFERS}.json ends otherwise\n    wanted: {wanted}\n    came: {came}\n"), said)

    def test_a_rule_has_the_cases_that_name_it(self) -> None:
        _, _, names, said = self.tried("play.over", "push-*")
        self.assertEqual(names, sorted(["all-inputs-show-over-after-the-end", *PUSHES]))
        self.assertEqual(said.splitlines()[-1], "dev/try: these are the cases of play.over alone: `dev/try pz_session` plays all that its crate decides")

    def test_a_crate_has_the_cases_of_its_tower(self) -> None:
        names = self.tried("pz_turn")[2]
        self.assertIn("a-loop-of-as-many-passes-as-are-allowed", names)
        self.assertNotIn("a-heading-that-is-repeated", names)
        self.assertIn("a-heading-that-is-repeated", self.tried("pz_names")[2])

    def test_a_crate_below_the_towers_has_all(self) -> None:
        self.assertEqual(self.tried("pz_base")[2], self.tried()[2])

    def test_what_is_neither_is_reported(self) -> None:
        status, call, names, said = self.tried("pushes")
        self.assertEqual((status, call, names, said), (2, "", [], "dev/try: there is no crate, no rule and no case named 'pushes'\n"))

    def test_help(self) -> None:
        status, call, _, said = self.tried("--help")
        self.assertEqual((status, said), (0, ""))
        self.assertRegex(call, r"^dev/try \[CRATE\|RULE")


if __name__ == "__main__":
    unittest.main()

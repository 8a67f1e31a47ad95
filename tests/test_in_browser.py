"""The pages do in a real browser what their users do first: the short ones of the tests of web/tests, by which each module of web/ is called. No error in
the console is allowed there, and nothing is asked of a network. The others are for the hand."""
from __future__ import annotations

import os
import subprocess
import sys
import tempfile
import unittest
from pathlib import Path
from typing import Any, Sequence, Union

from tool import TOP

sys.path.append(str(TOP / "web" / "tests"))
from browsers import BROWSERS

MODULE = next((it for it in (TOP / "engine" / "out" / "saxtegun.wasm", TOP / "released" / "saxtegun.wasm") if it.is_file()), None)
CLEANING: Any = {"ignore_cleanup_errors": True} if sys.version_info >= (3, 10) else {}
OF_THE_PLAYGROUND = (
    "a_level_is_played_to_its_end_saved_opened_again_and_passed",
    "a_refused_source_is_told_at_its_line",
    "a_session_that_differs_is_opened_with_its_cells_framed_and_accepted",
    "going_back_and_forth_cutting_and_putting_back",
    "a_line_that_is_clicked_lists_where_it_acted_and_lines_that_never_acted_are_grey",
    "stages_are_stepped_through_by_keys_and_clicks",
    "the_strip_has_the_marks_around_the_frame_that_is_looked_at",
    "what_an_editors_console_prints_is_added",
    "what_wins_is_found_shown_by_a_ghost_and_taken",
    "what_is_worked_on_is_there_at_the_next_visit",
    "lines_of_another_engine_are_compared_frame_by_frame",
    "why_a_file_of_a_drop_is_not_opened_is_said_until_something_is_done",
    "a_level_is_told_in_words",
    "messages_go_by_an_action",
)
OF_THE_REPORT = (
    "it_opens_at_the_first_failure_and_counts",
    "keys_slider_and_buttons_show_the_frames",
    "the_address_follows_and_opens_what_it_says",
    "a_session_that_differs_is_framed_and_counted",
    "texts_are_copied_where_there_is_no_clipboard",
    "the_strip_goes_to_an_input_and_shows_bumps",
    "the_list_is_filtered_by_close_and_by_name",
    "two_runs_stand_side_by_side_where_they_part",
    "play_goes_on_to_the_last_frame_and_pauses",
)


@unittest.skipUnless(BROWSERS and MODULE, "there is no browser, which dev/tools installs, or no module, which engine/build makes")
class InABrowser(unittest.TestCase):
    def passes(self, script: str, names: Sequence[str], *words: Union[str, Path]) -> None:
        """Runs the tests of a script of these names, in one browser, up to the first that fails."""
        kind = f"In{BROWSERS[0].__name__}"
        patterns = [word for name in names for word in ("-k", f"{kind}.test_{name}")]
        ran = subprocess.run([TOP / "web" / "tests" / script, "-f", *words, *patterns], env={**os.environ, "SAXTEGUN_MODULE": str(MODULE)}, stdout=subprocess.PIPE, stderr=subprocess.STDOUT, check=False)
        told = ran.stdout.decode(errors="replace")
        self.assertEqual(ran.returncode, 0, told)
        self.assertIn(f"\nRan {len(names)} tests in ", told)

    def test_the_playground_is_played_in(self) -> None:
        with tempfile.TemporaryDirectory(**CLEANING) as room:
            page = Path(room) / "saxtegun.html"
            subprocess.run([TOP / "dev" / "page", "--module", str(MODULE), "--output", page], stdout=subprocess.DEVNULL, check=True)
            self.passes("playground", OF_THE_PLAYGROUND, "--page", page)

    def test_a_report_is_read(self) -> None:
        self.passes("report", OF_THE_REPORT)


if __name__ == "__main__":
    unittest.main()

"""What the playground shows in a browser: levels of all sizes, messages, ticks, refused texts, names of strangers. web/tests/playground runs these tests."""
from __future__ import annotations

import json
import time
from typing import Any, Callable, List, Type

from browsers import AnyBrowser
from tool import MixedIn

HEAD = "title Shown\nOBJECTS\nBackground .\nblack\nPlayer p\nwhite\nGoal g\nblue\nLEGEND\nCOLLISIONLAYERS\nBackground\nGoal\nPlayer\nRULES\n"
WIN = "WINCONDITIONS\nAll Player on Goal\nLEVELS\n"
ROWS, COLUMNS = 12, 200
LARGE = HEAD + "WINCONDITIONS\nLEVELS\np" + "." * (COLUMNS - 1) + ("\n" + "." * COLUMNS) * (ROWS - 1) + "\n"
# each tick takes the player a step on, so an action shows seven ticks
TICKING = HEAD.replace("OBJECTS", "again_interval 0.4\nOBJECTS", 1) + "[ action Player ] -> [ right Player ] again\n[ stationary Player ] -> [ right Player ] again\n" + WIN + "p.......g\n"
MESSAGES = HEAD + WIN + "message begin\np.g\n\nmessage go on\n\np.g\n"
CLOCKED = HEAD.replace("OBJECTS", "realtime_interval 1\nOBJECTS", 1) + WIN + "p.g\n"
NAME = "\u202eturned"
MIXED = "a \u05d0 1 "  # which runs both ways


def place_of(name: str) -> str:
    return f"(({{left, top, right, bottom, width, height}}) => ({{left, top, right, bottom, width, height}}))(document.getElementById('{name}').getBoundingClientRect())"


def shown(name: str) -> str:
    return f"document.getElementById('{name}').checkVisibility()"


def text(name: str) -> str:
    return f"document.getElementById('{name}').textContent"


def large_level(*players: int) -> str:
    """The level text of the large level, column by column, with players in these cells."""
    cells = []
    written: List[str] = []
    for number in range(ROWS * COLUMNS):
        name = "background player" if number in players else "background"
        cells.append(str(written.index(name)) if name in written else f"{name}:{len(written)}")
        written += [] if name in written else [name]
    return ",".join(cells) + ","


class Showing(MixedIn):
    # what the tests that these are mixed with have
    kind: Type[AnyBrowser]
    browser: AnyBrowser
    example: bytes
    visit: Callable[[], float]
    hand: Callable[[str, bytes], None]
    hand_sessions: Callable[[str, bytes], None]
    wait: Callable[[], None]
    press: Callable[..., None]
    click: Callable[[str], None]
    write: Callable[[str], None]
    picture: Callable[[str], None]

    def open_game(self, source: str) -> None:
        self.hand("game.txt", source.encode())
        self.assertEqual(self.browser.until(f"document.getElementById('source').value === {json.dumps(source)} && document.documentElement.dataset.busy === 'false'", True), True)

    def test_a_large_level_scrolls_and_its_differing_cells_are_found(self) -> None:
        far = [ROWS * COLUMNS - 1, ROWS * 150 + 3]
        self.open_game(LARGE)
        self.hand_sessions("large.json", json.dumps([["far", ["", [], large_level(0, *far), 0]]]).encode())
        self.assertEqual(self.browser.value(text("difference")), "2 of 2400 cells (200 wide, 12 high) differ from the recorded level (framed).")
        self.assertEqual(self.browser.value("((it) => it.getBoundingClientRect().width - it.width)(document.getElementById('level'))"), 0)
        self.assertEqual(self.browser.value("((it) => it.scrollWidth > it.clientWidth)(document.getElementById('level-room'))"), True)
        # both levels are within the window
        self.assertLess(self.browser.value(place_of("other-room"))["bottom"], self.browser.value("window.innerHeight"))
        for told, column, row in (("1 of 2: column 151, row 4: background; beside: background player", 150, 3), ("2 of 2: column 200, row 12: background; beside: background player", 199, 11)):
            self.click("#next-cell")
            self.assertEqual(self.browser.value(text("chosen-cell")), told)
            for name in ("level", "other"):
                seen = self.browser.value(f"((room, it) => {{ const size = it.width / {COLUMNS}; return room.scrollLeft <= {column} * size && room.scrollLeft + room.clientWidth >= ({column} + 1) * size; }})"
                                          f"(document.getElementById('{name}-room'), document.getElementById('{name}'))")
                self.assertEqual(seen, True, (name, row))
        self.assertEqual(self.browser.value("[...document.querySelectorAll('#differing li')].map((it) => it.getAttribute('aria-current'))"), ["false", "true"])
        width = self.browser.value("document.getElementById('level').width")
        self.press("+", "+")
        self.assertEqual(self.browser.value("document.getElementById('level').width"), 3 * width)
        self.click("#smaller")
        self.assertEqual(self.browser.value("document.getElementById('level').width"), 2 * width)
        self.press("0")
        self.assertEqual(self.browser.value("document.getElementById('level').width"), width)
        self.picture("large")

    def test_a_level_fills_the_room_that_there_is(self) -> None:
        if self.kind.name != "chromium":
            return
        self.browser.size(3840, 2160)
        self.visit()
        # 6 by 7 cells of 5 by 5: 52 pixels each fit into a height of 2160 without the 330 that stand around
        self.assertEqual(self.browser.value("[document.getElementById('level').width, document.getElementById('level').height]"), [6 * 5 * 52, 7 * 5 * 52])
        self.browser.size(360, 700)
        self.hand_sessions("block-pushing.json", self.example)
        self.assertGreaterEqual(min(self.browser.value(place_of(name))["width"] for name in ("level", "other")), 150)
        self.assertEqual(self.browser.value("document.documentElement.scrollWidth <= window.innerWidth"), True)
        self.picture("narrow-differs")

    def test_the_level_stays_where_it_is_while_a_text_is_refused(self) -> None:
        before = self.browser.value(place_of("stage"))["top"]
        self.write(".replace('[ > Player | Crate ] ->', '[ > Player | Crat ] ->')")
        self.assertEqual([self.browser.value(it) for it in (shown("level"), "document.getElementById('boards').className", text("level-caption"))], [True, "stale", "as the last text showed it that could be played"])
        self.assertEqual(self.browser.value(place_of("stage"))["top"], before)
        self.picture("stale")
        self.write(".replace('Crat ]', 'Crate ]')")
        self.assertEqual([self.browser.value("document.getElementById('boards').className"), self.browser.value(text("level-caption"))], ["", ""])

    def test_what_wins_is_found_shown_by_a_ghost_and_taken(self) -> None:
        inputs = "document.querySelectorAll('#strip button').length"
        self.open_game(TICKING)
        self.press("ArrowLeft")
        self.click("#first")
        self.click("#solve")
        self.assertEqual(self.browser.until(text("solution"), "Won in 1 press from the start on, and in no fewer: action."), "Won in 1 press from the start on, and in no fewer: action.")
        self.click("#show-solution")
        self.assertEqual(self.browser.value("document.getElementById('stage').classList.contains('ghost')"), True)
        self.press("ArrowRight")
        self.assertEqual([self.browser.value("document.getElementById('stage').classList.contains('ghost')"), self.browser.value(text("summary"))[:8]], [False, "1 input2"])
        self.click("#take-solution")
        self.wait()
        self.assertEqual(self.browser.value(text("summary")), "1 input9 frames\u2713 solved")
        self.click("#put-back")
        self.wait()
        self.assertEqual(self.browser.value(text("summary")), "1 input2 framesnot solved")

    def test_messages_go_by_an_action(self) -> None:
        self.open_game(MESSAGES)
        told: Callable[[], List[Any]] = lambda: [self.browser.value(shown(it)) for it in ("message", "level")] + [self.browser.value(text("message-text"))]
        self.assertEqual(told(), [True, False, "begin"])
        self.picture("message")
        self.press("ArrowRight", "Enter")
        self.assertEqual([told()[:2], self.browser.value("document.querySelectorAll('#strip button').length")], [[False, True], 0])
        self.press("ArrowRight", "ArrowRight")
        # the won level first, then the message, then the next level
        self.assertEqual(self.browser.until(shown("message"), True), True)
        self.assertEqual(told()[2], "go on")
        self.click("#go-on")
        self.assertEqual([told()[:2], self.browser.value(text("place")), self.browser.value("document.activeElement.id")], [[False, True], "frame 3 of 3", "stage"])

    def test_a_long_message_is_cut(self) -> None:
        self.open_game(f"{HEAD}{WIN}message {MIXED * 3000}\np.g\n")
        self.assertEqual(self.browser.value(f"[{text('message-text')}.length, {text('message-text')}.at(-1)]"), [4001, "\u2026"])

    def test_ticks_are_shown_one_after_another_until_a_key_is_pressed(self) -> None:
        self.open_game(TICKING)
        self.browser.press("x")
        places = [self.browser.until(text("place"), f"frame {frame} of 8", 3) for frame in (1, 2)]
        self.assertEqual(places, ["frame 1 of 8", "frame 2 of 8"])
        self.browser.press("ArrowLeft")
        self.wait()
        self.assertEqual(self.browser.value("document.querySelectorAll('#strip button').length"), 2)

    def test_a_low_window_keeps_the_footer_free(self) -> None:
        self.browser.size(1280, 657)
        self.hand_sessions("block-pushing.json", self.example)
        self.assertLessEqual(self.browser.value(place_of("left"))["bottom"], self.browser.value("document.querySelector('footer').getBoundingClientRect().top"))
        self.assertEqual(self.browser.value("['left', 'sessions'].some((it) => getComputedStyle(document.getElementById(it)).overflowY === 'auto')"), True)

    def test_a_swipe_is_an_input(self) -> None:
        swipe = """((it) => { const send = (kind, x, y) => it.dispatchEvent(new PointerEvent(kind, { pointerType: 'touch', clientX: x, clientY: y, bubbles: true }));
            send('pointerdown', 100, 200); send('pointerup', 100, 260); send('pointerdown', 100, 200); send('pointerup', 104, 203); return 1; })(document.getElementById('level'))"""
        self.browser.value(swipe)
        self.wait()
        self.assertEqual(self.browser.value("[...document.querySelectorAll('#strip button')].map((it) => it.textContent)"), ["\u2193"])

    def test_a_list_is_one_stop_of_tab_and_names_turn_nothing_around(self) -> None:
        self.hand_sessions("names.json", json.dumps([[f"{NAME} {number}", [LARGE, [], "background:0,", 0]] for number in range(40)]).encode())
        self.assertEqual(self.browser.value("[...document.querySelectorAll('#list button')].filter((it) => it.tabIndex === 0).length"), 1)
        self.assertEqual(self.browser.value("document.querySelector('#list .label').textContent"), "\\u{202e}turned 0")
        self.browser.value("(document.querySelector('#list [tabindex=\"0\"]').focus(), 1)")
        self.press("j", "j")
        self.assertEqual(self.browser.value("document.activeElement.dataset.number"), "2")

    def test_two_levels_blink_in_one_place(self) -> None:
        told: Callable[[], List[Any]] = lambda: [self.browser.value(it) for it in (text("level-caption"), shown("other"), "document.getElementById('blink').getAttribute('aria-pressed')")]
        self.assertEqual(self.browser.value(shown("blink")), False)
        self.hand_sessions("block-pushing.json", self.example)
        self.browser.value("((it) => { window.captions = []; new MutationObserver(() => window.captions.push(it.textContent)).observe(it, { childList: true }); return 1; })(document.getElementById('level-caption'))")
        self.press("b")
        # it begins with the level that is there, whose caption stays as it is
        self.assertEqual(self.browser.until("window.captions.slice(0, 4)", ["recorded", "reached"] * 2, 10), ["recorded", "reached"] * 2)
        self.assertEqual(told()[1:], [False, "true"])
        self.click("#blink")
        self.assertEqual(told(), ["reached", True, "false"])
        # where motion is to be reduced each press shows the next
        self.browser.value("(window.matchMedia = () => ({ matches: true }), 1)")
        for wanted in (["reached", False, "true"], ["recorded", False, "true"], ["reached", True, "false"]):
            self.press("b")
            time.sleep(0.6)
            self.assertEqual(told(), wanted)
        self.press("b", "Home")
        self.assertEqual(self.browser.value(shown("blink")), False)

    def test_a_level_is_told_in_words(self) -> None:
        self.open_game(MESSAGES)
        self.press("x")
        self.browser.value("(document.getElementById('in-words').open = true, 1)")
        self.assertEqual(self.browser.until("document.querySelector('#words li')?.textContent", "background player, background, background goal"), "background player, background, background goal")

    def test_a_game_with_a_clock_is_asked_about(self) -> None:
        self.open_game(CLOCKED)
        self.assertRegex(self.browser.value(text("clock-told")), "^A game with `realtime_interval` isn't played here")
        self.assertEqual(self.browser.value("document.getElementById('fault').hidden"), False)
        self.click("#as-recorded")
        self.assertEqual([self.browser.value(text("clock-told")), self.browser.value("document.getElementById('fault').hidden")], ["Played without `realtime_interval`, with its ticks as recorded.", True])
        self.press("ArrowRight", ".")
        self.assertEqual(self.browser.value(text("place")), "frame 1 of 1")
        self.click("#as-recorded")
        self.assertEqual(self.browser.value("document.getElementById('fault').hidden"), False)

    def test_a_session_that_differs_names_what_the_site_may_decide_otherwise(self) -> None:
        self.open_game(MESSAGES.replace("OBJECTS", "noundo\nOBJECTS", 1))
        self.hand_sessions("one.json", json.dumps([["one", ["", [3, "undo"], "background:0,", 1]]]).encode())
        self.assertEqual(self.browser.value(text("likely")), "The site may decide otherwise: the game has `noundo`: on the site the undo of this session does nothing (docs/differences.md).")

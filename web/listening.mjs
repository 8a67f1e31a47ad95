// @ts-check
// What is clicked and pressed in the playground: each leads from a state to the next.
import { at } from "./elements.mjs";
import { download, fileNameOf } from "./handing.mjs";
import { meaningOf, swipeOf } from "./keys.mjs";
import { accepted, followed, namesakeOf, removed, withOtherFile } from "./filing.mjs";
import { gameOf, sourceOf } from "./replaying.mjs";
import { solutionTaken, solveAsked, solveStopped } from "./solving.mjs";
import { coverageStopped, covered, opened, stageStepped } from "./staging.mjs";
import { differenceOf, playedAgain, seenOf } from "./suite.mjs";
import { ACTION, begunAnew, fromLevel, inOrder, named, putBack, released, ticked, withOwnText } from "./work.mjs";

function movesOf(page) {
  return {
    back: () => page.step(-1), on: () => page.step(1), first: () => page.step(-Infinity), last: () => page.step(Infinity), cut: () => page.cut(), play: () => page.playFrames(),
    next: () => page.openNext(1, false), previous: () => page.openNext(-1, false), "next-failure": () => page.openNext(1, true), "previous-failure": () => page.openNext(-1, true),
    larger: () => page.page.boards.zoomBy(1), smaller: () => page.page.boards.zoomBy(-1), fit: () => page.page.boards.fit(), blink: () => page.page.boards.blink(),
    "stage-back": () => page.act(stageStepped, -1), "stage-on": () => page.act(stageStepped, 1),
  };
}

function listenToKeys(page, moves) {
  document.addEventListener("keydown", (event) => {
    const meaning = meaningOf(event);
    if (meaning === null) return;
    event.preventDefault();
    if (meaning.move) moves[meaning.move]();
    // a key that is held down waits for what it did last
    else if (!event.repeat || page.state.queue.length === 0) page.press(meaning.input);
  });
  at("name").addEventListener("keydown", (event) => { if (event.key === "Escape") at("stage").focus({ preventScroll: true }); });
}

function listenToTabs(page) {
  const choose = (name) => page.act((state) => ({ ...state, tab: name }));
  for (const [name, other] of [["game", "sessions"], ["sessions", "game"]]) {
    at(`${name}-tab`).addEventListener("click", () => choose(name));
    at(`${name}-tab`).addEventListener("keydown", (event) => {
      if (!["ArrowLeft", "ArrowRight"].includes(event.key)) return;
      choose(other);
      at(`${other}-tab`).focus();
    });
  }
}

function listenToPad(page) {
  for (const button of at("pad").querySelectorAll("button")) {
    const word = button.dataset.input ?? "", input = /^\d$/.test(word) ? Number(word) : word;
    button.addEventListener("click", () => page.press(input));
  }
  at("go-on").addEventListener("click", () => page.press(ACTION));
  // whoever taps here keeps playing by keys too
  for (const id of ["pad", "message"]) {
    at(id).addEventListener("mousedown", (event) => {
      event.preventDefault();
      at("stage").focus({ preventScroll: true });
    });
  }
}

// A swipe over a level that is there as a whole is an input; over one that scrolls it scrolls.
function listenToSwipes(page) {
  let begin = null;
  at("stage").addEventListener("pointerdown", (event) => { begin = event.pointerType === "mouse" || !at("stage").classList.contains("whole") ? null : event; });
  at("stage").addEventListener("pointercancel", () => { begin = null; });
  at("stage").addEventListener("pointerup", (event) => {
    const input = begin === null ? null : swipeOf(event.clientX - begin.clientX, event.clientY - begin.clientY);
    begin = null;
    if (input !== null) page.press(input);
  });
}

const saveText = (text) => download(fileNameOf(gameOf(text).title), text);

function listenToButtons(page, moves) {
  const click = (id, act) => at(id).addEventListener("click", act);
  for (const id of ["first", "back", "on", "last", "play", "cut"]) click(id, moves[id]);
  click("put-back", () => page.act(putBack));
  click("new", () => page.act(begunAnew));
  click("example", () => page.takeGame(page.state.example));
  click("as-recorded", () => page.act((state) => ticked(state, !state.isTicked)));
  click("take-text", () => page.act(withOwnText));
  click("stop-play", () => page.runner.stopPlay());
  click("begin-play", () => page.act(released));
  click("save-game", () => saveText(page.state.text));
  click("save-own", () => saveText(sourceOf(page.state)));
  click("solve", () => page.act(solveAsked));
  click("stop-solve", () => page.act(solveStopped));
  click("show-solution", () => page.haunt());
  click("take-solution", () => page.act(solutionTaken));
  click("cover", () => page.act(covered));
  click("stop-cover", () => page.act(coverageStopped));
  at("stages-panel").addEventListener("toggle", () => page.act(opened, at("stages-panel").open));
  click("play-all", () => page.act(playedAgain));
  click("stop", () => page.runner.stopSuite());
  click("follow", () => page.act(followed));
  click("accept", () => page.act((state) => acceptedOpen(state)));
  click("accept-all", () => page.act((state) => accepted(state, seenOf(state))));
  click("save-sessions", () => page.saveFile());
  click("save-lines", () => download("lines", page.state.suite.lines));
  click("remove", () => page.act(removed));
  click("close-file", () => page.act(withOtherFile, null));
  click("replace", () => page.save(namesakeOf(page.state)));
  at("saving").addEventListener("submit", (event) => {
    event.preventDefault();
    page.save(null);
  });
  at("name").addEventListener("input", () => page.act(named, at("name").value));
  at("levels").addEventListener("change", () => page.act(fromLevel, Number(at("levels").value)));
  at("order").addEventListener("change", () => page.act(inOrder, at("order").value));
}

// Accepts what is on the screen, or says what stands against that.
function acceptedOpen(state) {
  const difference = differenceOf(state);
  if (difference === null) return state;
  return difference.why === null ? accepted(state, [state.work.opened]) : { ...state, saved: `Not accepted: ${difference.why}` };
}

// Hands on to a playground all that is clicked and pressed.
export function listen(page) {
  const moves = movesOf(page);
  listenToKeys(page, moves);
  listenToTabs(page);
  listenToPad(page);
  listenToSwipes(page);
  listenToButtons(page, moves);
}

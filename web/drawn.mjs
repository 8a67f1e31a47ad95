// @ts-check
// Draws the state of the playground: draw(state, doing, isBusy) shows all of it, and nothing else changes what the page shows. It reads the state and never
// changes it. Behind a key the level is drawn at once, and all else with the next frame.
import { Behind } from "./behind.mjs";
import { CLOSES } from "./closes.mjs";
import { at, fill, make, plural, readable } from "./elements.mjs";
import { levelsOf } from "./game.mjs";
import { LevelDrawn } from "./level-drawn.mjs";
import { clockTold, endTold, faultOfText, nameShown, notesTold, othersTold, ownTold, putBackTold, readingTold, statusOf, stepTold, tabTold, UNSOLVED, verdictOf } from "./page-words.mjs";
import { put, putAttribute, say, tell } from "./saying.mjs";
import { StagesPanel } from "./stages-panel.mjs";
import { chosenStage, stagesNow } from "./staging.mjs";
import { Strip } from "./strip.mjs";
import { SessionList } from "./session-list.mjs";
import { isSolvable, solutionNow, solutionTold } from "./solving.mjs";
import { SourcePanel } from "./source-panel.mjs";
import { isSavable, namesakeOf } from "./filing.mjs";
import { framesOf, gameOf, isAtEnd, isPlayed, shownOf, sourceOf, takenOf } from "./replaying.mjs";
import { countOfOthers, differenceOf, rowsOf, runsOfNow, seenOf } from "./suite.mjs";
/** @typedef {import("./state").State} State */

const TABS = ["game", "sessions"];

// How a session of the list closed, and what else is to be known of it.
const toldOf = ({ close, parting, isUnsolved, isLookedAt, isOther, isTicked }) => [close ?? "not played", isUnsolved && UNSOLVED, parting && `diverges at frame ${parting.frame}`, isLookedAt && "seen", isOther && "another text", isTicked && "ticks as recorded"].filter(Boolean).join(", ");

// Calls a function only where something of what it reads has changed.
class Changes {
  constructor() {
    this.read = new Map();
  }

  when(name, values, act) {
    const before = this.read.get(name);
    if (before !== undefined && values.every((value, place) => Object.is(value, before[place]))) return;
    this.read.set(name, values);
    act();
  }
}

export class Drawn {
  // acts: open(number), input(taken), frame(number), type(text), stage(number), acted(input), point(line)
  constructor(acts) {
    this.panel = new SourcePanel(acts.type, acts.point);
    this.level = new LevelDrawn();
    this.stages = new StagesPanel(acts);
    this.strip = new Strip(acts);
    this.list = new SessionList({ open: acts.open, toldOf, toldOfCount: (listed) => `${listed} listed`, closes: [...CLOSES, "diverges"], always: CLOSES, elsewhere: "stage" });
    this.changes = new Changes();
    this.behind = new Behind();
  }

  get boards() {
    return this.level.boards;
  }

  /** @param {State} state */
  draw(state, doing, isBusy) {
    this.behind.drop();
    this.drawSeen(state, doing);
    this.drawRest(state, doing);
    put(document.documentElement.dataset, { busy: String(isBusy) });
  }

  // Draws what a key, or what it led to, changes before the eyes; all else behind the next frame. Until then the page counts as busy.
  /** @param {State} state */
  drawSoon(state, doing, isBusy) {
    this.drawSeen(state, doing);
    this.behind.put(() => this.draw(state, doing, isBusy));
    put(document.documentElement.dataset, { busy: "true" });
  }

  /** @param {State} state */
  drawSeen(state, doing) {
    this.drawMessage(state.messages[0]);
    if (!doing.isTyping) this.drawLevel(state);
  }

  /** @param {State} state */
  drawRest(state, doing) {
    const when = (...words) => this.changes.when(...words), shown = shownOf(state);
    when("tabs", [state.tab], () => this.drawTabs(state.tab));
    say("sessions-tab", tabTold(state));
    when("text", [state.text], () => this.panel.set(state.text));
    when("fault", [state.played, state.text, isPlayed(state)], () => this.panel.showFault(faultOfText(state)));
    if (!doing.isTyping) when("levels", [sourceOf(state), state.work.index], () => this.drawLevels(state));
    when("likely", [sourceOf(state), state.work, state.suite, state.played, state.file], () => this.level.drawLikely(state));
    when("stages", [state.staging.isOpen, stagesNow(state), chosenStage(state)], () => this.stages.draw(state));
    when("acted", [state.staging, state.played, shown, state.work, state.order, state.text, doing.coverage], () => this.stages.drawActed(state, doing.coverage, this.panel));
    tell("status", readingTold(doing.reading) ?? statusOf(state));
    say("own", ownTold(state));
    for (const id of ["take-text", "save-own"]) put(at(id), { hidden: state.work.own === null });
    if (!doing.isTyping) this.drawClock(clockTold(state));
    this.drawPlaying(state, doing.reading ?? doing.play);
    this.drawButtons(state);
    this.drawSolving(state, doing.solution);
    this.drawFile(state, doing.suite);
    when("list", [state.file, state.suite, state.comparison, state.seen, state.work.opened, state.text, state.order, state.isHeld, state.isTicked], () => this.list.show(rowsOf(state), state.work.opened));
    // last, since it asks where a mark stands, for which the browser lays out what was changed
    when("recording", [framesOf(state), shown, state.work.inputs, state.played, isPlayed(state)], () => this.drawRecording(state));
  }

  // The level is read by the text: not while that is being typed.
  /** @param {State} state */
  drawLevel(state) {
    const isStage = chosenStage(state) !== null;
    this.changes.when("level", [framesOf(state), shownOf(state), state.order, state.suite, state.comparison, state.file, state.work, isStage && state.staging.came, chosenStage(state), isPlayed(state), at("stage").clientWidth], () => this.level.draw(state));
  }

  drawTabs(tab) {
    for (const name of TABS) {
      at(name).hidden = name !== tab;
      at(`${name}-tab`).setAttribute("aria-selected", String(name === tab));
      at(`${name}-tab`).tabIndex = name === tab ? 0 : -1;
    }
  }

  /** @param {State} state */
  drawLevels(state) {
    const { index } = state.work, levels = levelsOf(sourceOf(state)), game = gameOf(sourceOf(state));
    const options = levels.map(({ number, index: entry, width, height }) => new Option(`${number} (${width} \u00d7 ${height})`, String(entry), false, entry === index));
    // a session may start at a message, and plays from the next level on
    if (!levels.some((level) => level.index === index)) options.unshift(new Option(`from entry ${index} on`, String(index), false, true));
    fill(at("levels"), options);
    say("title", game.title);
    say("notes", notesTold(game));
  }

  /** @param {State} state */
  drawRecording(state) {
    const frames = framesOf(state), { inputs } = state.work, { text, isSolved } = endTold(state), counted = isPlayed(state) ? [make("span", "", plural(frames.length, "frame"))] : [];
    at("summary").replaceChildren(make("span", "", plural(inputs.length, "input")), ...counted, make("span", isSolved ? "solved" : "", text));
    say("step", stepTold(state));
    this.strip.show({ inputs, taken: frames.length === 0 ? 0 : frames[shownOf(state)].at, frames, shown: shownOf(state) });
  }

  drawClock(clock) {
    put(at("clock"), { hidden: clock === null });
    say("clock-told", clock?.text ?? "");
    say("as-recorded", clock?.isAsked ? "Play it with its ticks as recorded" : "Refuse it again");
  }

  drawMessage(message) {
    const isThere = message !== undefined;
    put(at("message"), { hidden: !isThere });
    put(at("boards"), { hidden: isThere });
    say("message-text", message ?? "");
  }

  /** @param {State} state */
  drawPlaying(state, play) {
    const isSlow = play?.isSlow ?? false;
    put(at("playing"), { hidden: !isSlow && !state.isHeld });
    put(at("stop-play"), { hidden: !isSlow });
    put(at("begin-play"), { hidden: !state.isHeld });
  }

  /** @param {State} state */
  drawButtons(state) {
    const { inputs } = state.work, number = namesakeOf(state), isPlayable = framesOf(state).length > 0;
    put(at("cut"), { disabled: inputs.length === 0 || (!isAtEnd(state) && takenOf(state) === inputs.length) });
    put(at("put-back"), { disabled: state.past.length === 0, title: readable(putBackTold(state)) });
    put(at("save"), { disabled: !isSavable(state) });
    put(at("replace"), { hidden: number < 0, disabled: !isSavable(state) });
    say("save", number < 0 ? "Save" : "Add another");
    say("replace", `Replace session ${number}`);
    put(at("name"), { value: nameShown(state) });
    for (const button of at("pad").querySelectorAll("button")) put(button, { disabled: !isPlayable && isPlayed(state) });
    say("saved", state.saved);
  }

  // What is looked for that wins, and what was found.
  /** @param {State} state */
  drawSolving(state, search) {
    const isFound = solutionNow(state) !== null, { ghost } = state;
    put(at("solve"), { disabled: !isSolvable(state) || search !== null });
    put(at("stop-solve"), { hidden: search === null });
    for (const id of ["show-solution", "take-solution"]) put(at(id), { hidden: !isFound });
    putAttribute(at("show-solution"), "aria-pressed", String(ghost !== undefined));
    at("stage").classList.toggle("ghost", ghost !== undefined);
    say("solution", ghost === undefined ? solutionTold(state) : `A ghost shows press ${ghost.count} of ${ghost.of}: it stands in no recording.`);
  }

  /** @param {State} state */
  drawFile(state, suite) {
    const { file } = state, seen = seenOf(state).length;
    put(at("none"), { hidden: file !== null });
    put(at("some"), { hidden: file === null });
    if (file === null) return;
    say("file-name", file.name);
    put(at("order"), { value: state.order });
    put(at("progress"), { hidden: suite === null, max: Math.max(1, suite?.total ?? 1), value: suite?.done ?? 0 });
    put(at("stop"), { hidden: suite === null });
    put(at("play-all"), { hidden: suite !== null });
    tell("played", verdictOf(state, suite));
    say("over", othersTold(state));
    put(at("follow"), { hidden: countOfOthers(state) === 0 });
    put(at("accept"), { disabled: differenceOf(state) === null });
    put(at("accept-all"), { disabled: seen === 0 });
    say("accept-all", `Accept all seen (${seen})`);
    put(at("save-lines"), { disabled: runsOfNow(state) === null });
    put(at("remove"), { disabled: state.work.opened === null });
  }
}

// @ts-check
// The level in the middle: the frame that is looked at, beside what it is compared with, or the level behind the stage that is chosen.
import { Boards } from "./boards.mjs";
import { Ending } from "./comparing.mjs";
import { likelyTold } from "./differences.mjs";
import { at, readable } from "./elements.mjs";
import { Labels, readLevel } from "./level-text.mjs";
import { differing, isDrawn } from "./levels.mjs";
import { toldOfLevel, unlikenessTold } from "./page-words.mjs";
import { framesOf, gameOf, isPlayed, shownOf, sourceOf, sourceOfFrames } from "./replaying.mjs";
import { say } from "./saying.mjs";
import { STAGE } from "./stage.mjs";
import { chosenStage } from "./staging.mjs";
import { stageShown } from "./stage-words.mjs";
import { differenceOf, partingOfOpen, runOfOpen, runsOfNow, sessionOf } from "./suite.mjs";
import { there } from "./there.mjs";
/** @typedef {import("./state").State} State */

export class LevelDrawn {
  constructor() {
    this.boards = new Boards(STAGE);
    this.look = null;
  }

  // The frame that is looked at, beside what it is compared with: the recorded level at the end, or another engine's frame.
  /** @param {State} state */
  comparedWith(state) {
    const parting = partingOfOpen(state);
    if (sessionOf(state) === null || runsOfNow(state) === null || !isPlayed(state)) return null;
    if (parting === null) {
      const difference = differenceOf(state);
      return difference && { text: difference.recorded, caption: "recorded" };
    }
    const other = there(state.comparison).others[there(state.work.opened)].frames[shownOf(state)];
    return other === undefined ? null : { text: other.level, caption: `the other engine's frame ${shownOf(state)}`, isOfEngines: true };
  }

  /** @param {State} state */
  draw(state) {
    const frame = framesOf(state)[shownOf(state)];
    at("boards").classList.toggle("stale", frame !== undefined && !isPlayed(state));
    if (chosenStage(state) !== null) return this.drawStage(state);
    if (frame === undefined) return this.drawRefused(state);
    const labels = this.use(state), other = this.comparedWith(state), text = gameOf(sourceOfFrames(state)).levelText(frame.level);
    const ending = other && new Ending(text, other.text, state.order, labels);
    const level = ending ? ending.reached : readLevel(text, labels, there(state.played).order);
    const unread = level === null ? "This level can't be drawn: a name of an object in it holds a comma." : "";
    const sides = [{ level, caption: other && level ? "reached" : unread, told: readable(toldOfLevel(state)) }];
    if (other !== null && ending !== null && isDrawn(ending.recorded)) sides.push({ level: ending.recorded, caption: other.caption, told: other.caption });
    this.boards.show(sides, ending?.cells ?? [], "beside");
    return say("difference", ending ? unlikenessTold(state, ending, other?.isOfEngines) : "");
  }

  // Takes the look of the game at hand; the labels of its cells.
  /** @param {State} state */
  use(state) {
    const source = sourceOfFrames(state), game = gameOf(source);
    if (this.look?.source !== source) {
      this.look = { source, labels: new Labels() };
      this.boards.use(game.look(), this.look.labels.names);
    }
    this.kept = { title: game.title, index: there(state.played).index };
    return this.look.labels;
  }

  // The level behind the stage that is chosen, beside nothing.
  /** @param {State} state */
  drawStage(state) {
    const labels = this.use(state), game = gameOf(sourceOf(state)), { text, before, headings, told } = stageShown(state);
    const level = readLevel(game.levelText(text), labels, state.order), changed = before === null ? [] : differing(readLevel(game.levelText(before), labels, state.order), level) ?? [];
    this.boards.show([{ level, changed, headings, caption: readable(told), told: readable(`${toldOfLevel(state)}, ${told}`) }], []);
    return say("difference", "");
  }

  // Where a session differs: what the site may decide otherwise.
  /** @param {State} state */
  drawLikely(state) {
    const source = sourceOf(state), isDiffering = sessionOf(state) !== null && isPlayed(state) && runOfOpen(state)?.close === "differs";
    const told = isDiffering ? likelyTold({ source, game: gameOf(source), inputs: state.work.inputs, frames: framesOf(state) }) : null;
    say("likely", told === null ? "" : `${told[0].toUpperCase()}${told.slice(1)}.`);
  }

  // Where the text that is written can't be played, what the last one showed stays.
  /** @param {State} state */
  drawRefused(state) {
    const { title } = gameOf(sourceOf(state));
    if (this.kept !== undefined && this.kept.title === title && this.kept.index === state.work.index && sourceOf(state).trim() !== "") return this.drawKept();
    this.boards.show([{ level: null, caption: "" }], []);
    return say("difference", "");
  }

  drawKept() {
    at("boards").classList.add("stale");
    this.boards.sides[0].caption = "as the last text showed it that could be played";
    this.boards.draw();
    say("difference", "");
  }
}

// @ts-check
// What an input led to, frame by frame: the ticks of `again` at the game's pace, and a won level for a moment before the next.
import { settingsOf } from "./descriptions.mjs";
import { firstFrom } from "./recording.mjs";
import { framesOf, isPlayed, sourceOf } from "./replaying.mjs";
/** @typedef {import("./state").State} State */

export const WON = 700; // milliseconds for which a won level is shown
const TICK = 100; // milliseconds for which a tick is, where the game names no pace,
const LONGEST = 5000; // and at most

// Milliseconds between two ticks of a game.
export function paceOf(source) {
  const seconds = Number.parseFloat(settingsOf(source).find(({ keyword }) => keyword === "again_interval")?.value ?? "");
  return seconds > 0 ? Math.min(LONGEST, 1000 * seconds) : TICK;
}

// The frames that are shown on the way to the last one, each with its time: [[frame, milliseconds]].
/** @param {State} state */
export function scenesOf(state) {
  const { played, messages, looked, queue } = state;
  if (played === null || !played.isKey || looked !== null || queue.length > 0 || !isPlayed(state)) return [];
  const frames = framesOf(state), last = frames.length - 1, first = firstFrom(frames, played.from);
  const pace = first < last ? paceOf(sourceOf(state)) : TICK;
  const scenes = frames.slice(first, last).map((_, place) => [first + place, frames[first + place + 1].kind === "load" ? WON : pace]);
  return messages.length > 0 && frames[last]?.kind !== "load" ? [...scenes, [last, WON]] : scenes;
}

export class Animation {
  // show() draws anew. Where `isStill()` says so nothing moves.
  constructor(show, isStill = () => false) {
    this.show = show;
    this.isStill = isStill;
    this.scenes = [];
    this.played = null;
    this.timer = 0;
  }

  // Begins where a key was played, and ends where anything else was done.
  /** @param {State} state */
  follow(state) {
    const isNew = state.played !== this.played;
    if (!isNew && this.scenes.length > 0 && scenesOf(state).length === 0) this.end();
    if (!isNew) return;
    this.end();
    this.played = state.played;
    this.scenes = this.isStill() ? [] : scenesOf(state);
    this.wait();
  }

  wait() {
    if (this.scenes.length === 0) return;
    this.timer = setTimeout(() => {
      this.scenes.shift();
      this.wait();
      this.show();
    }, this.scenes[0][1]);
  }

  // Goes to the end; whether something was shown on the way to it.
  end() {
    const was = this.scenes.length > 0;
    clearTimeout(this.timer);
    this.scenes = [];
    return was;
  }

  // The state as it is shown now.
  /** @param {State} state */
  seen(state) {
    return this.scenes.length === 0 ? state : { ...state, looked: this.scenes[0][0], messages: [] };
  }
}

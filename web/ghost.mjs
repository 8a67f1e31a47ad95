// @ts-check
// The presses that win, shown one after another by a ghost, as long as nothing else is done.
import { ghostOf, solutionNow } from "./solving.mjs";
import { there } from "./there.mjs";
/** @typedef {import("./state").State} State */

const PRESS_PAUSE = 160; // milliseconds between two of its presses
const LAST_PAUSE = 1500; // milliseconds for which the last of them is shown

export class Ghost {
  // `show` draws anew.
  constructor(show) {
    this.show = show;
    /** @type {ReturnType<typeof solutionNow>} */
    this.found = null;
    this.count = 0;
    this.timer = 0;
  }

  /** @param {State} state */
  begin(state) {
    this.end();
    const found = solutionNow(state);
    if (found === null) return;
    this.found = found;
    this.go(0);
  }

  go(count) {
    const { length } = there(this.found).presses, isLast = count >= length;
    this.count = count;
    this.timer = setTimeout(() => (isLast ? this.leave() : this.go(count + 1)), isLast ? LAST_PAUSE : PRESS_PAUSE);
    this.show();
  }

  leave() {
    this.end();
    this.show();
  }

  // Ends it, without drawing; whether it was there.
  end() {
    const was = this.found !== null;
    clearTimeout(this.timer);
    this.found = null;
    return was;
  }

  // The state as it is shown now.
  /** @param {State} state */
  seen(state) {
    const found = this.found === null ? null : solutionNow(state);
    if (found?.presses !== this.found?.presses) this.end();
    return this.found === null ? state : ghostOf(state, this.count);
  }
}

// @ts-check
// A session that the player's worker keeps open behind what it played last, so that a key costs a press and not the whole recording.
import { MOST_INPUTS } from "./limits.mjs";
import { isPlayOf } from "./replaying.mjs";
import { there } from "./there.mjs";
import { playedText } from "./ticks.mjs";

// The press that wins the last level shows a `move`, as others do; that play is over then is shown behind one more input, which runs no rule.
/** @type {"undo"} */
export const ONE_MORE = "undo";

// How many inputs two lists begin with that are the same.
function sharedBy(one, other) {
  const most = Math.min(one.length, other.length);
  let count = 0;
  while (count < most && one[count] === other[count]) count += 1;
  return count;
}

export class KeptOpen {
  /** @param {import("../engine/saxtegun").Engine} engine */
  constructor(engine) {
    this.engine = engine;
    this.of = null;
    /** @type {import("../engine/saxtegun").OpenSession | null} */
    this.session = null;
  }

  // What one more input led to, as `playedBy` tells it; null where no open session stands before it, or the engine gave no answer.
  played(wanted) {
    const { inputs, from } = wanted, { session } = this;
    if (session === null || from === 0 || from !== inputs.length || !this.isOpenFor(wanted) || !this.isAt(inputs.slice(0, -1))) return null;
    const { frames, close, fault } = session.give(inputs.slice(-1));
    if (fault !== null) return this.leave();
    const isSolved = this.isOver(inputs.length, frames);
    return isSolved === null ? this.leave() : { frames, cause: close?.cause ?? null, isSolved };
  }

  // Goes to where a recording ends, for the keys that may come.
  follow({ source, index, order, isTicked, inputs }) {
    if (!this.engine.hasOpenSessions) return;
    if (!this.isOpenFor({ source, index, order, isTicked })) {
      this.leave();
      const { session } = this.engine.open({ source: playedText(source, isTicked), index, inputs }, { order });
      Object.assign(this, { session, of: { source, index, order, isTicked } });
    }
    if (this.session !== null) this.isAt(inputs);
  }

  isOpenFor(wanted) {
    return this.session !== null && this.session.isOpen && isPlayOf(this.of, wanted);
  }

  // Whether the open session has come to where it has these inputs.
  isAt(inputs) {
    const session = there(this.session), had = session.inputs, shared = sharedBy(had, inputs);
    const answers = [shared < had.length ? session.back(shared) : null, shared < inputs.length ? session.give(inputs.slice(shared)) : null];
    const isThere = answers.every((answer) => answer === null || answer.fault === null);
    if (!isThere) this.leave();
    return isThere;
  }

  // Whether play is over behind so many inputs, of which the last showed these frames: a copy that is given one input more tells. Null where it can't.
  isOver(count, frames) {
    const isShown = frames.at(-1)?.kind === "over";
    if (isShown || count >= MOST_INPUTS) return isShown;
    const { session: copy } = there(this.session).copy();
    if (copy === null) return null;
    const { frames: more, fault } = copy.give([ONE_MORE]);
    copy.close();
    return fault === null ? more.at(-1)?.kind === "over" : null;
  }

  leave() {
    this.session?.close();
    this.session = null;
    return null;
  }
}

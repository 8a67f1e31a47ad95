// @ts-check
// What wins from the frame that is looked at, in the state of the page: what the engine is asked for, what it found, and its presses as a ghost, which stands
// in no recording.
import { before, descriptionOf } from "./descriptions.mjs";
import { isSameList } from "./past.mjs";
import { firstFrom } from "./recording.mjs";
import { framesOf, gameOf, isPlayOf, isPlayed, sourceOf, takenOf } from "./replaying.mjs";
import { refusalTold } from "./session-file.mjs";
import { there } from "./there.mjs";
import { hasClock } from "./ticks.mjs";
import { withWork } from "./work.mjs";
/** @typedef {import("./state").State} State */

const PRESSES = ["up", "left", "down", "right", "action"];

const pressesTold = (count) => (count === 1 ? "1 press" : `${count} presses`);

/** @param {State} state */
const withSolving = (state, solving) => ({ ...state, solving, told: null });

// Whether there is a frame from which a solution can be looked for.
/** @param {State} state */
export const isSolvable = (state) => isPlayed(state) && framesOf(state).length > 0 && state.played?.cause === null;

// Asks what wins from the frame that is looked at.
/** @param {State} state */
export function solveAsked(state) {
  if (!isSolvable(state)) return state;
  const { work: { index, inputs }, order, isTicked } = state, source = sourceOf(state);
  return withSolving(state, { asked: { source, index, order, isTicked, inputs: inputs.slice(0, takenOf(state)) }, came: null });
}

/** @param {State} state */
export const solveStopped = (state) => withSolving(state, { asked: null, came: null });

// What was asked, as long as the recording still begins so; or null.
/** @param {State} state */
function askedNow({ solving: { asked }, work, order, isTicked, text }) {
  if (asked === null) return null;
  const isSame = isPlayOf(asked, { source: work.own ?? text, index: work.index, order, isTicked });
  return isSame && isSameList(work.inputs.slice(0, asked.inputs.length), asked.inputs) ? asked : null;
}

/** @param {State} state */
export const wantedSolution = (state) => (state.solving.came === null ? askedNow(state) : null);

/** @param {State} state */
export const isSolutionWanted = (state, asked) => wantedSolution(state) === asked;

/** @param {State} state */
export const solutionCame = (state, asked, answer) => (isSolutionWanted(state, asked) ? { ...state, solving: { asked, came: answer } } : state);

// The word of the game that switches off a key which some of these presses is, or undefined: the site takes no such key.
const switchedOff = (source, presses) => presses.map((it) => gameOf(source).switches.get(it)).find((word) => word !== undefined);

// The presses that win, and what they show: { asked, presses, frames }; or null.
/** @param {State} state */
export function solutionNow(state) {
  const asked = askedNow(state), { came } = state.solving, presses = came?.solution?.solved;
  return asked === null || came === null || presses === undefined || switchedOff(asked.source, presses) ? null : { asked, presses, frames: came.frames };
}

// The words of a rule behind its cells, without those of a message.
function commandsOf({ words }) {
  const heard = before("message", words);
  return heard.slice(heard.lastIndexOf("]") + 1);
}

// Of which presses alone something is known: a search takes one by which a rule restarts the level as lost, though another level may come back.
const apartTold = ({ source }) => (descriptionOf(source).rules.some((rule) => commandsOf(rule).includes("restart")) ? " without a restart by a rule" : "");

// What is said beside where time goes on by itself: a search is for presses alone, and by ticks more may be won, or by fewer presses.
const ticksTold = ({ source, isTicked }) => (isTicked && hasClock(source) ? " Its ticks are not tried." : "");

// What is said of the search.
/** @param {State} state */
export function solutionTold(state) {
  const asked = askedNow(state), { came } = state.solving;
  if (asked === null) return "";
  const from = asked.inputs.length === 0 ? "the start" : `input ${asked.inputs.length}`;
  if (came === null) return `Looking for presses that win from ${from} on \u2026`;
  if (came.solution === null) return `Nothing is known: ${refusalTold(came.fault)}.`;
  const { solved, unsolvable, outOfBounds, over } = came.solution, apart = apartTold(asked);
  const word = solved && switchedOff(asked.source, solved);
  if (word) return `Not known: the fewest presses that win have one that this game switches off by \`${word}\`.`;
  if (solved) return `Won in ${pressesTold(solved.length)} from ${from} on, and in no fewer${apart}: ${solved.map((it) => PRESSES[it]).join(" ")}.${ticksTold(asked)}`;
  if (unsolvable) return `No presses win from ${from} on${apart}.${ticksTold(asked)}`;
  if (outOfBounds) return `Not known: no list of up to ${pressesTold(outOfBounds.inputs)} wins from there${apart}, and longer ones lead to more than ${outOfBounds.levels.toLocaleString("en")} levels of play, as many as are kept.`;
  return over ? "All levels are won." : "There is no level to win.";
}

// Puts the presses that win behind those from which they were looked for.
/** @param {State} state */
export function solutionTaken(state) {
  const found = solutionNow(state);
  return found === null ? state : withWork(state, { ...state.work, inputs: [...found.asked.inputs, ...found.presses] });
}

// The state as it would be behind so many of the presses that win: what a ghost shows.
/** @param {State} state */
export function ghostOf(state, count) {
  const { asked, presses, frames } = there(solutionNow(state)), before = framesOf(state).slice(0, firstFrom(framesOf(state), asked.inputs.length + 1));
  const all = [...before, ...frames], inputs = [...asked.inputs, ...presses];
  return { ...state, work: { ...state.work, inputs }, played: { ...there(state.played), inputs, frames: all }, looked: firstFrom(all, asked.inputs.length + count + 1) - 1, messages: [], ghost: { count, of: presses.length } };
}

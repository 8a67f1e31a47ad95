// @ts-check
// What the engine is wanted to play of a state, what its answer leads to, and the frames that were played.
import { culpritTold } from "./faults.mjs";
import { Game } from "./game.mjs";
import { messagesAt } from "./messages.mjs";
import { isSameList, remembering } from "./past.mjs";
import { joined } from "./recording.mjs";
import { refusalTold } from "./session-file.mjs";
/** @typedef {import("./state").State} State */

// The text that is played.
/** @param {State} state */
export const sourceOf = (state) => state.work.own ?? state.text;

const MOST_GAMES = 8; // whose looks are kept
const games = new Map();

// How a text looks.
export function gameOf(source) {
  if (games.has(source)) return games.get(source);
  if (games.size >= MOST_GAMES) games.delete(games.keys().next().value);
  games.set(source, new Game(source));
  return games.get(source);
}

// Whether something was played of this source, entry of LEVELS and order.
/** @type {<It extends Omit<import("./state").Asked, "inputs">>(played: It | null, asked: Omit<import("./state").Asked, "inputs">) => played is It} */
export const isPlayOf = (played, { source, index, order, isTicked }) => played !== null && played.source === source && played.index === index && played.order === order && played.isTicked === isTicked;

// Whether what was played is what is worked on now.
/** @param {State} state */
export function isPlayed(state) {
  const { work: { index, inputs }, order, isTicked, played } = state;
  return isPlayOf(played, { source: sourceOf(state), index, order, isTicked }) && isSameList(played.inputs, inputs);
}

// ---- the frames of the recording

// Until what is worked on is played, they are those of what was before.
/** @param {State} state */
export const framesOf = (state) => state.played?.frames ?? [];

// The text that these frames are of.
/** @param {State} state */
export const sourceOfFrames = (state) => state.played?.source ?? sourceOf(state);

/** @param {State} state */
export function shownOf(state) {
  const last = framesOf(state).length - 1;
  return Math.max(0, Math.min(last, state.looked ?? last));
}

/** @param {State} state */
export const isAtEnd = (state) => shownOf(state) >= framesOf(state).length - 1;

// How many inputs stand before what is looked at.
/** @param {State} state */
export const takenOf = (state) => (isAtEnd(state) ? state.work.inputs.length : framesOf(state)[shownOf(state)].at);

// ---- what is played

// The state with the frames of a beginning of what was played, where that is what is worked on now: nothing is to be played for it.
/** @param {State} state */
export function cutToPlayed(state) {
  const { work: { index, inputs }, order, isTicked, played } = state, taken = inputs.length;
  if (!isPlayOf(played, { source: sourceOf(state), index, order, isTicked }) || played.cause !== null || taken >= played.inputs.length || !isSameList(played.inputs.slice(0, taken), inputs)) return state;
  const isSolved = played.frames.some(({ at, kind }) => at === taken + 1 && kind === "over");
  return { ...state, played: { ...played, inputs, frames: played.frames.filter(({ at }) => at <= taken), isSolved } };
}

// What the engine is wanted to play: all of the recording, or one more input behind what is looked at. Null where nothing is.
/** @param {State} state */
export function wantedPlay(state) {
  if (state.isHeld) return null;
  const { work: { index, inputs }, order, isTicked, queue } = state, source = sourceOf(state);
  if (!isPlayed(state)) return { source, index, order, isTicked, inputs, from: 0, isKey: false };
  if (queue.length === 0) return null;
  const taken = Math.min(inputs.length, queue[0].behind ?? inputs.length);
  return { source, index, order, isTicked, inputs: [...inputs.slice(0, taken), queue[0].input], from: taken + 1, isKey: true };
}

const isSamePlay = (one, other) => isPlayOf(one, other) && one.from === other.from && one.isKey === other.isKey && isSameList(one.inputs, other.inputs);

// Whether an answer to this is still of use.
/** @param {State} state */
export const isWanted = (state, asked) => {
  const wanted = wantedPlay(state);
  return wanted !== null && isSamePlay(wanted, asked);
};

const capital = (text) => `${text[0].toUpperCase()}${text.slice(1)}`;

// Why something isn't played, as a sentence without its end, and the line that is named.
export function causeOf(cause, { source, inputs, frames }) {
  if (cause === "engine:memory") return { sentence: "its frames need more memory than a page has: leave out inputs, or look at it by the command", line: null };
  if (cause.startsWith("engine:")) return { sentence: `the engine gave no answer: ${refusalTold(cause.slice(7))}`, line: null };
  if (source.trim() === "") return { sentence: "there is no text of a game: open it, paste it, or write it here", line: null };
  return culpritTold(cause, { source, inputs, frames });
}

// The keys that wait behind one that was left out: where they were pressed.
/** @type {(queue: import("./state").Key[]) => import("./state").Key[]} */
const leftOut = ([{ behind }, next, ...rest]) => (next === undefined ? [] : [{ ...next, behind: next.behind ?? behind }, ...rest]);

/** @param {State} state */
function answeredKey(state, asked, { frames: more, cause, isSolved }) {
  const [key, ...waiting] = state.queue, frames = joined(framesOf(state), asked.from, more);
  if (cause !== null) {
    const { sentence } = causeOf(cause, { ...asked, frames });
    return { ...state, queue: leftOut(state.queue), told: { text: `${capital(sentence)}. The input is left out.`, close: null } };
  }
  const work = { ...state.work, inputs: asked.inputs }, isNext = more.some((frame) => frame.kind === "load");
  const isFirst = !state.played?.isSolved, won = frames.filter(({ kind }) => kind === "load").length;
  const messages = isNext || (isSolved && isFirst) ? messagesAt(asked.source, asked.index, isSolved ? Infinity : won) : [];
  // keys that were pressed before a message is there aren't meant for what comes behind it
  const queue = messages.length > 0 ? [] : waiting;
  const told = isSolved ? "Solved: all levels are won." : isNext ? "The next level." : null;
  // who went to another frame since the key was pressed looks at that
  const looked = state.looked === key.looked ? null : state.looked;
  return remembering(state, { ...state, queue, work, looked, messages, played: { ...asked, frames, cause, isSolved }, told: told && { text: told, close: null } });
}

// Takes the answer of the engine to what was wanted.
/** @param {State} state */
export function answered(state, asked, answer) {
  if (!isWanted(state, asked)) return state;
  if (asked.isKey) return answeredKey(state, asked, answer);
  return { ...state, played: { ...asked, ...answer }, queue: answer.frames.length === 0 ? [] : state.queue };
}

// @ts-check
// The state of the page, which is never changed, and what can be done with a text and a recording: functions from a state to the next. Nothing here
// knows the page or the engine. What the engine is wanted to play follows from the state, and its answer leads to the next (replaying.mjs, suite.mjs).
import { levelsOf } from "./game.mjs";
import { MOST_INPUTS } from "./limits.mjs";
import { messagesAt } from "./messages.mjs";
import { behindAll, isReplaced, rememberingKeys } from "./past.mjs";
import { firstFrom } from "./recording.mjs";
import { cutToPlayed, framesOf, gameOf, isAtEnd, isPlayed, sourceOf, takenOf } from "./replaying.mjs";
import { whyNoField } from "./texts.mjs";
import { there } from "./there.mjs";
/** @typedef {import("./state").State} State */

export const RECORDED_ORDER = "columns"; // the one of the published level texts, in which `saxtegun test` plays

// A recording of a text that has nothing in it yet. Where `own` is null it is one over the text at hand.
const workOn = (text, more = {}) => ({ own: null, index: levelsOf(text)[0]?.index ?? 0, inputs: [], name: "", opened: null, ...more });

// The stages of the input that is looked at, which are asked for where their list is open.
const UNSTAGED = {
  isOpen: false,
  came: null, // the stages that came last: { wanted, stages, fault }
  chosen: null, // the one whose level is shown: { came, looked, number }
  sought: null, // a line of the text, of which a stage is chosen once they come
  line: null, // the line of the text of which it is listed where it acted: { source, number }
  isCovered: false, // whether the lines that never acted are grey
  isStopped: false, // whether no more inputs are looked through
  fault: null, // why the last of them could not be
  acted: null, // the lines that acted, input by input: { source, index, order, isTicked, inputs, lines }
};

/** @type {(example: string) => State} */
export function beginning(example) {
  return {
    example, // the text of the example
    text: example, // the text at hand
    order: RECORDED_ORDER,
    work: workOn(example), // what is recorded: its own text or null, the entry of LEVELS, inputs, a name, the number of the session that is open
    looked: null, // the number of the frame that is looked at; null for the last
    queue: [], // keys that were pressed and aren't played yet: { input, behind (so many inputs, or null for all), looked }
    played: null, // what was played last, with its frames
    isTicked: false, // whether games with a clock are played without it, their ticks as recorded
    isHeld: false, // whether nothing is played until it is asked for
    file: null,
    isUnsaved: false, // whether the file was changed here, also where it was handed to the browser since
    suite: null, // what the sessions of the file came to
    good: null, // the last such answer in which all passed that had passed before
    isNew: false, // whether the first failure is opened, once all is played
    seen: new Map(), // which sessions were seen as they differ, with both levels
    comparison: null, // what another engine made of the same sessions
    past: [],
    tab: "game",
    since: null, // where the session that is open began to go another way
    messages: [], // of LEVELS, which are shown one after another before play goes on
    told: null, // what was said of the last act
    refusals: [], // why files aren't opened that came last
    saved: "",
    staging: UNSTAGED,
    solving: { asked: null, came: null }, // what is looked for that wins, and what was found
  };
}

// What no longer holds once another text is at hand.
const AFRESH = { seen: new Map(), isHeld: false, comparison: null, messages: [], told: null, saved: "", since: null };

// ---- files that aren't opened

/** @param {State} state @param {string} why */
export const withRefusal = (state, why) => ({ ...state, refusals: [...state.refusals, why] });

/** @param {State} state */
export const withoutRefusals = (state) => (state.refusals.length === 0 ? state : { ...state, refusals: [] });

// ---- the recording

// Goes to a frame.
/** @param {State} state */
export function lookedAt(state, frame) {
  const last = Math.max(0, framesOf(state).length - 1), number = Math.max(0, Math.min(last, frame));
  return { ...state, looked: number === last ? null : number, messages: [], told: null };
}

// Goes to what so many inputs led to: the last frame of these.
/** @param {State} state */
export const lookedAtInput = (state, taken) => lookedAt(state, firstFrom(framesOf(state), taken + 1) - 1);

// Ends what is being played: it is played again where that is asked for, but for keys that wait.
/** @param {State} state */
export const held = (state) => rememberingKeys(state, { ...state, isHeld: true, queue: [], told: null });

/** @param {State} state */
export const released = (state) => ({ ...state, isHeld: false, told: null });

export const ACTION = 4;

// Takes a key, which is played behind the frame that is looked at. Before a message only the action does something: it goes on behind that.
/** @param {State} state */
export function pressed(state, input) {
  if (state.messages.length > 0) return input === ACTION ? { ...state, messages: state.messages.slice(1) } : state;
  const { queue, looked } = state, last = queue.at(-1);
  if (isPlayed(state) && framesOf(state).length === 0) return state;
  const switchedOffBy = gameOf(sourceOf(state)).switches.get(input);
  if (switchedOffBy !== undefined) return { ...state, told: { text: `This game has \`${switchedOffBy}\`, so the key is left out.`, close: null } };
  if (state.work.inputs.length + queue.length >= MOST_INPUTS) return { ...state, told: { text: `A session has ${MOST_INPUTS} inputs at most.`, close: null } };
  const isBehindLast = last === undefined ? isAtEnd(state) : last.looked === looked;
  return { ...state, queue: [...queue, { input, behind: isBehindLast ? null : takenOf(state), looked }], isHeld: false, told: null };
}

// The state with something else worked on.
/** @param {State} state */
export function withWork(state, work, more = {}) {
  return rememberingKeys(state, { ...state, work, looked: null, queue: [], messages: [], told: null, saved: "", since: null, ...more });
}

// Leaves out all inputs behind the frame that is looked at, or the last one where that is looked at; a key that isn't played yet is the last.
/** @param {State} state */
export function cutBack(state) {
  const { inputs } = state.work;
  if (state.queue.length > 0) return { ...state, queue: state.queue.slice(0, -1) };
  return inputs.length === 0 ? state : cutToPlayed(withWork(state, { ...state.work, inputs: inputs.slice(0, isAtEnd(state) ? -1 : takenOf(state)) }));
}

const HALVES = /\p{Surrogate}/gu; // of letters: a browser leaves one where a field is full

/** @param {State} state */
export const named = (state, name) => ({ ...state, work: { ...state.work, name: name.replace(HALVES, "") } });

/** @param {State} state */
export const begunAnew = (state) => withWork(state, { ...state.work, inputs: [], name: "", opened: null });

const messagesAtStart = ({ own, index }, text) => messagesAt(own ?? text, index, 0);

/** @param {State} state */
export function fromLevel(state, index) {
  const work = { ...state.work, index, inputs: [], name: "", opened: null };
  return withWork(state, work, { messages: messagesAtStart(work, state.text) });
}

// ---- the text at hand

// The recording as it goes on over the text at hand: one of a text of its own is no session of the file then.
/** @param {State} state */
function overText(state) {
  const { work, file } = state, entry = work.opened === null ? null : there(file).entries[work.opened];
  return entry !== null && entry.source !== "" ? { ...work, own: null, opened: null } : { ...work, own: null };
}

// Takes what is typed. The browser's own undo leads back; where little is left of the text, as where another is pasted in its place, so does Put back.
/** @param {State} state */
export function edited(state, text) {
  if (text === state.text) return state;
  return rememberingKeys(isReplaced(state.text, text) ? state : { ...state, text }, { ...state, text, work: overText(state), looked: null, queue: [], ...AFRESH });
}

// Takes another game.
/** @param {State} state */
export function withGame(state, text) {
  const work = workOn(text);
  return withWork(state, work, { ...AFRESH, text, tab: "game", messages: messagesAtStart(work, text) });
}

// Takes the text of the session that is open to hand.
/** @param {State} state */
export function withOwnText(state) {
  const { own } = state.work, why = own === null ? null : whyNoField(own);
  if (why !== null) return { ...state, told: { text: `Its text ${why}, and stays where it is.`, close: null } };
  return own === null ? state : withWork(state, { ...state.work, own: null }, { ...AFRESH, text: own, tab: "game" });
}

// Plays games with a clock without it, or refuses them again.
/** @param {State} state */
export const ticked = (state, isTicked) => rememberingKeys(state, { ...state, ...AFRESH, isTicked, looked: null, queue: [] });

/** @param {State} state */
export const inOrder = (state, order) => rememberingKeys(state, { ...state, ...AFRESH, order, looked: null, queue: [] });

// ---- what is put back

// The number of the session in a file that a recording is one of, or null.
function stillOpened(work, file, text) {
  const entry = work.opened === null ? undefined : file?.entries[work.opened];
  const isOne = entry !== undefined && entry.name === work.name && entry.index === work.index && (entry.source || text) === (work.own ?? text);
  return isOne ? work.opened : null;
}

// Puts back what was lost last.
/** @param {State} state */
export function putBack(state) {
  const last = state.past.at(-1);
  if (last === undefined) return state;
  const { text = state.text, work = state.work, file = state.file, isUnsaved = state.isUnsaved } = last, why = last.file?.whyUnread ?? null;
  const open = { ...work, opened: stillOpened(work, file, text) }, told = why === null ? null : { text: `Not read: ${why}. Saved, the file is as it was.`, close: null };
  return behindAll(state, { ...state, text, work: open, file, isUnsaved, past: state.past.slice(0, -1), looked: null, queue: [], ...AFRESH, told });
}

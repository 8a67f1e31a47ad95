// @ts-check
// Changes of the sessions file in the state of the page: sessions are saved, accepted and removed, another file is opened, or another engine's lines.
import { partingOf } from "./comparing.mjs";
import { plural } from "./elements.mjs";
import { addedTold, toAdd } from "./findings.mjs";
import { MOST_SESSIONS } from "./limits.mjs";
import { isBeginningOf, isSameList, remembering, rememberingKeys } from "./past.mjs";
import { eachInPieces } from "./pieces.mjs";
import { framesOf, isPlayed, sourceOf } from "./replaying.mjs";
import { Refusal, SessionFile, isSolvedWanted } from "./session-file.mjs";
import { isOther, runWithFrames, runsOfNow, sessionOpened } from "./suite.mjs";
import { whyNoField } from "./texts.mjs";
import { there } from "./there.mjs";
import { RECORDED_ORDER } from "./work.mjs";
/** @typedef {import("./session-file.mjs").Entry} Entry */
/** @typedef {import("./state").State} State */

export const RECORDINGS = "recordings.json";
const NAMELESS = "a recording";

// The next state, in which can be put back what it lost. Keys that wait were meant for the text that was played.
/** @param {State} before @param {State} after */
const withNext = (before, after) => (sourceOf(after) === sourceOf(before) ? remembering(before, after) : rememberingKeys(before, { ...after, queue: [] }));

/** @param {State} state */
const withFile = (state, file, more) => withNext(state, { ...state, file, isUnsaved: true, told: null, saved: "", ...more });

// Makes what was seen the recorded level of these sessions.
/** @param {State} state */
export function accepted(state, numbers) {
  if (numbers.length === 0) return state;
  const differenceIn = (number) => there(state.seen.get(number));
  const file = there(state.file).withLevels(numbers.map((number) => [number, differenceIn(number).reached]));
  const isUnsolved = numbers.some((number) => isSolvedWanted(file.entries[number]) && !differenceIn(number).isSolved), demanded = isUnsolved ? "; not all are solved that must be" : "";
  return withFile(state, file, { saved: `${plural(numbers.length, "recorded level")} changed${demanded}` });
}

// Whether what is worked on can be saved: it is played to its end, and no ghost is seen in its place.
/** @param {State} state */
export const isSavable = (state) => !state.ghost && isPlayed(state) && state.played?.cause === null && framesOf(state).length > 0 && state.queue.length === 0;

// The name of what is at hand. That of the session that is open may be empty, and else it has one.
/** @param {State} state */
function nameOf({ file, work: { name, opened } }) {
  return name || (opened !== null && file?.entries[opened]?.name === "" ? "" : NAMELESS);
}

// The number of the session that has the name which is written, or -1. Of several with that name it is the one that is open.
/** @param {State} state */
export function namesakeOf(state) {
  const entries = state.file?.entries ?? [], name = nameOf(state), { opened } = state.work;
  return opened !== null && entries[opened]?.name === name ? opened : entries.findIndex((entry) => entry.name === name);
}

// Saves the recording as a session, in the place of another where one is named. A recording over the text at hand has no text of its own. What can't be saved
// is told.
/** @param {State} state */
export function savedAs(state, number = null) {
  if (!isSavable(state) || state.order !== RECORDED_ORDER) return state;
  try {
    return withSession(state, number);
  } catch (error) {
    if (!(error instanceof Refusal)) throw error;
    return { ...state, saved: `Not saved: ${error.message}.` };
  }
}

/** @param {State} state */
function withSession(state, number) {
  const { own, inputs, index } = state.work, name = number === null ? state.work.name || NAMELESS : nameOf(state), entry = { name, source: own ?? "", inputs, level: there(framesOf(state).at(-1)).level, index };
  const former = state.file ?? SessionFile.empty(RECORDINGS);
  if (number === null && former.entries.length >= MOST_SESSIONS) throw new Refusal(`${former.name} has 65,536 sessions, and with more it wouldn't be read again`);
  const file = number === null ? former.with(entry) : former.withReplaced(number, entry);
  const opened = number ?? file.entries.length - 1;
  const next = withFile({ ...state, work: { ...state.work, opened: null } }, file, { work: { ...state.work, opened }, looked: null });
  const demanded = isSolvedWanted(file.entries[opened]) && !state.played?.isSolved ? " It must be solved, and isn't." : "";
  return { ...next, saved: `Saved in ${file.name} as session ${opened}.${demanded}` };
}

// Whether what is at hand is what was, or goes on with it.
/** @param {State} state */
function isSameAtHand(state, asked) {
  const isSame = state.file === asked.file && sourceOf(state) === sourceOf(asked) && ["index", "name", "opened"].every((it) => state.work[it] === asked.work[it]);
  return isSame && isBeginningOf(asked.work.inputs, state.work.inputs);
}

// Whether the open session is what was to be saved, as where that was asked for twice.
/** @param {State} state */
function isSavedAlready(state, asked) {
  const { opened } = state.work, entry = opened === null ? undefined : state.file?.entries[opened], { index, inputs } = asked.work;
  return entry !== undefined && nameOf(state) === nameOf(asked) && entry.name === nameOf(asked) && entry.index === index && (entry.source || state.text) === sourceOf(asked) && isSameList(entry.inputs, inputs);
}

// Saves the recording as `savedAs` does, where that was asked for in an earlier state, and waited until all was played: not what came to hand meanwhile.
/** @param {State} state */
export function savedLater(state, asked, number) {
  if (isSameAtHand(state, asked)) return savedAs(state, number);
  return isSavedAlready(state, asked) ? state : { ...state, saved: "Not saved: another text, recording or file came meanwhile." };
}

/** @param {State} state */
export function removed(state) {
  const { file, work: { opened } } = state;
  if (file === null || opened === null) return state;
  return withFile(state, file.without(opened), { work: { ...state.work, opened: null }, seen: new Map(), comparison: null, good: null });
}

// Lets the sessions that have another text follow the one at hand.
/** @param {State} state */
export function followed(state) {
  const file = there(state.file), numbers = file.entries.map((_, number) => number).filter((number) => isOther(state, number));
  const { work } = state, isOpenOther = work.opened !== null && numbers.includes(work.opened);
  const next = withFile(state, file.withoutSources(numbers), { seen: new Map(), work: isOpenOther ? { ...work, own: null } : work });
  return { ...next, saved: `${plural(numbers.length, "session")} ${numbers.length === 1 ? "follows" : "follow"} the text on the left` };
}

// Another file takes the place of the one that is open, or none. Where it has one session, that is opened at once, and played while the file is.
/** @param {State} state */
export function withOtherFile(state, file, isUnsaved = false) {
  const work = { ...state.work, opened: null }, own = file === null ? null : theOneText(file);
  const isUntouched = state.text.trim() === "" || state.text === state.example;
  const taken = own !== null && isUntouched && work.own === null ? { text: own } : {};
  const next = { ...state, ...taken, file, work, isUnsaved, suite: null, good: null, seen: new Map(), comparison: null, isHeld: false, isNew: file !== null, tab: "sessions", told: null, saved: "", since: null };
  const taking = withNext(state, next);
  return file?.entries.length === 1 ? sessionOpened(taking, 0) : taking;
}

// Adds recordings that were found in a text: those that aren't there yet. What was skipped beside them is told.
/** @param {State} state @param {Entry[]} recordings @param {object[]} skipped */
export function withRecordings(state, recordings, skipped = []) {
  if (recordings.length > 4 * MOST_SESSIONS) throw new Refusal(`there are ${recordings.length.toLocaleString("en")} recordings: more than 65,536 sessions have no room here`);
  const one = theOneText({ entries: recordings }), isUntouched = state.text.trim() === "" || state.text === state.example;
  const text = state.file === null && isUntouched ? one ?? state.text : state.text, former = state.file ?? SessionFile.empty(RECORDINGS);
  const found = toAdd(recordings, former.entries, text);
  if (former.entries.length + found.added.length > MOST_SESSIONS) throw new Refusal(`with them ${former.name} would have more than 65,536 sessions`);
  const file = former.withAll(found.added), saved = addedTold(found, file.name, skipped);
  if (found.added.length === 0) return { ...state, tab: "sessions", told: null, saved };
  return { ...withFile(state, file, { text, isNew: true, tab: "sessions" }), saved };
}

// The text that all sessions of a file have as their own, or null, also where it isn't put into the field.
function theOneText({ entries }) {
  const source = entries[0]?.source ?? "";
  return source !== "" && entries.every((entry) => entry.source === source) && whyNoField(source) === null ? source : null;
}

// ---- another engine

// Compares how the sessions went with the runs of another engine, in pieces: { name, suite, others, partings }, or null where that was stopped.
/** @type {(state: State, name: string, others: object[], signal: AbortSignal, progress?: (...told: number[]) => void) => Promise<any>} */
export async function comparing(state, name, others, signal, progress) {
  const runs = runsOfNow(state), { file, suite } = state, partings = [];
  if (runs === null) throw new Refusal(`${name} has lines: open and play the sessions file first that they are of`);
  if (others.length !== runs.length) throw new Refusal(`${name} has ${plural(others.length, "session")}, and ${there(file).name} ${runs.length}`);
  const strange = others.findIndex((run, number) => run.name !== runs[number].name);
  if (strange >= 0) throw new Refusal(`session ${strange} has another name in ${name}`);
  const isWhole = await eachInPieces(others, (other) => partings.push(partingOf(runWithFrames(there(suite), partings.length), other)), signal, progress);
  return isWhole ? { name, suite, others, partings } : null;
}

// Takes what a comparison came to, where the sessions still stand as they were compared, and opens the first that diverges.
/** @param {State} state */
export function withComparison(state, { name, suite, others, partings }) {
  if (runsOfNow(state) === null || state.suite !== suite) throw new Refusal(`the sessions of ${state.file?.name ?? "the file"} were changed while ${name} was compared with them`);
  const next = { ...state, comparison: { name, others, partings }, tab: "sessions", told: null }, first = partings.findIndex((it) => it !== null);
  return first < 0 ? next : sessionOpened(next, first);
}

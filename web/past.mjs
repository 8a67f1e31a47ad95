// @ts-check
// What can be put back: texts, recordings, names and sessions files that something else took the place of. The newest stands last.
import { MOST_BYTES_PAST, MOST_PAST } from "./limits.mjs";

/** @typedef {import("./state").State} State */


export const isSameList = (one, other) => one === other || (one.length === other.length && one.every((item, place) => item === other[place]));

// Whether a list is the beginning of another one, or all of it.
export const isBeginningOf = (one, other) => one.length <= other.length && one.every((item, place) => item === other[place]);

// The text that a recording is played over.
const textUnder = (work, text) => work.own ?? text;

// The text over which each thing would come back if all were put back that stand behind it: its own, or else the next one behind it, or else the one at hand.
function textsBelow(past, text) {
  const texts = [];
  for (let place = past.length - 1; place >= 0; place -= 1) texts[place] = past[place].text ?? texts[place + 1] ?? text;
  return texts;
}

// Whether what is lost is a recording that is played over the text at hand, which may be another when it comes back.
const isOverAny = ({ work, text }) => text === undefined && work !== undefined && work.own === null;

// Things that can be put back, each recording with the text that it is played over: as they can be put back anywhere.
function withTexts(past, text) {
  const texts = textsBelow(past, text);
  return past.map((lost, place) => (isOverAny(lost) ? { ...lost, text: texts[place] } : lost));
}

// The same where this text is at hand no more: those that would be played over it still are.
function leavingText(past, text) {
  const last = past.findLastIndex((lost) => lost.text !== undefined || isOverAny(lost));
  return last < 0 || past[last].text !== undefined ? past : past.map((lost, place) => (place === last ? { ...lost, text } : lost));
}

// Whether sessions of a file, played over a text, have these very inputs over this source.
function isAmong(entries, text, source, { index, inputs }) {
  const isOver = text === source; // compared once: thousands of sessions may be played over a text of 1 MiB
  return entries.some((entry) => entry.index === index && isSameList(entry.inputs, inputs) && (entry.source === "" ? isOver : entry.source === source));
}

// How many letters two texts begin with alike, or end with alike.
function alike(one, other, isEnd) {
  const most = Math.min(one.length, other.length), letter = (text, place) => text.charCodeAt(isEnd ? text.length - 1 - place : place);
  let count = 0;
  while (count < most && letter(one, count) === letter(other, count)) count += 1;
  return count;
}

const distinctLinesOf = (text) => new Set(text.split("\n").map((line) => line.trim()).filter((line) => line !== ""));

// Whether an edit leaves less than half of a text, as where all of it is replaced: neither half of its letters at its begin and its end, nor half of its lines.
export function isReplaced(text, by) {
  if (2 * (alike(text, by, false) + alike(text, by, true)) >= text.length) return false;
  const lines = distinctLinesOf(text), left = distinctLinesOf(by);
  return 2 * [...lines].filter((line) => left.has(line)).length < lines.size;
}

/** @param {State} before @param {State} after */
function isTextLost(before, after) {
  if (before.text === after.text || before.text.trim() === "" || before.text === before.example) return false;
  return !after.past.some((it) => it.text === before.text);
}

// Whether a recording is the beginning of another one over the same text, or all of it.
function isWithin({ work, text }, other, textOfOther) {
  return textUnder(work, text) === textUnder(other, textOfOther) && work.index === other.index && isBeginningOf(work.inputs, other.inputs);
}

/** @param {State} before @param {State} after */
function isRecordingLost(before, after) {
  const { work, text } = before;
  if (work.inputs.length === 0 || isWithin(before, after.work, after.text) || isAmong(after.file?.entries ?? [], after.text, textUnder(work, text), work)) return false;
  const texts = textsBelow(after.past, after.text);
  /** @type {(lost: import("./state").Lost, place: number) => boolean} */
  const isIn = ({ work: other, file }, place) => (other !== undefined && isWithin(before, other, texts[place])) || isAmong(file?.entriesAtHand ?? [], texts[place], textUnder(work, text), work);
  return !after.past.some(isIn);
}

function isNameLost({ work: { name } }, after) {
  if (name === "" || name === after.work.name || (after.file?.entries ?? []).some((entry) => entry.name === name)) return false;
  return !after.past.some((it) => it.work?.name === name);
}

// Whether one of some texts isn't among others.
function isOneMissing(texts, others) {
  const there = new Set(others);
  return texts.some((text) => !there.has(text));
}

/** @param {State} before @param {State} after */
function isFileLost(before, after) {
  if (before.file === null || before.file === after.file || !(before.isUnsaved || after.isUnsaved)) return false;
  const isUnread = before.file.whyUnread !== null; // its bytes are all that there is of it
  return (isUnread || isOneMissing(before.file.texts, after.file?.texts ?? [])) && !after.past.some((it) => it.file === before.file);
}

// What of one state isn't there any more in the next: { text, work, file, isUnsaved }, each only where it is lost; null where nothing is.
/** @param {State} before @param {State} after */
export function lostIn(before, after) {
  const isFile = isFileLost(before, after), isWork = isRecordingLost(before, after) || isNameLost(before, after);
  const lost = {
    // a recording comes back with the text that it was made over
    ...(isTextLost(before, after) || (isWork && before.text !== after.text) ? { text: before.text } : {}),
    ...(isWork ? { work: before.work } : {}),
    ...(isFile ? { file: before.file, isUnsaved: before.isUnsaved } : {}),
  };
  return Object.keys(lost).length === 0 ? null : lost;
}

const roomOfWork = ({ own, name, inputs }) => (own?.length ?? 0) + name.length + inputs.length;
/** @param {import("./state").Lost} lost */
const bytesOf = ({ text = "", work, file }) => text.length + (work ? roomOfWork(work) : 0) + (file?.bytes.length ?? 0);

// The last of things that can be put back: as many as there is room for, and one in any case.
export function lastLost(past) {
  let first = past.length;
  for (let bytes = 0; first > 0 && past.length - first < MOST_PAST; first -= 1) {
    bytes += bytesOf(past[first - 1]);
    if (bytes > MOST_BYTES_PAST && first < past.length) break;
  }
  return first === 0 ? past : past.slice(first);
}

// What can be put back in the next state, where that has another text at hand.
/** @param {State} before @param {State} after */
const pastBelow = (before, after) => (before.text === after.text ? after.past : leavingText(after.past, before.text));

// What can be put back, of whose files the bytes stay alone.
function lettingGo(past) {
  past.forEach(({ file }) => file?.forget());
  return past;
}

// The next state, in which can be put back what it lost of the one before.
/** @param {State} before @param {State} after */
export function remembering(before, after) {
  const lost = lostIn(before, after), past = pastBelow(before, after);
  if (lost === null) return past === after.past ? after : { ...after, past };
  return { ...after, past: lettingGo(lastLost([...(lost.text === undefined ? past : after.past), lost])) };
}

// The recordings that a state would have had once the keys that wait were played, each as it was before a key cut it, and the last.
/** @param {State} state */
function recordingsOf({ work, queue }) {
  if (queue.length === 0) return [work.inputs];
  const inputs = [...work.inputs], recordings = [];
  for (const { input, behind } of queue) {
    if (behind !== null && behind < inputs.length) recordings.push([...inputs]);
    if (behind !== null) inputs.length = Math.min(inputs.length, behind);
    inputs.push(input);
  }
  return [...recordings, inputs];
}

// A state with a recording of these inputs.
/** @type {(state: State, inputs: import("./state").Input[]) => State} */
const withInputs = (state, inputs) => ({ ...state, work: { ...state.work, inputs } });

// The next state where keys that wait won't be played: what they would have led to can be put back too, as if they had been.
/** @param {State} before @param {State} after */
export function rememberingKeys(before, after) {
  return recordingsOf(before).reduce((next, inputs) => remembering(withInputs(before, inputs), next), after);
}

// The next state where what is worked on, with keys that wait, takes the place of what is put back: that stands first then, and comes last.
/** @param {State} before @param {State} after */
export function behindAll(before, after) {
  return recordingsOf(before).reduce((next, inputs) => behindThem(withInputs(before, inputs), next), after);
}

/** @param {State} before @param {State} after */
function behindThem(before, after) {
  const lost = lostIn(before, after);
  return lost === null ? after : { ...after, past: lettingGo([...withTexts([lost], before.text), ...lastLost(after.past).slice(1 - MOST_PAST)]) };
}

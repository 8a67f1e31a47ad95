// @ts-check
// A state as it is kept between visits, and back. What is kept has a version; what can't be read is no state.
import { MOST_INPUTS } from "./limits.mjs";
import { lastLost } from "./past.mjs";
import { Refusal, SessionFile } from "./session-file.mjs";
import { beginning } from "./work.mjs";
/** @typedef {import("./state").State} State */

const VERSION = 2;
const ORDERS_OF_CELLS = ["columns", "rows"];

const keptFile = (file) => file && { name: file.name, bytes: file.bytes };

const keptLoss = (lost) => (lost.file ? { ...lost, file: keptFile(lost.file) } : lost);

// What is kept of a state: what was made by hand, and keys that wait. `isBusy` is whether something was played when it was kept.
/** @param {State} state */
export function keptOf({ text, order, work, queue, file, isUnsaved, past, tab, isTicked }, isBusy) {
  return { version: VERSION, kept: Date.now(), text, order, work, queue, file: keptFile(file), isUnsaved, tab, isTicked, isBusy, past: past.map(keptLoss) };
}

class Unreadable extends Error {}

function wanted(isSo) {
  if (!isSo) throw new Unreadable();
}

const isText = (value) => typeof value === "string";
const isWhole = (value) => Number.isSafeInteger(value) && value >= 0;

// Whether a value is a list of such things. It is gone through no further than its first gap: one of gaps alone may have any length.
const isListOf = (value, isOne) => Array.isArray(value) && value.findIndex((one) => !isOne(one)) < 0;

const isKeptInput = (input) => ["undo", "restart", "tick"].includes(input) || (isWhole(input) && input <= 4);

function workFrom({ own, index, inputs, name, opened }, file) {
  wanted((own === null || isText(own)) && isWhole(index) && isText(name) && isListOf(inputs, isKeptInput));
  return { own, index, inputs, name, opened: isWhole(opened) && opened < (file?.entries.length ?? 0) ? opened : null };
}

function queueFrom(queue) {
  const isKey = ({ input, behind, looked }) => isKeptInput(input) && [behind, looked].every((number) => number === null || isWhole(number));
  wanted(isListOf(queue, isKey));
  return queue.slice(0, MOST_INPUTS).map(({ input, behind, looked }) => ({ input, behind, looked }));
}

function fileFrom(value, read = (name, bytes) => new SessionFile(name, bytes)) {
  if (!value) return null;
  wanted(isText(value.name) && value.bytes instanceof Uint8Array);
  return read(value.name, value.bytes);
}

function lostFrom({ text, work, file, isUnsaved }) {
  wanted(text === undefined || isText(text));
  return { ...(isText(text) ? { text } : {}), ...(work ? { work: workFrom(work, null) } : {}), ...(file ? { file: fileFrom(file, SessionFile.kept), isUnsaved: Boolean(isUnsaved) } : {}) };
}

// The file that was open, or where this page can't read it any more what can be put back of it, and what is said of that: { file, lost, told }.
function openOrLost(bytes, isUnsaved) {
  try {
    return { file: fileFrom(bytes), lost: [], told: null };
  } catch (error) {
    if (!(error instanceof Refusal)) throw error;
    const told = { text: `The sessions file that was open isn't read any more: ${error.message}. Put back has it, as it was.`, close: null };
    return { file: null, lost: [{ file: fileFrom(bytes, SessionFile.kept), isUnsaved: Boolean(isUnsaved) }], told };
  }
}

// What a value of the store was kept of, or null where it can't be read.
export function stateFrom(value, example) {
  try {
    const { version, text, order, work, queue = [], file: bytes, isUnsaved, past, tab, isTicked, isBusy } = value;
    wanted(version === VERSION && isText(text) && ORDERS_OF_CELLS.includes(order) && isListOf(past, (lost) => lost !== undefined));
    const { file, lost, told } = openOrLost(bytes, isUnsaved);
    return { ...beginning(example), text, order, work: workFrom(work, file), queue: queueFrom(queue), file, isUnsaved: Boolean(isUnsaved), past: lastLost([...past.map(lostFrom), ...lost]), tab: tab === "sessions" ? tab : "game", isTicked: Boolean(isTicked), isHeld: Boolean(isBusy), told };
  } catch {
    return null;
  }
}

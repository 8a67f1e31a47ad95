// @ts-check
// A sessions file as docs/sessions.md has it: its entries, and its bytes, of which a change leaves all else letter by letter. The twin of
// python/saxtegun/sessions.py.
import { elementsOf } from "../engine/saxtegun.mjs";
import { MOST_BYTES_PLAYED, MOST_INPUTS } from "./limits.mjs";
import { shortened } from "./texts.mjs";
import { there } from "./there.mjs";

/** @typedef {[number, number]} Span */
/** @typedef {{ name: string, source: string, inputs: import("../engine/saxtegun").Session["inputs"], level: string, index: number, rest?: unknown[] }} Entry */

const WORDS = ["undo", "restart", "tick"];
const MOST_INDEX = 2n ** 64n - 1n;
const HALF_A_LETTER = /\p{Surrogate}/u;
const isWhite = (byte) => byte === 0x20 || byte === 0x0a || byte === 0x0d || byte === 0x09;
const QUOTE = 0x22, BACKSLASH = 0x5c;
const IN_A_LIST = { 0x7b: 0x5b, 0x7d: 0x5d, 0x3a: 0x2c }; // what stands in a list where an object has { or } or :

// Why a file has no answer, in a sentence.
export class Refusal extends Error {}

const SHORT_FILE = 131_072; // bytes of one in which sessions are looked for, though it isn't open

const isInput = (value) => WORDS.includes(value) || (Number.isInteger(value) && value >= 0 && value <= 4);

const hasHalfALetter = (text) => HALF_A_LETTER.test(text);

const HALF = "a text of it holds half a letter (a lone surrogate)";
const DEMAND = "solved";
const MOST_ELEMENTS = 10_000; // of an entry and its body, of which five have a meaning, and of the lists and objects behind those
const MOST_DEEP = 127; // lists and objects that stand in one another

// Whether a value is a number that is beyond the largest there is: JSON.parse makes it infinite.
const isInfinite = (value) => value === Infinity || value === -Infinity;

const isHolder = (value) => value !== null && typeof value === "object";

// What there is in an element that the engine ignores: whether a text or a name in it has half a letter, whether one holds the demand, whether a number is
// beyond the largest, how deep its lists and objects go, and how many things they have, each as far as is asked for. Each is listed once: an object with a
// million members takes long.
function contentOf(element, most = MOST_ELEMENTS) {
  const content = { isHalf: false, isDemand: false, isInfinite: isInfinite(element), depth: 0, count: 0 };
  const see = (text) => {
    content.isHalf ||= hasHalfALetter(text);
    content.isDemand ||= text.toLowerCase().includes(DEMAND);
  };
  if (typeof element === "string") see(element);
  for (let level = [element].filter(isHolder); level.length > 0 && content.count <= most && content.depth <= MOST_DEEP; content.depth += 1) {
    const inside = [];
    for (const holder of level) {
      const names = Array.isArray(holder) ? [] : Object.keys(holder), { length } = Array.isArray(holder) ? holder : names;
      content.count += length;
      if (content.count > most) break;
      names.forEach(see);
      for (const value of Array.isArray(holder) ? holder : names.map((name) => holder[name])) {
        if (typeof value === "string") see(value);
        else if (isHolder(value)) inside.push(value);
        else content.isInfinite ||= isInfinite(value);
      }
    }
    level = inside;
  }
  return content;
}

// What of such elements the command's program would not read, or null; `most` is how deep they may be.
function ignoredFault(contents, most) {
  if (contents.some(({ isHalf }) => isHalf)) return HALF;
  if (contents.some((it) => it.isInfinite)) return "a number in it is beyond the largest number";
  return contents.some(({ depth }) => depth > most) ? `its lists and objects are more than ${MOST_DEEP} deep` : null;
}

// How many letters of a word stand in a text in their order.
function lettersInOrder(word, text) {
  let most = Array(word.length + 1).fill(0);
  for (const letter of text) {
    const before = most;
    most = [0];
    for (let place = 0; place < word.length; place += 1) most.push(letter === word[place] ? before[place] + 1 : Math.max(most[place], before[place + 1]));
  }
  return most[word.length];
}

const ALIKE = new Map([[4, 4], [5, 5], [6, 5], [7, 6], [8, 6], [9, 6]]); // a text of so many letters is nearly that word if so many of its letters stand there in their order

// Whether a further element of an entry is meant to demand, and doesn't: another text that is nearly the word or holds it, or a list or an object that holds it.
function isNearlyDemand(value, { isDemand }) {
  if (typeof value !== "string") return isDemand;
  const lower = value.toLowerCase(), letters = lower.length > 18 ? [] : [...lower]; // 9 letters have at most 18 units
  return value !== DEMAND && (isDemand || (ALIKE.has(letters.length) && lettersInOrder(DEMAND, letters) >= there(ALIKE.get(letters.length))));
}

// The bytes of JSON with lists in the place of objects: of members with one name JSON.parse leaves the last.
function withoutObjects(bytes) {
  const made = bytes.slice();
  let isText = false;
  for (let at = 0; at < made.length; at += 1) {
    if (made[at] === QUOTE) isText = !isText;
    else if (isText) at += made[at] === BACKSLASH ? 1 : 0;
    else made[at] = IN_A_LIST[made[at]] ?? made[at];
  }
  return made;
}

// What there is in the elements of a list, of which `whole` has each with all members of its objects.
function contentsOf(elements, whole) {
  return elements.map((element, place) => {
    const content = contentOf(element);
    if (whole === undefined || !isHolder(element)) return content;
    const all = contentOf(whole[place], 2 * MOST_ELEMENTS), { isHalf, isDemand, depth } = all;
    return { isHalf, isDemand, isInfinite: all.isInfinite, depth, count: all.count > 2 * MOST_ELEMENTS ? Infinity : content.count };
  });
}

// What makes elements that are ignored, in a body or behind it, none that may stand there; null where nothing does.
function furtherFault(body, rest, whole) {
  const inBody = contentsOf(body, whole?.[1].slice(4)), behind = contentsOf(rest, whole?.slice(2));
  const count = [...inBody, ...behind].reduce((sum, content) => sum + content.count, body.length + rest.length);
  if (count > MOST_ELEMENTS) return `its lists have more than ${MOST_ELEMENTS.toLocaleString("en")} elements`;
  const ignored = ignoredFault(inBody, MOST_DEEP - 3) ?? ignoredFault(behind, MOST_DEEP - 2);
  if (ignored !== null) return ignored;
  if (body.some((it, place) => it === DEMAND || isNearlyDemand(it, inBody[place]))) return `its second list holds "${DEMAND}" or nearly that, which would demand nothing there: it stands behind that list`;
  const nearly = rest.find((it, place) => isNearlyDemand(it, behind[place]));
  if (nearly === undefined) return null;
  const told = typeof nearly === "string" ? `${JSON.stringify(shortened(nearly))} is nearly` : `that is ${Array.isArray(nearly) ? "a list" : "an object"} holds`;
  return `its further element ${told} "${DEMAND}", and would demand nothing`;
}

const noInputTold = (place) => `its input ${place} is neither 0 to 4 nor undo, restart or tick`;
const NO_INDEX = "its index is no whole number";

// What makes a value no body of a session, a list of its source, inputs, level and index, or null.
/** @type {(body: any[]) => string | null} */
export function bodyFault([source, inputs, level, index = null]) {
  if (typeof source !== "string" || !Array.isArray(inputs) || typeof level !== "string") return "after its name there is no list of a source, a list of inputs and a level text";
  const bad = inputs.findIndex((input) => !isInput(input));
  if (bad >= 0) return noInputTold(bad);
  if (index !== null && !(Number.isInteger(index) && index >= 0 && index <= Number(MOST_INDEX))) return NO_INDEX;
  return [source, level].some(hasHalfALetter) ? HALF : null;
}

// What makes a value no entry of a sessions file, or null. `whole` is the same with lists in the place of objects.
export function faultOf(entry, whole = undefined) {
  if (!Array.isArray(entry) || typeof entry[0] !== "string" || !Array.isArray(entry[1])) return "it is no list of a name and a list";
  const [name, body, ...rest] = entry;
  if (body.length + rest.length > MOST_ELEMENTS) return `its lists have more than ${MOST_ELEMENTS.toLocaleString("en")} elements`;
  return bodyFault(body) ?? (hasHalfALetter(name) ? HALF : null) ?? furtherFault(body.slice(4), rest, whole);
}

// A span of bytes without the white space around it.
/** @type {(bytes: Uint8Array, span: Span) => Span} */
function tight(bytes, [begin, end]) {
  let [first, last] = [begin, end];
  while (first < last && isWhite(bytes[first])) first += 1;
  while (first < last && isWhite(bytes[last - 1])) last -= 1;
  return [first, last];
}

// Where the elements of the list stand that a span of bytes is, or the first of them.
/** @type {(bytes: Uint8Array, span: Span, most?: number) => Span[]} */
const spansIn = (bytes, [begin, end], most = Infinity) => there(elementsOf(bytes.subarray(begin, end), most)).map(([one, other]) => tight(bytes, [begin + one, begin + other]));

// Where the body of an entry stands.
/** @type {(bytes: Uint8Array, span: Span) => Span} */
const bodyIn = (bytes, span) => spansIn(bytes, span, 2)[1];

// The bytes with others in the place of some spans, [[span, piece]] in their order.
/** @type {(bytes: Uint8Array, changes: [Span, Uint8Array][]) => Uint8Array} */
function spliced(bytes, changes) {
  const whole = new Uint8Array(changes.reduce((size, [[begin, end], piece]) => size + piece.length - (end - begin), bytes.length));
  let from = 0, to = 0;
  const add = (piece) => {
    whole.set(piece, to);
    to += piece.length;
  };
  for (const [[begin, end], piece] of changes) {
    add(bytes.subarray(from, begin));
    add(piece);
    from = end;
  }
  add(bytes.subarray(from));
  return whole;
}

// What stands behind the body of an entry, such as that it must be solved; nothing where nothing does.
export const restOf = (entry) => (entry.length > 2 ? { rest: entry.slice(2) } : {});

// Whether a session must be solved, as its file says.
export const isSolvedWanted = ({ rest = [] }) => rest.includes(DEMAND);

const encoded = (value) => new TextEncoder().encode(JSON.stringify(value));

const MINUS = 0x2d, POINT = 0x2e;
const isDigit = (byte) => byte >= 0x30 && byte <= 0x39;

// Whether a number in bytes of JSON may be written otherwise than as digits: JSON.parse leaves of 3.0 and 2.99999999999999999999 what it leaves of 3.
function hasOddNumbers(bytes) {
  let isText = false;
  for (let at = 0; at < bytes.length; at += 1) {
    const byte = bytes[at];
    if (byte === QUOTE) isText = !isText;
    else if (isText) at += byte === BACKSLASH ? 1 : 0;
    else if (byte === MINUS || byte === POINT || ((byte === 0x65 || byte === 0x45) && isDigit(bytes[at - 1]))) return true;
  }
  return false;
}

const isLongIndex = (entry) => entry?.[1]?.[3] > Number.MAX_SAFE_INTEGER;

// What of the inputs and the index of an entry isn't written as digits, as the engine wants it, or null.
/** @type {(bytes: Uint8Array, span: Span, count: number) => string | null} */
function writingFault(bytes, span, count) {
  if (count > MOST_INPUTS) return null; // the engine refuses it, and a place of each would take gigabytes
  const [, inputs, , index] = spansIn(bytes, bodyIn(bytes, span), 4), bad = spansIn(bytes, inputs).findIndex(([begin, end]) => bytes[begin] !== QUOTE && end - begin > 1);
  if (bad >= 0) return noInputTold(bad);
  const written = index === undefined ? "null" : new TextDecoder().decode(bytes.subarray(...index));
  return written === "null" || (/^[0-9]{1,20}$/.test(written) && BigInt(written) <= MOST_INDEX) ? null : NO_INDEX;
}

function entryOf(value, number, whole) {
  const fault = faultOf(value, whole);
  if (fault !== null) throw new Refusal(`session ${number}: ${fault}`);
  const [name, [source, inputs, level, index]] = value;
  return { name, source, inputs, level, index: Math.min(index ?? 0, Number.MAX_SAFE_INTEGER), ...restOf(value) };
}

// The text of bytes, or a refusal where they are none.
export function textOf(bytes, name, coding = "utf-8") {
  try {
    return new TextDecoder(coding, { fatal: true, ignoreBOM: true }).decode(bytes);
  } catch {
    throw new Refusal(`${name} is no text in ${coding.toUpperCase()}`);
  }
}

// How bytes are written that another program has saved: in UTF-8, or in UTF-16, which begins with a mark or has every other byte 0.
export function codingOf([first, second]) {
  if ((first === 0xff && second === 0xfe) || second === 0) return "utf-16le";
  return (first === 0xfe && second === 0xff) || first === 0 ? "utf-16be" : "utf-8";
}

const sizeOf = (text) => new TextEncoder().encode(text).length;

// The texts of games as the engine gets them, each made once.
class PlayedTexts {
  constructor(game, played) {
    this.played = played;
    this.known = new Map();
    this.game = this.of(game);
  }

  // A text as it is played: { isSame, json, size }, where `isSame` is whether it stays as it is.
  of(source) {
    if (!this.known.has(source)) {
      const text = this.played(source), json = JSON.stringify(text);
      this.known.set(source, { isSame: text === source, json, size: sizeOf(json) });
    }
    return this.known.get(source);
  }

  // The text over which an entry is played, which is the game's where it has none.
  under(source) {
    return source === "" ? this.game : this.of(source);
  }

  // What a file has of an entry, before its text, that, and behind it.
  /** @type {(entry: Entry) => string[]} */
  piecesOf({ name, source, inputs, level, index }) {
    return [`[${JSON.stringify(name)},[`, this.under(source).json, `,${JSON.stringify([inputs, level, index]).slice(1)}]`];
  }

  // The bytes of these pieces, with the comma behind them.
  /** @type {(entry: Entry, pieces: string[]) => number} */
  sizeOf({ source }, [before, , behind]) {
    return sizeOf(before) + this.under(source).size + sizeOf(behind) + 1;
  }
}

// Consecutive sessions as a file of their own, from a number on.
class Part {
  constructor(first) {
    this.first = first;
    this.sessions = [];
  }

  take(pieces) {
    this.sessions.push(pieces);
  }

  get bytes() {
    return new TextEncoder().encode(`[${this.sessions.map((pieces) => pieces.join("")).join(",")}]`);
  }
}

// Whether an entry has lists or objects that the engine ignores.
const hasIgnored = (entry) => Array.isArray(entry) && [...entry.slice(2), ...(Array.isArray(entry[1]) ? entry[1].slice(4) : [])].some(isHolder);

// The entries of a file.
/** @type {(name: string, bytes: Uint8Array) => Entry[]} */
export function sessionsIn(name, bytes) {
  let values = null;
  try {
    values = JSON.parse(textOf(bytes, name));
  } catch (error) {
    if (error instanceof Refusal) throw error;
    throw new Refusal(`${name} is no JSON list of sessions: ${error.message}`);
  }
  if (!Array.isArray(values)) throw new Refusal(`${name} is no JSON list of sessions`);
  const whole = values.some(hasIgnored) ? JSON.parse(textOf(withoutObjects(bytes), name)) : [];
  try {
    const entries = values.map((value, number) => entryOf(value, number, whole[number])), isOdd = hasOddNumbers(bytes), spans = isOdd || values.some(isLongIndex) ? spansIn(bytes, [0, bytes.length]) : [];
    const faults = spans.map((span, number) => (isOdd || isLongIndex(values[number]) ? writingFault(bytes, span, entries[number].inputs.length) : null)), bad = faults.findIndex((fault) => fault !== null);
    if (bad >= 0) throw new Refusal(`session ${bad}: ${faults[bad]}`);
    return entries;
  } catch (error) {
    throw error instanceof Refusal ? new Refusal(`${name}, ${error.message}`) : error;
  }
}

// The same, or none where they can't be read, and why not: { entries, why }.
function sessionsOrWhy(name, bytes) {
  try {
    return { entries: sessionsIn(name, bytes), why: null };
  } catch (error) {
    if (error instanceof Refusal) return { entries: [], why: error.message };
    throw error;
  }
}

export class SessionFile {
  /** @param {string} name @param {Uint8Array} bytes @param {Entry[] | null} entries */
  constructor(name, bytes, entries = sessionsIn(name, bytes)) {
    this.name = name;
    this.bytes = bytes;
    this.read = entries;
    this.why = null; // none were read, where that is so
    this.counted = null; // how many there are, where they were read and let go
    this.places = null; // where they stand, once that was asked for
  }

  // A file that was kept, which is read once its sessions are asked for: many may have been. It has none where they can't be read.
  static kept(name, bytes) {
    return new SessionFile(name, bytes, null);
  }

  get entries() {
    if (this.read === null) ({ entries: this.read, why: this.why } = sessionsOrWhy(this.name, this.bytes));
    return this.read;
  }

  // Why its sessions can't be read, or null. The engine may play such a file: what it says then is nothing of what is shown.
  get whyUnread() {
    if (this.counted === null) void this.entries;
    return this.why;
  }

  // Those that are read, or soon are.
  get entriesAtHand() {
    return this.bytes.length <= SHORT_FILE ? this.entries : this.read ?? [];
  }

  // The sessions as they are written.
  get texts() {
    const reading = new TextDecoder();
    return this.entries.length === 0 ? [] : this.spans().map(([begin, end]) => reading.decode(this.bytes.subarray(begin, end)));
  }

  // How many sessions it has.
  get count() {
    return this.counted ?? this.entries.length;
  }

  // Lets go what was read of a long file: it may take thirty times its bytes.
  forget() {
    if (this.read === null || this.bytes.length <= SHORT_FILE) return;
    this.counted = this.read.length;
    this.read = null;
    this.places = null;
  }

  static empty(name) {
    return new SessionFile(name, new TextEncoder().encode("[\n]\n"));
  }

  // The sessions that are played over the text of a game, since they have the empty text as their own.
  get isOverAGame() {
    return this.entries.some((entry) => entry.source === "");
  }

  // The file as it is played, with a game's text in the place of empty ones, and each text as the engine gets it: as few files as the engine takes,
  // [{ first, bytes }] with the number of the first session in each. The bytes are made once they are asked for, since a text may be that of many sessions.
  partsOver(game, played = (source) => source) {
    const texts = new PlayedTexts(game, played), parts = [];
    if (this.entries.every(({ source }) => source !== "" && texts.of(source).isSame)) return [{ first: 0, bytes: this.bytes }];
    let size = Infinity;
    this.entries.forEach((entry, number) => {
      const pieces = texts.piecesOf(entry), length = texts.sizeOf(entry, pieces);
      if (size + length > MOST_BYTES_PLAYED) {
        parts.push(new Part(number));
        size = 2;
      }
      parts.at(-1).take(pieces);
      size += length;
    });
    return parts;
  }

  // Where the text of each session stands.
  sourceSpans() {
    return this.spans().map((span) => spansIn(this.bytes, bodyIn(this.bytes, span), 1)[0]);
  }

  spans() {
    this.places ??= spansIn(this.bytes, [0, this.bytes.length]);
    return this.places;
  }

  changedBy(span, piece) {
    return new SessionFile(this.name, spliced(this.bytes, [[span, piece]]));
  }

  // The file with other recorded levels, [[number, level]].
  withLevels(changes) {
    return this.withParts(2, changes);
  }

  // The file where these sessions have the empty text as their own.
  withoutSources(numbers) {
    return this.withParts(0, numbers.map((number) => [number, ""]));
  }

  // The file with another value at a place of the lists of some sessions, [[number, value]].
  withParts(place, changes) {
    const spans = this.spans(), sorted = [...changes].sort(([one], [other]) => one - other);
    const at = ([number]) => spansIn(this.bytes, bodyIn(this.bytes, spans[number]), place + 1)[place];
    return new SessionFile(this.name, spliced(this.bytes, sorted.map((change) => [at(change), encoded(change[1])])));
  }

  // The file with one more session at its end.
  with(entry) {
    return this.withAll([entry]);
  }

  // The file with more sessions at its end.
  withAll(entries) {
    const spans = this.spans(), text = entries.map((entry) => JSON.stringify(valueOf(entry))).join(",\n");
    if (entries.length === 0) return this;
    if (spans.length === 0) return new SessionFile(this.name, new TextEncoder().encode(`[\n${text}\n]\n`));
    const end = there(spans.at(-1))[1];
    return this.changedBy([end, end], new TextEncoder().encode(`,\n${text}`));
  }

  // The file with a session in the place of another. What stands behind the other's body stays, such as that it must be solved.
  withReplaced(number, entry) {
    const span = this.spans()[number], more = spansIn(this.bytes, span).slice(2).map(([begin, end]) => `,${new TextDecoder().decode(this.bytes.subarray(begin, end))}`);
    return this.changedBy(span, new TextEncoder().encode(`${JSON.stringify(valueOf(entry)).slice(0, -1)}${more.join("")}]`));
  }

  without(number) {
    const spans = this.spans();
    if (spans.length === 1) return SessionFile.empty(this.name);
    const span = number === 0 ? [spans[0][0], spans[1][0]] : [spans[number - 1][1], spans[number][1]];
    return this.changedBy(span, new Uint8Array(0));
  }
}

// An entry as a sessions file has it.
/** @type {(entry: Entry) => unknown[]} */
export const valueOf = ({ name, source, inputs, level, index, rest = [] }) => [name, [source, inputs, level, index], ...rest];

const REFUSALS = {
  "too-many": "it has more than 16 MiB or 65,536 sessions",
  "not-json": "it is no JSON list",
  "bad-entry": "session {number} is no entry of a name, a source, inputs and a level",
  "bad-level": "the recorded level of session {number} is no level text",
  memory: "there is not enough memory",
  "long-lines": "its lines have more than 512 MiB, or those of a session 256, or than there is memory for: play it by the command, or part by part",
  broken: "the engine stopped at a fault of its own",
  "long-level": "a level's text has more than 1,048,576 letters, which the page doesn't draw",
  "no-solutions": "the engine of this page is an older one, which solves no levels",
};

// A fault of the engine in words.
export function refusalTold(fault) {
  const [word, number] = fault.split(" ");
  return Object.hasOwn(REFUSALS, word) ? REFUSALS[word].replace("{number}", number) : fault;
}

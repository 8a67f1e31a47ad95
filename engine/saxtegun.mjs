// @ts-check
// The engine of Saxtegun for Node 20 and later and for browsers: from the text of a sessions file to the lines of its recording. docs/engine.md tells how
// it is used, and saxtegun.d.ts what each function takes and gives.

/** @typedef {import("./saxtegun").Answer} Answer */
/** @typedef {string | ArrayBuffer | ArrayBufferView} Content */
/** @typedef {{ at: number, size: number }} Room */
/** @typedef {{ memory: WebAssembly.Memory, take_room(size: number): number, give_back_room(at: number): void } & Record<`saxtegun_${string}`, (...words: (number | bigint)[]) => bigint>} Exports */
/** @typedef {(exports: Exports, input: Room, room: Room, outcome: number) => bigint} Call */
/** @typedef {(exports: Exports, held: number, input: Room, room: Room, outcome: number) => bigint | number} OpenCall */
/** @typedef {{ file: Uint8Array, first: number, sessions: number }} Part */

// The kinds of faults by their numbers, and the orders of the cells of a level.
const FAULTS = ["", "memory", "not-json", "bad-entry", "bad-level", "too-many", "not-open", "too-many-inputs", "too-few-inputs"];
const ORDERS = { rows: 0, columns: 1 };

const MOST_BYTES = 16_777_216;
const MOST_SESSIONS = 65_536;
const MIB = 1_048_576;
// The room for lines. What isn't written of it takes no memory but addresses; where lines are longer, the file is played again.
const ROOM = 256 * MIB - 16;
const LEAST_ROOM = MIB;
// The bytes from which on the memory of an instance, which never shrinks, is given back after a call.
const LARGE = 1024 * MIB;
// The bytes of lines of which frames or stages are made; those of more would take a page's memory.
const MOST_OF_FRAMES = 512 * MIB;
const OUTCOME_BYTES = 24;
// The bytes of the place that holds an instance's open sessions, all zero at first.
const HELD_BYTES = 24;
// The inputs that are no presses, and the bytes by which an open session is given them.
/** @type {Map<unknown, number>} */
const WORDS = new Map([["undo", 5], ["restart", 6], ["tick", 7]]);
const MOST_WORKERS = 64;
const PARTS_OF_A_WORKER = 8;
const WORKER = "saxtegun-worker";
// exports that older modules don't have
const STAGES = "saxtegun_stages", FIRINGS = "saxtegun_firings", DESCRIPTION = "saxtegun_description", OUTLINE = "saxtegun_outline",
  LEVEL_DESCRIPTION = "saxtegun_level_description", FILE_DESCRIPTION = "saxtegun_file_description", OPEN = "saxtegun_open", SOLUTIONS = "saxtegun_solutions";
const MOST_NUMBER = 0xffff_ffff; // that the module is told; no file has so many sessions or inputs, and no memory so many levels
const MOST_LEVELS = 1_000_000, MOST_KEPT_BYTES = 2 ** 27; // that a search keeps where no bound is named

const isNode = typeof process === "object" && typeof process.versions?.node === "string";

/** @type {(fault: string) => Answer} */
function refused(fault) {
  return { status: 2, passed: false, lines: new Uint8Array(0), fault };
}

// As many workers as leave the page a processor.
function idleProcessors() {
  return Math.min(MOST_WORKERS, Math.max(1, (globalThis.navigator?.hardwareConcurrency ?? 4) - 1));
}

// What is said of a call that did not come back.
function faultOf(error) {
  const isTooLong = error instanceof RangeError || error?.code === "ERR_STRING_TOO_LONG" || error?.name === "InternalError";
  return isTooLong ? "memory" : "broken";
}

// The bytes of a text, no more than tell that they are too many; null where it is no text, since it has half of a surrogate pair.
/** @type {(text: Content) => Uint8Array | null} */
function bytesOf(text) {
  if (typeof text === "string") return /\p{Surrogate}/u.test(text) ? null : new TextEncoder().encode(text).subarray(0, MOST_BYTES + 1);
  // also one of another frame
  if (Object.prototype.toString.call(text) === "[object ArrayBuffer]") return new Uint8Array(/** @type {ArrayBuffer} */ (text)).subarray(0, MOST_BYTES + 1);
  if (ArrayBuffer.isView(text)) return new Uint8Array(text.buffer, text.byteOffset, Math.min(text.byteLength, MOST_BYTES + 1));
  throw new TypeError("a sessions file, and a source, is a string or bytes");
}

function numberOf(order) {
  if (!Object.hasOwn(ORDERS, order)) throw new TypeError('the order is "rows" or "columns"');
  return ORDERS[order];
}

// The number of an input, as the module is told it.
function inputOf(from) {
  if (!Number.isSafeInteger(from) || from < 0) throw new TypeError("inputs are numbered from 0");
  return BigInt(from);
}

// The number of a session, or of an input whose stages are wanted, as the module is told it.
function smallNumberOf(number) {
  if (!Number.isSafeInteger(number) || number < 0) throw new TypeError("sessions and inputs are numbered from 0");
  return Math.min(number, MOST_NUMBER);
}

// A bound of a search, as the module is told it.
function boundOf(number) {
  if (!Number.isSafeInteger(number) || number < 0) throw new TypeError("levels and bytes are bounded by a whole number from 0 on");
  return Math.min(number, MOST_NUMBER);
}

// The bytes of inputs, each a number from 0 to 4 or a word.
function bytesOfInputs(inputs) {
  return Uint8Array.from(inputs, (input) => {
    const byte = Number.isInteger(input) && input >= 0 && input <= 4 ? input : WORDS.get(input);
    if (byte === undefined) throw new TypeError('an input is a number from 0 to 4, "undo", "restart" or "tick"');
    return byte;
  });
}

/** @type {(session: import("./saxtegun").Session) => string} */
const fileOfOne = ({ source, inputs, level = "", index = 0 }) => JSON.stringify([["", [source, inputs, level, index]]]);

// An instance of the module, with the room into which it writes lines.
class Instance {
  /** @type {Exports} */
  #exports;
  #room = { at: 0, size: 0 };
  /** @type {Room | null} */
  #held = null;

  // With room for so many bytes of lines, where fewer than usual are wanted at most.
  constructor(module, most = ROOM) {
    this.#exports = /** @type {Exports} */ (new WebAssembly.Instance(module).exports);
    for (let size = Math.max(LEAST_ROOM, Math.min(ROOM, most)); size >= LEAST_ROOM && !this.#room.at; size = size / 2 - 8) this.#room = this.#take(size);
  }

  isLarge() {
    return this.#exports.memory.buffer.byteLength >= LARGE;
  }

  // Room of this many bytes; at 0, where there is none.
  /** @type {(size: number) => Room} */
  #take(size) {
    return { at: this.#exports.take_room(size) >>> 0, size };
  }

  // Asks a function of the module about a file or a source, once again where the room was too small for the lines, unless these are more than so many bytes.
  /** @type {(file: Uint8Array, call: Call, most: number) => Answer & { size?: number }} */
  ask(file, call, most) {
    const input = this.#take(file.length);
    const outcome = this.#take(OUTCOME_BYTES);
    if (!input.at || !outcome.at || !this.#room.at) return refused("memory");
    new Uint8Array(this.#exports.memory.buffer, input.at, input.size).set(file);
    const asked = () => Number(call(this.#exports, input, this.#room, outcome.at));
    let count = asked();
    if (count > most) return { ...refused("memory"), size: count };
    if (count > this.#room.size) {
      this.#exports.give_back_room(this.#room.at);
      this.#room = this.#take(count);
      if (!this.#room.at) return refused("memory");
      count = asked();
    }
    const answer = this.#answer(outcome.at, count);
    this.#exports.give_back_room(input.at);
    this.#exports.give_back_room(outcome.at);
    return answer;
  }

  // Calls a function that opens or moves a session: { number, lines, fault }. Lines for which the room was too small are asked for once more, by giving
  // the session no inputs.
  /** @type {(bytes: Uint8Array, call: OpenCall) => { number: number, lines: Uint8Array, fault: string | null }} */
  askOpen(bytes, call) {
    this.#held ??= this.#takeZeros(HELD_BYTES);
    const input = this.#take(bytes.length), outcome = this.#take(OUTCOME_BYTES);
    if (!input.at || !outcome.at || !this.#held.at || !this.#room.at) throw new RangeError("no room for a call");
    new Uint8Array(this.#exports.memory.buffer, input.at, input.size).set(bytes);
    let count = Number(call(this.#exports, this.#held.at, input, this.#room, outcome.at));
    const { entry } = this.#said(outcome.at);
    if (count > this.#room.size) {
      this.#exports.give_back_room(this.#room.at);
      this.#room = this.#take(count);
      if (!this.#room.at) throw new RangeError("no room for lines");
      count = Number(this.#exports.saxtegun_give(this.#held.at, entry, input.at, 0n, this.#room.at, BigInt(this.#room.size), outcome.at));
    }
    const { lines, fault } = this.#answer(outcome.at, count);
    this.#exports.give_back_room(input.at);
    this.#exports.give_back_room(outcome.at);
    return { number: entry, lines, fault };
  }

  close(number) {
    if (this.#held !== null) this.#exports.saxtegun_close(this.#held.at, number);
  }

  #takeZeros(size) {
    const room = this.#take(size);
    if (room.at) new Uint8Array(this.#exports.memory.buffer, room.at, size).fill(0);
    return room;
  }

  // What an outcome says.
  #said(outcome) {
    const words = new DataView(this.#exports.memory.buffer, outcome, OUTCOME_BYTES);
    const [status, kind, entry] = [0, 8, 16].map((at) => Number(words.getBigUint64(at, true)));
    return { status, kind, entry };
  }

  // What a call has left in the memory.
  /** @type {(outcome: number, count: number) => Answer} */
  #answer(outcome, count) {
    const { status, kind, entry } = this.#said(outcome);
    if (status === 2) {
      const fault = FAULTS[kind];
      return refused(fault.startsWith("bad-") ? `${fault} ${entry}` : fault);
    }
    if (status > 2 || count > this.#room.size) throw new Error("the module breaks its word");
    const lines = new Uint8Array(this.#exports.memory.buffer, this.#room.at, count).slice();
    return { status: status === 0 ? 0 : 1, passed: status === 0, lines, fault: null };
  }
}

// The open sessions of one instance, which is made for the first. Where a call does not come back, or its lines are too long to be read, none of them is
// open any more.
class Shelf {
  #module;
  /** @type {Instance | null} */
  #instance = null;
  #isBroken = false;

  constructor(module) {
    this.#module = module;
  }

  get isBroken() {
    return this.#isBroken;
  }

  // What a call answers: { number, frames, close, fault }.
  /** @type {(bytes: Uint8Array, call: OpenCall) => import("./saxtegun").Moved & { number: number }} */
  ask(bytes, call) {
    if (this.isBroken) return { number: -1, frames: [], close: null, fault: "broken" };
    try {
      this.#instance ??= new Instance(this.#module);
      const { number, lines, fault } = this.#instance.askOpen(bytes, call), told = framesOf({ lines, fault });
      return told.fault === fault ? { number, ...told } : this.#end(told.fault);
    } catch (error) {
      return this.#end(faultOf(error));
    }
  }

  // Leaves the instance, whose sessions may have gone on without anyone being told.
  /** @type {(fault: string | null) => import("./saxtegun").Moved & { number: number }} */
  #end(fault) {
    this.#instance = null;
    this.#isBroken = true;
    return { number: -1, frames: [], close: null, fault };
  }

  close(number) {
    this.#instance?.close(number);
  }
}

const NO_BYTES = new Uint8Array(0);

// A session that is kept open. It has the inputs that it was given; a call with a fault leaves it as it was, but that `broken` closes it.
class OpenSession {
  #shelf;
  #number;
  #inputs;

  constructor(shelf, number, inputs = []) {
    this.#shelf = shelf;
    this.#number = number;
    this.#inputs = inputs;
  }

  get inputs() {
    return [...this.#inputs];
  }

  get isOpen() {
    return this.#number !== null && !this.#shelf.isBroken;
  }

  /** @type {import("./saxtegun").OpenSession["give"]} */
  give(inputs) {
    const given = [...inputs], bytes = bytesOfInputs(given);
    const answer = this.#ask(bytes, (exports, held, input, room, outcome) =>
      exports.saxtegun_give(held, this.#number, input.at, BigInt(input.size), room.at, BigInt(room.size), outcome));
    if (answer.fault === null) this.#inputs = this.#inputs.concat(given);
    return answer;
  }

  /** @type {import("./saxtegun").OpenSession["back"]} */
  back(count) {
    const stay = smallNumberOf(count);
    const answer = this.#ask(NO_BYTES, (exports, held, _, room, outcome) =>
      exports.saxtegun_back(held, this.#number, stay, room.at, BigInt(room.size), outcome));
    if (answer.fault === null) this.#inputs = this.#inputs.slice(0, count);
    return answer;
  }

  /** @type {import("./saxtegun").OpenSession["copy"]} */
  copy() {
    const { number, fault } = this.#asked(NO_BYTES, (exports, held, _, room, outcome) => {
      exports.saxtegun_copy(held, this.#number, outcome);
      return 0;
    });
    return { session: fault === null ? new OpenSession(this.#shelf, number, this.#inputs) : null, fault };
  }

  close() {
    if (this.isOpen) this.#shelf.close(this.#number);
    this.#number = null;
  }

  /** @type {(bytes: Uint8Array, call: OpenCall) => import("./saxtegun").Moved & { number: number }} */
  #asked(bytes, call) {
    return this.#number === null ? { number: -1, frames: [], close: null, fault: "not-open" } : this.#shelf.ask(bytes, call);
  }

  /** @type {(bytes: Uint8Array, call: OpenCall) => import("./saxtegun").Moved} */
  #ask(bytes, call) {
    const { frames, close, fault } = this.#asked(bytes, call);
    return { frames, close, fault };
  }
}

// The engine in the thread that calls it. An instance whose call did not come back is never called again.
class Engine {
  #module;
  #worker;
  /** @type {Instance | null} */
  #instance = null;
  /** @type {Shelf | null} */
  #shelf = null;

  constructor(module, worker) {
    this.#module = module;
    this.#worker = worker;
  }

  /** @param {Content} text @param {import("./saxtegun").PlayOptions} options */
  replay(text, { order = "columns", most = Infinity } = {}) {
    const number = numberOf(order);
    return this.#ask(text, (exports, input, room, outcome) =>
      exports.saxtegun_lines(input.at, BigInt(input.size), number, room.at, BigInt(room.size), outcome), most);
  }

  /** @param {import("./saxtegun").Session} session @param {import("./saxtegun").Options & { from?: number }} options */
  frames(session, { order = "columns", from = 0 } = {}) {
    const number = numberOf(order), first = inputOf(from);
    return framesOf(this.#ask(fileOfOne(session), (exports, input, room, outcome) =>
      exports.saxtegun_frames(input.at, BigInt(input.size), number, first, room.at, BigInt(room.size), outcome)));
  }

  get hasOpenSessions() {
    return this.#has(OPEN);
  }

  /** @param {import("./saxtegun").Session} session @param {import("./saxtegun").Options} options */
  open(session, { order = "columns" } = {}) {
    const { source, level, index } = session, inputs = [...session.inputs];
    const number = numberOf(order), file = bytesOf(fileOfOne({ source, inputs: [], level, index }));
    bytesOfInputs(inputs); // a wrong one is told before anything is open
    if (!this.#has(OPEN)) return notOpened("no-open-sessions");
    if (file === null) return notOpened("not-json");
    if (this.#shelf === null || this.#shelf.isBroken) this.#shelf = new Shelf(this.#module);
    const shelf = this.#shelf, opened = shelf.ask(file, (exports, held, input, room, outcome) =>
      exports.saxtegun_open(held, input.at, BigInt(input.size), number, 0, room.at, BigInt(room.size), outcome));
    if (opened.fault !== null || opened.close?.close === "refused") return { ...notOpened(opened.fault), close: opened.close };
    const its = new OpenSession(shelf, opened.number);
    if (inputs.length === 0) return { session: its, frames: opened.frames, close: opened.close, fault: null };
    const given = its.give(inputs);
    if (given.fault !== null) its.close();
    return { ...given, session: given.fault === null ? its : null };
  }

  #has(asked) {
    return WebAssembly.Module.exports(this.#module).some(({ name }) => name === asked);
  }

  get hasStages() {
    return this.#has(STAGES);
  }

  get hasFirings() {
    return this.#has(FIRINGS);
  }

  /** @param {Content} text @param {number} session @param {number} input @param {import("./saxtegun").StageOptions} options */
  stagesOf(text, session, input, { order = "columns", firings = false } = {}) {
    const number = numberOf(order), [of, at] = [session, input].map(smallNumberOf), asked = firings ? FIRINGS : STAGES;
    if (!this.#has(asked)) return refused("no-stages");
    return this.#ask(text, (exports, file, room, outcome) => exports[asked](file.at, BigInt(file.size), number, of, at, room.at, BigInt(room.size), outcome));
  }

  /** @type {import("./saxtegun").Engine["stages"]} */
  stages(session, input, options) {
    return valuesOf("stages", this.stagesOf(fileOfOne(session), 0, input, options));
  }

  get hasDescriptions() {
    return this.#has(DESCRIPTION);
  }

  /** @type {import("./saxtegun").Engine["descriptionOf"]} */
  descriptionOf(source) {
    return this.#describe(DESCRIPTION, source);
  }

  /** @type {import("./saxtegun").Engine["description"]} */
  description(source) {
    return valueOf("description", this.descriptionOf(source));
  }

  /** @type {import("./saxtegun").Engine["outlineOf"]} */
  outlineOf(source) {
    return this.#describe(this.#has(OUTLINE) ? OUTLINE : DESCRIPTION, source);
  }

  /** @type {import("./saxtegun").Engine["outline"]} */
  outline(source) {
    return valueOf("description", this.outlineOf(source));
  }

  /** @type {import("./saxtegun").Engine["levelDescriptionOf"]} */
  levelDescriptionOf(level) {
    return this.#describe(LEVEL_DESCRIPTION, level);
  }

  /** @type {import("./saxtegun").Engine["levelDescription"]} */
  levelDescription(level) {
    return valueOf("description", this.levelDescriptionOf(level));
  }

  /** @type {import("./saxtegun").Engine["fileDescriptionOf"]} */
  fileDescriptionOf(text) {
    return this.#describe(FILE_DESCRIPTION, text);
  }

  /** @type {import("./saxtegun").Engine["fileDescription"]} */
  fileDescription(text) {
    return valueOf("description", this.fileDescriptionOf(text));
  }

  /** @type {(asked: `saxtegun_${string}`, text: Content) => Answer} */
  #describe(asked, text) {
    if (!this.#has(asked)) return refused("no-descriptions");
    if ((bytesOf(text)?.length ?? 0) > MOST_BYTES) return refused("too-many");
    return this.#ask(text, (exports, input, room, outcome) => exports[asked](input.at, BigInt(input.size), room.at, BigInt(room.size), outcome));
  }

  get hasSolutions() {
    return this.#has(SOLUTIONS);
  }

  /** @param {Content} text @param {import("./saxtegun").SearchOptions} options */
  solutionsOf(text, { levels = MOST_LEVELS, bytes = MOST_KEPT_BYTES } = {}) {
    const bounds = [levels, bytes].map(boundOf);
    if (!this.#has(SOLUTIONS)) return refused("no-solutions");
    return this.#ask(text, (exports, file, room, outcome) => exports[SOLUTIONS](file.at, BigInt(file.size), ...bounds, room.at, BigInt(room.size), outcome));
  }

  /** @type {import("./saxtegun").Engine["solution"]} */
  solution(session, options) {
    const { answer, fault } = valueOf("answer", this.solutionsOf(fileOfOne(session), options));
    return { solution: answer?.solution ?? null, fault };
  }

  /** @param {Content} text @param {import("./saxtegun").WorkerOptions} options */
  async replayInWorkers(text, { order = "columns", workers = idleProcessors(), progress = () => {}, signal, most = Infinity } = {}) {
    numberOf(order);
    if (!Number.isInteger(workers) || workers < 1 || workers > MOST_WORKERS) throw new TypeError(`there are 1 to ${MOST_WORKERS} workers`);
    const file = bytesOf(text)?.slice() ?? null; // what is handed in may be changed before it is played
    if (file === null) return refused("not-json");
    signal?.throwIfAborted();
    const crew = new Crew(this.#module, this.#worker);
    const end = () => crew.end();
    signal?.addEventListener("abort", end);
    try {
      const answer = await playWhole(crew, file, order, workers, progress, most);
      signal?.throwIfAborted();
      return answer;
    } finally {
      signal?.removeEventListener("abort", end);
      crew.end();
    }
  }

  /** @type {(text: Content, call: Call, most?: number) => Answer} */
  #ask(text, call, most = Infinity) {
    const file = bytesOf(text);
    if (file === null) return refused("not-json");
    const instance = this.#instance;
    this.#instance = null;
    try {
      const asked = instance ?? new Instance(this.#module, most);
      const answer = asked.ask(file, call, most);
      if (answer.fault !== "memory" && !asked.isLarge()) this.#instance = asked;
      return answer;
    } catch (error) {
      return refused(faultOf(error));
    }
  }
}

/** @type {(fault: string | null) => import("./saxtegun").Moved & { session: null }} */
const notOpened = (fault) => ({ session: null, frames: [], close: null, fault });

async function bytesAt(url) {
  if (isNode && url.protocol === "file:") return (await import("node:fs/promises")).readFile(url);
  const answer = await fetch(url);
  if (!answer.ok) throw new Error(`${url}: ${answer.status} ${answer.statusText}`);
  return answer.arrayBuffer();
}

async function moduleOf(source) {
  if (source instanceof WebAssembly.Module) return source;
  if (typeof source === "string" || source instanceof URL) source = await bytesAt(new URL(source, isNode ? import.meta.url : globalThis.location?.href));
  return WebAssembly.compile(source);
}

const ownWorker = (name) => new Worker(import.meta.url, { type: "module", name });

/** @type {typeof import("./saxtegun").load} */
export async function load(source = new URL("out/saxtegun.wasm", import.meta.url), { worker = ownWorker } = {}) {
  return new Engine(await moduleOf(source), worker);
}

// Each line by itself: all of them may be longer than a string can be.
/** @type {typeof import("./saxtegun").parse} */
export function parse(lines) {
  const decoder = new TextDecoder(), values = [];
  for (let begin = 0, end = lines.indexOf(0x0a); end >= 0; begin = end + 1, end = lines.indexOf(0x0a, begin)) {
    values.push(JSON.parse(decoder.decode(lines.subarray(begin, end))));
  }
  return values;
}

// The objects of an answer's lines by a name, with its fault.
/** @type {(name: string, answer: Pick<Answer, "lines" | "fault">) => any} */
function valuesOf(name, { lines, fault }) {
  if (fault !== null) return { [name]: [], fault };
  if (lines.length > MOST_OF_FRAMES) return { [name]: [], fault: "memory" };
  try {
    return { [name]: parse(lines), fault };
  } catch (error) {
    return { [name]: [], fault: faultOf(error) };
  }
}

// The value of an answer's text by a name, with its fault.
/** @type {(name: string, answer: Pick<Answer, "lines" | "fault">) => any} */
function valueOf(name, { lines, fault }) {
  if (fault !== null) return { [name]: null, fault };
  try {
    return { [name]: JSON.parse(new TextDecoder().decode(lines)), fault };
  } catch (error) {
    return { [name]: null, fault: faultOf(error) };
  }
}

// The frames and the close of the one session that was played.
/** @type {(answer: Pick<Answer, "lines" | "fault">) => import("./saxtegun").Moved} */
function framesOf(answer) {
  const { frames, fault } = valuesOf("frames", answer);
  return { frames, close: frames.pop() ?? null, fault };
}

// A file in parts.

const isBlank = (byte) => byte === 0x20 || byte === 0x0a || byte === 0x0d || byte === 0x09;

// Where the elements of the list that a text is begin and end, or the first of them; null where it isn't one, as far as can be seen without reading them.
/** @type {(bytes: Uint8Array, most?: number) => [number, number][] | null} */
export function elementsOf(bytes, most = Infinity) {
  /** @type {[number, number][]} */
  const found = [];
  let at = 0, depth = 0, begin = 0, isEmpty = true, end = -1;
  for (; at < bytes.length; at++) {
    const byte = bytes[at];
    if (isBlank(byte)) continue;
    if (end >= 0 || (depth === 0 && byte !== 0x5b)) return null;
    const closes = byte === 0x5d || byte === 0x7d;
    if (depth === 1 && (byte === 0x2c || closes)) {
      if (isEmpty && !(closes && found.length === 0)) return null;
      if (!isEmpty && found.push([begin, at]) === most) return found;
      begin = at + 1;
      isEmpty = true;
    } else if (depth > 0) {
      isEmpty = false;
    }
    if (byte === 0x22) for (at++; at < bytes.length && bytes[at] !== 0x22; at++) if (bytes[at] === 0x5c) at++;
    if (byte === 0x5b || byte === 0x7b) begin = depth++ === 0 ? at + 1 : begin;
    if (closes && --depth === 0) end = at;
  }
  return end < 0 || bytes[end] !== 0x5d ? null : found;
}

// The file as files of consecutive sessions, each with the number of its first; null where it is played whole.
/** @type {(bytes: Uint8Array, most: number) => Part[] | null} */
export function partsOf(bytes, most) {
  const elements = bytes.length > MOST_BYTES ? null : elementsOf(bytes, MOST_SESSIONS + 1);
  if (!elements || elements.length < 2 || elements.length > MOST_SESSIONS || most < 2) return null;
  const count = Math.min(most, elements.length);
  return Array.from({ length: count }, (_, k) => {
    const [first, next] = [k, k + 1].map((it) => Math.floor((it * elements.length) / count));
    const inside = bytes.subarray(elements[first][0], elements[next - 1][1]);
    const file = new Uint8Array(inside.length + 2);
    file[0] = 0x5b;
    file.set(inside, 1);
    file[file.length - 1] = 0x5d;
    return { file, first, sessions: next - first };
  });
}

const END_OF_LINE = [...'"session":'].map((letter) => letter.charCodeAt(0));

// Where the number of the session begins in the line that ends before this place.
function placeOfNumber(lines, end) {
  let at = end - 1;
  while (lines[at - 1] >= 0x30 && lines[at - 1] <= 0x39) at--;
  const isThere = lines[end - 1] === 0x7d && at < end - 1 && END_OF_LINE.every((letter, k) => lines[at - END_OF_LINE.length + k] === letter);
  if (!isThere) throw new Error("a line without the number of its session");
  return at;
}

// The numbers of the sessions that lines have at their ends, each a line: the place of it, that of its end, and itself.
function* numbersIn(lines) {
  for (let end = lines.indexOf(0x0a); end >= 0; end = lines.indexOf(0x0a, end + 1)) {
    const at = placeOfNumber(lines, end);
    let number = 0;
    for (let k = at; k < end - 1; k++) number = number * 10 + lines[k] - 0x30;
    yield [at, end - 1, number];
  }
}

// The lines of a part, its sessions numbered from this number on. Of so many lines nothing is held but their bytes.
/** @type {(lines: Uint8Array, first: number) => Uint8Array} */
export function numbered(lines, first) {
  if (first === 0) return lines;
  let size = lines.length;
  for (const [at, end, number] of numbersIn(lines)) size += String(number + first).length - (end - at);
  const whole = new Uint8Array(size), encoder = new TextEncoder();
  let begin = 0, to = 0;
  const add = (piece) => {
    whole.set(piece, to);
    to += piece.length;
  };
  for (const [at, end, number] of numbersIn(lines)) {
    add(lines.subarray(begin, at));
    to += encoder.encodeInto(String(number + first), whole.subarray(to)).written ?? 0;
    begin = end;
  }
  add(lines.subarray(begin));
  return whole;
}

function joined(pieces, size = pieces.reduce((sum, piece) => sum + piece.length, 0)) {
  if (pieces.length === 1 && pieces[0].length === size) return pieces[0];
  const whole = new Uint8Array(size);
  let at = 0;
  for (const piece of pieces) {
    whole.set(piece, at);
    at += piece.length;
  }
  return whole;
}

// The answer for a part, its sessions numbered from this number on.
function numberedAnswer(answer, first) {
  try {
    return { ...answer, lines: numbered(answer.lines, first) };
  } catch (error) {
    return refused(faultOf(error));
  }
}

// The answer for a file whose parts were answered so, their sessions numbered through.
function joinedAnswer(answers) {
  const passed = answers.every((answer) => answer.passed);
  try {
    return { status: passed ? 0 : 1, passed, lines: joined(answers.map((answer) => answer.lines)), fault: null };
  } catch (error) {
    return refused(faultOf(error));
  }
}

// Workers.

// A worker of Node or of a browser: one file at a time that it is asked about, it answers.
class Thread {
  #worker;
  /** @type {((answer: Answer) => void) | null} */
  #settle = null;
  #isGone = false;

  constructor(worker) {
    this.#worker = worker;
    const listen = (name, act) => (worker.on ? worker.on(name, act) : worker.addEventListener(name, act));
    listen("message", (message) => this.#answer(message.data ?? message));
    listen("error", (error) => this.#leave(error?.code === "ERR_WORKER_OUT_OF_MEMORY" ? "memory" : "broken"));
    listen("exit", () => this.#leave("broken"));
  }

  // Starts a worker, in a browser as it is handed in.
  static async start(module, begin) {
    if (!isNode) {
      const worker = begin(WORKER);
      worker.postMessage({ module });
      return new Thread(worker);
    }
    const { Worker: NodeWorker } = await import("node:worker_threads");
    return new Thread(new NodeWorker(new URL(import.meta.url), { workerData: { [WORKER]: module } }));
  }

  #answer(answer) {
    this.#settle?.(answer);
    this.#settle = null;
  }

  #leave(fault) {
    this.#isGone = true;
    this.#answer(refused(fault));
  }

  async ask({ file, first }, order, most) {
    if (this.#isGone) return refused("broken");
    return new Promise((settle) => {
      this.#settle = settle;
      this.#worker.postMessage({ file, first, order, most });
    });
  }

  // Ends the worker, whatever it does.
  end() {
    this.#leave("broken");
    this.#worker.terminate();
  }
}

// The workers that play one file. Each has an instance of its own; all end together.
class Crew {
  #module;
  #begin;
  #workers = [];
  #isEnded = false;

  constructor(module, begin) {
    this.#module = module;
    this.#begin = begin;
  }

  // Plays parts, each by the first of so many workers that is idle. Once one is refused, no other is begun, also where all lines have more than `most` bytes.
  async play(parts, order, count, progress, most) {
    const total = parts.reduce((sum, part) => sum + part.sessions, 0);
    const answers = [];
    const share = shareOf(most, count);
    let next = 0, done = 0, size = 0, isRefused = false;
    const work = async () => {
      const worker = await Thread.start(this.#module, this.#begin);
      this.#workers.push(worker);
      while (next < parts.length && !isRefused && !this.#isEnded) {
        const at = next++;
        answers[at] = await worker.ask(parts[at], order, share);
        size += answers[at].lines.length;
        if (size > most) answers[at] = { ...refused("memory"), size };
        isRefused ||= answers[at].fault !== null;
        done += parts[at].sessions;
        if (!isRefused) progress(done, total);
      }
    };
    await Promise.all(Array.from({ length: Math.min(count, parts.length) }, work));
    return answers.filter(Boolean);
  }

  // Ends the workers that there are, with what they hold.
  rest() {
    for (const worker of this.#workers.splice(0)) worker.end();
  }

  end() {
    this.#isEnded = true;
    this.rest();
  }
}

// How many bytes of lines one of so many workers may have, where all have a bound.
const shareOf = (most, count) => (most === Infinity ? most : Math.min(ROOM, Math.floor(most / count)));

// The answer of a file whose parts were answered so: that of the first that is refused, where one is.
const wholeAnswer = (answers) => answers.find((answer) => answer.fault !== null) ?? joinedAnswer(answers);

// Plays a file in parts, where it has any: one after the other, where the lines of one are too long to be held beside others.
async function playWhole(crew, file, order, workers, progress, most) {
  const whole = [{ file, first: 0, sessions: 1 }];
  const parts = partsOf(file, workers * PARTS_OF_A_WORKER) ?? whole, count = Math.min(workers, parts.length);
  const { size, ...answer } = wholeAnswer(await crew.play(parts, order, count, progress, most));
  const { fault } = answer;
  if (fault === null || parts.length === 1 || fault === "broken") return answer;
  crew.rest();
  if (fault !== "memory") return (await crew.play(whole, order, 1, () => {}, most))[0]; // the first fault of a part need not be that of the file
  return size <= shareOf(most, 1) && count > 1 ? wholeAnswer(await crew.play(parts, order, 1, progress, most)) : answer;
}

// What a worker does: it answers each file that it is handed, and numbers the sessions, which may have many lines.
function serve(engine, { file, first, order, most }, post) {
  const answer = numberedAnswer(engine.replay(file, { order, most }), first);
  post(answer, [answer.lines.buffer]);
}

if (isNode) {
  const { parentPort, workerData } = await import("node:worker_threads");
  if (parentPort !== null && workerData?.[WORKER]) {
    const engine = new Engine(workerData[WORKER]);
    parentPort.on("message", (asked) => serve(engine, asked, (answer, moved) => parentPort.postMessage(answer, moved)));
  }
} else if (typeof WorkerGlobalScope !== "undefined" && self.name === WORKER) {
  let engine = null;
  globalThis.addEventListener("message", ({ data }) => {
    if (data.module) engine = new Engine(data.module);
    else serve(engine, data, (answer, moved) => globalThis.postMessage(answer, moved));
  });
}

// @ts-check
// The lines of a recording, as docs/sessions.md has them, cut into runs: what they say of each session.
import { CLOSES } from "./closes.mjs";
import { plural } from "./elements.mjs";
import { MOST_AT_ONCE } from "./limits.mjs";
import { Refusal } from "./session-file.mjs";

export const KINDS = ["start", "move", "undo", "restart", "load", "tick", "over"];
const BEFORE_OVER = ["move", "tick", "over"]; // of what kinds the frame is before one that shows that play is over
const NEW_LINE = 0x0a;
const CLOSE_LETTER = 0x63; // a close begins with its cause or itself, and a frame with `at`

const isCount = (value) => Number.isInteger(value) && value >= 0;

// Where a line ends.
export function endOfLine(bytes, begin) {
  const at = bytes.indexOf(NEW_LINE, begin);
  return at < 0 ? bytes.length : at;
}

// The lines of bytes as spans.
/** @type {(bytes: Uint8Array) => Generator<[number, number], any>} */
function* spansOf(bytes) {
  for (let begin = 0, end; begin < bytes.length; begin = end + 1) {
    end = endOfLine(bytes, begin);
    yield [begin, end];
  }
}

// The runs in lines that the page's own engine wrote: how each session closed, and where its lines stand. Its frames are read by framesIn.
export function runsOf(bytes) {
  const runs = [], decoder = new TextDecoder();
  for (let begin = 0, first = 0, end; begin < bytes.length; begin = end + 1) {
    end = endOfLine(bytes, begin);
    if (bytes[begin + 2] !== CLOSE_LETTER) continue;
    const { name, close, cause = null, frames } = JSON.parse(decoder.decode(bytes.subarray(begin, end)));
    runs.push({ name, close, cause, count: frames, begin: first, end: begin });
    first = end + 1;
  }
  return runs;
}

// Whether the last frame of a run in its lines shows that play is over, in lines of the page's own engine alone: there the kind stands before the level, among
// the first letters. Another engine's lines may have it elsewhere.
export function isOverIn(bytes, { end, count }) {
  if (count === 0) return false;
  const begin = bytes.lastIndexOf(NEW_LINE, end - 2) + 1;
  return new TextDecoder().decode(bytes.subarray(begin, Math.min(end, begin + 80))).includes('"kind":"over"');
}

// The frames of a run in its lines. Each is read once it is asked for, and the last alone is kept: a run may have more than a page has time and memory for.
class FramesRead {
  number = -1;
  /** @type {ReturnType<typeof spansOf>} */
  spans;

  constructor(bytes, { begin, end, count }) {
    this.bytes = bytes.subarray(begin, end);
    this.length = count;
    this.rewind();
  }

  rewind() {
    this.number = -1;
    this.frame = undefined;
    this.spans = spansOf(this.bytes);
  }

  // A frame, as a list has it: undefined behind the last.
  at(number) {
    if (number >= this.length) return undefined;
    if (number < this.number) this.rewind();
    while (this.number < number) this.next(number);
    return this.frame;
  }

  next(wanted) {
    const span = this.spans.next().value;
    this.number += 1;
    this.frame = this.number === wanted ? this.read(span) : undefined;
  }

  read([begin, end]) {
    if (end - begin > MOST_AT_ONCE) {
      this.rewind();
      throw new Refusal("a frame has more than 16 MiB here, and is not read");
    }
    const { at, kind, level } = JSON.parse(new TextDecoder().decode(this.bytes.subarray(begin, end)));
    return { at, kind, level };
  }
}

export const framesIn = (bytes, run) => new FramesRead(bytes, run);

function readLine(text, place) {
  let line = null;
  try {
    line = JSON.parse(text);
  } catch {
    // told below
  }
  if (line === null || typeof line !== "object" || !isCount(line.session)) throw new Refusal(`line ${place}: no line of a recording`);
  if (line.kind === undefined && !CLOSES.includes(line.close)) throw new Refusal(`line ${place}: neither a frame nor a close`);
  return line;
}

// Whether a frame may stand behind another of its session, or first (undefined): a session begins with `start`, and is over only behind a step, at a later
// input, for good.
export function mayFollow(before, { kind, at }) {
  if (before === undefined || kind === "start") return before === undefined && kind === "start" && at === 0;
  if (kind === "over") return BEFORE_OVER.includes(before.kind) && at > before.at;
  return at >= before.at && before.kind !== "over";
}

function testFrame(line, place, frames) {
  const count = frames.length, isFrame = isCount(line.at) && KINDS.includes(line.kind) && typeof line.level === "string" && line.frame === count;
  if (!isFrame || !mayFollow(frames.at(-1), line)) throw new Refusal(`line ${place}: not frame ${count} of its session`);
}

function testClose(line, place, count) {
  const hasCause = typeof line.cause === "string", isCounted = line.frames === count && (count > 0 || hasCause); // what was played has shown its start
  const isGood = typeof line.name === "string" && isCounted && (hasCause || (line.cause ?? null) === null) && hasCause === ["stopped", "refused"].includes(line.close);
  if (!isGood) throw new Refusal(`line ${place}: no close of a session of ${plural(count, "frame")}`);
}

// The lines of a text, but for an empty one at its end.
function* linesOf(text) {
  for (let begin = 0; begin <= text.length;) {
    const at = text.indexOf("\n", begin), end = at < 0 ? text.length : at, line = text.slice(begin, end);
    if (at >= 0 || line.trim() !== "") yield line;
    begin = end + 1;
  }
}

// The runs in lines that any engine wrote, each with its frames. Refused where they are no whole recording.
export function runsIn(text) {
  const runs = [];
  let frames = [], place = 0;
  for (const it of linesOf(text)) {
    place += 1;
    const line = readLine(it, place);
    if (line.session !== runs.length) throw new Refusal(`line ${place}: session ${line.session} where session ${runs.length} is wanted`);
    if (line.close === undefined) {
      testFrame(line, place, frames);
      frames.push({ at: line.at, kind: line.kind, level: line.level });
      continue;
    }
    testClose(line, place, frames.length);
    runs.push({ name: line.name, close: line.close, cause: line.cause ?? null, count: frames.length, frames });
    frames = [];
  }
  if (frames.length > 0) throw new Refusal(`the lines end within session ${runs.length}, which has no close`);
  return runs;
}

// @ts-check
// The frames of a recording as its lines tell them. A recording may have tens of thousands, so a level is read from its line once it is asked for, and the
// worker hands the page the lines, with where the frames stand in them.
import { MOST_OF_A_RECORDING } from "./limits.mjs";
import { KINDS, endOfLine } from "./lines.mjs";

const [ZERO, NINE] = [0x30, 0x39];
// What stands before the number of inputs, between the two numbers, and between them and the kind.
const [AT, NUMBER, KIND] = ['{"at":', ',"frame":', ',"kind":"'].map((words) => words.length);
const KIND_OF_LETTER = new Map(KINDS.map((kind) => [kind.charCodeAt(0), kind])); // each begins with another one

class FrameOfLines {
  constructor(lines, begin, end, at, kind) {
    this.lines = lines;
    this.begin = begin;
    this.end = end;
    this.at = at;
    this.kind = kind;
  }

  // How many bytes tell it: no fewer than its level has letters.
  get size() {
    return this.end - this.begin;
  }

  get level() {
    return JSON.parse(new TextDecoder().decode(this.lines.subarray(this.begin, this.end))).level;
  }
}

// Where the digits end that begin at a place.
function endOfDigits(bytes, begin) {
  let end = begin;
  while (bytes[end] >= ZERO && bytes[end] <= NINE) end += 1;
  return end;
}

// The frame that a line tells, or null where it tells a close.
function frameIn(lines, begin, end) {
  const first = begin + AT, behind = endOfDigits(lines, first);
  if (behind === first) return null;
  let at = 0;
  for (let place = first; place < behind; place += 1) at = at * 10 + lines[place] - ZERO;
  return new FrameOfLines(lines, begin, end, at, KIND_OF_LETTER.get(lines[endOfDigits(lines, behind + NUMBER) + KIND]));
}

// The frames and the close of the one session that an answer of the engine tells, as `engine.frames` gives them.
/** @typedef {import("../engine/saxtegun").Close | null} Close */
/** @type {(answer: { lines: Uint8Array, fault: string | null }) => { frames: FrameOfLines[], close: Close, fault: string | null }} */
export function framesTold({ lines, fault }) {
  if (fault !== null || lines.length > MOST_OF_A_RECORDING) return { frames: [], close: null, fault: fault ?? "memory" };
  const frames = [];
  let close = null;
  for (let begin = 0, end; begin < lines.length; begin = end + 1) {
    end = endOfLine(lines, begin);
    const frame = frameIn(lines, begin, end);
    if (frame === null) close = JSON.parse(new TextDecoder().decode(lines.subarray(begin, end)));
    else frames.push(frame);
  }
  return { frames, close, fault: null };
}

// Whether a level has more letters than this.
export function isLevelLonger(frame, most) {
  return (frame.size ?? Infinity) > most && frame.level?.length > most;
}

// An answer as a worker hands it over, and what it hands over for good: frames of lines as numbers beside their lines.
export function handedOver(answer) {
  const { frames } = answer;
  if (!(frames?.[0] instanceof FrameOfLines)) return { answer, parts: [] };
  const { lines } = frames[0], kinds = new Uint8Array(frames.length), [begins, ends, ats] = [0, 1, 2].map(() => new Uint32Array(frames.length));
  frames.forEach(({ begin, end, at, kind }, place) => {
    begins[place] = begin;
    ends[place] = end;
    ats[place] = at;
    kinds[place] = KINDS.indexOf(kind);
  });
  return { answer: { ...answer, frames: { lines, begins, ends, ats, kinds } }, parts: [lines, begins, ends, ats, kinds].map(({ buffer }) => buffer) };
}

// The answer that was handed over so.
export function takenOver(answer) {
  const { lines, begins, ends, ats, kinds } = answer?.frames ?? {};
  if (lines === undefined) return answer;
  const frames = [];
  for (let place = 0; place < kinds.length; place += 1) frames.push(new FrameOfLines(lines, begins[place], ends[place], ats[place], KINDS[kinds[place]]));
  return { ...answer, frames };
}

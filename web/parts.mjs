// @ts-check
// Sessions that are more than the engine takes in one file: they are played in parts, whose lines are joined as if they were one.
import { numbered } from "../engine/saxtegun.mjs";
import { MOST_OF_LINES } from "./limits.mjs";
import { rest } from "./pieces.mjs";

function joinedBytes(pieces) {
  const whole = new Uint8Array(pieces.reduce((sum, piece) => sum + piece.length, 0));
  let at = 0;
  for (const piece of pieces) {
    whole.set(piece, at);
    at += piece.length;
  }
  return whole;
}

const NUMBERED_AT_ONCE = 2 ** 22; // bytes

// The lines of a part with the numbers of its sessions in the whole, some at a time: the page answers between them.
async function numberedInPieces(lines, first, signal) {
  const pieces = [];
  for (let begin = 0, end = 0; begin < lines.length; begin = end) {
    end = lines.indexOf(0x0a, begin + NUMBERED_AT_ONCE) + 1 || lines.length;
    pieces.push(numbered(lines.subarray(begin, end), first));
    await rest();
    signal.throwIfAborted();
  }
  return pieces;
}

// A fault that names a session of a part.
const faultOfPart = (fault, first) => fault.replace(/(?<= )[0-9]+$/, (number) => String(first + Number(number)));


// An answer of the engine, whose lines were too many where memory was short.
const answerOf = (answer) => (answer.fault === "memory" ? { ...answer, fault: "long-lines" } : answer);

// What the engine makes of parts of `count` sessions: { fault, lines }.
export async function playedInParts(engine, parts, count, { order, signal, progress }) {
  const pieces = [];
  let most = MOST_OF_LINES;
  for (const { first, bytes } of parts) {
    const isWhole = parts.length === 1, told = isWhole ? progress : (done) => progress(first + done, count);
    const answer = answerOf(await engine.playAll(bytes, { order, signal, progress: told, most }));
    if (isWhole) return answer;
    signal.throwIfAborted();
    if (answer.fault !== null) return { fault: faultOfPart(answer.fault, first), lines: null };
    pieces.push(...(await numberedInPieces(answer.lines, first, signal)));
    most -= answer.lines.length;
  }
  return { fault: null, lines: joinedBytes(pieces) };
}

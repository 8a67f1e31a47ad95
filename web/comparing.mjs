// @ts-check
// How two runs of a session part, and how the level that a session reached differs from the recorded one. The twin of python/saxtegun/divergence.py
// and of what explanations.py says of the end.
import { differing, isOfOneSize } from "./levels.mjs";
import { Labels, readCells, readLevel } from "./level-text.mjs";
import { cut, plural } from "./elements.mjs";
import { inputTold } from "./faults.mjs";
import { MOST_OF_A_LEVEL } from "./limits.mjs";
import { Refusal } from "./session-file.mjs";
import { there } from "./there.mjs";

const MOST_OF_A_CAUSE = 200; // letters that are told

// The commas of a level text with the line feeds between them: by these it tells how many cells each line has.
const feedsOf = (text) => text.slice(0, text.lastIndexOf(",") + 1).replace(/[^,\n]+/g, "");

const isLong = (text) => text.length > MOST_OF_A_LEVEL;

// Whether two level texts spell the same cells.
function isSameLevel(one, other) {
  if (one === other) return true;
  if (isLong(one) || isLong(other)) throw new Refusal("the text of a level has more than 1,048,576 letters, and is not read where it is another one here");
  const labels = new Labels(), cells = readCells(one, labels), others = readCells(other, labels);
  return cells !== null && others !== null && cells.length === others.length && cells.every((label, at) => label === others[at]) && feedsOf(one) === feedsOf(other);
}

function isSameFrame(one, other) {
  return one !== undefined && other !== undefined && one.at === other.at && one.kind === other.kind && isSameLevel(one.level, other.level);
}

// Where two runs part: { frame, kind }; null where they are the same. Where only their closes differ, the frame is the one behind the last.
/** @returns {import("./state").Parting | null} */
export function partingOf(one, other) {
  const count = Math.max(one.frames.length, other.frames.length);
  for (let frame = 0; frame < count; frame += 1) {
    const [left, right] = [one.frames.at(frame), other.frames.at(frame)];
    if (isSameFrame(left, right)) continue;
    if (left === undefined || right === undefined) return { frame, kind: "end" };
    return { frame, kind: left.at === right.at && left.kind === right.kind ? "level" : "kind" };
  }
  return one.close === other.close && one.cause === other.cause ? null : { frame: count, kind: "close" };
}

// A cause that another engine wrote may have any length.
const closeTold = ({ close, cause }) => (cause === null ? close : `${close} (${cut(cause, MOST_OF_A_CAUSE)})`);

// Inputs are counted from 0, as the command counts them.
export function afterTold(inputs, at) {
  if (at === 0) return "at the start";
  return at <= inputs.length ? `after input ${at - 1} (${inputTold(inputs[at - 1])})` : `after input ${at - 1}`;
}

// Where two runs part, in a sentence without its end.
export function partingTold({ frame, kind }, one, other, inputs) {
  if (kind === "close") return `the same ${plural(frame, "frame")}, and then here ${closeTold(one)}, there ${closeTold(other)}`;
  const [left, right] = [one.frames.at(frame), other.frames.at(frame)];
  const where = `frame ${frame}, ${afterTold(inputs, (left ?? right).at)}`;
  if (kind === "end") return `${where}: no more frames ${left === undefined ? `here, which is ${closeTold(one)}` : `there, which is ${closeTold(other)}`}`;
  if (kind === "kind") return `${where}: here ${left.kind} of ${plural(left.at, "input")}, there ${right.kind} of ${right.at}`;
  return where;
}

// Whether one level is the other in the other order of cells.
function isTurned(level, other) {
  const step = level.order === "rows" ? level.width : level.cells.length / level.width;
  const turned = Array.from({ length: step }, (_, first) => level.cells.filter((_label, at) => at % step === first)).flat();
  return turned.every((label, at) => label === other.cells[at]);
}

// The level that was reached beside another one, a recorded one or that of another run.
export class Ending {
  constructor(reached, recorded, order, labels = new Labels()) {
    this.labels = labels;
    this.reached = readLevel(reached, labels, order);
    this.isUnread = isLong(recorded);
    const other = this.isUnread ? null : readLevel(recorded, labels, order);
    const isSameCount = other !== null && this.reached !== null && other.cells.length === this.reached.cells.length;
    // a recorded text need not have the line breaks
    this.recorded = isSameCount ? { ...other, width: there(this.reached).width } : other;
    this.cells = isOfOneSize(this.reached, this.recorded) ? differing(this.reached, this.recorded) : null;
  }

  get isTurned() {
    return this.cells !== null && this.cells.length > 0 && isTurned(this.reached, this.recorded);
  }
}

// How a level differs from the recorded one, in a sentence without its end.
export function endingTold(ending) {
  const { reached, recorded, cells } = ending;
  if (reached === null) return "the level that was reached can't be read back, since a name of an object in it holds a comma";
  if (ending.isUnread) return "the text of the recorded level has more than 1,048,576 letters, and is not read";
  if (recorded === null) return "the recorded level is no level text";
  if (cells === null) return `the recorded level has ${plural(recorded.cells.length, "cell")}, and the one that was reached ${reached.cells.length}`;
  const order = reached.order, turned = ending.isTurned ? `; the recorded level is this one listed in the other order, not by ${order}` : "";
  const size = `(${reached.width} wide, ${reached.cells.length / reached.width} high)`;
  return `${cells.length} of ${plural(reached.cells.length, "cell")} ${size} ${cells.length === 1 ? "differs" : "differ"} from the recorded level${turned}`;
}

// Why what a session reached can't be recorded, or null.
export function obstacleTold(run, ending) {
  if (run.cause !== null) return `it was ${run.close}, and not played to its end`;
  if (ending.reached === null) return endingTold(ending);
  return ending.isTurned ? `the recorded level is the reached one listed in the other order, not by ${ending.reached.order}: play it in the order that it was recorded in` : null;
}

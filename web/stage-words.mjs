// @ts-check
// Stages, and where the rules of a line acted, in words. Lines are counted from 1; inputs from 0, as the page counts them.
import { plural } from "./elements.mjs";
import { inputTold } from "./faults.mjs";
import { refusalTold } from "./session-file.mjs";
import { chosenStage, coverageOf, inputsOfLine, isComplete, isNothingPlayed, levelsAround, lineNow, linesNeverActed, stagesNow } from "./staging.mjs";
import { shortened } from "./texts.mjs";
import { there } from "./there.mjs";
/** @typedef {import("./state").State} State */

const MOST_HEADINGS = 12; // that are told in words,
const MOST_RANGES = 100; // and ranges of lines: a group may have many thousand, and stand in each stage of a list

// Numbers in their order, with those together that follow one another: "3, 5 to 7".
function rangesTold(numbers) {
  const ranges = [];
  for (const number of numbers) {
    const last = ranges.at(-1);
    if (last?.[1] === number - 1) last[1] = number;
    else ranges.push([number, number]);
  }
  const told = ranges.slice(0, MOST_RANGES).map(([first, last]) => (first === last ? `${first}` : `${first} to ${last}`)), more = ranges.length - told.length;
  return `${told.join(", ")}${more > 0 ? ` and ${more} more` : ""}`;
}

const rulesTold = ({ stage, lines }) => `${stage === "late" ? "late rules" : "rules"} of ${lines.length === 1 ? "line" : "lines"} ${rangesTold(lines)}`;

const STAGES_TOLD = { input: "the press", movement: "the movement", end: "the end of the step" };

// Of a step that takes no press, such as a tick, the first stage is told as its begin.
const partTold = (stage) => (stage.stage === "input" && stage.headings.length === 0 ? "the step begins" : STAGES_TOLD[stage.stage] ?? rulesTold(stage));

// A stage by what it is: the press, the rules of lines, the movement, the end, or a stop.
export function stageTold(stage) {
  const tick = stage.tick > 0 ? `tick ${stage.tick}: ` : "";
  if (stage.stop !== undefined) return `${tick}stopped: ${stage.stop}`;
  const commands = stage.commands.length > 0 ? ` (${stage.commands.join(", ")})` : "";
  return `${tick}${partTold(stage)}${commands}`;
}

// What heads somewhere in a stage, in words.
export function headingsTold({ headings = [] }) {
  if (headings.length === 0) return "";
  const told = headings.slice(0, MOST_HEADINGS).map(([column, row, name, direction]) => `${shortened(name)} at column ${column + 1}, row ${row + 1}: ${direction}`);
  const more = headings.length - told.length;
  return `Heads somewhere: ${told.join("; ")}${more > 0 ? `; and ${more} more` : ""}.`;
}

// The stage that is chosen, as its level is shown: { text, before, headings, told }.
/** @param {State} state */
export function stageShown(state) {
  const number = there(chosenStage(state)), stage = there(stagesNow(state)).stages[number];
  return { ...levelsAround(state, number), headings: stage.headings ?? [], told: `behind ${stageTold(stage)}` };
}

// What an input is called in a list.
export const inputCalled = (inputs, taken) => (taken === 0 ? "the start" : `input ${taken - 1} (${inputTold(inputs[taken - 1])})`);

const faultTold = (fault) => (fault === "no-stages" ? "The engine in this page gives no stages." : `The engine gave no stages: ${refusalTold(fault)}.`);

const NOTHING_PLAYED = "Nothing is played, so no rule runs.";

// What stands above the stages.
/** @param {State} state */
export function stagesTold(state) {
  const came = stagesNow(state);
  if (came === null) return "";
  if (came.fault !== null) return faultTold(came.fault);
  if (came.stages.length === 0 && isNothingPlayed(state)) return NOTHING_PLAYED;
  const { numbers } = came.wanted, where = numbers.map((number) => inputCalled(state.work.inputs, number)).join(" and ");
  return came.stages.length === 0 ? `No rule runs at ${where}.` : `Stages of ${where}:`;
}

// What is said of lines that never acted: those of the text on the left are grey.
/** @param {State} state */
function neverTold(state) {
  const never = linesNeverActed(state);
  if (never.length === 0) return "Each line of rules acted, by itself or with its group or loop.";
  const where = state.work.own === null ? "(grey)" : `in this recording's own text: ${rangesTold(never)}`;
  return `${plural(never.length, "line")} of rules never acted ${where}.`;
}

// What is said of the inputs that are looked through.
/** @param {State} state */
export function coverageTold(state) {
  const { isCovered, fault, isStopped } = state.staging, line = lineNow(state), coverage = coverageOf(state);
  if (!isCovered && line === null) return "";
  if (fault !== null) return faultTold(fault);
  if (isNothingPlayed(state)) return NOTHING_PLAYED;
  const count = inputsOfLine(state).length;
  const where = line === null ? "" : ` The group or loop of line ${line} acted ${count === 0 ? "nowhere" : `in ${plural(count, "input")}`}${isComplete(coverage) ? "" : " so far"}.`;
  if (!isComplete(coverage)) return `${isStopped ? "Stopped" : "Looked through"}: ${coverage.done} of ${plural(coverage.total, "input")}.${where}`;
  return `${isCovered ? neverTold(state) : ""}${where}`.trim();
}

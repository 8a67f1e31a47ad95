// @ts-check
// The stages of the input that is looked at, in the state of the page: what the engine is wanted to say of them, which of them is chosen, and in which
// inputs the rules of a line acted. Rules of one group or loop act together: the engine names the lines of all.
import { descriptionOf } from "./descriptions.mjs";
import { isSameList } from "./past.mjs";
import { firstFrom } from "./recording.mjs";
import { framesOf, isAtEnd, isPlayOf, isPlayed, shownOf, sourceOf, wantedPlay } from "./replaying.mjs";
import { there } from "./there.mjs";
import { lookedAtInput } from "./work.mjs";
/** @typedef {import("./state").State} State */

/** @param {State} state */
const withStaging = (state, more) => ({ ...state, staging: { ...state.staging, ...more } });

// What is played: its source, entry of LEVELS, and order.
/** @param {State} state */
const gameAsked = (state) => ({ source: sourceOf(state), index: state.work.index, order: state.order, isTicked: state.isTicked });

// Whether the engine may be asked about what is played.
/** @param {State} state */
const isAskable = (state) => state.staging.isOpen && !state.isHeld && isPlayed(state) && wantedPlay(state) === null;

/** @param {State} state */
export const opened = (state, isOpen) => (isOpen === state.staging.isOpen ? state : withStaging(state, { isOpen, isStopped: false, fault: null }));

// ---- the stages

// The inputs, 0 for the start, that led to the frame that is looked at; at the end also the one at which the game stopped.
/** @param {State} state */
function inputsLookedAt(state) {
  const frame = framesOf(state)[shownOf(state)];
  if (frame === undefined) return [0];
  return isAtEnd(state) && there(state.played).cause !== null && frame.at < state.work.inputs.length ? [frame.at, frame.at + 1] : [frame.at];
}

/** @param {State} state */
function stagesAsked(state) {
  const numbers = inputsLookedAt(state);
  return { ...gameAsked(state), numbers, inputs: state.work.inputs.slice(0, numbers.at(-1)) };
}

const isSameAsked = (one, other) => isPlayOf(one, other) && isSameList(one.numbers, other.numbers) && isSameList(one.inputs, other.inputs);

// The stages of what is looked at, { wanted, stages, fault }, or null where they didn't come.
/** @param {State} state */
export function stagesNow(state) {
  const { isOpen, came } = state.staging;
  return isOpen && came !== null && isPlayed(state) && isSameAsked(came.wanted, stagesAsked(state)) ? came : null;
}

/** @param {State} state */
export const wantedStages = (state) => (isAskable(state) && stagesNow(state) === null ? stagesAsked(state) : null);

/** @param {State} state */
export function isStagesWanted(state, asked) {
  const wanted = wantedStages(state);
  return wanted !== null && isSameAsked(wanted, asked);
}

/** @param {State} state */
const choice = (state, came, number) => ({ came, looked: state.looked, number });

// Takes the stages that were wanted. Where a line is sought, the stage in which it acted is chosen.
/** @param {State} state */
export function stagesCame(state, wanted, { stages = [], fault }) {
  if (!isStagesWanted(state, wanted)) return state;
  const came = { wanted, stages, fault }, { sought } = state.staging, found = stages.findIndex(({ lines }) => lines?.includes(sought));
  return withStaging(state, { came, sought: null, chosen: found < 0 ? null : choice(state, came, found) });
}

// The number of the stage that is chosen, or null.
/** @param {State} state */
export function chosenStage(state) {
  const { chosen } = state.staging;
  return chosen !== null && chosen.looked === state.looked && chosen.came === stagesNow(state) ? chosen.number : null;
}

// Chooses a stage; before the first one there is the frame that is looked at.
/** @param {State} state */
export function stageChosen(state, number) {
  const came = stagesNow(state);
  if (came === null) return state;
  const chosen = number < 0 || came.stages.length === 0 ? null : choice(state, came, Math.min(number, came.stages.length - 1));
  return { ...withStaging(state, { chosen }), messages: [], told: null };
}

// Goes so many stages on. Where their list is not open yet, that is all that is done.
/** @param {State} state */
export const stageStepped = (state, count) => (state.staging.isOpen ? stageChosen(state, (chosenStage(state) ?? -1) + count) : opened(state, true));

// The level texts behind a stage and before it, null where there is none.
/** @param {State} state */
export function levelsAround(state, number) {
  const { wanted, stages } = there(stagesNow(state)), before = framesOf(state)[firstFrom(framesOf(state), wanted.numbers[0]) - 1]?.level ?? null;
  const levels = stages.slice(0, number + 1).flatMap(({ level }) => (level === undefined ? [] : [level]));
  const isStop = stages[number].level === undefined;
  return { text: levels.at(-1) ?? before, before: isStop ? null : levels.at(-2) ?? before };
}

// ---- in which inputs the rules of a line acted

// How many inputs are looked through, with the start as one: those that were played, and the one at which the game stopped.
/** @param {State} state */
function countOfInputs(state) {
  const { work: { inputs } } = state, played = there(state.played), last = played.frames.at(-1)?.at ?? -1;
  return Math.min(inputs.length, last + (played.cause === null ? 0 : 1)) + 1;
}

// The lines that acted, input by input, as far as they are known.
/** @param {State} state */
export function actedLines(state) {
  const { acted } = state.staging, { inputs } = state.work;
  if (!isPlayOf(acted, gameAsked(state))) return [];
  if (acted.inputs === inputs) return acted.lines;
  const first = acted.inputs.findIndex((input, place) => input !== inputs[place]);
  return acted.lines.slice(0, (first < 0 ? acted.inputs.length : first) + 1);
}

// How many of how many inputs are looked through: { done, total }.
/** @param {State} state */
export function coverageOf(state) {
  const total = isPlayed(state) ? countOfInputs(state) : 0;
  return { done: Math.min(total, actedLines(state).length), total };
}

export const isComplete = ({ done, total }) => total > 0 && done === total;

// The lines of a source that have rules.
const ruleLinesOf = (source) => descriptionOf(source).rules.filter(({ words }) => words.includes("->")).map(({ line }) => line);

// The line that is asked about, or null.
/** @param {State} state */
export function lineNow(state) {
  const { isOpen, line } = state.staging;
  const isThere = isOpen && state.work.own === null && line !== null && line.source === state.text && isPlayed(state);
  return isThere && ruleLinesOf(line.source).includes(line.number) ? line.number : null;
}

/** @param {State} state */
export function wantedCoverage(state) {
  const { isCovered, isStopped, fault } = state.staging, { done, total } = coverageOf(state);
  if (!isAskable(state) || isStopped || fault !== null || (!isCovered && lineNow(state) === null) || done === total || wantedStages(state) !== null) return null;
  return { ...gameAsked(state), inputs: state.work.inputs, from: done, count: total };
}

/** @param {State} state */
export function isCoverageWanted(state, asked) {
  const wanted = wantedCoverage(state);
  return wanted !== null && isPlayOf(wanted, asked) && wanted.from === asked.from && wanted.count === asked.count && isSameList(wanted.inputs, asked.inputs);
}

// Takes the lines that acted in more inputs.
/** @param {State} state */
export function coverageCame(state, wanted, { lines = [], fault }) {
  if (!isCoverageWanted(state, wanted)) return state;
  const { source, index, order, isTicked, inputs } = wanted, before = actedLines(state);
  return withStaging(state, { fault, acted: { source, index, order, isTicked, inputs, lines: [...before, ...sharing(lines, before.at(-1))] } });
}

// Lists, of which each that is like the one before it is that: thousands of lines may act in each of thousands of inputs.
function sharing(lists, former) {
  let last = former;
  return lists.map((list) => {
    if (last === undefined || !isSameList(last, list)) last = list;
    return last;
  });
}

// What stands in any of these lists, worked out once for the same lists.
/** @type {{ lists: number[][], all: Set<number> }} */
let together = { lists: [], all: new Set() };

function allOf(lists) {
  if (!isSameList(together.lists, lists)) together = { lists, all: new Set(lists.filter((list, place) => list !== lists[place - 1]).flat()) };
  return together.all;
}

const ASKED = { isStopped: false, fault: null };

/** @param {State} state */
export const covered = (state) => withStaging(state, { isCovered: !state.staging.isCovered, ...ASKED });

/** @param {State} state */
export const coverageStopped = (state) => withStaging(state, { isStopped: true });

// Asks where the rule on a line acted; on another line nothing is asked. While the text isn't played, it isn't looked whether there is a rule.
/** @param {State} state */
export function linePointedAt(state, number) {
  if (!state.staging.isOpen || state.work.own !== null || number === lineNow(state)) return state;
  const line = !isPlayed(state) || ruleLinesOf(state.text).includes(number) ? { source: state.text, number } : null;
  return line === null && state.staging.line === null ? state : withStaging(state, { line, ...ASKED });
}

// The inputs in which the line acted that is asked about.
/** @param {State} state */
export function inputsOfLine(state) {
  const line = lineNow(state);
  return actedLines(state).flatMap((lines, input) => (line !== null && lines.includes(line) ? [input] : []));
}

// Goes to an input in which the line acted.
/** @param {State} state */
export const lookedAtActed = (state, input) => withStaging(lookedAtInput(state, input), { came: null, sought: lineNow(state) });

// Whether nothing is played, as of a text that is refused: then nothing is known of its rules.
/** @param {State} state */
export const isNothingPlayed = (state) => isPlayed(state) && framesOf(state).length === 0 && allOf(actedLines(state)).size === 0;

// The lines of rules that never acted, once it is asked for them and all inputs are looked through.
/** @param {State} state */
export function linesNeverActed(state) {
  const { isOpen, isCovered } = state.staging;
  if (!isOpen || !isCovered || !isComplete(coverageOf(state)) || isNothingPlayed(state)) return [];
  const acted = allOf(actedLines(state));
  return ruleLinesOf(sourceOf(state)).filter((line) => !acted.has(line));
}

// The lines that are marked in the text on the left, where it is what is played: those of the stage that is chosen, and those that never acted.
/** @param {State} state */
export function linesMarked(state) {
  const number = chosenStage(state);
  if (state.work.own !== null) return { lit: [], never: [] };
  return { lit: number === null ? [] : there(stagesNow(state)).stages[number].lines ?? [], never: linesNeverActed(state) };
}

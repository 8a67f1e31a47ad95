// @ts-check
// The sessions of the file in the state of the page: how they closed over the text at hand, which of them is open, and what was seen of it.
import { Ending, obstacleTold, partingOf } from "./comparing.mjs";
import { ONE_MORE } from "./kept-open.mjs";
import { MOST_AT_ONCE, MOST_INPUTS } from "./limits.mjs";
import { framesIn, isOverIn, runsOf } from "./lines.mjs";
import { isSameList } from "./past.mjs";
import { framesOf, gameOf, isAtEnd, isPlayed, sourceOf } from "./replaying.mjs";
import { Refusal, SessionFile, isSolvedWanted, refusalTold } from "./session-file.mjs";
import { isFailure } from "./session-list.mjs";
import { there } from "./there.mjs";
import { Clocks, hasClock, isRefusedForClock, playedText } from "./ticks.mjs";
import { withWork } from "./work.mjs";
/** @typedef {import("./state").State} State */

// ---- how all sessions closed

// Whether an answer is one to the file as it stands, over the text at hand.
/** @type {<It extends import("./state").AskedSuite>(suite: It | null, state: Pick<State, "file" | "text" | "order" | "isTicked">) => suite is It} */
const isOfNow = (suite, { file, text, order, isTicked }) => suite !== null && suite.file === file && suite.order === order && suite.isTicked === isTicked && (suite.text === text || !file.isOverAGame);

// What is wanted of the engine for the sessions of the file, or null.
/** @param {State} state */
export function wantedSuite(state) {
  const { file, text, order, isTicked, suite, isHeld } = state;
  return file === null || file.whyUnread !== null || isHeld || isOfNow(suite, state) ? null : { file, text, order, isTicked };
}

// How the sessions closed, or null where they aren't played as they stand.
/** @param {State} state */
export const runsOfNow = (state) => (state.file !== null && isOfNow(state.suite, state) ? state.suite.runs : null);

let lastRun = { of: null }; // the run whose frames were asked for last: what is told of it is told at each draw

// A run with its frames, as its lines have them.
export function runWithFrames({ lines, runs }, number) {
  if (lastRun.of !== runs[number]) lastRun = { ...runs[number], of: runs[number], frames: framesIn(lines, runs[number]) };
  return lastRun;
}

// Whether a session has a text of its own that isn't the one at hand.
/** @param {State} state */
export const isOther = (state, number) => ![ "", state.text ].includes(there(state.file).entries[number].source);

const CLOCKS_OF = new WeakMap(); // for each file what is known of the texts of its sessions

function clocksIn(file) {
  if (!CLOCKS_OF.has(file)) CLOCKS_OF.set(file, new Clocks());
  return CLOCKS_OF.get(file);
}

// Tells of a text of a session whether it has a clock. Those that the file has are read before it is played; the one at hand changes with each letter.
/** @param {State} state */
const clockOf = ({ file, text }) => (source) => (file === null || source === text ? hasClock(source) : clocksIn(file).isThere(source));

// Files of the sessions as the engine is to play them, or null where that was stopped. Each of their texts is read for its clock before.
export async function partsPlayed({ file, text, isTicked }, signal) {
  const clocks = clocksIn(file), isRead = await clocks.read(file.entries.map(({ source }) => source), signal);
  return isRead ? file.partsOver(text, (source) => (source === text ? playedText(source, isTicked) : isTicked ? clocks.playedOf(source) : source)) : null;
}

// Which sessions passed and aren't solved though they must be: { fault, unsolved }, or null where that was stopped. Lines don't show the last win: it is seen
// with one more input, by play(file).
export async function unsolvedIn({ name, entries }, lines, play) {
  const runs = entries.some(isSolvedWanted) ? runsOf(lines) : [], unsolved = new Set([...runs.keys()].filter((number) => isSolvedWanted(entries[number]) && runs[number].close === "passed"));
  const played = [...unsolved].filter((number) => entries[number].inputs.length < MOST_INPUTS), longer = played.map((number) => ["", bodyWithOneMore(entries[number])]); // no longer than what was played
  if (played.length === 0) return { fault: null, unsolved };
  const answer = await play(new SessionFile(name, new TextEncoder().encode(JSON.stringify(longer))));
  if (answer === null || answer.fault !== null) return answer;
  runsOf(answer.lines).forEach((run, place) => isOverIn(answer.lines, run) && unsolved.delete(played[place]));
  return { fault: null, unsolved };
}

const bodyWithOneMore = ({ source, inputs, level, index }) => [source, [...inputs, ONE_MORE], level, index];

// How many sessions are refused since their games have a clock, or are played without it.
/** @param {State} state */
export function clocksOf(state) {
  if (state.isTicked) return rowsOf(state).filter(({ isTicked, close }) => isTicked && close !== "refused").length;
  const isWithClock = clockOf(state);
  return (runsOfNow(state) ?? []).filter(({ cause }, number) => isRefusedForClock(there(state.file).entries[number].source || state.text, cause, isWithClock)).length;
}

/** @param {State} state */
export const countOfOthers = (state) => (state.file?.entries ?? []).filter((_, number) => isOther(state, number)).length;

const LISTED_ROWS = new WeakMap(); // what is listed in a state, which never changes

// What is listed of each session.
/** @param {State} state */
export function rowsOf(state) {
  if (!LISTED_ROWS.has(state)) LISTED_ROWS.set(state, madeRows(state));
  return LISTED_ROWS.get(state);
}

/** @param {State} state */
function madeRows(state) {
  const runs = runsOfNow(state), { partings = null } = state.comparison ?? {}, isWithClock = clockOf(state);
  return (state.file?.entries ?? []).map(({ name, source }, number) => ({
    isUnsolved: runs?.[number].isUnsolved ?? false, isTicked: state.isTicked && isWithClock(source || state.text),
    name, close: runs?.[number].close ?? null, frames: runs?.[number].count ?? null, parting: partings?.[number] ?? null, isLookedAt: isSeen(state, number), isOther: isOther(state, number),
  }));
}

const isGood = (run) => run?.close === "passed" && !run.isUnsolved;

// The first frame from which on a session goes another way than when all was played last, where it passed then; null where nothing is known.
function changeOf({ good, suite }, number) {
  const entry = suite.file.entries[number], former = good?.file.entries[number];
  if (suite.runs === null || former === undefined || good === suite || good.order !== suite.order || good.isTicked !== suite.isTicked || good.runs[number].close !== "passed") return null;
  if (former.name !== entry.name || former.index !== entry.index || !isSameList(former.inputs, entry.inputs)) return null;
  const runs = [runWithFrames(good, number), runWithFrames(suite, number)];
  if (runs.some(({ begin, end }) => end - begin > MOST_AT_ONCE)) return null;
  const parting = partingKnown(...runs), [before, now] = runs.map(({ frames }) => frames.at(parting?.frame ?? 0));
  return parting === null || parting.kind === "close" ? null : { ...parting, at: (now ?? before).at };
}

// Where two runs part; null also where levels are too long to be read.
function partingKnown(...runs) {
  try {
    return partingOf(...runs);
  } catch (error) {
    if (error instanceof Refusal) return null;
    throw error;
  }
}

// Whether what is worked on may make way for a session: no key waits, and it is nothing, or stands in the file.
/** @param {State} state */
function mayMakeWay(state) {
  const { work, file, queue } = state;
  if (queue.length > 0) return false;
  if (work.opened !== null) return isSessionOpen(state);
  return work.inputs.length === 0 && work.name === "" && file !== null;
}

// Whether a session was opened, and something was done with it since.
/** @param {State} state */
const isGoneOnWith = (state) => state.work.opened !== null && (!isSessionOpen(state) || state.queue.length > 0);

const isBroken = ({ close, isUnsolved }) => close === "differs" || close === "stopped" || isUnsolved;

// Opens what is to be looked at once all is played: of a file that was just opened the first failure, unless its one session was opened at once and gone on
// with; and else the first that broke.
/** @param {State} state */
function showingFailure(state) {
  const { isNew, work } = state, runs = there(there(state.suite).runs), next = { ...state, isNew: false };
  if (isNew) return runs.length === 0 || isGoneOnWith(next) ? next : sessionOpened(next, Math.max(0, rowsOf(next).findIndex(isFailure)));
  if (work.opened !== null && isBroken(runs[work.opened])) return { ...next, since: isSessionOpen(next) ? changeOf(next, work.opened) : null };
  const first = runs.findIndex((run, number) => isBroken(run) && isGood(state.good?.runs?.[number]));
  return first < 0 || !mayMakeWay(next) ? next : sessionOpened(next, first);
}

// Why a file isn't played, or null: all its sessions must have come back.
function whyNotPlayed({ name, entries }, answer, runs) {
  if (answer === null) return "Stopped: not all sessions were played.";
  if (answer.fault !== null) return `${name} is not played: ${refusalTold(answer.fault)}.`;
  return runs.length === entries.length ? null : `${name} is not played: the engine tells of ${runs.length} sessions, and ${entries.length} are read.`;
}

// Takes what the sessions came to: { fault, lines, unsolved }, in so many milliseconds, or null where it was stopped.
/** @param {State} state */
export function suiteCame(state, { file, text, order, isTicked }, answer, milliseconds) {
  if (wantedSuite(state) === null || !isOfNow({ file, text, order, isTicked }, state)) return state;
  const runs = answer === null || answer.fault !== null ? null : runsOf(answer.lines), why = whyNotPlayed(file, answer, runs);
  const suite = { file, text, order, isTicked, why, lines: why === null ? answer.lines : null, runs: why === null ? there(runs).map((run, number) => ({ ...run, isUnsolved: answer.unsolved.has(number) })) : null, milliseconds };
  const next = { ...state, suite, comparison: null };
  if (why !== null) return { ...next, isNew: false };
  return { ...showingFailure(next), saved: state.saved, good: isNoWorse(state.good, suite) ? suite : state.good };
}

// Whether all sessions still pass that passed before.
const isNoWorse = (good, { runs }) => good === null || good.runs.every((run, number) => !isGood(run) || isGood(runs[number]));

// Plays all sessions again, and shows the first that doesn't pass.
/** @param {State} state */
export const playedAgain = (state) => ({ ...state, suite: null, isHeld: false, isNew: state.file !== null, saved: "", told: null });

// ---- the session that is open

// Whether what is worked on is the session that is open, as the file has it.
/** @param {State} state */
export function isSessionOpen(state) {
  const { work, file, text } = state, entry = work.opened === null ? undefined : file?.entries[work.opened];
  return entry !== undefined && (entry.source || text) === sourceOf(state) && entry.index === work.index && isSameList(entry.inputs, work.inputs);
}

// How the session that is open closed, and where it parts from another engine's; null where that isn't known.
/** @param {State} state */
export const runOfOpen = (state) => (state.work.opened === null ? null : runsOfNow(state)?.[state.work.opened] ?? null);

/** @param {State} state */
export const partingOfOpen = ({ comparison, work: { opened } }) => (opened === null ? null : comparison?.partings[opened] ?? null);

/** @param {State} state */
export const sessionOf = (state) => (isSessionOpen(state) ? there(state.file).entries[there(state.work.opened)] : null);

/** @param {State} state */
export function sessionOpened(state, number) {
  const { name, source, inputs, index } = there(state.file).entries[number], parting = state.comparison?.partings[number] ?? null;
  const work = { own: source === "" || source === state.text ? null : source, index, inputs, name, opened: number };
  const isPassed = isGood(runsOfNow(state)?.[number]) && parting === null;
  const next = withWork(state, work, { looked: parting?.frame ?? (isPassed ? 0 : null) });
  const runs = runsOfNow(next);
  return runs !== null && isBroken(runs[number]) ? { ...next, since: changeOf(next, number) } : next;
}

let lastObstacle = {}; // what stood against the end that was looked at last: a recorded level may take long to read, and each draw asks for it

function obstacleOf(game, run, reached, recorded, order) {
  const { of = {} } = lastObstacle, isSame = of.run === run && of.reached === reached && of.recorded === recorded && of.order === order;
  if (!isSame) lastObstacle = { of: { run, reached, recorded, order }, why: obstacleTold(run, new Ending(game.levelText(reached), recorded, order)) };
  return lastObstacle.why;
}

// What the session that is open reached beside what was recorded: { reached, recorded, isSolved, why }, where both are on the screen and differ; `why` says
// what stands against accepting it. Else null.
/** @param {State} state */
export function differenceOf(state) {
  const entry = sessionOf(state), run = runOfOpen(state);
  if (entry === null || run === null || run.close !== "differs" || !isPlayed(state) || !isAtEnd(state) || partingOfOpen(state) !== null) return null;
  const reached = framesOf(state).at(-1)?.level;
  if (reached === undefined) return null;
  return { reached, recorded: entry.level, isSolved: there(state.played).isSolved, why: obstacleOf(gameOf(sourceOf(state)), run, reached, entry.level, state.order) };
}

// The state where what is on the screen counts as seen.
/** @param {State} state */
export function seeing(state) {
  const difference = differenceOf(state), { opened } = state.work;
  if (difference === null || opened === null || state.seen.get(opened)?.reached === difference.reached) return state;
  return { ...state, seen: new Map([...state.seen, [opened, difference]]) };
}

// Whether a session was seen as it differs now.
/** @param {State} state */
export function isSeen(state, number) {
  const seen = state.seen.get(number);
  return seen !== undefined && runsOfNow(state)?.[number].close === "differs" && there(state.file).entries[number].level === seen.recorded;
}

/** @param {State} state */
export const seenOf = (state) => [...state.seen.keys()].filter((number) => isSeen(state, number) && state.seen.get(number)?.why === null).sort((one, other) => one - other);

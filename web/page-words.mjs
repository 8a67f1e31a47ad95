// @ts-check
// What the page says of its state, in words. Inputs are counted from 0, as the command and the reports count them.
import { afterTold, endingTold, partingTold } from "./comparing.mjs";
import { plural } from "./elements.mjs";
import { inputTold } from "./faults.mjs";
import { countOf } from "./closes.mjs";
import { isFailure } from "./session-list.mjs";
import { causeOf, framesOf, gameOf, isPlayed, shownOf, sourceOf, sourceOfFrames } from "./replaying.mjs";
import { clocksOf, countOfOthers, partingOfOpen, rowsOf, runOfOpen, runWithFrames, runsOfNow, sessionOf } from "./suite.mjs";
import { shortened } from "./texts.mjs";
import { there } from "./there.mjs";
import { hasClock, isRefusedForClock } from "./ticks.mjs";
/** @typedef {import("./state").State} State */

const MOST_NOTES = 50; // that are told of a game
const MOST_OF_A_NAME_SHOWN = 2000; // letters, as its field takes: a browser takes long to lay out many more

const upper = (text) => `${text[0].toUpperCase()}${text.slice(1)}.`;

// Why the text isn't played, { sentence, line }, or null.
/** @param {State} state */
export function faultOfText(state) {
  const { played } = state;
  if (played === null || played.source !== state.text || played.frames.length > 0 || played.cause === null || !isPlayed(state)) return null;
  return causeOf(played.cause, played);
}

/** @param {import("./state").Played} played */
function stoppedTold(played) {
  const { sentence } = causeOf(played.cause, played);
  return played.frames.length === 0 ? { text: `Not played: ${sentence}.`, close: "refused" } : { text: `Stopped: ${sentence}.`, close: "stopped" };
}

// Where a session began to go another way than before.
/** @param {State} state */
function sinceTold({ since, work }) {
  return since === null ? "" : ` It passed before; since then it goes another way from frame ${since.frame} on, ${afterTold(work.inputs, since.at)}.`;
}

/** @param {State} state */
function sessionTold(state) {
  const { opened, inputs } = state.work, run = runOfOpen(state), parting = partingOfOpen(state);
  if (run === null) return null;
  if (parting !== null) return { text: `Diverges at ${partingTold(parting, runWithFrames(there(state.suite), opened), there(state.comparison).others[there(opened)], inputs)}.`, close: "differs" };
  const clock = state.isTicked && hasClock(sourceOf(state)) ? ` Played ${WITHOUT_CLOCK}.` : "";
  if (run.isUnsolved) return { text: `Passed: the last level is the recorded one. But it must be solved, and isn't.${clock}`, close: "failed" };
  if (run.close === "passed") return { text: `Passed: the last level is the recorded one.${clock}`, close: clock ? null : "passed" };
  return run.close === "differs" ? { text: `Differs from what was recorded.${sinceTold(state)}${clock}`, close: "differs" } : null;
}

const WITHOUT_CLOCK = "without `realtime_interval`, with its ticks as recorded";

// What is asked, or said, of a clock: { text, isAsked }; null where no game has one.
/** @param {State} state */
export function clockTold(state) {
  const { played, isTicked } = state, source = sourceOf(state);
  if (isTicked) return hasClock(source) || (state.file !== null && clocksOf(state) > 0) ? { text: `Played ${WITHOUT_CLOCK}.`, isAsked: false } : null;
  const isRefused = (isPlayed(state) && isRefusedForClock(source, there(played).cause)) || clocksOf(state) > 0;
  return isRefused ? { text: "A game with `realtime_interval` isn't played here, but a recording holds its ticks: play it without that line, with its ticks as recorded?", isAsked: true } : null;
}

export const UNREADABLE = "What this browser kept of an earlier visit can't be read by this page. It stays where it is.";

// What is promised of where the work is: whether the browser kept it, or null where that takes long.
export function keepingTold(isKept) {
  const told = isKept === null ? "This browser has not kept your last changes yet. Wait, or save your work as files." : isKept ? "What you work on stays in this browser; save it as files." : "This browser has no room for your work, or keeps nothing for a page from the disk: save your work as files.";
  return `Nothing leaves this machine. ${told}`;
}

// What is told of how a game is drawn otherwise than it draws itself.
export function notesTold({ notes }) {
  const more = notes.length - MOST_NOTES;
  return notes.length === 0 ? "" : `${[...notes.slice(0, MOST_NOTES).map(shortened), ...(more > 0 ? [`and ${plural(more, "more note")}`] : [])].join("; ")}.`;
}

// How far something is read that came, where that takes long; or null.
export const readingTold = (reading) => (reading?.isSlow ? { text: `${reading.what}${reading.total > 0 ? `: ${reading.done} of ${reading.total}` : ""}.`, close: null } : null);

const MOST_REFUSALS = 5; // that are told of files that came at once

// Why files aren't opened, in sentences.
function refusalsTold(refusals) {
  const more = refusals.length - MOST_REFUSALS;
  return [...refusals.slice(0, MOST_REFUSALS).map((why) => `Not opened: ${why}.`), ...(more > 0 ? [`Nor ${plural(more, "more file")}.`] : [])];
}

// What stands above the level: { text, close }.
/** @param {State} state */
export function statusOf(state) {
  const { refusals, told } = state;
  return refusals.length === 0 ? statusOfWork(state) : { text: [...refusalsTold(refusals), ...(told === null ? [] : [told.text])].join(" "), close: "refused" };
}

// The same of what is worked on.
/** @param {State} state */
function statusOfWork(state) {
  if (state.told !== null) return state.told;
  if (state.isHeld) return { text: "This is not played yet. An edit, a key or Play plays it.", close: null };
  if (!isPlayed(state)) return { text: "", close: null };
  const played = there(state.played);
  if (played.cause !== null) return stoppedTold(played);
  const session = sessionOf(state) === null ? null : sessionTold(state);
  return session ?? { text: played.isSolved ? "Solved: all levels are won." : "", close: null };
}

// What is said where what is played isn't the text on the left.
/** @param {State} state */
export const ownTold = (state) => (state.work.own === null ? "" : "This recording has a text of its own, and is played over that: not over the text on the left.");

// How what is worked on ends: { text, isSolved }. What was played before says nothing of it.
/** @param {State} state */
export function endTold(state) {
  const isNow = isPlayed(state), isSolved = isNow && there(state.played).isSolved, isShown = framesOf(state).length > 0;
  return { text: isSolved ? "\u2713 solved" : !isNow ? "not played yet" : isShown ? "not solved" : "not played", isSolved };
}

/** @param {State} state */
const asBefore = (state) => (isPlayed(state) ? "" : "as it was played before: ");

const KIND_TOLD = { start: "the start", load: "the next level", over: "play is over", restart: "begins again" };

/** @param {State} state */
export function stepTold(state) {
  const frames = framesOf(state), shown = shownOf(state), frame = frames[shown];
  if (frame === undefined) return "";
  const { inputs } = there(state.played), isSame = shown > 0 && frames[shown - 1].level === frame.level;
  const undone = isSame ? "nothing to take back" : "taken back", moved = isSame ? "nothing changes" : frame.kind === "tick" ? "a tick" : "moves";
  const where = frame.at === 0 ? "before any input" : `after input ${frame.at - 1} (${inputTold(inputs[frame.at - 1])})`;
  return `${asBefore(state)}${where}; ${KIND_TOLD[frame.kind] ?? (frame.kind === "undo" ? undone : moved)}`;
}

// The name of what is worked on, as far as it is shown; no half of a letter is.
/** @param {State} state */
export const nameShown = ({ work: { name } }) => name.slice(0, MOST_OF_A_NAME_SHOWN).replace(/\p{Surrogate}$/u, "");

// ---- the sessions

export const UNSOLVED = "no longer solved"; // though it passed, and must be

/** @param {State} state */
const failuresOf = (state) => rowsOf(state).filter((row) => row.close !== null && isFailure(row) && (row.close !== "passed" || row.isUnsolved));

// "2 differ", "1 stopped", or "3 did not pass" where they ended in several ways.
function failuresTold(failures) {
  const closes = [...new Set(failures.map(({ close, isUnsolved }) => (isUnsolved ? UNSOLVED : close)))];
  return closes.length === 1 ? countOf(closes[0], failures.length) : `${failures.length} did not pass`;
}

/** @param {State} state */
export function tabTold(state) {
  if (state.file === null) return "Sessions";
  if (state.file.whyUnread !== null) return "Sessions: not read";
  const failures = failuresOf(state);
  return failures.length > 0 ? `Sessions: ${failuresTold(failures)}` : `Sessions (${state.file.entries.length})`;
}

/** @param {State} state */
function suiteTold(state, runs) {
  const failures = failuresOf(state), unsolved = failures.filter(({ isUnsolved }) => isUnsolved).length, broken = failures.length - unsolved, took = `${plural(runs.length, "session")} in ${(there(state.suite).milliseconds / 1000).toFixed(1)} s`;
  const behind = clocksTold(state);
  if (runs.length === 0) return { text: "The file has no session.", close: null };
  const failed = [[broken, "did not pass"], [unsolved, UNSOLVED]].filter(([count]) => count > 0).map((it) => it.join(" ")).join(", ");
  if (failed) return { text: `${failed}: ${took}.${behind}`, close: "differs" };
  // no tick where a session was played over something else
  return countOfOthers(state) > 0 ? { text: `All passed, but not all over the text on the left: ${took}.${behind}`, close: null } : { text: `All passed: ${took}.${behind}`, close: behind ? null : "passed" };
}

// What is said behind how sessions closed, where some were played without their clock.
/** @param {State} state */
function clocksTold(state) {
  const count = state.isTicked ? clocksOf(state) : 0;
  return count > 0 ? ` ${count} ${count === 1 ? "was" : "were"} played ${WITHOUT_CLOCK}.` : "";
}

// Two engines that both refuse a session are the same, and nothing of it was played.
/** @param {State} state */
function comparisonTold(state) {
  const { name, others, partings } = there(state.comparison), behind = clocksTold(state);
  const parting = partings.filter((it) => it !== null).length, refused = partings.filter((it, number) => it === null && others[number].close === "refused").length;
  const unplayed = refused === 0 ? "" : `; ${refused} ${refused === 1 ? "was" : "were"} refused by both, and not played`;
  const text = `Compared with ${name}: ${partings.length - parting} the same, ${parting} ${parting === 1 ? "diverges" : "diverge"}${unplayed}.${behind}`;
  if (parting > 0) return { text, close: "differs" };
  return { text, close: behind || refused > 0 || partings.length === 0 ? null : "passed" };
}

// How the sessions closed: { text, close }.
/** @param {State} state */
export function verdictOf(state, doing) {
  const runs = runsOfNow(state);
  const why = state.file?.whyUnread ?? null;
  if (why !== null) return { text: `Not read: ${why}. Saved, the file is as it was.`, close: "refused" };
  if (doing !== null) return { text: `Playing: ${doing.done} of ${plural(doing.total, "session")}`, close: null };
  if (runs !== null) return state.comparison === null ? suiteTold(state, runs) : comparisonTold(state);
  return { text: state.suite?.why ?? "Not played yet.", close: null };
}

// What is said of sessions that are not played over the text at hand.
/** @param {State} state */
export function othersTold(state) {
  const count = countOfOthers(state);
  if (count === 0) return there(state.file).isOverAGame ? "The sessions are played over the text on the left." : "";
  return `${plural(count, "session")} ${count === 1 ? "has" : "have"} another text, and ${count === 1 ? "is" : "are"} not played over the one on the left: \`saxtegun source\` makes ${count === 1 ? "it" : "them"} follow game.txt.`;
}

// What a level differs in from the one beside it.
/** @param {State} state */
export function unlikenessTold(state, ending, isOfEngines) {
  const { cells } = ending, parting = partingOfOpen(state);
  if (isOfEngines && cells?.length === 0 && parting?.kind === "level" && parting.frame === shownOf(state)) return "The cells are the same, and the line feeds between them are not.";
  if (isOfEngines) return cells === null ? "The two levels can't be compared cell by cell." : `${plural(cells.length, "cell")} of this frame ${cells.length === 1 ? "differs" : "differ"} (framed).`;
  if (there(sessionOf(state)).level === "") return "No level was recorded.";
  return cells?.length === 0 ? "This is the recorded level." : upper(`${endingTold(ending)}${cells ? " (framed)" : ""}`);
}

// ---- what can be put back

/** @param {import("./state").Work} work */
const workTold = ({ inputs, name }) => (inputs.length > 0 ? `a recording of ${plural(inputs.length, "input")}` : `the name ${shortened(name)}`);

/** @param {import("./state").Lost} lost */
function lostTold({ text, work, file }) {
  const parts = [
    text !== undefined && `the text of ${gameOf(text).title}`,
    work && workTold(work),
    file && (file.whyUnread === null ? `${file.name} with ${plural(file.count, "session")}` : `${file.name}, which isn't read`),
  ];
  return parts.filter(Boolean).join(", ");
}

/** @param {State} state */
export const putBackTold = ({ past }) => (past.length === 0 ? "Nothing was left out or replaced yet" : `Puts back ${lostTold(there(past.at(-1)))}`);

/** @param {State} state */
export const toldOfLevel = (state) => {
  const frames = framesOf(state), shown = shownOf(state), won = frames.slice(0, shown + 1).filter(({ kind }) => kind === "load").length;
  return `${asBefore(state)}${gameOf(sourceOfFrames(state)).title}, ${won > 0 ? `${plural(won, "level")} won` : "the level"}, frame ${shown}`;
};

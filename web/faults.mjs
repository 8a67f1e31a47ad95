// @ts-check
// What the cause of a session is, in words, with the culprit: the name that isn't there, the keyword that isn't played, the lines of a loop. The
// twin of what python/saxtegun/explanations.py and culprits.py say.
import { before, descriptionOf, settingsOf } from "./descriptions.mjs";
import { nearest } from "./nearest.mjs";
import { firstsOf, fold, shortened } from "./texts.mjs";
import { there } from "./there.mjs";
import { CLOCK } from "./ticks.mjs";

const STOPS = {
  "loop-limit": "a group of rules or a loop still changed something in its 200th pass",
  "again-limit": "an input needed more than 500 ticks of `again`",
  "match-limit": "a rule had more than 1,048,576 places or combinations",
  "no-level": "no level is left from its index on",
};
// What is wrong with the line that a fault names; `{line}` is that line.
const FAULTS = {
  TooLong: "the source is longer than 1,048,576 bytes",
  Section: "the heading on {line} is out of order, or is there twice",
  OutsideProfile: "{line} has what is not played here: `random`, `randomdir`, `rigid`, `realtime_interval`, or a row with two `...`",
  BadObject: "the object on {line} has no colours directly after its name, or a sprite that is not five rows of five",
  Duplicate: "{line} defines a name that is there already",
  TooLarge: "{line} is one too many, or too large: objects, names, layers, levels, the sides of a level and of a rule have limits",
  BadLegend: "{line} is no definition of the legend, or defines a name in terms of itself",
  Unknown: "{line} has a name that is not there",
  Mixed: "{line} has an aggregate (a name joined by `and`) where none may stand, or a property (one joined by `or`) in an aggregate",
  Missing: "`background` or `player` is not there, or is joined by `and`",
  NoLayer: "the object on {line} is in no collision layer",
  BadWin: "{line} is no win condition",
  BadGlyph: "{line} is a row of a level with a letter that draws nothing",
  NoLevel: "it has no level",
  BadRule: "{line} is no rule",
  Shape: "the two sides of the rule on {line} don't have the same shape",
  LateMovement: "the late rule on {line} has a movement word",
  AmbiguousRight: "the right of the rule on {line} doesn't say which choice of the left it means",
  TooManyRules: "with {line} the rules have more than 65,536 pairs of a direction and a choice",
  RightClash: "the right of the rule on {line} places in one cell what can't stand there together",
};
const OF_THE_WHOLE = { Section: "a section that must be there is missing" };
const NEEDED = ["objects", "legend", "collisionlayers", "levels"]; // the sections that must be there
const OUTSIDE = ["random", "randomdir", "rigid"];
const RULE_WORDS = new Set((
  "[ ] | -> ... up down left right late rigid random randomdir horizontal vertical orthogonal moving stationary perpendicular parallel action no "
  + "> < ^ v + startloop endloop cancel checkpoint restart win again message all any some on and or").split(" "));
const COMMAND = /^sfx\d+$/;
const MOST_LINES = 8;
const WORDS_TOLD = 20; // of a line are told

// The fault of a source and its line that a cause names, or null.
export function faultIn(cause) {
  const found = /^([^:]*):([0-9]{1,9})$/.exec(cause ?? "");
  return found && { code: found[1], line: Number(found[2]) };
}

// A cause as a sentence without its end.
export function causeTold(cause) {
  const fault = faultIn(cause);
  if (fault === null || !Object.hasOwn(FAULTS, fault.code)) return Object.hasOwn(STOPS, cause) ? STOPS[cause] : `its cause is ${shortened(cause)}`;
  if (fault.line === 0) return OF_THE_WHOLE[fault.code] ?? FAULTS[fault.code].replace("{line}", "the source");
  return FAULTS[fault.code].replace("{line}", `line ${fault.line}`);
}

// The first words of a stranger behind the words of a fault, or nothing.
function quoted(words, tell = (word) => `\`${shortened(word)}\``) {
  const all = [...new Set(words)], told = all.slice(0, WORDS_TOLD).map(tell);
  const more = all.length > WORDS_TOLD ? ` and ${all.length - WORDS_TOLD} more` : "";
  return told.length > 0 ? `: ${told.join(", ")}${more}` : "";
}

// All names, as they are compared.
const namesIn = ({ objects, legend }) => [...new Set([...objects.flatMap(({ names }) => names), ...legend.map(({ left }) => left[0])].map(fold))];

// The words of a line, which are told in small letters, as they are written there.
function asWritten({ lines }, { line, words }) {
  const [, , , text] = lines.find(([number]) => number === line), small = fold(text);
  let at = 0;
  return words.map((word) => {
    const begin = small.indexOf(word, at);
    at = begin + word.length;
    return text.slice(begin, at);
  });
}

// The words of a line in which names may stand, as they are written there.
function wordsAt(told, number) {
  const definition = told.legend.find(({ line }) => line === number);
  if (definition !== undefined) return definition.right;
  const layers = told.layers.map(({ line, names }) => ({ line, words: names })), found = [...layers, ...told.rules, ...told.wins].find(({ line }) => line === number);
  return found === undefined ? [] : asWritten(told, found).slice(0, before("message", found.words).length);
}

const UNKNOWN = new WeakMap(); // what is told of the names of a line, of each text: each draw asks for it

// The words of a line that are neither a name nor a word of the language, and for each the nearest name that is there.
function unknownTold(told, number) {
  const known = UNKNOWN.get(told) ?? new Map();
  UNKNOWN.set(told, known);
  if (!known.has(number)) known.set(number, unknownLooked(told, number));
  return known.get(number);
}

function unknownLooked(told, number) {
  const names = namesIn(told), there = new Set(names), isKnown = (word) => there.has(word) || RULE_WORDS.has(word) || COMMAND.test(word);
  return quoted(wordsAt(told, number).filter((word) => !isKnown(fold(word))), (word) => {
    const near = nearest(fold(word), names);
    return `\`${shortened(word)}\`${near === null ? "" : ` (near: \`${shortened(near)}\`)`}`;
  });
}

// Tells of a name what it is in the end, behind its synonyms: "object", or a name joined by "and" or by "or".
function kinds({ objects, legend }) {
  const ofObjects = new Set(objects.flatMap(({ names }) => names).map(fold)), rights = firstsOf(legend.map(({ left, right }) => [fold(left[0]), right.map(fold)]));
  const known = new Map(); // what is found out is kept for all synonyms on the way
  return (name) => {
    const way = [], passed = new Set();
    let word = name;
    while (!known.has(word) && !ofObjects.has(word) && rights.get(word)?.length === 1 && !passed.has(word)) {
      way.push(word);
      passed.add(word);
      [word] = rights.get(word);
    }
    const kind = known.get(word) ?? (ofObjects.has(word) ? "object" : rights.get(word)?.[1]);
    for (const synonym of way) known.set(synonym, kind);
    return kind;
  };
}

// The letters of a row of a level that draw nothing, as far as the row is read: a level is as wide as its first row.
function glyphsTold(told, number) {
  const places = new Map(told.lines.filter(([, section, isHeading]) => section === "levels" && !isHeading).map(([line], place) => [line, place]));
  const rowIn = ({ line, rows }) => rows?.[places.get(number) - places.get(line)], level = told.levels.find((it) => rowIn(it) !== undefined), kindOf = kinds(told);
  if (level === undefined) return "";
  return quoted([...rowIn(level)].slice(0, [...level.rows[0]].length).filter((letter) => !["object", "and"].includes(kindOf(fold(letter)))));
}

// The names of a line that are there already, in it or above it.
function againTold({ objects, legend }, number) {
  const known = new Set(), lines = [...objects.map(({ line, names }) => [line, names]), ...legend.map(({ line, left }) => [line, left])];
  for (const [line, words] of lines.sort(([one], [other]) => one - other)) {
    const again = words.filter((word) => known.size === known.add(fold(word)).size);
    if (line === number) return quoted(again);
  }
  return "";
}

// Which of the two names that must be there is no object and no property.
function missingTold(told) {
  const kindOf = kinds(told);
  return quoted(["background", "player"].filter((name) => !["object", "or"].includes(kindOf(name))));
}

// Which sections are missing.
function missingSectionsTold({ lines }) {
  const headings = new Set(lines.filter(([, , isHeading]) => isHeading).map(([, section]) => section));
  return quoted(NEEDED.filter((name) => !headings.has(name)).map((name) => name.toUpperCase()));
}

// The keyword of a line that isn't played here, or the row with two `...`.
function outsideTold(source, number) {
  const words = before("message", descriptionOf(source).rules.find(({ line }) => line === number)?.words ?? []);
  const found = settingsOf(source).some(({ line, keyword }) => line === number && keyword === CLOCK) ? CLOCK : OUTSIDE.find((word) => words.includes(word));
  if (found) return `; here it is \`${found}\``;
  return words.filter((word) => word === "...").length > 1 ? "; here it is a row with two `...`" : "";
}

// What of a line is the culprit of a fault, in words that go on behind its sentence, or nothing.
function culpritOfFault({ code, line }, source) {
  const told = descriptionOf(source);
  if (told.why !== undefined) return "";
  switch (code) {
    case "Section": return line === 0 ? missingSectionsTold(told) : "";
    case "Unknown": return unknownTold(told, line);
    case "OutsideProfile": return outsideTold(source, line);
    case "BadGlyph": return glyphsTold(told, line);
    case "Duplicate": return againTold(told, line);
    case "NoLayer": return quoted(told.objects.filter((it) => it.line === line).map(({ names }) => names[0]));
    case "Missing": return missingTold(told);
    default: return "";
  }
}

// The loops, groups and rules of a source, by their first and last lines; a loop behind what stands in it.
function repeatedIn(source) {
  const found = [];
  let begin = null, group = [];
  for (const { line, words } of [...descriptionOf(source).rules, { line: 0, words: [""] }]) {
    if (words[0] !== "+") {
      if (group.length > 0) found.push({ first: group[0], last: there(group.at(-1)), isLoop: false });
      group = [];
    }
    if (words[0] === "startloop") begin = line;
    else if (words[0] === "endloop" && begin !== null) {
      found.push({ first: begin, last: line, isLoop: true });
      begin = null;
    } else group.push(line);
  }
  return found;
}

function repeatedTold({ first, last, isLoop }) {
  if (isLoop) return `the loop of lines ${first} to ${last}`;
  return first === last ? `the rule on line ${first}` : `the group of lines ${first} to ${last}`;
}

// In what a session hung, where one thing alone is repeated; else which loops and groups there are.
function loopsTold(source) {
  const repeated = repeatedIn(source);
  if (repeated.length === 1) return `; it is ${repeatedTold(repeated[0])}`;
  const loops = repeated.filter(({ first, last }) => first < last).map(repeatedTold);
  const more = loops.length > MOST_LINES ? ` and ${loops.length - MOST_LINES} more` : "";
  return loops.length > 0 ? `; it may be ${loops.slice(0, MOST_LINES).join(", ")}${more}, or a rule by itself` : "";
}

const INPUTS = ["up", "left", "down", "right", "action"];

// An input by its word.
export const inputTold = (input) => (typeof input === "string" ? input : INPUTS[input]);

// At which input a session stopped, where it did.
function stopTold(cause, source, inputs, frames) {
  // ticks of an input are shown with it taken; another stop comes before anything of its input is shown
  const at = (frames.at(-1)?.at ?? -1) - (cause === "again-limit" ? 1 : 0);
  const where = at >= 0 && at < inputs.length ? ` at input ${at} (${inputTold(inputs[at])})` : " at the start";
  return where + (cause === "loop-limit" ? loopsTold(source) : "");
}

// Why a session was refused or stopped: a sentence, and the line that is named, or null. `frames` are those that it showed.
export function culpritTold(cause, { source, inputs, frames = [] }) {
  const fault = faultIn(cause);
  const behind = fault ? culpritOfFault(fault, source) : ["loop-limit", "again-limit", "match-limit"].includes(cause) ? stopTold(cause, source, inputs, frames) : "";
  return { sentence: `${causeTold(cause)}${behind}`, line: fault && fault.line > 0 ? fault.line : null };
}

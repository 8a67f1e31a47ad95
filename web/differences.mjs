// @ts-check
// Where the site may decide otherwise: which of the differences of docs/differences.md a session that differs has the form of. The twin of
// python/saxtegun/differences.py.
import { before, descriptionOf, settingsOf } from "./descriptions.mjs";
import { Labels, readCells } from "./level-text.mjs";
import { shortened } from "./texts.mjs";
import { there } from "./there.mjs";

const WHERE_TOLD = "docs/differences.md";
const MOST_OF_A_RULE = 500; // words of a rule that are looked at,
const MOST_OF_A_LINE = 1000; // and letters of its line
const MOST_MOVED = 1000; // names that rules move that are looked at
const MOST_PROPERTIES = 50; // properties on the left of rules that are looked at
const MOST_BESIDE = 8; // other names of a row that are looked at
const LEVELS_LOOKED_AT = 20; // levels of a session in which it is looked for what is met
const GAP_OF_A_ROW = "...";
const BEHIND_A_COMMENT = /\([^()]*\)\s*(?:again|win|restart|cancel|checkpoint|message|sfx\d+)\b/i;

const ROW_MARKS = ["[", "]", "|"];
const COMMAND_WORD = /^(?:again|win|restart|cancel|checkpoint|message|sfx\d+)$/;
const WORDS_THAT_TURN = new Set([..."^v<>", "parallel", "perpendicular"]);
const DIRECTIONS = new Set(["up", "down", "left", "right", "horizontal", "vertical", "orthogonal"]);
const BEFORE_A_NAME = new Set(["no", "action", "stationary", "moving", ...WORDS_THAT_TURN, ...DIRECTIONS]);
const START = "run_rules_on_level_start";

const hasKeyword = (source, word) => settingsOf(source).some(({ keyword }) => keyword === word);

// The words of a rule left and right of its arrow, as far as they are looked at.
function sidesOf({ words }) {
  const looked = words.slice(0, MOST_OF_A_RULE), left = before("->", looked);
  return { left, right: looked.slice(left.length + 1) };
}

const isLate = ({ words }) => before("[", words).includes("late");

// The words in each row of a side that stand behind no `no`.
function rowsIn(words) {
  const rows = [];
  let row = [];
  words.forEach((word, at) => {
    if (words[at - 1] !== "no") row.push(word);
    if (word !== "]") return;
    rows.push(row);
    row = [];
  });
  return rows;
}

// The objects that names of a game stand for. Each name is gone through once, since many rows may have one name of many objects.
class Members {
  constructor(game) {
    this.game = game;
    this.known = new Map();
  }

  of(name) {
    if (!this.known.has(name)) this.known.set(name, [...new Set(this.game.members(name))]);
    return this.known.get(name);
  }
}

// The properties of one layer in a row, [{ name, line, members, beside }], with the objects that each other name of the row stands for.
function propertiesIn(row, line, members) {
  const { game } = members, named = [...new Set(row)].map((name) => ({ name, its: members.of(name) })), layersOf = (its) => new Set(its.map((it) => game.layers.get(it)));
  const others = row.includes(GAP_OF_A_ROW) ? [] : named.filter(({ its }) => its.length > 0).slice(0, MOST_BESIDE);
  return named.filter(({ name, its }) => game.isProperty(name) && its.length > 1 && layersOf(its).size === 1)
    .map(({ name, its }) => ({ name, line, members: its, beside: others.filter((it) => it.name !== name).map((it) => it.its) }));
}

// The properties of one layer that stand on the left of rules: the first of them, since a source may have many.
function propertiesOf(game, rules) {
  const found = [], members = new Members(game);
  for (const rule of rules) {
    found.push(...rowsIn(sidesOf(rule).left).flatMap((row) => propertiesIn(row, rule.line, members)));
    if (found.length >= MOST_PROPERTIES) break;
  }
  return found.slice(0, MOST_PROPERTIES);
}

// Whether a comment stands directly before a command of a rule that has both.
function isBehindAComment(rule, text, written) {
  const hasBoth = sidesOf(rule).right.some((word) => COMMAND_WORD.test(word)) && text.length < written.trim().length;
  return hasBoth && BEHIND_A_COMMENT.test(written.slice(0, MOST_OF_A_LINE).split("->").slice(1).join("->"));
}

// A form of a rule that the site reads otherwise, or nothing.
function ruleTold(source, rules) {
  let isBehindLate = false;
  for (const rule of rules) {
    const joins = rule.words[0] === "+";
    if (joins && isBehindLate && !isLate(rule)) return `the rule on line ${rule.line} has \`+\` below a late rule: on the site it isn't late`;
    isBehindLate = isLate(rule) || (joins && isBehindLate);
  }
  const written = source.split("\n"), texts = new Map(descriptionOf(source).lines.map(([number, , , text]) => [number, text]));
  const found = rules.find((rule) => isBehindAComment(rule, texts.get(rule.line), written[rule.line - 1]));
  return found === undefined ? "" : `a comment stands before a command on line ${found.line}: on the site it ends the rule`;
}

// A rule of several rows of one cell, which the site scans in its own direction, or nothing.
function scanTold(rules) {
  const found = rules.find((rule) => {
    const { left, right } = sidesOf(rule), isTurned = [...left, ...right].some((it) => WORDS_THAT_TURN.has(it)) || before("[", left).some((it) => DIRECTIONS.has(it));
    return !left.includes("|") && left.filter((it) => it === "[").length > 1 && right.includes("[") && isTurned;
  });
  return found === undefined ? "" : `the rows of the rule on line ${found.line} have one cell: on the site it takes places in its own direction, not column by column`;
}

// The cells of the rows of a side, by their words.
function cellsIn(words) {
  /** @type {string[][]} */
  const cells = [];
  let isIn = false;
  for (const word of words) {
    if (word === "[" || word === "|") cells.push([]);
    else if (isIn && word !== "]") there(cells.at(-1)).push(word);
    isIn = word === "[" || (isIn && word !== "]");
  }
  return cells;
}

// The layers of the objects that names of a game stand for, as the bits of a number: that of a layer is at its number plus one, that of no layer is the
// first. Each name is gone through once, since many words of rules may be one name of many objects.
class Layers {
  constructor(game) {
    this.game = game;
    this.known = new Map();
  }

  of(name) {
    if (!this.known.has(name)) {
      const numbers = this.game.members(name).map((it) => (this.game.layers.get(it) ?? -1) + 1);
      this.known.set(name, numbers.reduce((bits, number) => bits | (1n << BigInt(number)), 0n));
    }
    return this.known.get(name);
  }

  // The names of a cell that have no word before them, [name, its layers]; and the layers of all its names: { named, all }.
  ofCell(cell) {
    const named = [];
    let all = 0n, above = "";
    for (const word of cell) {
      if (!BEFORE_A_NAME.has(word)) {
        all |= this.of(word);
        if (above === "") named.push([word, this.of(word)]);
      }
      above = BEFORE_A_NAME.has(word) ? word : "";
    }
    return { named, all };
  }
}

// The layers in which rules move something, and that of the player.
function movedLayers(rules, layers) {
  const names = ["player"];
  for (const rule of rules) {
    const words = sidesOf(rule).right.filter((it) => !ROW_MARKS.includes(it));
    words.slice(1).forEach((name, at) => { if (BEFORE_A_NAME.has(words[at]) && words[at] !== "no" && words[at] !== "stationary") names.push(name); });
  }
  return names.slice(0, MOST_MOVED).reduce((all, name) => all | layers.of(name), 0n);
}

// A rule that places an object without a word where its left cell has nothing of its layer, and something may move; or nothing.
function placedTold(game, rules) {
  const layers = new Layers(game), moved = movedLayers(rules, layers);
  for (const rule of rules.filter((it) => !isLate(it))) {
    const { left, right } = sidesOf(rule), lefts = cellsIn(left);
    for (const [at, cell] of cellsIn(right).slice(0, lefts.length).entries()) {
      const there = layers.ofCell(lefts[at]).all, [name] = layers.ofCell(cell).named.find(([, of]) => (of & moved) !== 0n && (of & there) === 0n) ?? [];
      if (name !== undefined) return `the rule on line ${rule.line} places \`${shortened(name)}\`, which takes over what moves in its layer: on the site it is still`;
    }
  }
  return "";
}

// That a level was won by its first tick, or nothing.
function startTold(source, frames) {
  const isWon = frames.slice(1).some(({ kind, at }, before) => kind === "load" && (at === 0 || frames[before].kind === "load"));
  return isWon && hasKeyword(source, START) ? "a level was won by its first tick: on the site that tick wins nothing" : "";
}

// How often each name stands in a level.
function namesMet(text) {
  const labels = new Labels(), counts = new Map(), met = new Map();
  for (const label of readCells(text, labels) ?? []) counts.set(label, (counts.get(label) ?? 0) + 1);
  for (const [label, count] of counts) for (const name of labels.names[label]) met.set(name, (met.get(name) ?? 0) + count);
  return met;
}

// Whether it may matter in a level which member of a property comes first: two are met, and nothing else of the row stands there but once, where a row fits
// once in a direction.
function mayDecide({ members, beside }, met) {
  const isTwice = (its) => its.reduce((all, it) => all + (met.get(it) ?? 0), 0) > 1;
  return members.filter((it) => met.has(it)).length > 1 && beside.every(isTwice);
}

// A property of which it may have mattered which member comes first, or nothing.
function propertyTold(game, rules, frames) {
  const properties = propertiesOf(game, rules), levels = properties.length === 0 ? [] : frames.filter(({ kind }) => kind === "start" || kind === "load").slice(0, LEVELS_LOOKED_AT);
  for (const { level } of levels) {
    const met = namesMet(level), found = properties.find((it) => mayDecide(it, met));
    if (found) return `\`${shortened(found.name)}\` in the rule on line ${found.line} stands for objects of one layer: on the site the first place counts, not the first member`;
  }
  return "";
}

// An input that the site heeds not, or nothing.
function heedlessTold(source, inputs) {
  const word = ["undo", "restart"].find((it) => inputs.includes(it) && hasKeyword(source, `no${it}`));
  return word === undefined ? "" : `the game has \`no${word}\`: on the site the ${word} of this session does nothing`;
}

// The difference that a session has most likely met, in a sentence without its end, or null.
export function likelyTold({ source, game, inputs, frames }) {
  const { rules } = descriptionOf(source);
  const told = heedlessTold(source, inputs) || startTold(source, frames) || propertyTold(game, rules, frames) || ruleTold(source, rules) || scanTold(rules)
    || placedTold(game, rules);
  return told === "" ? null : `the site may decide otherwise: ${told} (${WHERE_TOLD})`;
}

// @ts-check
// What the page reads of a game takes not much more than twice the time for twice the text.
import assert from "node:assert/strict";
import test from "node:test";
import { setFlagsFromString } from "node:v8";
import { runInNewContext } from "node:vm";
import { culpritTold } from "../../web/faults.mjs";
import { readFileSync } from "node:fs";
import { toAdd } from "../../web/findings.mjs";
import { findingsIn } from "../../web/console.mjs";
import { likelyTold } from "../../web/differences.mjs";
import { rowsInWords } from "../../web/cells.mjs";
import { descriptionOf, readBy } from "../../web/descriptions.mjs";
import { unescaped } from "../../web/javascript.mjs";
import { Game } from "../../web/game.mjs";
import { SessionFile } from "../../web/session-file.mjs";
import { withOtherFile } from "../../web/filing.mjs";
import { sessionOpened } from "../../web/suite.mjs";
import { beginning, withGame } from "../../web/work.mjs";
import { Clocks } from "../../web/ticks.mjs";
import { eachInPieces } from "../../web/pieces.mjs";
import { GAME } from "./bench.mjs";
import { module } from "./module.mjs";

const HEAD = "OBJECTS\nBackground .\nblack\nPlayer p\nwhite\n";
const LETTERS = Array.from({ length: 20_000 }, (_, k) => String.fromCharCode(0x4e00 + k));
const MOST = 2.3, LEAST_MS = 40, LARGE = 1_000_000;

function told(code, text, before = "RULES\n") {
  const source = `${HEAD}${before}${text}\n`;
  return culpritTold(`${code}:${source.split("\n").length - 1}`, { source, inputs: [] });
}

// Letters of which each stands for the next, and the last for nothing.
const chain = (size) => `LEGEND\n${LETTERS.slice(0, size).map((it, k) => `${it} = ${LETTERS[k + 1]}`).join("\n")}\nLEVELS\n`;

// A game of so many objects, each in a layer of its own, with a name for all of them.
function objectsInLayers(size) {
  const names = Array.from({ length: size }, (_, k) => `a${k}`);
  return `OBJECTS\nBackground .\nblack\n\nPlayer p\nwhite\n\n${names.map((it) => `${it}\nred\n\n`).join("")}LEGEND\nall = ${names.join(" or ")}\nCOLLISIONLAYERS\nBackground\nPlayer\n${names.join("\n")}\n`;
}

// Looks at so many rules, with a property of many objects in them.
function propertyInRules(size) {
  const source = `${objectsInLayers(90)}RULES\n${"[ > Player | all ] -> [ > Player | > all ]\n".repeat(size)}WINCONDITIONS\nLEVELS\np.\n`;
  assert.equal(likelyTold({ source, game: new Game(source), inputs: [], frames: [] }), null);
}

// Adds as many recordings as the text that they are of has levels.
function recordingsOfOneText(size) {
  const text = `${HEAD}LEVELS\n${"p\n\n".repeat(size)}`;
  toAdd(Array.from({ length: size }, (_, index) => ({ name: "", source: "", inputs: [], level: "", index })), [], text);
}

const sessionsOf = (size) => new SessionFile("f.json", new TextEncoder().encode(JSON.stringify(Array.from({ length: size }, () => ["", ["x", [], ""]]))));

// Lets as many sessions follow a text.
function sessionsThatFollow(size) {
  const numbers = Array.from({ length: size }, (_, number) => number);
  assert.ok(sessionsOf(size).withoutSources(numbers).entries.every(({ source }) => source === ""));
}

// Tells in words a level of as many cells as each has names.
function inWords(size) {
  const names = Array.from({ length: size }, (_, k) => `a${k}`);
  rowsInWords({ width: size, cells: new Array(size).fill(0), order: "rows" }, () => names);
}

const FORM = readFileSync(new URL("../forms/console-with-headings.txt", import.meta.url), "utf-8");
// Pieces that look like recordings, or are some.
const PIECES = [FORM, "[ > Player | Crate ] -> [ > Player ]\n", '["', '"["', '"[\\"', '[\\"', "['", "'[\"", "[`", "[&quot;", '["a",', '["a",["objects",[0],"b",', '/*["', '["/*', '["objects"\n', "[\u201c", '["a\\', '"\n[', '["undo",', "\\n[", '[<br>"', '["a",//'];

// Looks for a recording in a file of so many, with a text that is nearly its own, and long.
function recordingInMany(size) {
  const long = `${GAME}\n${`(${"x".repeat(97)})\n`.repeat(9000)}`;
  const others = Array.from({ length: size }, (_, number) => [`s${number}`, ["", [1, number % 5], "background:0,", 0]]);
  const file = new SessionFile("f.json", new TextEncoder().encode(JSON.stringify([...others, ["last", [`${long}(b)\n`, [1, 2, 3], "background:0,", 0]]])));
  const last = sessionOpened(withOtherFile(withGame(beginning(GAME), `${long}(a)\n`), file), size);
  sessionOpened({ ...last, work: { ...last.work, inputs: [1, 2, 3, 0] } }, 0);
}

/** @type {Record<string, [number, (size: number) => unknown]>} */
const READINGS = {
  "blanks in a title": [100_000, (size) => new Game(`title x${" ".repeat(size)}x\n${HEAD}`)],
  "letters that stand for one another": [2000, (size) => told("BadGlyph", LETTERS.slice(0, size).join(""), chain(size))],
  "objects": [2000, (size) => new Game(`${HEAD}${"a\nred\n\n".repeat(size)}`)],
  "objects of a property in rules": [500, propertyInRules],
  "names of cells in words": [1000, inWords],
  "a name that is not there, of many letters": [10_000, (size) => told("Unknown", `[ ${"ab".repeat(size)} ]`, `${"ba".repeat(size)}\nred\nRULES\n`)],
  "many names that are not there": [1000, (size) => told("Unknown", `[ ${LETTERS.slice(0, size).join(" ")} ]`)],
  "a name again and again": [10_000, (size) => told("Duplicate", `${"a b ".repeat(size)}\nred`, "")],
  "letters that draw nothing": [5000, (size) => told("BadGlyph", LETTERS.slice(0, size).join(""), "LEVELS\n")],
  "recordings of texts of their own": [2000, (size) => toAdd(Array.from({ length: size }, (_, index) => ({ name: "one", source: `title ${index}`, inputs: [], level: "", index })), [], "title x\r\n".repeat(20 * size))],
  "recordings of one name": [2000, (size) => toAdd(Array.from({ length: size }, (_, index) => ({ name: "one name", source: "", inputs: [], level: "", index })), [], "")],
  "recordings of one text": [500, recordingsOfOneText],
  "sessions that follow a text": [4000, sessionsThatFollow],
  "a recording in a file of many": [4000, recordingInMany],
  ...Object.fromEntries(PIECES.map((piece) => [`a search in ${JSON.stringify(piece.slice(0, 20))} again and again`, [2 ** Math.ceil(Math.log2(50_000 / piece.length)), (size) => findingsIn(piece.repeat(size))]])),
  "brackets": [20_000, (size) => descriptionOf(`${"(".repeat(size)}${")".repeat(size)}\n${HEAD}`)],
};

setFlagsFromString("--expose-gc");
const collect = runInNewContext("gc");

// Milliseconds of the processor, which others that use it take least from, without what earlier acts left in memory.
function timeOf(act, size) {
  readBy(module); // which knows no text yet
  collect();
  const begin = process.cpuUsage();
  act(size);
  return process.cpuUsage(begin).user / 1000;
}

const leastOf = (act, size) => Math.min(...[1, 2, 3].map(() => timeOf(act, size)));

// The first size, doubled until it takes long enough to be timed, or null where none does.
function timedSize(act, first) {
  let size = first;
  for (; timeOf(act, size) < LEAST_MS; size *= 2) if (size > LARGE) return null;
  return size;
}

// How many times the time of a size the double takes.
const growthOf = (act, size) => leastOf(act, 2 * size) / leastOf(act, size);

for (const [what, [size, act]] of Object.entries(READINGS)) {
  test(`twice the input takes about twice the time: ${what}`, () => {
    const growths = [], timed = timedSize(act, size);
    // memory that is just outgrown takes time of its own, which another size doesn't
    for (const times of timed === null ? [] : [1, 2, 4, 1, 2, 4, 1, 2, 4]) {
      growths.push(growthOf(act, times * timed));
      if (growths.at(-1) <= MOST) return;
    }
    assert.equal(timed, null, `${growths}`);
  });
}

const LONG = 2_600_000;

test("a text of escapes alone takes little more than replacing each", () => {
  const text = '\\"'.repeat(LONG), acts = [() => unescaped(text), () => text.replace(/\\["x]/gu, (it) => it.slice(1))];
  const [taken, least] = acts.map((act) => Math.min(...[1, 2, 3, 4].map(() => {
    collect();
    const begin = process.cpuUsage();
    assert.equal(act().length, LONG);
    return process.cpuUsage(begin).user;
  })));
  assert.ok(taken < 3 * least, `${taken} ${least}`);
});

// Texts of one piece again and again, with what stands before and behind it, and how many recordings are in it.
/** @type {[string, string, string, number][]} */
const ROUNDS = [["[", "<br>", "", 0], ["[", "&nbsp;", "&quot;", 0], ['["a",', "<br>", "1]", 0], ['"', "\\n", "", 0], ['"[', "\\n", "", 0], ['[["a",["",[', '"undo",', '1],""]]]', 1]];

test("a piece is read again and again, however often it stands there", () => {
  for (const [before, piece, behind, count] of ROUNDS) {
    assert.equal(findingsIn(before + piece.repeat((10 * LONG) / piece.length) + behind).found.length, count, before + piece);
  }
});

test("a text that many sessions have is read once for its clock, and one without the word not at all", async () => {
  const asked = [], clocks = new Clocks((source) => { asked.push(source); return ""; }), { signal } = new AbortController();
  const texts = Array.from({ length: 130 }, (_, k) => `${k} Realtime_Interval`);
  for (let turn = 0; turn < 3; turn += 1) assert.equal(await clocks.read([...texts, "none", ...texts], signal), true);
  assert.deepEqual([asked, clocks.isThere(texts[7]), clocks.isThere("none")], [texts, true, false]);
});

// A timer tells whether the thread was given back, however slow the machine is.
test("many texts are read in pieces, between which the thread is given back, until that is stopped", async () => {
  const taken = [], told = [], stopping = new AbortController(), things = Array.from({ length: 1000 }, (_, k) => k);
  const busy = (thing) => {
    const end = performance.now() + 10;
    while (performance.now() < end);
    if (taken.push(thing) === 10) setTimeout(() => stopping.abort());
  };
  assert.equal(await eachInPieces(things, busy, stopping.signal, (done, all) => told.push([done, all])), false);
  assert.deepEqual([taken.length >= 10, taken.length < 1000, told[0], told.at(-1)], [true, true, [0, 1000], [taken.length, 1000]]);
  assert.deepEqual([await eachInPieces([1, 2], (it) => taken.push(it), new AbortController().signal), taken.slice(-2)], [true, [1, 2]]);
});

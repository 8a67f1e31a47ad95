// @ts-check
// What strangers make long or large: names, levels, causes and groups of rules. A browser is given no more of them than it lays out and draws in a moment.
import assert from "node:assert/strict";
import test from "node:test";
import { Boards } from "../../web/boards.mjs";
import { DifferingCells, InWords, cellTold, rowsInWords } from "../../web/cells.mjs";
import { sayable } from "../../web/elements.mjs";
import { Ending, endingTold, obstacleTold, partingOf, partingTold } from "../../web/comparing.mjs";
import { isDrawn, isOfOneSize, isTooLarge } from "../../web/levels.mjs";
import { MOST_OF_A_LEVEL } from "../../web/limits.mjs";
import { nameShown, notesTold, putBackTold } from "../../web/page-words.mjs";
import { Player } from "../../web/player.mjs";
import { say, tell } from "../../web/saying.mjs";
import { headingsTold, stageTold } from "../../web/stage-words.mjs";
import { shortened } from "../../web/texts.mjs";
import { culpritTold } from "../../web/faults.mjs";
import { module } from "./module.mjs";
import { WORK, putDocument, stateOf, takeDocument } from "./stand-ins.mjs";

const LONG = "x".repeat(1_000_000);
const level = (cells) => ({ width: cells.length, cells, order: "rows" });

test("of the names in a cell no more are told than are read", () => {
  assert.deepEqual([[], ["a"], ["a", "b c"], ["\u202ea"]].map(cellTold), ["nothing", "a", "a b c", "\\u{202e}a"]);
  for (const names of [[LONG], ["a", LONG, LONG], Array.from({ length: 1_000_000 }, (_, number) => `n${number}`)]) assert.equal(cellTold(names).length, 401);
});

test("cells with long names are told apart where their beginnings are the same", () => {
  const names = [[`${LONG}a`], [`${LONG}b`]], boards = { names, beside: "recorded", sides: [[0, 1], [0, 0]].map((cells) => ({ level: level(cells) })), labelAt: Boards.prototype.labelAt };
  const told = (column) => Boards.prototype.told.call(boards, column, 0), cell = cellTold(names[0]);
  assert.deepEqual([0, 1, 2].map(told), [`column 1, row 1: ${cell}`, `column 2, row 1: ${cell}; recorded: ${cell}`, "column 3, row 1: no cell"]);
  assert.deepEqual(rowsInWords(level([0, 0, 1]), (label) => names[label]), [`2 \u00d7 ${cell}, ${cell}`]);
});

test("of a level in words no more rows are told than a browser lays out at once, and how many more there are", () => {
  const listed = { replaceChildren: ({ nodes }) => { listed.nodes = nodes.map(({ textContent }) => textContent); }, nodes: [] };
  const fragment = () => ({ nodes: [], append(node) { this.nodes.push(node); } });
  putDocument({ getElementById: (id) => (id === "words" ? listed : { open: true, addEventListener: () => {} }), createElement: () => ({}), createDocumentFragment: fragment });
  const told = (rows, name) => { new InWords().show({ ...level(new Array(rows).fill(0)), width: 1 }, () => [name]); return listed.nodes; };
  assert.deepEqual(told(3, "wall"), ["wall", "wall", "wall"]);
  assert.deepEqual(told(252, "x".repeat(400)), [...new Array(250).fill("x".repeat(400)), "and 2 rows more"]);
  assert.equal(told(6_553, "wall").length, 6_553);
  takeDocument();
});

test("of cells that differ the chosen one is listed, however long the others are told", () => {
  const elements = { differing: { nodes: [], replaceChildren(...nodes) { this.nodes = nodes; } } }, element = () => ({ addEventListener: () => {}, setAttribute() { this.isCurrent = arguments[1]; } });
  putDocument({ getElementById: (id) => (elements[id] ??= element()), createElement: element });
  const cells = new DifferingCells(() => {}), letters = 1_000, listed = () => elements.differing.nodes.map(({ textContent, isCurrent }) => [textContent.slice(0, 3), isCurrent]);
  cells.show(Array.from({ length: 1_000 }, (_, cell) => cell), (cell) => `${cell}`.padEnd(letters));
  assert.deepEqual([listed().length, listed()[0], listed().at(-1)], [101, ["0  ", "false"], ["and", undefined]]);
  for (let pressed = 0; pressed < 400; pressed += 1) cells.next();
  assert.deepEqual([listed().length, listed().filter(([, isCurrent]) => isCurrent === "true")], [101, [["399", "true"]]]);
  assert.equal(elements.differing.nodes.at(-1).textContent, "and 900 cells more");
  takeDocument();
});

test("a level of more cells than one that is played has is not drawn, and compared with none", () => {
  const [most, more] = [16_384, 16_385].map((count) => ({ ...level(new Array(count).fill(0)), width: 128 }));
  assert.deepEqual([most, more, level([]), null, undefined, { text: "x" }].map((it) => [isDrawn(it), Boolean(isTooLarge(it))]), [[true, false], [false, true], ...new Array(4).fill([false, false])]);
  assert.deepEqual([isOfOneSize(most, most), isOfOneSize(more, more)], [true, false]);
  const rows = [6_553, 6_554].map((count) => level(new Array(count).fill(0))), columns = rows.map((it) => ({ ...it, width: 1 }));
  assert.deepEqual([...rows, ...columns].map(isDrawn), [true, false, true, false]);
});

test("what was zoomed before is drawn no larger than a browser draws it", () => {
  putDocument({ getElementById: () => ({ getAttribute: () => "false" }) });
  const page = { roomFor: () => ({ width: 600, height: 600 }), most: 64 }, boards = Object.assign(Object.create(Boards.prototype), { page, places: [], blinking: null, zoom: 64 });
  /** @type {(sides: number[]) => number} */
  const scaleOf = ([width, height]) => {
    boards.sides = [{ level: { ...level(new Array(width * height).fill(0)), width } }];
    boards.draw();
    return boards.scale;
  };
  assert.deepEqual([[3, 1], [38, 38], [100, 100], [128, 128], [255, 64], [6_553, 1]].map(scaleOf), [64, 21, 8, 6, 6, 1]);
  takeDocument();
});

test("a report tells why a level isn't drawn, and no long text of it", () => {
  putDocument({ getElementById: () => ({ checked: false }) });
  const told = (it) => Player.prototype.sideShown.call({ at: 0, captionOf: () => "a caption" }, { caption: "played", run: { last: 0 } }, it).caption;
  assert.deepEqual([level([0]), level([]), level(new Array(20_000).fill(0)), { width: 4_000_000, height: 9 }, { text: `a,b:0,${LONG}` }].map(told), [
    "a caption", "played: an empty level text", "played: a level 20000 wide and 1 high, larger than any that is played",
    "played: a level 4000000 wide and 9 high, larger than any that is played", `played: a level text that can't be read back: a,b:0,${"x".repeat(494)}\u2026`,
  ]);
  takeDocument();
});

test("of another engine's cause no more is told than is read", () => {
  const runs = ["limit", LONG].map((cause) => ({ frames: [], close: "stopped", cause }));
  assert.equal(partingTold({ kind: "close", frame: 0 }, ...runs, []), `the same 0 frames, and then here stopped (limit), there stopped (${"x".repeat(200)}\u2026)`);
});

test("of names that share many short stretches the nearest is found, and not looked for a second time", { skip: !module }, () => {
  const named = (part, count) => Array.from({ length: count }, (_, number) => `${part}${String(number).padStart(4, "0")}`);
  const source = `OBJECTS\nBackground .\nblack\n\n${named("abc".repeat(12), 300).map((name) => `${name}\nred\n\n`).join("")}RULES\n[ ${named("acb".repeat(12), 20).join(" ")} ] -> []\n`, told = () => culpritTold("Unknown:906", { source, inputs: [] });
  const begin = process.cpuUsage().user, first = told(), middle = process.cpuUsage().user;
  assert.match(first.sentence, /name that is not there: `acbacb/);
  assert.deepEqual([told(), process.cpuUsage().user - middle < (middle - begin) / 5], [first, true]);
});

test("a text is shortened letter by letter, and is read no further", () => {
  const letter = "\u{1f468}";
  for (const one of ["a", letter, `a${letter}`]) {
    const letters = [...one.repeat(300)], told = (count) => shortened(letters.slice(0, count).join(""));
    for (const count of [0, 1, 199, 200]) assert.equal(told(count), letters.slice(0, count).join(""));
    for (const count of [201, 202, 300].filter((many) => many <= letters.length)) assert.equal(told(count), `${letters.slice(0, 200).join("")}..`);
  }
});

test("of a group's lines and of what heads somewhere no more is told than is read", () => {
  const lines = Array.from({ length: 60_000 }, (_, number) => 2 * number + 1), stage = { stage: "early", tick: 0, commands: [], headings: [[0, 0, LONG, "up"]] };
  assert.match(stageTold({ ...stage, lines }), /^rules of lines 1, 3, [0-9, ]+, 199 and 59900 more$/);
  assert.equal(stageTold({ ...stage, lines: [1, 2, 3, 5] }), "rules of lines 1 to 3, 5");
  assert.equal(headingsTold(stage), `Heads somewhere: ${"x".repeat(200)}.. at column 1, row 1: up.`);
});

test("of what is drawn otherwise no more is told than is read", () => {
  assert.equal(notesTold({ notes: ["a", LONG] }), `a; ${"x".repeat(200)}...`);
});

test("a level text that is longer than one that is read is compared letter by letter alone", () => {
  const most = `${"x".repeat(MOST_OF_A_LEVEL - 3)}:0,`, more = `x${most}`, ending = (recorded) => new Ending("a:0,", recorded, "columns");
  assert.deepEqual([most, more].map((it) => [ending(it).recorded?.cells.length ?? null, endingTold(ending(it)), obstacleTold({ cause: null }, ending(it))]), [
    [1, "1 of 1 cell (1 wide, 1 high) differs from the recorded level", null], [null, "the text of the recorded level has more than 1,048,576 letters, and is not read", null],
  ]);
  const run = (level) => ({ frames: [{ at: 0, kind: "start", level }], close: "differs", cause: null });
  assert.deepEqual([partingOf(run(more), run(more)), partingOf(run("a:0,"), run(most))], [null, { frame: 0, kind: "level" }]);
  for (const levels of [[more, "a:0,"], ["a:0,", more]]) assert.throws(() => partingOf(...levels.map(run)), { message: "the text of a level has more than 1,048,576 letters, and is not read where it is another one here" });
});

test("of whatever is said no more is said in one piece than a browser lays out in a moment, with a sign that it is cut", () => {
  const element = () => ({ textContent: "", replaceChildren(...nodes) { this.textContent = nodes.map((it) => it.textContent).join(""); } });
  const elements = { "message-text": element(), status: element() }, marked = (count) => "a\u0301".repeat(count), letter = "\u{1f468}";
  putDocument({ getElementById: (id) => elements[id], createElement: element });
  say("message-text", marked(100_000));
  tell("status", { text: marked(100_000), close: null });
  assert.deepEqual(Object.values(elements).map(({ textContent }) => textContent), new Array(2).fill(`${marked(2000)}\u2026`));
  assert.deepEqual([marked(2000), "", `a${letter.repeat(2000)}`].map(sayable), [marked(2000), "", `a${letter.repeat(1999)}\u2026`]);
  const cells = Array.from({ length: 128 }, (_, label) => label), [row] = rowsInWords(level(cells), (label) => [`${marked(100)}${label}`]);
  assert.deepEqual([row.length, row.at(-1)], [4001, "\u2026"]);
  takeDocument();
});

test("of a long name no more is shown than its field takes, and no half of a letter", () => {
  const letter = "\u{1f468}", shown = (name) => nameShown(stateOf({ work: { ...WORK, name } }));
  assert.deepEqual(["", "a name", LONG, letter.repeat(1500), `a${letter.repeat(1500)}`].map(shown), ["", "a name", "x".repeat(2000), letter.repeat(1000), `a${letter.repeat(999)}`]);
  assert.equal(putBackTold(stateOf({ past: [{ work: { ...WORK, name: LONG } }] })), `Puts back the name ${"x".repeat(200)}..`);
});

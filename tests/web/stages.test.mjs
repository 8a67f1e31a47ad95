// @ts-check
// The stages of an input on the page, without a browser: the recording is played by the module in Node, and the stages are written by hand.
import assert from "node:assert/strict";
import test from "node:test";
import { linesAsBands } from "../../web/marked-lines.mjs";
import { actedBy, stagesBy } from "../../web/page-engine.mjs";
import { framesOf, shownOf } from "../../web/replaying.mjs";
import { coverageTold, headingsTold, stageShown, stageTold, stagesTold } from "../../web/stage-words.mjs";
import { chosenStage, coverageOf, coverageStopped, covered, inputsOfLine, lineNow, linePointedAt, linesMarked, lookedAtActed, opened, stageChosen, stageStepped, stagesNow } from "../../web/staging.mjs";
import { Strip } from "../../web/strip.mjs";
import { edited, lookedAtInput, pressed } from "../../web/work.mjs";
import { Bench, GAME, module } from "./bench.mjs";
import { putDocument, takeDocument } from "./stand-ins.mjs";
/** @typedef {Pick<import("../../engine/saxtegun").Engine, "stages">} Stages */

const it = (name, act) => test(name, { skip: module === undefined && "there is no module" }, act);
const RULE = GAME.split("\n").indexOf("[ > Player | Crate ] -> [ > Player | > Crate ]") + 1;
const TWO_RULES = GAME.replace("-> [ > Player | > Crate ]", "-> [ > Player | > Crate ]\nlate [ Wall | Crate ] -> [ Wall | Crate ]");

// An engine whose stages are known: each input moves, and the third pushes. The levels are those of its frames.
class Told {
  constructor() {
    this.asked = [];
  }

  /** @type {Stages["stages"]} */
  stages({ source, inputs, index }, number, { order }) {
    this.asked.push([inputs.length, number]);
    const { frames } = module.frames({ source, inputs, index }, { order }), [before, after] = [frames[number - 1]?.level, frames[number].level];
    if (number === 0) return { stages: [], fault: null };
    const stage = (name, level, headings, more = {}) => ({ changed: true, commands: [], headings, input: number, level, stage: name, tick: 0, ...more });
    const pushes = number === 3 ? [stage("early", before, [[1, 3, "crate", "up"], [1, 4, "player", "up"]], { block: 0, lines: [RULE] })] : [];
    return { stages: [stage("input", before, [[1, 4, "player", "up"]]), ...pushes, stage("movement", after, []), stage("end", after, [])], fault: null };
  }
}

/** @type {(engine?: Stages, inputs?: number[], text?: string) => Promise<Bench>} */
async function staged(engine = new Told(), inputs = [2, 1, 0], text = GAME) {
  const bench = new Bench();
  bench.engine.stages = async (wanted) => stagesBy(engine, wanted);
  bench.engine.acted = async (wanted) => actedBy(engine, wanted);
  await bench.act(edited, text);
  for (const input of inputs) await bench.act(pressed, input);
  return bench;
}

// Waits until no more inputs are looked through.
async function lookedThrough(bench) {
  while (bench.runner.doing.coverage !== null) await new Promise((settle) => setTimeout(settle, 1));
}

it("nothing is asked of the engine for stages until their list is open", async () => {
  const engine = new Told(), bench = await staged(engine);
  assert.deepEqual([engine.asked, stagesNow(bench.state)], [[], null]);
  await bench.act(opened, true);
  assert.deepEqual(engine.asked, [[3, 3]]);
  assert.equal(stagesTold(bench.state), "Stages of input 2 (up):");
  assert.deepEqual(stagesNow(bench.state).stages.map(stageTold), ["the press", `rules of line ${RULE}`, "the movement", "the end of the step"]);
});

it("stages are stepped through: the level behind each, what it changed, what heads where, and the line that acted", async () => {
  const bench = await staged(), level = (number) => framesOf(bench.state)[number].level;
  await bench.act(stageStepped, 1);
  assert.deepEqual([bench.state.staging.isOpen, chosenStage(bench.state)], [true, null]);
  await bench.act(stageStepped, 1);
  assert.deepEqual([chosenStage(bench.state), stageShown(bench.state)], [0, { text: level(2), before: level(2), headings: [[1, 4, "player", "up"]], told: "behind the press" }]);
  await bench.act(stageStepped, 1);
  assert.deepEqual([chosenStage(bench.state), linesMarked(bench.state)], [1, { lit: [RULE], never: [] }]);
  await bench.act(stageStepped, 1);
  assert.deepEqual(stageShown(bench.state), { text: level(3), before: level(2), headings: [], told: "behind the movement" });
  for (let times = 0; times < 3; times += 1) await bench.act(stageStepped, 1);
  assert.deepEqual([chosenStage(bench.state), linesMarked(bench.state)], [3, { lit: [], never: [] }]);
  for (let times = 0; times < 5; times += 1) await bench.act(stageStepped, -1);
  assert.equal(chosenStage(bench.state), null);
});

it("another frame, another input and a closed list have no stage chosen", async () => {
  const bench = await staged();
  await bench.act(opened, true);
  await bench.act(stageChosen, 1);
  await bench.act(lookedAtInput, 1);
  assert.deepEqual([chosenStage(bench.state), stagesTold(bench.state), stagesNow(bench.state).stages.length], [null, "Stages of input 0 (down):", 3]);
  await bench.act(lookedAtInput, 0);
  assert.equal(stagesTold(bench.state), "No rule runs at the start.");
  await bench.act(lookedAtInput, 3);
  await bench.act(stageChosen, 1);
  await bench.act(pressed, 2);
  assert.deepEqual([chosenStage(bench.state), stagesTold(bench.state)], [null, "Stages of input 3 (down):"]);
  await bench.act(stageChosen, 0);
  await bench.act(opened, false);
  assert.deepEqual([chosenStage(bench.state), stagesNow(bench.state), shownOf(bench.state)], [null, null, 4]);
});

it("a line of RULES leads to the inputs in which it acted, and to its stage there", async () => {
  const bench = await staged(new Told(), [2, 1, 0, 2]);
  await bench.act(linePointedAt, RULE);
  assert.equal(lineNow(bench.state), null, "the list of stages is closed");
  await bench.act(opened, true);
  await bench.act(linePointedAt, 1);
  assert.equal(lineNow(bench.state), null, "there is no rule on the line");
  await bench.act(linePointedAt, RULE);
  await lookedThrough(bench);
  assert.deepEqual([inputsOfLine(bench.state), coverageTold(bench.state)], [[3], `The group or loop of line ${RULE} acted in 1 input.`]);
  await bench.act(lookedAtActed, 3);
  assert.deepEqual([shownOf(bench.state), chosenStage(bench.state), linesMarked(bench.state)], [3, 1, { lit: [RULE], never: [] }]);
  await bench.act(edited, `${GAME}\n`);
  assert.equal(lineNow(bench.state), null, "a line of another text is another one");
});

it("lines that never acted are grey once all inputs are looked through", async () => {
  const bench = await staged(new Told(), [2, 1, 0], TWO_RULES);
  await bench.act(opened, true);
  assert.deepEqual(linesMarked(bench.state).never, []);
  await bench.act(covered);
  await lookedThrough(bench);
  assert.deepEqual([coverageOf(bench.state), linesMarked(bench.state).never, coverageTold(bench.state)], [{ done: 4, total: 4 }, [RULE + 1], "1 line of rules never acted (grey)."]);
  await bench.act(covered);
  assert.deepEqual([linesMarked(bench.state).never, coverageTold(bench.state)], [[], ""]);
});

it("of a text that is refused nothing is played, and no rule is said not to act", async () => {
  const bench = await staged(new Told(), [], GAME.replace("[ > Player | Crate ] ->", "[ > Player | Create ] ->"));
  bench.engine.stages = async () => ({ stages: [], fault: null });
  bench.engine.acted = async () => ({ lines: [[]], fault: null });
  await bench.act(opened, true);
  await bench.act(covered);
  await lookedThrough(bench);
  const told = "Nothing is played, so no rule runs.";
  assert.deepEqual([stagesTold(bench.state), coverageTold(bench.state), linesMarked(bench.state).never], [told, told, []]);
  await bench.act(edited, GAME);
  assert.equal(stagesTold(bench.state), "No rule runs at the start.");
});

it("the marks of inputs count them from 0, as all else does", () => {
  const stand = () => ({ addEventListener() {}, setAttribute() {} });
  putDocument({ getElementById: stand, createElement: stand });
  try {
    assert.deepEqual([0, 1].map((number) => new Strip({}).mark([3, "undo"][number], number + 1).title), ["input 0: right", "input 1: undo"]);
  } finally {
    takeDocument();
  }
});

it("which lines never acted is worked out once, and lists of lines that are alike are held once", async () => {
  const bench = await staged(new Told(), [2, 1, 0, 0, 1, 1], TWO_RULES);
  await bench.act(opened, true);
  await bench.act(covered);
  await lookedThrough(bench);
  const { acted } = bench.state.staging, alike = acted.lines.filter((list, place) => place > 0 && String(list) === String(acted.lines[place - 1]));
  assert.deepEqual([alike.length > 0, acted.lines.filter((list, place) => list === acted.lines[place - 1]).length], [true, alike.length]);
  let reads = 0;
  const lines = acted.lines.map((list) => new Proxy(list, { get: (it, asked) => { reads += 1; return Reflect.get(it, asked); } }));
  const state = { ...bench.state, staging: { ...bench.state.staging, acted: { ...acted, lines } } }, told = [linesMarked(state).never, reads];
  assert.deepEqual([told[0], coverageTold(state)], [[RULE + 1], "1 line of rules never acted (grey)."]);
  assert.deepEqual([linesMarked(state).never, reads], told);
});

it("of a recording over its own text the lines that never acted are told by their numbers, and none is grey", async () => {
  const bench = await staged(new Told(), [], GAME);
  await bench.act((state) => ({ ...state, work: { ...state.work, own: `\n${TWO_RULES}`, inputs: [2] } }));
  await bench.act(opened, true);
  await bench.act(covered);
  await lookedThrough(bench);
  assert.deepEqual([coverageTold(bench.state), linesMarked(bench.state)], [`2 lines of rules never acted in this recording's own text: ${RULE + 1} to ${RULE + 2}.`, { lit: [], never: [] }]);
});

it("of a longer recording only what is new is looked through", async () => {
  const engine = new Told(), bench = await staged(engine);
  await bench.act(opened, true);
  await bench.act(covered);
  await lookedThrough(bench);
  engine.asked.length = 0;
  await bench.act(pressed, 2);
  await lookedThrough(bench);
  assert.deepEqual([engine.asked, coverageOf(bench.state)], [[[4, 4], [4, 4]], { done: 5, total: 5 }]);
});

it("looking through inputs is stopped, told, and goes on when it is asked for again", async () => {
  const bench = await staged();
  await bench.act(opened, true);
  let ask = bench.engine.acted;
  bench.engine.acted = () => new Promise(() => {});
  await bench.act(covered);
  await bench.act(coverageStopped);
  assert.deepEqual([bench.runner.doing.coverage, coverageTold(bench.state), linesMarked(bench.state).never], [null, "Stopped: 0 of 4 inputs.", []]);
  bench.engine.acted = ask;
  await bench.act(covered);
  await bench.act(covered);
  await lookedThrough(bench);
  assert.deepEqual(coverageOf(bench.state), { done: 4, total: 4 });
});

it("of a stopped game the input is looked at as well at which it stopped", async () => {
  const loop = GAME.replace("[ > Player | Crate ] -> [ > Player | > Crate ]", "startloop\n[ > Player | Crate ] -> [ > Player | Crate ] again\n[ > Player | Crate ] -> [ left Player | Crate ]\n[ left Player | Crate ] -> [ > Player | Crate ]\nendloop");
  const engine = { stages: (_, number) => ({ stages: [{ input: number, stop: "loop-limit", tick: 0 }], fault: null }) }, bench = await staged(engine, [], loop);
  const { kind, level } = framesOf(bench.state)[0];
  bench.runner.update((state) => ({ ...state, work: { ...state.work, inputs: [2, 1, 0] }, played: { ...state.played, inputs: [2, 1, 0], frames: [0, 1, 2].map((at) => ({ at, kind, level })), cause: "loop-limit" } }));
  await bench.act(opened, true);
  assert.deepEqual([stagesTold(bench.state), stagesNow(bench.state).stages.map(stageTold)], ["Stages of input 1 (left) and input 2 (up):", ["stopped: loop-limit", "stopped: loop-limit"]]);
  await bench.act(stageChosen, 1);
  assert.equal(stageShown(bench.state).text, framesOf(bench.state)[1].level, "a stop shows the level before it");
});

it("an engine without stages, or one that breaks, is told, and asked no more", async () => {
  /** @type {[string, string | RegExp][]} */
  const faults = [["no-stages", "The engine in this page gives no stages."], ["broken", /^The engine gave no stages: /]];
  for (const [fault, told] of faults) {
    let asked = 0;
    const bench = await staged({ stages: () => { asked += 1; return { stages: [], fault }; } });
    await bench.act(opened, true);
    await bench.act(covered);
    await lookedThrough(bench);
    await bench.act((state) => state);
    assert.equal(asked, 2);
    for (const words of [stagesTold(bench.state), coverageTold(bench.state)]) typeof told === "string" ? assert.equal(words, told) : assert.match(words, told);
    await bench.act(stageStepped, 1);
    assert.equal(chosenStage(bench.state), null);
  }
});

it("stages and headings in words", () => {
  const early = { stage: "early", block: 0, lines: [3, 4, 5, 9], commands: ["again", "cancel"], tick: 2 };
  assert.equal(stageTold(early), "tick 2: rules of lines 3 to 5, 9 (again, cancel)");
  assert.equal(stageTold({ ...early, stage: "late", lines: [7], commands: [], tick: 0 }), "late rules of line 7");
  const press = { stage: "input", headings: [[0, 0, "player", "up"]], commands: [], tick: 0 };
  assert.deepEqual([press, { ...press, headings: [], tick: 1 }].map(stageTold), ["the press", "tick 1: the step begins"]);
  assert.equal(headingsTold({ headings: [[1, 0, "crate", "right"]] }), "Heads somewhere: crate at column 2, row 1: right.");
  assert.equal(headingsTold({}), "");
});

it("lines that follow one another are one band, those out of sight have none, and the later mark of a line is seen", () => {
  const style = linesAsBands([[[9, 2, 3], "grey"], [[3], "gold"]], { height: 20, top: 8, scrolled: 10, seen: 100 });
  assert.deepEqual(style, { backgroundImage: "linear-gradient(gold, gold), linear-gradient(grey, grey)", backgroundPosition: "0 38px, 0 18px", backgroundSize: "100% 20px, 100% 40px", backgroundRepeat: "no-repeat" });
});

it("where a line acted is looked up once, and not anew at each input", async () => {
  const reads = [];
  for (const length of [3, 30]) {
    const bench = await staged(new Told(), Array.from({ length }, (_, number) => [2, 1, 0, 3][number % 4]));
    await bench.act(opened, true);
    await bench.act(linePointedAt, RULE);
    await lookedThrough(bench);
    const count = { texts: 0 }, state = new Proxy(bench.state, { get: (it, asked) => { count.texts += Number(asked === "text"); return it[asked]; } });
    assert.equal(inputsOfLine(state)[0], 3);
    reads.push(count.texts);
  }
  assert.equal(reads[0], reads[1]);
});

// @ts-check
// "Solve from here", without a browser: what is asked, what is said of the answers, and what the ghost and "Take it" make of them.
import assert from "node:assert/strict";
import test from "node:test";
import { isSavable } from "../../web/filing.mjs";
import { Ghost } from "../../web/ghost.mjs";
import { searchesIn } from "../../web/page-engine.mjs";
import { framesOf, shownOf } from "../../web/replaying.mjs";
import { ghostOf, solutionNow, solutionTaken, solutionTold, solveAsked, solveStopped, wantedSolution } from "../../web/solving.mjs";
import { cutBack, edited, lookedAtInput, pressed, putBack, ticked } from "../../web/work.mjs";
import { Bench, GAME, module } from "./bench.mjs";
import { IdleWorker } from "./stand-ins.mjs";

const it = (name, act, isSkipped = module === undefined) => test(name, { skip: isSkipped && "there is no module for it" }, act);
const moved = () => new Promise((settle) => setTimeout(settle, 1));

// A bench on which these inputs were played, whose engine answers a search by what it is told to.
async function played(inputs, answer) {
  const bench = Object.assign(new Bench(), { asked: [] });
  bench.engine.solution = async (asked) => {
    bench.asked.push(asked);
    return answer;
  };
  await bench.runner.idle();
  for (const input of inputs) await bench.act(pressed, input);
  return bench;
}

async function solved(inputs, answer) {
  const bench = await played(inputs, answer);
  await bench.act(solveAsked);
  await moved();
  return bench;
}

const found = (presses, frames = []) => ({ solution: { solved: presses }, frames, fault: null });

it("what is looked at is asked about", async () => {
  const bench = await played([1, 0, 3], found([2]));
  await bench.act(lookedAtInput, 2);
  await bench.act(solveAsked);
  await moved();
  assert.deepEqual(bench.asked.map(({ source, index, order, inputs }) => [source, index, order, inputs]), [[GAME, 0, "columns", [1, 0]]]);
});

it("each answer is told", async () => {
  for (const [inputs, answer, told] of [
    [[], found([0, 1, 2, 3, 4]), "Won in 5 presses from the start on, and in no fewer: up left down right action."],
    [[1], found([0]), "Won in 1 press from input 1 on, and in no fewer: up."],
    [[], { solution: { unsolvable: true }, frames: [], fault: null }, "No presses win from the start on."],
    [[], { solution: { outOfBounds: { inputs: 1, levels: 1000 } }, frames: [], fault: null }, "Not known: no list of up to 1 press wins from there, and longer ones lead to more than 1,000 levels of play, as many as are kept."],
    [[], { solution: { over: true }, frames: [], fault: null }, "All levels are won."],
    [[], { solution: { stopped: true }, frames: [], fault: null }, "There is no level to win."],
    [[], { solution: null, frames: [], fault: "memory" }, "Nothing is known: there is not enough memory."],
    [[], { solution: null, frames: [], fault: "no-solutions" }, "Nothing is known: the engine of this page is an older one, which solves no levels."],
  ]) {
    const bench = await solved(inputs, answer);
    assert.equal(solutionTold(bench.state), told);
  }
});

it("of a game with a rule that restarts it is said of which presses it is told", async () => {
  const out = { solution: { outOfBounds: { inputs: 1, levels: 10 } }, frames: [], fault: null };
  for (const [command, apart] of [["restart", " without a restart by a rule"], ["again restart", " without a restart by a rule"], ["message restart", ""], ["again (restart)", ""]]) {
    for (const [answer, told] of [
      [found([0]), `Won in 1 press from the start on, and in no fewer${apart}: up.`],
      [{ solution: { unsolvable: true }, frames: [], fault: null }, `No presses win from the start on${apart}.`],
      [out, `Not known: no list of up to 1 press wins from there${apart}, and longer ones lead to more than 10 levels of play, as many as are kept.`],
    ]) {
      const bench = await played([], answer);
      await bench.act(edited, GAME.replace("WINCONDITIONS", `[ > Player | Wall ] -> ${command}\nWINCONDITIONS`));
      await bench.act(solveAsked);
      await moved();
      assert.equal(solutionTold(bench.state), told);
    }
  }
});

it("of a game with a clock it is said that ticks are not tried", async () => {
  for (const [answer, told] of [[found([0]), "Won in 1 press from the start on, and in no fewer: up. Its ticks are not tried."], [{ solution: { unsolvable: true }, frames: [], fault: null }, "No presses win from the start on. Its ticks are not tried."]]) {
    const bench = await played([], answer);
    await bench.act(edited, GAME.replace("OBJECTS", "realtime_interval 1\nOBJECTS"));
    await bench.act(ticked, true);
    await bench.act(solveAsked);
    await moved();
    assert.equal(solutionTold(bench.state), told);
  }
});

it("an answer stays as long as the recording begins so, and is gone with another text", async () => {
  const bench = await solved([1], found([0, 0]));
  await bench.act(pressed, 3);
  assert.deepEqual(solutionNow(bench.state).presses, [0, 0]);
  await bench.act(cutBack);
  await bench.act(cutBack);
  assert.deepEqual([solutionNow(bench.state), solutionTold(bench.state)], [null, ""]);
  const other = await solved([1], found([0, 0]));
  await other.act(edited, `${GAME}\n`);
  assert.equal(solutionNow(other.state), null);
});

it("a search that is stopped, or of something else by now, has no answer", async () => {
  const bench = await played([1], null);
  /** @type {(answer: ReturnType<typeof found>) => void} */
  let answer = () => {};
  bench.engine.solution = () => new Promise((settle) => { answer = settle; });
  await bench.act(solveAsked);
  assert.equal(solutionTold(bench.state), "Looking for presses that win from input 1 on \u2026");
  await bench.act(pressed, 0);
  assert.notEqual(wantedSolution(bench.state), null, "a key that goes on leaves it");
  await bench.act(solveStopped);
  answer(found([0]));
  await moved();
  assert.deepEqual([wantedSolution(bench.state), solutionNow(bench.state), solutionTold(bench.state)], [null, null, ""]);
});

test("a search has no answer of the one before, whenever that comes, and its worker ends", async () => {
  const workers = [], solution = searchesIn(() => workers[workers.push(new IdleWorker()) - 1], "the module"), stopping = new AbortController();
  const first = solution("first", stopping.signal), second = solution("second", new AbortController().signal);
  await moved();
  assert.deepEqual(workers.map(({ asked }) => asked), [[{ module: "the module" }, { sought: "first" }], [{ module: "the module" }, { sought: "second" }]]);
  stopping.abort();
  workers[0].onmessage({ data: "answer to the first" });
  workers[1].onmessage({ data: "answer to the second" });
  assert.deepEqual([await first, await second, workers.map(({ isEnded }) => isEnded)], ["answer to the first", "answer to the second", [true, true]]);
  // one that doesn't end by itself is ended, and another that was begun meanwhile is not
  const ending = new AbortController(), stopped = solution("third", ending.signal), last = solution("fourth", new AbortController().signal);
  await moved();
  ending.abort();
  assert.deepEqual([await stopped, workers.map(({ isEnded }) => isEnded)], [null, [true, true, true, false]]);
  workers[3].onmessage({ data: "answer to the fourth" });
  assert.deepEqual([await last, workers.length, workers[3].isEnded], ["answer to the fourth", 4, true]);
});

it("of two searches that are asked for behind one another the answer to the second counts, whichever comes first", async () => {
  for (const turn of [[0, 1], [1, 0]]) {
    const bench = await played([1, 0], null), answers = [];
    bench.engine.solution = () => new Promise((settle) => { answers.push(settle); });
    await bench.act(solveAsked);
    await bench.act(solveStopped);
    await bench.act(lookedAtInput, 1);
    await bench.act(solveAsked);
    for (const number of turn) {
      answers[number](found([number]));
      await moved();
    }
    assert.deepEqual([answers.length, solutionNow(bench.state).presses, solutionNow(bench.state).asked.inputs], [2, [1], [1]]);
  }
});

it("the presses are taken behind those from which they were looked for, and put back", async () => {
  const bench = await solved([1, 0], found([2, 3]));
  await bench.act(pressed, 1);
  await bench.act(solutionTaken);
  assert.deepEqual([bench.state.work.inputs, framesOf(bench.state).length], [[1, 0, 2, 3], 5]);
  await bench.act(putBack);
  assert.deepEqual(bench.state.work.inputs, [1, 0, 1]);
});

it("a ghost shows the presses one after another, and nothing is recorded", async () => {
  const frames = [{ at: 2, kind: "move", level: "a:0,\n" }, { at: 3, kind: "move", level: "b:0,\n" }, { at: 3, kind: "load", level: "c:0,\n" }];
  const bench = await solved([1], found([2, 3], frames)), before = bench.state;
  assert.deepEqual([0, 1, 2].map((count) => { const seen = ghostOf(before, count); return framesOf(seen)[shownOf(seen)].level; }), [before.played.frames[1].level, "a:0,\n", "c:0,\n"]);
  assert.deepEqual(ghostOf(before, 1).work.inputs, [1, 2, 3]);
  assert.deepEqual([isSavable({ ...before, queue: [] }), isSavable({ ...ghostOf(before, 1), queue: [] })], [true, false]);
  const shown = [], ghost = new Ghost(() => shown.push(ghost.seen(before).ghost?.count ?? null));
  ghost.begin(before);
  while (shown.length < 3) await moved();
  assert.deepEqual([shown, ghost.end(), ghost.seen(before) === before], [[0, 1, 2], true, true]);
  ghost.begin(before);
  await bench.act(cutBack);
  assert.equal(ghost.seen(bench.state), bench.state, "it is gone with what it stands on");
});

it("the engine's answer wins, and no shorter one is known", async () => {
  const bench = new Bench();
  await bench.runner.idle();
  await bench.act(solveAsked);
  await moved();
  const { presses, frames } = solutionNow(bench.state);
  assert.deepEqual([presses.length, frames.at(-1).kind, frames.at(-1).at], [33, "load", 33]);
  await bench.act(solutionTaken);
  assert.deepEqual(framesOf(bench.state).at(-1).kind, "load");
}, !module?.hasSolutions);

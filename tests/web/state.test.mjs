// @ts-check
// What an author does on the page, without a browser: the state is played by the module in Node. What is expected is written by hand.
import assert from "node:assert/strict";
import test from "node:test";
import { Ending } from "../../web/comparing.mjs";
import { findingsIn } from "../../web/console.mjs";
import { keptOf, stateFrom } from "../../web/kept-work.mjs";
import { endTold, faultOfText, othersTold, ownTold, putBackTold, statusOf, stepTold, tabTold, toldOfLevel, unlikenessTold, verdictOf } from "../../web/page-words.mjs";
import { SessionFile } from "../../web/session-file.mjs";
import { withOwnNames } from "../../web/findings.mjs";
import { accepted, followed, namesakeOf, removed, savedAs, savedLater, withOtherFile, withRecordings } from "../../web/filing.mjs";
import { lastLost } from "../../web/past.mjs";
import { framesOf, isPlayed, shownOf, sourceOf } from "../../web/replaying.mjs";
import { differenceOf, playedAgain, rowsOf, seenOf, sessionOf, sessionOpened, suiteCame } from "../../web/suite.mjs";
import { beginning, begunAnew, cutBack, edited, fromLevel, held, inOrder, lookedAt, lookedAtInput, named, pressed, putBack, released, ticked, withGame, withOwnText, withRefusal, withoutRefusals } from "../../web/work.mjs";
import { Bench, GAME, comparedWithLines, module, read } from "./bench.mjs";

const PUSH = "[ > Player | Crate ] -> [ > Player | > Crate ]", BROKEN = GAME.replace(PUSH, "[ > Player | Crate ] -> [ Player | Crate ]");
const OTHER = GAME.replace("title ", "title Another ");
const DAY = JSON.parse(read("examples/day/recordings.json").toString());
const bytesOf = (value) => new TextEncoder().encode(JSON.stringify(value));
const fileOf = (value, name = "mine.json") => new SessionFile(name, bytesOf(value));
const entriesIn = (state) => JSON.parse(new TextDecoder().decode(state.file.bytes));
const closes = (state) => rowsOf(state).map(({ close }) => close);
const recordingsInText = (text) => withOwnNames(findingsIn(text).found.map(({ line, ...it }) => it), GAME);
const it = (name, act) => test(name, { skip: module === undefined && "there is no module" }, act);

async function played(...inputs) {
  const bench = new Bench();
  for (const input of inputs) await bench.act(pressed, input);
  return bench;
}

// The inputs that push a crate in the first level of the example, and a bench on which these are saved as "push".
const PUSHING = [2, 1, 0];

async function withPush() {
  const bench = await played(...PUSHING);
  await bench.act(named, "push");
  await bench.act(savedAs);
  return bench;
}

// ---- a recording

it("each input is played behind the frame that is looked at, and what is cut off can be put back", async () => {
  const bench = await played(1, 0, 3);
  assert.deepEqual([bench.state.work.inputs, framesOf(bench.state).length, shownOf(bench.state)], [[1, 0, 3], 4, 3]);
  await bench.act(lookedAtInput, 1);
  await bench.act(pressed, 2);
  assert.deepEqual([bench.state.work.inputs, putBackTold(bench.state)], [[1, 2], "Puts back a recording of 3 inputs"]);
  await bench.act(putBack);
  assert.deepEqual(bench.state.work.inputs, [1, 0, 3]);
  await bench.act(putBack);
  assert.deepEqual(bench.state.work.inputs, [1, 2]);
});

it("inputs are cut behind the frame that is looked at, or the last one", async () => {
  const bench = await played(1, 0, 3);
  await bench.act(cutBack);
  await bench.act(cutBack);
  assert.deepEqual([bench.state.work.inputs, bench.state.past.length], [[1], 1]);
  await bench.act(putBack);
  await bench.act(lookedAt, 0);
  await bench.act(cutBack);
  assert.deepEqual([bench.state.work.inputs, framesOf(bench.state).length], [[], 1]);
});

it("keys that are pressed before the first is played are all taken, each behind what was looked at then", async () => {
  const bench = new Bench(), press = (...inputs) => inputs.forEach((input) => bench.runner.update((state) => pressed(state, input)));
  press(1, 0, 3);
  await bench.runner.idle();
  assert.deepEqual(bench.state.work.inputs, [1, 0, 3]);
  press(2);
  await bench.act(lookedAt, 0);
  assert.deepEqual([bench.state.work.inputs, shownOf(bench.state)], [[1, 0, 3, 2], 0]);
  bench.runner.update((state) => lookedAtInput(state, 2));
  press(1, 1);
  await bench.runner.idle();
  assert.deepEqual([bench.state.work.inputs, shownOf(bench.state)], [[1, 0, 1, 1], 4]);
  press(2, 3);
  await bench.act(cutBack);
  assert.deepEqual(bench.state.work.inputs, [1, 0, 1, 1, 2]);
});

const LOOPING = GAME.replace(PUSH, "startloop\n[ right Player ] -> [ left Player ]\n[ left Player ] -> [ right Player ]\nendloop");

it("a stop at the first key names that key, by the number that the command gives it", async () => {
  const bench = new Bench();
  await bench.act(withGame, LOOPING);
  assert.equal(faultOfText(bench.state), null);
  await bench.act(pressed, 3);
  assert.deepEqual(bench.state.work.inputs, []);
  assert.match(statusOf(bench.state).text, /at input 0 \(right\).*The input is left out\.$/);
});

it("an input is called by the number that the command gives it", async () => {
  const bench = await played(1, 0);
  assert.match(stepTold(bench.state), /^after input 1 \(up\); /);
  await bench.act(lookedAt, 0);
  assert.match(stepTold(bench.state), /^before any input; /);
});

it("until what is worked on is played, nothing that was played before is said of it", async () => {
  const bench = await played(1, 0), won = { ...bench.state, played: { ...bench.state.played, isSolved: true } };
  assert.deepEqual([endTold(won), endTold(bench.state).text], [{ text: "\u2713 solved", isSolved: true }, "not solved"]);
  for (const change of [(state) => edited(state, OTHER), (state) => withGame(state, OTHER), (state) => fromLevel(state, 1), (state) => inOrder(state, "rows"), (state) => held(edited(state, OTHER)), (state) => withOtherFile(state, fileOf([["one", [OTHER, [1], "background:0,", 0]]]))]) {
    const next = change(won);
    assert.deepEqual(endTold(next), { text: "not played yet", isSolved: false });
    assert.match(stepTold(next), /^as it was played before: after input 1 \(up\)/);
    assert.match(toldOfLevel(next), /^as it was played before: Simple Block Pushing Game, /);
  }
  assert.deepEqual(endTold(beginning(GAME)), { text: "not played yet", isSolved: false });
  await bench.act(edited, "title Nothing");
  assert.deepEqual(endTold(bench.state), { text: "not played", isSolved: false });
});

// ---- one truth about the text

it("a recording over the text at hand has no text of its own, and an edit is what is played", async () => {
  const bench = await withPush();
  assert.deepEqual(entriesIn(bench.state).map(([name, [source, inputs, , index]]) => [name, source, inputs, index]), [["push", "", PUSHING, 0]]);
  assert.deepEqual([closes(bench.state), tabTold(bench.state)], [["passed"], "Sessions (1)"]);
  await bench.act(edited, BROKEN);
  assert.deepEqual([closes(bench.state), tabTold(bench.state)], [["differs"], "Sessions: 1 differs"]);
  assert.match(statusOf(bench.state).text, /^Differs from what was recorded\. It passed before; since then it goes another way from frame 3 on, after input 2 \(up\)\.$/);
  await bench.act(edited, GAME);
  assert.deepEqual([closes(bench.state), tabTold(bench.state), verdictOf(bench.state, null).close], [["passed"], "Sessions (1)", "passed"]);
});

it("sessions with another text are told in the list and in the verdict, and follow the text at hand where that is wanted", async () => {
  const bench = new Bench(), walk = [[1], "background:0,", 0];
  await bench.act(withGame, GAME);
  await bench.act(withOtherFile, fileOf([["own", [OTHER, ...walk]], ["same", [GAME, ...walk]], ["none", ["", ...walk]], ["own too", [OTHER, ...walk]]]));
  assert.deepEqual(rowsOf(bench.state).map(({ isOther }) => isOther), [true, false, false, true]);
  assert.equal(othersTold(bench.state), "2 sessions have another text, and are not played over the one on the left: `saxtegun source` makes them follow game.txt.");
  assert.match(ownTold(bench.state), /^This recording has a text of its own/);
  assert.deepEqual([sourceOf(bench.state), bench.state.text], [OTHER, GAME]);
  await bench.act(followed);
  assert.deepEqual([othersTold(bench.state), ownTold(bench.state), sourceOf(bench.state)], ["The sessions are played over the text on the left.", "", GAME]);
  assert.deepEqual(entriesIn(bench.state).map(([, [source]]) => source), ["", GAME, "", ""]);
  await bench.act(putBack);
  assert.deepEqual(entriesIn(bench.state).map(([, [source]]) => source), [OTHER, GAME, "", OTHER]);
});

it("where all pass, but not over the text at hand, no tick is shown", async () => {
  const bench = await played(1);
  await bench.act(savedAs);
  const [[name, [, inputs, level, index]]] = entriesIn(bench.state);
  await bench.act(withGame, OTHER);
  await bench.act(withOtherFile, fileOf([[name, [GAME, inputs, level, index]]]));
  assert.deepEqual([closes(bench.state), verdictOf(bench.state, null).close], [["passed"], null]);
  assert.match(verdictOf(bench.state, null).text, /^All passed, but not all over the text on the left/);
});

it("a forgotten text of the game is told as that", async () => {
  const bench = new Bench();
  await bench.act(edited, "");
  assert.equal(faultOfText(bench.state).sentence, "there is no text of a game: open it, paste it, or write it here");
});

it("the text of a file is taken to hand where nothing was written yet, and else stays where it is", async () => {
  const file = fileOf(DAY.map(([name, body]) => [name, [OTHER, ...body.slice(1)]]));
  const bench = new Bench();
  await bench.act(withOtherFile, file);
  assert.deepEqual([bench.state.text, othersTold(bench.state)], [OTHER, ""]);
  const another = new Bench();
  await another.act(edited, BROKEN);
  await another.act(withOtherFile, file);
  assert.equal(another.state.text, BROKEN);
  await another.act(withOwnText);
  assert.deepEqual([another.state.text, ownTold(another.state)], [OTHER, ""]);
  await another.act(putBack);
  assert.equal(another.state.text, BROKEN);
});

// ---- what must be solved, as its file says

const DAYS = (name) => DAY.find(([it]) => it === name)[1].slice(1), [WON, HALF] = ["the second level alone", "half way through the first"].map(DAYS);

test("what is nearly a demand is refused, as the command refuses it, and all else that stands behind a session is not", () => {
  const body = ["", [1], "background:0,", 0], ofRest = (...rest) => () => fileOf([["one", body, ...rest]]), ofBody = (...more) => () => fileOf([["one", [...body, ...more]]]);
  for (const nearly of ["Solved", "solvd", "sloved", "solve", "solved!", "is solved", "unsolved"]) assert.throws(ofRest(5, nearly), { message: `mine.json, session 0: its further element "${nearly}" is nearly "solved", and would demand nothing` });
  assert.throws(ofRest({ solved: true }), /: mine\.json, session 0: its further element that is an object holds "solved", and would demand nothing$/);
  assert.throws(ofRest([["x", "solved"]]), /: mine\.json, session 0: its further element that is a list holds "solved"/);
  for (const nearly of ["solved", "Solved", ["solved"]]) assert.throws(ofBody(5, nearly), /: mine\.json, session 0: its second list holds "solved" or nearly that, which would demand nothing there/);
  const isTaken = (...rest) => fileOf([["one", body, ...rest]]).entries.length === 1;
  assert.ok(isTaken("solved", 5) && isTaken("gold", "vessel", "some", "evolved"[0], null, true, { x: ["y"] }) && ofBody(5, "x")().entries.length === 1);
  const deepOf = (depth) => new SessionFile("deep.json", new TextEncoder().encode(`[["one",${JSON.stringify(body)},${"[".repeat(depth)}${"]".repeat(depth)}]]`));
  for (const depth of [126, 4000, 100_000]) assert.throws(() => deepOf(depth), { message: "deep.json, session 0: its lists and objects are more than 127 deep" });
  assert.equal(deepOf(125).entries.length, 1);
  assert.throws(ofRest({ x: ["\ud83d"] }), /session 0: a text of it holds half a letter/);
});

it("a session that passes and must be solved is told where it isn't, and only where the command demands it", async () => {
  const bench = new Bench(), wanted = (name, body, ...rest) => [name, ["", ...body], ...rest];
  await bench.act(withOtherFile, fileOf([wanted("won", WON, "solved"), wanted("half", HALF, 5, "solved"), wanted("plain", HALF), wanted("other", HALF, true, 1, ["x"], "so")]));
  assert.deepEqual(rowsOf(bench.state).map(({ close, isUnsolved }) => [close, isUnsolved]), [["passed", false], ["passed", true], ...Array(2).fill(["passed", false])]);
  assert.match(verdictOf(bench.state, null).text, /^1 no longer solved: 4 sessions in /);
  assert.deepEqual([verdictOf(bench.state, null).close, tabTold(bench.state), bench.state.work.opened], ["differs", "Sessions: 1 no longer solved", 1]);
  assert.deepEqual(statusOf(bench.state), { text: "Passed: the last level is the recorded one. But it must be solved, and isn't.", close: "failed" });
  await bench.act(withOtherFile, fileOf([wanted("won", WON, "solved"), wanted("plain", HALF)]));
  assert.deepEqual([verdictOf(bench.state, null).close, tabTold(bench.state)], ["passed", "Sessions (2)"]);
  await bench.act(edited, GAME.replace("All Target on Crate", "All Wall on Crate"));
  assert.deepEqual([tabTold(bench.state), bench.state.work.opened], ["Sessions: 1 no longer solved", 0]);
});

it("what is accepted or replaced and isn't solved though it must be is told as that", async () => {
  const bench = new Bench();
  await bench.act(withOtherFile, fileOf([["won", ["", [1], "background:0,", 0], "solved"], ["plain", ["", [1], "background:0,", 0]]]));
  for (const number of [0, 1]) {
    await bench.act(sessionOpened, number);
    await bench.act(lookedAt, Infinity);
  }
  await bench.act((state) => accepted(state, seenOf(state)));
  assert.deepEqual([bench.state.saved, tabTold(bench.state)], ["2 recorded levels changed; not all are solved that must be", "Sessions: 1 no longer solved"]);
  await bench.act(sessionOpened, 0);
  await bench.act(pressed, 1);
  await bench.act(savedAs, 0);
  assert.deepEqual([bench.state.saved, entriesIn(bench.state)[0].at(-1), tabTold(bench.state)], ["Saved in mine.json as session 0. It must be solved, and isn't.", "solved", "Sessions: 1 no longer solved"]);
  await bench.act(sessionOpened, 1);
  await bench.act(savedAs, 1);
  assert.equal(bench.state.saved, "Saved in mine.json as session 1.");
});

it("a session isn't saved in a file that wouldn't be read again with it, but in the place of another", async () => {
  const bench = await withPush();
  await bench.act(begunAnew);
  await bench.act(pressed, 3);
  const state = { ...bench.state, file: fileOf(new Array(65_536).fill(["x", ["", [], ""]])) }, [next, replaced] = [savedAs(state), savedAs(state, 7)];
  assert.deepEqual([next.saved, next.file === state.file], ["Not saved: mine.json has 65,536 sessions, and with more it wouldn't be read again.", true]);
  assert.deepEqual([replaced.saved, entriesIn(replaced)[7][1][1]], ["Saved in mine.json as session 7.", [3]]);
});

it("half a letter of a name is left out, and what can't be saved is told", async () => {
  const bench = await withPush();
  await bench.act(named, "wall\ud83d");
  await bench.act(savedAs);
  assert.deepEqual([bench.state.saved, entriesIn(bench.state)[1][0]], ["Saved in recordings.json as session 1.", "wall"]);
  const state = { ...bench.state, work: { ...bench.state.work, name: "wall\ud83d" } }, next = savedAs(state);
  assert.deepEqual([next.saved, next.file === state.file], ["Not saved: recordings.json, session 2: a text of it holds half a letter (a lone surrogate).", true]);
});

// ---- all is played at each edit, and the first that broke is shown

it("the first session that breaks is shown where nothing is in the way, and else the tab tells it", async () => {
  const bench = await withPush();
  await bench.act(named, "left alone");
  await bench.act(fromLevel, 1);
  await bench.act(savedAs);
  await bench.act(sessionOpened, 1);
  await bench.act(edited, BROKEN);
  assert.deepEqual([bench.state.work.opened, differenceOf(bench.state)?.why], [0, null]);
  await bench.act(edited, GAME);
  await bench.act(begunAnew);
  await bench.act(pressed, 3);
  await bench.act(edited, BROKEN);
  assert.deepEqual([bench.state.work.inputs, bench.state.work.opened, tabTold(bench.state)], [[3], null, "Sessions: 1 differs"]);
});

it("keys that wait are put back with the recording that they were pressed for", async () => {
  const bench = await played(3, 1);
  /** @type {import("../../web/state").Key[]} */
  const keys = [{ input: 0, behind: null, looked: null }, { input: 2, behind: 1, looked: 1 }, { input: "undo", behind: null, looked: null }];
  const waiting = { ...bench.state, queue: keys };
  for (const next of [fromLevel(waiting, 1), withGame(waiting, OTHER), edited(waiting, `${GAME}(x)`), withOtherFile(waiting, fileOf([DAY[0]]))]) {
    assert.deepEqual([next.queue, next.past.at(-1).work.inputs, putBack(next).work.inputs], [[], [3, 2, "undo"], [3, 2, "undo"]]);
  }
  // what they lead to is no loss
  assert.deepEqual([waiting.past, pressed(waiting, 4).past], [[], []]);
});

it("what a key would cut that waits can be put back too, where it isn't played", async () => {
  const bench = await played(3, 1, 0, 2);
  await bench.act(lookedAtInput, 1);
  const waiting = pressed(bench.state, 0), lostIn = ({ past }) => past.map(({ work }) => work?.inputs);
  assert.deepEqual(waiting.queue.map(({ behind }) => behind), [1]);
  for (const next of [begunAnew(waiting), fromLevel(waiting, 1), withGame(waiting, OTHER), putBack({ ...waiting, past: [{ text: OTHER, work: { ...waiting.work, inputs: [1, 1] } }] })]) {
    assert.deepEqual(lostIn(next).sort(), [[3, 0], [3, 1, 0, 2]]);
  }
  // those that stay where they are have it themselves
  for (const next of [held(waiting), inOrder(waiting, "rows"), ticked(waiting, true), edited(waiting, `${GAME}(x)`)]) assert.deepEqual([next.work.inputs, next.queue, lostIn(next)], [[3, 1, 0, 2], [], [[3, 0]]]);
  await bench.act(pressed, 0);
  assert.deepEqual([bench.state.work.inputs, lostIn(bench.state)], [[3, 0], [[3, 1, 0, 2]]]);
});

it("keys that wait over the example aren't played over the text that a file brings", async () => {
  const bench = await played(3, 1), waiting = pressed(pressed(bench.state, 0), 2), own = ["own", [OTHER, [1], "background:0,", 0]];
  for (const next of [withOtherFile(waiting, fileOf([own, own])), withRecordings(waiting, recordingsInText(JSON.stringify([OTHER, [1], "background:0,", 0])))]) {
    assert.deepEqual([next.text, next.queue, next.past.at(-1).work.inputs], [OTHER, [], [3, 1, 0, 2]]);
  }
  // nor lost where the text stays
  const beside = withOtherFile(waiting, fileOf(DAY));
  assert.deepEqual([beside.text, beside.queue.length], [GAME, 2]);
});

it("no session that broke is opened while keys wait", async () => {
  const bench = await withPush();
  await bench.act(fromLevel, 1);
  await bench.act(savedAs);
  await bench.act(sessionOpened, 1);
  const asked = edited(bench.state, BROKEN), waiting = { ...asked, queue: [{ input: 3, behind: null, looked: null }] };
  await bench.act(edited, BROKEN);
  const answer = { fault: null, lines: bench.state.suite.lines, unsolved: new Set() }, openedIn = (state) => suiteCame(state, state, answer, 1).work.opened;
  assert.deepEqual([openedIn(asked), openedIn(waiting)], [0, 1]);
});

it("why files aren't opened is said beside what else is, until something is done by hand", () => {
  const state = withRefusal(withRefusal(beginning(GAME), "one.json is no list"), "two.json is empty"), said = "Not opened: one.json is no list. Not opened: two.json is empty.";
  assert.deepEqual(statusOf(state), { text: said, close: "refused" });
  const next = withGame(state, `${GAME}\n`);
  assert.deepEqual(statusOf({ ...next, told: { text: "Taken.", close: null } }), { text: `${said} Taken.`, close: "refused" });
  assert.deepEqual(statusOf(withoutRefusals(next)), { text: "", close: null });
  const many = Array.from({ length: 7 }, (_, number) => `${number}`).reduce(withRefusal, beginning(GAME));
  assert.equal(statusOf(many).text, "Not opened: 0. Not opened: 1. Not opened: 2. Not opened: 3. Not opened: 4. Nor 2 more files.");
});

it("a file of one session is opened at once, is looked at from its start where it passes, and what is done with it meanwhile stays", async () => {
  const [name, [, inputs, level, index]] = DAY[0];
  for (const [recorded, looked] of [[level, 0], ["background:0,\n", null]]) {
    const bench = new Bench(), file = fileOf([[name, ["", inputs, recorded, index]]]), state = withOtherFile(bench.state, file);
    assert.deepEqual([state.work.opened, state.work.inputs, state.isNew], [0, inputs, true]);
    await bench.act(withOtherFile, file);
    assert.deepEqual([bench.state.work.opened, bench.state.looked, bench.state.isNew, bench.state.past.length], [0, looked, false, 0]);
  }
  const bench = new Bench();
  bench.runner.update((state) => withOtherFile(state, fileOf([[name, ["", inputs, level, index]]])));
  await bench.act((state) => pressed(state, 3));
  assert.deepEqual([bench.state.work.inputs.slice(0, inputs.length), bench.state.work.inputs.length > inputs.length, bench.state.isNew], [inputs, true, false]);
});

it("Play all shows the first that doesn't pass", async () => {
  const bench = new Bench();
  await bench.act(withOtherFile, new SessionFile("block-pushing.json", new Uint8Array(read("examples/block-pushing.json"))));
  assert.deepEqual([bench.state.work.opened, closes(bench.state)], [4, ["passed", "passed", "passed", "passed", "differs"]]);
  await bench.act(sessionOpened, 1);
  await bench.act(playedAgain);
  assert.deepEqual([bench.state.work.opened, sessionOf(bench.state) !== null, shownOf(bench.state) === framesOf(bench.state).length - 1], [4, true, true]);
});

// ---- accepting

it("only what is on the screen is accepted", async () => {
  const bench = await withPush();
  await bench.act(edited, BROKEN);
  assert.notEqual(differenceOf(bench.state), null);
  await bench.act(lookedAt, 1);
  assert.equal(differenceOf(bench.state), null);
  await bench.act(lookedAt, Infinity);
  await bench.act(pressed, 3);
  assert.equal(differenceOf(bench.state), null);
  await bench.act(sessionOpened, 0);
  const { reached } = differenceOf(bench.state);
  await bench.act(accepted, [0]);
  assert.deepEqual([entriesIn(bench.state)[0][1][2], closes(bench.state)], [reached, ["passed"]]);
  await bench.act(putBack);
  assert.deepEqual(closes(bench.state), ["differs"]);
});

it("what was seen before an edit was not seen as it differs under the new text", async () => {
  const bench = new Bench();
  await bench.act(withGame, GAME);
  await bench.act(withOtherFile, fileOf(DAY));
  for (const number of [0, 1, 2]) await bench.act(sessionOpened, number);
  await bench.act(edited, BROKEN);
  const differing = closes(bench.state).map((close, number) => [close, number]).filter(([close]) => close === "differs").map(([, number]) => number);
  assert.ok(differing.length > 1);
  // what is on the screen now is one of them, and no other was looked at
  assert.deepEqual(seenOf(bench.state), [bench.state.work.opened]);
  await bench.act(accepted, seenOf(bench.state));
  assert.equal(closes(bench.state).filter((close) => close === "differs").length, differing.length - 1);
});

it("what was recorded in the other order of cells is seen and not accepted", async () => {
  const bench = await played(2, 3);
  await bench.act(savedAs);
  await bench.act(inOrder, "rows");
  assert.deepEqual(closes(bench.state), ["differs"]);
  await bench.act(sessionOpened, 0);
  assert.match(differenceOf(bench.state).why, /other order/);
  assert.deepEqual(seenOf(bench.state), []);
});

// ---- nothing is lost

it("typed text is put back, whatever took its place", async () => {
  for (const act of [(state) => withGame(state, GAME), (state) => withGame(state, OTHER), (state) => withOtherFile(state, fileOf([])), (state) => withOwnText(sessionOpened(withOtherFile(state, fileOf(DAY.map(([name, body]) => [name, [OTHER, ...body.slice(1)]]))), 0))]) {
    const bench = new Bench();
    await bench.act(edited, BROKEN);
    await bench.act(act);
    if (bench.state.text !== BROKEN) await bench.act(putBack);
    assert.equal(bench.state.text, BROKEN);
  }
});

it("a session that is opened leaves the text at hand as it is", async () => {
  const bench = new Bench();
  await bench.act(edited, BROKEN);
  await bench.act(withOtherFile, new SessionFile("block-pushing.json", new Uint8Array(read("examples/block-pushing.json"))));
  for (const number of [0, 4]) {
    await bench.act(sessionOpened, number);
    assert.equal(bench.state.text, BROKEN);
  }
});

it("a file that was closed or replaced unsaved is put back, and what is put back besides another file opens no session of that", async () => {
  const bench = await withPush();
  await bench.act(withOtherFile, null);
  await bench.act(putBack);
  assert.deepEqual([bench.state.file.name, closes(bench.state), bench.state.isUnsaved], ["recordings.json", ["passed"], true]);
  await bench.act(sessionOpened, 0);
  await bench.act(lookedAt, Infinity);
  await bench.act(pressed, 1);
  await bench.act(withOtherFile, fileOf(DAY, "b.json"));
  // the recording that made way for a session of the file comes first
  await bench.act(putBack);
  assert.deepEqual([bench.state.work.inputs, bench.state.work.opened], [[...PUSHING, 1], null]);
  await bench.act(putBack);
  assert.equal(bench.state.file.name, "recordings.json");
  await bench.act((state) => ({ ...state, isUnsaved: false }));
  await bench.act(withOtherFile, fileOf(DAY, "b.json"));
  while (bench.state.past.length > 0 && bench.state.work.inputs.length !== 4) await bench.act(putBack);
  assert.equal(bench.state.work.opened, null);
  await bench.act(removed);
  assert.equal(bench.state.file.entries.length, DAY.length);
});

it("a session that was removed or replaced is put back", async () => {
  const bench = await withPush();
  await bench.act(pressed, 3);
  await bench.act(savedAs, namesakeOf(bench.state));
  assert.deepEqual(entriesIn(bench.state).map(([, [, inputs]]) => inputs), [[...PUSHING, 3]]);
  await bench.act(putBack);
  assert.deepEqual(entriesIn(bench.state).map(([, [, inputs]]) => inputs), [PUSHING]);
  await bench.act(sessionOpened, 0);
  await bench.act(removed);
  assert.deepEqual(entriesIn(bench.state), []);
  await bench.act(putBack);
  assert.equal(entriesIn(bench.state).length, 1);
});

it("of two sessions with one name the one that is open is replaced", async () => {
  const bench = new Bench(), inputs = () => entriesIn(bench.state).map(([, [, it]]) => it);
  await bench.act(withOtherFile, fileOf([["a", ["", [2, 3], "", 0]], ["a", ["", [1], "", 1]], ["b", ["", [0], "", 0]]]));
  await bench.act(sessionOpened, 1);
  await bench.act(lookedAt, Infinity);
  await bench.act(pressed, 2);
  await bench.act(savedAs, namesakeOf(bench.state));
  assert.deepEqual(inputs(), [[2, 3], [1, 2], [0]]);
  await bench.act(named, "b");
  assert.equal(namesakeOf(bench.state), 2);
  await bench.act((state) => named(begunAnew(state), "a"));
  assert.equal(namesakeOf(bench.state), 0);
});

it("a session without a name is replaced by itself, and not what has the name of a recording without one", async () => {
  const bench = new Bench(), told = () => entriesIn(bench.state).map(([name, [, it]]) => [name, it]);
  await bench.act(withOtherFile, fileOf([["a recording", ["", [2, 3], "", 0]], ["", ["", [1], "", 1]]]));
  await bench.act(sessionOpened, 1);
  await bench.act(lookedAt, Infinity);
  await bench.act(pressed, 2);
  assert.equal(namesakeOf(bench.state), 1);
  await bench.act(savedAs, 1);
  assert.deepEqual(told(), [["a recording", [2, 3]], ["", [1, 2]]]);
  await bench.act(savedAs);
  assert.deepEqual(told()[2], ["a recording", [1, 2]]);
});

it("what waits to be saved is not what came to hand meanwhile", async () => {
  const others = ["keep", "keep too"].map((name) => [name, [GAME, [3], "background:0,", 0]]);
  for (const change of [(state) => withOtherFile(state, fileOf(others)), (state) => withOtherFile(state, null), (state) => named(state, "another"), begunAnew, (state) => withGame(state, WON_BY_A_MOVE)]) {
    const bench = await withPush(), asked = bench.state;
    await bench.act(change);
    const { file } = bench.state;
    await bench.act(savedLater, asked, 0);
    assert.deepEqual([bench.state.file === file, bench.state.saved], [true, "Not saved: another text, recording or file came meanwhile."]);
  }
  // the same name over the same text, but another recording
  const anew = await played(...PUSHING);
  await anew.act(named, "push");
  const before = anew.state;
  await anew.act((state) => lookedAt(state, 0));
  await anew.act(pressed, 3);
  await anew.act(savedLater, before, 0);
  assert.deepEqual([anew.state.file === before.file, anew.state.saved], [true, "Not saved: another text, recording or file came meanwhile."]);
  // asked for twice, it is saved once
  const twice = await withPush(), once = twice.state;
  await twice.act(savedLater, once, null);
  const { saved } = twice.state;
  await twice.act(savedLater, once, null);
  assert.deepEqual([saved, twice.state.saved, entriesIn(twice.state).length], ["Saved in recordings.json as session 1.", saved, 2]);
  const bench = await withPush(), asked = bench.state;
  await bench.act(pressed, 3);
  await bench.act(savedLater, asked, 0);
  assert.deepEqual(entriesIn(bench.state).map(([, [, inputs]]) => inputs), [[...PUSHING, 3]]);
});

it("a key behind a session that was closed, and put back, does no harm", async () => {
  const bench = new Bench();
  await bench.act(withOtherFile, new SessionFile("a.json", new Uint8Array(read("examples/block-pushing.json"))));
  await bench.act(sessionOpened, 1);
  await bench.act(pressed, "undo");
  await bench.act(sessionOpened, 2);
  await bench.act(withOtherFile, null);
  await bench.act(putBack);
  await bench.act(pressed, 1);
  await bench.reload();
  assert.ok(isPlayed(bench.state));
  await bench.act(begunAnew);
  await bench.act(accepted, seenOf(bench.state));
  await bench.act(removed);
});

// ---- what is kept

it("all is there at the next visit: text, inputs, name, the file and what can be put back", async () => {
  const bench = await withPush();
  await bench.act(edited, BROKEN);
  await bench.act(begunAnew);
  await bench.act(pressed, 1);
  await bench.act(cutBack);
  await bench.act(named, "half");
  const before = bench.state;
  await bench.reload();
  const { text, work, past } = bench.state;
  assert.deepEqual([text, work.inputs, work.name, entriesIn(bench.state), past.length], [BROKEN, [], "half", entriesIn(before), before.past.length]);
  await bench.act(putBack);
  assert.deepEqual(bench.state.work.inputs, [1]);
});

it("a file that can be put back is read once it is, and has no sessions where it can't be read", async () => {
  const { kept } = await withPush(), bytes = new TextEncoder().encode('[["one",["",[1],"background:0,"]]]');
  for (const [wanted, written] of [[["one"], bytes], [[], new Uint8Array([1])]]) {
    const state = stateFrom({ ...kept, past: [{ file: { name: "f.json", bytes: written }, isUnsaved: true }] }, GAME);
    assert.equal(state.past[0].file.read, null);
    const back = putBack(state);
    assert.deepEqual([back.file.name, back.file.bytes, back.file.entries.map(({ name }) => name)], ["f.json", written, wanted]);
  }
});

it("an open file that this page reads no more can be put back as it is, and takes nothing else with it", async () => {
  const { kept } = await withPush();
  for (const written of [new Uint8Array([1]), new TextEncoder().encode('[["one",["",[3.0],""]]]')]) {
    const state = stateFrom({ ...kept, file: { name: "f.json", bytes: written }, isUnsaved: true, work: { ...kept.work, opened: 0 } }, GAME), back = putBack(state);
    assert.deepEqual([state.file, state.text, state.work], [null, kept.text, { ...kept.work, opened: null }]);
    assert.deepEqual([back.file.name, back.file.bytes, back.file.entries, back.isUnsaved], ["f.json", written, [], true]);
  }
});

it("what can't be read, or has another version, leaves a page that works", async () => {
  const { kept } = await withPush();
  const strange = [null, 1, "", {}, [], { version: 3 }, { ...kept, version: 9 }, { ...kept, text: 5 }, { ...kept, work: null }, { ...kept, work: { ...kept.work, inputs: [9] } }, { ...kept, past: 3 },
    { ...kept, file: { name: 1, bytes: new Uint8Array([1]) } }, { ...kept, order: "up" }, { source: "title", index: 0, inputs: null }];
  for (const [place, value] of strange.entries()) assert.equal(stateFrom(value, GAME), null, `${place}`);
});

it("of more than 20 things that were lost those stay that were lost last, and what was put back last is lost last", async () => {
  const bench = await played(2, 1, 0, 2, 2, 3, 3, 1), past = Array.from({ length: 20 }, (_, number) => ({ text: `${GAME}(${number})` }));
  bench.begin({ ...bench.state, past });
  const titles = () => bench.state.past.map(({ text, work }) => work?.inputs.length ?? Number(text.slice(GAME.length + 1, -1)));
  await bench.act(putBack);
  assert.deepEqual([titles()[0], titles().slice(1)], [8, Array.from({ length: 19 }, (_, number) => number)]);
  await bench.act(withGame, `${GAME}(x)`);
  // a text with the recording of 8 inputs over it
  assert.deepEqual(titles(), [...Array.from({ length: 19 }, (_, number) => number), 8]);
});

test("what can be put back has 16 MiB, and the last that was lost in any case", () => {
  const sizes = (...all) => lastLost(all.map((size) => ({ file: { bytes: { length: size * 2 ** 20 } } }))).map(({ file }) => file.bytes.length / 2 ** 20);
  assert.deepEqual(sizes(1, 10, 6), [10, 6]);
  assert.deepEqual(sizes(1, 11, 6), [6]);
  assert.deepEqual(sizes(1, 17), [17]);
});

const titled = (title) => GAME.replace(/title .*/, `title ${title}`);
const titleOf = (text) => /title (.*)/.exec(text)[1];

// What comes to hand as Put back is pressed again and again: the title of the text that is played, and the inputs.
async function putBackAll(bench, presses) {
  const back = [];
  for (let press = 0; press < presses; press += 1) {
    await bench.act(putBack);
    back.push([titleOf(sourceOf(bench.state)), bench.state.work.inputs]);
  }
  return back;
}

it("a recording comes back over the text that it was made over, whatever took its place and whatever comes back between", async () => {
  const bench = new Bench();
  await bench.act(withGame, titled("A"));
  await bench.act(pressed, 0);
  await bench.act(withGame, titled("B"));
  await bench.act(withGame, titled("A"));
  for (const input of [1, 1, 0]) await bench.act(pressed, input);
  await bench.act(begunAnew);
  await bench.act(withGame, titled("B"));
  assert.deepEqual((await putBackAll(bench, 1))[0], ["A", [1, 1, 0]]);
  const three = new Bench();
  await three.act(withGame, titled("A"));
  await three.act(pressed, 0);
  await three.act(withGame, titled("T"));
  for (const input of [1, 1, 1]) await three.act(pressed, input);
  await three.act(begunAnew);
  for (const input of [3, 3]) await three.act(pressed, input);
  assert.deepEqual(await putBackAll(three, 3), [["T", [1, 1, 1]], ["A", [0]], ["T", [3, 3]]]);
});

it("a text can be put back of which an edit leaves little, and none of which it leaves the most", async () => {
  /** @type {[string, boolean][]} */
  const edits = [
    [`${GAME}x`, false], [GAME.replace("title", "(a) title"), false], [GAME.slice(0, GAME.length / 2 + 9), false],
    [GAME.split("\n").reverse().join("\n"), false], ["", true], ["title Another\nOBJECTS\n", true],
  ];
  for (const [text, isLost] of edits) {
    const bench = await played(1, 2);
    bench.begin({ ...bench.state, example: "title none" });
    await bench.act(edited, text);
    assert.deepEqual([text.length, bench.state.past.map((lost) => [lost.text, lost.work.inputs])], [text.length, isLost ? [[GAME, [1, 2]]] : []]);
  }
});

test("a million recordings, or elements behind one, are refused", () => {
  const many = Array(300_000).fill({ name: "a", source: GAME, inputs: [1], level: "", index: 0 });
  assert.throws(() => withRecordings(beginning(GAME), many), { message: "there are 300,000 recordings: more than 65,536 sessions have no room here" });
  assert.throws(() => fileOf([["one", [GAME, [], "b", 0, ...Array(9997).fill(1)]]]), { message: "mine.json, session 0: its lists have more than 10,000 elements" });
  assert.equal(fileOf([["one", [GAME, [], "b", 0, ...Array(9996 - 1).fill(1)], 5]]).entries.length, 1);
  const members = (count) => Object.fromEntries(Array.from({ length: count }, (_, number) => [`${number}x`, 0]));
  assert.throws(() => fileOf([["one", [GAME, [], "b", 0], members(5000), [members(4998)]]]), { message: "mine.json, session 0: its lists have more than 10,000 elements" });
  assert.equal(fileOf([["one", [GAME, [], "b", 0], members(5000), [members(4997)]]]).entries.length, 1);
});

it("what was pasted is no file of a disk: it can be put back where another takes its place", async () => {
  const bench = new Bench();
  await bench.act(withOtherFile, fileOf(DAY), true);
  await bench.act(withOtherFile, fileOf([]));
  assert.deepEqual(bench.state.past.map(({ file }) => file?.entries.length), [DAY.length]);
});

it("a list of gaps alone, which takes no room in the store, takes none as it is read", async () => {
  const { kept } = await withPush(), gaps = Object.assign([], { length: 300_000_000 });
  for (const strange of [{ work: { ...kept.work, inputs: gaps } }, { queue: gaps }, { past: gaps }]) assert.equal(stateFrom({ ...kept, ...strange }, GAME), null);
});

it("a recording is found in a file of thousands, though their text is nearly its own, and long", () => {
  const long = `${GAME}\n${`(${"x".repeat(97)})\n`.repeat(9000)}`, own = `${long}(b)\n`, count = 30_000;
  const file = fileOf([...Array.from({ length: count }, (_, number) => [`s${number}`, ["", [1, number % 5], "background:0,", 0]]), ["last", [own, [1, 2, 3], "background:0,", 0]]]);
  const last = sessionOpened(withOtherFile(withGame(beginning(GAME), `${long}(a)\n`), file), count);
  const { past } = sessionOpened({ ...last, work: { ...last.work, inputs: [1, 2, 3, 0] } }, 0);
  assert.deepEqual(past.at(-1).work.inputs, [1, 2, 3, 0]);
});

it("a file that an earlier page took, and this one can't read, is put back as it was: it isn't played, and what it would come to isn't said", async () => {
  const bench = new Bench(), wrong = [["wrong", [GAME, [0, 0], "background:0,", 0], "solvd"]], why = 'mine.json, session 0: its further element "solvd" is nearly "solved", and would demand nothing';
  const kept = { ...keptOf(withOtherFile(bench.state, fileOf(DAY)), false), file: { name: "mine.json", bytes: bytesOf(wrong) } };
  const state = stateFrom(structuredClone(kept), GAME);
  assert.deepEqual([state.file, statusOf(state).text, putBackTold(state)], [null, `The sessions file that was open isn't read any more: ${why}. Put back has it, as it was.`, "Puts back mine.json, which isn't read"]);
  bench.begin(state);
  await bench.runner.idle();
  await bench.act(putBack);
  await bench.act(edited, `${GAME}(x)`);
  assert.deepEqual([verdictOf(bench.state, null), tabTold(bench.state)], [{ text: `Not read: ${why}. Saved, the file is as it was.`, close: "refused" }, "Sessions: not read"]);
  assert.deepEqual([bench.state.suite, JSON.parse(new TextDecoder().decode(bench.state.file.bytes))], [null, wrong]);
  // nor is it lost behind another one
  const next = withOtherFile({ ...bench.state, isUnsaved: true }, fileOf(DAY));
  assert.deepEqual(next.past.map(({ file }) => file?.name), ["mine.json"]);
});

it("where the engine tells of other sessions than the file has, nothing is said of them", async () => {
  const bench = await withPush();
  await bench.act(savedAs);
  const { lines } = bench.state.suite, asked = playedAgain({ ...bench.state, file: fileOf([DAY[0]]) });
  const { runs, why } = suiteCame(asked, asked, { fault: null, lines, unsolved: new Set() }, 1).suite;
  assert.deepEqual([runs, why], [null, "mine.json is not played: the engine tells of 2 sessions, and 1 are read."]);
});

it("a visit after one that ended while a file was played is held, unless that took but a moment", async () => {
  const bench = new Bench(), { playAll } = bench.engine;
  /** @type {(value?: unknown) => void} */
  let end = () => {};
  const ended = new Promise((settle) => { end = settle; });
  bench.engine.playAll = (...words) => ended.then(() => playAll(...words));
  bench.runner.update((state) => withOtherFile(state, fileOf(DAY)));
  const kept = [bench.kept.isBusy];
  for (let count = 0; count < 1000 && !bench.kept.isBusy; count += 1) await new Promise((settle) => setTimeout(settle, 10));
  kept.push(bench.kept.isBusy);
  end();
  await bench.runner.idle();
  assert.deepEqual([...kept, bench.kept.isBusy, closes(bench.state).includes(null)], [false, true, false, false]);
});

it("a visit after one that ended while something was played begins with the text, and plays nothing until it is asked for", async () => {
  const bench = await played(1);
  bench.kept.isBusy = true;
  await bench.reload();
  assert.deepEqual([bench.state.isHeld, bench.state.played, statusOf(bench.state).text], [true, null, "This is not played yet. An edit, a key or Play plays it."]);
  await bench.act(released);
  assert.deepEqual([isPlayed(bench.state), bench.state.work.inputs], [true, [1]]);
  await bench.act(held);
  await bench.act(pressed, 0);
  assert.deepEqual(bench.state.work.inputs, [1, 0]);
});

// ---- another engine

it("lines of another engine are compared, and an edit ends that", async () => {
  const bench = new Bench();
  await bench.act(withOtherFile, new SessionFile("a.json", new Uint8Array(read("examples/block-pushing.json"))));
  const lines = new TextDecoder().decode(bench.state.suite.lines);
  await bench.act(comparedWithLines, "theirs", lines);
  assert.equal(verdictOf(bench.state, null).text, "Compared with theirs: 5 the same, 0 diverge.");
  const rows = lines.split("\n"), place = rows.findIndex((line) => line.includes('"session":2') && line.includes('"frame":7'));
  rows[place] = rows[place].replace("player", "crate");
  await bench.act(comparedWithLines, "theirs", rows.join("\n"));
  assert.deepEqual([bench.state.work.opened, shownOf(bench.state)], [2, 7]);
  assert.match(statusOf(bench.state).text, /^Diverges at frame 7, after input 6 \(/);
  await bench.act(edited, BROKEN);
  assert.equal(bench.state.comparison, null);
});

it("sessions that both engines refuse are the same, but neither played nor passed", async () => {
  const [refused, fine] = [["one", ["title X\n\nOBJECTS\n", [], ""]], ["two", [GAME, [], ""]]];
  for (const [sessions, told, close] of /** @type {[unknown[], string, string | null][]} */ ([
    [[refused, refused], "2 the same, 0 diverge; 2 were refused by both, and not played.", null],
    [[fine, refused], "2 the same, 0 diverge; 1 was refused by both, and not played.", null],
    [[fine, fine], "2 the same, 0 diverge.", "passed"],
  ])) {
    const bench = new Bench();
    await bench.act(withOtherFile, fileOf(sessions));
    await bench.act(comparedWithLines, "theirs", new TextDecoder().decode(bench.state.suite.lines));
    assert.deepEqual(verdictOf(bench.state, null), { text: `Compared with theirs: ${told}`, close });
  }
});

it("where the cells of another engine's level stand in other lines, that is said", async () => {
  const bench = new Bench();
  await bench.act(withOtherFile, new SessionFile("a.json", new Uint8Array(read("examples/block-pushing.json"))));
  const lines = new TextDecoder().decode(bench.state.suite.lines), level = JSON.parse(lines.slice(0, lines.indexOf("\n"))).level, [first, second, ...rest] = level.split("\n");
  await bench.act(comparedWithLines, "theirs", lines.replace(JSON.stringify(level), JSON.stringify([first, second + rest[0], ...rest.slice(1)].join("\n"))));
  assert.equal(verdictOf(bench.state, null).text, "Compared with theirs: 4 the same, 1 diverges.");
  const told = () => unlikenessTold(bench.state, new Ending(level, bench.state.comparison.others[0].frames[shownOf(bench.state)].level, "columns"), true);
  assert.deepEqual([shownOf(bench.state), told()], [0, "The cells are the same, and the line feeds between them are not."]);
});

// ---- what an editor's console prints

const BODY = JSON.stringify([GAME, [2, 1], "background:0,", 0, "1663245234.123"]), ENTRY = `[\n"Checkpoint",\n${BODY}\n],`;

it("recordings are found in what an editor's console prints, with whatever stands around them", () => {
  const forms = [
    ENTRY, ENTRY.slice(0, -1), `Successful Compilation, generated 36 instructions.\n\n${ENTRY}\n`, `${ENTRY}\nundefined\nline 5 : [ weird ]`, `VM123:1 ${ENTRY}`, JSON.stringify(ENTRY), `var testdata = [\n${ENTRY}\n];`,
    ENTRY.replaceAll("&", "&amp;").replaceAll("<", "&lt;").replaceAll(">", "&gt;").replaceAll('"', "&quot;").replaceAll("\n", "<br>"), `[\n"Checkpoint",\n${JSON.stringify([GAME, [], 0])}\n],\nRecorded play session data:\n${ENTRY}`,
    `\ufeff${ENTRY.replaceAll("\n", "\r\n")}`, ENTRY.replace('"1663245234.123"', "undefined"), ENTRY.replace('"Checkpoint"', "'Check\\x70oint'"), `\`\`\`json\n${ENTRY}\n\`\`\``,
  ];
  for (const form of forms) assert.deepEqual(recordingsInText(form), [{ name: "Checkpoint", source: GAME, inputs: [2, 1], level: "background:0,", index: 0 }], form.slice(0, 60));
  assert.deepEqual(recordingsInText(`${ENTRY}\n${ENTRY}`).length, 2);
  assert.deepEqual(recordingsInText(BODY).map(({ name, inputs }) => [name, inputs]), [["Simple Block Pushing Game, level 1", [2, 1]]]);
  for (const none of [GAME, "", "Successful Compilation, generated 36 instructions.", ENTRY.slice(0, -50), ENTRY.replace("[2,1]", '["wait"]'), "[]"]) assert.deepEqual(recordingsInText(none), [], none.slice(0, 60));
});

it("what an editor printed is added to the sessions, and follows the text at hand", async () => {
  const bench = await withPush(), recordings = recordingsInText(`${ENTRY}\n${ENTRY}\n${ENTRY.replace("[2,1]", "[2]")}`);
  await bench.act(withRecordings, recordings, [{ line: 7, what: "cut-off" }]);
  assert.deepEqual(entriesIn(bench.state).map(([name, [source, inputs]]) => [name, source, inputs]), [["push", "", PUSHING], ["Checkpoint", "", [2, 1]], ["Checkpoint (2)", "", [2]]]);
  assert.deepEqual([bench.state.work.opened, bench.state.saved], [1, "2 recordings added to recordings.json; 1 is there already; line 7: skipped a recording that is cut off: copy it again, up to its last bracket"]);
  await bench.act(withRecordings, recordings);
  assert.deepEqual([bench.state.file.entries.length, bench.state.saved], [3, "0 recordings added to recordings.json; 3 are there already"]);
  const another = new Bench();
  await another.act(withRecordings, recordingsInText(ENTRY.replace("title ", "title Another ")));
  assert.deepEqual([another.state.text, entriesIn(another.state)[0][1][0]], [OTHER, ""]);
});

test("a text that its end makes too long to be played is not the one at hand", async () => {
  const bench = { state: beginning(`${GAME}${"\n".repeat(2 ** 20)}`) };
  const { file } = withRecordings({ ...bench.state, file: SessionFile.empty("recordings.json") }, recordingsInText(ENTRY));
  assert.equal(file.entries[0].source, GAME);
});

// ---- the session that is kept open behind what was played

const WON_BY_A_MOVE = "OBJECTS\nBackground .\nblack\nPlayer P\nwhite\nGoal O\nred\nLEGEND\nCOLLISIONLAYERS\nBackground\nGoal\nPlayer\nRULES\nWINCONDITIONS\nAll Player on Goal\nLEVELS\nP.O\nmessage done\n";

it("the key that wins is told as such, and the message behind the last level is shown", async () => {
  const bench = new Bench(beginning(WON_BY_A_MOVE));
  await bench.act(pressed, 3);
  assert.deepEqual([bench.state.played.isSolved, bench.state.messages], [false, []]);
  await bench.act(pressed, 3);
  assert.deepEqual([bench.state.played.isSolved, bench.state.messages, bench.state.told.text], [true, ["done"], "Solved: all levels are won."]);
  await bench.act(cutBack);
  assert.deepEqual([bench.state.work.inputs, bench.state.played.isSolved, framesOf(bench.state).length], [[3], false, 2]);
});

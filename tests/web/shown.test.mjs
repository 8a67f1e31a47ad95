// @ts-check
// What the page shows on the way: messages, ticks and won levels one after another, names of strangers, and levels in words. What is expected is written by hand.
import assert from "node:assert/strict";
import test from "node:test";
import { Animation, WON, paceOf, scenesOf } from "../../web/animating.mjs";
import { rowsInWords } from "../../web/cells.mjs";
import { cut, readable } from "../../web/elements.mjs";
import { descriptionOf, readBy } from "../../web/descriptions.mjs";
import { nothingTold } from "../../web/findings.mjs";
import { Game, levelsOf } from "../../web/game.mjs";
import { fileNameOf } from "../../web/handing.mjs";
import { swipeOf } from "../../web/keys.mjs";
import { messagesAt, messagesOf } from "../../web/messages.mjs";
import { framesOf } from "../../web/replaying.mjs";
import { beginning, edited, fromLevel, lookedAt, pressed, ticked, withGame } from "../../web/work.mjs";
import { clockTold, notesTold, statusOf, verdictOf } from "../../web/page-words.mjs";
import { SessionFile } from "../../web/session-file.mjs";
import { withOtherFile } from "../../web/filing.mjs";
import { differenceOf, rowsOf, sessionOpened } from "../../web/suite.mjs";
import { hasClock, withoutClock } from "../../web/ticks.mjs";
import { lineNow, linePointedAt, opened } from "../../web/staging.mjs";
import { there } from "../../web/there.mjs";
import { Bench, module } from "./bench.mjs";

const it = (name, act) => test(name, { skip: module === undefined && "there is no module" }, act);

// Levels of one row, each won by two steps to the right, with messages around them.
const FALLING = `title Falling
again_interval 0.25
OBJECTS
Background .
black
Player p
white
Goal g
blue
LEGEND
COLLISIONLAYERS
Background
Goal
Player
RULES
WINCONDITIONS
All Player on Goal
LEVELS
message first (of all)
p.g

MESSAGE second
message third

p.g

message the end
`;
// The same with two cells more, where an action and then each tick take the player one step on.
const TICKING = FALLING.replace("RULES\n", "RULES\n[ action Player ] -> [ right Player ] again\n[ stationary Player ] -> [ right Player ] again\n").replaceAll("p.g", "p...g");

it("a level that would read back as another one is neither drawn nor accepted", async () => {
  const named = (name) => `OBJECTS\nBackground .\nblack\nPlayer p\nwhite\n${name} x\nred\nLEGEND\nCOLLISIONLAYERS\nBackground\nx\nPlayer\nRULES\nLEVELS\n..xp\n....\n`;
  assert.deepEqual(["0,x", "17,", "a,0", "0x"].map((name) => new Game(named(name)).levelText("background:0,")), [null, null, "background:0,", "background:0,"]);
  const bench = new Bench(withGame(beginning(""), named("0,x")));
  await bench.act(withOtherFile, new SessionFile("one.json", new TextEncoder().encode(JSON.stringify([["one", ["", [1], "background:0,", 0]]]))));
  const { reached, why } = differenceOf(bench.state);
  assert.deepEqual([reached.includes("0,x background player:1,"), why], [true, "the level that was reached can't be read back, since a name of an object in it holds a comma"]);
});

it("of levels and notes no more are shown than a page bears", () => {
  assert.equal(levelsOf(`LEVELS\n${"p\n\n".repeat(1024)}`).length, 1024);
  assert.equal(levelsOf(`LEVELS\n${"p\n\n".repeat(3000)}`).length, 1024);
  const told = (count) => notesTold(new Game(`OBJECTS\n${Array.from({ length: count }, (_, number) => `o${number}\nc${number}\n`).join("")}`));
  assert.equal(told(0), "");
  assert.equal(told(1), "its colour c0 is drawn as grey.");
  assert.match(told(50), /; its colour c49 is drawn as grey\.$/);
  // the engine tells of 512 objects at most
  assert.match(told(3000), /; its colour c49 is drawn as grey; and 462 more notes\.$/);
});

it("the messages of LEVELS stand between its levels", () => {
  assert.deepEqual(messagesOf(FALLING), ["first (of all)", null, "second", "third", null, "the end"]);
  assert.deepEqual([0, 1, 2].map((won) => messagesAt(FALLING, 1, won)), [["first (of all)"], ["second", "third"], ["the end"]]);
  assert.deepEqual([messagesAt(FALLING, 2, 0), messagesAt(FALLING, 4, 1), messagesAt("title none\n", 0, 0)], [["second", "third"], ["the end"], []]);
});

it("messages are shown where a game begins, before the next level and behind the last, and an action goes on behind each", async () => {
  const bench = new Bench();
  await bench.act(withGame, FALLING);
  assert.deepEqual(bench.state.messages, ["first (of all)"]);
  await bench.act(pressed, 3);
  assert.deepEqual([bench.state.messages, bench.state.work.inputs], [["first (of all)"], []]);
  await bench.act(pressed, 4);
  assert.deepEqual([bench.state.messages, bench.state.work.inputs], [[], []]);
  await bench.act(pressed, 3);
  await bench.act(pressed, 3);
  assert.deepEqual([bench.state.messages, bench.state.work.inputs, framesOf(bench.state).at(-1).kind], [["second", "third"], [3, 3], "load"]);
  for (const input of ["undo", 4, 1, 4, 3, 3]) await bench.act(pressed, input);
  assert.deepEqual([bench.state.messages, bench.state.work.inputs, bench.state.played.isSolved], [["the end"], [3, 3, 3, 3], true]);
  await bench.act(lookedAt, 0);
  assert.deepEqual(bench.state.messages, []);
  await bench.act(fromLevel, 4);
  assert.deepEqual(bench.state.messages, ["second", "third"]);
  await bench.act(edited, FALLING.replace("white", "red"));
  assert.deepEqual(bench.state.messages, []);
});

it("keys that wait as a message comes are left out", async () => {
  const bench = new Bench();
  await bench.act(withGame, FALLING);
  await bench.act(pressed, 4);
  for (const input of [3, 3, 1, 1]) bench.runner.update((state) => pressed(state, input));
  await bench.runner.idle();
  assert.deepEqual([bench.state.messages.length, bench.state.work.inputs], [2, [3, 3]]);
});

it("a won level is shown for a moment, and the ticks of an input at the pace of the game", async () => {
  const bench = new Bench();
  await bench.act(withGame, FALLING);
  for (const input of [4, 3]) await bench.act(pressed, input);
  assert.deepEqual(scenesOf(bench.state), []);
  await bench.act(pressed, 3);
  assert.deepEqual(framesOf(bench.state).map(({ kind }) => kind), ["start", "move", "move", "load"]);
  assert.deepEqual(scenesOf(bench.state), [[2, WON]]);
  await bench.act(withGame, TICKING);
  for (const input of [4, 4]) await bench.act(pressed, input);
  assert.deepEqual(framesOf(bench.state).map(({ kind, at }) => [kind, at]), [["start", 0], ["move", 1], ["tick", 1], ["tick", 1], ["tick", 1], ["load", 1]]);
  assert.deepEqual(scenesOf(bench.state), [[1, 250], [2, 250], [3, 250], [4, WON]]);
  await bench.act(lookedAt, 1);
  assert.deepEqual(scenesOf(bench.state), []);
});

it("frames are shown one after another, which any act ends", async () => {
  const bench = new Bench(), seen = [];
  const animation = new Animation(() => { animation.follow(bench.state); seen.push(animation.seen(bench.state).looked); });
  await bench.act(withGame, TICKING.replace("0.25", "0.01"));
  for (const input of [4, 4]) await bench.act(pressed, input);
  animation.follow(bench.state);
  assert.deepEqual([animation.seen(bench.state).looked, animation.seen(bench.state).messages, bench.state.looked], [1, [], null]);
  while (seen.length < 3) await new Promise((settle) => setTimeout(settle, 10));
  assert.deepEqual(seen, [2, 3, 4]);
  await bench.act(lookedAt, 0);
  animation.follow(bench.state);
  assert.equal(animation.seen(bench.state), bench.state);
  assert.equal(animation.end(), false);
  const still = new Animation(() => assert.fail("it moves"), () => true);
  still.follow(bench.state);
  assert.equal(still.seen(bench.state), bench.state);
});

it("a game has a pace", () => {
  assert.deepEqual(["title a\nagain_interval 0.5\n", "AGAIN_INTERVAL .03", "again_interval 99", "again_interval x", "title again_interval 3", ""].map(paceOf), [500, 30, 5000, 100, 100, 100]);
});

const CLOCKED = FALLING.replace("title Falling", "title Falling\n(a) Realtime_Interval 0.5 (b)");

it("a clock is taken from the text, and its lines keep their numbers", () => {
  assert.deepEqual([hasClock(CLOCKED), hasClock(FALLING), hasClock("title realtime_interval 1\nOBJECTS\nrealtime_interval\nred\n")], [true, false, false]);
  assert.equal(withoutClock(CLOCKED), CLOCKED.replace("(a) Realtime_Interval 0.5 (b)", "(a) "));
  assert.equal(withoutClock("(\n) realtime_interval 1\nx"), "(\n) \nx");
});

it("a game with a clock is played without it where that is wanted, which the verdict and the list say", async () => {
  const level = "background:0,0,background goal player:1,\n", bench = new Bench();
  await bench.act(withGame, CLOCKED);
  assert.match(clockTold(bench.state).text, /^A game with `realtime_interval` isn't played here.*\?$/);
  await bench.act(withOtherFile, new SessionFile("f.json", new TextEncoder().encode(JSON.stringify([["clocked", ["", [3, "tick", 3, "tick"], level, 4]], ["free", [FALLING, [3, 3], level, 4]]]))));
  assert.deepEqual(rowsOf(bench.state).map(({ close, isTicked }) => [close, isTicked]), [["refused", false], ["passed", false]]);
  await bench.act(ticked, true);
  assert.deepEqual(rowsOf(bench.state).map(({ close, isTicked }) => [close, isTicked]), [["passed", true], ["passed", false]]);
  assert.match(verdictOf(bench.state, null).text, /1 was played without `realtime_interval`, with its ticks as recorded\.$/);
  assert.equal(verdictOf(bench.state, null).close, null);
  await bench.act(sessionOpened, 0);
  assert.deepEqual(statusOf(bench.state), { text: "Passed: the last level is the recorded one. Played without `realtime_interval`, with its ticks as recorded.", close: null });
  // nor is a comparison of what was played so one of the game
  const comparison = { name: "theirs", others: there(bench.state.suite).runs.map((run) => ({ ...run, frames: [] })), partings: [null, null] };
  assert.deepEqual(verdictOf({ ...bench.state, comparison }, null), { text: "Compared with theirs: 2 the same, 0 diverge. 1 was played without `realtime_interval`, with its ticks as recorded.", close: null });
  assert.deepEqual(clockTold(bench.state), { text: "Played without `realtime_interval`, with its ticks as recorded.", isAsked: false });
  await bench.reload();
  assert.equal(bench.state.isTicked, true);
  await bench.act(ticked, false);
  assert.deepEqual([rowsOf(bench.state)[0].close, clockTold(bench.state).isAsked], ["refused", true]);
  // what is refused for something else wasn't played so
  await bench.act(ticked, true);
  await bench.act(edited, CLOCKED.replace("RULES", "RULES\n[ No Such ] -> [ ]"));
  assert.deepEqual(rowsOf(bench.state).map(({ close }) => close), ["refused", "passed"]);
  assert.equal(verdictOf(bench.state, null).text.includes("realtime_interval"), false);
});

// Does something while texts are read by another engine.
async function readByAnother(engine, act) {
  readBy(engine);
  await Promise.resolve(act()).finally(() => readBy(module));
}

it("an older engine, which tells nothing of a text, plays it all the same, and that is said", async () => {
  await readByAnother({ outline: () => ({ description: null, fault: "no-descriptions" }) }, async () => {
    const game = new Game(FALLING), bench = new Bench();
    assert.deepEqual([game.title, game.look().objects, levelsOf(FALLING), messagesOf(FALLING), nothingTold("anything"), hasClock(`${CLOCKED}\n`)], ["a game", [], [], [], null, false]);
    assert.match(notesTold(game), /^the engine of this page is an older one, .* drawn by letters/);
    await bench.act(withGame, FALLING);
    for (const input of [3, 3]) await bench.act(pressed, input);
    assert.deepEqual([bench.state.work.inputs, framesOf(bench.state).at(-1).kind], [[3, 3], "load"]);
    await bench.act(edited, "LEVELS\n");
    assert.match(statusOf(bench.state).text, /^Not played: a section that must be there is missing/);
  });
});

it("that an engine has no memory for a text, or stops at it, is said, and a text that is too long is one of no game", async () => {
  for (const [fault, told] of [["memory", "there is not enough memory to read the text"], ["broken", "the engine stopped at a fault of its own as it read the text"]]) {
    await readByAnother({ outline: () => ({ description: null, fault }) }, () => assert.deepEqual(new Game("title x").notes, [`${told}: objects are drawn by letters`]));
  }
  await readByAnother({ outline: () => ({ description: null, fault: "too-many" }) }, () => assert.deepEqual(descriptionOf("").fault, { code: "TooLong", line: 0 }));
  assert.match(nothingTold(`OBJECTS\n${"x".repeat(1_048_576)}`), /^it has no recording, and is longer than a game's text may be: /);
  assert.equal(nothingTold("OBJECTS\n"), null);
});

it("each text is read once as long as it is kept, and half a letter is another one", async () => {
  const asked = [], engine = { outline: (bytes) => { asked.push(new TextDecoder().decode(bytes)); return module.outline(bytes); } };
  await readByAnother(engine, () => {
    for (let turn = 0; turn < 3; turn += 1) for (let number = 0; number < 64; number += 1) assert.equal(new Game(`title ${number}`).title, `${number}`);
    assert.equal(asked.length, 64);
    for (const source of ["title 64", "title 1", "title 0", "title 1"]) descriptionOf(source);
    assert.deepEqual(asked.slice(64), ["title 64", "title 0"]);
    for (const source of ["x".repeat(1_000_000), "y".repeat(1_000_000), "x".repeat(1_000_000)]) descriptionOf(source);
    assert.equal(asked.length, 69);
    assert.equal(new Game("title \ud800").title, "\ufffd");
  });
});

it("what is being typed is read behind a pause, also for the line that is pointed at", async () => {
  const asked = [], engine = { outline: (bytes) => { asked.push(new TextDecoder().decode(bytes)); return module.outline(bytes); } };
  const bench = new Bench(), line = TICKING.split("\n").indexOf("[ action Player ] -> [ right Player ] again") + 1;
  await bench.act(opened, true);
  await readByAnother(engine, async () => {
    bench.runner.type((state) => edited(state, TICKING));
    bench.runner.update((state) => linePointedAt(state, line));
    assert.deepEqual([asked, lineNow(bench.state), bench.runner.isBusy], [[], null, true]);
    await bench.runner.idle();
    assert.deepEqual([lineNow(bench.state), lineNow(linePointedAt(bench.state, line + 2)), asked], [line, null, [TICKING]]);
  });
});

test("a swipe goes one way", () => {
  assert.deepEqual([swipeOf(3, -30), swipeOf(-30, 3), swipeOf(3, 30), swipeOf(30, 3), swipeOf(20, 20)], [0, 1, 2, 3, null]);
});

test("a name that turns letters around is readable, and others stay as they are", () => {
  assert.deepEqual([readable("a\u202eb\u2066"), cut("\u202eab", 2), readable("\u05d0 e\u0301 \u{1f468}\u200d\u{1f469}")], ["a\\u{202e}b\\u{2066}", "\\u{202e}a\u2026", "\u05d0 e\u0301 \u{1f468}\u200d\u{1f469}"]);
});

test("the file of a text is named by its title", () => {
  assert.deepEqual(["Simple Block Pushing Game", "a/b: c?", "..", "", "\u202ea\nb", "x".repeat(99)].map(fileNameOf), ["Simple Block Pushing Game.txt", "a b c.txt", "game.txt", "game.txt", "a b.txt", `${"x".repeat(60)}.txt`]);
});

test("a level is told row by row, in both orders of cells", () => {
  const names = [["background"], ["background", "player"], []], told = (order) => rowsInWords({ width: 3, cells: [0, 0, 1, 2, 2, 2], order }, (label) => names[label]);
  assert.deepEqual(told("rows"), ["2 \u00d7 background, background player", "3 \u00d7 nothing"]);
  assert.deepEqual(told("columns"), ["background, background player, nothing", "background, 2 \u00d7 nothing"]);
  assert.deepEqual(rowsInWords(null, () => []), []);
});

it("a key that the game switches off is left out, as on the site, and what stands in LEVELS switches nothing off", () => {
  const off = FALLING.replace("again_interval 0.25", "NoAction\nnoundo\nnorestart (all three)");
  for (const [input, word] of [[4, "noaction"], ["undo", "noundo"], ["restart", "norestart"]]) {
    const state = { ...edited(beginning("title none\n"), off), messages: [] }, next = pressed(state, input);
    assert.deepEqual([next.queue, statusOf(next).text], [[], `This game has \`${word}\`, so the key is left out.`]);
    assert.deepEqual(pressed({ ...edited(beginning("title none\n"), FALLING), messages: [] }, input).queue.map((it) => it.input), [input]);
  }
  const on = { ...edited(beginning("title none\n"), off.replace("NoAction\n", "").replace("message first (of all)", "message\nnoaction")), messages: [] };
  assert.deepEqual(pressed(on, 4).queue.map((it) => it.input), [4]);
  assert.deepEqual(pressed({ ...edited(beginning("title none\n"), off), messages: ["first"] }, 4).messages, []);
});

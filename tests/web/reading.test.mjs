// @ts-check
// Many texts that come at once, without a browser: they are read in pieces, which can be stopped, and none is read twice.
import assert from "node:assert/strict";
import test from "node:test";
import { readBy } from "../../web/descriptions.mjs";
import { comparing, withComparison, withOtherFile, withRecordings } from "../../web/filing.mjs";
import { handed, isTyped } from "../../web/handing.mjs";
import { MOST_AT_ONCE, MOST_SESSIONS } from "../../web/limits.mjs";
import { framesIn, runsIn, runsOf } from "../../web/lines.mjs";
import { clockTold, readingTold, tabTold, verdictOf } from "../../web/page-words.mjs";
import { readableAnswer } from "../../web/page-engine.mjs";
import { remembering } from "../../web/past.mjs";
import { readBeside, readFile, readerIn } from "../../web/reading.mjs";
import { Refusal, SessionFile, refusalTold } from "../../web/session-file.mjs";
import { differenceOf, rowsOf, sessionOpened } from "../../web/suite.mjs";
import { whyNoField } from "../../web/texts.mjs";
import { there } from "../../web/there.mjs";
import { beginning, edited, ticked, withOwnText } from "../../web/work.mjs";
import { Bench, GAME, comparedWithLines, module } from "./bench.mjs";
import { IdleWorker } from "./stand-ins.mjs";

const MANY = 80; // more texts than are kept as they were read
const it = (name, act) => test(name, { skip: module === undefined && "there is no module for it" }, act);
const moved = () => new Promise((settle) => setTimeout(settle, 1));
const { signal } = new AbortController();

const clocked = (number) => GAME.replace("OBJECTS", `title Own ${number}\nrealtime_interval 1\nOBJECTS`);
const recordings = () => Array.from({ length: MANY }, (_, number) => ({ name: "", source: clocked(number), inputs: [], level: "", index: 0 }));
const fileOf = (entries) => new SessionFile("f.json", new TextEncoder().encode(JSON.stringify(entries.map(({ source, inputs, level, index }, number) => [`${number}`, [source, inputs, level, index]]))));

// Does something while it is counted how often a text of a session is read.
async function counted(act) {
  const count = { read: 0 }, isOwn = (bytes) => new TextDecoder().decode(bytes).includes("title Own");
  readBy({ outline: (bytes) => { count.read += Number(isOwn(bytes)); return module.outline(bytes); } });
  await act(count).finally(() => readBy(module));
}

const drawn = (state) => [rowsOf(state).filter(({ isTicked }) => isTicked).length, tabTold(state), clockTold(state)?.text, verdictOf(state, null).text.replace(/[0-9.]+ s/, "")];

it("letters typed over many games with clocks read none of these anew", () => counted(async (count) => {
  const bench = new Bench();
  await bench.act(ticked, true);
  await bench.act(withOtherFile, fileOf(recordings()));
  const first = drawn(bench.state);
  assert.deepEqual([count.read > 0, first[0], first[2]], [true, MANY, "Played without `realtime_interval`, with its ticks as recorded."]);
  count.read = 0;
  for (const letter of ["a", "b", "c"]) {
    await bench.act(edited, `${bench.state.text}(${letter})\n`);
    assert.deepEqual(drawn(bench.state), first);
  }
  assert.equal(count.read, 0);
  // where the text at hand was that of a session, this one still counts
  const other = new Bench();
  await other.act(edited, clocked(0));
  await other.act(ticked, true);
  await other.act(withOtherFile, fileOf(recordings()));
  await other.act(edited, GAME);
  assert.equal(drawn(other.state)[0], MANY);
}));

it("that many games with clocks are read before they are played can be stopped", () => counted(async (count) => {
  const bench = new Bench();
  await bench.runner.idle();
  for (const isTicked of [false, true]) {
    bench.runner.update((state) => withOtherFile({ ...state, isTicked }, fileOf(recordings())));
    drawn(bench.state);
    bench.runner.stopSuite();
    await moved();
    assert.deepEqual([count.read, verdictOf(bench.state, null).text, drawn(bench.state)[0]], [0, "Stopped: not all sessions were played.", 0]);
  }
}));

it("another engine's lines are compared in pieces, up to where each session parts, and only with the sessions that they were compared with", async () => {
  const bench = new Bench(), entries = [0, 1, 2].map(() => ({ source: GAME, inputs: [0, 1, 2], level: "", index: 0 }));
  await bench.act(withOtherFile, fileOf(entries));
  const { state } = bench, { suite } = state, lines = new TextDecoder().decode(suite.lines);
  const stopping = new AbortController(), steps = (text, { signal: asked } = new AbortController(), progress = () => {}) => comparing(state, "theirs", runsIn(text), asked, progress);
  assert.equal(await steps(lines, stopping, () => stopping.abort()), null);
  // of the page's own lines nothing is read behind the frame at which a session parts
  const broken = new TextEncoder().encode(lines.replaceAll(/"at":[23],.*/g, (line) => "x".repeat(line.length))), others = lines.replaceAll(/("at":1.*"level":")./g, "$1?");
  const found = await comparing({ ...state, suite: { ...suite, lines: broken } }, "theirs", runsIn(others), signal, () => {});
  assert.deepEqual(found.partings, [0, 1, 2].map(() => ({ frame: 1, kind: "level" })));
  assert.throws(() => withComparison(state, found), { message: "the sessions of f.json were changed while theirs was compared with them" });
  const comparison = await steps(others);
  assert.equal(verdictOf(withComparison(state, comparison), null).text, "Compared with theirs: 0 the same, 3 diverge.");
  await bench.act(edited, `${GAME}(a)\n`);
  bench.runner.update((now) => ({ ...now, suite: null }));
  assert.throws(() => withComparison(bench.state, comparison), /were changed/);
});

test("a frame that has more than is read at once is refused, and what stands beside it is read", () => {
  const lineOf = (frame, level) => `{"at":${frame},"frame":${frame},"kind":"${frame === 0 ? "start" : "move"}","level":"${level}","session":0}\n`, long = "x".repeat(MOST_AT_ONCE);
  const text = `${lineOf(0, long)}${lineOf(1, "a:0,")}{"close":"differs","frames":2,"name":"a","session":0}\n`, lines = new TextEncoder().encode(text), frames = framesIn(lines, runsOf(lines)[0]);
  for (const at of [0, 0, 1]) assert.throws(() => { if (frames.at(at).level === "a:0,") throw new Error("it is there"); }, { message: at === 0 ? "a frame has more than 16 MiB here, and is not read" : "it is there" });
});

it("of more lines than are wanted none are held, and where those of one session are more than a worker's share, one plays after the other", async () => {
  const entries = [["long", new Array(200).fill(1)], ["b", [1]], ["c", [2]], ["d", [3]]].map(([name, inputs]) => [name, [GAME, inputs, "", 0]]), bytes = JSON.stringify(entries), { lines } = module.replay(bytes);
  for (const workers of [1, 3]) {
    const told = [], played = async (most) => module.replayInWorkers(bytes, { workers, most, progress: (...words) => told.push(words) });
    const whole = await played(lines.length);
    assert.deepEqual([Buffer.from(whole.lines).equals(lines), whole.fault, told.at(-1)], [true, null, [4, 4]]);
    assert.deepEqual([(await played(lines.length - 1)).fault, (await played(1000)).fault], ["memory", "memory"]);
  }
  assert.equal((await module.replayInWorkers(bytes, { workers: 3, most: 2 ** 29 })).fault, null); // which three don't share evenly
  assert.deepEqual([module.replay(bytes, { most: lines.length }).fault, module.replay(bytes, { most: lines.length - 1 }).fault], [null, "memory"]);
});

test("how far what comes is read is said where it takes long", () => {
  assert.deepEqual([null, { isSlow: false }, { what: "Comparing sessions", isSlow: true, done: 3, total: 70 }].map((reading) => readingTold(reading)?.text ?? null), [null, null, "Comparing sessions: 3 of 70."]);
});

const OF_A_RETURN = `has a carriage return within line ${GAME.split("\n").length}, which a field shows as the end of a line`;

it("a text that the field can't have comes not to hand", () => {
  const TOO_LONG = "is longer than a game's text may be";
  for (const [source, why] of [[`${GAME}\n`, null], [`title ${"x".repeat(1_048_576)}`, TOO_LONG], [`title ${"\u20ac".repeat(400_000)}`, TOO_LONG], [`${GAME}x\ry`, OF_A_RETURN]]) {
    const isTaken = why === null;
    const found = [{ name: "a", source, inputs: [], level: "", index: 0 }], begun = beginning(GAME), opened = withOtherFile(begun, fileOf(found));
    assert.deepEqual([opened, withRecordings(begun, found)].map(({ text }) => text === source), [isTaken, isTaken]);
    const taken = withOwnText(sessionOpened({ ...opened, text: GAME }, 0));
    assert.deepEqual([taken.text === source, taken.told?.text ?? null], [isTaken, isTaken ? null : `Its text ${why}, and stays where it is.`]);
  }
});

test("it is told of a text why it isn't put into the field", () => {
  const cases = [["", null], [GAME, null], ["\r\n".repeat(100_000), null], ["x".repeat(1_048_576), null], ["x".repeat(1_048_577), "is longer than a game's text may be"],
    ["a\r\nb\r\r\nc", "has a carriage return within line 2, which a field shows as the end of a line"], ["a\nb\n\r", "has a carriage return within line 3, which a field shows as the end of a line"]];
  for (const [text, why] of cases) assert.equal(whyNoField(text), why);
});

test("what is pasted into a field is left to it, but for a text that is too long to be played", () => {
  const field = { matches: (words) => words === "textarea, input" }, level = { matches: () => false }, long = "x".repeat(2 ** 20 + 1);
  assert.deepEqual([["x", field], ["", field], [long, field], ["x", level], ["", level], ["x", {}]].map((words) => isTyped(...words)), [true, true, false, false, true, false]);
});

test("an answer with a level whose text is very long is handed over as none", () => {
  const frame = (level) => ({ at: 0, kind: "start", level }), long = "a".repeat(2 ** 20 + 1), short = { frames: [frame(long.slice(1))], cause: null, isSolved: true };
  assert.equal(readableAnswer(short), short);
  for (const answer of [{ frames: [frame("a:0,"), frame(long)], cause: null, isSolved: true }, { stages: [{ stage: "end", level: long }], fault: null }]) {
    const { frames, stages, cause, fault, isSolved, solution } = readableAnswer(answer);
    assert.deepEqual([frames, stages, cause, fault, isSolved, solution], [[], [], "engine:long-level", "long-level", false, null]);
  }
  assert.match(refusalTold("long-level"), /1,048,576 letters/);
});

test("an answer with more frames or stages than the page takes in a moment is handed over as none", () => {
  for (const [name, most] of Object.entries({ frames: 2 ** 19, stages: 2 ** 19 })) {
    const answerOf = (count) => ({ [name]: new Array(count).fill({ at: 0, kind: "start", level: "a:0," }), cause: null, fault: null }), whole = answerOf(most);
    assert.equal(readableAnswer(whole), whole);
    const { frames, stages, cause, fault } = readableAnswer(answerOf(most + 1));
    assert.deepEqual([frames, stages, cause, fault], [[], [], "engine:memory", "memory"]);
  }
});

test("an answer with more headings and lines in its stages than the page takes in a moment is handed over as none", () => {
  const heading = [0, 0, "a", "right"], answerOf = (count) => ({ stages: [{ stage: "movement", headings: new Array(2 ** 18).fill(heading) }, { stage: "end", lines: new Array(count).fill(7) }], fault: null });
  const whole = answerOf(2 ** 18 - 2);
  assert.equal(readableAnswer(whole), whole);
  assert.deepEqual([readableAnswer(answerOf(2 ** 18 - 1)).stages, readableAnswer(answerOf(2 ** 18 - 1)).fault], [[], "memory"]);
});

test("an answer whose levels take more room than the page has for them is handed over as none", () => {
  for (const [letter, most] of Object.entries({ a: 256, "\u20ac": 128 })) {
    const level = letter.repeat(2 ** 20), answerOf = (count) => ({ frames: new Array(count - 1).fill({ at: 0, kind: "start", level }), stages: [{ stage: "end", level }], cause: null, fault: null });
    const whole = answerOf(most);
    assert.equal(readableAnswer(whole), whole);
    const { frames, stages, cause, fault } = readableAnswer(answerOf(most + 1));
    assert.deepEqual([frames, stages, cause, fault], [[], [], "engine:memory", "memory"]);
  }
});

test("JSON that begins otherwise than sessions do is not read as such, whatever it has many of", (t) => {
  const read = [], parse = JSON.parse;
  t.mock.method(JSON, "parse", (text, ...words) => {
    read.push(text);
    return parse(text, ...words);
  });
  const others = ['[0,[],{}]', ' \n[ {"a":[]}]', '["",[]]'], sessions = ["[]", " [ ]", '\n[ ["a",["",[],""]]]'];
  for (const text of others) assert.throws(() => handed("f", new TextEncoder().encode(text)), Refusal);
  for (const text of sessions) assert.equal(handed("f", new TextEncoder().encode(text)).kind, "sessions");
  assert.deepEqual([...others, ...sessions].filter((text) => read.includes(text)), sessions);
});

test("no more sessions come into the page than the engine plays", () => {
  const bytesOf = (count) => new TextEncoder().encode(JSON.stringify(new Array(count).fill(["", ["", [], ""]])));
  assert.equal(handed("f.json", bytesOf(MOST_SESSIONS)).kind, "sessions");
  assert.throws(() => handed("f.json", bytesOf(MOST_SESSIONS + 1)), { message: "f.json has more than 65,536 sessions" });
  const added = (count) => Array.from({ length: count }, (_, index) => ({ name: "a", source: "", inputs: [], level: "", index })), full = withRecordings(beginning(GAME), added(MOST_SESSIONS - 1));
  assert.equal(withRecordings(full, added(MOST_SESSIONS)).file.entries.length, MOST_SESSIONS);
  assert.throws(() => withRecordings(full, added(MOST_SESSIONS + 1)), { message: "with them recordings.json would have more than 65,536 sessions" });
});

// A thing of which it is counted how often a part of it is looked at.
function counting(thing, part) {
  const count = { reads: 0 };
  return [new Proxy(thing, { get: (it, asked) => { count.reads += Number(asked === part); return it[asked]; } }), count];
}

it("a recorded level is read once for what stands against accepting it", async () => {
  const bench = new Bench();
  await bench.act(withOtherFile, fileOf([0, 1].map((input) => ({ source: "", inputs: [input], level: "background:0,", index: 0 }))));
  await bench.act(sessionOpened, 0);
  const { state } = bench, { reached, recorded } = differenceOf(state), counts = [];
  assert.equal(recorded, "background:0,");
  for (const order of [[0, 0, 0], [1, 0]]) {
    for (const number of order) {
      const opened = number === 0 ? state : await bench.act(sessionOpened, number), [run, counted] = counting(opened.suite.runs[number], "cause");
      const seen = { ...opened, suite: { ...opened.suite, runs: opened.suite.runs.map((it, place) => (place === number ? run : it)) } };
      for (let times = 0; times < 3; times += 1) assert.equal(differenceOf(seen).why, null);
      counts.push(counted.reads);
    }
  }
  assert.deepEqual([counts, typeof reached], [[1, 1, 1, 1, 1], "string"]);
});

it("sessions that were changed since they were compared count as compared no longer", async () => {
  const bench = new Bench(), entries = [0, 1].map((input) => ({ source: GAME, inputs: [input], level: "", index: 0 }));
  await bench.act(withOtherFile, fileOf(entries));
  const compared = comparedWithLines(bench.state, "theirs", new TextDecoder().decode(bench.state.suite.lines)), changed = { ...compared, isHeld: true, file: fileOf(entries.slice(1)) };
  assert.deepEqual([compared, changed].map((state) => verdictOf(state, null)), [{ text: "Compared with theirs: 2 the same, 0 diverge.", close: "passed" }, { text: "Not played yet.", close: null }]);
});

// ---- a long file is read by a worker

const bytesOf = (value) => new TextEncoder().encode(typeof value === "string" ? value : JSON.stringify(value));

it("a worker tells what a file is taken for, and why it isn't", () => {
  const sessions = [["one", [GAME, [0, 1], ""]], ["two", ["", [2], ""]]], recorded = JSON.stringify(["", ["", [0, 1], "background:0,", 0]]), ofFile = (value) => readFile({ name: "file", bytes: bytesOf(value), text: GAME });
  assert.deepEqual(there(ofFile(sessions).entries).map(({ name, inputs }) => [name, inputs]), [["one", [0, 1]], ["two", [2]]]);
  // without a name of its own, and over the text at hand
  assert.deepEqual(there(ofFile(`printed: ${recorded}`).found).map(({ name, inputs }) => [name, inputs]), [["Simple Block Pushing Game, level 1", [0, 1]]]);
  assert.deepEqual([ofFile(GAME).text, ofFile('{"close":"refused","cause":"memory","frames":0,"name":"","session":0}\n').runs?.length], [GAME, 1]);
  assert.deepEqual([ofFile('{"session": 0}\n'), ofFile([["one", 5]])], [{ kind: "refused", why: "line 1: neither a frame nor a close" }, { kind: "refused", why: "file, session 0: it is no list of a name and a list" }]);
  assert.throws(() => readFile({ name: "file", bytes: null, text: GAME }), TypeError);
});

test("a worker that reads a file hands it over, one that takes long is ended, and so is one that is stopped", async (t) => {
  t.mock.timers.enable({ apis: ["setTimeout"] });
  const workers = [], begin = () => workers[workers.push(new IdleWorker()) - 1], read = readerIn(begin, "the module", 50), stopping = new AbortController();
  const whole = read({ name: "a" }, signal), slow = read({ name: "b" }, signal), broken = read({ name: "c" }, signal), stopped = read({ name: "d" }, stopping.signal), refused = read({ name: "e" }, signal);
  assert.deepEqual(workers[0].asked, [{ module: "the module" }, { file: { name: "a" } }]);
  workers[0].onmessage({ data: { kind: "game" } });
  workers[2].onerror({ preventDefault: () => {} });
  stopping.abort();
  workers[4].onmessage({ data: { kind: "refused", why: "it is none" } });
  t.mock.timers.tick(50);
  assert.deepEqual([await whole, await stopped], [{ kind: "game" }, null]);
  const why = (name) => ({ message: `${name} keeps its reader busy for over 5 seconds: play it by the command` });
  await Promise.all([assert.rejects(slow, why("b")), assert.rejects(broken, why("c")), assert.rejects(refused, { message: "it is none" })]);
  assert.ok(workers.every(({ isEnded }) => isEnded));
});

test("only a long file is read by a worker", async () => {
  const asked = [], read = async (file) => asked.push(file), long = new Uint8Array(65_536);
  assert.equal((await readBeside(GAME, "short", bytesOf("[]"), read, signal)).kind, "sessions");
  await readBeside(GAME, "long", long, read, signal);
  assert.deepEqual(asked, [{ name: "long", bytes: long, text: GAME }]);
});

// ---- what a session has beside what is played

it("of members with one name each is read, as the command reads them", () => {
  const fileWith = (further) => new SessionFile("f.json", bytesOf(`[["one", ["t {:}", [0], "", 0], ${further}], ["two", ["", [1], "", 0, ${further}]]]`));
  const deep = (many) => `${"[".repeat(many)}${"]".repeat(many)}`, has = (value) => `{"a": ${value}, "a": 0}`;
  for (const further of [has('"sol\\"}"'), has(deep(120)), "{}", '[{"a": {}, "b": [{"c": "}:{"}]}]', has("0")]) assert.equal(fileWith(further).entries.length, 2);
  assert.throws(() => fileWith(has('"must be \\"solved"')), /session 0: its further element that is an object holds "solved"/);
  assert.throws(() => fileWith(`[${has('{"solved": 1}')}]`), /session 0: its further element that is a list holds "solved"/);
  assert.throws(() => fileWith(has('"\\ud800"')), /session 0: a text of it holds half a letter/);
  assert.throws(() => fileWith(has(deep(130))), /session 0: its lists and objects are more than 127 deep/);
  // as many members as may stand there are read, whatever their names are
  const many = (count, name) => `{${Array.from({ length: count }, (_, place) => `"${name(place)}": 0`).join(", ")}}`;
  assert.equal(fileWith(many(9000, (place) => place)).entries.length, 2);
  assert.throws(() => fileWith(many(10_001, () => "a")), /session 0: its lists have more than 10,000 elements/);
});

it("a long file that was lost keeps its bytes alone, and is read again once it is put back", async () => {
  for (const length of [0, 140_000]) {
    const bench = new Bench(), file = fileOf([0, 1].map((input) => ({ source: GAME, inputs: [input], level: "x".repeat(length), index: 0 }))), left = length > 0 ? 0 : 2;
    await bench.act(withOtherFile, file);
    const lost = { ...bench.state, isUnsaved: true }, next = remembering(lost, { ...lost, file: null, isUnsaved: false });
    assert.deepEqual([next.past.at(-1).file === file, file.entriesAtHand.length, file.count, file.entriesAtHand.length], [true, left, 2, left]);
    assert.deepEqual(file.entries.map(({ inputs }) => inputs), [[0], [1]]);
    assert.deepEqual([file.entriesAtHand.length, SessionFile.kept("f.json", file.bytes).entriesAtHand.length, SessionFile.kept("f.json", file.bytes).count], [2, left, 2]);
  }
});

it("the texts of recordings get line feeds as they are read, but for those too long to be played", () => {
  const entryOf = (source) => JSON.stringify(["Test", [source, [0], "background:0,", 0]]), long = "\r\n".repeat(1_048_577), text = `printed ${[GAME.replaceAll("\n", "\r\n"), long].map(entryOf).join("\n and ")}`;
  const { found } = handed("console", new TextEncoder().encode(text));
  assert.deepEqual(there(found).map(({ source }) => source === long || source === GAME), [true, true]);
});

it("a changed file is lost where one of its sessions stands nowhere in the next, in whatever order those stand there", async () => {
  const bench = new Bench(), all = Array.from({ length: 24 }, (_, number) => ({ source: GAME, inputs: Array(number).fill(0), level: "", index: 0 }));
  await bench.act(withOtherFile, SessionFile.empty("f.json"));
  const textsIn = (numbers) => JSON.stringify(numbers.map((number) => [`${number}`, [all[number].source, all[number].inputs, "", 0]])), fileWith = (numbers) => new SessionFile("f.json", bytesOf(textsIn(numbers)));
  const isLost = (before, after) => {
    const state = { ...bench.state, file: fileWith(before), isUnsaved: true }, { past } = remembering(state, { ...state, file: fileWith(after) });
    return past.length > state.past.length;
  };
  const some = [...all.keys()].slice(0, 20);
  for (const after of [some, [...some].reverse(), [...some, 20], [20, ...some], [...some.slice(0, 9), 20, 21, ...some.slice(9)]]) assert.equal(isLost(some, after), false);
  for (const after of [[], some.slice(1), some.slice(0, -1), some.filter((it) => it !== 7), some.map((it) => (it === 7 ? 20 : it)), [...some].reverse().slice(1), [20, 21, 22, 23]]) assert.equal(isLost(some, after), true);
  assert.deepEqual([isLost([1, 1], [1]), isLost([1, 2, 1], [1, 2])], [false, false]);
});

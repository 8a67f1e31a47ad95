// @ts-check
// What the playground thinks, without a page: recordings, sessions files, lines, comparisons, lists and keys. What is expected is written by hand.
import assert from "node:assert/strict";
import test from "node:test";
import { Ending, endingTold, obstacleTold, partingOf, partingTold } from "../../web/comparing.mjs";
import { handed, takeEach } from "../../web/handing.mjs";
import { MOST_OF_LINES } from "../../web/limits.mjs";
import { lostIn } from "../../web/past.mjs";
import { meaningOf } from "../../web/keys.mjs";
import { playedInParts } from "../../web/parts.mjs";
import { Labels, readCells, widthOf } from "../../web/level-text.mjs";
import { framesIn, runsIn, runsOf } from "../../web/lines.mjs";
import { likeness, nearest } from "../../web/nearest.mjs";
import { firstFrom, joined, markOf, windowAround } from "../../web/recording.mjs";
import { Refusal, SessionFile, refusalTold } from "../../web/session-file.mjs";
import { findingsIn } from "../../web/console.mjs";
import { following, isFailure, listed } from "../../web/session-list.mjs";
import "./module.mjs";
import { WORK, stateOf } from "./stand-ins.mjs";

const bytesOf = (text) => new TextEncoder().encode(text);
const textOf = (bytes) => new TextDecoder().decode(bytes);

test("frames are joined behind those before so many inputs", () => {
  const frames = [{ at: 0 }, { at: 1 }, { at: 1 }, { at: 2 }];
  assert.deepEqual([firstFrom(frames, 0), firstFrom(frames, 1), firstFrom(frames, 2), firstFrom(frames, 3)], [0, 1, 3, 4]);
  assert.deepEqual(joined(frames, 2, [{ at: 2, kind: "undo" }]), [{ at: 0 }, { at: 1 }, { at: 1 }, { at: 2, kind: "undo" }]);
});

test("a window has its place in it", () => {
  assert.deepEqual(windowAround(5, 3, 10), [0, 5]);
  assert.deepEqual(windowAround(100, 0, 10), [0, 10]);
  assert.deepEqual(windowAround(100, 50, 10), [45, 55]);
  assert.deepEqual(windowAround(100, 99, 10), [90, 100]);
});

test("each input has a mark", () => {
  assert.equal([0, 1, 2, 3, 4, "undo", "restart", "tick"].map(markOf).join(""), "\u2191\u2190\u2193\u2192\u25cfzr.");
});

const FILE = `[ ["one", ["source", [0, "undo"], "a:0,", 1, "seed"], "solved"] ,\n["\\u0074wo",["",[],"b:0,"]]\n]\n`;

test("a sessions file is read", () => {
  const file = new SessionFile("f.json", bytesOf(FILE));
  assert.deepEqual(file.entries, [
    { name: "one", source: "source", inputs: [0, "undo"], level: "a:0,", index: 1, rest: ["solved"] },
    { name: "two", source: "", inputs: [], level: "b:0,", index: 0 },
  ]);
  assert.equal(file.isOverAGame, true);
  assert.deepEqual(file.partsOver("the game").map(({ first, bytes }) => [first, textOf(bytes)]), [[0, '[["one",["source",[0,"undo"],"a:0,",1]],["two",["the game",[],"b:0,",0]]]']]);
});

test("a text that many sessions are played over is made ready once", () => {
  const entries = Array.from({ length: 300 }, (_, number) => [`s${number}`, ["", [], "b:0,", 0]]), file = new SessionFile("f.json", bytesOf(JSON.stringify(entries)));
  let asked = 0;
  const parts = file.partsOver("a game", (text) => `${text}${asked += 1}`);
  assert.equal(asked, 1);
  assert.deepEqual(JSON.parse(textOf(parts[0].bytes)), entries.map(([name, [, ...others]]) => [name, ["a game1", ...others]]));
});

test("a file is played in as few parts as the engine takes, and their lines are joined", async () => {
  const entries = Array.from({ length: 300 }, (_, number) => [`s${number}`, ["", [], "b:0,", 0]]), file = new SessionFile("f.json", bytesOf(JSON.stringify(entries))), game = "x".repeat(150_000);
  const parts = file.partsOver(game), counts = parts.map(({ bytes }) => JSON.parse(textOf(bytes)).length);
  // 16,777,216 bytes have room for 111 entries of 150,000 letters and some 20 around them
  assert.deepEqual([counts, parts.map(({ first }) => first)], [[111, 111, 78], [0, 111, 222]]);
  assert.ok(parts.every(({ bytes }) => bytes.length <= 16_777_216));
  const line = (number) => `{"at":0,"session":7}\n{"close":"passed","frames":0,"name":"\\"session\\":5}","session":${number}}\n`, told = [];
  const engine = { playAll: async (bytes, { progress }) => { progress(2, 9); return { fault: null, lines: bytesOf(line(JSON.parse(textOf(bytes)).length)) }; } };
  const asked = { order: "rows", signal: new AbortController().signal, progress: (...words) => told.push(words) };
  const { lines } = await playedInParts(engine, parts, 300, asked);
  assert.equal(textOf(lines), line(111) + line(222).replace(":7", ":118") + line(300).replace(":7", ":229"));
  assert.deepEqual(told, [[2, 300], [113, 300], [224, 300]]);
  const bounds = [], counting = { playAll: async (bytes, { most }) => { bounds.push(most); return { fault: null, lines: bytesOf(line(1)) }; } };
  await playedInParts(counting, parts, 300, asked);
  assert.deepEqual(bounds, [0, 1, 2].map((count) => MOST_OF_LINES - count * line(1).length));
  const short = await playedInParts({ playAll: async () => ({ fault: "memory", lines: null }) }, parts.slice(0, 1), 300, asked);
  assert.match(refusalTold(short.fault), /^its lines have more than 512 MiB, or those of a session 256, /);
  const failing = { playAll: async () => ({ fault: "bad-level 4", lines: null }) };
  assert.equal((await playedInParts(failing, parts.slice(1), 300, asked)).fault, "bad-level 115");
  assert.equal((await playedInParts(failing, parts.slice(0, 1), 300, asked)).fault, "bad-level 4");
});

test("a changed level leaves all else letter by letter", () => {
  const file = new SessionFile("f.json", bytesOf(FILE)).withLevels([[0, 'é"\n'], [1, "c:0,"]]);
  assert.equal(textOf(file.bytes), FILE.replace('"a:0,"', '"é\\"\\n"').replace('"b:0,"', '"c:0,"'));
});

test("sessions get the empty text as their own, and all else stays letter by letter", () => {
  const file = new SessionFile("f.json", bytesOf(FILE)).withoutSources([0]);
  assert.equal(textOf(file.bytes), FILE.replace('"source"', '""'));
});

test("a session is added, replaced and removed", () => {
  const file = new SessionFile("f.json", bytesOf(FILE)), entry = { name: "three", source: "s", inputs: [3], level: "", index: 2 };
  const three = '["three",["s",[3],"",2]]';
  assert.equal(textOf(file.with(entry).bytes), FILE.replace('"b:0,"]]', `"b:0,"]],\n${three}`));
  assert.equal(textOf(file.withReplaced(1, entry).bytes), FILE.replace('["\\u0074wo",["",[],"b:0,"]]', three));
  // what stands behind a body stays where another session takes the place
  const demanding = new SessionFile("f", bytesOf('[["one",["s",[],"",0,"seed"],"solved" , {"a":1e300}]]'));
  assert.equal(textOf(demanding.withReplaced(0, entry).bytes), '[["three",["s",[3],"",2],"solved",{"a":1e300}]]');
  assert.deepEqual(file.with(entry).without(1).entries.map(({ name }) => name), ["one", "three"]);
  assert.deepEqual(file.without(0).entries.map(({ name }) => name), ["two"]);
  assert.deepEqual(file.without(1).without(0).entries, []);
  assert.equal(textOf(SessionFile.empty("f").with(entry).bytes), `[\n${three}\n]\n`);
});

test("what is no sessions file is refused with its place", () => {
  const refusals = [
    ["{}", "f is no JSON list of sessions"], ['[["a",["s",[5],""]]]', "f, session 0: its input 0 is neither 0 to 4 nor undo, restart or tick"],
    ['[["a",["s",[],"",0]],["b",["s",[]]]]', "f, session 1: after its name there is no list of a source, a list of inputs and a level text"],
    ["[1]", "f, session 0: it is no list of a name and a list"], ['[["a",["s",[],"",-1]]]', "f, session 0: its index is no whole number"],
    ['[["\\ud800",["s",[],""]]]', "f, session 0: a text of it holds half a letter (a lone surrogate)"], ['[["a",["s",["left"],""]]]', "f, session 0: its input 0 is neither 0 to 4 nor undo, restart or tick"],
  ];
  for (const [text, message] of refusals) assert.throws(() => new SessionFile("f", bytesOf(text)), (error) => error instanceof Refusal && error.message === message, text);
  assert.throws(() => new SessionFile("f", bytesOf("[,]")), Refusal);
  assert.throws(() => new SessionFile("f", new Uint8Array([0xff])), (error) => error.message === "f is no text in UTF-8");
});

test("inputs and indices are written as digits, as the program wants them, and no number is beyond the largest", () => {
  const input = "f, session 1: its input 1 is neither 0 to 4 nor undo, restart or tick", index = "f, session 1: its index is no whole number", beyond = "a number in it is beyond the largest number";
  const withBody = (body) => `[["a",["",[0,"\\u0075ndo"],"",null],{"x":[1.5,-2e3]}],["b",${body}]]`;
  for (const number of ["3.0", "3e0", "-0", "0.99999999999999999999", "3.00000000000000000001"]) {
    assert.throws(() => new SessionFile("f", bytesOf(withBody(`["",[1, ${number} ,2],""]`))), (error) => error.message === input, number);
  }
  for (const number of ["1.0", "-0", "1e0", "18446744073709551616", "18446744073709551999"]) {
    assert.throws(() => new SessionFile("f", bytesOf(`[["a",["",[],""]],["b",["",[1],"", ${number}]]]`)), (error) => error.message === index, number);
  }
  for (const more of ['"",[],"",0,1e400', `"",[],"",0,${"9".repeat(400)}`, '"",[],"",0,[{"x":-1e400}]', '"",[],"",0,{"x":1e400,"x":1}']) {
    assert.throws(() => new SessionFile("f", bytesOf(withBody(`[${more}]`))), (error) => error.message === `f, session 1: ${beyond}`, more);
  }
  for (const body of ['["",[1,"\\u0074ick","restart", 4 ],"",0]', '["",[],"", 18446744073709551615 ]', '["",[],"",null,1e300]', '["",[],"-1.5e3"]']) assert.equal(new SessionFile("f", bytesOf(withBody(body))).entries.length, 2, body);
});

test("a fault of the engine is told in words", () => {
  assert.equal(refusalTold("bad-level 7"), "the recorded level of session 7 is no level text");
  assert.equal(refusalTold("memory"), "there is not enough memory");
});

const frame = (at, number, kind, level, session) => `{"at":${at},"frame":${number},"kind":"${kind}","level":"${level}","session":${session}}\n`;
const LINES = `${frame(0, 0, "start", "a:0,b:1,", 0)}${frame(1, 1, "move", "b:0,a:1,", 0)}{"close":"differs","frames":2,"name":"one","session":0}\n{"cause":"BadRule:3","close":"refused","frames":0,"name":"two","session":1}\n`;

test("lines are cut into runs, and frames are read where they are wanted", () => {
  const lines = bytesOf(LINES), runs = runsOf(lines);
  assert.deepEqual(runs.map(({ name, close, cause, count }) => [name, close, cause, count]), [["one", "differs", null, 2], ["two", "refused", "BadRule:3", 0]]);
  const frames = framesIn(lines, runs[0]), [first, second] = [{ at: 0, kind: "start", level: "a:0,b:1," }, { at: 1, kind: "move", level: "b:0,a:1," }];
  assert.deepEqual([1, 1, 0, 1, 2, 0].map((number) => frames.at(number)), [second, second, first, second, undefined, first]);
  assert.deepEqual([frames.length, framesIn(lines, runs[1]).length, framesIn(lines, runs[1]).at(0)], [2, 0, undefined]);
});

test("lines of another engine are read the same, and refused where they are none", () => {
  const [one, two] = runsIn(LINES);
  assert.deepEqual([one.close, one.frames.length, two.cause], ["differs", 2, "BadRule:3"]);
  for (const [text, message] of [
    ["no\n", "line 1: no line of a recording"], ['{"session":0,"close":"won"}\n', "line 1: neither a frame nor a close"],
    [frame(0, 1, "start", "", 0), "line 1: not frame 0 of its session"], [frame(0, 0, "over", "", 0), "line 1: not frame 0 of its session"],
    [`${frame(0, 0, "start", "", 0)}${frame(1, 1, "over", "", 0)}`, "line 2: not frame 1 of its session"], [`${frame(0, 0, "start", "", 0)}${frame(0, 1, "start", "", 0)}`, "line 2: not frame 1 of its session"], [frame(0, 0, "start", "", 0), "the lines end within session 0, which has no close"],
    ['{"close":"passed","frames":1,"name":"one","session":0}\n', "line 1: no close of a session of 0 frames"], [frame(0, 0, "start", "", 3), "line 1: session 3 where session 0 is wanted"],
    ['{"close":"stopped","frames":0,"name":"one","session":0}\n', "line 1: no close of a session of 0 frames"],
  ]) assert.throws(() => runsIn(text), (error) => error instanceof Refusal && error.message === message, text);
});

const run = (frames, close = "passed", cause = null) => ({ frames: frames.map(([at, kind, level]) => ({ at, kind, level })), close, cause });
const START = [0, "start", "a:0,0,"];

test("two runs part at the first frame that differs", () => {
  const one = run([START, [1, "move", "a:0,b:1,"]]);
  assert.equal(partingOf(one, run([START, [1, "move", "a:0,b:1,"]])), null);
  // the same cells by another spelling
  assert.equal(partingOf(one, run([[0, "start", "a:0,a:1,"], [1, "move", "A a:0,b:1,"]])), null);
  assert.deepEqual(partingOf(one, run([START, [1, "move", "b:0,a:1,"]])), { frame: 1, kind: "level" });
  assert.deepEqual(partingOf(one, run([START, [1, "tick", "a:0,b:1,"]])), { frame: 1, kind: "kind" });
  assert.deepEqual(partingOf(one, run([START])), { frame: 1, kind: "end" });
  assert.deepEqual(partingOf(one, run([START, [1, "move", "a:0,b:1,"]], "differs")), { frame: 2, kind: "close" });
});

test("a level whose cells stand in other lines is another one, in each line and not in the first alone", () => {
  const rows = "a:0,0,\n0,b:1,\n0,0,\n", partingFrom = (level) => partingOf(run([[0, "start", rows]]), run([[0, "start", level]]));
  for (const other of ["a:0,0,\n0,b:1,0,0,\n", "a:0,0,\n\n0,b:1,\n0,0,\n", "a:0,0,\n0,\nb:1,0,0,\n"]) assert.deepEqual(partingFrom(other), { frame: 0, kind: "level" });
  // the last line feed may be missing, and a carriage return be there
  for (const same of [rows.slice(0, -1), rows.replaceAll("\n", "\r\n"), `${rows}\n`]) assert.equal(partingFrom(same), null);
  assert.equal(partingOf(run([[0, "start", ""]]), run([[0, "start", "\n\n"]])), null);
});

test("a parting is told with its input", () => {
  const one = run([START, [1, "move", "a:0,b:1,"]]), other = run([START], "stopped", "loop-limit");
  assert.equal(partingTold(partingOf(one, other), one, other, [3]), "frame 1, after input 0 (right): no more frames there, which is stopped (loop-limit)");
  const differs = run(one.frames.map(({ at, kind, level }) => [at, kind, level]), "differs");
  assert.equal(partingTold(partingOf(one, differs), one, differs, [3]), "the same 2 frames, and then here passed, there differs");
});

test("the level that was reached is held against the recorded one", () => {
  const told = (reached, recorded, order = "columns") => endingTold(new Ending(reached, recorded, order));
  assert.equal(told("a:0,b:1,\n0,0,\n", "a:0,0,0,0,"), "1 of 4 cells (2 wide, 2 high) differs from the recorded level");
  assert.equal(told("a:0,b:1,\n0,0,\n", "a:0,0,b:1,0,"), "2 of 4 cells (2 wide, 2 high) differ from the recorded level; the recorded level is this one listed in the other order, not by columns");
  assert.equal(told("a:0,0,\n", "a:0,"), "the recorded level has 1 cell, and the one that was reached 2");
  assert.equal(told("a:0,0,\n", "a"), "the recorded level is no level text");
  assert.match(told("a,b:0,0,\n", "a:0,"), /^the level that was reached can't be read back/);
});

test("what can't be recorded is told", () => {
  const ending = (recorded) => new Ending("a:0,b:1,\n0,0,\n", recorded, "columns");
  assert.equal(obstacleTold(run([], "differs"), ending("a:0,0,0,0,")), null);
  assert.equal(obstacleTold(run([], "stopped", "loop-limit"), ending("a:0,0,0,0,")), "it was stopped, and not played to its end");
  assert.match(obstacleTold(run([], "differs"), ending("a:0,0,b:1,0,")), /in the other order, not by columns/);
});

test("level texts are read as docs/sessions.md has them", () => {
  const names = (text) => {
    const labels = new Labels();
    return readCells(text, labels)?.map((label) => labels.names[label].join(" ")) ?? null;
  };
  assert.deepEqual(names("b a:0,\r\n00,:1,A b:2,\n"), ["a b", "a b", "", "a b"]);
  assert.deepEqual(names(""), []);
  for (const text of ["a", "a:1,", "0,", "a:0,1,", "a:0,x,", "a:0,a:0,"]) assert.equal(names(text), null, text);
  assert.equal(widthOf("a:0,0,\n0,0,\n", 4), 2);
  assert.equal(widthOf("a:0,0,0,", 3), 3);
});

test("the nearest word is found as difflib finds it", () => {
  assert.equal(likeness("abcd", "bcde"), 0.75);
  assert.equal(nearest("plaer", ["player", "wall", "crate"]), "player");
  assert.equal(nearest("ochre", ["player", "wall"]), null);
});

const row = (name, close, parting = null) => ({ name, close, parting });
const ROWS = [row("Level one", "passed"), row("level two", "differs"), row("three", "passed", { frame: 2 }), row("four", null)];

test("a list is filtered by close and by name", () => {
  assert.deepEqual(listed(ROWS, "all", ""), [0, 1, 2, 3]);
  assert.deepEqual(listed(ROWS, "all", "LEVEL"), [0, 1]);
  assert.deepEqual(listed(ROWS, "differs", ""), [1]);
  assert.deepEqual(listed(ROWS, "diverges", ""), [2]);
  assert.deepEqual(ROWS.map(isFailure), [false, true, true, false]);
});

test("the next and the last of a list go round", () => {
  assert.equal(following([1, 4, 7], null, 1), 1);
  assert.equal(following([1, 4, 7], null, -1), 7);
  assert.equal(following([1, 4, 7], 4, 1), 7);
  assert.equal(following([1, 4, 7], 7, 1), 1);
  assert.equal(following([1, 4, 7], 2, -1), 1);
  assert.equal(following([1, 4, 7], 1, -1), 7);
  assert.equal(following([], 1, 1), null);
});

const pressed = (key, selector = "body", more = {}) => meaningOf({ key, target: { matches: (wanted) => wanted.split(",").some((it) => it.trim().startsWith(selector)) }, ...more });

test("keys mean inputs and moves, but not where something is typed", () => {
  assert.deepEqual(pressed("ArrowLeft"), { input: 1 });
  assert.deepEqual(pressed("D"), { input: 3 });
  assert.deepEqual(pressed("."), { input: "tick" });
  for (const key of ["x", "c", "C", " ", "Enter"]) assert.deepEqual(pressed(key), { input: 4 }, key);
  for (const [key, move] of [["+", "larger"], ["-", "smaller"], ["0", "fit"], ["b", "blink"]]) assert.deepEqual(pressed(key), { move });
  assert.deepEqual(pressed("ArrowLeft", "body", { shiftKey: true }), { move: "back" });
  assert.deepEqual(pressed("N", "body", { shiftKey: true }), { move: "previous-failure" });
  for (const [back, on] of [["{", "}"], ["ArrowUp", "ArrowDown"]]) assert.deepEqual([back, on].map((key) => pressed(key, "body", { shiftKey: true })), [{ move: "stage-back" }, { move: "stage-on" }]);
  assert.deepEqual(pressed("End"), { move: "last" });
  for (const it of [pressed("x", "textarea"), pressed("q"), pressed("z", "body", { ctrlKey: true }), pressed(" ", "button"), pressed("Tab"), pressed("Enter", "button")]) assert.equal(it, null);
});

test("a file that is too long is told, and not read", async () => {
  const taken = [], refused = [], most = 64 * 2 ** 20;
  const file = (name, size, isRead = true) => ({ name, size, arrayBuffer: async () => (isRead ? new ArrayBuffer(size) : assert.fail(`${name} is read`)) });
  const files = [file("a", 3), file("long", most + 1, false), file("endless", 2 ** 40, false), file("b", 0)];
  await takeEach(files, async (name, bytes) => taken.push([name, bytes.length]), (why) => refused.push(why));
  assert.deepEqual(taken, [["a", 3], ["b", 0]]);
  assert.deepEqual(refused, ["long has more than 64 MiB, and is not read", "endless has more than 64 MiB, and is not read"]);
  assert.throws(() => handed("pasted", { length: most + 1 }), new Refusal("pasted has more than 64 MiB, and is not read"));
});

test("what can't be read, as a folder, is told, and what comes behind it is read", async () => {
  const taken = [], refused = [], folder = { name: "folder", size: 0, arrayBuffer: () => Promise.reject(new Error("a folder")) };
  await takeEach([folder, { name: "b", size: 1, arrayBuffer: async () => new ArrayBuffer(1) }], async (name, bytes) => taken.push([name, bytes.length]), (why) => refused.push(why));
  assert.deepEqual([taken, refused], [[["b", 1]], ["folder can't be read"]]);
});

test("a session that is lost with what must be so of it can be put back", () => {
  const fileOf = (...rest) => new SessionFile("f.json", bytesOf(JSON.stringify([["a", ["", [0], ""], ...rest]])));
  const state = (...rest) => stateOf({ file: fileOf(...rest), isUnsaved: true, past: [], text: "", work: WORK }), plain = state(), demanded = state("solved");
  assert.equal(lostIn(demanded, plain).file, demanded.file);
  assert.equal(lostIn(demanded, state("solved")), null);
});

const kindOf = (text) => handed("f", typeof text === "string" ? bytesOf(text) : text).kind;
const wide = (text, isBig) => Uint8Array.from([...text].flatMap((letter) => (isBig ? [0, letter.charCodeAt(0)] : [letter.charCodeAt(0), 0])));

test("a file is taken for what stands in it", () => {
  const recording = '["a",["OBJECTS",[0],"b:0,"]]';
  assert.deepEqual(["[]", `[${recording}]`, `so: ${recording},`, '{"cause":"memory","close":"refused","frames":0,"name":"","session":0}', "title A\nOBJECTS\n"].map(kindOf), ["sessions", "sessions", "recordings", "lines", "game"]);
  assert.deepEqual([wide(`[${recording}]`, false), wide(`[${recording}]`, true), wide("LEVELS\n", true)].map(kindOf), ["sessions", "sessions", "game"]);
});

test("what is none of these is refused, and prose is no game", () => {
  /** @type {[string | Uint8Array, string][]} */
  const refusals = [
    ["", "f: it is empty: in PuzzleScript's editor play"], ["Dear Anna, here is my game.", "f: it has no recording, and is no text of a game"], ['{"source": "x"}', "f: it has objects in braces"],
    ['["a",["OBJECTS",[7],"b:0,"]]', "no recording is left in f: line 1: skipped a recording with a fault: its input 0 is neither"], ['\n["a",["OBJECTS\\n', "no recording is left in f: line 2: skipped a recording that is cut off"],
    [new Uint8Array([0x61, 0xff]), "f is no text in UTF-8"],
  ];
  for (const [text, begin] of refusals) assert.throws(() => kindOf(text), (error) => error instanceof Refusal && error.message.startsWith(begin), begin);
});

test("what stands behind the body of a recording stays where only brackets are missing, and one that is cut in a text is cut off", () => {
  const whole = '["a",["title x\\nOBJECTS",[1],"b:0,",0],"solved",7';
  for (const end of ["]", "", "\n", "\nVM1: more", "] "]) assert.deepEqual(findingsIn(whole + end).found.map(({ rest }) => rest), [["solved", 7]], end);
  for (const text of ['["a",["title x\\nOBJECTS",[1],"b:0,",0],"sol', '["a",["title x\\nOBJECTS",[1],"b:0,",0],7,"']) {
    const { found, skipped } = findingsIn(text);
    assert.deepEqual([found, skipped.map(({ what }) => what)], [[], ["cut-off"]], text);
  }
});

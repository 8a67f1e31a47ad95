// @ts-check
// The functions of engine/saxtegun.mjs and their refusals, over the module that engine/build has made. What is expected is that of the conformance cases.
import assert from "node:assert/strict";
import { readFileSync } from "node:fs";
import test from "node:test";
import { Worker } from "node:worker_threads";
import { elementsOf, load, numbered, parse, partsOf } from "../../engine/saxtegun.mjs";
import { plainCases, readCase } from "./cases.mjs";
import { wrong } from "./instances.mjs";
import { attack } from "./hostile.mjs";

const WALK = readCase("walk-two-steps-right-against-a-wall");
const textOf = (bytes) => new TextDecoder().decode(bytes);
const bytesOf = (text) => new TextEncoder().encode(text);
const refused = (fault) => ({ status: 2, passed: false, lines: new Uint8Array(0), fault });

// The cases by rows that show something, as one file of all their sessions, with the lines of all.
function suite() {
  const entries = [], lines = [];
  let isPassed = true;
  for (const { words, input, shown, status } of plainCases()) {
    if (words.join(" ") !== "--order rows" || status === 2) continue;
    const first = entries.length;
    entries.push(...elementsOf(input).map(([begin, end]) => textOf(input.subarray(begin, end))));
    lines.push(shown.replace(/"session":(\d+)\}$/gm, (_, number) => `"session":${Number(number) + first}}`));
    isPassed &&= status === 0;
  }
  return { text: `[${entries.join(",")}]`, count: entries.length, lines: lines.join(""), isPassed };
}

test("a file is played, as text and as bytes", async () => {
  const engine = await load();
  const file = WALK.input, lines = WALK.lines;
  for (const given of [textOf(file), file, new Uint8Array(file), new Uint8Array(file).buffer, new DataView(new Uint8Array(file).buffer)]) {
    assert.deepEqual(engine.replay(given, { order: "rows" }), { status: 0, passed: true, lines, fault: null });
  }
});

test("the order is columns where none is named", async () => {
  const engine = await load();
  const { text, lines } = suite();
  assert.equal(textOf(engine.replay(text, { order: "rows" }).lines), lines);
  const byColumns = engine.replay(text);
  assert.deepEqual(byColumns, engine.replay(text, { order: "columns" }));
  assert.notEqual(textOf(byColumns.lines), lines);
});

test("bytes that are changed once they were handed in are played in workers as they were", async () => {
  const engine = await load(), file = new Uint8Array(WALK.input), answer = engine.replayInWorkers(file, { order: "rows" });
  file.fill(0x20);
  assert.deepEqual(await answer, { status: 0, passed: true, lines: WALK.lines, fault: null });
});

test("a file that is refused has its fault and no lines", async () => {
  const engine = await load();
  const entry = '["a",["",[],""]]';
  const faults = {
    "not-json": ["", "[", "[1,]", "{}", "[]x", '["\ud800"]', new Uint8Array([0x5b, 0xff, 0x5d])],
    "bad-entry 0": ["[0]", "[[]]"],
    "bad-entry 2": [`[${entry},${entry},"x"]`],
    "bad-level 1": [`[${entry},["a",["",[],"x"]]]`],
    "too-many": [" ".repeat(16_777_217), new Uint8Array(20_000_000), `[${"0,".repeat(65_536)}0]`],
  };
  for (const [fault, files] of Object.entries(faults)) {
    for (const file of files) {
      assert.deepEqual(engine.replay(file), refused(fault));
      assert.deepEqual(await engine.replayInWorkers(file, { workers: 2 }), refused(fault));
    }
  }
});

test("hostile calls are answered, and take no other answer away", async () => {
  const counts = await attack(75, 600);
  assert.equal(Object.values(counts).reduce((sum, count) => sum + count, 0), 600);
});

// A game whose level texts are long: each of 1,000 cells has another set of ten objects, whose names have this many letters.
function gameOfLongNames(letters) {
  const names = [..."abcdefghij"], glyphs = Array.from({ length: 1000 }, (_, k) => String.fromCodePoint(0x4e00 + k));
  const membersOf = (number) => names.filter((_, k) => ((number + 1) >> k) & 1).map((it) => `q${it}`).join(" and ");
  const objects = names.map((it) => `z${it}${"x".repeat(letters)} q${it}\nred\n`).join("");
  const legend = glyphs.map((it, k) => `${it} = ${membersOf(k)}\n`).join("");
  const layers = names.map((it) => `q${it}\n`).join(""), rows = Array.from({ length: 20 }, (_, k) => glyphs.slice(50 * k, 50 * k + 50).join(""));
  return `OBJECTS\nBackground .\nblack\nPlayer p\nwhite\n${objects}LEGEND\n${legend}COLLISIONLAYERS\nBackground\nPlayer\n${layers}RULES\nWINCONDITIONS\nLEVELS\np${".".repeat(49)}\n${rows.join("\n")}\n`;
}

test("frames of more lines than a page can hold are a fault that is told", async () => {
  const engine = await load(), source = gameOfLongNames(11_000);
  const few = engine.frames({ source, inputs: [] });
  assert.deepEqual([few.fault, few.frames.length, few.close.close], [null, 1, "differs"]);
  assert.deepEqual(engine.frames({ source, inputs: Array(12).fill(3) }), { frames: [], close: null, fault: "memory" });
  assert.equal(engine.frames({ source, inputs: Array(12).fill(3) }, { from: 12 }).frames.length, 1);
});

test("what is no file, no order and no number of workers is an error", async () => {
  const engine = await load();
  for (const file of [undefined, null, 3, {}, []].map(wrong)) assert.throws(() => engine.replay(file), TypeError);
  for (const order of ["row", "", null, "toString"].map(wrong)) {
    assert.throws(() => engine.replay("[]", { order }), TypeError);
    assert.throws(() => engine.frames({ source: "", inputs: [] }, { order }), TypeError);
    await assert.rejects(engine.replayInWorkers("[]", { order }), TypeError);
  }
  for (const workers of [0, 65, 1.5, "2"].map(wrong)) await assert.rejects(engine.replayInWorkers("[]", { workers }), TypeError);
  await assert.rejects(load(new Uint8Array(8)), WebAssembly.CompileError);
  await assert.rejects(load(new URL("none.wasm", import.meta.url)));
});

test("the module is loaded from an address, from bytes and compiled", async () => {
  const url = new URL("../../engine/out/saxtegun.wasm", import.meta.url), bytes = readFileSync(url);
  for (const source of [url, url.href, bytes, await WebAssembly.compile(bytes)]) assert.equal((await load(source)).replay("[]").status, 0);
});

test("lines are parsed", async () => {
  const engine = await load();
  const objects = parse(engine.replay(WALK.input, { order: "rows" }).lines);
  assert.deepEqual(objects.map((it) => it.kind ?? it.close), ["start", "move", "move", "passed"]);
  assert.deepEqual(parse(new Uint8Array(0)), []);
});

test("the frames of a session are given from an input on", async () => {
  const engine = await load();
  const [[, [source, inputs, level]]] = JSON.parse(textOf(WALK.input));
  const all = parse(WALK.lines);
  const close = { ...all.pop(), name: "" };
  for (let from = 0; from <= 3; from++) {
    const frames = all.filter((it) => it.at >= from);
    assert.deepEqual(engine.frames({ source, inputs, level }, { order: "rows", from }), { frames, close, fault: null });
  }
  for (const from of [-1, 1.5, NaN, Infinity, "1", null, 2 ** 53].map(wrong)) assert.throws(() => engine.frames({ source, inputs, level }, { from }), TypeError);
  const { frames, close: other } = engine.frames({ source, inputs }, { order: "rows" });
  assert.deepEqual([frames, other.close], [all, "differs"]);
  assert.deepEqual(engine.frames({ source: "", inputs: [] }).close, { cause: "Section:0", close: "refused", frames: 0, name: "", session: 0 });
  assert.deepEqual(engine.frames({ source: "", inputs: wrong([9]) }), { frames: [], close: null, fault: "bad-entry 0" });
});

test("workers give the lines of the whole file", async () => {
  const engine = await load();
  const { text, lines, isPassed } = suite();
  for (const workers of [1, 2, 5, 64]) {
    const answer = await engine.replayInWorkers(text, { order: "rows", workers });
    assert.equal(textOf(answer.lines), lines);
    assert.deepEqual([answer.status, answer.passed, answer.fault], [isPassed ? 0 : 1, isPassed, null]);
  }
  const empty = await engine.replayInWorkers("[]");
  assert.deepEqual([empty.status, empty.lines.length], [0, 0]);
});

test("the fault of a file in parts is its first", async () => {
  const engine = await load();
  const { text, count } = suite();
  const whole = text.slice(0, -1);
  const bad = { [`${whole},0,["",["",[],"x"]]]`]: `bad-entry ${count}`, [`${whole},["",["",[],"x"]],0]`]: `bad-level ${count}`, [`[0,${whole.slice(1)},]`]: "not-json",
    [`[["",["",[],"x"]],${whole.slice(1)},{"a"}]`]: "not-json", [`[${whole.slice(1)}} ,1]`]: "not-json" };
  for (const [file, fault] of Object.entries(bad)) {
    assert.deepEqual(await engine.replayInWorkers(file, { workers: 3, order: "rows" }), refused(fault));
    assert.deepEqual(engine.replay(file, { order: "rows" }), refused(fault));
  }
});

test("progress is told", async () => {
  const engine = await load();
  const { text, count } = suite();
  const told = [];
  await engine.replayInWorkers(text, { order: "rows", workers: 2, progress: (done, total) => told.push([done, total]) });
  assert.ok(told.length > 2 && told.every(([done, total], k) => total === count && done > (k ? told[k - 1][0] : 0)));
  assert.deepEqual(told.at(-1), [count, count]);
});

test("a call is ended by its signal", async () => {
  const engine = await load();
  const presses = Array(60_000).fill("4,3,1").join(",").split(",").slice(0, 60_000).join(",");
  const [name, [source, , level]] = JSON.parse(textOf(WALK.input))[0];
  const long = `[${JSON.stringify([name, [source, [], level]]).replace("[]", `[${presses}]`)}]`;
  const controller = new AbortController();
  const playing = engine.replayInWorkers(long, { signal: controller.signal });
  setTimeout(() => controller.abort(new Error("enough")), 50);
  await assert.rejects(playing, /enough/);
  await assert.rejects(engine.replayInWorkers("[]", { signal: controller.signal }), /enough/);
});

// A module of the test's own, with the exports of the engine's: `take_room` answers a number, and `saxtegun_lines` has a body.
function moduleWith(room, body) {
  const list = (...items) => [items.length, ...items.flat()];
  const section = (id, bytes) => [id, bytes.length, ...bytes];
  const name = (text) => list(...[...text].map((it) => it.charCodeAt(0)));
  const types = list([0x60, 1, 0x7f, 1, 0x7f], [0x60, 1, 0x7f, 0], [0x60, 6, 0x7f, 0x7e, 0x7f, 0x7f, 0x7e, 0x7f, 1, 0x7e]);
  const exported = list([...name("memory"), 2, 0], [...name("take_room"), 0, 0], [...name("give_back_room"), 0, 1], [...name("saxtegun_lines"), 0, 2]);
  const code = list(...[[0, 0x41, room, 0x0b], [0, 0x0b], [0, ...body, 0x0b]].map((it) => [it.length, ...it]));
  return new Uint8Array([0, 0x61, 0x73, 0x6d, 1, 0, 0, 0, ...section(1, types), ...section(3, list(0, 1, 2)), ...section(5, [1, 0, 1]), ...section(7, exported), ...section(10, code)]);
}

test("what does not come back is told, and never asked again", async () => {
  const traps = await load(moduleWith(16, [0x00]));
  const recurses = await load(moduleWith(16, [0x20, 0, 0x20, 1, 0x20, 2, 0x20, 3, 0x20, 4, 0x20, 5, 0x10, 2]));
  const hasNoRoom = await load(moduleWith(0, [0x00]));
  for (let k = 0; k < 2; k++) {
    assert.deepEqual(traps.replay("[]"), refused("broken"));
    assert.deepEqual(recurses.replay("[]"), refused("memory"));
    assert.deepEqual(hasNoRoom.replay("[]"), refused("memory"));
    assert.deepEqual(await traps.replayInWorkers("[[],[]]", { workers: 2 }), refused("broken"));
    assert.deepEqual(await hasNoRoom.replayInWorkers("[[],[]]", { workers: 2 }), refused("memory"));
  }
  // what a call before has left in the memory is not there: the memory would hold a status of 1 at 16
  const remembers = await load(moduleWith(16, [0x41, 16, 0x41, 16, 0x28, 2, 0, 0x04, 0x40, 0x00, 0x0b, 0x41, 1, 0x36, 2, 0, 0x00]));
  for (let k = 0; k < 2; k++) assert.deepEqual(remembers.replay(""), refused("broken"));
});

test("elements of a list are found", () => {
  const found = (text) => elementsOf(bytesOf(text))?.map(([begin, end]) => text.slice(begin, end).trim()) ?? null;
  assert.deepEqual(found("[]"), []);
  assert.deepEqual(found(' [ 1 , [2,","] ,{"a":[]},"\\"]"]\n'), ["1", '[2,","]', '{"a":[]}', '"\\"]"']);
  for (const text of ["", "1", "{}", "[", "[1", "[1,]", "[,1]", "[,]", "[1,,2]", "[1]]", "[1] 2", "[1}", "x[1]", '["1]', '["\\"]', "[[1]"]) assert.equal(found(text), null, text);
});

test("a file is cut", () => {
  const cut = (text, most) => partsOf(bytesOf(text), most)?.map((it) => [textOf(it.file), it.first, it.sessions]) ?? null;
  assert.deepEqual(cut('[1, 2 ,[3,","],4,5]', 3), [["[1]", 0, 1], ['[ 2 ,[3,","]]', 1, 2], ["[4,5]", 3, 2]]);
  assert.deepEqual(cut("[1,2]", 9), [["[1]", 0, 1], ["[2]", 1, 1]]);
  for (const [text, most] of [["[1]", 9], ["[]", 9], ["[1,2]", 1], ["[1,]", 9], [`[${"0,".repeat(65_536)}0]`, 9], [`[1,2${" ".repeat(16_777_216)}]`, 9]]) assert.equal(cut(text, most), null);
});

test("lines are numbered", () => {
  const lines = '{"session":0}\n{"name":"\\"session\\":3}","session":19}\n';
  assert.equal(textOf(numbered(bytesOf(lines), 0)), lines);
  assert.equal(textOf(numbered(bytesOf(lines), 81)), '{"session":81}\n{"name":"\\"session\\":3}","session":100}\n');
  assert.equal(numbered(new Uint8Array(0), 5).length, 0);
  for (const line of ["{}\n", '{"session":}\n', '{"session":1} \n', "1}\n", "\n"]) assert.throws(() => numbered(bytesOf(line), 1));
});

test("many lines are numbered in little memory beside their own", async () => {
  const url = new URL("../../engine/saxtegun.mjs", import.meta.url).href;
  const code = `import('${url}').then(({ numbered }) => {
    const lines = new TextEncoder().encode('{"session":9}\\n'.repeat(400_000));
    require('worker_threads').parentPort.postMessage(numbered(lines, 1).length);
  })`;
  const worker = new Worker(code, { eval: true, resourceLimits: { maxOldGenerationSizeMb: 24, maxYoungGenerationSizeMb: 8 } });
  const size = await new Promise((settle, refuse) => worker.on("message", settle).on("error", refuse));
  assert.equal(size, 15 * 400_000);
});

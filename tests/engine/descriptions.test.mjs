// @ts-check
// The description of a source by engine/saxtegun.mjs and by the exports. Over a module that has it, what is expected is worked out by hand; one that has none says so.
import assert from "node:assert/strict";
import { existsSync, readFileSync } from "node:fs";
import test from "node:test";
import { load } from "../../engine/saxtegun.mjs";
import { exportsOf, wrong } from "./instances.mjs";

const OUT = new URL("../../engine/out/", import.meta.url);
const MODULE = process.env.SAXTEGUN_MODULE ?? new URL("saxtegun.wasm", OUT), REFUSING = new URL("refusing.wasm", OUT);
const EMPTY = Uint8Array.of(0, 0x61, 0x73, 0x6d, 1, 0, 0, 0);
const ROOM = 8192, OUTCOME = 24, MARK = 7, LAST = 2n ** 64n - 1n;
const engine = existsSync(MODULE) ? await load(readFileSync(MODULE)) : null;
const it = (name, act) => test(name, { skip: !engine?.hasDescriptions && "the module is not there, or gives no descriptions" }, act);
const isRefusing = engine?.hasDescriptions && existsSync(REFUSING) && WebAssembly.Module.exports(new WebAssembly.Module(readFileSync(REFUSING))).some(({ name }) => name === "saxtegun_description");

// The smallest game: a background, a player and a level.
const GAME = "OBJECTS\nBackground .\nblack\nPlayer p\nred\nLEGEND\nCOLLISIONLAYERS\nBackground\nPlayer\nLEVELS\np.";
const lines = (section, first, ...texts) => texts.map((text, at) => [first + at, section, at === 0, text]);
const DESCRIPTION = {
  fault: null,
  layers: [{ line: 8, names: ["background"] }, { line: 9, names: ["player"] }],
  legend: [],
  levels: [{ line: 11, rows: ["p."] }],
  lines: [
    ...lines("objects", 1, "OBJECTS", "Background .", "black", "Player p", "red"), ...lines("legend", 6, "LEGEND"),
    ...lines("collisionlayers", 7, "COLLISIONLAYERS", "Background", "Player"), ...lines("levels", 10, "LEVELS", "p."),
  ],
  objects: [{ colours: ["black"], layer: 0, line: 2, names: ["Background", "."], sprite: [] }, { colours: ["red"], layer: 1, line: 4, names: ["Player", "p"], sprite: [] }],
  prelude: [],
  program: { early: [], late: [] },
  rules: [],
  wins: [],
};
const TEXT = JSON.stringify(DESCRIPTION), OUTLINE = JSON.stringify({ ...DESCRIPTION, program: null });
const NOTHING = '{"fault":{"code":"Section","line":0},"layers":[],"legend":[],"levels":[],"lines":[[1,"prelude",false,""]],"objects":[],"prelude":[],"program":null,"rules":[],"wins":[]}';
// A level text and a file, each with what is told of it.
const LEVEL = "b:0,B a:1,\n0,1,\n", CELLS = { cells: [0, 1, 0, 1], sets: ["b", "a b"] };
const SESSIONS = JSON.stringify([["one", ["S", [3, "tick"], "a:0,", 2]], ["two", ["S", [], ""]]]);
const FILE = {
  sessions: [
    { index: 2, inputs: [3, "tick"], level: { cells: [0], sets: ["a"] }, name: "one", source: 0 },
    { index: 0, inputs: [], level: { cells: [], sets: [] }, name: "two", source: 0 },
  ],
  sources: ["S"],
};
const refused = (fault) => ({ status: 2, passed: false, lines: new Uint8Array(0), fault });

// A host of the module, with a source and a room of its own.
class Host {
  /** @param {WebAssembly.Module} module @param {string} source @param {number} size @param {`saxtegun_${string}`} asked */
  constructor(module, source, size, asked = "saxtegun_description") {
    this.asked = asked;
    const file = new TextEncoder().encode(source);
    this.exports = exportsOf(module);
    const take = (count) => this.exports.take_room(count) >>> 0;
    this.file = take(file.length);
    this.room = take(size);
    this.outcome = take(OUTCOME);
    this.bytes(this.file, file.length).set(file);
    this.length = file.length;
    this.size = size;
  }

  bytes(at, count) {
    return new Uint8Array(this.exports.memory.buffer, at, count);
  }

  ask() {
    this.bytes(this.room, this.size).fill(MARK);
    const count = Number(this.exports[this.asked](this.file, BigInt(this.length), this.room, BigInt(this.size), this.outcome));
    const [status, fault, entry] = new BigUint64Array(this.bytes(this.outcome, OUTCOME).slice().buffer).values();
    const held = count <= this.size ? count : 0;
    assert.ok(this.bytes(this.room + held, this.size - held).every((byte) => byte === MARK), "the room keeps what no text takes");
    return { status: Number(status), fault: Number(fault), entry: Number(entry), count, text: new TextDecoder().decode(this.bytes(this.room, held)) };
  }
}

const MEMORY = { status: 2, fault: 1, entry: 0, count: 0, text: "" };
const answered = (text) => ({ status: 0, fault: 0, entry: 0, count: text.length, text });

test("a module without descriptions says so", async () => {
  const old = await load(EMPTY);
  assert.equal(old.hasDescriptions, false);
  assert.deepEqual(old.description(GAME), { description: null, fault: "no-descriptions" });
  assert.deepEqual(old.descriptionOf(GAME), refused("no-descriptions"));
  for (const name of ["levelDescription", "fileDescription"]) {
    assert.deepEqual(old[name](""), { description: null, fault: "no-descriptions" });
    assert.deepEqual(old[`${name}Of`](""), refused("no-descriptions"));
  }
});

it("a level text is described, and what is none by null", () => {
  assert.deepEqual(engine.levelDescription(LEVEL), { description: CELLS, fault: null });
  assert.deepEqual(engine.levelDescription("a:1,"), { description: null, fault: null });
  assert.equal(new TextDecoder().decode(engine.levelDescriptionOf(new TextEncoder().encode(LEVEL)).lines), JSON.stringify(CELLS));
});

it("a file of sessions is described, and of one that is refused the fault is told", () => {
  assert.deepEqual(engine.fileDescription(SESSIONS), { description: FILE, fault: null });
  assert.equal(new TextDecoder().decode(engine.fileDescriptionOf(SESSIONS).lines), JSON.stringify(FILE));
  for (const [file, fault] of [["", "not-json"], ["[3]", "bad-entry 0"], ['[["",["",[],"x"]]]', "bad-level 0"]]) {
    assert.deepEqual(engine.fileDescription(file), { description: null, fault });
  }
});

it("a source is described, as a text and as bytes", () => {
  assert.deepEqual(engine.description(GAME), { description: DESCRIPTION, fault: null });
  const bytes = new TextEncoder().encode(GAME);
  for (const source of [GAME, bytes, bytes.buffer]) {
    const { lines: told, ...answer } = engine.descriptionOf(source);
    assert.deepEqual([answer, new TextDecoder().decode(told)], [{ status: 0, passed: true, fault: null }, TEXT]);
  }
});

it("a source that is refused is described with its fault", () => {
  assert.equal(new TextDecoder().decode(engine.descriptionOf("").lines), NOTHING);
  const { description, fault } = engine.description(GAME.replace("Player\nLEVELS", "LEVELS"));
  assert.deepEqual([fault, description.fault, description.program], [null, { code: "NoLayer", line: 4 }, null]);
  assert.deepEqual(description.objects.map(({ names, layer }) => [names[0], layer]), [["Background", undefined], ["Player", undefined]]);
});

it("an outline is the description without its program, and without a fault that is found as rules are expanded", () => {
  assert.deepEqual(engine.outline(GAME), { description: { ...DESCRIPTION, program: null }, fault: null });
  assert.equal(new TextDecoder().decode(engine.outlineOf("").lines), NOTHING);
  const ruled = GAME.replace("LEVELS", "RULES\n[ Nobody ] -> [ ]\nLEVELS"), { description, fault } = engine.description(ruled);
  assert.deepEqual([fault, description.fault], [null, { code: "Unknown", line: 11 }]);
  assert.deepEqual(engine.outline(ruled), { description: { ...description, fault: null }, fault: null });
});

// 50 rules, each with properties of 250 objects in twelve cells: to expand them takes half a minute.
function textOfManyPairs() {
  const names = Array.from({ length: 250 }, (_, at) => `o${at}`), cells = "|no rr".repeat(5);
  return [
    "OBJECTS", ...[...names, "Background", "Player"].map((name) => `${name}\nred\n`), "LEGEND", `qq = ${names.join(" or ")}`, `rr = ${names.join(" or ")}`, ". = Background", "p = Player",
    "COLLISIONLAYERS", "Background", "Player", names.join(", "), "RULES", ...Array.from({ length: 50 }, () => `up[qq${cells}]->[qq no rr${cells}]`), "LEVELS", "p.",
  ].join("\n");
}

it("an outline takes no time for rules that take long to expand", () => {
  const source = textOfManyPairs(), begin = process.cpuUsage().user, { description } = engine.outline(source), middle = process.cpuUsage().user;
  engine.description(source);
  assert.ok(middle - begin < (process.cpuUsage().user - middle) / 5);
  assert.deepEqual([description.fault, description.rules.length, description.legend[0].members?.length], [null, 50, 250]);
});

it("what is no text is not described", () => {
  for (const source of [Uint8Array.of(0xff), Uint8Array.of(0x70, 0xc3), "\ud800"]) {
    assert.deepEqual(engine.descriptionOf(source), refused("not-json"));
    assert.deepEqual(engine.description(source), { description: null, fault: "not-json" });
    assert.deepEqual(engine.outline(source), { description: null, fault: "not-json" });
    assert.deepEqual(engine.levelDescription(source), { description: null, fault: "not-json" });
    assert.deepEqual(engine.fileDescription(source), { description: null, fault: "not-json" });
  }
  assert.throws(() => engine.description(wrong(7)), TypeError);
});

it("a room that is too small stays as it is, and the size that is answered fits", async () => {
  const module = await WebAssembly.compile(readFileSync(MODULE));
  const [small, fitting] = [TEXT.length - 1, TEXT.length].map((size) => new Host(module, GAME, size).ask());
  assert.deepEqual([small, fitting], [{ ...answered(TEXT), text: "" }, answered(TEXT)]);
});

it("an answer is not touched by the next one", () => {
  const first = engine.descriptionOf(GAME);
  engine.descriptionOf("");
  assert.equal(new TextDecoder().decode(first.lines), TEXT);
});

test("whatever is refused of the heap, a description is whole or tells the want of memory", { skip: !isRefusing && "there is no module that refuses, or it gives no descriptions" }, async () => {
  const module = await WebAssembly.compile(readFileSync(REFUSING));
  /** @type {[`saxtegun_${string}`, string, string][]} */
  const all = [
    ["saxtegun_description", GAME, TEXT], ["saxtegun_description", "", NOTHING], ["saxtegun_outline", GAME, OUTLINE], ["saxtegun_outline", "", NOTHING],
    ["saxtegun_level_description", LEVEL, JSON.stringify(CELLS)], ["saxtegun_file_description", SESSIONS, JSON.stringify(FILE)],
  ];
  for (const [asked, source, text] of all) {
    const host = new Host(module, source, ROOM, asked);
    const { refuse, requests, blocks_out: blocksOut } = host.exports;
    refuse(1n, 0n);
    assert.deepEqual(host.ask(), answered(text));
    const most = requests(), out = blocksOut();
    let refusals = 0;
    for (let number = 1n; number <= most + 1n; number++) {
      for (const to of [number, LAST]) {
        refuse(number, to);
        const answer = host.ask(), isRefused = answer.fault === MEMORY.fault;
        assert.deepEqual(answer, isRefused ? MEMORY : answered(text), `request ${number}`);
        assert.ok(number <= most || !isRefused, "a run that meets no refusal is whole");
        assert.equal(blocksOut(), out, "all that was taken is given back");
        refusals += Number(isRefused);
      }
    }
    assert.ok(refusals >= most, `${refusals} of ${most}`);
  }
});

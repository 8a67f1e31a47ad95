// @ts-check
// What stands in a cell, as pixels: each has the colour of the uppermost object that has one there, or that of the ground.
import assert from "node:assert/strict";
import test from "node:test";
import { Pictures } from "../../web/pictures.mjs";

const [GROUND, RED, GREEN, WHITE] = [0x112233ff, 0xff0000ff, 0x00ff00ff, 0xffffffff];

const OBJECTS = [
  ["low", 0, ["#ff0000"], ""],
  ["hole", 2, ["#00ff00", null], `${"0".repeat(12)}1${"0".repeat(12)}`],
  ["dot", 1, ["#ffffff"], `${".".repeat(12)}0${".".repeat(12)}`],
  ["few", 3, ["#ff0000"], `01${"9".repeat(22)}0`], // digits beyond its colours are transparent
  ["clear", 4, [null], ""],
];

const pixelsOf = (names) => [...new Pictures({ ground: "#112233", objects: OBJECTS }, [names]).pixelsOf(0)];
const around = (middle, others) => [...Array(12).fill(others), middle, ...Array(12).fill(others)];

test("a pixel has the colour of the uppermost object that has one there, in whatever order the names stand", () => {
  assert.deepEqual(pixelsOf([]), Array(25).fill(GROUND));
  assert.deepEqual(pixelsOf(["nobody", "clear"]), Array(25).fill(GROUND));
  assert.deepEqual(pixelsOf(["low"]), Array(25).fill(RED));
  assert.deepEqual(pixelsOf(["dot"]), around(WHITE, GROUND));
  for (const names of [["hole", "low"], ["low", "hole"]]) assert.deepEqual(pixelsOf(names), around(RED, GREEN));
  assert.deepEqual(pixelsOf(["clear", "hole", "dot", "low"]), around(WHITE, GREEN));
  assert.deepEqual(pixelsOf(["few"]), [RED, ...Array(23).fill(GROUND), RED]);
});

test("a cell is painted once, and by its own names", () => {
  const labels = [["low"], ["dot"]], pictures = new Pictures({ ground: "#112233", objects: OBJECTS }, labels);
  assert.equal(pictures.pixelsOf(0), pictures.pixelsOf(0));
  labels.push(["hole"]);
  assert.deepEqual([1, 2, 0].map((label) => [...pictures.pixelsOf(label)]), [around(WHITE, GROUND), around(GROUND, GREEN), Array(25).fill(RED)]);
});

test("objects and names that are called like a browser's own parts are as all others", () => {
  const look = { ground: "#112233", objects: [["__proto__", 0, ["#ff0000"], ""], ["constructor", 1, ["#00ff00"], ""]] }, pictures = new Pictures(look, [["__proto__"], ["constructor", "__proto__"], ["tostring"]]);
  assert.deepEqual([0, 1, 2].map((label) => pictures.pixelsOf(label)[0]), [RED, GREEN, GROUND]);
});

test("a game without objects is drawn by the first letter of a name, that of the background only where there is no other", () => {
  const labels = [["background"], ["background", "crate"], ["\u{1f600}x"], []], unread = new Pictures({ ground: "#112233", objects: [] }, labels);
  assert.deepEqual([unread.isLettered, ...labels.map((_, label) => unread.letterOf(label))], [true, ".", "c", "\u{1f600}", " "]);
  assert.equal(new Pictures({ ground: "#112233", objects: OBJECTS }, labels).isLettered, false);
});

test("a letter is found once for all cells that are alike, also in a long name", () => {
  let asked = 0;
  const names = new Proxy(["\u{1f600}".repeat(2_000_000)], { get: (list, key) => { asked += Number(key === "find"); return Reflect.get(list, key); } });
  const unread = new Pictures({ ground: "#112233", objects: [] }, [names]);
  for (let cell = 0; cell < 16_384; cell += 1) assert.equal(unread.letterOf(0), "\u{1f600}");
  assert.equal(asked, 1);
});

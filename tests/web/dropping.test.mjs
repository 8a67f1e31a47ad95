// @ts-check
// What is dropped on the page, without a browser: before it can take files, and then.
import assert from "node:assert/strict";
import test from "node:test";
import { holdingDrops, takeFiles } from "../../web/handing.mjs";

const GAME = "title A game", FILE = { name: "a.txt", size: GAME.length, arrayBuffer: async () => new TextEncoder().encode(GAME).buffer };

// A field of the page, or what is none.
const element = (isField, more = {}) => ({ matches: (words) => isField && words.includes("textarea"), ...more });

// Whether the page lets a browser do what it does of itself with what is dropped there.
function isLeft(page, type, { files = [], text = "", target = element(false) }) {
  const event = new Event(type, { cancelable: true });
  Object.defineProperties(event, { dataTransfer: { value: { files, types: files.length > 0 ? ["Files"] : ["text/plain"], getData: () => text } }, target: { value: target } });
  return page.dispatchEvent(event);
}

test("what is dropped is taken, and never opened by the browser in the place of the page", async () => {
  /** @type {any} */
  const page = new EventTarget(), before = globalThis.document, taken = [], coming = [];
  page.getElementById = () => new EventTarget();
  /** @type {any} */ (globalThis).document = page;
  try {
    const release = holdingDrops();
    for (const type of ["dragover", "drop"]) for (const target of [element(false), element(true)]) assert.equal(isLeft(page, type, { files: type === "drop" ? [FILE] : [], target }), false);
    assert.equal(isLeft(page, "drop", { text: "a text" }), false);
    takeFiles((name, bytes) => taken.push([name, new TextDecoder().decode(bytes)]), (why) => taken.push(why), (begin) => coming.push(begin()), release());
    await Promise.all(coming);
    assert.deepEqual(taken.splice(0), [["a.txt", GAME], ["a.txt", GAME], ["pasted", "a text"]]);
    for (const [type, what, left] of /** @type {[string, object, boolean][]} */ ([
      ["dragover", { files: [FILE] }, false], ["dragover", { text: "x" }, false], ["dragover", { text: "x", target: element(true) }, true], ["dragover", { files: [FILE], target: element(true) }, false],
      ["drop", { files: [FILE], target: element(true) }, false], ["drop", { text: "x" }, false], ["drop", {}, false], ["drop", { text: "y\rz", target: element(true) }, true],
      ["drop", { text: "z", target: element(true, { readOnly: true }) }, false], ["drop", { text: "\u3042".repeat(400_000), target: element(true) }, false],
    ])) assert.equal(isLeft(page, type, what), left, `${type} ${JSON.stringify(what)}`);
    await Promise.all(coming);
    assert.deepEqual(taken.map((it) => it[0] === "a.txt" ? it[0] : it[1][0]), ["x", "z", "\u3042", "a.txt"].sort((one, other) => Number(one === "a.txt") - Number(other === "a.txt")));
  } finally {
    globalThis.document = before;
  }
});

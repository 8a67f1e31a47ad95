// @ts-check
// The page of examples/page.html, without a browser: its script, over an engine that answers when a test says so.
import assert from "node:assert/strict";
import { readFileSync } from "node:fs";
import test from "node:test";
import { parse } from "../../engine/saxtegun.mjs";

const PAGE = readFileSync(new URL("../../examples/page.html", import.meta.url), "utf8");
const SCRIPT = /<script type="module">\n(.*)<\/script>/s.exec(PAGE)[1].replace(/^import .*$/m, "const { load, parse } = globalThis.given;");
const rest = () => new Promise((settle) => { setTimeout(settle, 1); });
const asked = []; // what the engine was asked: { text, signal, settle }
const elements = Object.fromEntries(["file", "stop", "bar", "closes"].map((id) => [id, Object.assign(new EventTarget(), { textContent: "", disabled: true, files: [] })]));

async function choose(...names) {
  elements.file.files = names.map((name) => ({ arrayBuffer: async () => name }));
  elements.file.dispatchEvent(new Event("change"));
  await rest();
}

const answerOf = (...names) => ({ fault: null, lines: new TextEncoder().encode(names.map((name) => `${JSON.stringify({ close: "passed", name })}\n`).join("")) });

async function answer(number, of) {
  asked[number].settle(of);
  await rest();
}

const shown = () => [elements.closes.textContent, elements.stop.disabled];

const given = { parse, load: async () => ({ replayInWorkers: (text, { signal }) => new Promise((settle, refuse) => {
  asked.push({ text, signal, settle });
  signal.addEventListener("abort", () => refuse(signal.reason));
}) }) };
Object.assign(globalThis, { given, document: { getElementById: (id) => elements[id] } });
await import(`data:text/javascript,${encodeURIComponent(SCRIPT)}`);

test("what a name has in it begins no line", async () => {
  await choose("one");
  await answer(0, answerOf("a\npassed: b\r\u2028\u202e", "c"));
  assert.deepEqual(shown(), ["passed: a\\u{a}passed: b\\u{d}\\u{2028}\\u{202e}\npassed: c", true]);
});

test("the file that was chosen last is shown, whenever the one before is answered", async () => {
  await choose("two");
  await choose("three");
  assert.deepEqual([asked[1].signal.aborted, asked[2].signal.aborted, elements.stop.disabled], [true, false, false]);
  await answer(2, answerOf("three"));
  await answer(1, answerOf("two"));
  assert.deepEqual(shown(), ["passed: three", true]);
});

test("a choice that is left is none, and what is stopped is told", async () => {
  await choose();
  assert.deepEqual([asked.length, ...shown()], [3, "passed: three", true]);
  await choose("four");
  elements.stop.dispatchEvent(new Event("click"));
  await rest();
  assert.deepEqual(shown(), ["This operation was aborted", true]);
});

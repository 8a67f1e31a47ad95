// @ts-check
// What is done behind the frame of a key: once, the last of what waits, and also where no frame is shown.
import assert from "node:assert/strict";
import test from "node:test";
import { Behind } from "../../web/behind.mjs";

// A browser that shows frames, and has nothing to do, when a test says so.
class Frames {
  constructor() {
    this.frames = [];
    this.idles = [];
    globalThis.requestAnimationFrame = (act) => this.frames.push(act);
    globalThis.requestIdleCallback = (act) => this.idles.push(act);
  }

  show() {
    this.frames.splice(0).forEach((act) => act());
  }

  rest() {
    this.idles.splice(0).forEach((act) => act());
  }
}

test("what waits is done behind the next frame, and of several the last", () => {
  const frames = new Frames(), behind = new Behind(), done = [];
  behind.put(() => done.push(1));
  frames.rest();
  behind.put(() => done.push(2));
  frames.show();
  assert.deepEqual([done, behind.isWaiting], [[], true]);
  behind.put(() => done.push(3));
  frames.rest();
  assert.deepEqual([done, behind.isWaiting], [[3], false]);
  frames.show();
  frames.rest();
  behind.put(() => done.push(4));
  frames.show();
  frames.rest();
  assert.deepEqual(done, [3, 4]);
});

test("what is left out is not done, and what waits behind that has a frame of its own", () => {
  const frames = new Frames(), behind = new Behind(), done = [];
  behind.put(() => done.push(1));
  frames.show();
  behind.drop();
  behind.put(() => done.push(2));
  frames.rest();
  assert.deepEqual([done, behind.isWaiting], [[], true]);
  frames.show();
  frames.rest();
  assert.deepEqual(done, [2]);
});

test("on a page that nobody sees it is done after a while", async () => {
  new Frames();
  const behind = new Behind(), begun = performance.now();
  await new Promise((settle) => behind.put(settle));
  assert.ok(performance.now() - begun > 50);
});

test("what is done may let something else wait", () => {
  const frames = new Frames(), behind = new Behind(), done = [];
  behind.put(() => {
    done.push(1);
    behind.put(() => done.push(2));
  });
  for (const count of [1, 2]) {
    frames.show();
    frames.rest();
    assert.equal(done.length, count);
  }
});

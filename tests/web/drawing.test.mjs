// @ts-check
// What is drawn on a canvas: all of a level at first, and then only the cells that changed or had a mark, so that it shows what it would if all were drawn.
import assert from "node:assert/strict";
import test from "node:test";
import { drawLevel, forgetShown } from "../../web/drawing.mjs";
import { putDocument } from "./stand-ins.mjs";

const SPRITE = 5;

// A canvas that knows what stands in each square of so many pixels, and how many were drawn: of a sheet the pixels of a cell, by their numbers.
class Canvas {
  constructor(size) {
    this.size = size;
    this.cells = new Map();
    this.marks = new Map();
    this.drawn = 0;
    this.pictures = 0;
    this.hidden = false;
    this.sides = [0, 0];
  }

  set width(width) {
    this.sides[0] = width;
    this.cells.clear();
    this.marks.clear();
  }

  get width() {
    return this.sides[0];
  }

  set height(height) {
    this.sides[1] = height;
  }

  get height() {
    return this.sides[1];
  }

  // What stands in a square is what the sheet has there.
  take(sheet, across, down, column, row) {
    this.drawn += 1;
    this.cells.set(`${column},${row}`, sheet.cells.get(`${across},${down}`));
    this.marks.delete(`${column},${row}`);
  }

  drawImage(sheet, ...where) {
    this.pictures += 1;
    if (where.length > 4) {
      const [left, top, width, height, toLeft, toTop, toWidth, toHeight] = where;
      assert.deepEqual([width, height, toWidth, toHeight], [SPRITE, SPRITE, this.size, this.size]);
      return this.take(sheet, left / SPRITE, top / SPRITE, toLeft / this.size, toTop / this.size);
    }
    assert.deepEqual(where, [0, 0, ...this.sides]);
    assert.deepEqual(this.sides, sheet.sides.map((side) => (side / SPRITE) * this.size));
    for (let column = 0; column < sheet.sides[0] / SPRITE; column += 1) {
      for (let row = 0; row < sheet.sides[1] / SPRITE; row += 1) this.take(sheet, column, row, column, row);
    }
  }

  // Takes an image of sprites: of each square the 25 numbers that its pixels are, by four bytes each.
  putImage({ data, width, height }) {
    const pixels = new DataView(data.buffer);
    for (let column = 0; column < width / SPRITE; column += 1) {
      for (let row = 0; row < height / SPRITE; row += 1) {
        const square = Array.from({ length: SPRITE * SPRITE }, (_, place) => pixels.getUint32(4 * ((row * SPRITE + Math.floor(place / SPRITE)) * width + column * SPRITE + (place % SPRITE))));
        this.cells.set(`${column},${row}`, square.join(" "));
      }
    }
  }

  getContext() {
    return {
      createImageData: (width, height) => ({ data: new Uint8ClampedArray(4 * width * height), width, height }),
      putImageData: (image) => this.putImage(image),
      drawImage: (...words) => this.drawImage(...words),
      beginPath: () => {},
      closePath: () => {},
      moveTo: (left, top) => { this.at = `${Math.floor(left / this.size)},${Math.floor(top / this.size)}`; },
      lineTo: () => {},
      fill: () => {},
      stroke: () => this.marks.set(this.at, true),
    };
  }

  get shown() {
    return { cells: [...this.cells].sort(), marks: [...this.marks].sort(), sides: this.sides };
  }
}

putDocument({ createElement: () => new Canvas(SPRITE) });

// Each pixel of a cell has a number of its own.
const numbersOf = (first) => Uint32Array.from({ length: SPRITE * SPRITE }, (_, place) => first + place);
const PICTURES = { isLettered: false, pixelsOf: (label) => numbersOf(0x01020300 + 100 * label) };
const OTHERS = { isLettered: false, pixelsOf: (label) => numbersOf(0xfa000000 + 100 * label) };
const SCALE = 2, SIZE = 10;
const level = (width, cells, order = "columns") => ({ width, cells, order });
const frame = (...cells) => [{ cells, colour: "red" }];

function freshly(...words) {
  const canvas = new Canvas(SIZE);
  drawLevel(canvas, ...words);
  return canvas;
}

test("a level is drawn with the pixels of its cells where they stand", () => {
  const { shown } = freshly(level(2, [0, 1, 2, 3], "rows"), PICTURES, SCALE), at = (label) => [...PICTURES.pixelsOf(label)].join(" ");
  assert.deepEqual(shown, { cells: [["0,0", at(0)], ["0,1", at(2)], ["1,0", at(1)], ["1,1", at(3)]], marks: [], sides: [20, 20] });
  assert.deepEqual(freshly(level(2, [0, 2, 1, 3]), PICTURES, SCALE).shown, shown);
});

test("what is drawn over another level is what is drawn at once", () => {
  const canvas = new Canvas(SIZE);
  /** @type {[ReturnType<typeof level>, ReturnType<typeof frame>, [number, number, string, string][], number][]} */
  const steps = [
    [level(3, [0, 1, 2, 3, 4, 5]), [], [], 6],
    [level(3, [0, 1, 2, 3, 4, 5]), [], [], 0],
    [level(3, [0, 1, 7, 3, 4, 5]), [], [], 1],
    [level(3, [0, 1, 7, 3, 4, 8]), frame(0, 5), [], 1],
    [level(3, [0, 1, 7, 3, 4, 8]), frame(3), [], 2],
    [level(3, [0, 1, 7, 3, 4, 8]), [], [], 1],
    [level(3, [0, 1, 7, 3, 4, 8]), [], [[2, 1, "a", "up"]], 0],
    [level(3, [9, 1, 7, 3, 4, 8]), [], [[0, 0, "a", "action"]], 2],
    [level(3, [9, 1, 7, 3, 4, 8]), [], [], 1],
    [level(2, [9, 1, 7, 3, 4, 8]), [], [], 6],
    [level(2, [9, 1, 7, 3, 4, 8], "rows"), [], [], 6],
    [level(2, [9, 1, 7, 3, 4, 5], "rows"), frame(0), [], 1],
    [level(2, [9, 1], "rows"), [], [], 2],
  ];
  for (const [place, [it, framed, headings, count]] of steps.entries()) {
    canvas.drawn = 0;
    drawLevel(canvas, it, PICTURES, SCALE, framed, headings);
    assert.equal(canvas.drawn, count, `step ${place}`);
    assert.deepEqual(canvas.shown, freshly(it, PICTURES, SCALE, framed, headings).shown, `step ${place}`);
  }
});

test("another game and another size are drawn whole", () => {
  const canvas = new Canvas(SIZE), it = level(3, [0, 1, 2, 3, 4, 5]);
  drawLevel(canvas, it, PICTURES, SCALE);
  canvas.drawn = 0;
  drawLevel(canvas, it, OTHERS, SCALE);
  assert.deepEqual([canvas.drawn, canvas.shown], [6, freshly(it, OTHERS, SCALE).shown]);
  canvas.size = 15;
  drawLevel(canvas, it, OTHERS, 3);
  assert.deepEqual([canvas.drawn, canvas.shown.sides], [12, [45, 30]]);
});

test("a level that can't be read back hides the canvas, and what stood there is drawn again", () => {
  const canvas = new Canvas(SIZE), it = level(1, [0]);
  drawLevel(canvas, it, PICTURES, SCALE);
  drawLevel(canvas, null, PICTURES, SCALE);
  assert.equal(canvas.hidden, true);
  drawLevel(canvas, it, PICTURES, SCALE);
  assert.deepEqual([canvas.hidden, canvas.drawn], [false, 1]);
});

test("a canvas that lost what it showed is drawn whole", () => {
  const canvas = new Canvas(SIZE), it = level(2, [0, 1]);
  drawLevel(canvas, it, PICTURES, SCALE);
  const { shown } = canvas;
  canvas.width = 20; // which empties it, as a browser does with a context that is restored
  forgetShown(canvas);
  drawLevel(canvas, level(2, [0, 1]), PICTURES, SCALE);
  assert.deepEqual(canvas.shown, shown);
});

test("a level of cells that are all unlike is one picture, and is enlarged by one call", () => {
  let made = 0;
  putDocument({ createElement: () => { made += 1; return new Canvas(SPRITE); } });
  const canvas = freshly(level(128, [...Array(16_384).keys()]), PICTURES, SCALE);
  assert.deepEqual([made, canvas.pictures, canvas.drawn], [1, 1, 16_384]);
});

test("the cells of a game that couldn't be read are letters, each on the ground and nowhere else", () => {
  const done = [], context = new Proxy({}, { get: (_, name) => (...words) => done.push([name, ...words]), set: (_, name, value) => done.push([name, value]) > 0 });
  const canvas = { getContext: () => context, hidden: false, width: 0, height: 0 }, unread = { isLettered: true, letterOf: (label) => "ab"[label], ground: "black" };
  drawLevel(canvas, level(2, [0, 1]), unread, SCALE);
  const drawn = (letter, left) => [["save"], ["beginPath"], ["rect", left, 0, 10, 10], ["clip"], ["fillStyle", "black"], ["fillRect", left, 0, 10, 10], ["font", "8px monospace"], ["fillStyle", "#ffffff"], ["textAlign", "center"], ["textBaseline", "middle"], ["fillText", letter, left + 5, 5], ["restore"]];
  assert.deepEqual(done.slice(0, 24), [...drawn("a", 0), ...drawn("b", 10)]);
  assert.deepEqual([canvas.width, canvas.height], [20, 10]);
  done.length = 0;
  drawLevel(canvas, level(2, [0, 0]), unread, SCALE);
  assert.deepEqual(done.slice(0, 12), drawn("a", 10));
});

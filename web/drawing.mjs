// @ts-check
// Draws a level on a canvas, by the pixels of its cells; the cells of a game that couldn't be read are drawn by letters.
import { drawArrows } from "./arrows.mjs";
import { differing, heightOf, isDrawn, numberAt, placeOf } from "./levels.mjs";
import { SIDE } from "./pictures.mjs";
import { put } from "./saying.mjs";
import { there } from "./there.mjs";

const ON_CANVAS = new WeakMap(); // for each canvas what it shows: { level, pictures, scale, marked, sheet }
const PIXEL_BYTES = 4;
const LETTER_SHARE = 0.8; // of a cell's side
const BRIGHT = "#ffffff";
const DARK = "#000000"; // of the inner line of a frame

// A level with one pixel for each of a sprite's, of which a canvas shows every pixel enlarged. However unlike its cells are, a browser is then asked for one
// picture, and not for one of each.
class Sheet {
  constructor(level) {
    this.canvas = document.createElement("canvas");
    this.canvas.width = level.width * SIDE;
    this.canvas.height = heightOf(level) * SIDE;
    this.context = there(this.canvas.getContext("2d"));
    this.image = this.context.createImageData(this.canvas.width, this.canvas.height);
    this.pixels = new DataView(this.image.data.buffer);
  }

  // Takes the cells of a level that have these numbers.
  put(level, numbers, pictures) {
    for (const number of numbers) this.putCell(...placeOf(level, number), pictures.pixelsOf(level.cells[number]));
    this.context.putImageData(this.image, 0, 0);
  }

  putCell(column, row, pixels) {
    for (let place = 0; place < pixels.length; place += 1) {
      const across = column * SIDE + (place % SIDE), down = row * SIDE + Math.floor(place / SIDE);
      this.pixels.setUint32(PIXEL_BYTES * (down * this.image.width + across), pixels[place]);
    }
  }
}

// Draws a cell by a letter, and nothing of it beside the cell.
function drawLetter(context, left, top, size, letter, ground) {
  context.save();
  context.beginPath();
  context.rect(left, top, size, size);
  context.clip();
  context.fillStyle = ground;
  context.fillRect(left, top, size, size);
  Object.assign(context, { font: `${LETTER_SHARE * size}px monospace`, fillStyle: BRIGHT, textAlign: "center", textBaseline: "middle" });
  context.fillText(letter, left + size / 2, top + size / 2);
  context.restore();
}

// The largest whole number of pixels for a sprite's pixel with which a level fits into a room, from 1 to `most`.
export function scaleFor(level, width, height, most) {
  const fitting = Math.min(width / (level.width * SIDE), height / (heightOf(level) * SIDE));
  return Math.max(1, Math.min(most, Math.floor(fitting)));
}

// The lines of a frame within a cell, whole or its corners alone: each from one point to another.
function frameLines(left, top, side, isWhole) {
  const [right, bottom, part] = [left + side, top + side, isWhole ? side / 2 : side / 4];
  const corners = [[left, top, 1, 1], [right, top, -1, 1], [right, bottom, -1, -1], [left, bottom, 1, -1]];
  return corners.map(([x, y, across, down]) => [[x + across * part, y], [x, y], [x, y + down * part]]);
}

function strokeFrame(context, level, number, size, inset, isWhole) {
  const [column, row] = placeOf(level, number);
  context.beginPath();
  for (const [begin, ...more] of frameLines(column * size + inset, row * size + inset, size - 2 * inset, isWhole)) {
    context.moveTo(...begin);
    for (const point of more) context.lineTo(...point);
  }
  context.stroke();
}

// Frames cells by two lines, a bright one and within it a dark one: one of them is seen on any ground.
function frameCells(context, level, size, { cells, colour, isWhole = true, weight = 1 }) {
  const thickness = weight * Math.max(1, Math.round(size / 12));
  Object.assign(context, { lineWidth: thickness, lineJoin: "miter", lineCap: "butt" });
  for (const [line, inset] of [[colour, thickness / 2], [DARK, thickness * 1.5]]) {
    context.strokeStyle = line;
    for (const number of cells) strokeFrame(context, level, number, size, inset, isWhole);
  }
}

// Lets go what is known of a canvas, so that the next level is drawn whole.
export const forgetShown = (canvas) => ON_CANVAS.delete(canvas);

// The cells in which a canvas doesn't show a level: those that changed, or had a mark. Null where it shows another game, or another size.
function unshown(shown, level, pictures, scale) {
  if (shown === undefined || shown.pictures !== pictures || shown.scale !== scale || shown.level.order !== level.order) return null;
  const changed = differing(shown.level, level);
  return changed === null ? null : [...new Set(changed.concat(shown.marked))];
}

// Makes a canvas as large as a level, with nothing on it; the sheet for it, where the game has pixels.
function begin(canvas, level, pictures, size) {
  canvas.width = level.width * size;
  canvas.height = heightOf(level) * size;
  return pictures.isLettered ? null : new Sheet(level);
}

function drawLetters(context, level, pictures, size, numbers) {
  for (const number of numbers) {
    const [column, row] = placeOf(level, number);
    drawLetter(context, column * size, row * size, size, pictures.letterOf(level.cells[number]), pictures.ground);
  }
}

// Enlarges the cells of a sheet that have these numbers.
function enlarge(context, sheet, level, size, numbers) {
  for (const number of numbers) {
    const [column, row] = placeOf(level, number);
    context.drawImage(sheet.canvas, column * SIDE, row * SIDE, SIDE, SIDE, column * size, row * size, size, size);
  }
}

// Draws the cells of a level that have these numbers, or all of them at once where none are named.
function drawCells(context, level, pictures, size, sheet, numbers) {
  const them = numbers ?? [...level.cells.keys()];
  if (sheet === null) return drawLetters(context, level, pictures, size, them);
  sheet.put(level, them, pictures);
  context.imageSmoothingEnabled = false;
  if (numbers !== null) return enlarge(context, sheet, level, size, them);
  return context.drawImage(sheet.canvas, 0, 0, level.width * size, heightOf(level) * size);
}

// Draws a level so many pixels for each of a sprite's, of what the canvas shows already only the cells that change. `framed` are cells that get a frame,
// whole or its corners alone: [{ cells, colour, isWhole }]; what heads somewhere gets an arrow: [column, row, object, direction].
export function drawLevel(canvas, level, pictures, scale, framed = [], headings = []) {
  put(canvas, { hidden: !isDrawn(level) });
  if (canvas.hidden) return;
  const size = SIDE * scale, shown = ON_CANVAS.get(canvas), numbers = unshown(shown, level, pictures, scale);
  const sheet = numbers === null ? begin(canvas, level, pictures, size) : shown.sheet, context = canvas.getContext("2d");
  drawCells(context, level, pictures, size, sheet, numbers);
  for (const frame of framed) frameCells(context, level, size, frame);
  drawArrows(context, headings, size);
  const marked = [...framed.flatMap(({ cells }) => cells), ...headings.map(([column, row]) => numberAt(level, column, row))];
  ON_CANVAS.set(canvas, { level, pictures, scale, marked, sheet });
}

// The column and the row of the cell below a pointer, both from 0.
export function cellBelow(canvas, level, event) {
  const box = canvas.getBoundingClientRect();
  const share = (at, begin, length, count) => Math.min(count - 1, Math.max(0, Math.floor(((at - begin) / length) * count)));
  return [share(event.clientX, box.left, box.width, level.width), share(event.clientY, box.top, box.height, heightOf(level))];
}

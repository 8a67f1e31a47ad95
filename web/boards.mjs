// @ts-check
// Levels beside one another on both pages: how large they are drawn, which part of them is seen, which cells are framed, and what stands in a cell.
import { DifferingCells, InWords, cellTold } from "./cells.mjs";
import { cellBelow, drawLevel, forgetShown, scaleFor } from "./drawing.mjs";
import { at, isMotionReduced } from "./elements.mjs";
import { differing, heightOf, isDrawn, numberAt, placeOf } from "./levels.mjs";
import { Pictures, SIDE } from "./pictures.mjs";
import { put, putAttribute, putText } from "./saying.mjs";

const DIFFERS = "#ff85ad";
const CHANGED = "#35c3ff";
const MOST_SCALE = 64; // pixels for one of a sprite, at most
const MOST_PIXELS = 12_000; // of a side of a level,
const MOST_IN_ALL = 2 ** 24; // and of all of it: a browser draws many more for many seconds, each by four bytes, or leaves them empty
const BLINK = 500; // milliseconds for which each level is shown

export class Boards {
  // `page` is what differs: `places` are the ids of a canvas and of its caption for each level; roomFor(levels) says how much room each has, and `most` how
  // many pixels one of a sprite gets at most where levels are fitted into that; labelOf(told, width, height) is what is told of a canvas; drawn(room, levels,
  // scale) is called once they are drawn. With `isChangeWhole` changed cells have whole frames, and not their corners alone; with `isFollowing` the page
  // scrolls to what changes.
  constructor(page) {
    this.page = page;
    this.places = page.places;
    this.sides = [];
    this.framed = [];
    this.zoom = 0;
    this.scale = 1;
    this.blinking = null;
    this.timer = 0;
    this.words = new InWords();
    this.cells = new DifferingCells((number) => { this.draw(); this.reveal(number); });
    this.places.forEach(([canvas], place) => {
      for (const kind of ["pointermove", "pointerdown"]) at(canvas).addEventListener(kind, (event) => this.pointAt(place, event));
      at(canvas).addEventListener("contextrestored", () => this.drawAnew(canvas));
    });
    at("smaller").addEventListener("click", () => this.zoomBy(-1));
    at("larger").addEventListener("click", () => this.zoomBy(1));
    at("fit").addEventListener("click", () => this.fit());
    at("blink").addEventListener("click", () => this.blink());
    window.addEventListener("resize", () => this.draw());
  }

  // The pictures of a game, for cells with these names.
  use(look, names) {
    this.names = names;
    this.pictures = new Pictures(look, names);
  }

  // Shows levels: { level, caption, told, changed, headings } for each, where cells that changed are framed, and [column, row, object, direction] of what heads
  // somewhere is an arrow. In both the cells are framed in which they differ; `beside` is what the second is called.
  show(sides, framed, beside) {
    const before = this.level;
    this.sides = sides;
    this.framed = framed;
    this.beside = beside;
    if (!this.isCompared) this.stopBlinking();
    this.cells.show(framed, (number) => this.told(...placeOf(this.level, number)));
    this.words.show(this.level, (label) => this.names[label]);
    this.draw();
    const changes = this.page.isFollowing ? differing(before, this.level) ?? [] : [];
    if (changes.length > 0 && !changes.some((number) => this.isSeen(number))) this.reveal(changes[0]);
  }

  get level() {
    return this.sides[0]?.level ?? null;
  }

  get levels() {
    return this.sides.map(({ level }) => level).filter(isDrawn);
  }

  // ---- drawing

  draw() {
    if (this.sides.length === 0) return;
    const seen = this.blinking === null ? this.sides : [this.sides[this.blinking]], levels = seen.map(({ level }) => level), room = this.page.roomFor(levels), { most } = this.page;
    this.scale = this.zoom > 0 ? Math.min(this.zoom, this.largest) : Math.min(most, ...this.levels.map((level) => scaleFor(level, room.width, room.height, most)));
    this.places.forEach(([canvas, caption], place) => {
      put(at(canvas).closest("figure"), { hidden: seen[place] === undefined });
      if (seen[place]) this.drawSide(at(canvas), at(caption), seen[place]);
    });
    put(at("blink"), { hidden: !this.isCompared });
    putAttribute(at("blink"), "aria-pressed", String(this.blinking !== null));
    this.page.drawn?.(room, levels.filter(isDrawn), this.scale);
  }

  // Draws all where a browser has lost what a canvas showed, as when its graphics were taken away.
  drawAnew(canvas) {
    forgetShown(at(canvas));
    this.draw();
  }

  drawSide(canvas, captionBeside, { level, caption, told, changed = [], headings = [] }) {
    const { chosen } = this.cells, marked = chosen === null ? [] : [chosen];
    const frames = [{ cells: changed, colour: CHANGED, isWhole: this.page.isChangeWhole }, { cells: this.framed, colour: DIFFERS }, { cells: marked, colour: DIFFERS, weight: 1.5 }];
    drawLevel(canvas, level, this.pictures, this.scale, frames, headings);
    putText(captionBeside, caption);
    if (isDrawn(level)) putAttribute(canvas, "aria-label", this.page.labelOf(told, level.width, heightOf(level)));
  }

  // ---- two levels in one place

  get isCompared() {
    return this.levels.length === 2;
  }

  // Shows both levels in one place, one after the other, until it is called again. Where motion is to be reduced the next call shows the second, and then both.
  blink() {
    if (!this.isCompared) return;
    const isSecond = this.blinking === 0 && isMotionReduced(), isFirst = this.blinking === null;
    this.stopBlinking();
    if (isFirst || isSecond) this.blinking = isSecond ? 1 : 0;
    if (isFirst && !isMotionReduced()) this.timer = setInterval(() => { this.blinking = 1 - this.blinking; this.draw(); }, BLINK);
    this.draw();
  }

  stopBlinking() {
    clearInterval(this.timer);
    this.blinking = null;
  }

  // ---- how large it is, and which part of it is seen

  // The most pixels for one of a sprite with which these levels are drawn: what was zoomed before may have been smaller ones.
  get largest() {
    const fitting = this.levels.map((level) => Math.min(MOST_PIXELS / Math.max(level.width, heightOf(level)), Math.sqrt(MOST_IN_ALL / level.cells.length)) / SIDE);
    return Math.max(1, Math.floor(Math.min(MOST_SCALE, ...fitting)));
  }

  zoomBy(step) {
    this.zoom = Math.max(1, Math.min(this.largest, this.scale + step));
    this.draw();
  }

  fit() {
    this.zoom = 0;
    this.draw();
  }

  // The left and upper edge of a cell, and its side, in pixels.
  boxOf(number) {
    const size = SIDE * this.scale, [column, row] = placeOf(this.level, number);
    return { left: column * size, top: row * size, size };
  }

  get rooms() {
    return this.places.map(([canvas]) => at(canvas).parentElement);
  }

  isSeen(number) {
    const { left, top, size } = this.boxOf(number), [room] = this.rooms;
    return left >= room.scrollLeft && top >= room.scrollTop && left + size <= room.scrollLeft + room.clientWidth && top + size <= room.scrollTop + room.clientHeight;
  }

  // Scrolls all levels until a cell is in the middle of its room.
  reveal(number) {
    const { left, top, size } = this.boxOf(number);
    for (const room of this.rooms) {
      room.scrollLeft = left - (room.clientWidth - size) / 2;
      room.scrollTop = top - (room.clientHeight - size) / 2;
    }
  }

  // ---- what stands in a cell

  // The label of a cell, or null where a level has no such cell.
  labelAt(level, column, row) {
    const isThere = isDrawn(level) && column < level.width && row < heightOf(level);
    return isThere ? level.cells[numberAt(level, column, row)] : null;
  }

  // What stands in a cell, and in the same cell of the level beside where that is something else.
  told(column, row) {
    const [label, beside] = this.sides.map(({ level }) => this.labelAt(level, column, row)), namesTold = (it) => (it === null ? "no cell" : cellTold(this.names[it]));
    return `column ${column + 1}, row ${row + 1}: ${namesTold(label)}${beside === undefined || beside === label ? "" : `; ${this.beside}: ${namesTold(beside)}`}`;
  }

  pointAt(place, event) {
    at("cell").textContent = this.told(...cellBelow(event.currentTarget, this.sides[this.blinking ?? place].level, event));
  }
}

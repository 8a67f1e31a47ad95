// @ts-check
// The player of a session: its frames, drawn beside the recorded level or beside those of another run.
import { Boards } from "./boards.mjs";
import { shapeOf } from "./closes.mjs";
import { at, cut, fill, json, make, readable, sayable } from "./elements.mjs";
import { Run, textOf } from "./frames.mjs";
import { InputStrip } from "./input-strip.mjs";
import { differing, heightOf, isDrawn, isTooLarge } from "./levels.mjs";
import { differenceTold, frameTold } from "./telling.mjs";
import { there } from "./there.mjs";

const PAUSE = 160;      // milliseconds between two frames at the speed 1
const NAMED = 2000;     // letters of a name,
const QUOTED = 500;     // and of a level text that can't be read back
const FITTING = 12;     // pixels for one of a sprite, at most, where the level is fitted into the room
const LEAST_ROOM = 120; // pixels of height that a level has at least
const BELOW = 64;       // pixels kept free below a level, for what stands in a cell
const POINT = "Point at a cell, or tap it, to see what stands in it.";

// Why a level isn't drawn.
function whyNotDrawn(level) {
  if (level.text !== undefined) return `a level text that can't be read back: ${cut(level.text, QUOTED)}`;
  const isLarge = level.height !== undefined || isTooLarge(level); // one with its height comes without its cells
  return isLarge ? `a level ${level.width} wide and ${level.height ?? heightOf(level)} high, larger than any that is played` : "an empty level text";
}

export class Player {
  // `index` is what the page says of all sessions; `step` is called when another frame is shown.
  constructor(index, step) {
    this.index = index;
    this.step = step;
    this.games = new Map();
    this.timer = 0;
    this.session = null;
    this.at = 0;
    this.sides = [];
    this.levels = [];
    this.differing = null;
    this.strip = new InputStrip((taken) => this.goTo(this.sides[0].run.frameAfter(taken)));
    this.boards = new Boards({
      places: [["level-0", "caption-0"], ["level-1", "caption-1"]], most: FITTING, isChangeWhole: false, isFollowing: false, roomFor: (levels) => this.roomFor(levels.length),
      labelOf: (told, width, height) => `${told}: a level ${width} wide and ${height} high`,
    });
    this.listen();
  }

  listen() {
    at("back").addEventListener("click", () => this.goTo(this.at - 1));
    at("on").addEventListener("click", () => this.goTo(this.at + 1));
    at("play").addEventListener("click", () => this.play());
    // a space that plays must not press the button too
    at("play").addEventListener("keyup", (event) => { if (event.key === " ") event.preventDefault(); });
    at("slider").addEventListener("input", () => this.goTo(Number(at("slider").value)));
    at("speed").addEventListener("change", () => { if (this.timer) this.start(); });
    at("marks").addEventListener("change", () => this.showLevels());
  }

  get isOpen() { return this.session !== null && this.sides.length > 0; }

  get last() { return Math.max(...this.sides.map((side) => side.run.last)); }

  gameOf(number) {
    if (!this.games.has(number)) this.games.set(number, json(`game-${number}`));
    return this.games.get(number);
  }

  // Opens a session, at a frame or where it is best looked at first.
  open(number, frame) {
    this.pause();
    const [name, close] = this.index.sessions[number];
    const session = json(`session-${number}`);
    this.session = { ...session, beside: cut(session.beside ?? "", NAMED) };
    this.number = number;
    this.sides = this.session.sides.map(([caption, frames]) => ({ caption: readable(caption), run: new Run(frames, this.index.order, this.index.letters) }));
    at("session").hidden = false;
    at("name").textContent = cut(name, NAMED);
    at("close").replaceChildren(shapeOf(close), make("span", "", sayable(`${close}: ${this.session.told}`)));
    at("close").className = close;
    this.showSource();
    at("player").hidden = !this.isOpen;
    if (!this.isOpen) {
      this.boards.show([], []);
      return;
    }
    this.boards.use(this.gameOf(this.session.game), this.session.labels);
    this.bumps = this.sides[0].run.bumps();
    at("slider").max = String(this.last);
    at("cell").textContent = POINT;
    this.goTo(frame ?? this.session.opens);
  }

  showSource() {
    const { source } = this.session, lines = typeof source === "number" ? json(`session-${source}`).source : source;
    at("source").hidden = lines.length === 0;
    fill(at("source"), lines.map(([number, text, isHere]) => make("span", isHere ? "row here" : "row", `${String(number).padStart(5)}  ${readable(text)}`)));
  }

  // ---- frames

  goTo(number) {
    this.pause();
    this.show(number);
  }

  show(number) {
    this.at = Math.max(0, Math.min(this.last, number));
    this.levels = this.sides.map(({ run }) => run.levelAt(Math.min(this.at, run.last)));
    this.differing = this.sides.length > 1 ? differing(...this.levels) : [];
    this.showLevels();
    this.tell();
    this.step();
    if (this.at === this.last) this.pause();
  }

  tell() {
    const { run } = this.sides[0];
    const number = Math.min(this.at, run.last);
    const changes = run.changesAt(number);
    const told = [frameTold(run.frames[number], this.session.inputs, changes === null ? null : changes.length)];
    if (this.sides.length > 1) told.push(differenceTold(this.differing === null ? null : this.differing.length, this.session.beside));
    at("step").textContent = told.join(" ");
    at("slider").value = String(this.at);
    at("place").textContent = `frame ${this.at} of ${this.last}`;
    at("back").disabled = this.at === 0;
    at("on").disabled = this.at === this.last;
    this.strip.show(this.session.inputs, run.frames[number][0], { bumps: this.bumps, stop: this.session.stop });
  }

  pause() {
    clearInterval(this.timer);
    this.timer = 0;
    at("play").textContent = "Play";
  }

  start() {
    clearInterval(this.timer);
    this.timer = setInterval(() => this.show(this.at + 1), PAUSE / Number(at("speed").value));
    at("play").textContent = "Pause";
  }

  play() {
    if (this.timer) {
      this.pause();
      return;
    }
    if (this.at === this.last) this.show(0);
    if (this.last > 0) this.start();
  }

  // ---- levels

  // Both levels have room beside one another, and above the fold.
  roomFor(count) {
    const width = (at("levels").clientWidth - 20 * (count - 1)) / count - 2;
    return { width, height: Math.max(LEAST_ROOM, window.innerHeight - this.top - BELOW) };
  }

  // Where the levels begin in the window, when nothing is scrolled.
  get top() {
    const scrolled = there(document.querySelector("main")).scrollTop + window.scrollY;
    return there(at("level-0").parentElement).getBoundingClientRect().top + scrolled;
  }

  showLevels() {
    this.boards.show(this.sides.map((side, number) => this.sideShown(side, this.levels[number])), this.differing ?? [], this.session.beside);
  }

  sideShown({ caption, run }, level) {
    const changed = at("marks").checked && this.at <= run.last ? run.changesAt(this.at) ?? [] : [];
    const told = isDrawn(level) ? this.captionOf(caption, run) : sayable(`${caption}: ${whyNotDrawn(level)}`);
    return { level, caption: told, told, changed };
  }

  captionOf(caption, run) {
    if (run.last === 0 && this.last > 0) return caption;
    return this.at > run.last ? `${caption}, which has no frame behind ${run.last}` : `${caption}, frame ${this.at}`;
  }

  get levelText() {
    return textOf(this.levels[0], this.session.labels);
  }
}

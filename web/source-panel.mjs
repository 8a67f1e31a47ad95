// @ts-check
// The game's text with the numbers of its lines, the fault at its line, and the lines that are marked: those of the rules that acted in the stage that is
// looked at, and those that never acted.
import { at, fill, makeButton, sayable } from "./elements.mjs";
import { linesAsBands, rowsMarked } from "./marked-lines.mjs";

const LEADING = new Set(["ArrowUp", "ArrowDown", "ArrowLeft", "ArrowRight", "Home", "End", "PageUp", "PageDown"]);

export class SourcePanel {
  // change(text) is told what is typed, and point(line) on which line the text was clicked, or the cursor led to.
  constructor(change, point) {
    this.text = at("source");
    this.numbers = at("numbers");
    this.count = 0;
    this.fault = undefined;
    this.line = null;
    this.lit = [];
    this.never = [];
    this.isShown = false;
    this.text.addEventListener("input", () => change(this.text.value));
    this.text.addEventListener("scroll", () => { this.numbers.scrollTop = this.text.scrollTop; this.drawBands(); });
    new ResizeObserver(() => this.resized()).observe(this.text);
    this.text.addEventListener("keydown", (event) => { if (event.key === "Escape") at("stage").focus(); });
    this.text.addEventListener("click", () => point(this.lineAtCursor));
    this.text.addEventListener("keyup", (event) => { if (LEADING.has(event.key)) point(this.lineAtCursor); });
  }

  get lineAtCursor() {
    return this.text.value.slice(0, this.text.selectionStart).split("\n").length;
  }

  set(source) {
    if (this.text.value !== source) {
      this.text.value = source;
      this.text.setSelectionRange(0, 0);
      this.text.scrollTop = 0;
    }
    this.showNumbers();
  }

  showNumbers() {
    const count = this.text.value.split("\n").length;
    if (count === this.count) return;
    this.count = count;
    this.drawNumbers();
  }

  // Marks the number of a line as faulty, or of none.
  mark(line) {
    if (line === this.line) return;
    this.line = line;
    this.drawNumbers();
  }

  drawNumbers() {
    const kinds = new Map();
    for (const line of this.never) kinds.set(line, "never");
    for (const line of this.lit) kinds.set(line, "lit");
    if (this.line !== null) kinds.set(this.line, "faulty");
    fill(this.numbers, rowsMarked(this.count, kinds));
    this.numbers.scrollTop = this.text.scrollTop;
  }

  // Marks the lines of the rules that acted, and those that never did. The first that acted is scrolled to, where it isn't seen.
  light(lit, never) {
    const isSame = (one, other) => one.length === other.length && one.every((line, place) => line === other[place]);
    if (isSame(lit, this.lit) && isSame(never, this.never)) return;
    const isNew = !isSame(lit, this.lit);
    Object.assign(this, { lit, never });
    this.drawNumbers();
    this.drawBands();
    if (isNew && lit.length > 0) this.scrollTo(lit[0]);
  }

  // Where the text comes to be seen, a line that acted is scrolled to.
  resized() {
    const isShown = this.text.clientHeight > 0, isNew = isShown && !this.isShown;
    this.isShown = isShown;
    this.drawBands();
    if (isNew && this.lit.length > 0) this.scrollTo(this.lit[0]);
  }

  get heightOfLine() {
    return parseFloat(getComputedStyle(this.text).lineHeight);
  }

  drawBands() {
    const place = { height: this.heightOfLine, top: parseFloat(getComputedStyle(this.text).paddingTop), scrolled: this.text.scrollTop, seen: this.text.clientHeight };
    Object.assign(this.text.style, linesAsBands([[this.never, "var(--chosen)"], [this.lit, "var(--lit)"]], place));
  }

  scrollTo(line) {
    const height = this.heightOfLine, top = (line - 1) * height, isSeen = top >= this.text.scrollTop && top + height <= this.text.scrollTop + this.text.clientHeight;
    if (!isSeen) this.text.scrollTop = Math.max(0, top - this.text.clientHeight / 2);
  }

  // Shows why the game is not played, with a button that leads to the line, where one is named.
  showFault(fault) {
    const was = this.fault;
    this.fault = fault;
    if (fault === null && was === null) return null;
    at("fault").hidden = fault === null;
    this.text.setAttribute("aria-invalid", String(fault !== null));
    this.mark(fault?.line ?? null);
    if (fault === null) return at("fault").replaceChildren();
    const words = document.createElement("span");
    words.textContent = sayable(`Refused: ${fault.sentence}.`);
    const button = fault.line === null ? [] : [makeButton("", `Go to line ${fault.line}`, () => this.goTo(fault.line))];
    return at("fault").replaceChildren(words, ...button);
  }

  goTo(line) {
    const rows = this.text.value.split("\n"), begin = rows.slice(0, line - 1).reduce((sum, row) => sum + row.length + 1, 0);
    this.text.focus();
    this.text.setSelectionRange(begin, begin + (rows[line - 1] ?? "").length);
    const height = this.text.scrollHeight / Math.max(1, rows.length);
    this.text.scrollTop = Math.max(0, (line - 4) * height);
  }
}

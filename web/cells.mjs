// @ts-check
// The cells of a level in words, and those in which two levels differ as a list that is gone through one by one.
import { at, cut, fill, make, plural, sayable } from "./elements.mjs";
import { heightOf, isDrawn, numberAt } from "./levels.mjs";
import { put, putText } from "./saying.mjs";

const MOST_LISTED = 300;
const MOST_IN_WORDS = 100_000; // letters of all rows, and of all cells listed: of some scripts a browser takes a second to lay these out
const MOST_OF_A_CELL = 400; // letters of what is told of one: a stranger's level may have millions of them, in each cell

// What stands in a cell, by the names of its objects, as far as they are told.
export function cellTold(names) {
  let told = "";
  for (const name of names) {
    if (told.length > MOST_OF_A_CELL) break;
    told = told === "" ? name : `${told} ${name}`;
  }
  return cut(told, MOST_OF_A_CELL) || "nothing";
}

// What stands in the rows of a level, a sentence for each: cells that are alike beside one another are counted.
export function rowsInWords(level, namesOf) {
  if (!isDrawn(level)) return [];
  const known = new Map([...new Set(level.cells)].map((label) => [label, cellTold(namesOf(label))]));
  return Array.from({ length: heightOf(level) }, (_, row) => {
    const runs = [];
    for (let column = 0; column < level.width; column += 1) {
      const label = level.cells[numberAt(level, column, row)], last = runs.at(-1);
      if (last !== undefined && last.label === label) last.count += 1;
      else runs.push({ label, count: 1 });
    }
    return sayable(runs.map(({ label, count }) => (count > 1 ? `${count} \u00d7 ${known.get(label)}` : known.get(label))).join(", "));
  });
}

// The first of these texts, as many as have at most so many letters together.
function firstOf(texts, most) {
  let count = 0;
  for (let letters = 0; count < texts.length; count += 1) {
    letters += texts[count].length;
    if (letters > most) break;
  }
  return texts.slice(0, count);
}

// A level in words, made once somebody looks.
export class InWords {
  constructor() {
    this.level = null;
    at("in-words").addEventListener("toggle", () => this.draw());
  }

  show(level, namesOf) {
    this.level = level;
    this.namesOf = namesOf;
    put(at("in-words"), { hidden: !isDrawn(level) });
    this.draw();
  }

  draw() {
    if (!at("in-words").open || this.level === null) return;
    const rows = rowsInWords(this.level, this.namesOf), told = firstOf(rows, MOST_IN_WORDS), more = rows.length - told.length;
    fill(at("words"), [...told.map((row) => make("li", "", row)), ...(more > 0 ? [make("li", "faint", `and ${plural(more, "row")} more`)] : [])]);
  }
}

// The cells in which two levels differ. show(number) shows one, and is told null where none is chosen.
export class DifferingCells {
  constructor(choose) {
    this.choose = choose;
    this.cells = [];
    this.current = null;
    at("next-cell").addEventListener("click", () => this.next());
  }

  // Lists cells, each told by a function.
  show(cells, told) {
    const isSame = cells.length === this.cells.length && cells.every((cell, place) => cell === this.cells[place]);
    if (!isSame) this.current = null;
    this.cells = cells;
    this.told = told;
    put(at("differing-cells"), { hidden: cells.length === 0 });
    if (!isSame || cells.length > 0) this.draw();
  }

  get chosen() {
    return this.current === null ? null : this.cells[this.current];
  }

  next() {
    if (this.cells.length === 0) return;
    this.current = this.current === null ? 0 : (this.current + 1) % this.cells.length;
    this.draw();
    this.choose(this.chosen);
  }

  draw() {
    const first = Math.max(0, Math.min(this.cells.length - MOST_LISTED, (this.current ?? 0) - Math.floor(MOST_LISTED / 2)));
    const near = this.cells.slice(first, first + MOST_LISTED).map((cell) => this.told(cell)), chosen = (this.current ?? 0) - first;
    // where there is no room for all up to the chosen one, it is the first
    const begin = chosen < firstOf(near, MOST_IN_WORDS).length ? 0 : chosen, told = firstOf(near.slice(begin), MOST_IN_WORDS), more = this.cells.length - told.length;
    const items = told.map((text, place) => this.item(text, first + begin + place));
    at("differing").replaceChildren(...items, ...(more > 0 ? [make("li", "faint", `and ${plural(more, "cell")} more`)] : []));
    putText(at("chosen-cell"), this.current === null ? "" : `${this.current + 1} of ${this.cells.length}: ${this.told(this.chosen)}`);
  }

  item(text, place) {
    const item = make("li", "", text);
    item.setAttribute("aria-current", String(place === this.current));
    return item;
  }
}

// @ts-check
// The list of sessions on both pages: filtered by close and by name. Rows are there only where they can be seen, so it may be long.
import { countOf, shapeOf } from "./closes.mjs";
import { at, cut, make, makeButton, plural } from "./elements.mjs";
import { there } from "./there.mjs";

/** @typedef {{ name: string, close: string | null, frames: number | null, parting: object | null, isUnsolved?: boolean }} Row */

const ROW_HEIGHT = 30; // pixels of a row, as common.css has it
const MORE_ROWS = 12; // rows beyond those that can be seen
const LISTED_LETTERS = 200; // of a name

const isOf = (row, close) => close === "all" || (close === "diverges" && row.parting !== null) || row.close === close;

// The numbers of the rows of a close (or "all", "diverges") whose names have a text in them.
export function listed(rows, close, text) {
  const wanted = text.toLowerCase(), isNamed = ({ name }) => wanted === "" || name.toLowerCase().includes(wanted);
  return [...rows.keys()].filter((number) => isOf(rows[number], close) && isNamed(rows[number]));
}

// Whether a session needs a look: it did not pass, or isn't solved and must be, or diverges from the run that it is compared with.
export const isFailure = (row) => row.parting !== null || row.isUnsolved === true || (row.close !== null && row.close !== "passed");

// The next of some numbers behind (or before) one that is open, round and round if that is wanted; null where there is none.
export function following(numbers, open, step, { isRound = true, placeOf = (number) => number } = {}) {
  const isFurther = (number) => (step > 0 ? placeOf(number) > placeOf(open) : placeOf(number) < placeOf(open));
  const inOrder = step > 0 ? numbers : [...numbers].reverse(), further = open === null ? undefined : inOrder.find(isFurther);
  return further ?? (isRound || open === null ? inOrder[0] : null) ?? null;
}

export class SessionList {
  // A row is { name, close (null: not played), frames, parting, isUnsolved }. `page` is what differs: open(number) opens a session, toldOf(row) tells how it closed,
  // toldOfCount(listed, all) how many are listed, refilter() is called where a filter changes; `closes` have buttons, those of `always` also where there is
  // none; with `areFailuresFirst` failures come first, and the next one isn't sought round and round. Where no row is left, `elsewhere` gets the focus.
  constructor(page) {
    this.page = page;
    this.rows = [];
    this.order = [];
    this.shown = [];
    this.close = "all";
    this.current = null;
    at("filter").addEventListener("input", () => this.filter());
    at("rows").addEventListener("scroll", () => this.draw());
    new ResizeObserver(() => this.draw()).observe(at("rows"));
  }

  get name() {
    return at("filter").value;
  }

  show(rows, current) {
    this.rows = rows;
    this.current = current;
    this.order = this.ordered([...rows.keys()], rows);
    this.places = new Map(this.order.map((number, place) => [number, place]));
    if (![...this.page.always, "all"].includes(this.close) && this.count(this.close) === 0) this.close = "all";
    this.select();
  }

  // Takes the filters of an address.
  setFilters(close, name) {
    this.close = this.page.closes.includes(close) ? close : "all";
    at("filter").value = name ?? "";
    this.select();
  }

  // Marks the session that is open.
  setCurrent(number) {
    this.current = number;
    this.reveal();
  }

  // The next session that is listed and wanted, or the one before; null where there is none.
  /** @type {(step: number, isWanted?: (row: Row) => boolean) => number | null} */
  next(step, isWanted = () => true) {
    const isRound = !this.page.areFailuresFirst || !this.shown.includes(this.current);
    return following(this.shown.filter((number) => isWanted(this.rows[number])), this.current, step, { isRound, placeOf: (number) => there(this.places).get(number) });
  }

  ordered(numbers, rows = this.rows) {
    if (!this.page.areFailuresFirst) return numbers;
    return [...numbers.filter((number) => isFailure(rows[number])), ...numbers.filter((number) => !isFailure(rows[number]))];
  }

  count(close) {
    return this.rows.filter((row) => isOf(row, close)).length;
  }

  filter() {
    this.select();
    this.page.refilter?.();
  }

  select() {
    this.shown = this.ordered(listed(this.rows, this.close, this.name));
    at("list").style.height = `${this.shown.length * ROW_HEIGHT}px`;
    at("listed").textContent = this.page.toldOfCount(this.shown.length, this.rows.length);
    const closes = this.page.closes.filter((close) => this.page.always.includes(close) || close === this.close || this.count(close) > 0);
    at("counts").replaceChildren(...["all", ...closes].map((close) => this.countButton(close, this.count(close))));
    this.reveal();
  }

  countButton(close, count) {
    const button = makeButton(close, "", () => { this.close = close; this.filter(); /** @type {HTMLElement} */ (at("counts").querySelector(`.${close}`)).focus(); });
    button.append(...(close === "all" ? [plural(count, "session")] : [shapeOf(close), countOf(close, count)]));
    button.setAttribute("aria-pressed", String(close === this.close));
    button.disabled = count === 0 && close !== "all";
    return button;
  }

  // Scrolls to the session that is open, and draws what is seen then.
  reveal() {
    const box = at("rows"), place = this.shown.indexOf(this.current), hadFocus = at("list").contains(document.activeElement);
    const isSeen = place * ROW_HEIGHT >= box.scrollTop && (place + 1) * ROW_HEIGHT <= box.scrollTop + box.clientHeight;
    if (place >= 0 && !isSeen) box.scrollTop = place * ROW_HEIGHT - box.clientHeight / 2;
    this.draw();
    if (hadFocus) (at("list").querySelector('[tabindex="0"]') ?? at(this.page.elsewhere)).focus({ preventScroll: true });
  }

  draw() {
    const box = at("rows"), focused = /** @type {HTMLElement} */ (document.activeElement)?.dataset.number, first = Math.max(0, Math.floor(box.scrollTop / ROW_HEIGHT) - MORE_ROWS);
    const shown = this.shown.slice(first, Math.ceil((box.scrollTop + box.clientHeight) / ROW_HEIGHT) + MORE_ROWS);
    // one of them is reached by Tab, and from there j and k lead on
    this.reached = shown.includes(this.current) ? this.current : shown[0];
    at("list").replaceChildren(...shown.map((number, place) => this.item(number, first + place)));
    if (focused !== undefined) /** @type {HTMLElement} */ (at("list").querySelector(`[data-number="${focused}"]`))?.focus({ preventScroll: true });
  }

  item(number, place) {
    const item = make("li", "", "");
    item.style.top = `${place * ROW_HEIGHT}px`;
    item.setAttribute("aria-setsize", String(this.shown.length));
    item.setAttribute("aria-posinset", String(place + 1));
    item.append(this.button(number));
    return item;
  }

  button(number) {
    const { name, close, frames, isUnsolved } = this.rows[number], look = isUnsolved ? "failed" : close, told = this.page.toldOf(this.rows[number]), called = cut(name, LISTED_LETTERS);
    const button = makeButton(look ?? "unplayed", "", () => this.page.open(number)), count = make("span", "frames", frames || "");
    button.title = `${called}: ${told}`;
    button.dataset.number = number;
    button.tabIndex = number === this.reached ? 0 : -1;
    button.setAttribute("aria-current", String(number === this.current));
    if (frames) count.title = plural(frames, "frame");
    const shape = look === null ? make("span", "shape", "") : shapeOf(look);
    button.append(make("span", "number", number), shape, make("span", "label", called || "(no name)"), make("span", "close", told), count);
    return button;
  }
}

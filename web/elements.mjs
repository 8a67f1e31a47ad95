// @ts-check
// Elements of a page. What came from games goes into them as text alone.

/** @type {import("./kinds").At} */
export const at = (id) => /** @type {HTMLElement} */ (document.getElementById(id));

export const json = (id) => JSON.parse(at(id).textContent);

/** @type {<Tag extends keyof HTMLElementTagNameMap>(tag: Tag, className: string, text: string) => HTMLElementTagNameMap[Tag]} */
export function make(tag, className, text) {
  const element = document.createElement(tag);
  element.className = className;
  element.textContent = text;
  return element;
}

// Puts nodes into an element, in the place of what is there. A stranger may cause more of them than a call takes arguments.
/** @type {(element: Element, nodes: Iterable<Node | string>) => void} */
export function fill(element, nodes) {
  const all = document.createDocumentFragment();
  for (const node of nodes) all.append(node);
  element.replaceChildren(all);
}

/** @type {(className: string, text: string, act: () => void) => HTMLButtonElement} */
export function makeButton(className, text, act) {
  const button = make("button", className, text);
  button.type = "button";
  button.addEventListener("click", act);
  return button;
}

const TURNING = /[\u061c\u200e\u200f\u202a-\u202e\u2066-\u2069]/g;

// A text of a stranger on a line among others: letters that turn others around stand there by their numbers.
export const readable = (text) => text.replace(TURNING, (letter) => `\\u{${letter.charCodeAt(0).toString(16)}}`);

// The beginning of a text of a stranger, with a sign where it is cut; no half of a letter is left.
export const cut = (text, most) => readable(text.length > most ? `${text.slice(0, most).replace(/[\ud800-\udbff]$/, "")}\u2026` : text);

const MOST_SAID = 4000; // letters that are said in one piece: a browser lays out many more for minutes, where marks stand on marks, or scripts run both ways

// A text of a stranger as far as it is said in one piece.
export const sayable = (text) => cut(text, MOST_SAID);

export const isMotionReduced = () => matchMedia("(prefers-reduced-motion: reduce)").matches;

export const plural = (count, word) => (count === 1 ? `1 ${word}` : `${count} ${word}s`);

// Scrolls a box, and nothing around it, until an element in it is seen.
export function reveal(box, element) {
  const [outer, inner] = [box.getBoundingClientRect(), element.getBoundingClientRect()];
  if (inner.top < outer.top) box.scrollTop -= outer.top - inner.top;
  else if (inner.bottom > outer.bottom) box.scrollTop += inner.bottom - outer.bottom;
}

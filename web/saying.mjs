// @ts-check
// Puts words and values into the elements of the page, where they have changed: what is written again as it stands costs a browser as much as a change.
import { shapeOf } from "./closes.mjs";
import { at, make, sayable } from "./elements.mjs";

export function putText(element, text) {
  if (element.textContent !== text) element.textContent = text;
}

export const say = (id, stranger) => putText(at(id), sayable(stranger));

const SHAPE_BEFORE = new WeakMap(); // for each element the close whose shape stands before its words

export function tell(id, { text, close }) {
  const element = at(id), words = sayable(text);
  if (element.lastChild?.textContent === words && SHAPE_BEFORE.get(element) === close) return;
  SHAPE_BEFORE.set(element, close);
  element.replaceChildren(...(close === null ? [] : [shapeOf(close)]), make("span", "", words));
}

// Gives an element properties.
export function put(element, properties) {
  for (const [name, value] of Object.entries(properties)) if (element[name] !== value) element[name] = value;
}

export function putAttribute(element, name, value) {
  if (element.getAttribute(name) !== value) element.setAttribute(name, value);
}

// @ts-check
// What the keys of the page do: inputs of the game, and what moves through a recording and a list.

export const INPUT_KEYS = new Map(Object.entries({
  ArrowUp: 0, ArrowLeft: 1, ArrowDown: 2, ArrowRight: 3, w: 0, a: 1, s: 2, d: 3, x: 4, c: 4, " ": 4, Enter: 4, z: "undo", u: "undo", r: "restart", ".": "tick",
}));

const MOVES = new Map(Object.entries({
  "[": "back", "]": "on", Home: "first", End: "last", Backspace: "cut", p: "play", j: "next", k: "previous", n: "next-failure", N: "previous-failure", "+": "larger", "-": "smaller", 0: "fit", b: "blink", "{": "stage-back", "}": "stage-on",
}));
const SHIFTED = new Map(Object.entries({ ArrowLeft: "back", ArrowRight: "on", ArrowUp: "stage-back", ArrowDown: "stage-on" }));
const SWIPE = 24; // pixels that a swipe has at least
// Elements that have keys of their own.
const TYPED_IN = "textarea, select, input:not([type=range])";

// What a key is wanted to do: { input }, { move }, or null where it is not the page's.
export function meaningOf(event) {
  if (event.ctrlKey || event.metaKey || event.altKey || event.isComposing) return null;
  const element = event.target;
  if (element.matches?.(TYPED_IN)) return null;
  if ([" ", "Enter"].includes(event.key) && element.matches?.("button, summary, a")) return null;
  if (element.matches?.("input[type=range], [role=tab]") && /^(Arrow|Home|End)/.test(event.key)) return null;
  if (event.shiftKey && SHIFTED.has(event.key)) return { move: SHIFTED.get(event.key) };
  if (MOVES.has(event.key)) return { move: MOVES.get(event.key) };
  const key = event.key.length === 1 ? event.key.toLowerCase() : event.key;
  return INPUT_KEYS.has(key) ? { input: INPUT_KEYS.get(key) } : null;
}

// The input of a swipe that goes so far to the right and down, or null where it is too short.
export function swipeOf(right, down) {
  if (Math.max(Math.abs(right), Math.abs(down)) < SWIPE) return null;
  if (Math.abs(right) > Math.abs(down)) return right < 0 ? 1 : 3;
  return down < 0 ? 0 : 2;
}

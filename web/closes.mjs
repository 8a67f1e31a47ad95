// @ts-check
// How a session closes, told by a word, a shape and a colour (common.css).

export const CLOSES = ["passed", "differs", "stopped", "refused"];

const SHAPES = {
  passed: "M2 6.5 4.8 9.3 10 3",
  differs: "M1.5 4.3H10.5M1.5 7.7H10.5M8 1.2 4 10.8",
  stopped: "M3 3H9V9H3Z",
  refused: "M2.5 2.5 9.5 9.5M9.5 2.5 2.5 9.5",
  diverges: "M6 11V6.5M6 6.5 2 1.5M6 6.5 10 1.5",
  failed: "M6 1.5V7.5M6 9V11", // passed, and does not count as that
};
const SVG = "http://www.w3.org/2000/svg";

// The shape of a close, in its colour. The word stands beside it, so it is hidden from those who listen.
export function shapeOf(close) {
  const shape = document.createElementNS(SVG, "svg");
  const path = document.createElementNS(SVG, "path");
  shape.setAttribute("viewBox", "0 0 12 12");
  shape.setAttribute("class", `shape ${close}`);
  shape.setAttribute("aria-hidden", "true");
  path.setAttribute("d", SHAPES[close]);
  shape.append(path);
  return shape;
}

// "3 passed", "1 differs", "2 differ".
export const countOf = (close, count) => `${count} ${count !== 1 && (close === "differs" || close === "diverges") ? close.replace(/s$/, "") : close}`;

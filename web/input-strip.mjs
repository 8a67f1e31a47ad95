// @ts-check
// The inputs of a session as a strip of marks in a report, as many as there is room for.
import { at, makeButton } from "./elements.mjs";
import { inputLetter, inputWord } from "./telling.mjs";

const INPUT = 26; // pixels of an input in the strip

export class InputStrip {
  // go(taken) is called with how many inputs are taken where one is chosen.
  constructor(go) {
    this.go = go;
  }

  // Shows inputs around those that are taken; bumps are those after which nothing changed, and `stop` is the one at which the session stopped.
  show(inputs, taken, { bumps, stop }) {
    const room = Math.max(5, Math.floor(at("strip").clientWidth / INPUT));
    const first = Math.max(0, Math.min(taken - Math.ceil(room / 2), inputs.length - room));
    at("strip").hidden = inputs.length === 0;
    at("strip").replaceChildren(...inputs.slice(first, first + room).map((input, place) => this.button(input, first + place, taken, { isBump: bumps.has(first + place), isStop: first + place === stop })));
  }

  button(input, number, taken, { isBump, isStop }) {
    const button = makeButton(`${isBump ? "bump" : ""} ${isStop ? "stop" : ""}`, inputLetter(input), () => this.go(number + 1));
    button.title = `input ${number}: ${inputWord(input)}${isBump ? ", nothing changed" : ""}${isStop ? ", here the session stopped" : ""}`;
    button.setAttribute("aria-label", button.title);
    button.setAttribute("aria-current", String(number === taken - 1));
    button.tabIndex = -1;
    return button;
  }
}

// @ts-check
// The inputs of a recording as a strip of marks, and its frames as a slider.
import { at, makeButton, plural, reveal } from "./elements.mjs";
import { inputTold } from "./faults.mjs";
import { markOf, windowAround } from "./recording.mjs";
import { put, putAttribute, say } from "./saying.mjs";

const MOST_MARKS = 240; // marks that stand in the strip at once

export class Strip {
  // act.input(taken) shows what so many inputs led to, act.frame(number) a frame.
  constructor(act) {
    this.act = act;
    this.inputs = [];
    this.first = 0;
    this.marks = []; // the marks that stand there, and of which inputs they are
    at("slider").addEventListener("input", () => act.frame(Number(at("slider").value)));
  }

  // The mark of an input, behind which so many are taken. It is called by its number, from 0.
  mark(input, taken) {
    const button = makeButton("", markOf(input), () => this.act.input(taken));
    button.title = `input ${taken - 1}: ${inputTold(input)}`;
    button.setAttribute("aria-label", button.title);
    button.tabIndex = -1;
    return button;
  }

  // The marks of inputs from one on. Those that stand there stay as far as their inputs do, so that a key adds one mark, and not all of them.
  showMarks(inputs, first, behind) {
    const before = this.first, isThere = (number) => number >= before && number < before + this.marks.length && this.inputs[number] === inputs[number];
    let begin = Math.max(first, before), end = begin;
    while (end < behind && isThere(end)) end += 1;
    if (begin === end) begin = end = first;
    const kept = this.marks.slice(begin - before, end - before), made = (from, to) => inputs.slice(from, to).map((input, place) => this.mark(input, from + place + 1));
    const [ahead, after] = [made(first, begin), made(end, behind)];
    for (const button of [...this.marks.slice(0, Math.max(0, begin - before)), ...this.marks.slice(Math.max(0, end - before))]) button.remove();
    at("strip").prepend(...ahead);
    at("strip").append(...after);
    Object.assign(this, { inputs, first, marks: [...ahead, ...kept, ...after] });
  }

  // Marks the last input that is taken, and those behind it.
  point(taken) {
    this.marks.forEach((button, place) => {
      const number = this.first + place + 1, isLast = number === taken;
      // one of them is reached by Tab, and from there `[` and `]` lead on
      put(button, { tabIndex: isLast ? 0 : -1 });
      if (isLast) putAttribute(button, "aria-current", "true");
      else if (button.hasAttribute("aria-current")) button.removeAttribute("aria-current");
      button.classList.toggle("ahead", number > taken);
    });
  }

  show({ inputs, taken, frames, shown }) {
    const hadFocus = at("strip").contains(document.activeElement);
    const [first, behind] = windowAround(inputs.length, taken, MOST_MARKS), last = Math.max(0, frames.length - 1);
    this.showMarks(inputs, first, behind);
    this.point(taken);
    say("strip-before", first > 0 ? `${plural(first, "input")} before these` : "");
    say("strip-behind", behind < inputs.length ? `${plural(inputs.length - behind, "input")} behind these` : "");
    put(at("slider"), { max: String(last), value: String(shown), disabled: last === 0 });
    say("place", frames.length === 0 ? "no frame" : `frame ${shown} of ${last}`);
    for (const id of ["first", "back"]) put(at(id), { disabled: shown <= 0 });
    for (const id of ["on", "last"]) put(at(id), { disabled: shown >= last });
    const current = this.marks[taken - first - 1];
    if (current) reveal(at("strip"), current);
    if (hadFocus) (current ?? at("stage")).focus({ preventScroll: true });
  }
}

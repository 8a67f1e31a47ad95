// @ts-check
// The stages of the input that is looked at as a list, and the inputs in which the rules of a line acted.
import { at, make, makeButton, reveal } from "./elements.mjs";
import { windowAround } from "./recording.mjs";
import { say } from "./saying.mjs";
import { coverageTold, headingsTold, inputCalled, stageTold, stagesTold } from "./stage-words.mjs";
import { chosenStage, coverageOf, inputsOfLine, lineNow, linesMarked, stagesNow } from "./staging.mjs";
/** @typedef {import("./state").State} State */

const MOST_STAGES = 240; // that are listed at once,
const MOST_INPUTS_LISTED = 240; // and inputs of a line

export class StagesPanel {
  // act.stage(number) chooses a stage, act.acted(input) an input in which a line acted.
  constructor(act) {
    this.act = act;
  }

  /** @param {State} state */
  draw(state) {
    at("stages-panel").open = state.staging.isOpen;
    say("stages-told", stagesTold(state));
    const stages = stagesNow(state)?.stages ?? [], chosen = chosenStage(state);
    this.drawStages(stages, chosen);
    say("headings", headingsTold(chosen === null ? {} : stages[chosen] ?? {}));
  }

  drawStages(stages, chosen) {
    const hadFocus = at("stages").contains(document.activeElement), [first, behind] = windowAround(stages.length, chosen ?? 0, MOST_STAGES);
    const buttons = stages.slice(first, behind).map((stage, place) => this.button(stage, first + place, chosen));
    at("stages").start = first + 1;
    at("stages").replaceChildren(...buttons.map((button) => {
      const item = make("li", "", "");
      item.append(button);
      return item;
    }));
    const current = buttons[(chosen ?? -1) - first];
    if (current) reveal(at("stages"), current);
    if (hadFocus) (current ?? at("stage")).focus({ preventScroll: true });
  }

  // One of them is reached by Tab, and from there keys lead on.
  button(stage, number, chosen) {
    const button = makeButton("", "", () => this.act.stage(number));
    button.append(make("bdi", "", stageTold(stage)));
    button.tabIndex = number === (chosen ?? 0) ? 0 : -1;
    if (number === chosen) button.setAttribute("aria-current", "true");
    return button;
  }

  /** @param {State} state */
  drawInputs(state) {
    const inputs = lineNow(state) === null ? [] : inputsOfLine(state), more = inputs.length - MOST_INPUTS_LISTED;
    const items = inputs.slice(0, MOST_INPUTS_LISTED).map((input) => {
      const item = make("li", "", "");
      item.append(makeButton("", inputCalled(state.work.inputs, input), () => this.act.acted(input)));
      return item;
    });
    at("acted").hidden = items.length === 0;
    at("acted").replaceChildren(...items, ...(more > 0 ? [make("li", "faint", `and ${more} more`)] : []));
  }

  // Draws which lines acted, in the text as well, and how far the inputs are looked through.
  /** @param {State} state */
  drawActed(state, doing, panel) {
    const { lit, never } = linesMarked(state), { done, total } = coverageOf(state), isDone = doing === null;
    panel.light(lit, never);
    at("cover").setAttribute("aria-pressed", String(state.staging.isCovered));
    at("stop-cover").hidden = isDone;
    at("covering").hidden = isDone;
    at("covering").max = Math.max(1, total);
    at("covering").value = done;
    say("covered", coverageTold(state));
    this.drawInputs(state);
  }
}

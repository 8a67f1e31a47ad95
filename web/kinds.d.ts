/** The classes of the elements of playground.html and report.html, by their ids, as far as a class has more than every element. An id of both is the playground's. */
export interface Kinds {
  accept: HTMLButtonElement;
  "accept-all": HTMLButtonElement;
  "as-recorded": HTMLButtonElement;
  back: HTMLButtonElement;
  "begin-play": HTMLButtonElement;
  blink: HTMLButtonElement;
  "close-file": HTMLButtonElement;
  "copy-inputs": HTMLButtonElement;
  "copy-level": HTMLButtonElement;
  "copy-link": HTMLButtonElement;
  cover: HTMLButtonElement;
  covering: HTMLProgressElement;
  cut: HTMLButtonElement;
  differing: HTMLOListElement;
  example: HTMLButtonElement;
  file: HTMLInputElement;
  filter: HTMLInputElement;
  first: HTMLButtonElement;
  fit: HTMLButtonElement;
  follow: HTMLButtonElement;
  "game-tab": HTMLButtonElement;
  "go-on": HTMLButtonElement;
  help: HTMLDetailsElement;
  "in-words": HTMLDetailsElement;
  larger: HTMLButtonElement;
  last: HTMLButtonElement;
  level: HTMLCanvasElement;
  "level-0": HTMLCanvasElement;
  "level-1": HTMLCanvasElement;
  levels: HTMLSelectElement;
  list: HTMLOListElement;
  marks: HTMLInputElement;
  name: HTMLInputElement;
  new: HTMLButtonElement;
  "next-cell": HTMLButtonElement;
  on: HTMLButtonElement;
  open: HTMLButtonElement;
  order: HTMLSelectElement;
  other: HTMLCanvasElement;
  place: HTMLOutputElement;
  play: HTMLButtonElement;
  "play-all": HTMLButtonElement;
  progress: HTMLProgressElement;
  "put-back": HTMLButtonElement;
  remove: HTMLButtonElement;
  replace: HTMLButtonElement;
  save: HTMLButtonElement;
  "save-game": HTMLButtonElement;
  "save-lines": HTMLButtonElement;
  "save-own": HTMLButtonElement;
  "save-sessions": HTMLButtonElement;
  saving: HTMLFormElement;
  "sessions-tab": HTMLButtonElement;
  "show-solution": HTMLButtonElement;
  slider: HTMLInputElement;
  smaller: HTMLButtonElement;
  solve: HTMLButtonElement;
  source: HTMLTextAreaElement;
  speed: HTMLSelectElement;
  stages: HTMLOListElement;
  "stages-panel": HTMLDetailsElement;
  stop: HTMLButtonElement;
  "stop-cover": HTMLButtonElement;
  "stop-play": HTMLButtonElement;
  "stop-solve": HTMLButtonElement;
  "take-solution": HTMLButtonElement;
  "take-text": HTMLButtonElement;
  words: HTMLOListElement;
}

/** What finds an element by its id. */
export interface At {
  <Id extends keyof Kinds>(id: Id): Kinds[Id];
  (id: string): HTMLElement;
}

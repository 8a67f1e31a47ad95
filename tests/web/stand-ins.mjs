// @ts-check
// What stands in the place of a browser's own, for tests without one, and of a whole state.
/** @typedef {import("../../web/state").State} State */

// Nothing that is recorded.
/** @type {import("../../web/state").Work} */
export const WORK = { own: null, index: 0, inputs: [], name: "", opened: null };

// A state, of which what is tested asks for no other parts.
/** @type {(parts: Partial<State>) => State} */
export const stateOf = (parts) => /** @type {State} */ (parts);

// A document that has what is asked of it and nothing more, until it is taken away.
/** @type {(document: { getElementById?: (id: string) => object, createElement?: (tag: string) => object, createDocumentFragment?: () => object }) => void} */
export function putDocument(document) {
  Object.defineProperty(globalThis, "document", { value: document, configurable: true, writable: true });
}

export const takeDocument = () => Reflect.deleteProperty(globalThis, "document");

// A worker that does nothing by itself, and knows what it was asked.
export class IdleWorker {
  constructor() {
    this.asked = [];
    this.isEnded = false;
    /** @type {(event: { data: unknown }) => void} */
    this.onmessage = () => {};
    /** @type {(event: { preventDefault: () => void }) => void} */
    this.onerror = () => {};
  }

  postMessage(message) {
    this.asked.push(message);
  }

  terminate() {
    this.isEnded = true;
  }
}

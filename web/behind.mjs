// @ts-check
// What need not be seen together with a key: it is done behind the frame that shows the key, once the browser has nothing else to do. Of acts that wait the
// last is done, so keys that are held down leave nothing behind that queues.
const BEHIND_FRAME = 100; // milliseconds that it waits behind the frame at most
const LATEST = 500; // milliseconds that it waits for the frame: a page that nobody sees has none

// Calls a function once the browser has nothing to do, or as soon as it can where it can't tell.
const whenIdle = (act) => (typeof globalThis.requestIdleCallback === "function" ? requestIdleCallback(act, { timeout: BEHIND_FRAME }) : setTimeout(act));

export class Behind {
  constructor() {
    this.act = null;
    this.timer = 0;
  }

  get isWaiting() {
    return this.act !== null;
  }

  put(act) {
    this.act = act;
    if (this.timer !== 0) return;
    this.timer = setTimeout(() => this.go(), LATEST);
    const { timer } = this;
    requestAnimationFrame(() => whenIdle(() => { if (this.timer === timer) this.go(); }));
  }

  // Leaves out what waits.
  drop() {
    clearTimeout(this.timer);
    Object.assign(this, { act: null, timer: 0 });
  }

  go() {
    const { act } = this;
    this.drop();
    act();
  }
}

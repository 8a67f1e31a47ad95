// @ts-check
// The engine's module has what engine/saxtegun.d.ts declares: a checker of types says so, and nothing runs this.
import * as engine from "../../engine/saxtegun.mjs";

/** @type {typeof import("../../engine/saxtegun")} */
export const declared = engine;

// @ts-check
// An instance of the module, with the types of what it exports; the last three are those of the one that refuses memory (refusing.c).
/** @typedef {import("../../engine/saxtegun.mjs").Exports & { refuse(first: bigint, last: bigint): void, requests(): bigint, blocks_out(): bigint }} Exports */

/** @type {(module: WebAssembly.Module) => Exports} */
export const exportsOf = (module) => /** @type {Exports} */ (new WebAssembly.Instance(module).exports);

// What is none of a type, where a test hands it over all the same.
/** @type {(value: unknown) => any} */
export const wrong = (value) => value;

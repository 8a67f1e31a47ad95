/** What browsers have that the declarations of TypeScript 4.8 lack; later ones have it in the same words, or more of it. */

interface Array<T> {
  findLast(is: (it: T, place: number) => unknown): T | undefined;
  findLastIndex(is: (it: T, place: number) => unknown): number;
}

interface Element {
  checkVisibility(): boolean;
}

/** What is there in a worker alone, and how one posts: without an origin. */
declare const WorkerGlobalScope: unknown;

declare function postMessage(message: unknown, moved: Transferable[]): void;

interface DecompressionStream extends GenericTransformStream {}

declare var DecompressionStream: { prototype: DecompressionStream; new (format: "deflate" | "deflate-raw" | "gzip"): DecompressionStream };

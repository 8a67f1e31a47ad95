/** What the tests use of Node beside engine/node.d.ts. */

declare function setImmediate(act: (...words: unknown[]) => void, ...words: unknown[]): void;

interface Buffer {
  equals(other: Uint8Array): boolean;
}

interface ImportMeta {
  readonly filename?: string;
}

declare module "node:assert/strict" {
  interface Assert {
    (isSo: unknown, told?: string): void;
    deepEqual(one: unknown, other: unknown, told?: string): void;
    equal(one: unknown, other: unknown, told?: string): void;
    fail(told?: string): never;
    match(text: string, pattern: RegExp, told?: string): void;
    notEqual(one: unknown, other: unknown, told?: string): void;
    ok(isSo: unknown, told?: string): void;
    rejects(promise: Promise<unknown> | (() => Promise<unknown>), wanted?: unknown): Promise<void>;
    throws(act: () => unknown, wanted?: unknown, told?: string): void;
  }
  const assert: Assert;
  export default assert;
}

declare module "node:test" {
  export function test(name: string, act: (context: any) => unknown): Promise<void>;
  export function test(name: string, options: object, act: (context: any) => unknown): Promise<void>;
  export default test;
}

declare module "node:util" {
  export function isDeepStrictEqual(one: unknown, other: unknown): boolean;
}

declare module "node:v8" {
  export function setFlagsFromString(flags: string): void;
}

declare module "node:vm" {
  export function runInNewContext(code: string): any;
}

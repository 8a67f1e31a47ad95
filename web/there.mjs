// @ts-check
// What must be there, though by its type it may be null or undefined.
/** @type {<It>(it: It | null | undefined) => It} */
export function there(it) {
  if (it === null || it === undefined) throw new Error("what must be there is not");
  return it;
}

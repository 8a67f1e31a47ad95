// @ts-check
// What stands behind the # of an address: #session=4&frame=16&close=differs&name=level. Each part may be missing, and then is null.

const MOST_OF_A_NAME = 2000; // letters that names are filtered by, as the field takes: a browser takes long to lay out many more

function numberIn(text) {
  return text !== null && /^[0-9]{1,9}$/.test(text) ? Number(text) : null;
}

export function readAddress(hash) {
  const words = new URLSearchParams(hash.replace(/^#/, ""));
  return { session: numberIn(words.get("session")), frame: numberIn(words.get("frame")), close: words.get("close"), name: words.get("name")?.slice(0, MOST_OF_A_NAME) ?? null, text: words.get("session") };
}

export function addressOf({ session, frame, close, name }) {
  const words = new URLSearchParams();
  for (const [word, value] of Object.entries({ session, frame, close, name })) {
    if (value !== null && value !== undefined && value !== "") words.set(word, value);
  }
  return `#${words}`;
}

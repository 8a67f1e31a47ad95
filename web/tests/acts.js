// @ts-check
// Random acts on the playground, as whoever sits before it would do them, each held against a small model: what was made before an act is on the page
// behind it, or among what can be put back, as this browser keeps it for the next visit. acts(seed, count, texts) gives what went wrong, and what
// sessions the page showed with which closes; browser tests evaluate this file in the page.
(() => {
  const KEYS = ["ArrowUp", "ArrowLeft", "ArrowDown", "ArrowRight", "x", "z", "r", ".", "[", "]", "Home", "End", "Backspace", "p", "j", "k", "n", "N", "{", "}"];
  const NOT_CLICKED = ["open", "save-game", "save-lines", "stop", "stop-play", "stop-cover"]; // these open a dialog of the system, hand out what there is, or depend on time
  const NAMES = ["walk", "push", "", "\u202ename"];
  const PATIENCE = 60_000; // milliseconds
  /** @type {Window & { wrong?: string[], isListening?: boolean }} */
  const page = window;
  const wrong = page.wrong ??= [];
  if (!page.isListening) {
    page.isListening = true;
    window.addEventListener("error", (event) => wrong.push(`error: ${event.message}`));
    window.addEventListener("unhandledrejection", (event) => wrong.push(`rejection: ${event.reason?.stack ?? event.reason}`));
  }
  /** @type {import("../kinds").At} */
  const at = (id) => /** @type {HTMLElement} */ (document.getElementById(id));
  const later = (milliseconds) => new Promise((settle) => setTimeout(settle, milliseconds));

  // Numbers that look random, the same for the same seed.
  const randomOf = (seed) => {
    let state = seed;
    return (count) => {
      state = (Math.imul(state, 1103515245) + 12345) & 0x7fffffff;
      return (state >>> 8) % count;
    };
  };

  // ---- what the page shows, and what is kept of it

  const marks = () => [...at("strip").querySelectorAll("button")].map((mark) => mark.title.replace(/^input \d+: /, ""));
  const shown = () => ({ text: at("source").value, inputs: marks(), name: at("name").value });
  // The rows that stand in the list of so many sessions: those that can be seen, and some around them.
  const rowsShown = (count) => [...at("list").querySelectorAll("button")].filter((row) => row.parentElement?.getAttribute("aria-setsize") === String(count));

  const asked = (request) => new Promise((settle, refuse) => {
    request.onsuccess = () => settle(request.result);
    request.onerror = () => refuse(request.error);
  });

  async function kept() {
    const database = await asked(indexedDB.open("saxtegun"));
    try {
      return (await asked(database.transaction("kept").objectStore("kept").index("kept").openCursor(null, "prev")))?.value;
    } finally {
      database.close();
    }
  }

  const WORDS = ["up", "left", "down", "right", "action"];
  const told = (inputs) => inputs.map((input) => WORDS[input] ?? input);
  const entriesOf = (file) => (file ? JSON.parse(new TextDecoder().decode(file.bytes)) : []);

  // What there is, here or to be put back.
  function made(value) {
    const all = [value, ...value.past], entries = all.flatMap(({ file }) => entriesOf(file));
    return {
      texts: all.map(({ text }) => text), names: [...all.map(({ work }) => work?.name), ...entries.map(([name]) => name)], sessions: entries.map((entry) => JSON.stringify(entry)),
      recordings: [...all.flatMap(({ work }) => (work ? [work.inputs] : [])), ...entries.map(([, [, inputs]]) => inputs)].map(told),
    };
  }

  const isSame = (one, other) => JSON.stringify(one) === JSON.stringify(other);

  // Waits until nothing is played any more.
  async function idle() {
    for (let begin = performance.now(); document.documentElement.dataset.busy !== "false"; await later(2)) {
      if (performance.now() - begin > PATIENCE) throw new Error("the page is busy for ever");
    }
  }

  // What is kept, once it is what the page shows.
  async function keptNow() {
    await idle();
    for (let begin = performance.now(); ; await later(3)) {
      const value = await kept(), { text, inputs, name } = shown();
      if (value && value.text === text && value.work.name === name && (inputs.length >= 240 || isSame(told(value.work.inputs), inputs))) return value;
      if (performance.now() - begin > PATIENCE) throw new Error("the page keeps something else than it shows");
    }
  }

  const startsWith = (list, begin) => begin.every((item, place) => list[place] === item);

  // What is missing behind an act of what was there before.
  function missing(before, after, { isEdit = false, isName = false }, example) {
    const { texts, names, sessions, recordings } = made(after), { text, work, file } = before;
    const isClean = !before.isUnsaved && !after.isUnsaved;
    return [
      ...(isEdit || text.trim() === "" || text === example || texts.includes(text) ? [] : ["the text"]),
      ...(recordings.some((inputs) => startsWith(inputs, told(work.inputs))) ? [] : [`the recording ${work.inputs}`]),
      ...(isName || work.name === "" || names.includes(work.name) ? [] : [`the name ${work.name}`]),
      ...(isClean ? [] : entriesOf(file).filter((entry) => !sessions.includes(JSON.stringify(entry))).map(([name]) => `session ${name}`)),
    ];
  }

  // ---- the acts

  const press = (key) => at("stage").dispatchEvent(new KeyboardEvent("keydown", { key, bubbles: true, cancelable: true }));

  /** @type {(id: "levels" | "name" | "order" | "source", value: string, event?: string) => void} */
  function fill(id, value, event = "input") {
    at(id).value = value;
    at(id).dispatchEvent(new Event(event, { bubbles: true }));
  }

  function handOver(name, text) {
    const files = new DataTransfer();
    files.items.add(new File([text], name));
    at("file").files = files.files;
    at("file").dispatchEvent(new Event("change"));
  }

  function clickOne(random) {
    const buttons = [...document.querySelectorAll("button")].filter((it) => it.checkVisibility() && !it.disabled && !NOT_CLICKED.includes(it.id));
    const button = buttons[random(buttons.length)];
    button.click();
    return `#${button.id || button.textContent?.trim().slice(0, 12)}`;
  }

  // Does something at random: what it was, and of what kind.
  function actOf(random, { edits, files }) {
    const kind = random(20), pick = (list) => list[random(list.length)];
    /** @type {[number, () => { act: string, isEdit?: true, isName?: true }][]} */
    const acts = [
      [9, () => { const key = pick(KEYS); press(key); return { act: key }; }], [15, () => ({ act: clickOne(random) })],
      [17, () => { const [from, to] = pick(edits); fill("source", at("source").value.replace(from, to)); return { act: `edit ${from}`, isEdit: true }; }],
      [18, () => { fill("name", pick(NAMES)); return { act: "name", isName: true }; }],
      [19, () => {
        const options = at("levels").options.length;
        if (options === 0) return { act: "nothing" };
        fill("levels", at("levels").options[random(options)].value, "change");
        return { act: "level" };
      }],
      [20, () => {
        if (random(2) === 0) { fill("order", pick(["rows", "columns"]), "change"); return { act: "order" }; }
        const [name, text] = pick(files);
        handOver(name, text);
        return { act: name };
      }],
    ];
    const [, act] = acts.find(([most]) => kind < most) ?? acts[0];
    return act();
  }

  // Random acts. `texts` are { edits: [[from, to]], files: [[name, text]], example }.
  return async (seed, count, texts) => {
    const random = randomOf(seed), log = [], found = [];
    const note = (what) => wrong.push(`${what} (seed ${seed}, behind ${log.slice(-8).join(" > ")})`);
    try {
      for (let number = 0; number < count; number += 1) {
        const isLooked = random(8) === 0, before = isLooked ? await keptNow() : null, known = wrong.length;
        const { act, ...kind } = actOf(random, texts);
        log.push(act);
        if (isLooked) {
          await later(0);
          const after = await keptNow();
          missing(before, after, kind, texts.example).forEach((what) => note(`lost: ${what}`));
          const entries = entriesOf(after.file), rows = rowsShown(entries.length), closes = rows.map((row) => row.className);
          if (random(5) === 0 && !closes.includes("unplayed")) found.push({ entries: rows.map((row) => entries[Number(row.dataset.number)]), text: after.text, order: after.order, closes });
        } else if (random(6) === 0) await idle();
        if (wrong.length > known) log.push("!");
      }
      await keptNow();
    } catch (error) {
      note(error.message);
    }
    return { wrong: wrong.splice(0), found, shown: shown() };
  };
})()

// @ts-check
// Lines of a text that are marked: in the column of their numbers, and as bands of colour behind the text.

// The numbers of so many lines, of which some are marked by the kinds of their marks.
export function rowsMarked(count, kinds) {
  const nodes = [];
  let plain = "";
  for (let line = 1; line <= count; line += 1) {
    const kind = kinds.get(line), end = line < count ? "\n" : "";
    if (kind === undefined) {
      plain += `${line}${end}`;
      continue;
    }
    const here = document.createElement("mark");
    here.className = kind;
    here.textContent = String(line);
    nodes.push(plain, here);
    plain = end;
  }
  return [...nodes, plain];
}

// Lines that follow one another, as [first, last].
function runsOfLines(lines) {
  const runs = [];
  for (const line of [...lines].sort((one, other) => one - other)) {
    const last = runs.at(-1);
    if (last?.[1] === line - 1) last[1] = line;
    else runs.push([line, line]);
  }
  return runs;
}

// The style of a text that is scrolled so far, with bands behind those of its lines that are seen; of two on one line the later is seen. A browser need not
// scroll them with the text, so they are placed anew where it is scrolled.
export function linesAsBands(marked, { height, top, scrolled, seen }) {
  const bands = marked.flatMap(([lines, colour]) => runsOfLines(lines).map(([first, last]) => ({ colour, at: top + (first - 1) * height - scrolled, side: (last - first + 1) * height })));
  const shown = bands.filter(({ at, side }) => at < seen && at + side > 0).reverse();
  return {
    backgroundImage: shown.map(({ colour }) => `linear-gradient(${colour}, ${colour})`).join(", "),
    backgroundPosition: shown.map(({ at }) => `0 ${at}px`).join(", "),
    backgroundSize: shown.map(({ side }) => `100% ${side}px`).join(", "),
    backgroundRepeat: "no-repeat",
  };
}

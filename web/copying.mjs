// @ts-check
// Buttons that copy a text.
import { there } from "./there.mjs";

const SHOWN = 1500; // milliseconds for which a button says that it did

// Copies a text by a selection of something else: a browser would take long to lay out a long text.
function copyBySelection(text) {
  const area = document.createElement("textarea");
  area.value = "-";
  area.readOnly = true;
  area.addEventListener("copy", (event) => {
    there(event.clipboardData).setData("text/plain", text);
    event.preventDefault();
  });
  document.body.append(area);
  area.select();
  const isCopied = document.execCommand("copy");
  area.remove();
  return isCopied;
}

async function copy(text) {
  try {
    await navigator.clipboard.writeText(text);
    return true;
  } catch {
    return copyBySelection(text);
  }
}

// Makes a button copy what `textNow` gives when it is clicked.
export function makeCopy(button, textNow) {
  const label = button.textContent;
  button.addEventListener("click", async () => {
    const text = textNow();
    button.textContent = text !== "" && (await copy(text)) ? "Copied" : "Not copied";
    setTimeout(() => { button.textContent = label; }, SHOWN);
  });
}

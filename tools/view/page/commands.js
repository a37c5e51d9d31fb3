// The commands of the panel's buttons, and of rectangles that are drawn.
import { change, forgetLost } from "./ask.js";
import { say } from "./panel.js";
import { forgetRuns } from "./runs.js";

const by = (id) => document.getElementById(id);

/** Says what was done, or why it wasn't. */
const tell = (doing) => doing.then((text) => say(text), ({ message }) => say(message, true));

async function given(command, of) {
  let told = await change(command, of);
  if (told.asks && confirm(told.asks)) told = await change(command, of, true);
  if (told.said && command === "revert") forgetRuns();
  return told.said ?? (command === "publish" ? "Nothing was published." : "Nothing was changed.");
}

/** Gives a command of a rectangle, or of a place. What the page's server asks before it does so,
 * the page asks once. */
export const give = (command, of) => tell(given(command, of));

/** Undoes the last rectangle that is shown as drawn from here, if there is one. */
export function undo() {
  if (!by("undo").disabled) give("undo", { place: Number(by("undo").dataset.place) });
}

/** Listens to the buttons. */
export function followButtons() {
  for (const button of document.querySelectorAll("[data-command]"))
    button.addEventListener("click", () => give(button.dataset.command));
  by("undo").addEventListener("click", undo);
  by("forget-lost").addEventListener("click", () => tell(forgetLost().then(({ said }) => said)));
}

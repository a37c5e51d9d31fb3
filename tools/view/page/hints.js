// What the page says of how it is used: a phone has neither keys nor anything to point with.
const phone = matchMedia("(hover: none) and (pointer: coarse)");
const WORDS = {
  point: ["Point at a cell.", "Tap a cell."],
  path: [
    "No points yet: press P, and click on the map.",
    "No points yet: choose Path, and tap the map.",
  ],
  points: [
    "Drag a point to move it; a click on it with Shift or Alt, or Delete, takes it away.",
    "Drag a point to move it; a long press takes it away.",
  ],
  map: ["", "The map. Drag to move it; two fingers zoom."],
};

/** Whether the page is used with fingers alone. */
export const isPhone = () => phone.matches;

/** A hint by its name. */
export const hint = (name) => WORDS[name][isPhone() ? 1 : 0];

/** Says the hints that stand on the page from the beginning. */
export function showHints() {
  document.getElementById("point").textContent = hint("point");
  if (isPhone()) document.getElementById("marks").setAttribute("aria-label", hint("map"));
}

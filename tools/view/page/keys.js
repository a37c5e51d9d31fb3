// The keys: they move the map, choose what the pointer does, and aim at a cell and press it.
import { isPhone } from "./hints.js";
import { say } from "./panel.js";
import { choose, modes } from "./press.js";

const STEP = 80; // pixels of an arrow
const LEAST = 4; // pixels that the aim goes at least, so that it is seen to move
const ARROWS = { ArrowLeft: [-1, 0], ArrowRight: [1, 0], ArrowUp: [0, -1], ArrowDown: [0, 1] };
const BEGUN = "Shift and an arrow go on with the rectangle; Enter draws it, and Escape drops it.";
const HINT = "Shift and an arrow aim at a cell; Enter adds it to a path, or begins a rectangle.";

/** What a key is called here. */
function named({ key, ctrlKey, metaKey, shiftKey }) {
  if ((ctrlKey || metaKey) && !shiftKey && key === "z") return "Undo";
  return shiftKey && key in ARROWS ? `Shift${key}` : key;
}

/** Whether a key belongs to the field that it was pressed in, or to the browser. */
function isTyped({ key, target, ctrlKey, metaKey, altKey }, name) {
  if ((ctrlKey || metaKey || altKey) && name !== "Undo") return true;
  if (target.matches("select, input:not([type=range])")) return true;
  return target.matches("[type=range]") && key in ARROWS;
}

/** The aim of the keys on a canvas. `tell` has what is called: `moved`, `pointed` with a cell and
 * with true, and `cell`, which answers the cell that is pointed at, or null. */
class Aim {
  constructor(canvas, sight, press, tell) {
    Object.assign(this, { canvas, sight, press, tell });
  }

  /** The cell that is pointed at, or the one in the middle if that isn't seen. */
  get cell() {
    const { sight } = this;
    const pointed = this.tell.cell();
    const [x, y] = pointed && sight.sees(pointed) ? [pointed.x, pointed.y] : sight.centre;
    return sight.nearest(x, y);
  }

  /** Aims at the next cell, or at a farther one where cells are small. */
  move(dx, dy) {
    const { sight, press, tell } = this;
    const { x, y } = this.cell;
    const cells = Math.max(1, Math.round(LEAST / sight.scale));
    const cell = sight.nearest(x + dx * cells, y + dy * cells);
    this.canvas.focus();
    if (!sight.sees(cell)) {
      sight.show([cell.x + 0.5, cell.y + 0.5], sight.scale);
      tell.moved();
    }
    tell.pointed(cell, true);
    if (press.draws) press.to(cell);
  }

  /** Adds the cell to a path, or begins or ends a rectangle there. */
  enter() {
    const { press, cell } = this;
    this.tell.pointed(cell, true);
    if (!press.isOn) press.begin(cell);
    else return press.release();
    if (!press.draws) return press.release();
    press.to(cell);
    return say(BEGUN);
  }
}

/** Says once what the keys do, when somebody goes to the canvas by them. */
function hint(canvas) {
  const focused = () => {
    if (!canvas.matches(":focus-visible") || isPhone()) return;
    canvas.removeEventListener("focus", focused);
    say(HINT);
  };
  canvas.addEventListener("focus", focused);
}

/** Listens to the keys and to the buttons of the same names. `others` has more keys. While a press
 * of the pointer is on, no key does anything but Escape, which drops it. */
export function followKeys(canvas, sight, press, tell, others) {
  const aim = new Aim(canvas, sight, press, tell);
  const keys = {
    "+": () => sight.zoom(1.5), "-": () => sight.zoom(1 / 1.5), 0: () => sight.fit(),
  };
  keys["="] = keys["+"];
  others.Escape = () => press.drop();
  for (const [name, [dx, dy]] of Object.entries(ARROWS)) {
    keys[name] = () => sight.move(-STEP * dx, -STEP * dy);
    others[`Shift${name}`] = () => aim.move(dx, dy);
  }
  for (const button of modes())
    others[button.dataset.key] = () => { press.drop(); choose(button.dataset.mode); };
  const give = (key) => {
    if (press.now?.byPointer && key !== "Escape") return;
    keys[key]?.();
    if (keys[key]) tell.moved();
    others[key]?.();
  };
  document.addEventListener("keydown", (event) => {
    const name = named(event);
    if (isTyped(event, name) || !(keys[name] || others[name])) return;
    event.preventDefault();
    give(name);
  });
  canvas.addEventListener("keydown", (event) => {
    if (!["Enter", " "].includes(event.key) || isTyped(event, event.key)) return;
    event.preventDefault();
    if (!event.repeat && !press.now?.byPointer) aim.enter();
  });
  hint(canvas);
  for (const button of document.querySelectorAll("[data-key]"))
    button.addEventListener("click", () => give(button.dataset.key));
}

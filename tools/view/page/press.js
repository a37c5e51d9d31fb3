// What the pointer does, and a press on the map from its beginning to its end.
const DRAWS = ["paint", "clear"];
const rectOf = (a, b) => [
  Math.min(a.x, b.x), Math.min(a.y, b.y), Math.max(a.x, b.x) + 1, Math.max(a.y, b.y) + 1,
];

export const modes = () => [...document.querySelectorAll("[data-mode]")];

/** What the pointer does now. */
export const mode = () => document.querySelector("[data-mode][aria-pressed=true]").dataset.mode;

/** Whether the pointer draws rectangles. */
export const isDrawing = () => DRAWS.includes(mode());

/** Lets the pointer do something else. */
export function choose(name) {
  const chosen = modes().find((it) => it.dataset.mode === name && !it.disabled);
  if (!chosen || chosen.offsetParent === null) return;
  for (const button of modes()) button.setAttribute("aria-pressed", String(button === chosen));
  document.body.dataset.modeNow = name;
}

/** A press of the pointer or of Enter: it does what the mode was when it began, until it is
 * released or dropped. `tell` has what is called: `clicked` with a cell, `dragged` and `drawn` with
 * a rectangle's command and sides; of a point of the path that the press began at, `moving` and
 * `moved` with its number and a cell, and `erased` with its number; of a robot `turns` with a cell
 * and a place, and `stands` with a cell and whether it was turned. */
export class Press {
  constructor(tell) {
    Object.assign(this, { tell, now: null });
  }

  /** Begins at a cell, or at null off the map; the press before is dropped. `more` tells what else
   * is known of this one. */
  begin(cell, more) {
    this.drop();
    this.now = { does: mode(), cell, last: cell, moved: false, ...more };
  }

  get isOn() {
    return this.now !== null;
  }

  get draws() {
    return DRAWS.includes(this.now?.does);
  }

  /** Whether it began at a point of the path. */
  get holdsPoint() {
    return this.now?.point >= 0;
  }

  /** Whether it turns a robot. */
  get turns() {
    return this.now?.does === "robot" && Boolean(this.now.cell);
  }

  get drawn() {
    const { does, cell, last } = this.now;
    return { command: does, rect: rectOf(cell, last) };
  }

  /** The rectangle ends at another cell. */
  to(cell) {
    this.now.last = cell;
    this.tell.dragged(this.drawn);
  }

  /** The point goes to another cell. */
  takePoint(cell) {
    Object.assign(this.now, { last: cell, moved: true });
    this.tell.moving(this.now.point, cell);
  }

  /** The robot turns towards a place. */
  turn(place) {
    this.now.moved = true;
    this.tell.turns(this.now.cell, place);
  }

  /** The point is taken away, and the press ends. */
  erasePoint() {
    const { point } = this.now;
    this.drop();
    this.tell.erased(point);
  }

  /** Does what the press is for. */
  release() {
    const { cell, does, moved, point, last, erases } = this.now ?? {};
    if (cell && this.draws) this.tell.drawn(this.drawn);
    else if (this.holdsPoint && erases && !moved) return this.erasePoint();
    else if (this.holdsPoint && moved) this.tell.moved(point, last);
    else if (cell && does === "robot") this.tell.stands(cell, moved);
    else if (cell && does === "path" && !moved) this.tell.clicked(cell);
    this.drop();
  }

  /** Ends the press without doing anything. */
  drop() {
    this.now = null;
    this.tell.dragged(null);
  }
}

// The pointer: it moves the map, adds points, and draws rectangles.
import { Fingers } from "./pinch.js";
import { mode } from "./press.js";

const MIDDLE = 1; // the button; the left one is 0
const STILL = 4; // pixels within which a press is a click
const LONG = 600; // milliseconds after which a finger on a point takes it away

/** Listens to the pointer on a canvas. `tell` has what is called: `moved`, and `pointed` with a
 * cell or null, and `point`, which answers the number of the path's point at a pixel. */
export function followPointer(canvas, sight, press, tell) {
  const cellAt = (event) => sight.cell(event.offsetX, event.offsetY);
  const fingers = new Fingers(sight, tell.moved);
  const isOurs = (event) => event.isPrimary && press.now?.byPointer;

  /** The middle button moves the map, whatever the pointer does otherwise. */
  function pressed(event) {
    if (fingers.come(event)) return pinched(event);
    if (!event.isPrimary || event.button > MIDDLE) return;
    canvas.setPointerCapture(event.pointerId);
    const { offsetX: x, offsetY: y, button } = event;
    const does = button === MIDDLE ? "look" : mode();
    const point = does === "path" ? pointOf(event) : -1;
    const erases = event.shiftKey || event.altKey;
    press.begin(cellAt(event), { byPointer: true, does, x, y, point, erases });
    if (event.pointerType === "touch") awaitLong(press.now);
    tell.pointed(cellAt(event));
  }

  const pointOf = ({ offsetX, offsetY, pointerType }) =>
    tell.point([offsetX, offsetY], pointerType);

  /** A finger that rests on a point takes it away. */
  function awaitLong(now) {
    const erase = () => { if (press.now === now && !now.moved) press.erasePoint(); };
    if (press.holdsPoint) setTimeout(erase, LONG);
  }

  /** A second finger: what the first one began is dropped. */
  function pinched({ pointerId }) {
    canvas.setPointerCapture(pointerId);
    press.drop();
    tell.pointed(null);
  }

  const isStill = ({ offsetX, offsetY }) =>
    !press.now.moved && Math.hypot(offsetX - press.now.x, offsetY - press.now.y) <= STILL;

  function pans(event) {
    if (isStill(event)) return;
    press.now.moved = true;
    sight.move(event.movementX, event.movementY);
    tell.moved();
  }

  function moved(event) {
    if (fingers.go(event) || !event.isPrimary) return;
    const cell = cellAt(event);
    if (isOurs(event) && event.buttons === 0) press.drop(); // its end wasn't heard of
    if (isOurs(event) && press.holdsPoint) {
      if (cell && !isStill(event)) press.takePoint(cell);
    } else if (isOurs(event) && press.turns) {
      if (!isStill(event)) press.turn(sight.place(event.offsetX, event.offsetY));
    } else if (isOurs(event) && !press.draws) pans(event);
    else if (isOurs(event) && press.now.cell && cell) press.to(cell);
    canvas.classList.toggle("on-point", mode() === "path" && pointOf(event) >= 0);
    tell.pointed(cell);
  }

  canvas.addEventListener("pointerdown", pressed);
  canvas.addEventListener("contextmenu", (event) => {
    if (event.pointerType === "touch") event.preventDefault();
  });
  canvas.addEventListener("pointermove", moved);
  document.addEventListener("pointerup", (event) => {
    fingers.leave(event);
    if (isOurs(event)) press.release();
  });
  canvas.addEventListener("pointercancel", (event) => {
    fingers.leave(event);
    if (isOurs(event)) press.drop();
  });
  canvas.addEventListener("mousedown", (event) => {
    if (event.button === MIDDLE) event.preventDefault(); // no scrolling by itself
  });
  canvas.addEventListener("pointerleave", ({ pointerType }) => {
    if (pointerType !== "touch") tell.pointed(null); // a finger leaves with each tap
  });
  canvas.addEventListener("wheel", (event) => {
    event.preventDefault();
    sight.zoom(2 ** (-event.deltaY / 300), event.offsetX, event.offsetY);
    tell.moved();
  }, { passive: false });
}

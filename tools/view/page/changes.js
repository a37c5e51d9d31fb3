// The cells that became obstacles or free with the newest version, over the map.
import { askChanged } from "./ask.js";

const COLOURS = { obstacles: "#ff9f1c", free: ["#ffffff", "#1f4e9c"], edge: "#12151c" };
const LEAST = 3; // pixels of a cell's sides, so that it is seen from afar
const EDGE = 1.5;
const STRIPES = 8; // pixels

const by = (id) => document.getElementById(id);
const cellsSaid = (count) => (count === 1 ? "1 cell" : `${count} cells`);

/** What is said of a new version. */
function said(version, { since, at, obstacles, free }) {
  const of = `${cellsSaid(obstacles)} became obstacles, and ${cellsSaid(free)} free`;
  return `Version ${version} came at ${at}: ${of} since version ${since}.`;
}

/** White with slanted stripes. */
function striped(context) {
  const tile = Object.assign(document.createElement("canvas"), { width: STRIPES, height: STRIPES });
  const image = tile.getContext("2d");
  [image.fillStyle, image.strokeStyle] = COLOURS.free;
  image.fillRect(0, 0, STRIPES, STRIPES);
  image.lineWidth = 2.5;
  for (const at of [-STRIPES, 0, STRIPES]) {
    image.moveTo(at, STRIPES + 0.01);
    image.lineTo(at + STRIPES, 0.01);
  }
  image.stroke();
  return context.createPattern(tile, "repeat");
}

/** The changes that are shown. `redraw` is called when there are others. */
export class Changes {
  constructor(redraw) {
    Object.assign(this, { redraw, serial: null, known: null });
  }

  get wanted() {
    return by("show-changes").checked;
  }

  /** Tells what the newest version changed, and asks which cells, if one wants to see them. */
  async take({ serial, version, changes }) {
    by("changed").hidden = !changes;
    if (!changes) return this.put(null, null);
    by("changes").textContent = said(version, changes);
    if (!this.wanted || this.serial === serial) return this.redraw();
    this.put(serial, null);
    const known = await askChanged(serial).catch(() => null);
    if (this.serial === serial) this.put(known && serial, known);
  }

  put(serial, known) {
    Object.assign(this, { serial, known });
    by("coarse").hidden = !(known?.side > 1);
    this.redraw();
  }

  /** Draws them over the picture of the same version. */
  draw(context, sight, picture) {
    if (!this.known || !this.wanted || picture.serial !== this.serial) return;
    const { side, obstacles, free } = this.known;
    const kinds = [[obstacles, COLOURS.obstacles], [free, striped(context)]];
    for (const [runs, fill] of kinds) {
      const boxes = boxesSeen(runs, side, sight);
      context.fillStyle = COLOURS.edge;
      for (const [x, y, wide, high] of boxes)
        context.fillRect(x - EDGE, y - EDGE, wide + 2 * EDGE, high + 2 * EDGE);
      context.fillStyle = fill;
      for (const box of boxes) context.fillRect(...box);
    }
  }
}

/** The runs that are seen, as boxes on the canvas. */
function boxesSeen(runs, side, sight) {
  const high = Math.max(side * sight.scale, LEAST);
  const boxes = [];
  for (const [row, start, end] of runs) {
    const [x, y] = sight.pixel(start * side, row * side);
    const wide = Math.max((end - start) * side * sight.scale, LEAST);
    const seen = x + wide >= 0 && y + high >= 0 && x <= sight.width && y <= sight.height;
    if (seen) boxes.push([x, y, wide, high]);
  }
  return boxes;
}

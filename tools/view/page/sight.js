// Which part of a map is seen, and round numbers for what measures it.

const MARGIN = { left: 56, top: 54, right: 16, bottom: 66 }; // pixels that rulers and tools take
const CLOSEST = 128; // pixels of a cell's side

/** `left` and `top` are the place in cells at the upper left of a canvas, `scale` the pixels of a
 * cell's side. */
export class Sight {
  constructor() {
    Object.assign(this, { left: 0, top: 0, scale: 1, width: 1, height: 1 });
    Object.assign(this, { mapWidth: 1, mapHeight: 1, fitted: true });
  }

  /** The pixels of a cell's side at which all of the map is seen. */
  whole() {
    const wide = Math.max(this.width - MARGIN.left - MARGIN.right, 40);
    const high = Math.max(this.height - MARGIN.top - MARGIN.bottom, 40);
    return Math.min(wide / this.mapWidth, high / this.mapHeight, CLOSEST);
  }

  fit() {
    const scale = this.whole();
    const middle = (start, end, size) => (start + size - end) / 2 / scale;
    this.left = this.mapWidth / 2 - middle(MARGIN.left, MARGIN.right, this.width);
    this.top = this.mapHeight / 2 - middle(MARGIN.top, MARGIN.bottom, this.height);
    Object.assign(this, { scale, fitted: true });
  }

  /** Goes nearer or farther; the place under this pixel stays there, if the map stays in sight. */
  zoom(factor, px = this.width / 2, py = this.height / 2) {
    const scale = Math.min(Math.max(this.scale * factor, this.whole() / 4), CLOSEST);
    this.left += px / this.scale - px / scale;
    this.top += py / this.scale - py / scale;
    this.scale = scale;
    this.move(0, 0);
  }

  /** Moves the map by pixels, but never off the window's middle. */
  move(dx, dy) {
    const [wide, high] = [this.width / this.scale / 2, this.height / this.scale / 2];
    const kept = (at, half, size) => Math.min(Math.max(at, -half), size - half);
    this.left = kept(this.left - dx / this.scale, wide, this.mapWidth);
    this.top = kept(this.top - dy / this.scale, high, this.mapHeight);
    this.fitted = false;
  }

  /** The place in cells at the centre. */
  get centre() {
    return [this.left + this.width / this.scale / 2, this.top + this.height / this.scale / 2];
  }

  /** Centres a place, with this many pixels per cell. */
  show([x, y], scale) {
    this.scale = Math.min(Math.max(scale, this.whole() / 4), CLOSEST);
    this.left = x - this.width / this.scale / 2;
    this.top = y - this.height / this.scale / 2;
    this.move(0, 0);
  }

  /** The pixel of a place in cells; the centre of a cell is half a cell further. */
  pixel(x, y) {
    return [(x - this.left) * this.scale, (y - this.top) * this.scale];
  }

  /** The cell of a place in cells, or the nearest one on the map. */
  nearest(x, y) {
    const within = (at, size) => Math.min(Math.max(Math.floor(at), 0), size - 1);
    return { x: within(x, this.mapWidth), y: within(y, this.mapHeight) };
  }

  /** Whether a cell's centre is in the window, and under none of its rulers. */
  sees({ x, y }) {
    const [px, py] = this.pixel(x + 0.5, y + 0.5);
    const { left, top, right, bottom } = MARGIN;
    return px >= left && py >= top && px <= this.width - right && py <= this.height - bottom;
  }

  /** The place in cells under a pixel. */
  place(px, py) {
    return [px / this.scale + this.left, py / this.scale + this.top];
  }

  /** The cell under a pixel; null outside the map. */
  cell(px, py) {
    const x = Math.floor(px / this.scale + this.left);
    const y = Math.floor(py / this.scale + this.top);
    return x >= 0 && y >= 0 && x < this.mapWidth && y < this.mapHeight ? { x, y } : null;
  }
}

/** The largest of 1, 2, 5, 10, 20 .. and of 0.5, 0.2, 0.1 .. that isn't above a number. */
export function roundBelow(number) {
  const power = 10 ** Math.floor(Math.log10(number));
  const digit = [5, 2, 1].find((it) => it * power <= number * (1 + 1e-9));
  return (digit ?? 1) * power;
}

/** A number as a step of this size wants it: 0.5 and 1.0, 10 and 20. */
export function inSteps(number, step) {
  return number.toFixed(Math.max(0, -Math.floor(Math.log10(step) + 1e-9)));
}

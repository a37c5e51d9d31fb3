// Makes the picture that is seen, row by row. Of the cells in a pixel the least number counts, so
// that no obstacle vanishes from afar.
import { NOTHING, UNKNOWN } from "./pieces.js";

const CONTOUR = [0, 0xff18100a | 0, -1]; // dark next to light, on every colour
const [WITHOUT, WITH] = [1, 2]; // room for the robot; 0 is off the map

/** For each pixel of a side, the first and the last number in it; the first is -1 off the map. */
function spans(count, start, step, first, last) {
  const spans = new Int32Array(2 * count);
  for (let k = 0; k < count; k += 1) {
    const at = start + k * step;
    const [low, high] = step < 1 ? [at + step / 2, at + step / 2] : [at, at + step - 1e-6];
    const off = high < first || low >= last;
    spans[2 * k] = off ? -1 : Math.max(Math.floor(low), first) - first;
    spans[2 * k + 1] = off ? -1 : Math.min(Math.floor(high), last - 1) - first;
  }
  return spans;
}

/** What is seen of a picture: numbers of one level, and which of them lie in each pixel. */
export function sampling(picture, sight, size, density, arrived) {
  const window = picture.window(sight, picture.level(sight.scale * density));
  const cells = 2 ** window.level;
  const step = 1 / (sight.scale * density * cells);
  return {
    wide: window.x1 - window.x0,
    numbers: picture.numbers(window, arrived),
    columns: spans(size.width, sight.left / cells, step, window.x0, window.x1),
    rows: spans(size.height, sight.top / cells, step, window.y0, window.y1),
  };
}

/** A row of pixels: its numbers, which side of the contour each is on, and its colours. */
export class Row {
  constructor(width) {
    this.values = new Int32Array(width);
    this.sides = new Uint8Array(width);
    this.colours = new Int32Array(width);
    this.hasUnknown = false;
  }

  /** Takes the least number in each pixel. */
  sample({ wide, numbers, columns }, first, last) {
    if (first < 0) return this.values.fill(NOTHING);
    const least = first === last ? numbers : leastOfRows(numbers, wide, first, last);
    const start = first === last ? first * wide : 0;
    const { values } = this;
    for (let x = 0, k = 0; x < values.length; x += 1, k += 2) {
      const end = start + columns[k + 1];
      let at = start + columns[k];
      let value = columns[k] < 0 ? NOTHING : least[at];
      while (at < end) {
        at += 1;
        if (least[at] < value) value = least[at];
      }
      values[x] = value;
    }
    return values;
  }

  /** Gives each pixel its colour, and the contour within the row. */
  colour(scale) {
    const { values, colours } = this;
    const { known } = scale;
    for (let x = 0; x < values.length; x += 1) {
      const value = values[x];
      colours[x] = value < known.length ? known[value] : scale.colour(value);
    }
    this.hasUnknown = values.includes(UNKNOWN);
    if (scale.contour) this.contour(scale.needed);
  }

  contour(needed) {
    const { values, sides, colours } = this;
    for (let x = 0; x < values.length; x += 1) // a number is the distance plus 1
      sides[x] = values[x] === NOTHING ? 0 : values[x] > needed ? WITH : WITHOUT;
    for (let x = 1; x < values.length; x += 1)
      if (sides[x] + sides[x - 1] === WITH + WITHOUT) {
        colours[x - 1] = CONTOUR[sides[x - 1]];
        colours[x] = CONTOUR[sides[x]];
      }
  }

  /** Puts the row on the picture as its row y. */
  put(pixels, y, scale) {
    const { values } = this;
    const start = y * values.length;
    pixels.set(this.colours, start);
    if (!this.hasUnknown) return;
    for (let x = 0; x < values.length; x += 1)
      if (values[x] === UNKNOWN) pixels[start + x] = scale.hatch[(x + y) % 8 < 3 ? 1 : 0];
  }
}

/** The least of some rows, column by column. */
function leastOfRows(numbers, width, first, last) {
  const out = numbers.slice(first * width, (first + 1) * width);
  for (let row = first + 1; row <= last; row += 1)
    for (let column = 0, at = row * width; column < width; column += 1, at += 1)
      if (numbers[at] < out[column]) out[column] = numbers[at];
  return out;
}

/** Draws the contour between a row and the one above it. */
function contourBetween(above, below, pixels, y) {
  const width = above.sides.length;
  for (let x = 0, at = y * width; x < width; x += 1, at += 1)
    if (above.sides[x] + below.sides[x] === WITH + WITHOUT) {
      pixels[at - width] = CONTOUR[above.sides[x]];
      pixels[at] = CONTOUR[below.sides[x]];
    }
}

/** The pixels of what is seen. Rows of the same cells are worked out once. */
export function pixelsOf(seen, { width, height }, scale) {
  const pixels = new Int32Array(width * height);
  let [above, row] = [new Row(width), new Row(width)];
  for (let y = 0; y < height; y += 1) {
    const [first, last] = [seen.rows[2 * y], seen.rows[2 * y + 1]];
    const same = y > 0 && first === seen.rows[2 * y - 2] && last === seen.rows[2 * y - 1];
    if (!same) {
      [above, row] = [row, above];
      row.sample(seen, first, last);
      row.colour(scale);
    }
    row.put(pixels, y, scale);
    if (!same && y > 0 && scale.contour) contourBetween(above, row, pixels, y);
  }
  return pixels;
}

/** Draws what is seen of a picture on a canvas. */
export function drawPicture(canvas, picture, sight, scale, arrived) {
  const { width, height } = canvas;
  const seen = sampling(picture, sight, canvas, width / sight.width, arrived);
  const data = new Uint8ClampedArray(pixelsOf(seen, canvas, scale).buffer);
  canvas.getContext("2d").putImageData(new ImageData(data, width, height), 0, 0);
}

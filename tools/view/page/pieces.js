// The numbers of one version by one metric, which come in pieces, each of one level of detail.

export const OBSTACLE = 0;
export const UNKNOWN = 1;
export const NO_OBSTACLE = 0x7fffffff;
export const NOTHING = 0x7ffffffe; // off the map, or not here yet
const KEPT = 160; // pieces at most, of a megabyte

/** What the page knows of one picture: a number of it is 0, 1, or the distance plus 1. */
export class Picture {
  constructor(about) {
    Object.assign(this, about);
    this.pieces = new Map();
  }

  /** Columns and rows of a level. */
  size(level) {
    return [Math.ceil(this.width / 2 ** level), Math.ceil(this.height / 2 ** level)];
  }

  /** The level whose numbers are at most as large as the screen's pixels, this many per cell. */
  level(scale) {
    return Math.min(Math.max(Math.floor(Math.log2(1 / scale)), 0), this.levels - 1);
  }

  /** A piece, which is asked for when it is first wanted; `arrived` is called then. */
  piece(level, column, row, arrived) {
    const key = `${level}/${column}/${row}`;
    let piece = this.pieces.get(key);
    if (piece) this.pieces.delete(key); // so that it stands at the end again
    else piece = this.ask(key, level, column, arrived);
    this.pieces.set(key, piece);
    this.drop();
    return piece;
  }

  ask(key, level, column, arrived) {
    const across = Math.min(this.side, this.size(level)[0] - column * this.side);
    const piece = { across, numbers: null };
    piece.done = fetch(`piece/${this.serial}/${this.metric}/${key}`)
      .then((answer) => (answer.ok ? answer.arrayBuffer() : Promise.reject(new Error("no piece"))))
      .then((data) => { piece.numbers = new Int32Array(data); arrived?.(); })
      .catch(() => this.pieces.delete(key));
    return piece;
  }

  /** Drops the pieces that weren't looked at for longest, but never the coarsest level. */
  drop() {
    for (const key of this.pieces.keys()) {
      if (this.pieces.size <= KEPT) return;
      if (!key.startsWith(`${this.levels - 1}/`)) this.pieces.delete(key);
    }
  }

  /** The columns and rows of a level that are seen: from the first up to without the last. */
  window(sight, level) {
    const size = this.size(level);
    const within = (at, most) => Math.min(Math.max(at, 0), most);
    const side = (start, length, most) => [
      within(Math.floor(start / 2 ** level), most),
      within(Math.ceil((start + length / sight.scale) / 2 ** level) + 1, most),
    ];
    const [x0, x1] = side(sight.left, sight.width, size[0]);
    const [y0, y1] = side(sight.top, sight.height, size[1]);
    return { level, x0, x1, y0, y1 };
  }

  /** The pieces that have numbers of a window, each with its place in pieces. */
  *inside({ x0, x1, y0, y1 }) {
    if (x0 >= x1 || y0 >= y1) return;
    const last = (end) => Math.floor((end - 1) / this.side);
    for (let row = Math.floor(y0 / this.side); row <= last(y1); row += 1)
      for (let column = Math.floor(x0 / this.side); column <= last(x1); column += 1)
        yield { column, row };
  }

  /** Waits for what is seen now, so that it can be shown at once. */
  async load(sight, density) {
    const window = this.window(sight, this.level(sight.scale * density));
    const wanted = [...this.inside(window)];
    await Promise.all(wanted.map((it) => this.piece(window.level, it.column, it.row).done));
  }

  /** The numbers of a window, by rows; those that aren't there yet are of the coarsest level. */
  numbers(window, arrived) {
    const width = window.x1 - window.x0;
    const out = new Int32Array(width * (window.y1 - window.y0));
    for (const { column, row } of this.inside(window)) {
      const piece = this.piece(window.level, column, row, arrived);
      const place = { x: column * this.side, y: row * this.side };
      if (piece.numbers) copy(piece, place, window, out, this.side);
      else this.coarse(place, window, out, arrived);
    }
    return out;
  }

  /** Fills what a piece would fill with numbers of the coarsest level. */
  coarse({ x, y }, window, out, arrived) {
    const level = this.levels - 1;
    const piece = this.piece(level, 0, 0, arrived);
    const shift = level - window.level;
    const [right, below] = [Math.min(x + this.side, window.x1), Math.min(y + this.side, window.y1)];
    for (let row = Math.max(y, window.y0); row < below; row += 1)
      for (let column = Math.max(x, window.x0); column < right; column += 1) {
        const at = (row - window.y0) * (window.x1 - window.x0) + column - window.x0;
        const from = (row >> shift) * piece.across + (column >> shift);
        out[at] = piece.numbers ? piece.numbers[from] : NOTHING;
      }
  }
}

/** Copies the part of a piece that lies in a window. */
function copy(piece, { x, y }, { x0, x1, y0, y1 }, out, side) {
  const [left, right] = [Math.max(x, x0), Math.min(x + piece.across, x1)];
  for (let row = Math.max(y, y0); row < Math.min(y + side, y1); row += 1) {
    const from = (row - y) * piece.across - x;
    out.set(piece.numbers.subarray(from + left, from + right), (row - y0) * (x1 - x0) + left - x0);
  }
}

// Lines over the map: through cells' middles, on every colour.

const CLOSE = 2; // pixels: points of a line that are closer than this aren't seen apart
const AROUND = 8; // pixels around the window, in which half of a line's width may be seen

/** The parts of a line through cells' middles that are seen, each as places on the canvas. Of a
 * long path most cells are off the window, or less than a pixel from the next. */
export function partsSeen(cells, sight) {
  const isOff = (a, b, size) => Math.max(a, b) < -AROUND || Math.min(a, b) > size + AROUND;
  const parts = [];
  let [part, before] = [null, null];
  cells.forEach(([column, row], k) => {
    const place = sight.pixel(column + 0.5, row + 0.5);
    const [x, y] = before ?? place;
    if (isOff(x, place[0], sight.width) || isOff(y, place[1], sight.height)) part = null;
    else if (!part) parts.push((part = before ? [before, place] : [place]));
    else if (k === cells.length - 1 || far(part.at(-1), place)) part.push(place);
    before = place;
  });
  return parts;
}

const far = ([ax, ay], [bx, by]) => Math.abs(ax - bx) >= CLOSE || Math.abs(ay - by) >= CLOSE;

function line(context, parts, colour, width) {
  context.beginPath();
  for (const part of parts) {
    part.forEach(([x, y], k) => (k ? context.lineTo(x, y) : context.moveTo(x, y)));
    if (part.length === 1) context.lineTo(part[0][0] + 0.01, part[0][1]); // a dot, by its ends
  }
  Object.assign(context, { strokeStyle: colour, lineWidth: width, lineJoin: "round" });
  context.lineCap = "round";
  context.stroke();
}

/** Lines that are seen on every colour, each by its places. */
export function edged(context, parts, colour, edge, width) {
  line(context, parts, edge, width + 2.5);
  line(context, parts, colour, width);
}

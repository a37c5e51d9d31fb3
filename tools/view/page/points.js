// The points of a path: which one a place is at, and the path without it or with it elsewhere.

const NEAR = { mouse: 9, pen: 12, touch: 22 }; // pixels from a point's middle

/** The number of the point that is nearest to a pixel, or in the same cell; -1 if none is near. */
export function pointAt(points, sight, [px, py], kind = "mouse") {
  const cell = sight.cell(px, py);
  let [found, least] = [-1, NEAR[kind] ?? NEAR.mouse];
  points.forEach(({ x, y }, number) => {
    const [ax, ay] = sight.pixel(x + 0.5, y + 0.5);
    const far = cell?.x === x && cell.y === y ? 0 : Math.hypot(ax - px, ay - py);
    if (far <= least) [found, least] = [number, far];
  });
  return found;
}

/** The points with another cell for one of them. */
export const withMoved = (points, number, cell) =>
  points.map((point, k) => (k === number ? cell : point));

/** The points without one of them. */
export const without = (points, number) => points.filter((_, k) => k !== number);

/** The path as it is drawn while a point is dragged: its answers aren't of it. */
export function asDragged(path, moving) {
  if (!moving) return path;
  const points = withMoved(path.points, moving.point, moving.cell);
  return { points, corners: points.map(({ x, y }) => [x, y]) };
}

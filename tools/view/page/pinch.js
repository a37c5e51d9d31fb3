// Two fingers on the map: they take it along, and it is as near as they are apart.

/** Where the middle of two fingers is, and how far they are apart. */
function held([[ax, ay], [bx, by]]) {
  return { x: (ax + bx) / 2, y: (ay + by) / 2, apart: Math.max(Math.hypot(ax - bx, ay - by), 1) };
}

/** The fingers on a canvas. `moved` is called when they have moved the map. */
export class Fingers {
  constructor(sight, moved) {
    Object.assign(this, { sight, moved, places: new Map() });
  }

  /** Whether there are two. */
  get arePair() {
    return this.places.size === 2;
  }

  /** A finger comes; whether it is the second. */
  come({ pointerType, pointerId, offsetX, offsetY }) {
    if (pointerType !== "touch" || this.arePair) return false;
    this.places.set(pointerId, [offsetX, offsetY]);
    return this.arePair;
  }

  /** A finger goes on; whether it is one of two, so that it does nothing else. */
  go({ pointerId, offsetX, offsetY }) {
    if (!this.places.has(pointerId)) return false;
    const before = [...this.places.values()];
    this.places.set(pointerId, [offsetX, offsetY]);
    if (!this.arePair) return false;
    const [from, to] = [held(before), held([...this.places.values()])];
    this.sight.move(to.x - from.x, to.y - from.y);
    this.sight.zoom(to.apart / from.apart, to.x, to.y);
    this.moved();
    return true;
  }

  /** A finger is lifted. */
  leave({ pointerId }) {
    this.places.delete(pointerId);
  }
}

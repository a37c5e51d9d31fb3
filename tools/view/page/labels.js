// The labels on the map: where they stand, and what they say. In a narrow window they are short, so
// that they don't cover what they are of.
import { BELOW, LEFT } from "./rulers.js";

const LIGHT = "#ffffff";
export const INK = "rgba(18, 21, 28, 0.9)"; // of labels
const WIDE = { font: "600 13px system-ui, sans-serif", high: 22, around: 14, base: 15.5 };
const SMALL = { font: "600 11px system-ui, sans-serif", high: 18, around: 10, base: 13 };
const WITHIN = { left: LEFT + 6, top: 56, right: 6, below: BELOW + 6 }; // where labels stand
const NARROW = { width: 700, below: BELOW + 54 }; // a window that has tools below, too

const isNarrow = (sight) => sight.width < NARROW.width;
const styleOf = (sight) => (isNarrow(sight) ? SMALL : WIDE);
const off = (sight, [x, y]) => x < 0 || y < 0 || x > sight.width || y > sight.height;

/** A length as a label has it, of a version if one is told. */
export function lengthSaid(sight, length, version) {
  if (!length) return "";
  const narrow = isNarrow(sight);
  const short = () => length.split(", ").at(-1).replace(/ of [\d.]+|^in an /, "");
  const words = narrow ? short() : length;
  if (version === undefined) return words;
  return words + (narrow ? ` (v${version})` : ` in version ${version}`);
}

/** Where a box of text stands next to a place: inside the window, and on none of its rulers. */
export function boxAt([x, y], width, sight) {
  const within = (at, least, most) => Math.max(Math.min(at, most), least);
  const below = isNarrow(sight) ? NARROW.below : WITHIN.below;
  const { high } = styleOf(sight);
  return {
    x: within(x + 12, WITHIN.left, sight.width - width - WITHIN.right),
    y: within(y - high - 8, WITHIN.top, sight.height - high - below),
  };
}

/** A box of this width, moved off one that stands already. */
function besides(box, width, high, other) {
  const apart = !other || box.x + width < other.x || other.x + other.width < box.x;
  if (apart || Math.abs(box.y - other.y) > high) return box;
  return { x: box.x, y: other.y + (other.y > 2 * WITHIN.top ? -1 : 1) * (high + 3) };
}

/** Writes a label next to a place, and off another one; its box is returned. */
export function label(context, sight, place, text, { colour = INK, other } = {}) {
  if (!text || off(sight, place)) return null;
  const { font, high, around, base } = styleOf(sight);
  context.font = font;
  const width = context.measureText(text).width + around;
  const box = besides(boxAt(place, width, sight), width, high, other);
  context.fillStyle = colour;
  context.beginPath();
  context.roundRect(box.x, box.y, width, high, 4);
  context.fill();
  context.fillStyle = LIGHT;
  context.fillText(text, box.x + around / 2, box.y + base);
  return { ...box, width, text };
}

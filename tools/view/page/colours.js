// The colours of the map: one scale from dark to light, and what stands for everything else.

import { NOTHING } from "./pieces.js";

// Even steps of lightness, from near to far; colour-blind people see them in this order too.
const ANCHORS = [
  [40, 51, 128], [37, 78, 150], [32, 105, 170], [5, 136, 176], [49, 164, 175],
  [78, 191, 175], [125, 215, 168], [193, 231, 164], [250, 246, 179],
];
const STEPS = 256;
const LISTED = 2 ** 16; // numbers whose colours are worked out before they are wanted
const FADED = 0.55; // how far the scale fades where many cells lie in a pixel

const THEMES = {
  light: { obstacle: [16, 18, 24], unknown: [124, 128, 138], pale: [228, 230, 234] },
  dark: { obstacle: [0, 0, 0], unknown: [98, 102, 112], pale: [70, 76, 88] },
};
export const dark = matchMedia("(prefers-color-scheme: dark)");
export const theme = () => THEMES[dark.matches ? "dark" : "light"];
export const NO_ROOM = "#d7191c"; // red, and nothing else is

const mix = (a, b, share) => a.map((value, k) => Math.round(value + (b[k] - value) * share));
export const css = (colour) => `rgb(${colour.join(", ")})`;

/** The colour at a part of the scale, 0 to 1. */
export function colourAt(part) {
  const place = Math.min(Math.max(part, 0), 1) * (ANCHORS.length - 1);
  const below = Math.min(Math.floor(place), ANCHORS.length - 2);
  return mix(ANCHORS[below], ANCHORS[below + 1], place - below);
}

/** How far the scale is faded for this many pixels per cell: not at all if a cell has one. */
export const fading = (pixels) => Math.min(Math.max(Math.log2(1 / pixels) / 2, 0), 1) * FADED;

/** The scale's colours, from near to its end. */
export function scaleColours(faded) {
  const { pale } = theme();
  const steps = Array.from({ length: STEPS }, (_, k) => colourAt((k + 0.5) / STEPS));
  return steps.map((colour) => mix(colour, pale, faded));
}

/** A colour as a pixel of an image's data, opaque, in a signed number of 32 bits. */
export const packed = ([red, green, blue]) => (255 << 24) | (blue << 16) | (green << 8) | red;

/** How numbers of a picture become colours: of distances up to `end`, in cells or steps. */
export class Scale {
  constructor({ end, square, needed, contour, faded }) {
    const { obstacle, unknown } = theme();
    Object.assign(this, { end, square, needed, contour, faded });
    this.hatch = [packed(unknown), packed(mix(unknown, obstacle, 0.8))];
    this.steps = Int32Array.from(scaleColours(faded), packed);
    this.beyond = this.steps.at(-1); // so that the widest places don't look like pits
    this.known = new Int32Array(Math.min((square ? end * end : end) + 2, LISTED));
    this.known.set([packed(obstacle), this.hatch[0]]);
    for (let number = 2; number < this.known.length; number += 1)
      this.known[number] = this.between(number);
  }

  /** The colour of a number that tells a distance, which it is one above. */
  between(number) {
    const distance = this.square ? Math.sqrt(number - 1) : number - 1;
    if (distance >= this.end) return this.beyond;
    return this.steps[Math.floor((distance * STEPS) / this.end)];
  }

  /** The colour of a number. */
  colour(number) {
    if (number < this.known.length) return this.known[number];
    if (number >= NOTHING) return number === NOTHING ? 0 : this.beyond;
    return this.between(number);
  }
}

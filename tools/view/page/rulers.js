// What measures the map: the axes at the window's border, the scale bar, and a wall around the
// map.
import { dark } from "./colours.js";
import { inSteps, roundBelow } from "./sight.js";

export const LEFT = 44; // pixels of the axis at the left
export const BELOW = 24;
const APART = 80; // pixels from one tick to the next at least
const FONT = "11px system-ui, sans-serif";
const INKS = {
  light: { paper: "rgba(255, 255, 255, 0.86)", ink: "#1d2330" },
  dark: { paper: "rgba(24, 27, 34, 0.86)", ink: "#dfe3ea" },
};

/** How places of the map are told: in metres of the yaml's frame, or in cells. */
export class Frame {
  constructor({ resolution, origin, height }) {
    this.metres = Boolean(resolution);
    this.cell = resolution || 1; // units of a cell's side
    [this.left, this.below] = origin ?? [0, 0];
    this.height = height;
  }

  /** A place in cells, from the upper left, as it is told; ROS counts y upwards. */
  told(x, y) {
    if (!this.metres) return [x, y];
    return [this.left + x * this.cell, this.below + (this.height - y) * this.cell];
  }

  /** The place in cells of what is told. */
  place(x, y) {
    if (!this.metres) return [x, y];
    return [(x - this.left) / this.cell, this.height - (y - this.below) / this.cell];
  }
}

/** The ticks between two told numbers. */
export function ticks(from, to, step) {
  const [low, high] = [Math.min(from, to), Math.max(from, to)];
  const first = Math.ceil(low / step - 1e-9);
  const count = Math.floor(high / step + 1e-9) - first + 1;
  return Array.from({ length: Math.max(count, 0) }, (_, k) => (first + k) * step);
}

/** The step between ticks, in metres or in whole cells. */
function stepOf(sight, frame) {
  const step = roundBelow((2 * APART * frame.cell) / sight.scale);
  return frame.metres ? step : Math.max(step, 1);
}

function strip(context, x, y, width, height) {
  const { paper, ink } = INKS[dark.matches ? "dark" : "light"];
  context.fillStyle = paper;
  context.fillRect(x, y, width, height);
  context.fillStyle = ink;
}

function drawAxes(context, sight, frame) {
  const step = stepOf(sight, frame);
  const end = sight.height - BELOW;
  const corner = frame.told(sight.left + LEFT / sight.scale, sight.top);
  const other = frame.told(sight.left + sight.width / sight.scale, sight.top + end / sight.scale);
  strip(context, 0, 0, LEFT, sight.height);
  strip(context, LEFT, end, sight.width - LEFT, BELOW);
  Object.assign(context, { font: FONT, textAlign: "center" });
  for (const number of ticks(corner[0], other[0], step)) {
    const [x] = sight.pixel(frame.place(number, 0)[0], 0);
    context.fillRect(Math.round(x), end, 1, 5);
    if (x > LEFT + 12 && x < sight.width - 34) context.fillText(inSteps(number, step), x, end + 17);
  }
  context.textAlign = "right";
  for (const number of ticks(corner[1], other[1], step)) {
    const [, y] = sight.pixel(0, frame.place(0, number)[1]);
    context.fillRect(LEFT - 5, Math.round(y), 5, 1);
    if (y > 8 && y < end - 8) context.fillText(inSteps(number, step), LEFT - 8, y + 4);
  }
  context.textAlign = "left";
  context.fillText(frame.metres ? "m" : "cells", 8, sight.height - 8);
}

/** The bar that says how long a part of the window is. */
function drawBar(context, sight, frame) {
  const length = stepOf(sight, frame);
  const pixels = (length / frame.cell) * sight.scale;
  const text = frame.metres ? `${inSteps(length, length)} m` : `${length} cells`;
  const [x, y] = [sight.width - pixels - 26, sight.height - BELOW - 34];
  strip(context, x - 8, y - 6, pixels + 16, 32);
  context.fillRect(x, y + 14, pixels, 3);
  context.fillRect(x, y + 8, 1.5, 12);
  context.fillRect(x + pixels - 1.5, y + 8, 1.5, 12);
  Object.assign(context, { font: `600 ${FONT}`, textAlign: "center" });
  context.fillText(text, x + pixels / 2, y + 8);
  context.textAlign = "left";
}

/** The frame of a map whose border is a wall. */
function drawWall(context, sight) {
  const [x, y] = sight.pixel(0, 0);
  Object.assign(context, { strokeStyle: dark.matches ? "#000" : "#101218", lineWidth: 4 });
  const [width, height] = [sight.mapWidth * sight.scale, sight.mapHeight * sight.scale];
  context.strokeRect(x - 2, y - 2, width + 4, height + 4);
}

/** Draws what measures the map. */
export function drawRulers(context, sight, frame, edge) {
  if (edge === "wall") drawWall(context, sight);
  drawAxes(context, sight, frame);
  drawBar(context, sight, frame);
}

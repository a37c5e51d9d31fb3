// What the colours mean, in the panel, and where the scale ends.
import { css, scaleColours, theme } from "./colours.js";
import { askRoom } from "./ask.js";

const by = (id) => document.getElementById(id);
const WHOLE = 21; // the slider's last position; those before it are half radii
const WITHOUT = { metres: 0.25, cells: 5 }; // the radius of the scale where no robot's is given

/** The radius that a page starts with, where the command line names none. */
export const firstRadius = (resolution) => String(resolution ? WITHOUT.metres : WITHOUT.cells);

/** A distance in words: in metres where they are known. */
export function told(distance, metric, resolution) {
  if (resolution) return `${(distance * resolution).toFixed(2)} m`;
  return `${Number(distance.toFixed(1))} ${metric === "euclid2" ? "cells" : "steps"}`;
}

/** What a robot's radius asks of the scale: `needed` is a cell's distance with room, as CLEAROF
 * takes it, `said` the same in words, and `radius` the robot's in cells. */
export async function roomOf(metric, radius, unit) {
  if (radius === "") return { needed: null, radius: null, said: "" };
  const { needed, cells, said } = await askRoom(metric, radius, unit);
  return { needed, radius: cells, said };
}

/** The farthest distance of a picture in cells or steps. */
export const farthest = ({ most, metric }) =>
  metric === "euclid2" ? Math.sqrt(most ?? 0) : most ?? 0;

/** Where the scale ends, in cells or steps. */
export function endOf(picture, room, position) {
  const whole = Math.max(farthest(picture), 1);
  return position >= WHOLE || !room.radius ? whole : (room.radius * position) / 2;
}

/** Why the scale can't end at some radii; an empty text if it can. */
function whyWithout({ fault, radius }) {
  if (fault) return ": the radius can't be read";
  if (radius === null) return ": no radius is given";
  return radius === 0 ? ": the radius is 0" : "";
}

/** How the slider's position is told. */
function endSaid(picture, room, position, resolution) {
  const end = told(endOf(picture, room, position), picture.metric, resolution);
  const why = whyWithout(room);
  if (why || position >= WHOLE) return `at the farthest cell (${end})${why}`;
  return `at ${position === 2 ? "1 radius" : `${position / 2} radii`} (${end})`;
}

function drawScale(picture, scale) {
  const canvas = by("scale");
  const context = canvas.getContext("2d");
  const colours = scaleColours(scale.faded);
  colours.forEach((colour, k) => {
    context.fillStyle = css(colour);
    context.fillRect((k * canvas.width) / colours.length, 0, 3, canvas.height);
  });
  const needed = scale.square ? Math.sqrt(scale.needed ?? 0) : scale.needed ?? 0;
  by("needed").hidden = !scale.needed || needed > scale.end;
  by("needed").style.left = `${(100 * needed) / scale.end}%`;
}

function spanOf(text) {
  const span = document.createElement("span");
  span.textContent = text;
  return span;
}

/** Says at the radius why it can't be read, as long as it can't. */
function tellRadius({ fault }) {
  by("unread").textContent = fault;
  by("unread").hidden = !fault;
  by("radius").setAttribute("aria-invalid", String(Boolean(fault)));
}

/** Shows what the colours mean. */
export function drawLegend(picture, room, scale, position, resolution) {
  by("legend").hidden = by("swatches").hidden = false;
  tellRadius(room);
  drawScale(picture, scale);
  const parts = [0, 0.5, 1].map((part) => told(part * scale.end, picture.metric, resolution));
  by("ticks").replaceChildren(...parts.map(spanOf));
  by("end").textContent = `The scale ends ${endSaid(picture, room, position, resolution)}.`;
  by("black").style.background = css(theme().obstacle);
  by("far").style.background = css(scaleColours(scale.faded).at(-1));
  by("farther").hidden = farthest(picture) < scale.end && picture.most !== null;
  by("hatched").hidden = !picture.hasUnknown;
  by("contour").hidden = !scale.contour;
  by("marker").hidden = !room.said;
  by("far-enough").textContent = by("needed").title = room.said;
}

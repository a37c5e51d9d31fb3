// What is drawn over the picture: rectangles of the draft, the path, and what is pointed at.
import { NO_ROOM } from "./colours.js";
import { label, lengthSaid } from "./labels.js";
import { edged, partsSeen } from "./lines.js";
import { asDragged } from "./points.js";

const DARK = "#12151c";
const LIGHT = "#ffffff";
const DRAWN = { paint: "#7b1fa2", clear: "#006a5f" };
const DASHES = [7, 5];
const AIM = 6; // pixels from the middle of an aim to its frame, at least

function dot(context, [x, y], radius, colour, edge) {
  context.beginPath();
  context.arc(x, y, radius, 0, 2 * Math.PI);
  Object.assign(context, { fillStyle: colour, strokeStyle: edge, lineWidth: 2 });
  context.fill();
  context.stroke();
}

/** A rectangle that was drawn; a lost one is dashed, and nothing fills it. */
function rectangle(context, sight, { rect: [x0, y0, x1, y1], command }, isLost = false) {
  const [x, y] = sight.pixel(x0, y0);
  const size = [(x1 - x0) * sight.scale, (y1 - y0) * sight.scale];
  context.fillStyle = `${DRAWN[command]}66`;
  if (!isLost) context.fillRect(x, y, ...size);
  Object.assign(context, { strokeStyle: LIGHT, lineWidth: 4 });
  context.strokeRect(x, y, ...size);
  Object.assign(context, { strokeStyle: DRAWN[command], lineWidth: 2 });
  if (isLost) context.setLineDash(DASHES);
  context.strokeRect(x, y, ...size);
  context.setLineDash([]);
}

/** A path: red just where the robot may not fit. The box of its label is returned. */
function drawPath(context, sight, middle, path, version) {
  edged(context, partsSeen(path.corners ?? [], sight), LIGHT, DARK, 2.5);
  const without = path.tight ?? (path.clear === false ? [path.corners] : []);
  const parts = without.flatMap((cells) => partsSeen(cells, sight));
  edged(context, parts, NO_ROOM, LIGHT, 5);
  for (const cell of path.points) dot(context, middle([cell.x, cell.y]), 4.5, LIGHT, DARK);
  if (!path.tightest) return null;
  const [cell, obstacle] = [middle(path.tightest), middle(path.obstacle)];
  edged(context, [[cell, obstacle]], DARK, LIGHT, 2);
  const colour = path.clear === false ? NO_ROOM : DARK;
  dot(context, cell, 5.5, colour, LIGHT);
  const inRed = path.clear === false ? { colour: NO_ROOM } : {};
  return label(context, sight, cell, lengthSaid(sight, path.length, version), inRed);
}

/** A frame around the cell that is aimed at by keys. */
function drawAim(context, [x, y], half) {
  const [left, top, right, below] = [x - half, y - half, x + half, y + half];
  const corners = [[left, top], [right, top], [right, below], [left, below], [left, top]];
  edged(context, [corners], LIGHT, DARK, 2);
}

function drawPointed(context, sight, middle, { cell, obstacle, length }, version, other) {
  if (!obstacle) return null;
  const ends = [middle([cell.x, cell.y]), middle(obstacle)];
  edged(context, [ends], DARK, LIGHT, 2);
  dot(context, ends[1], 4.5, "#ffc233", DARK);
  return label(context, sight, ends[0], lengthSaid(sight, length, version), { other });
}

/** Draws what lies over the picture. Where there is a draft, labels say what they are of. The box
 * of the last label is returned. */
export function drawMarks(context, sight, page) {
  const { drafts, lost, dragged, pointed } = page;
  const path = asDragged(page.path, page.moving);
  const middle = ([x, y]) => sight.pixel(x + 0.5, y + 0.5);
  const of = ({ version }) => (drafts.length ? version : undefined);
  for (const drawn of lost) rectangle(context, sight, drawn, true);
  for (const drawn of dragged ? [...drafts, dragged] : drafts) rectangle(context, sight, drawn);
  const other = drawPath(context, sight, middle, path, of(path));
  if (pointed?.byKeys)
    drawAim(context, middle([pointed.cell.x, pointed.cell.y]), Math.max(sight.scale / 2, AIM));
  if (!pointed) return other;
  return drawPointed(context, sight, middle, pointed, of(pointed), other) ?? other;
}

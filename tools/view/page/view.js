// The page: it follows the versions of a server, and does what pointer, keys and buttons say.
import { askPicture, follow } from "./ask.js";
import { Changes } from "./changes.js";
import { dark, fading, Scale } from "./colours.js";
import { followButtons, give, undo } from "./commands.js";
import { showHints } from "./hints.js";
import { followKeys } from "./keys.js";
import { drawLegend, endOf, firstRadius, roomOf } from "./legend.js";
import { followLink, read, written } from "./link.js";
import { drawMarks } from "./marks.js";
import { say, tellLost, tellState, unitOf, wait } from "./panel.js";
import { Picture } from "./pieces.js";
import { followPlace, showUnit } from "./places.js";
import { followPointer } from "./pointer.js";
import { pointAt, withMoved, without } from "./points.js";
import { choose, isDrawing, mode, Press } from "./press.js";
import { Questions } from "./questions.js";
import { drawPicture } from "./raster.js";
import { drawRulers, Frame } from "./rulers.js";
import { Robot } from "./robot.js";
import { isAnotherRun, newsOfRun } from "./runs.js";
import { followSave } from "./save.js";
import { Sight } from "./sight.js";

const by = (id) => document.getElementById(id);
const FINEST = 3; // pixels of a robot's radius at which the contour is drawn
const sight = new Sight();
const page = {
  state: {}, unit: "", picture: null, room: { needed: null, radius: null }, frame: null,
  linked: false, pointed: null, path: { points: [] }, drafts: [], lost: [],
  dragged: null, moving: null,
  get metric() { return by("metric").value; },
  get radius() { return by("radius").value.trim(); },
  get position() { return Number(by("position").value); },
};
const questions = new Questions(page, () => redraw("marks"));
const changes = new Changes(() => redraw("marks"));
const robot = new Robot(page, () => redraw("marks"));

// ---- drawing

const due = new Set();
/** Draws all again, or the marks alone, at the next frame. */
function redraw(what = "all") {
  if (due.size === 0) requestAnimationFrame(draw);
  due.add(what);
}

function draw() {
  const all = due.has("all");
  due.clear();
  if (!page.picture) return;
  if (all) drawAll();
  const context = by("marks").getContext("2d");
  context.setTransform(devicePixelRatio, 0, 0, devicePixelRatio, 0, 0);
  context.clearRect(0, 0, sight.width, sight.height);
  changes.draw(context, sight, page.picture);
  robot.draw(context, sight, drawMarks(context, sight, page));
  drawRulers(context, sight, page.frame, page.picture.edge);
}

/** Whether the contour is far enough from the obstacles to be seen. */
const showsContour = ({ needed, radius }) => Boolean(needed) && radius * sight.scale >= FINEST;

function drawAll() {
  const { picture, room, position, state } = page;
  const scale = new Scale({
    end: endOf(picture, room, position), square: picture.metric === "euclid2",
    needed: room.needed, contour: showsContour(room),
    faded: fading(sight.scale * devicePixelRatio),
  });
  drawPicture(by("picture"), picture, sight, scale, redraw);
  drawLegend(picture, room, scale, position, state.resolution);
}

function resize() {
  const { clientWidth: width, clientHeight: height } = by("marks");
  Object.assign(sight, { width, height });
  for (const canvas of [by("picture"), by("marks")]) {
    canvas.width = Math.round(width * devicePixelRatio);
    canvas.height = Math.round(height * devicePixelRatio);
  }
  if (sight.fitted) sight.fit();
  else sight.move(0, 0);
  redraw();
}

// ---- the newest version

const asked = () => `${page.metric} ${page.radius} ${page.unit}`;

/** The room that the robot needs; none if its radius can't be read, and the fault says why. */
async function room() {
  const of = asked();
  try {
    return { of, fault: "", ...(await roomOf(page.metric, page.radius, page.unit)) };
  } catch ({ message }) {
    return { of, fault: message, needed: null, radius: null, said: "" };
  }
}

let wanted = "";
/** Shows the newest version by the chosen metric, once what is seen of it has arrived; until then
 * the one before stays. */
async function showNewest() {
  const key = `${page.state.serial} ${page.metric}`;
  if (page.state.serial === undefined || wanted === key) return;
  wanted = key;
  wait(`The picture of version ${page.state.version} is being made ..`);
  try {
    const [about, needed] = await Promise.all([askPicture(page.metric), room()]);
    const picture = new Picture(about);
    if (wanted === key) fitTo(picture);
    if (wanted === key) await picture.load(sight, devicePixelRatio);
    if (wanted !== key) return;
    put(picture, needed);
  } catch (fault) {
    wanted = "";
    say(fault.message, true);
  }
  wait("");
}

/** Makes the sight one of this picture's map. */
function fitTo({ width, height }) {
  const other = sight.mapWidth !== width || sight.mapHeight !== height;
  Object.assign(sight, { mapWidth: width, mapHeight: height });
  if (other) sight.fit();
  if (other) press.drop(); // it began on another map
  if (other && page.picture) page.path = { points: [] };
  if (other) robot.lift();
  if (!page.linked) takeLink();
}

function put(picture, needed) {
  Object.assign(page, { picture, room: needed, frame: new Frame(page.state) });
  by("version").textContent = `version ${picture.version}`;
  tellState(page.state, picture);
  redraw();
  if (page.pointed) questions.point();
  questions.way();
  if (robot.shown) robot.ask();
  if (needed.of !== asked()) fieldsChanged();
}

/** Does what the link asks for, once. */
function takeLink() {
  page.linked = true;
  const { mapWidth: width, mapHeight: height } = sight;
  const found = read(location.hash, { width, height, unit: page.unit });
  const other = found.otherMap;
  if (other) say(`The link is of a map of ${other} cells: it isn't followed.`, true);
  if (found.at) sight.show(found.at, found.zoom);
  if (found.points) page.path = { points: found.points };
}

/** The fields as the link has them, or else as the command line does. */
function fillFields({ radius, resolution, width, height }) {
  page.unit = unitOf({ resolution });
  showUnit(by("place"), page.unit);
  const found = read(location.hash, { width, height, unit: page.unit });
  by("radius").value = found.radius ?? (radius || firstRadius(resolution));
  if (found.position >= 2 && found.position <= 21) by("position").value = found.position;
  const metrics = [...by("metric").options].map((it) => it.value);
  if (metrics.includes(found.metric)) by("metric").value = found.metric;
}

/** Leaves the modes that want a server, and what was begun in them. */
function stopDrawing() {
  if (!isDrawing()) return;
  press.drop();
  choose("look");
}

function lose(seconds) {
  tellLost(page.picture, seconds);
  stopDrawing();
}

function take(state) {
  if (isAnotherRun(state, page.state)) return;
  if (state.serial !== undefined && page.unit !== unitOf(state)) fillFields(state);
  page.state = state;
  page.drafts = state.draft.drawn;
  page.lost = state.draft.lost;
  tellState(state, page.picture);
  changes.take(state);
  questions.tell();
  if (robot.shown) robot.ask();
  if (state.fault) stopDrawing();
  if (!state.fault) showNewest();
  redraw("marks");
}

let saving = 0;
/** Keeps what is seen in the page's address. */
function keep() {
  clearTimeout(saving);
  saving = setTimeout(() => history.replaceState(null, "", `#${written(sight, page)}`), 200);
}

// ---- what one does

function walk(points) {
  page.path = { points };
  questions.way();
  keep();
}

/** Shows a cell in the middle, and aims at it. */
function goTo(cell) {
  sight.show([cell.x + 0.5, cell.y + 0.5], sight.scale);
  tell.pointed(cell, true);
  seen();
}

/** Takes the point away that is pointed at, where the pointer is for paths. */
function erase() {
  const cell = page.pointed?.cell;
  if (!cell || mode() !== "path") return;
  const found = tell.point(sight.pixel(cell.x + 0.5, cell.y + 0.5));
  if (found >= 0) walk(without(page.path.points, found));
}

function seen() {
  redraw();
  keep();
}

async function fieldsChanged() {
  const needed = await room();
  if (needed.of !== asked() || page.metric !== page.picture?.metric) return;
  page.room = needed;
  questions.way();
  if (robot.shown) robot.ask();
  seen();
}

const press = new Press({
  clicked: (cell) => walk([...page.path.points, cell]),
  dragged(rectangle) {
    Object.assign(page, { dragged: rectangle, moving: null });
    if (!rectangle) robot.end(false);
    redraw("marks");
  },
  moving(point, cell) {
    page.moving = { point, cell };
    redraw("marks");
  },
  moved: (point, cell) => walk(withMoved(page.path.points, point, cell)),
  turns: (cell, place) => robot.turn(cell, place),
  stands(cell, isTurned) {
    if (isTurned) robot.end(true);
    else robot.put(cell);
  },
  erased: (point) => walk(without(page.path.points, point)),
  drawn: ({ command, rect }) => give(command, { rect }),
});
const tell = {
  moved: seen,
  cell: () => page.pointed?.cell ?? null,
  point: (place, kind) => pointAt(page.path.points, sight, place, kind),
  pointed(cell, byKeys = false) {
    const { pointed } = page;
    const same = cell?.x === pointed?.cell.x && cell?.y === pointed?.cell.y;
    if (same && byKeys === Boolean(pointed?.byKeys)) return;
    page.pointed = cell && { cell, byKeys };
    redraw("marks");
    questions.point();
  },
};
followPointer(by("marks"), sight, press, tell);
const shorter = () => walk(page.path.points.slice(0, -1));
followKeys(by("marks"), sight, press, tell, { Backspace: shorter, Delete: erase, Undo: undo });
followPlace(page, sight, goTo);
by("metric").addEventListener("change", () => { showNewest(); keep(); });
by("radius").addEventListener("change", fieldsChanged);
by("position").addEventListener("input", seen);
by("show-changes").addEventListener("change", () => changes.take(page.state));
by("lift").addEventListener("click", () => robot.lift());
by("forget").addEventListener("click", () => walk([]));
followLink(keep);
followSave(page);
followButtons();
showHints();
questions.tellWay();
dark.addEventListener("change", () => redraw());
new ResizeObserver(resize).observe(by("marks"));
window.clearmapView = { pixel: (x, y) => sight.pixel(x, y) }; // where a cell is, for tests
const news = newsOfRun();
if (news) say(news);
follow(take, lose);

// A robot that is set down on the map, and turned there: its outline, red where it hits.
import { askRobot } from "./ask.js";
import { NO_ROOM } from "./colours.js";
import { label, lengthSaid } from "./labels.js";
import { edged } from "./lines.js";

const [DARK, LIGHT] = ["#12151c", "#ffffff"];
const LEAST = 4; // pixels of a disc's radius
const by = (id) => document.getElementById(id);

/** The corners of an outline in cells, turned and around the middle of a cell. */
export function placed(outline, { cell, theta }) {
  const [cos, sin] = [Math.cos(theta), Math.sin(theta)];
  const [x, y] = [cell.x + 0.5, cell.y + 0.5];
  return outline.map(([across, down]) =>
    [x + across * cos - down * sin, y + across * sin + down * cos]);
}

/** The robot of a page. While an answer is on its way, only the last pose is asked about. */
export class Robot {
  constructor(page, redraw) {
    Object.assign(this, { page, redraw, pose: null, turning: null, answer: null });
    Object.assign(this, { asking: false, stale: false, known: false });
  }

  /** What is known of the robot as it is shown: nothing of an earlier pose, radius or version. */
  get told() {
    return this.known ? this.answer : null;
  }

  get shown() {
    return this.turning ?? this.pose;
  }

  /** Sets it down in a cell, turned as before. */
  put(cell) {
    this.pose = { cell, theta: this.pose?.theta ?? 0 };
    this.ask();
  }

  /** Turns it in a cell towards a place, as long as the pointer is held. */
  turn(cell, [x, y]) {
    this.turning = { cell, theta: Math.atan2(y - cell.y - 0.5, x - cell.x - 0.5) };
    this.ask();
  }

  /** The pointer is let go: the robot stays as it was turned, or else goes back. */
  end(stays) {
    if (!this.turning) return;
    if (stays) this.pose = this.turning;
    this.turning = null;
    if (!stays) this.ask();
  }

  lift() {
    Object.assign(this, { pose: null, turning: null });
    this.ask();
  }

  async ask() {
    Object.assign(this, { stale: true, known: false });
    if (!this.shown) this.tell(null);
    this.redraw();
    if (this.asking) return;
    this.asking = true;
    while (this.stale && this.shown) {
      this.stale = false;
      const { radius, unit } = this.page;
      const fault = ({ message }) => ({ said: message, length: "" });
      const told = await askRobot(this.shown, radius, unit).catch(fault);
      if (this.shown) this.tell(told);
      this.known = !this.stale;
      this.redraw();
    }
    this.asking = false;
  }

  tell(answer) {
    const { drafts } = this.page;
    this.answer = answer;
    by("robots").hidden = by("lift").disabled = !answer;
    const of = answer?.version !== undefined && drafts.length
      ? `, in version ${answer.version}; the draft isn't counted` : "";
    by("robot").textContent = answer ? answer.said + of : "";
    by("robot").classList.toggle("near", Boolean(answer?.hits));
  }

  /** Draws it with its label, off another one; a line shows where its front is. */
  draw(context, sight, other) {
    const pose = this.shown;
    if (!pose) return;
    const colour = this.told?.hits ? NO_ROOM : DARK;
    const { footprint } = this.page.state;
    const middle = sight.pixel(pose.cell.x + 0.5, pose.cell.y + 0.5);
    if (footprint?.length) this.drawOutline(context, sight, placed(footprint, pose), colour);
    else drawDisc(context, middle, this.page.room.radius * sight.scale, colour);
    const { length, version, hits } = this.told ?? {};
    const of = this.page.drafts.length ? version : undefined;
    const text = lengthSaid(sight, length, of);
    label(context, sight, middle, text, hits ? { colour: NO_ROOM, other } : { other });
  }

  drawOutline(context, sight, corners, colour) {
    const ends = corners.map(([x, y]) => sight.pixel(x, y));
    edged(context, [[...ends, ends[0]]], colour, LIGHT, 2.5);
    const { cell, theta } = this.shown;
    const reach = Math.max(...this.page.state.footprint.map(([x]) => x), 0);
    const [x, y] = [cell.x + 0.5, cell.y + 0.5];
    const front = sight.pixel(x + reach * Math.cos(theta), y + reach * Math.sin(theta));
    edged(context, [[sight.pixel(x, y), front]], colour, LIGHT, 1.5);
  }
}

function drawDisc(context, [x, y], radius, colour) {
  for (const [style, width] of [[LIGHT, 5], [colour, 2.5]]) {
    context.beginPath();
    context.arc(x, y, Math.max(radius, LEAST), 0, 2 * Math.PI);
    Object.assign(context, { strokeStyle: style, lineWidth: width });
    context.stroke();
  }
}

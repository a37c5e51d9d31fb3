// What the page asks while one looks at it: the cell that is pointed at, and the path.
import { askAt, askPath } from "./ask.js";
import { tellPath, tellPointed } from "./panel.js";

const SOON = 300; // milliseconds for an answer before which the one before stays
const ASKED = "The path is being asked about ..";

/** The questions of a page. An answer to a question that isn't the last one is dropped. */
export class Questions {
  constructor(page, redraw) {
    Object.assign(this, { page, redraw, pointing: false, again: false });
    Object.assign(this, { walking: false, stale: false });
  }

  /** Asks for the cell under the pointer; while an answer is on its way, only that one is asked
   * about which is the last. */
  async point() {
    this.again = this.pointing;
    const cell = this.page.pointed?.cell;
    if (!cell) tellPointed("");
    if (this.pointing || !cell) return;
    this.pointing = true;
    await this.pointAt(cell);
    this.pointing = false;
    this.redraw();
    if (this.again) this.point();
  }

  async pointAt(cell) {
    const fault = ({ message }) => ({ said: message });
    const told = await askAt(this.page.metric, cell).catch(fault);
    if (this.again) return;
    this.page.pointed = { cell, byKeys: this.page.pointed.byKeys, ...told };
    this.tellPoint();
  }

  /** Says of which version an answer is, where it isn't the one that is shown, and where there is a
   * draft, whose obstacles no answer counts. */
  of(version) {
    const { drafts, picture } = this.page;
    if (version === undefined) return "";
    if (drafts.length) return `, in version ${version}; the draft isn't counted`;
    return version === picture?.version ? "" : `, in version ${version}`;
  }

  tellPoint() {
    const { pointed } = this.page;
    if (pointed?.said) tellPointed(pointed.said + this.of(pointed.version));
  }

  tellWay() {
    const { path, drafts } = this.page;
    tellPath(path, this.of(path.version), drafts.length > 0);
  }

  /** Tells the answers again, where the draft has changed. */
  tell() {
    this.tellPoint();
    if (this.page.path.said) this.tellWay();
  }

  /** Asks about the path, and forgets what was known of it; while an answer is on its way, only
   * that path is asked about which is the last. */
  async way() {
    this.stale = true;
    this.page.path = { points: this.page.path.points };
    if (!this.page.path.points.length) this.tellWay();
    this.redraw();
    if (this.walking) return;
    this.walking = true;
    const ask = () => tellPath({ ...this.page.path, said: ASKED }, "", false);
    const waiting = setTimeout(ask, SOON);
    while (this.stale) await this.walk();
    clearTimeout(waiting);
    this.walking = false;
    this.tellWay();
    this.redraw();
  }

  async walk() {
    const { metric, radius, unit, path: { points } } = this.page;
    const fault = ({ message }) => ({ said: message });
    this.stale = false;
    const told = points.length ? await askPath(metric, points, radius, unit).catch(fault) : {};
    this.stale ||= this.page.path.points !== points;
    if (!this.stale) this.page.path = { points, ...told };
  }
}

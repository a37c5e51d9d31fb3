// The panel next to the map: what is known of the server and of the draft, and the toast.
import { hint } from "./hints.js";
import { saidOfRuns } from "./runs.js";
import { tellNew, tellNoView, tellOld } from "./strip.js";

const by = (id) => document.getElementById(id);
const SHOWN_FOR = { news: 6000, refusal: 12000 }; // milliseconds

let timer = 0;
/** Says something that is seen wherever the page is scrolled to. */
export function say(text, refused = false) {
  by("said").textContent = text;
  by("said").hidden = false;
  by("said").classList.toggle("refused", refused);
  clearTimeout(timer);
  const after = refused ? SHOWN_FOR.refusal : SHOWN_FOR.news;
  timer = setTimeout(() => { by("said").hidden = true; }, after);
}

/** Says what is being waited for; nothing if the text is empty. */
export function wait(text) {
  by("busy").textContent = text;
  by("busy").hidden = !text;
}

/** Tells that the page's own server is gone, or has said nothing for some seconds. */
export function tellLost(picture, seconds) {
  by("server").textContent = "clearmap-view has ended, or can't be reached.";
  by("server").classList.add("lost");
  tellNoView(picture?.version, seconds);
  enable(Boolean(picture), false);
  by("undo").disabled = by("forget-lost").disabled = true;
}

/** Which buttons do something: those of a picture, and those that change a server's map. */
function enable(hasPicture, hasServer) {
  for (const button of document.querySelectorAll("#modes button, #zoom button, #link, #save"))
    button.disabled = !hasPicture || (button.classList.contains("changes") && !hasServer);
  for (const button of document.querySelectorAll("[data-command]")) button.disabled = !hasServer;
}

function tellDraft({ drawn, lost, undo, said }, hasServer) {
  const count = drawn.length;
  const publish = document.querySelector("[data-command=publish]");
  const changes = count === 1 ? "1 change" : `${count} changes`;
  publish.classList.toggle("first", count > 0);
  publish.textContent = count ? `Publish ${changes}` : "Publish";
  by("draft").textContent = said;
  by("undo").disabled = !undo || !hasServer;
  by("undo").dataset.place = drawn.at(-1)?.place;
  by("forget-lost").hidden = by("forget-lost").disabled = lost.length === 0;
  by("gone").hidden = by("redraw").hidden = lost.length === 0;
}

/** Words that may be none: then nothing is shown. */
export function put(id, text) {
  by(id).textContent = text;
  by(id).hidden = !text;
}

/** What a radius is in. */
export const unitOf = ({ resolution }) => (resolution ? "m" : "cells");

/** Shows a state of the page's server. */
export function tellState(state, picture) {
  by("name").textContent = state.name;
  document.title = `${state.name} – clearmap`;
  document.body.classList.toggle("read-only", state.readOnly);
  const size = `${state.width} by ${state.height} cells`;
  by("server").textContent = state.fault || `Server at port ${state.port}, ${size}`;
  by("server").classList.toggle("lost", Boolean(state.fault));
  put("notice", state.notice ?? "");
  put("another", state.draft.another);
  put("again", saidOfRuns(state));
  by("unit").textContent = unitOf(state);
  if (state.fault && picture) tellOld("Server lost", picture.version, state.age);
  else tellNew();
  const hasServer = Boolean(picture) && !state.fault;
  tellDraft(state.draft, hasServer);
  enable(Boolean(picture), hasServer);
}

/** Shows what is pointed at: words, and where they are of another version, which. Without words
 * those before are hidden, and keep their room: nothing moves when the pointer leaves the map. */
export function tellPointed(text) {
  by("point").style.visibility = text ? "visible" : "hidden";
  if (text) by("point").textContent = text;
}

/** Shows what is known of the path, and of which version that is; `uncounted` says that a draft
 * may change it. */
export function tellPath({ points, said, clear, long }, of, uncounted) {
  const shown = by("path");
  const known = said !== undefined && clear !== undefined;
  shown.textContent = said === undefined ? hint("path") : said + of;
  shown.className = !known || (clear && uncounted) ? "" : clear ? "clear" : "near";
  by("long").textContent = long ?? "";
  by("how").textContent = points.length ? hint("points") : "";
  by("forget").disabled = points.length === 0;
}

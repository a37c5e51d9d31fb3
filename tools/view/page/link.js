// The part of the page's address after #, which keeps what is seen: a link to it shows the same.

import { say } from "./panel.js";

const points = (text) =>
  text.split(";").map((pair) => pair.split(",").map(Number)).map(([x, y]) => ({ x, y }));
const whole = ({ x, y }) => Number.isInteger(x) && Number.isInteger(y);

/** What a page shows, as words for its address. A view that shows all of the map isn't kept. */
export function written(sight, { path, metric, radius, unit, position }) {
  const words = new URLSearchParams();
  words.set("map", `${sight.mapWidth}x${sight.mapHeight}`);
  if (!sight.fitted) {
    words.set("at", sight.centre.map((it) => it.toFixed(2)).join(","));
    words.set("zoom", sight.scale.toPrecision(4));
  }
  if (path.points.length) words.set("path", path.points.map(({ x, y }) => `${x},${y}`).join(";"));
  words.set("metric", metric);
  words.set("radius", radius);
  words.set("unit", unit);
  words.set("end", position);
  return words.toString().replaceAll("%2C", ",").replaceAll("%3B", ";");
}

/** What an address asks for. What isn't of this map's size, or isn't understood, is left out; so is
 * a radius in another unit. */
export function read(hash, { width, height, unit }) {
  const words = new URLSearchParams(hash.replace(/^#/, ""));
  const found = { metric: words.get("metric"), radius: null };
  if (words.get("unit") === unit) found.radius = words.get("radius");
  if (words.has("end")) found.position = Number(words.get("end"));
  if (words.has("map") && words.get("map") !== `${width}x${height}`) {
    return { ...found, radius: null, otherMap: words.get("map").replace("x", " by ").slice(0, 20) };
  }
  const at = (words.get("at") ?? "").split(",").map(Number);
  const zoom = Number(words.get("zoom"));
  if (at.length === 2 && at.every(Number.isFinite) && zoom > 0) Object.assign(found, { at, zoom });
  const way = words.has("path") ? points(words.get("path")) : [];
  const inside = ({ x, y }) => x >= 0 && y >= 0 && x < width && y < height;
  if (way.every((cell) => whole(cell) && inside(cell))) found.points = way;
  return found;
}

/** Copies the address by a button, once it is the one of what is seen. */
export function followLink(keep) {
  document.getElementById("link").addEventListener("click", async () => {
    keep();
    await new Promise((settle) => setTimeout(settle, 250));
    const write = navigator.clipboard.writeText(location.href);
    const copied = await write.then(() => true, () => false);
    const what = "it keeps the view and the path.";
    say(copied ? `The link is copied: ${what}` : `Copy the page's address: ${what}`);
  });
}

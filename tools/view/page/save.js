// What is seen as a picture to keep.
import { say } from "./panel.js";

const by = (id) => document.getElementById(id);

/** The name of a picture's file: of the map, and of the version that is shown. */
export function fileName(name, version) {
  const words = name.replace(/[^\p{L}\p{N}._-]+/gu, "-").replace(/^[.-]+/, "") || "map";
  return `${words}-version-${version}.png`;
}

/** A canvas with all of these on it, from below to above, on a ground of this colour. */
function together(canvases, ground) {
  const whole = document.createElement("canvas");
  const [{ width, height }] = canvases;
  Object.assign(whole, { width, height });
  const context = whole.getContext("2d");
  context.fillStyle = ground;
  context.fillRect(0, 0, width, height);
  for (const canvas of canvases) context.drawImage(canvas, 0, 0);
  return whole;
}

/** Has the browser save what canvases show as a PNG of this name. */
async function savePicture(canvases, name) {
  const ground = getComputedStyle(canvases[0].parentElement).backgroundColor;
  const whole = together(canvases, ground);
  const data = await new Promise((settle) => whole.toBlob(settle, "image/png"));
  if (!data) throw new Error("The browser can't make a picture of this size.");
  const link = document.createElement("a");
  Object.assign(link, { href: URL.createObjectURL(data), download: name });
  link.click();
  setTimeout(() => URL.revokeObjectURL(link.href), 10_000);
}

/** Saves a picture of the page by a button. */
export function followSave(page) {
  by("save").addEventListener("click", () => {
    const name = fileName(page.state.name, page.picture.version);
    savePicture([by("picture"), by("marks")], name).then(
      () => say(`The picture is saved as ${name}.`), ({ message }) => say(message, true));
  });
}

// The field that the map goes to a place by: in metres of the yaml's frame, or in cells.
import { put } from "./panel.js";

const NUMBER = "[-+]?(?:\\d+\\.?\\d*|\\.\\d+)";
const PLACE = new RegExp(`^\\s*\\(?\\s*(${NUMBER})\\s*[,;\\s]\\s*(${NUMBER})\\s*\\)?\\s*$`);
const CLOSE = 1e-9; // cells: a decimal on the border of two is in the one that it begins

/** The cell of two numbers as places are told; it may be off the map. */
export function cellOf(frame, x, y) {
  const [across, down] = frame.place(x, y);
  const row = frame.metres ? Math.ceil(down - CLOSE) - 1 : Math.floor(down + CLOSE);
  return { x: Math.floor(across + CLOSE), y: row }; // in metres y is upwards
}

/** From where to where places are on the map, in words. */
function extent(frame, width, height) {
  const [[left, one], [right, other]] = [frame.told(0, 0), frame.told(width, height)];
  const [low, high] = [Math.min(one, other), Math.max(one, other)];
  const told = (number) => Number(number.toFixed(3));
  const unit = frame.metres ? " m" : "";
  return `x is from ${told(left)} to ${told(right)}${unit}, y from ${told(low)} to ${told(high)}`;
}

/** The cell that a text names. A text that names none is thrown with a sentence that says why. */
function read(text, frame, { mapWidth, mapHeight }) {
  const found = PLACE.exec(text);
  const what = frame.metres ? "x and y in metres, as 1.5, -0.4" : "a column and a row, as 12, 40";
  if (!found) throw new Error(`'${text.trim().slice(0, 40)}' is no place: that is ${what}.`);
  const cell = cellOf(frame, Number(found[1]), Number(found[2]));
  if (cell.x >= 0 && cell.y >= 0 && cell.x < mapWidth && cell.y < mapHeight) return cell;
  const off = `${found[1]}, ${found[2]} is off the map`;
  throw new Error(`${off}: ${extent(frame, mapWidth, mapHeight)}.`);
}

/** Says in the field what it takes. */
export function showUnit(field, unit) {
  field.placeholder = `x, y in ${unit}`;
  field.setAttribute("aria-label", `Go to a place: x, y in ${unit}`);
}

/** Goes to the place that is entered in the field; `go` is called with its cell. */
export function followPlace(page, sight, go) {
  const field = document.getElementById("place");
  const tell = (said) => {
    field.setAttribute("aria-invalid", String(Boolean(said)));
    put("astray", said);
  };
  field.addEventListener("keydown", (event) => {
    if (event.key !== "Enter" || !field.value.trim() || !page.frame) return;
    try {
      go(read(field.value, page.frame, sight));
      tell("");
    } catch ({ message }) {
      tell(message);
    }
  });
  field.addEventListener("input", () => tell(""));
}

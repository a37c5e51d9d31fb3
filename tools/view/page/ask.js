// What the page asks of its own server, and the commands that it sends.
const token = document.querySelector("meta[name=token]").content;
const page = crypto.randomUUID(); // so that what this page draws is told from what others do
const SILENCE = 7000; // milliseconds, in which some heartbeats come
const NO_ANSWER = "clearmap-view answered something else.";
const UNREACHED = "clearmap-view can't be reached";
const UNKNOWN = "whether this was done isn't known";

/** The JSON that answers a request. A refusal or a fault is thrown with its sentence. */
async function answer(path, options) {
  let response;
  try {
    response = await fetch(path, options);
  } catch {
    throw new Error(path === "change" ? `${UNREACHED}: ${UNKNOWN}.` : `${UNREACHED}.`);
  }
  const told = await response.json().catch(() => ({ fault: NO_ANSWER }));
  if (!response.ok) throw new Error(told.fault ?? NO_ANSWER);
  return told;
}

function post(path, body) {
  const headers = { "Content-Type": "application/json", "X-Clearmap-Token": token };
  return answer(path, { method: "POST", headers, body: JSON.stringify(body) });
}

const words = (named) => new URLSearchParams(named).toString();

export const askPicture = (metric) => answer(`picture/${metric}`);
export const askChanged = (serial) => answer(`changed/${serial}`);
export const askAt = (metric, { x, y }) => answer(`at?${words({ metric, x, y })}`);
export const askRoom = (metric, radius, unit) => answer(`room?${words({ metric, radius, unit })}`);
export const askRobot = ({ cell: { x, y }, theta }, radius, unit) =>
  answer(`robot?${words({ x, y, theta: theta.toFixed(6), radius, unit })}`);
export const askPath = (metric, cells, radius, unit) =>
  post("path", { metric, radius, unit, points: cells.map(({ x, y }) => [x, y]) });
export const change = (command, of, sure) => post("change", { page, command, ...of, sure });
export const forgetLost = () => post("forget", {});

/** Follows the state that the page is told, while the page is seen; `lost` is called where nothing
 * can be told, with the seconds since anything was. A page that is hidden asks for nothing. */
export function follow(take, lost) {
  let [events, waiting, last] = [null, 0, 0];
  const lose = () => lost((performance.now() - last) / 1000);
  const hear = () => {
    clearTimeout(waiting);
    last = performance.now();
    waiting = setTimeout(() => { lose(); start(); }, SILENCE);
  };
  const open = () => {
    events = new EventSource("events");
    events.onmessage = (event) => { hear(); take(JSON.parse(event.data)); };
    events.addEventListener("beat", hear);
    events.onerror = () => {
      lose();
      if (events?.readyState === EventSource.CLOSED) setTimeout(start, 1000);
    };
  };
  const start = () => {
    clearTimeout(waiting);
    events?.close();
    events = null;
    if (document.hidden) return;
    waiting = setTimeout(() => { lose(); start(); }, SILENCE);
    open();
  };
  document.addEventListener("visibilitychange", start);
  start();
}

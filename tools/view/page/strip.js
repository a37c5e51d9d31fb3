// The strip over the map while its server is lost: how old is what is shown.
const by = (id) => document.getElementById(id);
const EVERY = 500; // milliseconds

let lost = null; // what is lost, which version is shown, and when that was last the newest
let timer = 0;

/** Seconds in words. */
export function ageSaid(seconds) {
  if (seconds < 120) return `${Math.floor(seconds)} s`;
  return seconds < 7200 ? `${Math.floor(seconds / 60)} min` : `${Math.floor(seconds / 3600)} h`;
}

/** The seconds since a moment, by the clock that says more: one of them may stand still while the
 * machine sleeps. */
const since = ({ date, ticks }) => Math.max(Date.now() - date, performance.now() - ticks) / 1000;

function tell() {
  const { what, version, age, at } = lost;
  const seconds = ageSaid(age + since(at));
  by("strip").textContent = `${what}: version ${version}, last seen ${seconds} ago`;
}

/** Tells from now on what is lost and how many seconds ago its version was the newest. */
export function tellOld(what, version, age) {
  lost = { what, version, age, at: { date: Date.now(), ticks: performance.now() } };
  tell();
  by("strip").hidden = false;
  by("version").classList.add("old");
  clearInterval(timer);
  timer = setInterval(tell, EVERY);
}

/** Tells that nothing is lost. */
export function tellNew() {
  clearInterval(timer);
  lost = null;
  by("strip").hidden = true;
  by("version").classList.remove("old");
}

/** Tells that what tells of the server is lost too: if a version was the newest until some seconds
 * ago, its age counts from there. */
export function tellNoView(version, seconds) {
  const age = lost ? lost.age + since(lost.at) : seconds;
  if (version !== undefined) tellOld("clearmap-view lost", version, age);
}

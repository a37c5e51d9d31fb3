// Which run of clearmap-view the page was loaded from. Another run has another token, and knows
// nothing of what was drawn before it: then the page is loaded again, and says what isn't shown.
const own = document.querySelector("meta[name=run]").content;
const KEY = "clearmap-view was started again";

/** Does something with what the browser keeps for this tab; some are told to keep nothing. */
function stored(work) {
  try {
    return work(sessionStorage);
  } catch {
    return null;
  }
}

/** What was kept for this run, if anything. */
function kept() {
  const found = JSON.parse(stored((it) => it.getItem(KEY)) ?? "null");
  return found?.run === own ? found : null;
}

const keep = (told) => stored((it) => it.setItem(KEY, JSON.stringify(told)));

/** How many rectangles of earlier runs the draft may still have: none once there is another
 * version, as a publish publishes the whole draft. */
function unshown(version) {
  const found = kept();
  return found && [undefined, found.version].includes(version) ? found.count : 0;
}

/** Whether a state is of another run. If so, the page is loaded again; `last` is the state before
 * it. */
export function isAnotherRun(state, last) {
  if (state.run === own) return false;
  const { version, draft } = last;
  const count = unshown(version) + (draft?.drawn.length ?? 0);
  keep({ run: state.run, at: new Date().toTimeString().slice(0, 8), version, count });
  location.reload();
  return true;
}

/** The news that the page was loaded again, for once; an empty text if it wasn't. */
export function newsOfRun() {
  const found = kept();
  if (!found || found.isTold) return "";
  keep({ ...found, isTold: true });
  return `clearmap-view was started again at ${found.at}: the page was loaded again.`;
}

/** What of earlier runs isn't shown, in words; an empty text if there is nothing. */
export function saidOfRuns({ version }) {
  const count = unshown(version);
  if (count === 0) return "";
  const what = count === 1 ? "1 rectangle that was" : `${count} rectangles that were`;
  const since = `clearmap-view was started again at ${kept().at}, and doesn't show ${what}`;
  return `${since} drawn before: the draft may still have ${count === 1 ? "it" : "them"}.`;
}

/** Forgets what earlier runs knew: the draft was made the newest version. */
export function forgetRuns() {
  stored((it) => it.removeItem(KEY));
  document.getElementById("again").hidden = true;
}

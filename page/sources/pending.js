// ---------- What this browser keeps: a few choices, and commands that have had no reply ----------

const MINE = "treasury.";
function keep(name, value) {
  try {
    localStorage.setItem(MINE + name, JSON.stringify(value));
    return true;
  } catch { return false; }
}
function kept(name, otherwise) {
  try { return JSON.parse(localStorage.getItem(MINE + name)) ?? otherwise; } catch { return otherwise; }
}
// Each command is kept under a name of its own, so that tabs do not overwrite one another's.
const PENDING = "pending ", pendings = new Map();
// (the same command bound to another number of entries is the same command)
const keyOf = ({ "if-entries": _, ...request }) => JSON.stringify(Object.entries(request).sort().map(([name, value]) =>
  [name, name === "journal" ? `${value.length} ${sumOf(value)}` : value]));
function sumOf(journal) {
  let sum = 0x811c9dc5;
  for (let at = 0; at < journal.length; at++) sum = Math.imul(sum ^ journal.charCodeAt(at), 0x01000193) >>> 0;
  return sum;
}
function loadPendings() {
  const held = new Set();
  try {
    for (const name of Object.keys(localStorage)) {
      const one = name.startsWith(MINE + PENDING) && kept(name.slice(MINE.length), null);
      if (!one?.request) continue;
      held.add(one.key);
      if (!pendings.has(one.key)) pendings.set(one.key, one);
    }
  } catch { return; }
  for (const [key, one] of [...pendings]) if (!one.isBusy && !one.isUnkept && !held.has(key)) pendings.delete(key);
}
// Keeps a command before it is sent. The text of a journal may be too long for that; the same file again is a repeat.
function keepPending(one) {
  if (keep(PENDING + one.key, { ...one, isBusy: false })) return;
  one.isTextless = one.request.journal !== undefined;
  const short = { ...one, isBusy: false, request: { ...one.request, journal: "" } };
  one.isUnkept = !(one.isTextless && keep(PENDING + one.key, short));
  if (one.isUnkept) tell(panel("wait", el("p", {}, text("keeps-nothing"))));
}
function dropPending(key) {
  pendings.delete(key);
  try { localStorage.removeItem(MINE + PENDING + key); } catch { /* it was not kept */ }
}
function showPendings() {
  $("pending").replaceChildren(...[...pendings.values()].filter(one => !one.isBusy).map(one => {
    const isGone = one.isTextless && !one.request.journal;
    return panel("wait",
      el("p", {}, el("strong", {}, text("pending", { what: text("do-" + one.request.do) }))),
      described(one.request, [[text("first-sent"), el("span", {}, new Date(one.when).toLocaleString(language))]]),
      isGone ? el("p", {}, text("same-file")) : null,
      one.isUnkept ? el("p", {}, text("keeps-nothing")) : null,
      isGone ? buttons(button("did-that", () => forget(one))) : buttons(
        button("send-again", once(() => command(one.request, FORMS[one.form])), ".main"),
        button("forget", event => askForget(one, event.target.closest(".panel")))));
  }));
}
function askForget(one, place) {
  place.replaceChildren(el("p", {}, text("forget-note")), described(one.request),
    buttons(button("forget-yes", () => forget(one)), button("keep-it", showPendings, ".main")));
  place.focus();
}
function forget(one) {
  dropPending(one.key);
  showPendings();
}

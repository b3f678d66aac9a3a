// ---------- Commands: first a dry run, then the same for real ----------

// The forms that the views have, by the names of their elements. `request` makes the request of one; what is shown with
// its check are a `preview`, what is said if `nothing` is new or if it is `refused`, and the text of its `button`;
// `settled` empties it after what was done.
const FORMS = {};

// By the path of its branch, so that a treasurer of one branch may give the commands of that branch.
const branchOf = request => request.do === "dispatch" ? request.from : request.branch;
const commandPath = request => "/commands" + (branchOf(request) === undefined ? "" : "/" + encoded(branchOf(request)));
const WORDS = { id: "reference", from: "from", to: "to", branch: "branch", day: "day", amount: "amount",
  account: "account", part: "part", accounts: "accounts", into: "into", name: "name", sample: "sample",
  journal: "journal-text" };
function described(request, also = []) {
  return facts([[text("what"), text("do-" + request.do)], ...Object.entries(request)
    .filter(([name, value]) => WORDS[name] && value)
    .map(([name, value]) => [text(WORDS[name]), name === "journal" ? shortJournal(value) : value]), ...also]);
}
const lineCount = journal => text("text-facts", { n: journal.split("\n").length - (journal.endsWith("\n") ? 1 : 0) });
const shortJournal = journal => journal.split("\n").length > 12 ? lineCount(journal) : el("pre", { tabindex: "0" },
  shown(journal.trim()));
let isBusy = false, isHandling = false;
function setBusy(now) {
  isBusy = now;
  for (const one of all("main form > fieldset, #outcome button, #pending button")) {
    one.disabled = now || one.dataset.isShut === "yes";
  }
  document.body.setAttribute("aria-busy", String(now));
}
// A handler that runs once at a time, whatever is clicked meanwhile.
const once = handle => async event => {
  event?.preventDefault();
  if (isBusy || isHandling) return;
  isHandling = true;
  try { await handle(event); } finally { isHandling = false; }
};
const isOpenKind = request => [...pendings.values()].some(({ key, request: open }) =>
  open.do === request.do && key !== keyOf(request));
// What is typed wrongly, before the treasury is asked.
class Mistake extends Error {
  constructor(field, key, values) {
    super(key);
    Object.assign(this, { field, key, values });
  }
}
function typedAccount(id) {
  const name = $(id).value.trim();
  if (/^[*!([]|[;\p{Cc}]|\s{2}|(^|:)(:|$)/u.test(name)) throw new Mistake(id, "account-form", { account: name });
  return name;
}
function typedAmount(id) {
  const read = amountTyped($(id).value);
  if (!read) throw new Mistake(id, "amount-form", { amount: $(id).value, samples: samples.join(", ") });
  return read;
}
// An amount that was read otherwise than it looks is confirmed by itself, before the button works.
function confirmed(notes, act) {
  if (!notes.some(line => line.includes(" was read as "))) return null;
  const allow = isTicked => {
    act.disabled = !isTicked;
    act.dataset.isShut = isTicked ? "" : "yes";
  };
  allow(false);
  return el("p", {}, el("label", {}, el("input", { type: "checkbox",
    change: event => allow(event.target.checked) }), " ", text("read-so")));
}
// Checks what a form asks for; what is typed wrongly is said before the treasury is asked.
async function attempt(form) {
  let request;
  try {
    request = await form.request();
  } catch (mistake) {
    if (!(mistake instanceof Mistake)) throw mistake;
    tell(panel("bad", el("p", {}, el("strong", {}, phrase(mistake.key, mistake.values)))));
    $(mistake.field).focus({ preventScroll: true });
    return;
  }
  await check(request, form);
}
// Asks what a command would do, and shows that. Where others have made entries since it was last shown, when the branch
// had `before` of them, these are shown too.
async function check(request, form = {}, before = null) {
  if (isOpenKind(request)) return tell(panel("wait", el("p", {}, text("one-open"))));
  setBusy(true);
  try {
    const what = await checked(request, form, await ask(commandPath(request), { ...request, "dry-run": "yes" }));
    if (before !== null) what.prepend(...await madeSince(branchOf(request), Number(before)));
    tell(what);
  } finally {
    setBusy(false);
  }
}
// What is said of a dry run: if it can be done, with a button that does the very same, unless the branch has got other
// entries meanwhile.
async function checked(request, form, reply) {
  if (reply.kind === "refused") return refusal(reply, request, "nothing-done", form.refused?.(reply));
  if (reply.kind === "denied") return denial(reply, request, "not-checked");
  if (reply.kind === "unknown") {
    return panel("wait", el("p", {}, el("strong", {}, reply.why)), el("p", {}, text("not-checked")),
      buttons(button("try-again", once(() => check(request, form)))));
  }
  if (reply.kind === "repeated") return panel("good", el("p", {}, text("would-repeat")), described(request));
  const { added, old, entries } = reply;
  if (added === 0) return panel("good", el("p", {}, text("nothing-new", { old })), form.nothing?.());
  const more = await Promise.resolve(form.preview?.(request, reply))
    .catch(() => el("p.small", {}, text("no-preview")));
  const bound = entries === undefined ? request : { ...request, "if-entries": entries };
  const act = button(form.button ?? "do-" + request.do, once(() => command(bound, form)), ".main");
  return panel("ask",
    el("p", {}, el("strong", {}, added === undefined ? text("checked") : text("would-import", { n: added, old }))),
    added === undefined ? described(request) : null,
    more, remarks(reply.notes, Boolean(form.preview)), el("p.small", {}, text("no-undo")), confirmed(reply.notes, act),
    buttons(act));
}
// Sends a command until a whole reply comes, three times by itself: the same request with the same ID, which the
// treasury does once. What has had no reply is kept in the browser until it has one, with its form.
async function command(request, form = {}) {
  if (isOpenKind(request)) return tell(panel("wait", el("p", {}, text("one-open"))));
  const key = keyOf(request), had = pendings.get(key);
  const one = { key, request, form: form.name, when: had?.when ?? new Date().toISOString(), isBusy: true };
  pendings.set(key, one);
  setBusy(true);
  keepPending(one);
  showPendings();
  let reply, mayBeDone = Boolean(had);
  try {
    for (const pause of [0, 1000, 3000]) {
      if (pause) tell(panel("wait", el("p", {}, text("sending-again"))));
      await new Promise(go => setTimeout(go, pause));
      reply = await ask(commandPath(request), request);
      if (reply.kind === "unknown") mayBeDone = true;
      else if (reply.number !== 40) break;
    }
    one.isBusy = false;
    const isOpen = isUndecided(reply, mayBeDone);
    if (!isOpen) dropPending(key);
    showPendings();
    if (reply.number === CHANGED) return await checkAnew(request, form);
    tell(outcome(reply, request, isOpen, mayBeDone));
    if (["done", "repeated", "imported"].includes(reply.kind)) {
      await settle(request);
      await showMade(request, reply);
    }
  } finally {
    setBusy(false);
  }
}
// The branch has other entries than when the command was checked: nothing was done, and it is asked anew.
const CHANGED = 48;
async function checkAnew({ "if-entries": before, ...request }, form) {
  await loadFederation().catch(() => {});
  changeView();
  await check(request, form, before);
}
const entryLinks = (branch, entries) => el("ul", {}, entries.slice(0, 8).map(({ number, day, description }) =>
  el("li", {}, toItem(branch, number, [text("entry-number"), ` ${number}, ${day} `, shown(description)]))),
entries.length > 8 ? el("li", {}, text("further", { n: entries.length - 8 })) : null);
async function madeSince(branch, count) {
  const made = (await bookOf(branch).catch(() => [])).slice(count);
  return [el("p", {}, el("strong", {}, text("has-changed"))), made.length ? entryLinks(branch, made) : ""];
}
// Shows the entries that a command has made, out of the book: those with its mark, or the ones behind those that it was
// bound to.
const MARKS = { dispatch: ({ id }) => "out:" + id, receive: ({ id, part }) => `in:${id}${part ? ":" + part : ""}`,
  close: ({ day }) => "close:" + day };
async function showMade(request, { added = 0 }) {
  const branch = branchOf(request), mark = MARKS[request.do]?.(request), count = Number(request["if-entries"]);
  const place = $("outcome").firstChild;
  if (!mark && !added) return;
  const book = await bookOf(branch).catch(() => []);
  const made = mark ? book.filter(one => one.mark === mark) : book.slice(count, count + added);
  if (!made.length || place !== $("outcome").firstChild) return;
  place.append(el("h3", {}, text("entries-made", { n: made.length })), made.length > 1 ? entryLinks(branch, made)
    : el("pre", { tabindex: "0" }, shown(made[0].written)));
}
// Whether a reply leaves open what became of the command. 41 may have been done; 40, 42, 43 and the server's own
// refusals say nothing of an earlier sending.
const isUndecided = ({ kind, number }, mayBeDone) => kind === "unknown" || number === 41
  || (mayBeDone && (kind === "denied" || [40, 42, 43].includes(number)));
function outcome(reply, request, isOpen, mayBeDone) {
  if (reply.kind === "unknown") {
    return panel("wait", el("p", {}, el("strong", {}, text("not-known")), " ", reply.why),
      el("p", {}, text("send-above")));
  }
  if (reply.kind === "denied") return denial(reply, request, isOpen ? "not-known" : "nothing-entered");
  if (reply.kind === "refused") {
    return refusal(reply, request, isOpen ? "maybe-done" : mayBeDone ? "nothing-now" : "nothing-done");
  }
  const branch = branchOf(request), { added: n, old } = reply;
  return panel("good",
    el("p", {}, el("strong", {}, reply.kind === "imported" ? text("imported", { n, old }) : text(reply.kind))),
    described(request), remarks(reply.notes),
    branch && buttons(el("a", { href: link("balance", { branch }) }, text("see-balance")), request.account
      && el("a", { href: link("register", { branch, account: request.account }) }, text("see-register"))));
}
function denial(reply, request, key) {
  const branch = branchOf(request);
  return panel("bad", el("p", {}, el("strong", {}, reply.status === 403 && branch !== undefined
    ? phrase("no-right-branch", { branch }) : reply.why)), el("p", {}, text(key)));
}
// What is done leaves its form, so that the next one gets an ID of its own.
const clear = (...names) => names.forEach(name => { $(name).value = ""; });
async function settle(request) {
  for (const { settled } of Object.values(FORMS)) settled?.(request);
  await loadFederation().catch(() => {});
  changeView();
}
// IDs are made before the first try, and stay until the treasury has said that it is done.
function randomText(length) {
  const letters = "abcdefghjkmnpqrstuvwxyz23456789", out = [];
  while (out.length < length) {
    const [one] = crypto.getRandomValues(new Uint8Array(1));
    if (one < letters.length * 8) out.push(letters[one % letters.length]);
  }
  return out.join("");
}

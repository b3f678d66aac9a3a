// ---------- What views have in common ----------

// The amounts of a cell, in the order in which the commodities were declared; if there is none, a zero of `zero`.
function amounts(sums, zero) {
  const rows = [...styles.keys()].filter(symbol => sums.get(symbol)).map(symbol => [symbol, sums.get(symbol)]);
  if (!rows.length && zero) rows.push([zero, 0n]);
  return rows.map(([symbol, units]) => el("div", {}, shown(printAmount(symbol, units))));
}
const amountCell = (amount, attributes) =>
  el(/-[0-9]/.test(amount) ? "td.amount.minus" : "td.amount", attributes, shown(amount));
const sumCells = columns => columns.map(sums => el(hasAny(sums) && [...sums.values()].some(units => units < 0n)
  ? "td.amount.minus" : "td.amount", {}, amounts(sums, zeroSymbol())));
const sumRow = (name, columns, classes = ".top") => el("tr" + classes, {}, el("th.name", { scope: "row" }, name),
  sumCells(columns));
let branches = [];
const turns = {};
// Shows what is loaded. Old rows never stand below a new title, and a late reply never replaces a newer one.
async function fill(place, load) {
  const mine = turns[place] = (turns[place] ?? 0) + 1, box = $(place), isLast = () => mine === turns[place];
  const focused = box.contains(document.activeElement) ? document.activeElement.id : "";
  box.setAttribute("aria-busy", "true");
  box.replaceChildren(el("p.soft", {}, text("loading")));
  let inside;
  try {
    inside = await load(isLast, step => { if (isLast()) box.replaceChildren(el("p.soft", {}, step)); });
  } catch (trouble) {
    const reply = trouble.reply ?? { kind: "unknown", why: text("strange", { status: 200 }) };
    inside = [reply.kind === "refused" ? refusal(reply) : panel(reply.kind === "denied" ? "bad" : "wait",
      el("p", {}, el("strong", {}, text("no-report")), " ", reply.why), buttons(button("try-again", refresh)))];
  }
  if (!isLast()) return;
  box.replaceChildren(...inside.flat().filter(Boolean));
  box.setAttribute("aria-busy", "false");
  box.dispatchEvent(new Event("filled"));
  if (focused && document.activeElement === document.body) $(focused)?.focus({ preventScroll: true });
}
// Makes a part of the page anew; the focus stays on what has the same ID.
function anew(make) {
  const { id } = document.activeElement;
  make();
  if (id && document.activeElement === document.body) $(id)?.focus({ preventScroll: true });
}
// What follows from leaving a field waits until the focus is where it goes and the mouse is released: a click meets
// what it was meant for.
async function released() {
  await rest();
  while (document.querySelector(":is(a, button, input, label):active")) await new Promise(go => setTimeout(go, 20));
}
// Goes through many things without holding up the page: it rests every few milliseconds.
const REST = 25;
const rest = () => new Promise(go => setTimeout(go));
async function slowly(items, act) {
  const out = [];
  let since = performance.now();
  for (const [at, one] of items.entries()) {
    out.push(act(one, at));
    if (at % 32 || performance.now() - since < REST) continue;
    await rest();
    since = performance.now();
  }
  return out;
}
// The books that were loaded. A book only grows: with as many entries it is the same book.
const books = new Map(), loadings = new Map();
async function bookOf(branch) {
  await loadFederation();
  const count = branches.find(one => one.name === branch)?.entries, had = books.get(branch);
  if (had && had.length === count) return had;
  if (!loadings.has(branch)) loadings.set(branch, loadBook(branch).finally(() => loadings.delete(branch)));
  return loadings.get(branch);
}
async function loadBook(branch) {
  const lines = await report("/journal/" + encoded(branch));
  const book = await slowly(lines, ([written], at) => entryOf(written, at + 1));
  books.set(branch, book);
  return book;
}
async function loadFederation() {
  branches = (await report("/branches")).map(([locked, entries, name]) => ({ locked, entries: Number(entries), name }));
  learnStyles(await report("/commodities"));
  showBranches();
}
function showBranches() {
  const names = branches.map(one => one.name), option = name => el("option", { value: name }, name);
  $("branch").replaceChildren(...names.map(option));
  $("branch").value = view.branch;
  const to = $("send-to").value;
  const others = names.filter(name => name !== view.branch);
  $("send-to").replaceChildren(el("option", { value: "" }, text("choose")), ...others.map(option));
  if (others.includes(to)) $("send-to").value = to;
  const written = samples.join(", ");
  for (const one of all("[data-samples]")) {
    one.replaceChildren(...(samples.length ? phrase("samples", { samples: written }) : [text("no-samples")]));
  }
}
async function loadAccounts() {
  const names = (await report("/accounts/" + encoded(view.branch))).map(([name]) => name);
  $("accounts").replaceChildren(...names.filter(name => view.name === "register" || !isTransit(name))
    .map(name => el("option", { value: name })));
}
// (a long name is broken behind a colon)
const toRegister = (account, branch) => el("a", { href: link("register", { branch, account }) },
  account.split(/(?<=:)/).map((name, at) => [at ? el("wbr") : null, shown(name)]));
const toItem = (branch, id, inside) => el("a", { href: link("item", { branch, id }) }, inside);
const lockState = ({ locked }) => locked ? text("locked-through", { day: locked }) : text("not-locked");
const onPaper = what => el("p.small.soft.only-paper", { "data-printed": what });
const printButton = () => button("print", () => print());
// Many items are built in steps, so that the page stays alive: the first ones, and further ones on demand. The browser
// lays out a step when it comes into sight. `make` makes the element of a step; it is `height` rem high for each item.
const STEP = 300;
function inSteps(items, height, countKey, make, most = STEP) {
  const place = el("div.steps"), state = el("p.small.soft"), controls = el("div.buttons.no-paper");
  let count = 0;
  const step = () => {
    const next = items.slice(count, count + most), made = el("div.step", {}, make(next, count === 0));
    made.style.setProperty("contain-intrinsic-height", `auto ${next.length * height}rem`);
    place.append(made);
    count += next.length;
    state.textContent = text(countKey, { n: count, all: items.length });
    const left = items.length - count;
    controls.replaceChildren(...(left ? [
      el("button", { type: "button", click: step }, text("more", { n: Math.min(most, left) })),
      left > most ? button("all", goOn) : ""] : []));
  };
  // (a timer, because frames stand still in a tab that nobody looks at)
  const goOn = () => {
    if (!place.isConnected || count >= items.length) return;
    step();
    setTimeout(goOn);
  };
  step();
  return [place, state, controls];
}
// Open transfers, the oldest first; `act` makes what can be done with one.
function transferTable(rows, day, caption, act) {
  const sorted = rows.toSorted(([one], [two]) => one < two ? -1 : one > two ? 1 : 0);
  return el("div.wide", {}, el("table.rows.transfers", {}, el("caption", {}, caption),
    headRow(["reference", "sent", "age", "from", "to"], ["amount", "left"], true),
    el("tbody", {}, sorted.map(row => {
      const [sent, amount, left, from, to, id] = row, age = dayNumber(day) - dayNumber(sent);
      return el(age > DAYS_OLD ? "tr.old" : "tr", {}, el("td.name", {}, shown(id)), el("td.day", {}, sent),
        named("age", text("days", { n: age })), named("from", shown(from)), named("to", shown(to)),
        amountCell(amount, { "data-name": text("amount") }), amountCell(left, { "data-name": text("left") }),
        el("td", {}, act(row)));
    }))));
}
const DAYS_OLD = 30;
// A day that nobody has chosen follows the calendar.
function propose(id, day) {
  if ($(id).value && $(id).value !== $(id).dataset.proposed) return;
  $(id).value = $(id).dataset.proposed = day;
}
// The end of last year where the branch is not locked through it, or else nothing: a lock cannot be taken back.
function lastYearEnd() {
  const day = `${String(Number(today().slice(0, 4)) - 1).padStart(4, "0")}-12-31`;
  return branches.some(one => one.name === view.branch && one.locked >= day) ? "" : day;
}
let pause = 0;
const soon = handle => () => { clearTimeout(pause); pause = setTimeout(handle, 250); };

// ---------- The statement of a period: income and expenses, and what there is at its beginning and end ----------

const KIND_TEXTS = { income: "income-of", expense: "expenses-of", asset: "assets-of", liability: "liabilities-of",
  other: "other-of" };
// Sums by kind, account and commodity of what a period has: at its beginning and end, and what moved but for closings.
function emptyPeriod() { return { begin: new Map(), end: new Map(), moved: new Map(), between: new Map() }; }
function put(sums, account, { symbol, units }) {
  const one = sums.get(account) ?? sums.set(account, new Map()).get(account);
  add(one, { symbol, units });
}
async function addPeriod(period, branch, from, to) {
  for (const [day, sign, place] of [[dayBefore(from), -1n, period.begin], [to, 1n, period.end]]) {
    if (!day) continue;
    for (const [amount, account] of await report(`/balance/${encoded(branch)}/${day}`)) {
      const { symbol, units } = readAmount(amount);
      put(place, account, { symbol, units });
      put(period.moved, account, { symbol, units: units * sign });
    }
  }
  // Closings are on or before the day of the lock; only then the book is looked at for them.
  const { locked } = branches.find(one => one.name === branch), isAll = view.of === "all";
  if (!isAll && !(locked >= from)) return;
  for (const entry of await bookOf(branch)) {
    if (entry.day < from || entry.day > to || !OWN.test(entry.mark)) continue;
    const isClosing = entry.mark.startsWith("close:");
    for (const { account, symbol, units } of legsOf(entry)) {
      if (isClosing) put(period.moved, account, { symbol, units: -units });
      else if (["income", "expense"].includes(kindOf(account))) put(period.between, account, { symbol, units });
    }
  }
}
function addAll(whole, period) {
  for (const [key, sums] of Object.entries(period)) {
    for (const [account, one] of sums) for (const [symbol, units] of one) put(whole[key], account, { symbol, units });
  }
}
function total(sums, kind) {
  const out = new Map();
  for (const [account, one] of sums) {
    if (kindOf(account) === kind) for (const [symbol, units] of one) add(out, { symbol, units });
  }
  return out;
}
// The rows of the accounts of a kind, of several periods side by side, and their sum.
function kindRows(kind, all, isTurned) {
  const names = [...new Set(all.flatMap(sums => [...sums.keys()]))].filter(name => kindOf(name) === kind).sort();
  const cell = (sums, name) => {
    const one = sums.get(name) ?? new Map();
    return isTurned ? turnedSums(one) : one;
  };
  return names.map(name => [name, all.map(sums => cell(sums, name))]).filter(([, columns]) => columns.some(hasAny))
    .map(([name, columns]) => sumRow(shown(name.split(":").slice(1).join(": ") || name), columns, ""));
}
// Of all branches together what they paid one another is neither income nor expense: it is set apart.
function earned({ moved, between }) {
  if (view.of !== "all") return moved;
  const less = (account, sums) => plus(sums, turnedSums(between.get(account) ?? new Map()));
  return new Map([...moved].map(([account, sums]) => [account, less(account, sums)]));
}
const surplusOf = moved => turnedSums(plus(total(moved, "income"), total(moved, "expense")));
// What a branch has sent stays on its transit account, and what it has received is taken off it, for good: for one
// branch that is no asset, and stands by itself. Of all branches together the sum is what is on the way.
const netOf = (sums, isAll) =>
  plus(total(sums, "asset"), total(sums, "liability"), isAll ? total(sums, "transit") : []);
const transfersOf = ({ begin, end }) => plus(total(begin, "transit"), turnedSums(total(end, "transit")));
function resultTable(now, before, heads) {
  const moved = [now, before].map(earned), each = (kind, isTurned) => moved.map(sums => isTurned
    ? turnedSums(total(sums, kind)) : total(sums, kind));
  const between = (kind, turn) => [now, before].map(one => turn(total(one.between, kind)));
  const received = between("income", turnedSums), paid = between("expense", one => one), isApart = view.of === "all";
  return statementTable("income-and-expenses", statementHead(heads), [
    sumRow(text("income-of"), each("income", true)), kindRows("income", moved, true),
    sumRow(text("expenses-of"), each("expense")), kindRows("expense", moved),
    sumRow(text("surplus"), moved.map(surplusOf), ".sum.top"),
    received.some(hasAny) ? sumRow(text(isApart ? "received-apart" : "received-between"), received, "") : null,
    paid.some(hasAny) ? sumRow(text(isApart ? "paid-apart" : "paid-between"), paid, "") : null]);
}
const statementTable = (key, head, rows) => el("div.wide", {}, el("table.statement.sides", {},
  el("caption", {}, text(key)), head, el("tbody", {}, rows.flat())));
const statementHead = heads => el("thead", {}, el("tr", {}, el("th", { scope: "col" }, text("account")),
  heads.map(head => el("th.amount", { scope: "col" }, head))));
function wealthTable(now, from, to) {
  const both = [now.begin, now.end], each = kind => both.map(sums => total(sums, kind));
  const isAll = view.of === "all", net = both.map(sums => netOf(sums, isAll));
  const change = plus(net[1], turnedSums(net[0])), surplus = surplusOf(earned(now));
  const transfers = isAll ? new Map() : transfersOf(now);
  const rest = plus(change, turnedSums(surplus), turnedSums(transfers));
  const debts = each("liability");
  const heads = [text("begin-of", { day: from }), text("end-of", { day: to })];
  return [statementTable("assets-and-liabilities", statementHead(heads), [
    sumRow(text("assets-of"), each("asset")), kindRows("asset", both),
    isAll && each("transit").some(hasAny) ? sumRow(text("transit-of"), each("transit")) : null,
    debts.some(hasAny) ? [sumRow(text("liabilities-of"), debts), kindRows("liability", both)].flat() : null,
    sumRow(text("net"), net, ".sum.top")]),
  statementTable("proof", null, [sumRow(text("surplus"), [surplus], ""),
    hasAny(transfers) ? sumRow(text("transfers-of"), [transfers], "") : null,
    hasAny(rest) ? sumRow(text("rest-of"), [rest], "") : null, sumRow(text("change-of"), [change], ".sum.top")])];
}
// All branches: one row each, so that no column is cut on paper.
function branchTable(list) {
  const columns = one => [turnedSums(total(earned(one), "income")), total(earned(one), "expense"),
    surplusOf(earned(one)), plus(transfersOf(one), surplusOf(one.between)), netOf(one.end, false)];
  const rows = list.map(({ name, period }) => [name, columns(period)]);
  const sums = columns(emptyPeriod()).map((_, at) => plus(...rows.map(([, row]) => row[at])));
  const head = headRow(["branch"], ["income-of", "expenses-of", "surplus", "transfers-short", "net-end"]);
  return statementTable("by-branch", head,
    [sumRow(text("all-branches"), sums), rows.map(([name, row]) => sumRow(shown(name), row, ""))]);
}
function showStatement() {
  const last = String(Number(today().slice(0, 4)) - (today().slice(5) < "07-01" ? 1 : 0)).padStart(4, "0");
  $("statement-from").value = view.from || `${last}-01-01`;
  $("statement-to").value = view.to || `${last}-12-31`;
  $("statement-of").value = view.of;
  const { branch, of } = view, from = valueOf("statement-from"), to = valueOf("statement-to");
  const names = of === "all" ? branches.map(one => one.name) : [branch];
  fill("statement-report", async (isLast, progress) => {
    if (from > to) return [el("p", {}, text("turned-days"))];
    await loadFederation();
    const now = emptyPeriod(), before = emptyPeriod(), list = [], unread = [];
    for (const name of names) {
      progress(text("loading-some", { n: list.length, all: names.length }));
      const own = emptyPeriod(), past = emptyPeriod();
      const isRead = await addPeriod(own, name, from, to)
        .then(() => addPeriod(past, name, yearBefore(from), yearBefore(to))).then(() => true, orDenied(false));
      if (!isLast()) return [];
      if (!isRead) {
        unread.push(name);
        continue;
      }
      for (const [whole, one] of [[now, own], [before, past]]) addAll(whole, one);
      list.push({ name, period: own });
    }
    const title = of === "all" ? text("all-branches") : branch, heads = [[from, to], [yearBefore(from), yearBefore(to)]]
      .map(([one, two]) => one.endsWith("01-01") && two.endsWith("12-31") && one.slice(0, 4) === two.slice(0, 4)
        ? one.slice(0, 4) : `${one} – ${two}`);
    return [el("h3", {}, text("statement-title", { what: title, from, to })), onPaper(title),
      unread.length ? el("p", {}, phrase("not-readable", { names: unread.join(", ") })) : null,
      resultTable(now, before, heads), ...wealthTable(now, from, to), list.length > 1 ? branchTable(list) : null,
      signatures(), kindChoice([...now.moved.keys(), ...before.moved.keys()]), buttons(printButton())];
  });
}
const signatures = () => el("div.signatures.only-paper", {}, ["place-and-day", "treasurer", "auditors"].map(key =>
  el("p", {}, text(key))));
let areKindsOpen = false;
function kindChoice(accounts) {
  const names = [...new Set(accounts.filter(name => !isTransit(name)).map(firstPart))].sort();
  return el("details.no-paper", { open: areKindsOpen, toggle: event => { areKindsOpen = event.target.open; } },
    el("summary", {}, text("kinds")), el("div.fields", {}, names.map((name, at) => el("div.field", {},
      el("label", { for: `kind-${at}` }, shown(name)), el("select", { id: `kind-${at}`,
      change: event => { keep("kinds", { ...kept("kinds", {}), [name]: event.target.value }); showStatement(); } },
    KINDS.map(kind => el("option", { value: kind, selected: kindOf(name) === kind }, text(KIND_TEXTS[kind]))))))));
}

VIEWS.statement = { group: "look", show: showStatement, hasBranch: true };
$("statement-form").addEventListener("submit", event => {
  event.preventDefault();
  const wanted = link("statement", { branch: view.branch, from: valueOf("statement-from"), to: valueOf("statement-to"),
    of: valueOf("statement-of") });
  if (location.hash === wanted) showStatement();
  else location.hash = wanted;
});

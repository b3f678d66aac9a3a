// ---------- What a check shows beside its answer ----------

// What an entry does to its accounts: their balances through its day, before and after.
async function effects(branch, day, legs) {
  const before = new Map(), keyOfLeg = (account, symbol) => symbol + "\n" + account, moves = new Map();
  for (const [amount, account] of await report(`/balance/${encoded(branch)}/${day}`)) {
    const { symbol, units } = readAmount(amount);
    before.set(keyOfLeg(account, symbol), units);
  }
  for (const { account, symbol, units } of legs) {
    const key = keyOfLeg(account, symbol);
    moves.set(key, { account, symbol, units: (moves.get(key)?.units ?? 0n) + units });
  }
  return el("div.wide", {}, el("table.sides", {}, el("caption", {}, text("effects", { day })),
    headRow(["account"], ["before", "change", "after"]),
    el("tbody", {}, [...moves].map(([key, { account, symbol, units }]) => {
      const had = before.get(key) ?? 0n;
      return el("tr", {}, el("td.name", {}, shown(account)), ...[had, units, had + units].map(one =>
        amountCell(printAmount(symbol, one))));
    }))));
}
// An entry of that day with the same accounts and amounts may be this very receipt.
async function twinOf(branch, day, legs) {
  const twin = (await bookOf(branch)).find(one => one.day === day && sameLegs(legsOf(one), legs));
  if (!twin) return null;
  const { number, description } = twin;
  return panel("wait", el("p", {}, el("strong", {}, phrase("twin", { number, what: description }))),
    el("p", {}, toItem(branch, number, text("see-entry"))));
}
// Below the check of a transfer: what it does in its branch.
async function transferPreview(branch, { from, to, day, account, amount }, sign) {
  const { symbol, units } = readAmount(amount), way = `assets:transit:${from}:${to}`;
  const legs = [{ account, symbol, units: sign * units }, { account: way, symbol, units: -sign * units }];
  return [await twinOf(branch, day, legs), await effects(branch, day, legs)];
}
// Below the check of an entry: its text, and what it does.
async function entryPreview({ branch, journal }) {
  const made = entryOf(journal, 0), legs = legsOf(made);
  return [await twinOf(branch, made.day, legs), el("pre", { tabindex: "0" }, shown(journal)),
    await effects(branch, made.day, legs)];
}

// ---------- A new entry, by a form ----------

// The mark is made before the first try, and stays until the treasury has said that the entry is there.
let entryMark = "", entryLines = 0;
function addLine(account = "", amount = "") {
  const at = entryLines++, ids = [`entry-to-${at}`, `entry-amount-${at}`], required = !at;
  const readAs = el("span.soft.small", { "aria-live": "polite" });
  const input = (id, value, more) => el("input", { id, value, required, autocomplete: "off", spellcheck: "false",
    ...more });
  const to = input(ids[0], account, { list: "accounts", change: proposeSays }), read = input(ids[1], amount);
  const show = () => {
    const found = amountTyped(read.value), form = phrase("samples", { samples: samples.join(", ") });
    readAs.replaceChildren(...(found ? ["= ", shown(printed(found))] : read.value || required ? form : []));
    showSum();
  };
  read.addEventListener("input", show);
  const label = (id, key) => el("label", { for: id, "data-text": key }, text(key));
  $("entry-lines").append(el("div.fields.line", { input: growLines },
    el("div.field", {}, label(ids[0], at ? "further-account" : "to-account"), to),
    el("div.field", {}, label(ids[1], "amount"), read, readAs)));
  show();
}
// Each line has its account and its amount. The last one is empty, for a further one, and those that are count for
// nothing.
const allLines = () => all("#entry-lines .line").map(line => [...line.querySelectorAll("input")].map(one => one.id));
const lineIds = () => allLines().filter(([account, amount], at) => !at || (valueOf(account) + valueOf(amount)).trim());
function growLines() {
  if (valueOf(allLines().at(-1)[1]).trim()) addLine();
}
function showSum() {
  const sums = new Map(), ids = lineIds();
  for (const [, id] of ids) {
    const read = amountTyped($(id).value);
    if (read) add(sums, read);
  }
  $("entry-sum").replaceChildren(...(ids.length > 1 ? [`${text("sum")}: `, [...sums].map(([symbol, units]) =>
    printAmount(symbol, units)).join(", ")] : []));
}
function resetEntry() {
  entryMark = "";
  entryLines = 0;
  for (const name of ["entry-what", "entry-from", "entry-says"]) $(name).value = "";
  $("entry-lines").replaceChildren();
  if (styles.size) addLine();
}
// What a bank or a cash box says is a balance of assets, on whichever side they are.
function proposeSays() {
  const isAsset = id => kindOf(valueOf(id).trim()) === "asset", [[first]] = allLines();
  $("entry-says-of").value = isAsset(first) && !isAsset("entry-from") ? "to" : "from";
}
// The legs that the form says: those of its lines, and what the account in front gives or takes.
function entryLegs() {
  const from = typedAccount("entry-from"), left = new Map();
  const legs = lineIds().map(([account, amount]) => {
    const read = typedAmount(amount);
    add(left, read);
    return { account: typedAccount(account), ...read };
  });
  for (const [symbol, units] of left) legs.push({ account: from, symbol, units: -units });
  if (!$("entry-says").value.trim()) return legs;
  const asserted = typedAmount("entry-says"), isFrom = $("entry-says-of").value === "from";
  const account = isFrom ? from : legs[0].account;
  const leg = legs.findLast(one => one.account === account && one.symbol === asserted.symbol);
  if (!leg) throw new Mistake("entry-says", "says-other", { amount: printed(asserted), account });
  leg.asserted = asserted;
  return legs;
}
function entryRequest() {
  entryMark ||= "p-" + randomText(16);
  const journal = entryText(valueOf("entry-day"), valueOf("entry-what"), entryMark, entryLegs());
  return { do: "import", branch: view.branch, journal };
}
function showEntry() {
  propose("entry-day", today());
  if (!lineIds().length) resetEntry();
  for (const [, id] of allLines()) $(id).dispatchEvent(new Event("input"));
  loadAccounts().catch(() => {});
  fill("entry-known", async () => {
    const book = await bookOf(view.branch), known = new Set();
    for (let at = book.length - 1; at >= 0 && known.size < 300; at--) known.add(book[at].description);
    $("descriptions").replaceChildren(...[...known].map(value => el("option", { value })));
    return [];
  });
}
// The accounts of the newest entry with the same description, where none is chosen yet.
function proposeAccounts() {
  const found = books.get(view.branch)?.findLast(one => one.description === valueOf("entry-what"));
  const [[first]] = lineIds();
  if (found && !valueOf("entry-from") && !valueOf(first)) putEntry(found, false);
}
// Puts an entry into the form: in front stands the account of its largest leg. The first line stays, because somebody
// may be on the way into it.
function putEntry(entry, isWhole) {
  const legs = legsOf(entry), size = ({ units }) => units < 0n ? -units : units;
  const front = legs.reduce((most, leg) => size(leg) > size(most) || (size(leg) === size(most) && leg.units < 0n) ? leg
    : most);
  $("entry-from").value = front.account;
  const [first, ...further] = legs.filter(leg => leg.account !== front.account);
  const amountOf = leg => isWhole && leg ? printed(leg) : "";
  for (const line of all("#entry-lines .line").slice(1)) line.remove();
  entryLines = 1;
  $("entry-to-0").value = first?.account ?? "";
  $("entry-amount-0").value = amountOf(first);
  $("entry-amount-0").dispatchEvent(new Event("input"));
  for (const leg of further) addLine(leg.account, amountOf(leg));
  if (isWhole) $("entry-what").value = entry.description;
  growLines();
  proposeSays();
}
// A receipt that is there already, as after a reply that was lost: a further one like it gets a mark of its own.
const entryThere = () => [el("p", {}, text("entry-there")), buttons(button("one-more-like-it", once(() => {
  entryMark = "";
  return attempt(FORMS.entry);
})))];

VIEWS.entry = { group: "enter", show: showEntry, hasBranch: true };
FORMS.entry = {
  request: entryRequest, preview: entryPreview, nothing: entryThere, button: "enter-now",
  refused: ({ number }) => number === 24 ? entryThere() : null,
  settled: ({ journal }) => { if (entryMark && journal?.includes(`bookid:${entryMark}\n`)) resetEntry(); },
};
$("entry-from").addEventListener("change", proposeSays);
$("entry-what").addEventListener("change", proposeAccounts);

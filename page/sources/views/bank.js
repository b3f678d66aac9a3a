// ---------- A bank's statement: its lines become entries, its closing balance an assertion ----------

// The file that was chosen, how it is read, and the statement of it that is shown.
let bank = null;
// The roles of columns with their texts.
const ROLES = { day: "day", amount: "amount", debit: "role-debit", credit: "role-credit", sign: "role-sign",
  payee: "role-payee", payer: "role-payer", purpose: "role-purpose", reference: "role-reference", balance: "running",
  state: "role-state" };
const bankSymbol = () => bank.statements[bank.which]?.symbol ?? zeroSymbol();
const decimalsOf = symbol => styles.get(symbol)?.decimals ?? 2;
async function chooseBank(files) {
  const read = [], bytesOf = file => file.arrayBuffer().catch(() => new ArrayBuffer());
  $("bank-lines").setAttribute("aria-busy", "true");
  for (const file of files) read.push(...await unpacked(file.name, new Uint8Array(await bytesOf(file))));
  bank = { files: read, which: 0, encoding: "" };
  readBank();
}
// Reads the files anew: those with separated values as was last chosen for such a file, or as is guessed from the first
// one that has lines.
function readBank() {
  hush();
  const texts = bank.files.map(({ name, bytes }) => ({ name, ...decoded(bytes, bank.encoding) }));
  const tables = texts.filter(({ written }) => fileKind(written) === "csv");
  const first = tables.find(({ written }) => readCsv(written, csvSetting(written), 2).lines.length) ?? tables[0];
  bank.setting = first && csvFor(first.written, bank.setting);
  bank.encoding = (first ?? texts[0]).encoding;
  const readers = { xml: readCamt, mt940: readMt940, csv: readTable };
  const found = texts.map(({ written }) => readers[fileKind(written)](written, decimalsOf) ?? []);
  bank.empty = texts.filter((_, at) => !found[at].some(({ lines, closings }) => lines.length + closings.length))
    .map(({ name }) => name);
  bank.statements = sameAccount(found.flatMap((statements, file) => statements.map(one =>
    ({ ...one, lines: one.lines.map(line => ({ ...line, file })) }))));
  if (!valueOf("bank-account")) $("bank-account").value = kept("bank " + bankKey(), {}).account ?? "";
  showBank();
}
const tableForm = ({ head, columns }) => head.join("\n") || JSON.stringify(columns);
function csvFor(written, setting) {
  const guess = csvSetting(written), key = String(sumOf(tableForm(guess)));
  const names = guess.head.length ? guess.head : csvRows(written, guess.delimiter)[guess.first]?.cells ?? [];
  return { symbol: zeroSymbol(), ...guess, ...kept("bank " + key, {}).setting, ...setting, key, names };
}
// A file with other heads than the first one is read as is guessed from itself.
function readTable(written) {
  const own = csvSetting(written), { setting } = bank, isAlike = String(sumOf(tableForm(own))) === setting.key;
  const used = isAlike ? { ...setting, first: own.first } : { ...own, symbol: setting.symbol };
  return [{ ...readCsv(written, used, decimalsOf(setting.symbol)), symbol: setting.symbol, account: "" }];
}
// What is kept of a bank is kept under its account there, or under the heads of its file.
const bankKey = () => bank.statements?.[bank.which]?.account || bank.setting?.key || "";
function keepBank() {
  const { order, mark, delimiter, columns, symbol } = bank.setting ?? {};
  keep("bank " + bankKey(), { account: valueOf("bank-account"),
    setting: bankKey() === bank.setting?.key ? { order, mark, delimiter, columns, symbol } : undefined });
}
async function digest(parts) {
  const bytes = new TextEncoder().encode(JSON.stringify(parts));
  const sum = new Uint8Array(await crypto.subtle.digest("SHA-256", bytes));
  return [...sum.slice(0, 12)].map(one => one.toString(16).padStart(2, "0")).join("");
}
const isReference = value => /[0-9]/.test(value) && !/^(NONREF|NOTPROVIDED|0+)$/i.test(value);
// The marks of lines: the digest of what the bank says of one, and which one of its like it is in its file. With a
// reference of the bank the words do not count, because banks change them.
async function marksOf(lines, account) {
  const counts = new Map(), marks = [];
  for (const line of lines) {
    const { day, units, reference, payee, purpose, file } = line;
    const words = isReference(reference) ? [reference] : [payee, purpose];
    const sum = await digest([account, day, String(units), ...words]), place = `${file} ${sum}`;
    counts.set(place, (counts.get(place) ?? 0) + 1);
    marks.push(`bank-${sum}-${counts.get(place)}`);
  }
  return marks;
}
// What lies in several files counts once.
function onceEach(all, marks) {
  const seen = new Set();
  return all.filter((one, at) => {
    const isNew = !seen.has(marks[at]);
    one.mark = marks[at];
    seen.add(one.mark);
    return isNew;
  });
}
// A collective booking has parts; any other line is its own part.
const partsOf = line => line.parts ?? [line];
// What the book has of a line already: its mark; or else an entry with its amount on the account, made by hand or by a
// transfer, a few days away; or one with another file's mark on the very day.
const NEAR = 5;
async function matchLines(lines, book, account, symbol) {
  const marks = new Map(book.map(entry => [entry.mark, entry])), taken = new Set();
  const moves = entry => legsOf(entry).filter(leg => leg.account === account && leg.symbol === symbol)
    .reduce((sum, { units }) => sum + units, 0n);
  for (const line of lines) {
    line.held = marks.get(line.mark) ?? null;
    if (line.held) taken.add(line.held.number);
  }
  if (!lines.length) return;
  const from = isoDay(dayNumber(lines[0].day) - NEAR), to = isoDay(dayNumber(lines.at(-1).day) + NEAR);
  const near = new Map();
  await slowly(book, entry => {
    if (entry.day < from || entry.day > to || taken.has(entry.number)) return;
    const units = moves(entry), alike = near.get(units);
    if (alike) alike.push(entry);
    else if (units) near.set(units, [entry]);
  });
  for (const line of lines.filter(({ held }) => !held)) {
    const away = entry => Math.abs(dayNumber(entry.day) - dayNumber(line.day));
    const fits = (near.get(line.units) ?? []).filter(entry => !taken.has(entry.number)
      && away(entry) <= (entry.mark.startsWith("bank-") ? 0 : NEAR));
    const best = fits.reduce((most, one) => !most || away(one) < away(most) ? one : most, null);
    line.like = best;
    if (best) taken.add(best.number);
    line.isTaken ??= !best;
  }
}
// A line may be money that another branch has sent: one that names the transfer, or has the amount of a single open
// one.
// It is to be received, so that it does not stay on its way.
function matchTransfers(lines, open, symbol) {
  const rows = open.map(([, , amount, from, , id]) => ({ from, id, left: readAmount(amount) }))
    .filter(({ left }) => left.symbol === symbol);
  const incoming = lines.filter(({ held, like, units }) => !held && !like && units > 0n), named = new Set();
  for (const line of incoming) {
    line.transfer = rows.find(({ id, left }) => left.units >= line.units && wordsOf(line).includes(id)) ?? null;
    named.add(line.transfer);
  }
  for (const line of incoming) {
    const equal = rows.filter(row => row.left.units === line.units && !named.has(row));
    if (!line.transfer && equal.length === 1) [line.transfer] = equal;
    if (line.transfer && line.isTransfer === undefined) Object.assign(line, { isTransfer: true, isTaken: false });
  }
}
function receiveLine({ transfer, day }) {
  const { account } = bank, take = () => {
    $("receive-day").value = day;
    $("receive-account").value = account;
  };
  return el("a", { href: link("receive", { branch: view.branch, id: transfer.id }), click: take },
    text("transfer-line", { id: transfer.id, branch: transfer.from }));
}
// What was found for another account or branch is forgotten.
function forgetMatches() {
  const all = bank.statements.flatMap(({ lines, closings }) => [...lines, ...lines.flatMap(partsOf), ...closings]);
  for (const one of all) {
    for (const key of ["held", "like", "isTaken", "counter", "transfer", "isTransfer"]) delete one[key];
  }
}
const wordsOf = ({ payee, purpose }) => payee && purpose ? `${payee} | ${purpose}` : payee || purpose;
const payeeKey = value => value.split(" | ")[0].toLowerCase().replace(/[^\p{L}]+/gu, " ").trim();
// The counter-account: where the newest entry with the same payee, and with money in the same direction, went.
async function proposeCounters(lines, book, account) {
  const known = new Map();
  await slowly(book, entry => {
    if (OWN.test(entry.mark) || entry.mark.startsWith("back-")) return;
    const legs = legsOf(entry), own = legs.filter(leg => leg.account === account);
    const others = legs.filter(leg => leg.account !== account);
    if (own.length === 1 && others.length === 1) {
      known.set(`${own[0].units < 0n} ${entry.payee}`, others[0].account);
    }
  });
  for (const part of lines.flatMap(partsOf)) {
    part.counter ??= known.get(`${part.units < 0n} ${payeeKey(wordsOf(part))}`) ?? "";
  }
}
const endMark = async (account, { day, units }) => `bank-end-${day}-${await digest([account, String(units)])}`;
async function showBank() {
  loadAccounts().catch(() => {});
  $("bank-setting").hidden = !bank?.setting;
  if (!bank) return;
  bank.isReady = false;
  const place = `${view.branch} ${valueOf("bank-account").trim()}`;
  if (bank.place !== place) forgetMatches();
  bank.place = place;
  if (bank.setting) showSetting();
  await fill("bank-lines", async isLast => {
    const statement = bank.statements?.[bank.which], account = valueOf("bank-account").trim(), symbol = bankSymbol();
    const nothing = bank.empty.map(file => panel("bad", el("p", {}, phrase("bank-unread", { file }))));
    if (!statement || !(statement.lines.length + statement.closings.length)) {
      return [...nothing, unreadLines(statement?.unread ?? [])];
    }
    const book = account ? await bookOf(view.branch) : [];
    if (!styles.has(symbol)) return [panel("bad", el("p", {}, text("bank-symbol", { symbol })))];
    const marks = await marksOf(statement.lines, account);
    const ends = await Promise.all(statement.closings.map(one => endMark(account, one)));
    const listed = await report("/transfers/" + FOREVER).catch(orDenied(null));
    const open = (listed ?? []).filter(row => row[4] === view.branch);
    if (!isLast()) return [];
    const lines = onceEach(statement.lines, marks), closings = onceEach(statement.closings, ends);
    const doubled = (statement.doubled ?? 0) + statement.lines.length - lines.length;
    Object.assign(statement, { lines, closings, doubled });
    if (account) {
      await slowly(book, entry => { entry.payee ??= payeeKey(entry.description); return legsOf(entry); });
      if (!isLast()) return [];
      await matchLines(lines, book, account, symbol);
      if (!isLast()) return [];
      matchTransfers(lines, open, symbol);
      await proposeCounters(lines, book, account);
      await rest();
      if (!isLast()) return [];
    }
    for (const one of closings) {
      one.held = book.find(({ mark }) => mark === one.mark) ?? null;
      one.isTaken ??= true;
    }
    Object.assign(bank, { book, account, isReady: Boolean(account) });
    return [...nothing, listed ? null : el("p", {}, text("no-list")), ...bankReport(statement, account, symbol)];
  });
}
// The settings of a file with separated values: each can be corrected, and the table below follows.
function showSetting() {
  const { setting } = bank, reread = () => { keepBank(); readBank(); };
  const choice = (key, value, options, change) => el("div.field", {},
    el("label", { for: "bank-" + key }, text(ROLES[key] ?? key)),
    el("select", { id: "bank-" + key, change: event => { change(event.target.value); reread(); } },
      options.map(([name, label]) => el("option", { value: name, selected: String(name) === String(value) }, label))));
  const columns = [[-1, "–"], ...setting.names.map((name, at) => [at, `${at + 1} ${name}`.slice(0, 40)])];
  const columnOf = role => choice(role, setting.columns[role], columns, at => { setting.columns[role] = Number(at); });
  anew(() => $("bank-columns").replaceChildren(
    choice("encoding", bank.encoding, ["utf-8", "windows-1252", "utf-16le"].map(one => [one, one]),
      one => { bank.encoding = one; }),
    choice("commodity", setting.symbol, [...styles.keys()].map(one => [one, one]), one => { setting.symbol = one; }),
    choice("delimiter", setting.delimiter, DELIMITERS.map(one => [one, one === "\t" ? "Tab" : one]),
      one => { setting.delimiter = one; }),
    choice("order", setting.order, [["dmy", text("order-dmy")], ["mdy", text("order-mdy")]],
      one => { setting.order = one; }),
    choice("decimal-mark", setting.mark, [[",", ","], [".", "."]], one => { setting.mark = one; }),
    ...Object.keys(ROLES).map(columnOf)));
}
const sumOfLines = lines => lines.reduce((sum, { units }) => sum + units, 0n);
// The balance of the bank's account in the book through a day, and with the lines that are to be entered.
function booksThrough(account, symbol, day, lines) {
  const legs = bank.book.filter(one => one.day <= day).flatMap(legsOf)
    .filter(leg => leg.account === account && leg.symbol === symbol);
  return sumOfLines(legs) + sumOfLines(lines.filter(line => !line.held && line.isTaken && line.day <= day));
}
function bankReport({ lines, unread, skipped, closings, opening, gap, doubled }, account, symbol) {
  const print = units => printAmount(symbol, units), [first] = lines, last = lines.at(-1), sum = sumOfLines(lines);
  const count = isSo => lines.filter(isSo).length;
  const counts = { all: lines.length, n: count(one => !one.held && one.isTaken), old: count(one => one.held),
    like: count(one => !one.held && one.like) };
  const isWhole = opening === null || closings.length !== 1 || opening + sum === closings[0].units;
  return [
    bank.statements.length > 1 ? accountChoice() : null,
    facts([[text("lines-read"), text("lines-counts", counts)],
      first && [text("from-to"), `${first.day} – ${last.day}`], [text("sum"), print(sum)],
      opening === null ? null : [text("opening"), print(opening)],
      skipped ? [text("not-booked"), String(skipped)] : null,
      doubled ? [text("in-several"), String(doubled)] : null]),
    gap || !isWhole ? panel("wait", el("p", {}, text("file-gap", { day: gap?.day ?? closings[0].day }))) : null,
    unreadLines(unread),
    account ? lines.length ? bankTable(lines, symbol) : null : el("p", {}, text("choose-account")),
    account ? closings.map((one, at) => closingRow(one, at, account, symbol, lines)) : null,
  ];
}
function accountChoice() {
  const choose = event => {
    bank.which = Number(event.target.value);
    $("bank-account").value = kept("bank " + bankKey(), {}).account ?? "";
    showBank();
  };
  return el("select", { id: "bank-which", "aria-label": text("account"), change: choose },
    bank.statements.map((one, at) => el("option", { value: at, selected: at === bank.which }, one.account)));
}
const unreadLines = unread => unread.length ? panel("bad", el("p", {}, text("lines-unread", { n: unread.length })),
  el("ul", {}, unread.slice(0, 5).map(({ at, cells }) => el("li", {}, text("line", { line: at }), ": ",
    shown(cells.join(" | ").slice(0, 200)))))) : null;
const toKnown = ({ number, day }, key) => toItem(view.branch, number, text(key, { number, day }));
function bankTable(lines, symbol) {
  const row = (line, at) => {
    const { held, like, day, units } = line, words = wordsOf(line), known = held ?? like;
    const pick = el("input", { id: `bank-pick-${at}`, type: "checkbox", checked: !held && line.isTaken,
      disabled: Boolean(held),
      "aria-label": text("enter-line", { day, what: words }),
      change: event => { line.isTaken = event.target.checked; hush(); showBank(); } });
    const fields = partsOf(line).map((part, step) => {
      const label = line.parts ? `${printAmount(symbol, part.units)} ${wordsOf(part)}` : "";
      part.id = `bank-counter-${at}${line.parts ? "-" + step : ""}`;
      return [label && el("label", { for: part.id }, shown(label)), el("input", { id: part.id, list: "accounts",
        value: part.counter ?? "", autocomplete: "off", spellcheck: "false", placeholder: text("counter-account"),
        "aria-label": `${text("counter-account")}: ${day} ${label || words}`,
        change: event => chooseCounter(lines, part, event.target.value.trim()) })];
    });
    return el(held ? "tr.held" : "tr", {}, el("td", {}, pick), el("td.day", {}, day),
      el("td.name.across", {}, shown(words)), amountCell(printAmount(symbol, units)),
      el("td.across", {}, known ? toKnown(known, held ? "held-line" : "like-line") : null,
        !known && line.transfer ? receiveLine(line) : null,
        held || ((like || line.transfer) && !line.isTaken) ? null : fields));
  };
  const table = (some, isFirst) => el("table.rows.bank" + (isFirst ? "" : ".further"), {},
    headRow(["enter-it", "day", "description"], ["amount"], false, ["counter-account"]),
    el("tbody", {}, some.map(line => row(line, lines.indexOf(line)))));
  const [place, state, controls] = inSteps(lines, 3, "lines-some", table, 100);
  return [el("div.wide", {}, place), state, controls];
}
// What is chosen for one line is proposed for the others of the same payee.
function chooseCounter(lines, part, account) {
  part.counter = account;
  for (const other of lines.flatMap(partsOf)) {
    const isAlike = !other.counter && payeeKey(wordsOf(other)) === payeeKey(wordsOf(part))
      && (other.units < 0n) === (part.units < 0n);
    if (!isAlike) continue;
    other.counter = account;
    if (other.id && $(other.id)) $(other.id).value = account;
  }
}
function closingRow(one, at, account, symbol, lines) {
  const books = booksThrough(account, symbol, one.day, lines), print = units => printAmount(symbol, units);
  const pick = el("input", { id: `bank-end-${at}`, type: "checkbox", checked: one.isTaken, disabled: Boolean(one.held),
    change: event => { one.isTaken = event.target.checked; hush(); } });
  return panel(one.held || books === one.units ? "good" : "wait",
    el("p.choice", {}, el("label", { for: `bank-end-${at}` }, pick, " ",
      text("bank-says", { day: one.day, amount: print(one.units) }))),
    one.held ? el("p", {}, toKnown(one.held, "held-line")) : facts([[text("books-say"), print(books)],
      books === one.units ? null : [text("difference"), print(books - one.units)]]),
    one.held || books === one.units ? null : missing(books - one.units, one.day, symbol, lines));
}
// The last day before another on which the account was checked: what is older is right.
const checkedBefore = (account, day) => bank.book
  .filter(entry => entry.day < day && entry.postings.some(one => one.account === account && one.asserted))
  .reduce((last, entry) => last && last > entry.day ? last : entry.day, null);
// The entries from a day on that move the account and are none of the bank's lines.
function unmatched(account, symbol, from, to, lines) {
  const known = new Set(lines.map(({ held, like }) => held ?? like));
  return bank.book.filter(entry => entry.day >= from && entry.day <= to && !known.has(entry)
    && legsOf(entry).some(leg => leg.account === account && leg.symbol === symbol && leg.units));
}
// What may explain a difference: what only the book has, what was left out, and an amount of that size or half of it.
function missing(difference, day, symbol, lines) {
  const { account } = bank, { opening } = bank.statements[bank.which], begin = lines[0]?.day ?? day;
  const print = units => printAmount(symbol, units);
  const left = lines.filter(one => !one.held && !one.isTaken && !one.like && one.day <= day);
  // (an entry before the first line that is one of the lines is none of the bank's balance there)
  const known = new Set(lines.map(({ held, like }) => held ?? like));
  const before = bank.book.filter(one => one.day < begin && !known.has(one)).flatMap(legsOf)
    .filter(leg => leg.account === account && leg.symbol === symbol);
  const isOlder = opening !== null && sumOfLines(before) !== opening;
  const only = unmatched(account, symbol, checkedBefore(account, day) ?? begin, day, lines);
  const hits = lines.filter(({ units }) => [1n, -1n, 2n, -2n].some(times => units * times === difference));
  return el("div.report", {}, el("p", {}, text("may-be-missing")), el("ul", {},
    isOlder ? el("li", {}, text("missing-older",
      { day: begin, books: print(sumOfLines(before)), bank: print(opening) })) : null,
    only.slice(0, 8).map(entry => el("li", {}, text("missing-only"), " ", toItem(view.branch, entry.number,
      `${entry.number}, ${entry.day} ${entry.description}`))),
    left.slice(0, 8).map(line => el("li", {}, text("missing-left"), ` ${line.day} ${print(line.units)} `,
      shown(wordsOf(line)))),
    hits.slice(0, 8).map(line => el("li", {}, text("missing-same"), ` ${line.day} ${print(line.units)} `,
      shown(wordsOf(line)))),
    isOlder || only.length || left.length || hits.length ? null : el("li", {}, text("missing-nothing"))));
}
function counterOf(line, part) {
  const isShown = part.id && $(part.id);
  if (part.counter) return isShown ? typedAccount(part.id) : part.counter;
  throw new Mistake(isShown ? part.id : "bank-account", "counter-missing", { day: line.day, what: wordsOf(part) });
}
// (the book is looked at anew, because somebody else may have entered lines meanwhile)
async function bankRequest() {
  await showBank();
  const account = typedAccount("bank-account"), statement = bank?.statements?.[bank.which];
  if (!statement || !bank.isReady || bank.account !== account) {
    throw new Mistake("bank-file", bank ? "loading" : "bank-choose", {});
  }
  keepBank();
  const made = [], symbol = bankSymbol();
  for (const line of statement.lines) {
    if (line.held) made.push(line.held.written);
    if (line.held || !line.isTaken) continue;
    made.push(entryText(line.day, wordsOf(line), line.mark, [{ account, symbol, units: line.units },
      ...partsOf(line).map(part => ({ account: counterOf(line, part), symbol, units: -part.units }))]));
  }
  for (const one of statement.closings) {
    if (one.held) made.push(one.held.written);
    else if (one.isTaken) {
      const asserted = { symbol, units: one.units };
      made.push(entryText(one.day, text("bank-statement"), one.mark, [{ account, symbol, units: 0n, asserted }]));
    }
  }
  return { do: "import", branch: view.branch, journal: made.join("\n") };
}
// What is checked with a bank's lines: the accounts before and after, through the last day.
async function bankPreview({ branch, journal }) {
  const marks = new Set((await bookOf(branch)).map(({ mark }) => mark));
  const made = journal.split(/\n\n/).map((one, at) => entryOf(one, at)).filter(({ mark }) => !marks.has(mark));
  const last = made.reduce((most, { day }) => day > most ? day : most, "");
  return effects(branch, last, made.flatMap(legsOf).filter(({ units }) => units));
}

VIEWS.bank = { group: "enter", show: showBank, hasBranch: true };
FORMS.bank = { request: bankRequest, preview: bankPreview };
$("bank-file").addEventListener("change", event => {
  if (event.target.files.length) chooseBank([...event.target.files]);
});
// (a check that was asked for meanwhile has shown the lines itself)
$("bank-account").addEventListener("change", async () => {
  const turn = turns["bank-lines"];
  await released();
  if (bank && turn === turns["bank-lines"]) showBank();
});

// ---------- The journal of a branch ----------

// (a mark that the treasury made is no text to be found: it is a number that would hold nearly everything)
const searched = ({ written }) => written.replace(/\n {4}; bookid:(h|bank|bank-end)-\S*/, "").toLowerCase();
// What is looked for: all words, an amount on either side, a period. Nothing if it is not understood.
function wantedEntries() {
  const words = valueOf("journal-find").toLowerCase().split(/\s+/).filter(Boolean), typed = valueOf("journal-amount");
  const from = valueOf("journal-from"), to = valueOf("journal-to") || FOREVER, amount = typed && amountTyped(typed);
  if (amount === null) return null;
  const isIt = leg => leg.symbol === amount.symbol && [amount.units, -amount.units].includes(leg.units);
  const isAll = !words.length && !amount && !from && to === FOREVER;
  const isFound = entry => entry.day >= from && entry.day <= to && (!amount || legsOf(entry).some(isIt))
    && (!words.length || words.every(word => searched(entry).includes(word)));
  return { isAll, isFound };
}
function journal(isSearch = false) {
  const { branch } = view;
  fill("journal-report", async () => {
    const book = isSearch && books.get(branch) || await bookOf(branch), wanted = wantedEntries();
    if (!wanted) return [el("p", {}, phrase("amount-form", { amount: valueOf("journal-amount"),
      samples: samples.join(", ") }))];
    const isIn = await slowly(wanted.isAll ? [] : book, wanted.isFound);
    const found = wanted.isAll ? book.toReversed() : book.filter((_, at) => isIn[at]).reverse();
    const marks = new Set(book.map(({ mark }) => mark));
    const steps = inSteps(found, 6, "entries-some", some => some.map(entry => el("div.entry", {},
      el("p.apart", {}, toItem(branch, entry.number, `${text("entry-number")} ${entry.number}`),
        toReversal(entry, marks)),
      el("pre", {}, shown(entry.written)))));
    return [buttons(button("save", () => saveJournal(branch, book), ".main")),
      wanted.isAll ? null : el("p", {}, found.length ? text("found-of", { n: found.length, all: book.length })
        : text("no-entries")), steps];
  });
}
function toReversal({ number, mark }, marks) {
  const { branch } = view, isMovable = mayEnter(branch) && !OWN.test(mark) && !marks.has(`back-${branch}-${number}`);
  return isMovable ? el("a.no-paper", { href: link("item", { branch, id: number, of: "reverse" }),
    "aria-label": text("reverse-number", { number }) }, text("reverse-short")) : null;
}
// The journal report, byte for byte: each text of a transaction and an empty line.
function saveJournal(branch, book) {
  const body = new Blob(book.map(({ written }) => written + "\n"), { type: "text/plain;charset=utf-8" });
  const made = el("a", { href: URL.createObjectURL(body), download: `${branch}-${today()}.journal`, hidden: true });
  document.body.append(made);
  made.click();
  setTimeout(() => { URL.revokeObjectURL(made.href); made.remove(); }, 60000);
}

VIEWS.journal = { group: "look", show: journal, hasBranch: true };
for (const name of ["find", "amount", "from", "to"]) {
  $("journal-" + name).addEventListener("input", soon(() => journal(true)));
}

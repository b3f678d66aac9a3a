// ---------- An entry: with all its postings, to be reversed and copied ----------

async function item() {
  const { branch, id, of } = view;
  $("reverse-form").hidden = true;
  await fill("item-report", async () => {
    const book = await bookOf(branch), entry = book[Number(id) - 1];
    if (!entry) return [el("p", {}, text("no-entry"))];
    const back = book.find(one => one.mark === `back-${branch}-${entry.number}`), legs = legsOf(entry);
    const isMovable = mayEnter(branch) && !OWN.test(entry.mark) && legs.some(({ units }) => units);
    const turned = Number(new RegExp(`^back-${branch}-([0-9]+)$`).exec(entry.mark)?.[1]);
    $("reverse-form").hidden = !isMovable || Boolean(back);
    if ($("reverse-day").value < entry.day) $("reverse-day").value = today() < entry.day ? entry.day : today();
    const step = (key, number) => book[number - 1] ? toItem(branch, number, text(key)) : "";
    return [
      facts([[text("entry-number"), id], [text("day"), entry.day], entry.code && [text("code"), entry.code],
        [text("description"), entry.description], [text("mark"), el("span.name", {}, shown(entry.mark))],
        ...entry.comments.map(one => [text("comment"), one]),
        turned && [text("reverses"), toItem(branch, turned, [turned, book[turned - 1]?.day].join(", "))],
        back && [text("reversed-by"), toItem(branch, back.number, `${back.number}, ${back.day}`)]]),
      itemTable(entry),
      OWN.test(entry.mark) ? el("p.soft", {}, text("no-reverse")) : null,
      buttons(isMovable ? button("copy", () => copyEntry(entry)) : null, step("entry-before", entry.number - 1),
        step("entry-after", entry.number + 1), printButton()),
    ];
  });
  // (whoever comes to reverse it sees at once what that would do)
  if (of !== "reverse" || view.id !== id || $("reverse-form").hidden) return;
  view.of = "";
  history.replaceState(null, "", link("item", view));
  await attempt(FORMS.reverse);
}
function itemTable(entry) {
  const { branch } = view, inferred = inferredOf(entry);
  return el("div.wide", {}, el("table.sides", {}, headRow(["account"], ["amount", "asserted"]), el("tbody", {},
    entry.postings.map(({ account, amount, at, price, sign, asserted, comments }) => el("tr", {},
      el("td.name", {}, toRegister(account, branch), comments.map(one => el("div.soft.small", {}, shown("; " + one)))),
      el("td.amount", {}, amount ? shown(amount) : inferred.map(one => el("div", {}, shown(printed(one)))),
        at ? el("div.soft.small", {}, shown(`${at} ${price}`)) : null),
      el("td.amount", {}, asserted ? shown(`${sign} ${asserted}`) : ""))))));
}
function copyEntry(entry) {
  resetEntry();
  putEntry(entry, true);
  location.hash = link("entry", { branch: view.branch });
}
// The counter-entry. Its mark names what it reverses, so that this is done once; tags go with it.
function reverseRequest() {
  const { branch, id } = view, entry = books.get(branch)[Number(id) - 1];
  const { number, description, comments, postings } = entry;
  const turned = amount => {
    const { symbol, units } = readAmount(amount);
    return printAmount(symbol, -units);
  };
  const inferred = inferredOf(entry).length === 1 ? printed(inferredOf(entry)[0]) : undefined;
  const lines = [`${valueOf("reverse-day")} ${plain(text("reversal", { number, description }))}`,
    `    ; bookid:back-${branch}-${number}`, ...comments.map(one => `    ; ${one}`),
    ...postings.flatMap(({ account, amount, at, price, comments: own }) => [
      `    ${account}${amount ?? inferred ? "  " + turned(amount ?? inferred) : ""}${at ? ` ${at} ${price}` : ""}`,
      ...own.map(one => `    ; ${one}`)]), ""];
  return { do: "import", branch, journal: lines.join("\n") };
}

VIEWS.item = { group: "", show: item, hasBranch: true };
FORMS.reverse = {
  request: reverseRequest, preview: entryPreview, button: "enter-now",
  refused: ({ number }) => number === 24 ? el("p", {}, text("reversed-before")) : null,
};

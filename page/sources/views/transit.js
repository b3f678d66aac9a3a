// ---------- On the way between branches ----------

function transit() {
  const { day } = view, caption = text("open-transfers", { day });
  const receiveLink = ([, , , from, to, id]) => el("a", { href: link("receive", { branch: to, id }),
    "aria-label": text("receive-this", { id, branch: from }) }, text("receive"));
  fill("transit-report", async () => {
    const rows = await report("/transfers/" + day), sums = await report("/transit/" + day);
    if (!rows.length) return [el("p", {}, text("nothing-open"))];
    return [onPaper(caption), transferTable(rows, day, caption, receiveLink),
      el("div.wide", {}, el("table", {}, el("caption", {}, text("transit-sums", { day })),
        headRow(["from", "to"], ["left"]),
        el("tbody", {}, sums.filter(([amount]) => readAmount(amount).units !== 0n).map(([amount, from, to]) =>
          el("tr", {}, el("td", {}, shown(from)), el("td", {}, shown(to)), amountCell(amount)))))),
      buttons(printButton())];
  });
}

VIEWS.transit = { group: "look", show: transit, hasDay: true };

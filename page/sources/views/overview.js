// ---------- The federation ----------

function overview() {
  const { day } = view;
  fill("overview-report", async (isLast, progress) => {
    const found = [];
    for (const { name } of branches) {
      progress(text("loading-some", { n: found.length, all: branches.length }));
      found.push(await report(`/balance/${encoded(name)}/${day}`).catch(orDenied(null)));
      if (!isLast()) return [];
    }
    const readable = branches.filter((_, at) => found[at]), columns = found.filter(Boolean);
    if (!branches.length) return [el("p", {}, text("no-branch"))];
    const heads = readable.map(one => [el("a", { href: link("balance", { branch: one.name, day }) }, shown(one.name)),
      el("span.soft", {}, text("entries", { n: one.entries })), el("span.soft", {}, lockState(one))]);
    const caption = text("branches-through", { day }), names = branches.filter((_, at) => !found[at])
      .map(({ name }) => name).join(", ");
    return [onPaper(caption), names ? el("p", {}, phrase("not-readable", { names })) : null,
      ...paperOverview(readable, columns), ...tree("overview", caption, [columns.flat(), ...columns],
        [text("all-branches"), ...heads], () => null, "", 0).map((one, at) => at ? one : el("div.no-paper", {}, one))];
  });
}
// On paper branches are rows, so that none is cut off: some accounts at a time, and the sum of all branches first.
function paperOverview(readable, columns) {
  const root = treeOf([columns.flat(), ...columns]), tops = [...root.inside.values()], blocks = [];
  while (tops.length) blocks.push(tops.splice(0, 5));
  return blocks.map(block => el("table.only-paper.turned", {},
    el("thead", {}, el("tr", {}, el("th", { scope: "col" }, text("branch")),
      block.map(({ name }) => el("th.amount", { scope: "col" }, shown(name))))),
    el("tbody", {}, [text("all-branches"), ...readable.map(one => shown(one.name))].map((name, at) =>
      sumRow(name, block.map(({ sums }) => sums[at]), at ? "" : ".top")))));
}

VIEWS.overview = { group: "look", show: overview, hasDay: true };

// ---------- The balance of a branch ----------

let balanceRows = { key: "", rows: [] };
function balance(isSearch = false) {
  const { branch, day } = view, key = `/balance/${encoded(branch)}/${day}`;
  fill("balance-report", async () => {
    if (!isSearch || balanceRows.key !== key) balanceRows = { key, rows: await report(key) };
    const { rows } = balanceRows;
    const caption = phrase("balance-through", { branch, day });
    const likes = alike(rows.map(([, account]) => account).filter((name, at, names) => names.indexOf(name) === at));
    const warning = likes.length ? panel("wait", likes.map(names =>
      el("p", {}, phrase("alike", { names: names.join(", ") })))) : null;
    const target = account => link("register", { branch, account, day }), depth = rows.length > 400 ? 1 : 9;
    return [onPaper(text("balance-through", { branch, day })), warning,
      ...tree("balance", caption, [rows], [text("running")], target, $("balance-find").value, depth)];
  });
}

VIEWS.balance = { group: "look", show: balance, hasBranch: true, hasDay: true };
$("balance-find").addEventListener("input", soon(() => balance(true)));

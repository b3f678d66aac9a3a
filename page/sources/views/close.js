// ---------- Close ----------

// The accounts above all others of the branch that may be closed.
let closable = { branch: "", names: [] };
function showClose() {
  const { branch } = view;
  propose("close-day", lastYearEnd());
  loadAccounts().catch(() => {});
  report("/accounts/" + encoded(branch)).then(rows => { if (branch === view.branch) offerClosing(rows); }, () => {});
}
// Those of income and expenses are ticked. Without a list the treasury takes the ones with English names alone.
const isEnglish = name => /^(incomes?|revenues?|expenses?)$/i.test(name);
function offerClosing(rows) {
  const { branch } = view, names = [...new Set(rows.map(([name]) => firstPart(name)))]
    .filter(name => ["income", "expense", "other"].includes(kindOf(name)));
  const found = names.filter(name => kindOf(name) !== "other");
  if (closable.branch !== branch) clear("close-accounts");
  closable = { branch, names };
  propose("close-accounts", found.every(isEnglish) ? "" : found.join(";"));
  showTicks();
}
// Ticks and list say the same.
function showTicks() {
  const listed = listOf("close-accounts").split(";").filter(Boolean);
  const isTicked = name => listed.length ? listed.includes(name) : isEnglish(name);
  $("close-which").replaceChildren(...closable.names.map(name => el("label", {}, el("input", { type: "checkbox",
    value: name, checked: isTicked(name), change: takeTicks }), " ", shown(name))));
}
function takeTicks() {
  const ticked = all("#close-which :checked").map(one => one.value);
  const isUsual = closable.names.every(name => ticked.includes(name) === isEnglish(name));
  $("close-accounts").value = isUsual ? "" : ticked.join(";");
}
function closeRequest() {
  const list = listOf("close-accounts"), into = valueOf("close-into");
  if (!list && closable.names.some(isEnglish) && !all("#close-which :checked").length) {
    throw new Mistake("close-accounts", "close-none", {});
  }
  return { do: "close", branch: view.branch, day: valueOf("close-day"), ...(list && { accounts: list }),
    ...(into && { into }) };
}

VIEWS.close = { group: "finish", show: showClose, hasBranch: true };
FORMS.close = { request: closeRequest };
$("close-accounts").addEventListener("input", showTicks);

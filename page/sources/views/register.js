// ---------- The register of an account ----------

function register() {
  const { branch, account, tag, from } = view;
  $("register-account").value = account;
  $("register-from").value = from;
  $("register-tag").value = tag;
  fill("register-report", async () => account ? registerTable(await report(registerPath(branch, account, tag)))
    : accountList(await report("/accounts/" + encoded(branch))));
}
const accountList = lines =>
  [el("ul.accounts", {}, lines.map(([name]) => el("li", {}, toRegister(name, view.branch))))];
async function registerTable(whole) {
  const { branch, account, tag, from, day: through } = view;
  const rows = whole.filter(([day]) => day >= from && day <= through);
  const later = whole.filter(([day]) => day > through).length;
  const hidden = later ? el("p", {}, text("later", { n: later }), " ", el("a", { href: link("register", { ...view,
    day: FOREVER }) }, text("show-later"))) : null;
  if (!rows.length) return [el("p", {}, text(whole.length ? "none-then" : "no-postings")), hidden];
  const isOldFirst = kept("oldest-first", false), hasAccounts = rows.some(row => row[4] !== rows[0][4]);
  const heads = ["day", "entry-number", "description", ...(hasAccounts ? ["account"] : [])];
  // All steps have columns of the same width: for amounts that of the longest one.
  const ends = [2, 3].map(at => `${rows.reduce((most, row) => Math.max(most, row[at].length), 8) + 2.2}ch`);
  const widths = ["11.5ch", "7.5ch", "", ...(hasAccounts ? [""] : []), ...ends];
  const columns = () => el("colgroup", {}, widths.map(width => {
    const made = el("col");
    made.style.setProperty("width", width);
    return made;
  }));
  const row = ([day, entry, amount, sum, name, description]) => el("tr", {},
    el("td.day", {}, day), named("entry-number", toItem(branch, entry, entry)),
    el("td.name.across", {}, shown(description)),
    hasAccounts ? el("td.name.across", {}, toRegister(name, branch)) : null,
    amountCell(amount), amountCell(sum, { "data-name": text("running") }));
  const table = (some, isFirst) => el("table.rows.even" + (isFirst ? "" : ".further"), {},
    el("caption", {}, phrase(tag ? "with-tag" : "of-account", { account, branch, tag })), columns(),
    headRow(heads, ["amount", "running"]), el("tbody", {}, some.map(row)));
  const turn = () => {
    keep("oldest-first", !isOldFirst);
    fill("register-report", async () => registerTable(whole));
  };
  const line = await chart(rows);
  await rest();
  const [place, state, controls] = inSteps(isOldFirst ? rows : rows.toReversed(), 2.3, "postings-some", table);
  place.style.setProperty("--least", `calc(${ends.join(" + ")} + ${hasAccounts ? "56ch" : "38ch"})`);
  const sums = new Map();
  if (from) await slowly(rows, row => add(sums, readAmount(row[2])));
  return [
    from ? el("p", {}, text("moved-in", { from, to: through }), ": ", amounts(sums, zeroSymbol())) : null, hidden,
    line,
    el("div.wide", {}, place),
    state, controls,
    buttons(button(isOldFirst ? "newest-first" : "oldest-first", turn), printButton()),
  ];
}

const typedRegister = () => ({ account: valueOf("register-account"), tag: valueOf("register-tag"),
  from: valueOf("register-from") });

VIEWS.register = { group: "look", show: () => { register(); loadAccounts().catch(() => {}); }, hasBranch: true,
  hasDay: true, typed: typedRegister };
$("register-form").addEventListener("submit", event => {
  event.preventDefault();
  const wanted = link("register", { ...view, ...typedRegister() });
  if (location.hash === wanted) register();
  else location.hash = wanted;
});

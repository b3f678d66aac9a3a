// ---------- Which view is shown: it stands in the address, behind the # ----------

// The views, in the order of the menu: each with its group there, what it does when it is shown, and whether it is of
// one branch and through one day.
const VIEWS = {};
let view = { name: "", branch: "", day: today(), account: "", tag: "", id: "", from: "", to: "", of: "" };
const KEYS = ["branch", "day", "account", "tag", "id", "from", "to", "of"];
// (a day that is today's is left out, so that tomorrow the link leads to tomorrow)
function link(name, values) {
  const asked = { day: view.day, ...values };
  return `#${name}?` + new URLSearchParams(KEYS.filter(key => asked[key] && !(key === "day" && asked.day === today()))
    .map(key => [key, asked[key]]));
}
function readAddress() {
  const [name, query] = location.hash.slice(1).split(/\?(.*)/s), asked = new URLSearchParams(query ?? "");
  const names = branches.map(one => one.name), own = /^keeper:([^,]*)/.exec(me.role)?.[1];
  const branch = [asked.get("branch"), view.branch, own, kept("branch", ""), names[0]]
    .find(one => names.includes(one)) ?? "";
  const isDay = value => /^[0-9]{4}-[0-9]{2}-[0-9]{2}$/.test(value ?? "");
  const dayAt = (key, otherwise) => isDay(asked.get(key)) ? asked.get(key) : otherwise;
  return { name: Object.hasOwn(VIEWS, name) ? name : "overview", branch, day: dayAt("day", today()),
    account: asked.get("account") ?? "", tag: asked.get("tag") ?? "", id: asked.get("id") ?? "",
    from: dayAt("from", ""), to: dayAt("to", ""),
    of: ["all", "reverse"].find(one => one === asked.get("of")) ?? "" };
}
function changeView() {
  const before = view;
  view = readAddress();
  if (view.name !== before.name || (before.branch && view.branch !== before.branch)) hush();
  if (view.branch) keep("branch", view.branch);
  showBranches();
  showFrame();
  if (before.name && view.name !== before.name) $("main").focus({ preventScroll: true });
  show();
}
function showFrame() {
  const { name, branch, day } = view, { hasBranch, hasDay } = VIEWS[name];
  for (const one of Object.keys(VIEWS)) $("view-" + one).hidden = one !== name;
  $("heading").replaceChildren(...phrase(name + "-long", { branch }));
  document.title = [text(name), hasBranch && branch, text("title")].filter(Boolean).join(" – ");
  $("branch-field").hidden = !hasBranch;
  $("day-field").hidden = !hasDay;
  $("day").value = day;
  for (const one of all("#views a")) {
    one.href = link(one.dataset.view, { branch, day });
    if (one.dataset.view === name) one.setAttribute("aria-current", "page");
    else one.removeAttribute("aria-current");
  }
  openMenu(!location.hash);
}
// On a telephone the page begins with its menu.
function openMenu(isOpen) {
  $("side").classList.toggle("is-open", isOpen);
  $("menu").setAttribute("aria-expanded", String(isOpen));
}
function show() {
  const { hasBranch, show: showIt } = VIEWS[view.name];
  const isMissing = hasBranch && !view.branch;
  $("no-branch").hidden = !isMissing;
  $("view-" + view.name).hidden = isMissing;
  if (!isMissing) showIt();
}
// Loads the branches anew, and what is shown.
async function refresh() {
  setBusy(true);
  try {
    me = await askMe();
    showMenu();
    await loadFederation();
    hush();
    changeView();
  } catch (trouble) {
    if (!(trouble instanceof Trouble)) throw trouble;
    const { why, sentence } = trouble.reply;
    tell(panel("bad", el("p", {}, el("strong", {}, text("no-report")), " ", why ?? said(sentence)),
      buttons(button("try-again", refresh))));
  } finally {
    setBusy(false);
  }
}
function showTexts() {
  document.documentElement.lang = language;
  $("language-choice").value = language;
  for (const one of all("[data-text]")) one.textContent = text(one.dataset.text);
  for (const one of all("[data-label]")) one.setAttribute("aria-label", text(one.dataset.label));
  showMenu();
  hush();
  showPendings();
}
// Whoever may only read is offered nothing else, and a branch's treasurer nothing of the federation. That it is so is
// the server's business.
let me = { name: "", role: "" };
const mayEnter = branch => !/^(reader|keeper:)/.test(me.role) || me.role.slice("keeper:".length).split(",")
  .includes(branch);
function showMenu() {
  const links = group => Object.keys(VIEWS).filter(name => VIEWS[name].group === group).map(name =>
    el("li", {}, el("a", { "data-view": name, href: "#" + name }, text(name))));
  const all = ["look", "enter", "finish", "manage"], groups = all.slice(0, me.role === "reader" ? 1
    : me.role.startsWith("keeper:") ? 3 : 4);
  $("views").replaceChildren(...groups.map(group =>
    el("div", {}, el("h2", {}, text("group-" + group)), el("ul", {}, links(group)))));
  $("me").replaceChildren(...(me.name ? [shown(me.name)] : []));
}

// ---------- What happens when ----------

for (const [name, form] of Object.entries(FORMS)) {
  form.name = name;
  $(name + "-form").addEventListener("submit", once(() => attempt(form)));
  $(name + "-form").addEventListener("input", hush);
}
$("branch").addEventListener("change", event => {
  location.hash = link(view.name, { ...view, branch: event.target.value, account: "", tag: "", id: "" });
});
$("day").addEventListener("change", event => {
  if (!event.target.reportValidity()) return;
  location.hash = link(view.name, { ...view, ...VIEWS[view.name].typed?.(), day: event.target.value });
});
$("language-choice").addEventListener("change", event => {
  language = event.target.value;
  keep("language", language);
  showTexts();
  changeView();
});
$("skip").addEventListener("click", () => $("main").focus());
$("menu").addEventListener("click", () => openMenu(!$("side").classList.contains("is-open")));
addEventListener("hashchange", changeView);
addEventListener("storage", event => {
  if (event.key !== null && !event.key.startsWith(MINE + PENDING)) return;
  loadPendings();
  showPendings();
});
addEventListener("beforeunload", event => {
  if ([...pendings.values()].some(one => one.isBusy || one.isUnkept)) event.preventDefault();
});
addEventListener("resize", soon(() => redraw()));
addEventListener("beforeprint", () => {
  for (const one of all("[data-printed]")) {
    one.textContent = text("as-of", { what: one.dataset.printed, when: new Date().toLocaleString(language) });
  }
});
language = kept("language", navigator.language.toLowerCase().startsWith("de") ? "de" : "en") === "de" ? "de" : "en";
loadPendings();
showTexts();
refresh();

// ---------- What is said of a command ----------

function tell(what) {
  $("outcome").replaceChildren(what);
  what.scrollIntoView({ block: "nearest" });
  what.focus({ preventScroll: true });
}
const hush = () => $("outcome").replaceChildren();
// The notes beside an answer: new entries, one that would be made, and what may have been meant otherwise.
function remarks(notes, isShown) {
  // What a transfer does to its account is shown by its form.
  const made = notes.filter(line => /^ {2}(?:[0-9]{4}-| {4})/.test(line)).map(line => line.slice(2));
  const fresh = notes.map(line => /^new: journal:([0-9]+): (.*)$/su.exec(line)).filter(Boolean);
  const rest = notes.filter(line => line.startsWith("new: and ")).map(line => line.slice("new: ".length));
  const noted = notes.filter(line => line.startsWith("note: ")).map(line => line.slice("note: ".length));
  return [
    fresh.length && !isShown ? el("h3", {}, text("new-entries")) : null,
    fresh.length && !isShown ? el("ol.lines", { tabindex: "0", role: "list", "aria-label": text("new-entries") },
      fresh.map(([, line, header]) => el("li", {}, el("span.number", {}, line), shown(header))),
      rest.map(line => el("li", {}, el("span.number", {}), said(line)))) : null,
    made.length ? el("h3", {}, text("entry-made")) : null,
    made.length ? el("pre", { tabindex: "0" }, made.map(line => [shown(line), "\n"])) : null,
    noted.length ? el("h3", {}, text("notes")) : null,
    noted.length ? el("ul", {}, noted.map(line => el("li", {}, noteText(line)))) : null,
  ];
}
// A note begins with its place: a line of the journal, or the option that stands for a field.
function noteText(line) {
  const found = /^journal:([0-9]+): (.*)$/su.exec(line), option = /^--([a-z]+): (.*)$/su.exec(line);
  if (found && view.name !== "import") return said(found[2]);
  if (found) return [el("button.plain", { type: "button", click: () => goTo(Number(found[1])) },
    text("line", { line: found[1] })), ": ", said(found[2])];
  if (option && WORDS[option[1]]) return [text(WORDS[option[1]]), ": ", said(option[2])];
  return said(line);
}
function refusal(reply, request, end = "nothing-done", also = null) {
  const { number, name, sentence, line } = reply;
  // What stands below the sentence, but for the line itself, which is shown among its neighbours.
  const hints = reply.told.filter(one => /^ {2}(?! *[0-9]+ \|)/.test(one)).map(one => one.slice(2));
  const isMarked = line && request?.journal !== undefined;
  return panel(end === "maybe-done" ? "wait" : "bad",
    el("p", {}, el("strong", {}, phrase(line && view.name === "import" ? "refused-line" : "refused",
      { line, sentence: said(sentence) }))),
    isMarked ? excerpt(request.journal.replace(/\n$/, "").split("\n"), line) : null,
    hints.length ? el("ul", {}, hints.map(one => el("li", {}, said(one)))) : null, also,
    el("p.small", {}, text(end, { number, name })),
    isMarked && view.name === "import" ? buttons(el("button", { type: "button", click: () => goTo(line) },
      text("go-to-line", { line }))) : null);
}
// A line of a text, marked, among those beside it.
function excerpt(lines, marked) {
  const numbers = [-3, -2, -1, 0, 1, 2, 3].map(step => marked + step).filter(at => at >= 1 && at <= lines.length);
  return el("ol.lines", { tabindex: "0", role: "list", "aria-label": text("lines-label") }, numbers.map(at => {
    const line = lines[at - 1].replace(/\r$/, ""), cut = line.length > 300 ? line.slice(0, 300) + " …" : line;
    const label = at === marked && text("marked-line", { line: at });
    return el(at === marked ? "li.at" : "li", { "data-line": at },
      el("span.number", label ? { role: "img", "aria-label": label } : {}, String(at)), shown(cut));
  }));
}
function goTo(line) {
  if (view.name !== "import") location.hash = link("import", view);
  const area = $("import-text"), before = area.value.split("\n").slice(0, line - 1);
  const from = before.reduce((sum, one) => sum + one.length + 1, 0), end = area.value.indexOf("\n", from);
  area.focus();
  area.setSelectionRange(from, end < 0 ? area.value.length : end);
  area.scrollTop = Math.max(0, (line - 4) * parseFloat(getComputedStyle(area).lineHeight));
  area.scrollIntoView({ block: "center" });
}

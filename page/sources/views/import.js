// ---------- Import ----------

// The text of a file as it is, as long as nobody edits it: the field would make one line end of each CR.
let fileText = null;
const importText = () => fileText ?? $("import-text").value;
function showFacts() {
  const given = importText(), size = new TextEncoder().encode(given).length.toLocaleString(locale());
  $("import-facts").textContent = given ? `${lineCount(given)}, ${size} B` : text("choose-text");
}
async function readFile(file, encoding) {
  const bytes = await file.arrayBuffer();
  hush();
  try {
    const read = new TextDecoder(encoding, { fatal: true, ignoreBOM: true }).decode(bytes);
    const hasMark = read.startsWith("\ufeff");
    fileText = hasMark ? read.slice(1) : read;
    if (hasMark) tell(panel("wait", el("p", {}, text("has-bom"))));
  } catch {
    fileText = null;
    const readLatin = () => readFile(file, "windows-1252");
    tell(panel("bad", el("p", {}, text("not-utf8")), buttons(button("read-latin", readLatin))));
  }
  $("import-text").value = fileText ?? "";
  showFacts();
}
// The new entries of an import with all their postings, as they are read, and what they do to the balances. What is not
// understood here is shown as it is typed, and then no balances are told.
async function importPreview({ branch, journal }, { notes }) {
  const lines = journal.split("\n"), fresh = notes.filter(line => line.startsWith("new: "));
  const starts = fresh.map(line => /^new: journal:([0-9]+): /.exec(line)?.[1]).filter(Boolean).map(Number);
  if (!starts.length) return null;
  const entries = starts.map(start => entryAt(lines, start)), isWhole = entries.every(Boolean);
  const texts = entries.map((entry, at) => entry ? spelledOut(entry) : typedAt(lines, starts[at]));
  const last = isWhole && entries.reduce((most, { day }) => day > most ? day : most, "");
  return [el("h3", {}, text("new-entries")), el("pre", { tabindex: "0" }, shown(texts.join("\n\n"))),
    fresh.slice(starts.length).map(line => el("p.small", {}, said(line.slice("new: ".length)))),
    isWhole && fresh.length === starts.length ? await effects(branch, last, entries.flatMap(legsOf))
      : el("p.small", {}, text("no-effects"))];
}
function typedAt(lines, start) {
  const end = lines.findIndex((line, at) => at >= start && !/^[ \t]+\S/.test(line));
  return lines.slice(start - 1, end < 0 ? lines.length : end).join("\n").replaceAll("\r", "");
}

VIEWS.import = { group: "enter", show: showFacts, hasBranch: true };
FORMS.import = {
  request: () => ({ do: "import", branch: view.branch, journal: importText() }),
  preview: importPreview,
};
$("import-file").addEventListener("change", event => {
  if (event.target.files[0]) readFile(event.target.files[0], "utf-8");
});
$("import-text").addEventListener("input", () => { fileText = null; soon(showFacts)(); });

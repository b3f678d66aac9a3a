// ---------- Receive ----------

const isPart = () => document.querySelector("input[name=receive-how]:checked").value === "part";
function showPart() {
  $("receive-part").hidden = !isPart();
  $("receive-amount").required = $("receive-key").required = isPart();
  $("receive-key").value ||= "p-" + randomText(8);
}
// The choice among open transfers follows the reference, and the other way round.
function showChoice() {
  for (const one of all("[name=receive-which]")) one.checked = one.value === valueOf("receive-id");
}
function chooseTransfer([sent, , left, , , id]) {
  $("receive-id").value = id;
  $("receive-amount").value = left;
  if ($("receive-day").value < sent) $("receive-day").value = sent;
}
function showReceive() {
  const { branch } = view;
  propose("receive-day", today());
  showPart();
  loadAccounts().catch(() => {});
  fill("receive-report", async () => {
    const open = await report("/transfers/" + FOREVER).catch(orDenied(null));
    if (!open) return [el("p", {}, text("no-list"))];
    const rows = open.filter(([, , , , to]) => to === branch), isFree = !valueOf("receive-id") && rows.length === 1;
    const asked = rows.find(row => row[5] === view.id) ?? (isFree ? rows[0] : null);
    if (asked) chooseTransfer(asked);
    if (!rows.length) return [el("p", {}, phrase("nothing-for", { branch }))];
    const choice = row => el("label", {}, el("input", { type: "radio", name: "receive-which", form: "receive-form",
      value: row[5], checked: row[5] === valueOf("receive-id"), change: () => { hush(); chooseTransfer(row); },
      "aria-label": text("receive-this", { id: row[5], branch: row[3] }) }), text("pick"));
    return [transferTable(rows, today(), phrase("open-for", { branch }), choice)];
  });
}
async function receivePreview(request) {
  const row = (await report("/transfers/" + FOREVER).catch(orDenied([]))).find(one => one[5] === request.id);
  if (!row) return null;
  const [, , left, from, to] = row, { part, amount = left } = request;
  return [part ? null : facts([[text("amount"), left]]),
    await transferPreview(to, { ...request, from, to, amount }, 1n)];
}

VIEWS.receive = { group: "enter", show: showReceive, hasBranch: true };
FORMS.receive = {
  request: () => ({ do: "receive", id: valueOf("receive-id"), branch: view.branch, day: valueOf("receive-day"),
    account: valueOf("receive-account").trim(),
    ...(isPart() && { part: valueOf("receive-key"), amount: printed(typedAmount("receive-amount")) }) }),
  preview: receivePreview,
  settled: request => {
    if (request.do !== "receive" || valueOf("receive-id") !== request.id) return;
    clear("receive-id", "receive-amount", "receive-key");
    document.querySelector("input[value=whole]").checked = true;
  },
};
for (const one of all("input[name=receive-how]")) one.addEventListener("change", showPart);
$("receive-id").addEventListener("input", showChoice);

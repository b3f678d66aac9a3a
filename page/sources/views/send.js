// ---------- Send ----------

function showSend() {
  propose("send-day", today());
  $("send-id").value ||= `${today().replaceAll("-", "")}-${randomText(8)}`;
  loadAccounts().catch(() => {});
}

VIEWS.send = { group: "enter", show: showSend, hasBranch: true };
FORMS.send = {
  request: () => ({ do: "dispatch", id: valueOf("send-id"), from: view.branch, to: valueOf("send-to"),
    day: valueOf("send-day"), amount: printed(typedAmount("send-amount")), account: valueOf("send-account").trim() }),
  preview: request => transferPreview(request.from, request, -1n),
  settled: request => {
    if (request.do === "dispatch" && valueOf("send-id") === request.id) clear("send-amount", "send-id");
  },
};

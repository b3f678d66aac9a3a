// ---------- Lock ----------

function showLock() {
  propose("lock-day", lastYearEnd());
  const found = branches.find(one => one.name === view.branch);
  $("lock-now").textContent = found ? text("lock-now", { state: lockState(found) }) : "";
}

VIEWS.lock = { group: "finish", show: showLock, hasBranch: true };
FORMS.lock = { request: () => ({ do: "lock", branch: view.branch, day: valueOf("lock-day") }) };

// ---------- Set up ----------

function showSetup() {
  fill("setup-report", async () => {
    await loadFederation();
    return [facts([[text("branches"), branches.map(one => one.name).join(", ") || "–"],
      [text("commodities"), samples.join(", ") || "–"]])];
  });
}

VIEWS.setup = { group: "manage", show: showSetup };
FORMS.branch = {
  request: () => ({ do: "branch", name: valueOf("branch-name") }),
  settled: request => {
    if (request.do === "branch" && valueOf("branch-name") === request.name) clear("branch-name");
  },
};
FORMS.commodity = {
  request: () => ({ do: "commodity", sample: valueOf("commodity-sample") }),
  settled: request => {
    if (request.do === "commodity" && valueOf("commodity-sample") === request.sample) clear("commodity-sample");
  },
};
